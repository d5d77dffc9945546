"""At the command line: an old footer and tree with float64 for float32, as files that are there whole or not at all (`convert`)."""

from __future__ import annotations

import argparse
import os
import stat
from contextlib import ExitStack, suppress
from typing import Any

import tussockbell as tb
from tussockbell import _output
from tussockbell._files import read


_CONVERT = """\
The description is the old one. Prints the new kinds, and the file size that goes with the new footer; with --json as an
object in one line, kinds and file_size."""


def add_command(commands: Any, described: argparse.ArgumentParser, answering: argparse.ArgumentParser) -> None:
    command = commands.add_parser(
        "convert", parents=[described, answering], help="write an old footer and tree with float64 for float32", epilog=_CONVERT,
    )
    command.set_defaults(run=run_command)
    command.add_argument("--out-footer", required=True, metavar="FILE", help="where the new footer goes")
    command.add_argument("--out-tree", required=True, metavar="FILE", help="where the new tree goes")
    command.add_argument("footer", metavar="FOOTER", help="the old footer's bytes")
    command.add_argument("tree", metavar="TREE", help="the old R-tree body's bytes")


def _beside(path: str) -> str:
    """The name under which a file is written before it has its own."""
    return f"{path}.{os.getpid()}.part"


def _write_files(files: list[tuple[str, bytes]]) -> None:
    """Writes files that are there whole or not at all: each under another name, and once all are written, renamed.

    A name that stands for something else than a file, such as a device, is a ValueError: renaming would put a file in its place.
    """
    real = {os.path.realpath(path): data for path, data in files}
    if len(real) != len(files):
        raise ValueError("two outputs have one name")
    for path in real:
        if os.path.exists(path) and not stat.S_ISREG(os.stat(path).st_mode):
            raise ValueError(f"{path}: there, and no regular file")
    with ExitStack() as stack:
        for path, data in real.items():
            try:
                with open(_beside(path), "xb") as file:
                    stack.callback(_remove, file.name)
                    file.write(data)
                    file.flush()
                    os.fsync(file.fileno())
            except OSError as error:
                raise ValueError(f"{path}: {error.strerror}") from None
        for path in real:
            os.replace(_beside(path), path)


def _remove(path: str) -> None:
    with suppress(FileNotFoundError):
        os.remove(path)


def run_command(asked: argparse.Namespace, description: tb.Description) -> int:
    footer, tree = read(asked.footer), read(asked.tree)
    made = tb.convert_footer(description, asked.file_size, footer)
    new_tree = tb.convert_tree(description, asked.file_size, footer, tree)
    _write_files([(asked.out_footer, made.footer), (asked.out_tree, new_tree)])
    kinds = list(map(str, description.widened().kinds))
    if asked.json:
        _output.write(_output.as_json({"kinds": kinds, "file_size": made.file_size}))
    else:
        _output.write(f"kinds\t{','.join(kinds)}\tfile-size\t{made.file_size}\n")
    return 0
