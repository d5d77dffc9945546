"""At the command line: the queries of a log asked again (`replay`)."""

from __future__ import annotations

import argparse
from typing import Any

import tussockbell as tb
from tussockbell import _output
from tussockbell._files import read


_REPLAYED = """\
Prints a line for each record, tab-parted: its number, from 0, and `bad`, or `same` or `differs` with found and looked as
logged and as they are now. Exit status: 1 also where a line differs or is bad.

With --json each line is an object: line and answer, and unless it is bad the lists logged and now, of two numbers each."""


def add_command(commands: Any, described: argparse.ArgumentParser, answering: argparse.ArgumentParser) -> None:
    asked_again = "ask the queries of a log again, and compare"
    command = commands.add_parser("replay", parents=[described, answering], help=asked_again, epilog=_REPLAYED)
    command.add_argument("--quiet", action="store_true", help="print only the lines that differ or are bad")
    command.add_argument("footer", metavar="FOOTER", help="the footer's bytes")
    command.add_argument("tree", metavar="TREE", help="the R-tree body's bytes")
    command.add_argument("log", metavar="LOG", help="a record a line: the window's ends, found and looked, tab-parted")
    command.set_defaults(run=run_command)


def _in_json(line: str) -> str:
    number, answer, *rest = line.split()
    pairs = {"logged": [int(one) for one in rest[:2]], "now": [int(one) for one in rest[2:]]} if rest else {}
    return _output.as_json({"line": int(number), "answer": answer, **pairs})


def run_command(asked: argparse.Namespace, description: tb.Description) -> int:
    """Prints the text of a replay, and tells the exit status."""
    footer, tree, log = (read(path) for path in (asked.footer, asked.tree, asked.log))
    lines = tb.open_tree(description, asked.file_size, footer, tree).replay(log).decode("ascii").splitlines(keepends=True)
    others = [line for line in lines if line.split("\t")[1] != "same"]
    printed = others if asked.quiet else lines
    _output.write("".join(map(_in_json, printed) if asked.json else printed))
    return int(bool(others))
