"""At the command line: the committed folders of a listing (`committed`)."""

from __future__ import annotations

import argparse
from typing import Any

import tussockbell as tb
from tussockbell import _output
from tussockbell._files import read


def add_command(commands: Any, answering: argparse.ArgumentParser) -> None:
    help_json = "With --json it is an object in one line: found, and the lists line, counted from 0, and name."
    asked = commands.add_parser("committed", parents=[answering], help="list the committed folders of a listing", epilog=help_json)
    help_time = "the reading time: folders whose t2 is above it are left out"
    asked.add_argument("--time", required=True, type=int, metavar="T", help=help_time)
    asked.add_argument("listing", metavar="LISTING", help="a file of records, one a line: kind, tab, name")


def run(asked: argparse.Namespace) -> int:
    """Prints the names of the folders, one a line."""
    answer = tb.committed(read(asked.listing), asked.time)
    if asked.json:
        _output.write(_output.as_json({"found": answer.found, "line": answer.lines, "name": answer.names}))
    else:
        _output.write("".join(name + "\n" for name in answer.names))
    return 0
