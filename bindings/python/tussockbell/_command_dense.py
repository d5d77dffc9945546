"""At the command line: the tiles of a dense array's grid (`dense`)."""

from __future__ import annotations

import argparse
from collections.abc import Iterable
from typing import Any

import tussockbell as tb
from tussockbell import _output, _words


# As `tb.DenseGrid` takes them.
_ORDERS = ("row-major", "column-major")

_LISTED = """\
Prints one line, tab-parted: how many tiles the grid has and how many the window touches; then the number of each of
these, one a line. With --json it is an object in one line: tiles and found, and the list tile."""


def options(given: _words.Parser) -> _words.Parser:
    """Adds what says which grid it is, and the window. N and C are checked, but decide nothing of a grid, so that they
    may be left off."""
    given.add_argument("--kinds", required=True, help="a kind for each dimension, as int32,uint64")
    given.add_argument("--fields", default=1, type=int, metavar="N", help="entries in each per-field list (1)")
    given.add_argument("--capacity", default=1, type=int, metavar="C", help="cells of a full tile (1)")
    sides, cells = "minimum and maximum of each dimension, both inside", "cells of a tile along each dimension"
    given.add_argument("--domain", required=True, type=_words.domain, metavar="LOW:HIGH,..", help=sides)
    extents = _words.numbers("an extent for each dimension, as 10,25")
    given.add_argument("--extents", required=True, type=extents, metavar="E,..", help=cells)
    orders = "how tiles are numbered: the last dimension is the fastest (row-major, if nothing is said), or the first"
    given.add_argument("--order", choices=_ORDERS, default="row-major", help=orders)
    _words.add_window(given, many=False)
    return given


# A picture is of a grid where one of these is given.
_OF_GRID = ("--domain", "--extents", "--order")


def is_grid(words: Iterable[str]) -> bool:
    return any(word.split("=")[0] in _OF_GRID for word in words)


def add_command(commands: Any, given: argparse.ArgumentParser, answering: argparse.ArgumentParser) -> None:
    listing = "list the tiles of a dense array's grid that a window touches"
    command = commands.add_parser("dense", parents=[given, answering], help=listing, epilog=_LISTED)
    command.set_defaults(run=run)


def grid_of(asked: argparse.Namespace, description: tb.Description) -> tb.DenseGrid:
    return tb.DenseGrid(description, asked.domain, asked.extents, asked.order)


def run(asked: argparse.Namespace, description: tb.Description) -> int:
    """Prints how many tiles there are and are found, and then the number of each that is."""
    grid = grid_of(asked, description)
    hit = grid.query(_words.closed(asked.window, description.kinds))
    _output.table({"tiles": grid.tiles, "found": hit.found}, {"tile": hit.tiles}, asked.json)
    return 0
