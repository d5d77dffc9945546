"""At the command line: the tiles that windows touch (`query`), and what to read for them (`plan`)."""

from __future__ import annotations

import argparse
import itertools
from collections.abc import Sequence
from typing import Any, Union

import tussockbell as tb
from tussockbell import _output, _words
from tussockbell._files import read

_QUERY = """\
Prints one line, tab-parted: how many tiles the fragment has, how many the window touches and how many boxes were looked
at; then tile, offset, extent and cells of each tile that it touches. With --windows each window has such lines, the
first of which begins with `window` and its number, counted from 0. All are asked in one batch; one that is refused has
a line `window`, its number, `refused`, number and place, and a line on standard error, and gives exit status 1.

With --json each window is an object in one line: tiles, found and looked, and tile, offset, extent and cells as lists;
with --windows also window, and for a refused one window and refused, which has number, place, which and text."""

_PLAN = """\
Prints one line, tab-parted: how many tiles the fragment has, how many of them are read, in how many ranges, of how many
bytes; then offset and length of each range of the data file. Every tile that a window touches is read, once, however
many windows touch it. With --windows there is one plan for all; where one of them is refused there is none, and each
that is has a line on standard error.

With --json it is an object in one line: tiles, read, ranges and bytes, and offset and length as lists."""


def add_commands(commands: Any, described: argparse.ArgumentParser, answering: argparse.ArgumentParser) -> None:
    listing = "list the tiles that a window touches, with offset, extent and cells of each"
    query = commands.add_parser("query", parents=[described, answering], help=listing, epilog=_QUERY)
    ranges = "list the ranges of the data file to read for the tiles that windows touch"
    plan = commands.add_parser("plan", parents=[described, answering], help=ranges, epilog=_PLAN)
    for command in (query, plan):
        _words.add_window(command, many=True)
        command.add_argument("--data-size", required=True, type=int, metavar="S", help="bytes of the data file")
        command.add_argument("--var", action="store_true", help="OFFSETS are var offsets, where a tile may have no bytes")
        command.add_argument("footer", metavar="FOOTER", help="the footer's bytes")
        command.add_argument("tree", metavar="TREE", help="the R-tree body's bytes")
        command.add_argument("offsets", metavar="OFFSETS", help="the bytes of the list of tile offsets")
    help_gap = "bytes between two tiles that are read along with them, at most (0)"
    plan.add_argument("--gap", default=0, type=int, metavar="G", help=help_gap)
    query.set_defaults(run=run_query)
    plan.set_defaults(run=run_plan)


class _Asked:
    """A fragment that was opened, and what its windows find. One window alone raises its refusal."""

    def __init__(self, asked: argparse.Namespace, description: tb.Description) -> None:
        windows = [asked.window] if asked.windows is None else _words.windows(asked.windows)
        footer, tree, offsets = read(asked.footer), read(asked.tree), read(asked.offsets)
        self.tree = tb.open_tree(description, asked.file_size, footer, tree)
        check = tb.var_tile_offsets if asked.var else tb.tile_offsets
        self.offsets = check(self.tree.tiles, asked.data_size, offsets)
        self.footer = tb.read_footer(description, asked.file_size, footer)
        self.many, self.in_json = asked.windows is not None, asked.json
        given = [_words.closed(window, description.kinds) for window in windows]
        self.hits: list[Union[tb.Hit, tb.Refused]] = list(self.tree.query_batch(given)) if self.many else [self.tree.query(given[0])]

    def tiles(self) -> Sequence[int]:
        """The tiles that all windows touch, window after window."""
        found = [hit.tiles for hit in self.hits if isinstance(hit, tb.Hit)]
        return found[0] if len(found) == 1 else list(itertools.chain.from_iterable(found))

    def say_refused(self) -> bool:
        """Tells each window that was refused, and whether there is one."""
        refused = [(at, hit) for at, hit in enumerate(self.hits) if isinstance(hit, tb.Refused)]
        for at, hit in refused:
            _output.say_refused(hit, self.in_json, window=at)
        return bool(refused)


def _list_refused(asked: _Asked, at: int, refused: tb.Refused) -> None:
    if asked.in_json:
        _output.write(_output.as_json({"window": at, "refused": _output.refusal(refused)}))
    else:
        _output.write(f"window\t{at}\trefused\t{refused.number}\tplace\t{refused.place}\n")


def run_query(asked: argparse.Namespace, description: tb.Description) -> int:
    answered = _Asked(asked, description)
    tiles = answered.tiles()
    extents, cells = answered.offsets.extents(tiles).numbers, answered.footer.cells(tiles)
    offsets, lengths, start = extents[::2], extents[1::2], 0
    for at, hit in enumerate(answered.hits):
        if isinstance(hit, tb.Refused):
            _list_refused(answered, at, hit)
            continue
        head = {"tiles": answered.tree.tiles, "found": hit.found, "looked": hit.looked}
        listed = slice(start, start + len(hit.tiles))
        columns = {"tile": hit.tiles, "offset": offsets[listed], "extent": lengths[listed], "cells": cells[listed]}
        _output.table({"window": at, **head} if answered.many else head, columns, answered.in_json)
        start = listed.stop
    return int(answered.say_refused())


def run_plan(asked: argparse.Namespace, description: tb.Description) -> int:
    answered = _Asked(asked, description)
    if answered.say_refused():
        return 1
    plan = answered.offsets.plan(answered.tiles(), asked.gap)
    if plan.outside:
        raise ValueError(f"{plan.outside} of the tiles that were found have no offsets")
    head = {"tiles": answered.tree.tiles, "read": plan.tiles, "ranges": len(plan.ranges), "bytes": plan.bytes}
    numbers = plan.ranges.numbers
    _output.table(head, {"offset": numbers[::2], "length": numbers[1::2]}, answered.in_json)
    return 0
