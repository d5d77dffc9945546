"""At the command line: what a footer and a tree have in them (`info`), and whether each part of a fragment is accepted (`check`)."""

from __future__ import annotations

import argparse
import dataclasses
import functools
from collections.abc import Callable, Iterator
from typing import Any, Optional, Union

import tussockbell as tb
from tussockbell import _output
from tussockbell._files import read

_INFO = """\
Prints the footer's numbers, a name and its numbers a line, tab-parted: the schema's name with bytes that are no printed
ASCII as \\xNN; a line `dimension` for each, with its kind and the ends of its domain; lists with an entry for each field.
With TREE the tree is opened, and fanout, levels and the boxes of each level, the root's first, follow.

With --json it is one object in one line, with the same names; domain is a list of pairs."""

_CHECK = """\
Prints a line for each part that is given, tab-parted: its name and `accepted`, or `refused` with number, place, which
(1 where the place counts in the second of two parts: in the tree, not the footer; in the maxes, not the mins) and words.
Where the footer is refused, which tells how many tiles there are, the others are `unchecked`. With --mins and --maxes
both, `ranges` says whether no min is above its max. Exit status: 1 where one is refused; this is the answer, so that
nothing is said on standard error.

With --json each part is an object in one line: part and answer, and number, place, which and text where it is refused."""


def add_commands(commands: Any, described: argparse.ArgumentParser, answering: argparse.ArgumentParser) -> None:
    parents = [described, answering]
    info = commands.add_parser("info", parents=parents, help="print the numbers of a footer, and a tree's shape", epilog=_INFO)
    check = commands.add_parser("check", parents=parents, help="say which parts of a fragment are accepted", epilog=_CHECK)
    for command in (info, check):
        command.add_argument("--dense", action="store_true", help="the footer is a dense fragment's, which has no tree")
        command.add_argument("footer", metavar="FOOTER", help="the footer's bytes")
        command.add_argument("tree", metavar="TREE", nargs="?", help="the R-tree body's bytes")
    check.add_argument("--field", default=0, type=int, metavar="I", help="the field whose lists these are, counted from 0 (0)")
    for name, what in _LISTS.items():
        check.add_argument("--" + name, metavar="FILE", help=f"the bytes of {what}")
    check.add_argument("--data-size", type=int, metavar="S", help="bytes of the data file (what the footer says)")
    check.add_argument("--var-size", type=int, metavar="S", help="bytes of the var data file (what the footer says)")
    check.add_argument("--kind", help="the field's kind, for --mins and --maxes: int32, .. float32, .. or var")
    info.set_defaults(run=run_info)
    check.set_defaults(run=run_check)


# ---- info


def _printed(name: bytes) -> str:
    """A name in printed ASCII: each other byte, and the backslash, as an escape."""
    return "".join(chr(byte) if 32 <= byte < 127 and byte != 92 else "\\\\" if byte == 92 else f"\\x{byte:02x}" for byte in name)


def _boxes(tiles: int, fanout: int) -> list[int]:
    """The boxes of each level of an accepted tree, the root's first."""
    counts = [tiles]
    while counts[0] > 1:
        counts.insert(0, -(-counts[0] // fanout))
    return counts


def _told(asked: argparse.Namespace, description: tb.Description) -> dict[str, Any]:
    """What is told of a footer and a tree, by name."""
    if asked.dense and asked.tree is not None:
        raise ValueError("a dense fragment has no tree: TREE and --dense can't stand together")
    footer = read(asked.footer)
    numbers: Union[tb.Footer, tb.DenseFooter]
    if asked.dense:
        numbers = tb.read_dense_footer(description, asked.file_size, footer)
    else:
        numbers = tb.read_footer(description, asked.file_size, footer)
    told = {field.name: getattr(numbers, field.name) for field in dataclasses.fields(numbers) if not field.name.startswith("_")}
    told["schema_name"] = _printed(numbers.schema_name)
    if asked.tree is not None:
        tree = tb.open_tree(description, asked.file_size, footer, read(asked.tree))
        told.update(fanout=tree.fanout, levels=tree.levels, boxes=_boxes(tree.tiles, tree.fanout))
    return told


def _lines(told: dict[str, Any], kinds: list[Any]) -> Iterator[str]:
    for name, value in told.items():
        if name == "domain":
            yield from (f"dimension\t{at}\t{kinds[at]}\t{low!r}\t{high!r}\n" for at, (low, high) in enumerate(value))
        else:
            yield "\t".join(map(str, [name, *(value if isinstance(value, (list, tuple)) else [value])])) + "\n"


def run_info(asked: argparse.Namespace, description: tb.Description) -> int:
    told, kinds = _told(asked, description), list(description.kinds)
    _output.write(_output.as_json({"kinds": kinds, **told}) if asked.json else "".join(_lines(told, kinds)))
    return 0


# ---- check

# The lists of a field, and what their options say.
_LISTS = {
    "offsets": "the list of tile offsets", "var-offsets": "the list of var offsets", "sizes": "the list of tile sizes",
    "mins": "the mins of the tiles", "maxes": "the maxes of the tiles", "sums": "the sums of the tiles",
    "null-counts": "the null counts of the tiles",
}


def _given(asked: argparse.Namespace) -> dict[str, Any]:
    """The bytes of each part that is given, by its name."""
    paths = {"footer": asked.footer, "tree": asked.tree, **{name: getattr(asked, name.replace("-", "_")) for name in _LISTS}}
    data = {name: read(path) for name, path in paths.items() if path is not None}
    if asked.dense and len(data) > 1:
        raise ValueError("a dense fragment's footer is checked alone: it tells no number of tiles")
    if asked.kind is None and ("mins" in data or "maxes" in data):
        raise ValueError("--mins and --maxes need --kind")
    return data


def _checks(asked: argparse.Namespace, description: tb.Description, data: dict[str, Any]) -> dict[str, Callable[[tb.Footer], object]]:
    """What is checked beside the footer, in this order, each by what takes the footer's numbers and raises the refusal."""
    size, field, kind = asked.file_size, asked.field, asked.kind
    checks: dict[str, Callable[[tb.Footer], object]] = {
        "tree": lambda _: tb.open_tree(description, size, data["footer"], data["tree"]),
        "offsets": lambda of: tb.tile_offsets(of.tiles, _size(asked.data_size, of.file_sizes, field), data["offsets"]),
        "var-offsets": lambda of: tb.var_tile_offsets(of.tiles, _size(asked.var_size, of.file_var_sizes, field), data["var-offsets"]),
        "sizes": lambda of: tb.tile_sizes(of.tiles, data["sizes"]),
        "mins": lambda of: tb.tile_values(kind, of.tiles, data["mins"]),
        "maxes": lambda of: tb.tile_values(kind, of.tiles, data["maxes"]),
        "ranges": lambda of: tb.tile_ranges(kind, of.tiles, data["mins"], data["maxes"]),
        "sums": lambda of: tb.tile_sums(of.tiles, data["sums"]),
        "null-counts": lambda _: tb.null_counts(description, size, data["footer"], data["null-counts"]),
    }
    return {name: check for name, check in checks.items() if {"ranges": {"mins", "maxes"}}.get(name, {name}) <= data.keys()}


def _size(given: Optional[int], sizes: tuple[int, ...], field: int) -> int:
    """The bytes of a field's file: what is given, or else what the footer says."""
    if not 0 <= field < len(sizes):
        raise ValueError(f"--field takes 0 to {len(sizes) - 1}")
    return sizes[field] if given is None else given


def _verdict(ask: Callable[[], object]) -> Optional[tb.Refused]:
    try:
        ask()
    except tb.Refused as refused:
        return refused
    return None


def _line(part: str, answer: str, refused: Optional[tb.Refused], in_json: bool) -> str:
    why = {} if refused is None else _output.refusal(refused)
    if in_json:
        return _output.as_json({"part": part, "answer": answer, **why})
    return "\t".join(map(str, [part, answer, *why.values()])) + "\n"


def run_check(asked: argparse.Namespace, description: tb.Description) -> int:
    data = _given(asked)
    checks, numbers = _checks(asked, description, data), None
    refusals: dict[str, Optional[tb.Refused]] = {"footer": None}
    try:
        if asked.dense:
            tb.read_dense_footer(description, asked.file_size, data["footer"])
        else:
            numbers = tb.read_footer(description, asked.file_size, data["footer"])
    except tb.Refused as refused:
        refusals["footer"] = refused
    if numbers is not None:
        refusals.update({part: _verdict(functools.partial(check, numbers)) for part, check in checks.items()})
    for part, refusal in refusals.items():
        _output.write(_line(part, "accepted" if refusal is None else "refused", refusal, asked.json))
    for part in [part for part in checks if part not in refusals]:
        _output.write(_line(part, "unchecked", None, asked.json))
    return int(any(refusals.values()))
