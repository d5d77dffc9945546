"""Footers and trees from before float32 was retired, converted to float64."""

from __future__ import annotations

from typing import NamedTuple, SupportsIndex

from tussockbell import _functions as c
from tussockbell import _reasons
from tussockbell._description import Description
from tussockbell._footer import footer_tiles
from tussockbell._kinds import FLOAT32, FLOAT64, WIDTHS
from tussockbell._lending import LARGEST, Bytes, Lent, Room, file_size_of, lend, lend_room, lent, overlap
from tussockbell._refused import NUMBER, refused
from tussockbell._tree import OF

# ---- the names of include/tussockbell.h, without their TUSSOCKBELL

_CONVERT_WHICH, _CONVERT_LENGTH, _CONVERT_PLACES = 2, 3, 4

# What a footer grows by for each float32 dimension.
_ADDED = 2 * (WIDTHS[FLOAT64] - WIDTHS[FLOAT32])

_c_convert = c.function("convert", [*c.footer, *c.run, *c.run, c.pointer])
_c_convert_footer = c.function("convert_footer", [*c.footer, *c.run, c.pointer])
_ConvertAnswer = c.u64 * _CONVERT_PLACES


class ConvertedFooter(NamedTuple):
    """What `convert_footer` answers: `footer` are the new footer's bytes, and `file_size` is that of a metadata file that they go with."""

    footer: bytes
    file_size: int


def _convert(description: Description, size: int, footer: Lent, tree: Lent, out: Lent) -> int:
    """Writes the new tree, and tells its length."""
    answer = _ConvertAnswer()
    _c_convert(*description._given, size, *footer, *tree, *out, answer)
    if answer[NUMBER] and answer[_CONVERT_WHICH]:
        raise refused(answer, _reasons.of_tree(description, answer, footer_tiles(description, size, footer), tree), 1, OF)
    if answer[NUMBER]:
        raise refused(answer, _reasons.of_footer(description, answer, size, footer), 0, OF)
    return answer[_CONVERT_LENGTH]


def convert_tree(description: Description, file_size: SupportsIndex, footer: Bytes, tree: Bytes) -> bytes:
    """The tree of a fragment from before float32 was retired, with its float32 ranges as float64.

    Description, footer and tree are the old ones, and are accepted and refused as `open_tree` did then. What is written
    is the same tree: fanout, levels and counts, each box side by side, other kinds byte by byte; without a float32
    dimension it is a copy. `description.widened()` goes with it, and the footer that `convert_footer` writes. A query
    finds the same tiles and looks at as many boxes once its window is widened too, by `description.widen(window)`.
    """
    with lend(footer) as first, lend(tree) as second:
        # No box becomes more than twice as long, and what is not written to costs nothing.
        with memoryview(bytearray(2 * second.nbytes)) as room:
            length = _convert(description, file_size_of(file_size), lent(first), lent(second), lent(room))
            return bytes(room[:length])


def convert_tree_into(description: Description, file_size: SupportsIndex, footer: Bytes, tree: Bytes, out: Room) -> int:
    """Writes what `convert_tree` answers to the start of a buffer that is lent, and returns its length. Bytes past it stay as they are.

    Where it is refused the buffer stays as it is; 26 says that all else is well and the buffer is too short. It must be one that
    can be written to, with its bytes one after the other, and must overlap neither the footer nor the tree.
    """
    with lend_room(out) as room, lend(footer) as first, lend(tree) as second:
        if any(overlap(lent(view), lent(room)) for view in (first, second)):
            raise ValueError("the buffer to write to overlaps the footer or the tree")
        return _convert(description, file_size_of(file_size), lent(first), lent(second), lent(room))


def convert_footer(description: Description, file_size: SupportsIndex, footer: Bytes) -> ConvertedFooter:
    """The footer of a fragment from before float32 was retired, with the float32 ranges of its domain as float64.

    It is refused as `read_footer` did then. The new footer is longer, and its length field says so; every other byte is
    as it was. It is accepted under `description.widened()` with the file size that is told beside it, which is as many
    bytes larger; with the old size it may be refused. Where that size is past 2^64 - 1 there is none: a ValueError.
    """
    size, longer = file_size_of(file_size), _ADDED * description._given[0].count(FLOAT32)
    answer = _ConvertAnswer()
    with lend(footer) as view:
        out = bytearray(view.nbytes + longer)
        with memoryview(out) as room:
            _c_convert_footer(*description._given, size, *lent(view), *lent(room), answer)
        if answer[NUMBER]:
            raise refused(answer, _reasons.of_footer(description, answer, size, lent(view)))
    if size + longer > LARGEST:
        raise ValueError(f"the new footer has {longer} bytes more, and with them a file of {size} bytes is past 2^64 - 1")
    return ConvertedFooter(bytes(out[: answer[_CONVERT_LENGTH]]), size + longer)
