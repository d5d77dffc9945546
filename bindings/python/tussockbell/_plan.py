"""The read plan: which bytes of a data file are read for a run of tiles; and extents and cells of many tiles in one call."""

from __future__ import annotations

import operator
import struct
from array import array
from collections.abc import Iterable, Sequence
from typing import Any, NamedTuple, Optional, SupportsIndex, Tuple

from tussockbell import _functions as c
from tussockbell._boxes import item_ends, look_at_mask
from tussockbell._lending import LARGEST, ONE_NUMBER, has_buffer, lent, one_after_the_other, view_of
from tussockbell._records import Records
from tussockbell._refused import NUMBER, refused

# ---- the names of include/tussockbell.h, without their TUSSOCKBELL

_PLAN_RANGES, _PLAN_TILES, _PLAN_OUTSIDE, _PLAN_BYTES, _PLAN_PLACES = 2, 3, 4, 5, 6

_c_read_plan_at = c.function("read_plan_at", [*c.offsets, c.u64, *c.run, *c.run, *c.run, c.pointer])
_c_run_extents_at = c.function("run_extents_at", [*c.offsets, *c.run, *c.run])
_c_run_cells_at = c.function("run_cells_at", [c.u64, c.u64, c.u64, *c.run, *c.run])
_PlanAnswer = c.u64 * _PLAN_PLACES

# Tile numbers are lent as the library takes them or are one of these, and then converted.
_LENT, _CONVERTED = "I", ("i", "q", "Q")
# The largest number of a run: no tile has it, so that it stands for every number outside of u32.
_no_tile = 2**32 - 1
_one_byte = array("B", [0])

Tiles = Iterable[SupportsIndex]


class Ranges(Records[Tuple[int, int]]):
    """Pairs of a start and a length. Indices and slices are as those of a list.

    `numbers` has them one after the other, as a read-only memoryview of uint64 items. `numpy.asarray` of it has the shape
    (k, 2) and the type uint64, read-only, with no copy.
    """

    __slots__ = ()

    _width, _record = 2, tuple

    @property
    def __array_interface__(self) -> dict[str, Any]:
        return self._interface("<u8", (len(self), 2))


class Plan(NamedTuple):
    """Which bytes of a data file are read for a run of tiles.

    `ranges` are their starts and lengths, rising. `tiles` is how many different tiles the run names, those without bytes
    too, and `bytes` how many bytes the ranges have. `outside` is how many numbers of the run are no tile's.
    """

    ranges: Ranges
    tiles: int
    bytes: int
    outside: int


def _look_at(view: memoryview) -> str:
    """The letter of the numbers that a buffer has; a TypeError where it is no run of tile numbers."""
    look_at_mask(view, "tiles")
    letter = item_ends(view.format) if "T" not in view.format else None
    if letter not in (_LENT, *_CONVERTED) or struct.calcsize("<" + letter) != view.itemsize:
        fitting = " or ".join(repr("<" + each) for each in (_LENT, *_CONVERTED))
        raise TypeError(f"tiles: items of format {view.format!r}, {view.itemsize} bytes each, where a run takes {fitting}")
    if view.ndim != 1:
        raise TypeError(f"tiles: shape {view.shape}, where a run has (k,)")
    return letter


def _numbers(tiles: Sequence[Any]) -> array[int]:
    """Numbers as the library takes them. One that it can't take is no tile's, and stays so."""
    try:
        return array("I", tiles)
    except OverflowError:
        return array("I", [i if 0 <= i < _no_tile else _no_tile for i in map(operator.index, tiles)])


def lend_run(tiles: Tiles) -> memoryview:
    """A view of tile numbers as the library takes them. What is no run of numbers is a TypeError."""
    if isinstance(tiles, (list, tuple)) or not has_buffer(tiles):
        return memoryview(_numbers(tiles if isinstance(tiles, (list, tuple)) else list(tiles)))
    view = view_of(tiles)
    try:
        letter = _look_at(view)
    except BaseException:
        view.release()
        raise
    view = one_after_the_other(view)
    if letter == _LENT:
        return view
    with view:
        return memoryview(_numbers(struct.unpack(f"<{view.nbytes // struct.calcsize('<' + letter)}{letter}", view)))


def taken_gap(gap: SupportsIndex) -> int:
    number = operator.index(gap)
    if not 0 <= number <= LARGEST:
        raise ValueError(f"a gap is 0 to 2^64 - 1 bytes, not {number}")
    return number


def planned(offsets: tuple[int, int, Optional[int], int], run: tuple[Optional[int], int], gap: int) -> Plan:
    """The plan of a run that is lent, with so many numbers, over a list of offsets that was accepted."""
    tiles, (_, length) = offsets[0], run
    work, out = _one_byte * -(-tiles // 8), ONE_NUMBER * (2 * min(tiles, length))
    answer = _PlanAnswer()
    _c_read_plan_at(*offsets, gap, *run, *work.buffer_info(), *out.buffer_info(), answer)
    if answer[NUMBER]:
        raise refused(answer)
    del out[2 * answer[_PLAN_RANGES] :]
    return Plan(Ranges(out), answer[_PLAN_TILES], answer[_PLAN_BYTES], answer[_PLAN_OUTSIDE])


def plan(offsets: tuple[int, int, Optional[int], int], tiles: Tiles, gap: SupportsIndex) -> Plan:
    number = taken_gap(gap)
    with lend_run(tiles) as view:
        start, length = lent(view)
        return planned(offsets, (start, length // 4), number)


def extents(offsets: tuple[int, int, Optional[int], int], tiles: Tiles) -> Ranges:
    with lend_run(tiles) as view:
        start, length = lent(view)
        out = ONE_NUMBER * (2 * (length // 4))
        _c_run_extents_at(*offsets, start, length // 4, *out.buffer_info())
    return Ranges(out)


def cells(tiles: int, last_cells: int, capacity: int, run: Tiles) -> array[int]:
    with lend_run(run) as view:
        start, length = lent(view)
        out = ONE_NUMBER * (length // 4)
        _c_run_cells_at(tiles, last_cells, capacity, start, length // 4, *out.buffer_info())
    return out
