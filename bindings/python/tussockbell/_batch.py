"""Which tiles does each window of a batch touch?"""

from __future__ import annotations

import itertools
from array import array
from collections.abc import Iterable
from typing import Any, NamedTuple, Optional, SupportsIndex, Union, cast

from tussockbell import _functions as c
from tussockbell import _reasons
from tussockbell._boxes import lend_boxes
from tussockbell._description import Description
from tussockbell._kinds import Range
from tussockbell._lending import ONE_NUMBER, Bytes, Lent, has_buffer, lend, lent, limited
from tussockbell._query import _QUERY_FOUND, _QUERY_LOOKED, Hit, hit_of, refusal_alone
from tussockbell._records import Records
from tussockbell._refused import NUMBER, PLACE, Refusal, Refused, refused
from tussockbell._tiles import FIRST_ROOM, TILE, TileNumbers, buffer, first_buffer, spare, wanted_room
from tussockbell._window import Window, given_window, packed, window_width

Windows = Union[Bytes, Iterable[Union[Window, Iterable[Range]]]]

# ---- the names of include/tussockbell.h, without their TUSSOCKBELL

_BATCH_WINDOWS, _BATCH_PLACES, _RECORD_USED, _RECORD_PLACES = 2, 3, 4, 5

_c_query_batch = c.function("query_batch", [*c.description, c.u64, *c.run, *c.run, *c.run, *c.run, *c.run, c.pointer])

_BatchAnswer = c.u64 * _BATCH_PLACES

# What is done with the refusals of a batch.
_LIST, _RAISE = "list", "raise"


class Answer(NamedTuple):
    """What a window of a batch is answered. `number` and `place` are those of its refusal, 0 where there is none; `found` and
    `looked` are as a `Hit` has them; `used` is how many of its tiles are listed."""

    number: int
    place: int
    found: int
    looked: int
    used: int


class Answers(Records[Answer]):
    """The answers of a batch, one a window. Indices and slices are as those of a list.

    `numbers` has them one after the other, five a window, as a read-only memoryview of uint64 items. `numpy.asarray` of it is a
    read-only array of records, whose fields are called as those of an `Answer` are, with no copy.
    """

    __slots__ = ()

    _width, _record = _RECORD_PLACES, Answer._make

    @property
    def __array_interface__(self) -> dict[str, Any]:
        named = {"descr": [(name, "<u8") for name in Answer._fields]}
        return {**self._interface(f"|V{8 * _RECORD_PLACES}", (len(self),)), **named}


class Batch(NamedTuple):
    """What a batch of k windows answers, as arrays, of each of which `numpy.asarray` makes no copy.

    `answers` has a record for each window, `tiles` the tiles of all windows, one window's after the other's, and `starts` has
    k + 1 int64 items: window i's tiles are `tiles[starts[i] : starts[i + 1]]`.
    """

    answers: Answers
    tiles: TileNumbers
    starts: array[int]


class _Run(NamedTuple):
    """A batch that was asked: the records of all windows, the result buffer, and what is known of a window that is no part of the run."""

    records: array[int]
    out: array[int]
    details: dict[int, Optional[str]]


def _ask_run(
    description: Description, tiles: int, tree: Lent, windows: tuple[Any, int], out: array[int], places: int
) -> array[int]:
    """The records of a run of windows that have the description's kinds. The result buffer has so many places."""
    kinds = description._given[0]
    width = window_width(kinds)
    records = ONE_NUMBER * (windows[1] // width * _RECORD_PLACES if width else 0)
    answer = _BatchAnswer()
    _c_query_batch(
        *description._given, tiles, *tree, kinds, len(kinds), *windows, *records.buffer_info(), out.buffer_info()[0], places, answer
    )
    if answer[NUMBER]:
        raise refused(answer, f"{windows[1]} bytes, where a window has {width}" if answer[NUMBER] == Refusal.RUNS else None)
    return records


def _ask_with_room(
    description: Description, tiles: int, tree: Lent, windows: tuple[Any, int], room: Optional[SupportsIndex],
) -> _Run:
    """Records and result buffer of a run of windows, with as much room as they find tiles, or as is wanted."""
    wanted = wanted_room(room, min(tiles, tree[1] // 8) * windows[1])
    places = min(wanted, FIRST_ROOM)
    out = first_buffer()
    records = _ask_run(description, tiles, tree, windows, out, places)
    found = records[_QUERY_FOUND::_RECORD_PLACES]
    if places < wanted and records[_RECORD_USED::_RECORD_PLACES] != found:
        spare(out)
        out = buffer(min(sum(found), wanted))
        records = _ask_run(description, tiles, tree, windows, out, len(out))
    return _Run(records, out, {})


def _ask_listed(description: Description, tiles: int, tree: Lent, windows: list[Any], room: Optional[SupportsIndex]) -> _Run:
    kinds = description._given[0]
    run = packed(kinds, windows)
    if run is not None:
        return _ask_with_room(description, tiles, tree, (run, len(run)), room)
    # A window that is not of the description's kinds, or has no kind in some dimension, is no part of the run: it uses no place, and
    # is asked alone, since it is always refused.
    given, width = [given_window(kinds, window) for window in windows], window_width(kinds)
    in_run = [own == kinds and 0 < len(ends) == width for own, ends in given]
    run = b"".join(ends for (_, ends), fits in zip(given, in_run) if fits)
    asked = _ask_with_room(description, tiles, tree, (run, len(run)), room)
    records, details = array("Q"), {}
    answers = zip(*_RECORD_PLACES * [iter(asked.records)])
    for at, (own, ends) in enumerate(given):
        if in_run[at]:
            records.extend(next(answers))
            continue
        alone = refusal_alone(description, tiles, tree, windows[at], own, ends)
        details[at] = alone.detail
        records.extend((alone.number, alone.place, 0, 0, 0))
    return _Run(records, asked.out, details)


def _ask_batch(description: Description, tiles: int, tree: Lent, windows: Windows, room: Optional[SupportsIndex]) -> _Run:
    if isinstance(windows, bytes):
        return _ask_with_room(description, tiles, tree, (windows, len(windows)), room)
    if isinstance(windows, (list, tuple)) or not has_buffer(windows):
        return _ask_listed(description, tiles, tree, list(cast("Iterable[Any]", windows)), room)
    with lend_boxes(description._given[0], windows, "windows") as view:
        return _ask_with_room(description, tiles, tree, lent(view), room)


def _refusal(description: Description, tiles: int, tree: Lent, run: _Run, at: int, window: Optional[int] = None) -> Refused:
    """The refusal of a window of a batch."""
    answer = run.records[at * _RECORD_PLACES : (at + 1) * _RECORD_PLACES]
    detail = run.details[at] if at in run.details else _reasons.of_tree(description, answer, tiles, tree)
    return Refused(answer[NUMBER], answer[PLACE], detail=detail, window=window)


def _raise_first(description: Description, tiles: int, tree: Lent, run: _Run) -> None:
    """Raises what the first window is refused with that is."""
    for at, number in enumerate(run.records[NUMBER::_RECORD_PLACES]):
        if number:
            raise _refusal(description, tiles, tree, run, at, at)


def ask_batch(
    description: Description, tiles: int, tree: Lent, windows: Windows, room: Optional[SupportsIndex], on_refused: str
) -> list[Union[Hit, Refused]]:
    """What each window finds in a tree that is lent."""
    if on_refused not in (_LIST, _RAISE):
        raise ValueError(f"refused is 'list' or 'raise', not {on_refused!r}")
    run = _ask_batch(description, tiles, tree, windows, room)
    records, out, _ = run
    numbers, used = records[NUMBER::_RECORD_PLACES], records[_RECORD_USED::_RECORD_PLACES]
    if on_refused == _RAISE:
        _raise_first(description, tiles, tree, run)
    ends = zip(used, itertools.accumulate(used))
    if isinstance(out, TileNumbers):
        cut = [array.__getitem__(out, slice(end - count, end)) for count, end in ends]
    else:
        cut = [out[end - count : end] for count, end in ends]
        spare(out)
    listed_tiles = map(TileNumbers, itertools.repeat(TILE), cut)
    found, looked = records[_QUERY_FOUND::_RECORD_PLACES], records[_QUERY_LOOKED::_RECORD_PLACES]
    hits = list(map(hit_of, itertools.repeat(Hit), zip(listed_tiles, found, looked)))
    if not any(numbers):
        return cast("list[Union[Hit, Refused]]", hits)
    return [_refusal(description, tiles, tree, run, at) if number else hits[at] for at, number in enumerate(numbers)]


def ask_arrays(description: Description, tiles: int, tree: Lent, windows: Windows, room: Optional[SupportsIndex], on_refused: str) -> Batch:
    """The same as arrays."""
    if on_refused not in (_LIST, _RAISE):
        raise ValueError(f"refused is 'list' or 'raise', not {on_refused!r}")
    run = _ask_batch(description, tiles, tree, windows, room)
    if on_refused == _RAISE:
        _raise_first(description, tiles, tree, run)
    starts = array("q", itertools.accumulate(run.records[_RECORD_USED::_RECORD_PLACES], initial=0))
    if isinstance(run.out, TileNumbers):
        del run.out[starts[-1] :]
        return Batch(Answers(run.records), run.out, starts)
    numbers = TileNumbers(TILE, run.out[: starts[-1]])
    spare(run.out)
    return Batch(Answers(run.records), numbers, starts)


def query_batch(
    description: Description, tiles: SupportsIndex, tree: Bytes, windows: Windows, room: Optional[SupportsIndex] = None,
    refused: str = "list",
) -> list[Union[Hit, Refused]]:
    """Which tiles does each window touch, in a tree of that many tiles? All windows in one call of the library.

    The windows are those of `query`, or one buffer of them: bytes, a memoryview, an array or whatever else lends its bytes, a
    numpy array too, with the ends of the description's kinds, minimum and maximum of each dimension in turn, window after
    window. A buffer is lent as it is, and no window of it is looked at here; `help(tussockbell)` says which items and
    shapes fit, and all others are a TypeError. Bytes that are no whole number of windows are refused (22).

    For each window the list has a `Hit`, or the `Refused` that `query` would raise. With refused="raise" the first window's is
    raised that is refused, with the window's number, from 0, as `window`. With `room` no more than that many tiles are
    listed in all, those of the first windows; a refused window takes none. The library is asked a second time where more tiles
    are to be listed than there was room for at first. A window of other kinds than the description's is refused in a call of its
    own.
    """
    with lend(tree) as view:
        return ask_batch(description, limited(tiles), lent(view), windows, room, refused)


def query_batch_arrays(
    description: Description, tiles: SupportsIndex, tree: Bytes, windows: Windows, room: Optional[SupportsIndex] = None,
    refused: str = "list",
) -> Batch:
    """Which tiles does each window touch? As `query_batch`, with the answers and the tiles of all windows as arrays.

        answers, tiles, starts = tb.query_batch_arrays(d, n, tree_bytes, windows)
        numpy.asarray(answers)["found"].sum()

    A refused window has its number and place among the answers, and no tiles.
    """
    with lend(tree) as view:
        return ask_arrays(description, limited(tiles), lent(view), windows, room, refused)
