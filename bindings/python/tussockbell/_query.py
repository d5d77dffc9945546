"""Which tiles does a window touch?"""

from __future__ import annotations

from array import array
from collections.abc import Callable, Iterable
from typing import Any, NamedTuple, Optional, SupportsIndex, Union, cast

from tussockbell import _functions as c
from tussockbell import _reasons
from tussockbell._boxes import lend_boxes
from tussockbell._description import Description
from tussockbell._kinds import Range, box_bytes
from tussockbell._lending import Bytes, Lent, lend, lent, limited, overlap
from tussockbell._refused import NUMBER, Refusal, Refused, refused
from tussockbell._tiles import TileNumbers, lend_places, listed, wanted_room
from tussockbell._window import Window, given_window

# ---- the names of include/tussockbell.h, without their TUSSOCKBELL

_QUERY_FOUND, _QUERY_LOOKED, _QUERY_PLACES = 2, 3, 4
_BOX_TEST_MEETS, _BOX_TEST_READ, _BOX_TEST_PLACES = 2, 3, 4

_c_query = c.function("query", [*c.description, c.u64, *c.run, *c.run, *c.run, *c.run, c.pointer])
_c_box_test = c.function("box_test", [*c.description, *c.run, *c.run, *c.run, c.pointer])

_QueryAnswer = c.u64 * _QUERY_PLACES
_BoxTestAnswer = c.u64 * _BOX_TEST_PLACES


class Hit(NamedTuple):
    """What a query answers.

    `tiles` are the tiles found, counted from 0, rising; the first ones where there was less room. They compare and print as a list
    does, and `numpy.asarray` makes no copy of them. `found` is how many there are in all, and `looked` is how many boxes of the
    tree were looked at.
    """

    tiles: TileNumbers
    found: int
    looked: int


# A hit made as the tuple that it is, of its three items at once, takes half of the time.
hit_of = cast(Callable[[type[Hit], tuple[TileNumbers, int, int]], Hit], tuple.__new__)


class Counts(NamedTuple):
    """What `query_into` answers: `found` is how many tiles there are in all, and `looked` how many boxes were looked at."""

    found: int
    looked: int


def ask(description: Description, tiles: int, tree: Lent, window: Union[Window, Iterable[Range]], room: Optional[SupportsIndex]) -> Hit:
    """What a window finds in a tree that is lent."""
    kinds, ends = given_window(description._given[0], window)
    answer = _QueryAnswer()

    def asked(out: array[int], places: int) -> int:
        _c_query(*description._given, tiles, *tree, kinds, len(kinds), ends, len(ends), out.buffer_info()[0], places, answer)
        if answer[NUMBER]:
            raise _refused(description, answer, tiles, tree, window, kinds)
        found: int = answer[_QUERY_FOUND]
        return found

    # Each box has 8 bytes at least, so there are never more tiles to find.
    numbers, found = listed(asked, wanted_room(room, min(tiles, tree[1] // 8)))
    return hit_of(Hit, (numbers, found, answer[_QUERY_LOOKED]))


def _refused(description: Description, answer: Any, tiles: int, tree: Lent, window: Any, kinds: bytes) -> Refused:
    of_window = answer[NUMBER] == Refusal.WINDOW
    tell = _reasons.of_window(description, answer, window, kinds) if of_window else _reasons.of_tree(description, answer, tiles, tree)
    return refused(answer, tell)


def refusal_alone(description: Description, tiles: int, tree: Lent, window: Any, kinds: bytes, ends: bytes) -> Refused:
    """What a window is refused with whose kinds are not the description's, so that it always is."""
    answer = _QueryAnswer()
    _c_query(*description._given, tiles, *tree, kinds, len(kinds), ends, len(ends), None, 0, answer)
    return _refused(description, answer, tiles, tree, window, kinds)


def ask_into(description: Description, tiles: int, tree: Lent, window: Union[Window, Iterable[Range]], out: Any) -> Counts:
    """What a window finds in a tree that is lent, with the tiles in a buffer that is lent."""
    kinds, ends = given_window(description._given[0], window)
    answer = _QueryAnswer()
    with lend_places(out) as view:
        start, length = lent(view)
        if overlap(tree, (start, length)):
            raise ValueError("the buffer to write to overlaps the tree")
        given = (*description._given, tiles, *tree, kinds, len(kinds), ends, len(ends))
        _c_query(*given, start, length // 4, answer)
    if answer[NUMBER]:
        raise _refused(description, answer, tiles, tree, window, kinds)
    return Counts(answer[_QUERY_FOUND], answer[_QUERY_LOOKED])


def query(
    description: Description, tiles: SupportsIndex, tree: Bytes, window: Union[Window, Iterable[Range]],
    room: Optional[SupportsIndex] = None,
) -> Hit:
    """Which tiles does a window touch, in a tree of that many tiles?

    The window is a pair of ends for each dimension, or a `Window`, which says what an end may be. With `room` no more than that
    many tiles are listed, the first ones. The tree's boxes are not checked: over bytes that `open_tree` would refuse, the answer
    is what the walk says.
    """
    with lend(tree) as view:
        return ask(description, limited(tiles), lent(view), window, room)


def query_into(
    description: Description, tiles: SupportsIndex, tree: Bytes, window: Union[Window, Iterable[Range]], out: Any
) -> Counts:
    """Which tiles does a window touch? As `query`, with the tiles written to the start of a buffer that is lent.

    `out` has uint32 items: a numpy array, an array("I") or a memoryview of them. It gets as many of the found tiles as there are
    items, the first ones; items past them stay as they are, and all of them where the window is refused. Items of another type, and
    a buffer that is read-only, has not one dimension or does not lie in one run, are a TypeError, and one that overlaps the tree is
    a ValueError, before anything is asked.
    """
    with lend(tree) as view:
        return ask_into(description, limited(tiles), lent(view), window, out)


def box_test(description: Description, box: Bytes, window: Union[Window, Iterable[Range]]) -> tuple[bool, int]:
    """Does one box, in its bytes, meet a window, and how many of its dimensions are read for that?

    It is the query's own test, which leaves at the first dimension that misses: the number is one more than that dimension's,
    counted from 0, or that of all dimensions where the box meets. A stored range with NaN is a miss. The box is not checked
    otherwise, but for its number of bytes. An array fits as `help(tussockbell)` says, or is a TypeError.
    """
    kinds, ends = given_window(description._given[0], window)
    answer = _BoxTestAnswer()
    with lend_boxes(description._given[0], box, "a box", one=True) as view:
        _c_box_test(*description._given, *lent(view), kinds, len(kinds), ends, len(ends), answer)
        given = view.nbytes
    if answer[NUMBER] == Refusal.BYTES:
        raise refused(answer, _reasons.lengths(box_bytes(description._given[0]), given))
    if answer[NUMBER]:
        raise refused(answer, _reasons.of_window(description, answer, window, kinds))
    return bool(answer[_BOX_TEST_MEETS]), answer[_BOX_TEST_READ]
