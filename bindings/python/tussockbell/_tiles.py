"""In what do the tiles that were found come, and in which room are they asked for?"""

from __future__ import annotations

import operator
from array import array
from collections.abc import Callable
from typing import TYPE_CHECKING, Any, Optional, SupportsIndex, Union, overload

from tussockbell._boxes import item_ends, look_at_mask
from tussockbell._lending import view_of

# A tile's number, as the library writes and `array` calls it: uint32.
TILE = "I"
_ONE_TILE = array(TILE, [0])
# The room that a query or a batch is first asked with. One that finds more tiles is asked once more, with room for all of them, so
# that it costs what it finds, however many tiles there are.
FIRST_ROOM = 4096
# Result buffers of that room that no call has at the moment. A call takes one out, so that no two have the same.
_spare: list[array[int]] = []


# Only a type checker can write `array[int]` before Python 3.12.
if TYPE_CHECKING:
    _Array = array[int]
else:
    _Array = array


class TileNumbers(_Array):
    """Numbers of tiles: an array of uint32 items, four bytes each, that is compared, printed, indexed and sliced as a list is.

    `numpy.asarray` of it is a uint32 array over the same memory, and `memoryview` lends it too, with no copy. `tolist()` is the list
    itself, for what takes nothing else, as `json` does. Like a list it can be changed, and has no hash.
    """

    __slots__ = ()

    def __eq__(self, other: object) -> bool:
        return self.tolist() == other if isinstance(other, list) else super().__eq__(other)

    def __ne__(self, other: object) -> bool:
        return self.tolist() != other if isinstance(other, list) else super().__ne__(other)

    @overload
    def __getitem__(self, at: SupportsIndex) -> int: ...

    @overload
    def __getitem__(self, at: slice) -> TileNumbers: ...

    def __getitem__(self, at: Union[SupportsIndex, slice]) -> Union[int, TileNumbers]:
        return TileNumbers(TILE, super().__getitem__(at)) if isinstance(at, slice) else super().__getitem__(at)

    def __add__(self, other: Any) -> Any:
        """With a list, a list, as two lists are."""
        return self.tolist() + other if isinstance(other, list) else TileNumbers(TILE, super().__add__(other))

    def __radd__(self, other: Any) -> Any:
        return other + self.tolist() if isinstance(other, list) else NotImplemented

    def __copy__(self) -> TileNumbers:
        return self[:]

    def __deepcopy__(self, _memo: Any) -> TileNumbers:
        return self[:]

    def __repr__(self) -> str:
        return repr(self.tolist())


def wanted_room(room: Optional[SupportsIndex], most: int) -> int:
    """As many places as are asked for, where there are never more than so many to fill."""
    return most if room is None else min(max(operator.index(room), 0), most)


def first_buffer() -> array[int]:
    """A result buffer of the first room. Whoever is done with it may hand it to `spare`."""
    try:
        return _spare.pop()
    except IndexError:
        return _ONE_TILE * FIRST_ROOM


spare = _spare.append


def buffer(places: int) -> TileNumbers:
    """A result buffer of so many places."""
    out = TileNumbers(TILE, _ONE_TILE)
    out *= places
    return out


def listed(ask: Callable[[array[int], int], int], wanted: int) -> tuple[TileNumbers, int]:
    """The tiles that are found, and how many there are. `ask` fills a result buffer of so many places, and tells how many."""
    places, out = min(wanted, FIRST_ROOM), first_buffer()
    found = ask(out, places)
    if found <= places or places == wanted:
        tiles = TileNumbers(TILE, out[: found if found < places else places])
        spare(out)
        return tiles, found
    spare(out)
    room = buffer(min(found, wanted))
    found = ask(room, len(room))
    if found < len(room):
        del room[found:]
    return room, found


def lend_places(out: Any) -> memoryview:
    """A view of a buffer of uint32 numbers that is written to. What is none, or can't be written to in one run, is a TypeError."""
    view = view_of(out)
    try:
        look_at_mask(view, "out")
        if "T" in view.format or item_ends(view.format) != TILE or view.itemsize != _ONE_TILE.itemsize or view.ndim != 1:
            has = f"format {view.format!r}, {view.itemsize} bytes each, shape {view.shape}"
            raise TypeError(f"out: items of {has}, where tiles take '<I' and (k,)")
        if view.readonly or not view.c_contiguous:
            raise TypeError("the buffer to write to is read-only, or its bytes do not lie one after the other")
    except BaseException:
        view.release()
        raise
    return view
