"""Where are the tiles' bytes in a data file, and how many are they?"""

from __future__ import annotations

from collections.abc import Callable, Iterable, Sequence
from typing import Any, SupportsIndex, Tuple, Union, overload

from tussockbell import _functions as c
from tussockbell import _plan, _reasons
from tussockbell._lending import Bytes, file_size_of, kept, lend, lent, limited, pickled_bytes, same_bytes
from tussockbell._plan import Plan, Ranges
from tussockbell._refused import NUMBER, refused

# ---- the names of include/tussockbell.h, without their TUSSOCKBELL

_OFFSETS_TILES, _OFFSETS_PLACES = 2, 3
_EXTENT_OFFSET, _EXTENT_LENGTH, _EXTENT_PLACES = 0, 1, 2
_SIZES_SUM, _SIZES_PLACES = 2, 3

_c_offsets = c.function("offsets", [*c.offsets, c.pointer])
_c_var_offsets = c.function("var_offsets", [*c.offsets, c.pointer])
_c_extent_at = c.function("extent_at", [*c.offsets, c.u64, c.pointer])
_c_sizes = c.function("sizes", [c.u64, *c.run, c.pointer])

_OffsetsAnswer = c.u64 * _OFFSETS_PLACES
_ExtentAnswer = c.u64 * _EXTENT_PLACES
_SizesAnswer = c.u64 * _SIZES_PLACES


class Offsets(Sequence[Tuple[int, int]]):
    """Checked tile offsets: for each tile where its bytes start in the data file, and how many they are.

    `tile_offsets` and `var_tile_offsets` make it. Indices and slices are as those of a list.

    It keeps hold of the list's bytes for as long as it lives, with no copy. They must stay as they are: they are not checked
    again. Where they are those of a mapped file, cutting the file short ends the process when they are next asked for (SIGBUS).

    Two are equal if their bytes and the data file's size are. They are pickled with their bytes, which are not checked again; those
    over a mapped file are a TypeError there, since a `Fragment` of paths does that better.
    """

    __slots__ = ("_tiles", "_view", "_given")

    def __init__(self, tiles: int, size: int, view: memoryview) -> None:
        self._tiles, self._view, self._given = tiles, view, (tiles, size, *lent(view))

    @property
    def data_file_size(self) -> int:
        """The size of the data file that they were checked with."""
        return self._given[1]

    def __len__(self) -> int:
        return self._tiles

    @overload
    def __getitem__(self, tile: SupportsIndex) -> tuple[int, int]: ...

    @overload
    def __getitem__(self, tile: slice) -> list[tuple[int, int]]: ...

    def __getitem__(self, tile: Union[SupportsIndex, slice]) -> Union[tuple[int, int], list[tuple[int, int]]]:
        if isinstance(tile, slice):
            return [self._extent(i) for i in range(self._tiles)[tile]]
        try:
            return self._extent(range(self._tiles)[tile])
        except IndexError:
            raise IndexError("no such tile") from None

    def plan(self, tiles: Iterable[SupportsIndex], gap: SupportsIndex = 0) -> Plan:
        """Which bytes of the data file are read for these tiles?

        The tiles may come in any order and more than once, as the found tiles of a whole batch do. They are integers, one by
        one, or a buffer of them, a numpy array too: uint32 numbers are lent as they are, int32, int64 and uint64 ones are
        converted, and all others are a TypeError, bytes too. A number that is no tile is counted as `outside`.

        Rising by tile, two neighbours are in one range exactly if at most `gap` bytes lie between them. A tile that has no bytes,
        as a var list may have, takes no part. A gap outside of 0 to 2^64 - 1 is a ValueError.
        """
        return _plan.plan(self._given, tiles, gap)

    def extents(self, tiles: Iterable[SupportsIndex]) -> Ranges:
        """Offset and extent of many tiles, in their order, in one call; both 0 for a number that is no tile. `plan` says what
        tiles may be."""
        return _plan.extents(self._given, tiles)

    def __eq__(self, other: object) -> bool:
        if not isinstance(other, Offsets):
            return NotImplemented
        return self._given[:2] == other._given[:2] and same_bytes(self._view, other._view)

    def __hash__(self) -> int:
        return hash(self._given[:2])

    def __repr__(self) -> str:
        return f"<Offsets: {self._tiles} tiles, {self.data_file_size} bytes>"

    def __reduce__(self) -> tuple[Any, ...]:
        return _restored, (*self._given[:2], pickled_bytes(self._view, "a list of offsets"))

    def _extent(self, tile: int) -> tuple[int, int]:
        answer = _ExtentAnswer()
        _c_extent_at(*self._given, tile, answer)
        return answer[_EXTENT_OFFSET], answer[_EXTENT_LENGTH]


def _restored(tiles: int, size: int, data: bytes) -> Offsets:
    """Offsets that were pickled."""
    return Offsets(tiles, size, memoryview(data))


def tile_offsets(tiles: SupportsIndex, data_file_size: SupportsIndex, offsets: Bytes) -> Offsets:
    """Checks the tile offsets of a data file of `data_file_size` bytes.

    The list's bytes must stay as they are while the `Offsets` are in use.
    """
    return _checked_offsets(_c_offsets, tiles, data_file_size, offsets)


def var_tile_offsets(tiles: SupportsIndex, data_file_size: SupportsIndex, offsets: Bytes) -> Offsets:
    """Checks the var offsets of a var data file of `data_file_size` bytes, of which a tile may have none.

    The list's bytes must stay as they are while the `Offsets` are in use.
    """
    return _checked_offsets(_c_var_offsets, tiles, data_file_size, offsets)


def _checked_offsets(ask: Callable[..., None], tiles: SupportsIndex, data_file_size: SupportsIndex, offsets: Bytes) -> Offsets:
    number, size, answer = limited(tiles), file_size_of(data_file_size), _OffsetsAnswer()
    with kept(offsets) as view:
        ask(number, size, *lent(view), answer)
        if answer[NUMBER]:
            raise refused(answer, _reasons.of_list(answer, number, lent(view)))
        return Offsets(answer[_OFFSETS_TILES], size, view)


def tile_sizes(tiles: SupportsIndex, sizes: Bytes) -> int:
    """Checks tile sizes, and adds them up."""
    number, answer = limited(tiles), _SizesAnswer()
    with lend(sizes) as view:
        _c_sizes(number, *lent(view), answer)
        if answer[NUMBER]:
            raise refused(answer, _reasons.of_list(answer, number, lent(view)))
    return answer[_SIZES_SUM]
