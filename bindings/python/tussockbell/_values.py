"""Mins, maxes, sums and null counts of a field's tiles."""

from __future__ import annotations

import struct
from collections.abc import Callable, Sequence
from typing import Any, Generic, Optional, SupportsIndex, Tuple, TypeVar, Union, overload

from tussockbell import _functions as c
from tussockbell import _reasons
from tussockbell._description import Description
from tussockbell._footer import footer_tiles
from tussockbell._kinds import FORMATS, NAME_OF, Kind, kind_byte
from tussockbell._lending import Bytes, file_size_of, kept, lend, lent, limited
from tussockbell._refused import NUMBER, Refusal, Refused, refused

# ---- the names of include/tussockbell.h, without their TUSSOCKBELL

_VALUES_TILES, _VALUES_PLACES = 2, 3
_RANGES_WHICH, _RANGES_TILES, _RANGES_PLACES = 2, 3, 4
_VAR_VALUE_START, _VAR_VALUE_LENGTH, _VAR_VALUE_PLACES = 0, 1, 2
_NULL_COUNTS_WHICH, _NULL_COUNTS_TILES, _NULL_COUNTS_PLACES = 2, 3, 4

_body = [c.u64, *c.run]
_c_values = c.function("values", [c.u64, *_body, c.pointer])
_c_value_at = c.function("value_at", [c.u64, *_body, c.u64], c.u64)
_c_ranges = c.function("ranges", [c.u64, *_body, *c.run, c.pointer])
_c_var_values = c.function("var_values", [*_body, c.pointer])
_c_var_value_at = c.function("var_value_at", [*_body, c.u64, c.pointer])
_c_var_ranges = c.function("var_ranges", [*_body, *c.run, c.pointer])
_c_sums = c.function("sums", [*_body, c.pointer])
_c_sum_at = c.function("sum_at", [*_body, c.u64], c.u64)
_c_null_counts = c.function("null_counts", [*c.footer, *c.run, c.pointer])

_ValuesAnswer = c.u64 * _VALUES_PLACES
_RangesAnswer = c.u64 * _RANGES_PLACES
_VarValueAnswer = c.u64 * _VAR_VALUE_PLACES
_NullCountsAnswer = c.u64 * _NULL_COUNTS_PLACES

# A kind of its own, beside the Datatype names.
_VAR = "var"
_EIGHT = struct.Struct("<Q")

Number = Union[int, float]
Value = TypeVar("Value", covariant=True)


class _Tiles(Sequence[Value], Generic[Value]):
    """One value a tile. Indices and slices are as those of a list."""

    __slots__ = ("_tiles",)

    _tiles: int

    def _at(self, tile: int) -> Value:
        raise NotImplementedError

    def __len__(self) -> int:
        return self._tiles

    @overload
    def __getitem__(self, tile: SupportsIndex) -> Value: ...

    @overload
    def __getitem__(self, tile: slice) -> list[Value]: ...

    def __getitem__(self, tile: Union[SupportsIndex, slice]) -> Union[Value, list[Value]]:
        if isinstance(tile, slice):
            return [self._at(i) for i in range(self._tiles)[tile]]
        try:
            return self._at(range(self._tiles)[tile])
        except IndexError:
            raise IndexError("no such tile") from None


class TileValues(_Tiles[Number]):
    """Checked mins or maxes of a field of a fixed kind: for each tile a number. `tile_values` makes it.

    It keeps hold of the body's bytes for as long as it lives, with no copy. They must stay as they are: they are not checked
    again.
    """

    __slots__ = {"kind": "The kind's name.", "_view": None, "_given": None, "_number": None}

    def __init__(self, kind: int, tiles: int, view: memoryview) -> None:
        self.kind: str = NAME_OF[kind]
        self._tiles, self._view, self._given = tiles, view, (kind, tiles, *lent(view))
        self._number = struct.Struct(FORMATS[kind]).unpack_from

    def _at(self, tile: int) -> Number:
        value: Number = self._number(_EIGHT.pack(_c_value_at(*self._given, tile)))[0]
        return value


class VarValues(_Tiles[memoryview]):
    """Checked mins or maxes of a var field: for each tile that part of the lent body, as a read-only memoryview, with no copy.
    `tile_values` makes it. `kind` is "var".

    It keeps hold of the body's bytes for as long as it lives. They must stay as they are: they are not checked again.
    """

    __slots__ = ("_view", "_given")

    kind = _VAR

    def __init__(self, tiles: int, view: memoryview) -> None:
        self._tiles, self._view, self._given = tiles, view.cast("B").toreadonly(), (tiles, *lent(view))

    def _at(self, tile: int) -> memoryview:
        answer = _VarValueAnswer()
        _c_var_value_at(*self._given, tile, answer)
        start = answer[_VAR_VALUE_START]
        return self._view[start : start + answer[_VAR_VALUE_LENGTH]]


class TileRanges(_Tiles[Tuple[Any, Any]]):
    """Checked mins and maxes of a field: for each tile its min and its max. `tile_ranges` makes it. `mins` and `maxes` are the
    two by themselves."""

    __slots__ = {"mins": "The mins by themselves.", "maxes": "The maxes by themselves."}

    def __init__(self, mins: Union[TileValues, VarValues], maxes: Union[TileValues, VarValues]) -> None:
        self._tiles, self.mins, self.maxes = len(mins), mins, maxes

    @property
    def kind(self) -> str:
        """The kind's name, or "var"."""
        return self.mins.kind

    def _at(self, tile: int) -> tuple[Any, Any]:
        return self.mins._at(tile), self.maxes._at(tile)


class _Numbers(_Tiles[int]):
    """A count and as many u64."""

    __slots__ = ("_view", "_given")

    def __init__(self, tiles: int, view: memoryview) -> None:
        self._tiles, self._view, self._given = tiles, view, (tiles, *lent(view))

    def _at(self, tile: int) -> int:
        number: int = _c_sum_at(*self._given, tile)
        return number


class NullCounts(_Numbers):
    """Checked null counts of a field: for each tile how many of its cells have no value. `null_counts` makes it.

    It keeps hold of the body's bytes for as long as it lives, with no copy. They must stay as they are: they are not checked
    again.
    """

    __slots__ = ()


class _Read(_Tiles[Number]):
    """The sums' 64 bits read in another way."""

    __slots__ = ("_sums", "_number")

    def __init__(self, sums: TileSums, one: str) -> None:
        self._tiles, self._sums, self._number = len(sums), sums, struct.Struct(one).unpack

    def _at(self, tile: int) -> Number:
        value: Number = self._number(_EIGHT.pack(self._sums._at(tile)))[0]
        return value


class TileSums(_Numbers):
    """Checked sums of a field: for each tile 64 bits, as a number without a sign. `tile_sums` makes it.

    What a sum's bits stand for follows from the field, and is not looked at here: TileDB adds signed integers up to a signed
    number, others to one without a sign, and floats to a float64. `signed()` and `real()` are the same sums, read so.

    It keeps hold of the body's bytes for as long as it lives, with no copy. They must stay as they are: they are not checked
    again.
    """

    __slots__ = ()

    def signed(self) -> Sequence[Number]:
        """The sums as int64 numbers."""
        return _Read(self, "<q")

    def real(self) -> Sequence[Number]:
        """The sums as float64 numbers."""
        return _Read(self, "<d")


def _made(kind: Optional[int], tiles: int, view: memoryview) -> Union[TileValues, VarValues]:
    return VarValues(tiles, view) if kind is None else TileValues(kind, tiles, view)


def _asked(kind: Union[Kind, str], tiles: SupportsIndex) -> tuple[Optional[int], list[int]]:
    """The kind's number, or nothing for a var field, and what a C function is given before the bodies."""
    number = limited(tiles)
    if isinstance(kind, str) and kind == _VAR:
        return None, [number]
    one = kind_byte(kind)
    return one, [one, number]


def _refused(
    answer: Any, kind: Union[Kind, str], one: Optional[int], tiles: int, body: memoryview, which: int = 0, of: Sequence[str] = ()
) -> Refused:
    """Why mins or maxes of a kind, which came to the number `one`, are refused."""
    if answer[NUMBER] == Refusal.DESCRIPTION:
        return refused(answer, f"{_reasons.said(kind)} is no kind")
    return refused(answer, _reasons.of_values(answer, one, tiles, lent(body)), which, of)


def tile_values(kind: Union[Kind, str], tiles: SupportsIndex, body: Bytes) -> Union[TileValues, VarValues]:
    """Checks the mins, or the maxes, of a field's tiles.

    `kind` is a Datatype name, "int32", "int64", "float32", "float64" or "uint64", or what has one, as a numpy dtype; or "var".
    The answer is a sequence of numbers, or for "var" of memoryviews of the body. The body's bytes must stay as they are while
    it is in use.
    """
    one, given = _asked(kind, tiles)
    ask: Callable[..., None] = _c_var_values if one is None else _c_values
    answer = _ValuesAnswer()
    with kept(body) as view:
        ask(*given, *lent(view), answer)
        if answer[NUMBER]:
            raise _refused(answer, kind, one, given[-1], view)
        return _made(one, answer[_VALUES_TILES], view)


def tile_ranges(kind: Union[Kind, str], tiles: SupportsIndex, mins: Bytes, maxes: Bytes) -> TileRanges:
    """Checks the mins and the maxes of a field's tiles together: the mins, then the maxes, and then, unless `kind` is "var", that
    no min is above its max.

    The answer is a sequence of pairs, a tile's min and its max. Both bodies' bytes must stay as they are while it is in use.
    """
    one, given = _asked(kind, tiles)
    ask: Callable[..., None] = _c_var_ranges if one is None else _c_ranges
    answer = _RangesAnswer()
    with kept(mins) as first, kept(maxes) as second:
        ask(*given, *lent(first), *lent(second), answer)
        if answer[NUMBER]:
            which = answer[_RANGES_WHICH]
            raise _refused(answer, kind, one, given[-1], second if which else first, which, ("the mins", "the maxes"))
        number = answer[_RANGES_TILES]
        return TileRanges(_made(one, number, first), _made(one, number, second))


def tile_sums(tiles: SupportsIndex, body: Bytes) -> TileSums:
    """Checks the sums of a field's tiles.

    The answer is a sequence of the raw 64-bit values as numbers without a sign, with the views `signed()` and `real()`. The
    body's bytes must stay as they are while it is in use.
    """
    number, answer = limited(tiles), _ValuesAnswer()
    with kept(body) as view:
        _c_sums(number, *lent(view), answer)
        if answer[NUMBER]:
            raise refused(answer, _reasons.of_list(answer, number, lent(view)))
        return TileSums(answer[_VALUES_TILES], view)


def null_counts(description: Description, file_size: SupportsIndex, footer: Bytes, body: Bytes) -> NullCounts:
    """Checks the null counts of a field's tiles, with the footer, which says how many tiles there are and how many cells each has.

    The answer is a sequence of numbers. The body's bytes must stay as they are while it is in use.
    """
    answer, size = _NullCountsAnswer(), file_size_of(file_size)
    with lend(footer) as first, kept(body) as view:
        _c_null_counts(*description._given, size, *lent(first), *lent(view), answer)
        if answer[NUMBER]:
            which = answer[_NULL_COUNTS_WHICH]
            if which:
                detail = _reasons.of_list(answer, footer_tiles(description, size, lent(first)), lent(view))
            else:
                detail = _reasons.of_footer(description, answer, size, lent(first))
            raise refused(answer, detail, which, ("the footer", "the null counts"))
        return NullCounts(answer[_NULL_COUNTS_TILES], view)
