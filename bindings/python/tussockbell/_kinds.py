"""What is a kind, and which bytes is an end of it?"""

from __future__ import annotations

import math
import numbers
import operator
import struct
import sys
from collections.abc import Iterable
from typing import Any, Optional, Protocol, SupportsFloat, SupportsIndex, Tuple, Union


class _Named(Protocol):
    """What has a name, as a numpy.dtype has."""

    @property
    def name(self) -> str: ...


Kind = Union[str, SupportsIndex, type, _Named, None]
End = Union[SupportsIndex, SupportsFloat, bytes, bytearray]
Range = Tuple[End, End]

# Kinds: TileDB's Datatype number, and one end as `struct` has it.
KINDS = {
    "int32": (0, "<i"),
    "int64": (1, "<q"),
    "float32": (2, "<f"),
    "float64": (3, "<d"),
    "uint64": (10, "<Q"),
}

NO_KIND = 255
NAMES: dict[str, int] = {name: number for name, (number, _) in KINDS.items()}
NAME_OF: dict[int, str] = {number: name for name, number in NAMES.items()}
FORMATS = dict(KINDS.values())
FLOAT32: int = NAMES["float32"]
FLOAT64: int = NAMES["float64"]
_UINT64: int = NAMES["uint64"]
_INTEGERS = [NAMES["int32"], NAMES["int64"], _UINT64]
WIDTHS: dict[int, int] = {kind: struct.calcsize(one) for kind, one in FORMATS.items()}
# numpy's short spellings: the sort of number and its bytes. With an order before it a spelling is a kind where that is little-endian,
# as every number is that the library reads.
_SHORT = {"i4": "int32", "i8": "int64", "f4": "float32", "f8": "float64", "u8": "uint64"}
_LITTLE = ("", "<", "=") if sys.byteorder == "little" else ("<",)
_SPELLED = {**NAMES, **{order + short: NAMES[name] for short, name in _SHORT.items() for order in _LITTLE}}
# Both ends at once, where nothing has to be looked at first.
_PAIRS = {kind: struct.Struct(one + one[1]).pack for kind, one in FORMATS.items() if kind != FLOAT32}


def kind_byte(kind: Kind) -> int:
    """A kind as the library takes it. A type is a kind by its name, and so is what has a name."""
    if not isinstance(kind, str):
        try:
            number = operator.index(kind)  # type: ignore[arg-type]
            return number if number in FORMATS else NO_KIND
        except TypeError:
            kind = kind.__name__ if isinstance(kind, type) else getattr(kind, "name", None)
    return _SPELLED.get(kind, NO_KIND) if isinstance(kind, str) else NO_KIND


def kind_bytes(kinds: Iterable[Kind]) -> bytes:
    if isinstance(kinds, str):
        raise TypeError(f"kinds has a kind for each dimension: {kinds.split(',')}, not the string {kinds!r}")
    return bytes(map(kind_byte, kinds))


def box_bytes(kinds: bytes) -> int:
    """The bytes of a box of these kinds; a number that is no kind has none."""
    return sum(2 * WIDTHS.get(kind, 0) for kind in kinds)


def ends_format(kinds: bytes) -> str:
    """The ends of a box of these kinds as `struct` has them."""
    return "<" + "".join(2 * FORMATS[kind][1] for kind in kinds)


def _rounded_once(whole: int) -> float:
    """An integer as a float that a float32 can be made of: cut to 53 bits, of which the last is set where the cut lost anything.
    The nearest float32 of that is the nearest of the integer."""
    spare = max(whole.bit_length() - 53, 0)
    cut = whole >> spare
    return float((cut | (cut << spare != whole)) << spare)


def _float_pattern(kind: int, end: Any) -> bytes:
    try:
        number = _rounded_once(end) if kind == FLOAT32 and isinstance(end, int) else float(end)
        return struct.pack(FORMATS[kind], number)
    except OverflowError:
        return struct.pack(FORMATS[kind], math.inf if end > 0 else -math.inf)


def _integer_pattern(kind: int, end: Any) -> Optional[bytes]:
    whole = int(end)
    return whole.to_bytes(WIDTHS[kind], "little", signed=kind != _UINT64) if whole == end else None


def _pattern(kind: int, end: Any) -> Optional[bytes]:
    """The little-endian bytes of an end, or None where its kind can't hold it."""
    if isinstance(end, (bytes, bytearray)):
        return bytes(end) if len(end) == WIDTHS.get(kind) else None
    if hasattr(type(end), "__index__"):
        end = operator.index(end)
    elif not hasattr(type(end), "__float__"):
        raise TypeError(f"a window's end is a number or its bytes, not {type(end).__name__}")
    try:
        if kind in _INTEGERS:
            return _integer_pattern(kind, end)
        return _float_pattern(kind, end) if kind in FORMATS else None
    except (OverflowError, ValueError):
        return None


def no_complex(ends: Iterable[type]) -> None:
    """A TypeError where an end's type is complex: numpy's would become a float without their imaginary part."""
    for each in ends:
        if issubclass(each, numbers.Complex) and not issubclass(each, numbers.Real):
            raise TypeError(f"a window's end is a number or its bytes, not {each.__name__}")


def side_bytes(kind: int, side: Any) -> Optional[bytes]:
    """The minimum and the maximum of a side, or None where it is no pair or its kind can't hold an end."""
    try:
        low, high = side
    except (TypeError, ValueError):
        return None
    no_complex((type(low), type(high)))
    try:
        return _PAIRS[kind](low, high)
    except (KeyError, struct.error, OverflowError):
        pass
    first, second = _pattern(kind, low), _pattern(kind, high)
    return None if first is None or second is None else first + second
