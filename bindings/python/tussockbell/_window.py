"""What does the library take for a window?"""

from __future__ import annotations

import functools
import struct
import sys
from collections.abc import Callable, Iterable, Sequence
from typing import Any, Optional, Union

from tussockbell._kinds import (
    FLOAT32, FLOAT64, NAME_OF, NAMES, NO_KIND, WIDTHS, Kind, Range, ends_format, kind_bytes, no_complex, side_bytes,
)
from tussockbell.limits import MOST_DIMENSIONS

# Enough for the zero ends of a range of any kind: those of a side that has no kind.
_NO_ENDS = bytes(16)


def _window_bytes(kinds: bytes, sides: Sequence[Any]) -> tuple[bytes, bytes]:
    """Kinds and ends as the library takes them. A side that its kind can't hold has no kind."""
    given, ends = bytearray(kinds), []
    for i, side in enumerate(sides):
        pair = side_bytes(kinds[i], side)
        if pair is None:
            given[i], pair = NO_KIND, _NO_ENDS
        ends.append(pair)
    return bytes(given), b"".join(ends)


class Window:
    """A window with kinds of its own, made once and asked with many times.

        tb.Window(["int32", "int64"], [(low, high), (low, high)])

    A plain list of pairs does for most: it takes the kinds of the description. A window's dimensions are as many as its kinds or
    its ranges, whichever are more; what is then missing is of no kind, and refused (19).

    Each end counts as inside. An end is a number or, to give its exact pattern, its little-endian bytes (4 or 8, as its kind
    has). For an integer kind it is an integer, or another number that is whole. For a float kind it is rounded to the nearest
    number of that kind, and past the largest to an infinity. Stored ends are numbers of that kind, and rounding keeps the order,
    so no tile is lost that the exact window touches. An end that its kind can't hold, such as 1.5 or 2**40 for int32, and a side
    that is no pair, are refused as another kind (19 at the dimension). An end that is neither number nor bytes is a TypeError.

    Two windows are equal if their kinds and the patterns of their ends are.
    """

    __slots__ = ("_kinds", "_ends")

    def __init__(self, kinds: Iterable[Kind], ranges: Iterable[Range]) -> None:
        given, sides = kind_bytes(kinds), list(ranges)
        dimensions = max(len(given), len(sides))
        self._kinds, self._ends = _window_bytes(
            given.ljust(dimensions, bytes([NO_KIND])), sides + [None] * (dimensions - len(sides))
        )

    @classmethod
    def _of(cls, kinds: bytes, ends: bytes) -> Window:
        """The window of these kinds and ends, as the library takes them."""
        made = cls.__new__(cls)
        made._kinds, made._ends = kinds, ends
        return made

    def _sides(self) -> list[Optional[bytes]]:
        """Both ends of each dimension, or None where it has no kind."""
        sides, at = [], 0
        for kind in self._kinds:
            width = 2 * WIDTHS[kind] if kind in WIDTHS else len(_NO_ENDS)
            sides.append(self._ends[at : at + width] if kind in WIDTHS else None)
            at += width
        return sides

    def __eq__(self, other: object) -> bool:
        if not isinstance(other, Window):
            return NotImplemented
        return (self._kinds, self._ends) == (other._kinds, other._ends)

    def __hash__(self) -> int:
        return hash((self._kinds, self._ends))

    def __repr__(self) -> str:
        kinds = [NAME_OF.get(kind) for kind in self._kinds]
        sides = zip(self._kinds, self._sides())
        ranges = [None if ends is None else struct.unpack(ends_format(bytes([kind])), ends) for kind, ends in sides]
        return f"Window({kinds}, {ranges})"

    def __reduce__(self) -> tuple[Any, ...]:
        return _restored, (self._kinds, self._ends)


def _restored(kinds: bytes, ends: bytes) -> Window:
    """A window that was pickled."""
    return Window._of(kinds, ends)


def given_window(kinds: bytes, window: Any) -> tuple[bytes, bytes]:
    """Kinds and ends of a window as the library takes them, of these kinds where it has none of its own."""
    if isinstance(window, Window):
        return window._kinds, window._ends
    sides = window if isinstance(window, (list, tuple)) else list(window)
    if len(kinds) != len(sides):
        kinds = kinds[: len(sides)].ljust(len(sides), bytes([NO_KIND]))
    return _window_bytes(kinds, sides)


def widened(kinds: bytes, window: Union[Window, Iterable[Range]]) -> Window:
    """A window, of these kinds where it has none of its own, with its float32 ranges as float64."""
    given = Window._of(*given_window(kinds, window))
    sides = [
        struct.pack("<2d", *struct.unpack("<2f", ends)) if kind == FLOAT32 and ends else ends or _NO_ENDS
        for kind, ends in zip(given._kinds, given._sides())
    ]
    return Window._of(bytes(FLOAT64 if kind == FLOAT32 else kind for kind in given._kinds), b"".join(sides))


# ---- many windows of one description's kinds


@functools.lru_cache(maxsize=64)
def window_width(kinds: bytes) -> int:
    """The bytes of a window in a run of them: a number that is no kind counts as int32, and the first four count."""
    return sum(2 * WIDTHS.get(kind, WIDTHS[NAMES["int32"]]) for kind in kinds[:MOST_DIMENSIONS])


@functools.lru_cache(maxsize=64)
def _packer(kinds: bytes) -> Callable[[list[Any]], bytes]:
    """What packs windows of these kinds. A window that has another number of sides, or a side that is no pair, is a ValueError."""
    pack = struct.Struct(ends_format(kinds)).pack
    packers: dict[int, Callable[[list[Any]], bytes]] = {
        1: lambda windows: b"".join([pack(a, b) for ((a, b),) in windows]),
        2: lambda windows: b"".join([pack(a, b, c, d) for (a, b), (c, d) in windows]),
        3: lambda windows: b"".join([pack(a, b, c, d, e, f) for (a, b), (c, d), (e, f) in windows]),
        4: lambda windows: b"".join([pack(a, b, c, d, e, f, g, h) for (a, b), (c, d), (e, f), (g, h) in windows]),
    }
    return packers[len(kinds)]


def packed(kinds: bytes, windows: list[Any]) -> Optional[bytes]:
    """All windows packed, or None where one has to be looked at first."""
    try:
        # A window that can be gone through only once has no length: it is left to be looked at.
        if not all(map(len, windows)):
            return None
        # No complex number but numpy's is packed.
        if "numpy" in sys.modules:
            no_complex({type(end) for window in windows for side in window for end in side})
        return _packer(kinds)(windows)
    except (KeyError, TypeError, ValueError, struct.error, OverflowError):
        return None
