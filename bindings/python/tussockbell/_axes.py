"""An axis of a picture: where a number lies on it, and round numbers along it, written exactly."""

from __future__ import annotations

import math
import sys
from fractions import Fraction
from typing import Any, NamedTuple

# A tree's numbers are integers or floats; a grid's cells end in the middle between two integers.
Number = Any

_PADDING = 4  # parts of a hundred, on both sides
_INTERVALS = 6
_MOST = sys.float_info.max
# A label has no more characters, and a number before the labels no more digits.
_LABEL, _SHORT, _BASE = 8, 4, 24

_LIMITS = {"int32": (-(2**31), 2**31 - 1), "int64": (-(2**63), 2**63 - 1), "uint64": (0, 2**64 - 1)}


def _scale(low: float, high: float) -> float:
    """What two ends are multiplied by before one is taken from the other, so that what lies between is no infinity."""
    return 0.25 if max(abs(low), abs(high)) > 1e300 else 1.0


def _padded(low: Number, high: Number, whole: bool) -> tuple[Number, Number]:
    """Some room on both sides."""
    if whole:
        room = max((high - low) * _PADDING / Fraction(100), 1)
        return low - math.ceil(room), high + math.ceil(room)
    by = _scale(low, high)
    room = (high * by - low * by) * _PADDING / 100 / by or max(abs(low), 1.0) * _PADDING / 100
    return max(low - room, -_MOST), min(high + room, _MOST)


def _ticks(low: Number, high: Number, whole: bool) -> tuple[list[int], int]:
    """Multiples of 1, 2 or 5 of a power of ten, at most seven of them: in units of that power, and its exponent."""
    first, last = Fraction(low), Fraction(high)
    rough = (last - first) / _INTERVALS
    exponent = math.floor(math.log10(rough.numerator) - math.log10(rough.denominator))
    while Fraction(10) ** exponent > rough:
        exponent -= 1
    while Fraction(10) ** (exponent + 1) <= rough:
        exponent += 1
    step = next(step for step in (1, 2, 5, 10) if step * Fraction(10) ** exponent >= rough)
    if whole and exponent < 0:
        step, exponent = 1, 0
    unit = step * Fraction(10) ** exponent
    return [step * n for n in range(math.ceil(first / unit), math.floor(last / unit) + 1)], exponent


def _decimal(number: int, exponent: int) -> str:
    """number * 10^exponent, with all of its digits."""
    if exponent >= 0:
        return str(number * 10**exponent)
    digits = f"{abs(number):0{1 - exponent}d}"
    return f"{'-' if number < 0 else ''}{digits[:exponent]}.{digits[exponent:]}"


def _zeros(numbers: list[int]) -> int:
    """How many zeros all of these end in."""
    common, zeros = math.gcd(*numbers), 0
    while common and common % 10 == 0:
        common, zeros = common // 10, zeros + 1
    return zeros


def _power(exponent: int) -> str:
    return f" × 10^{exponent}" if exponent else ""


def _base(number: int, exponent: int) -> str:
    """A number that labels are added to, exact: with all of its digits where they are not too many."""
    text = _decimal(number, exponent)
    if "." in text:
        text = text.rstrip("0").rstrip(".")
    zeros = _zeros([number])
    return text if len(text) <= _BASE else f"{number // 10**zeros}{_power(exponent + zeros)}"


def _labels(ticks: list[int], exponent: int) -> tuple[list[str], str]:
    """What stands at ticks, in units of a power of ten, and what is done to it to have the number; nothing where it is the number."""
    plain = [_decimal(tick, exponent) for tick in ticks]
    if max(map(len, plain)) <= _LABEL:
        return plain, ""
    zeros = _zeros(ticks)
    scaled = [str(tick // 10**zeros) for tick in ticks]
    if max(map(len, scaled)) <= _SHORT:
        return scaled, f"label{_power(exponent + zeros)}"
    unit = 10 ** len(str(ticks[-1] - ticks[0]))
    base = ticks[0] // unit * unit
    above = [tick - base for tick in ticks]
    whole = [_decimal(each, exponent) for each in above]
    if exponent >= 0 and max(map(len, whole)) <= _LABEL:
        return whole, f"{_base(base, exponent)} + label"
    zeros = _zeros(above)
    return [str(each // 10**zeros) for each in above], f"{_base(base, exponent)} + label{_power(exponent + zeros)}"


class Tick(NamedTuple):
    at: float
    label: str


class Axis:
    """The numbers from `low` to `high` and some room around them, over `length` units of the picture from `start` on."""

    def __init__(self, name: str, kind: str, low: Number, high: Number, start: float, length: float) -> None:
        self.kind, self.whole = kind, kind in _LIMITS
        self.low, self.high = _padded(low, high, self.whole)
        self.start, self.length = start, length
        self._by = 1 if self.whole else _scale(self.low, self.high)
        ticks, exponent = _ticks(self.low, self.high, self.whole)
        if self.whole:
            least, greatest = _LIMITS[kind]
            ticks = [tick for tick in ticks if least <= tick * 10**exponent <= greatest]
        labels, how = _labels(ticks, exponent)
        places = [(tick * Fraction(10) ** exponent - Fraction(self.low)) / (Fraction(self.high) - Fraction(self.low)) for tick in ticks]
        self.ticks = [Tick(start + float(place) * length, label) for place, label in zip(places, labels)]
        self.title = f"{name} = {how}" if how else name

    def at(self, number: Number) -> float:
        by = self._by
        return self.start + float((number * by - self.low * by) / (self.high * by - self.low * by)) * self.length

    def cells(self, count: int) -> tuple[Number, Number, float]:
        """By what a number is multiplied, what is taken away and by what the rest is multiplied to have in which of so many cells along
        the axis it lies. The end of the axis is still in the last one."""
        by = self._by
        return by, self.low * by, count * (1 - 2.0**-40) / float(self.high * by - self.low * by)
