"""Does an array hold windows, boxes or leaves of a description's kinds, or a run of tile numbers?"""

from __future__ import annotations

import ctypes
import functools
import math
import re
import struct
import sys
from typing import Any, Optional

from tussockbell._kinds import FORMATS
from tussockbell._lending import one_after_the_other, view_of
from tussockbell.limits import MOST_DIMENSIONS

# What an item of a buffer is to a description.
_BYTES, _ENDS, _RECORDS = "bytes", "ends", "records"
# The sort of number that a letter stands for, and the letter that has a sort and a width: those of the kinds, and of a tile's number.
_SORTS = {**dict.fromkeys("ilqn", "signed"), **dict.fromkeys("ILQN", "unsigned"), **dict.fromkeys("fd", "float")}
_LETTERS = {
    ("signed", 4): "i", ("signed", 8): "q", ("unsigned", 4): "I", ("unsigned", 8): "Q", ("float", 4): "f", ("float", 8): "d",
}
# The parts of a format as PEP 3118 has them. What is none of these stands for no end.
_PART = re.compile(
    r"(?P<order>[@=<>!^])|(?P<times>\(\d{1,9}(,\d{1,9})*\)|\d{1,9})"
    r"|(?P<open>T\{)|(?P<close>\})|(?P<name>:[^:]*:)|(?P<letter>[a-zA-Z])"
)
_ORDERS = {"<": "little", ">": "big", "!": "big"}


def _letter(orders: set[str], letter: str) -> Optional[str]:
    """The letter of a number's kind; None where it has none, is not little-endian, or has two widths by its orders."""
    if any(_ORDERS.get(order, sys.byteorder) != "little" for order in orders):
        return None
    try:
        widths = {struct.calcsize(order.replace("^", "@") + letter) for order in orders}
    except struct.error:
        return None
    return _LETTERS.get((_SORTS.get(letter, ""), widths.pop())) if len(widths) == 1 else None


def item_ends(layout: str) -> Optional[str]:
    """The ends that an item of this format has, one after the other, as the letters of their kinds; None where anything
    of it is no end. After a record in a record both the order in it and the one before count, since not all who write
    formats agree which of them it is."""
    ends, orders, times, at = "", {"@"}, 1, 0
    outer: list[tuple[str, set[str], int]] = []
    while at < len(layout):
        part = _PART.match(layout, at)
        if part is None:
            return None
        at, text, more = part.end(), part.group(), None
        if part.lastgroup == "order":
            orders = {text}
        elif part.lastgroup == "times":
            times *= math.prod(map(int, text.strip("()").split(",")))
        elif part.lastgroup == "open":
            outer.append((ends, orders, times))
            ends, times = "", 1
        elif part.lastgroup == "close" and outer and times == 1:
            more, (ends, before, times) = ends, outer.pop()
            orders = orders | before
        elif part.lastgroup == "letter":
            more = _letter(orders, text)
        if part.lastgroup in ("close", "letter"):
            if not more or not 0 < len(more) * times <= 2 * MOST_DIMENSIONS:
                return None
            ends, times = ends + more * times, 1
    return None if outer or times != 1 else ends


def _box_ends(kinds: bytes) -> str:
    """The letters of all ends of a box, or none where the kinds are outside the limits."""
    fit = len(kinds) <= MOST_DIMENSIONS and all(kind in FORMATS for kind in kinds)
    return "".join(2 * FORMATS[kind][1] for kind in kinds) if fit else ""


@functools.lru_cache(maxsize=64)
def _items(kinds: bytes, layout: str, width: int) -> Optional[str]:
    """What items of this format and so many bytes are to these kinds, or None where they do not fit."""
    if layout[-1:] in ("B", "c") and layout[:-1] in ("", "@", "=", "<"):
        return _BYTES if width == 1 else None
    ends, box = item_ends(layout), _box_ends(kinds)
    # Padding that no part of the format stands for shows in the width.
    if not ends or struct.calcsize("<" + ends) != width:
        return None
    if ends == box:
        return _RECORDS
    return _ENDS if len(ends) == 1 and "T" not in layout and set(box) == {ends} else None


def _fitting(kinds: bytes) -> str:
    """The formats that fit."""
    box = _box_ends(kinds)
    alike = ["<" + box[0]] if len(set(box)) == 1 else []
    records = ["T{" + "".join("<" + end for end in box) + "}"] if box else []
    return " or ".join(map(repr, ["B", *alike, *records]))


def _has_shape(items: str, dimensions: int, shape: tuple[int, ...], one: bool) -> bool:
    """Whether a buffer has the shape of one box, or of any number of them."""
    if items == _BYTES:
        return len(shape) == 1
    each = shape if one else shape[1:]
    if items == _RECORDS:
        return each == () and (one or shape != ())
    run = not one and len(shape) == 1 and shape[0] % (2 * dimensions) == 0
    return run or each in ((2 * dimensions,), (dimensions, 2))


def _shapes(items: str, dimensions: int, one: bool) -> str:
    """The shapes that fit."""
    if items == _BYTES:
        return "(bytes,)"
    if items == _RECORDS:
        return "()" if one else "(k,)"
    ends = 2 * dimensions
    return f"({ends},) or ({dimensions}, 2)" if one else f"({ends} * k,), (k, {ends}) or (k, {dimensions}, 2)"


def _has_bit_fields(of: Any) -> bool:
    """Whether a type of ctypes has bit fields, of which its format says nothing."""
    while issubclass(of, ctypes.Array):
        of = of._type_
    if not issubclass(of, ctypes.Structure):
        return False
    fields = [field for each in of.__mro__ for field in vars(each).get("_fields_", ())]
    return any(len(field) > 2 or _has_bit_fields(field[1]) for field in fields)


def look_at_mask(view: memoryview, what: str) -> None:
    if getattr(getattr(view.obj, "mask", None), "any", bool)():
        raise TypeError(f"{what}: an array with masked items, of which the mask can't be lent")


def _look_at(kinds: bytes, view: memoryview, what: str, one: bool) -> None:
    """A TypeError where a buffer is not what it is lent as."""
    items, dimensions = _items(kinds, view.format, view.itemsize), len(kinds)
    look_at_mask(view, what)
    if items is None:
        has = f"format {view.format!r}, {view.itemsize} bytes each"
        raise TypeError(f"{what}: items of {has}, where the description's kinds take {_fitting(kinds)}")
    if not _has_shape(items, dimensions, view.shape or (), one):
        raise TypeError(f"{what}: shape {view.shape}, where {items} take {_shapes(items, dimensions, one)}")
    if items == _RECORDS and _has_bit_fields(type(view.obj)):
        raise TypeError(f"{what}: items of format {view.format!r} that have bit fields")


def lend_boxes(kinds: bytes, data: Any, what: str, one: bool = False) -> memoryview:
    """A view of windows, of leaves or of one box, whose bytes lie one after the other. Items or a shape that do not fit
    the description's kinds are a TypeError, before anything is copied."""
    view = view_of(data)
    try:
        _look_at(kinds, view, what, one)
    except BaseException:
        view.release()
        raise
    return one_after_the_other(view)
