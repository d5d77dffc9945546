"""What more can be said of a refusal than its number and its place? Worked out only once there is one, and for people alone."""

from __future__ import annotations

import ctypes
import reprlib
from typing import Any, Optional

from tussockbell import _functions as c
from tussockbell import limits
from tussockbell._description import Description
from tussockbell._kinds import NAME_OF, NO_KIND, WIDTHS, box_bytes, side_bytes
from tussockbell._lending import Lent
from tussockbell._refused import NUMBER, Refusal
from tussockbell._window import Window

# ---- the names of include/tussockbell.h, without their TUSSOCKBELL

_WRITE_LENGTH, _WRITE_PLACES = 2, 3

_c_tree_length = c.function("tree_length", [*c.description, c.u64, c.u64, c.pointer])
_WriteAnswer = c.u64 * _WRITE_PLACES

# What a footer has beside the schema name, the domain and the fields; and for each field.
_FOOTER_BYTES, _FIELD_BYTES = 64, 88


def said(value: object) -> str:
    """A value as it was given, cut where it is long."""
    try:
        return reprlib.repr(value)
    except Exception:
        return f"a {type(value).__name__}"


def _read(lent: Lent, at: int, width: int) -> int:
    """A number of lent bytes, in which it lies."""
    return int.from_bytes(ctypes.string_at((lent[0] or 0) + at, width), "little")


def lengths(expected: int, given: int) -> str:
    return f"{expected} bytes expected, {given} given"


def _outside(name: str, value: object, least: int, most: int) -> str:
    return f"{name} is {said(value)}, where it is {least} to {most}"


def of_description(description: Description) -> Optional[str]:
    """Which number of a description is outside the limits."""
    kinds, dimensions, fields, capacity = description._given
    if not limits.LEAST_DIMENSIONS <= dimensions <= limits.MOST_DIMENSIONS:
        return f"{dimensions} kinds, where they are {limits.LEAST_DIMENSIONS} to {limits.MOST_DIMENSIONS}"
    if NO_KIND in kinds:
        return f"{said(description.kinds[kinds.index(NO_KIND)])}, of dimension {kinds.index(NO_KIND)}, is no kind"
    if not limits.LEAST_FIELDS <= fields <= limits.MOST_FIELDS:
        return _outside("fields", description.fields, limits.LEAST_FIELDS, limits.MOST_FIELDS)
    if not limits.LEAST_CAPACITY <= capacity <= limits.MOST_CAPACITY:
        return _outside("capacity", description.capacity, limits.LEAST_CAPACITY, limits.MOST_CAPACITY)
    return None


def of_footer(description: Description, answer: Any, file_size: int, footer: Lent) -> Optional[str]:
    """What is wrong with a footer, or its description: the number outside the limits, or the lengths."""
    if answer[NUMBER] == Refusal.DESCRIPTION:
        return of_description(description)
    if answer[NUMBER] != Refusal.BYTES:
        return None
    kinds, _, fields, _ = description._given
    fixed, given = _FOOTER_BYTES + box_bytes(kinds) + _FIELD_BYTES * fields, footer[1]
    if given < 12:
        return f"{fixed + limits.LEAST_NAME} bytes expected at least, {given} given"
    expected = fixed + _read(footer, 4, 8)
    if given != expected:
        others, left = divmod(given - expected, _FIELD_BYTES)
        counted = not left and limits.LEAST_FIELDS <= fields + others <= limits.MOST_FIELDS
        return lengths(expected, given) + (f", as with fields={fields + others}" if counted else "")
    if file_size < expected:
        return f"the file's size is {file_size}, and the footer's {expected}"
    return f"the length field reads {_read(footer, given - 8, 8)}, where it is {expected - 8}"


def tree_length(description: Description, tiles: int, fanout: int) -> Any:
    """The library's answer to how many bytes a tree has."""
    answer = _WriteAnswer()
    _c_tree_length(*description._given, tiles, fanout, answer)
    return answer


def of_tree(description: Description, answer: Any, tiles: int, tree: Lent) -> Optional[str]:
    """What is wrong with a tree of so many tiles, or its description."""
    if answer[NUMBER] == Refusal.DESCRIPTION:
        return of_description(description)
    if answer[NUMBER] != Refusal.BYTES:
        return None
    if tree[1] < 8:
        return f"8 bytes expected at least, {tree[1]} given"
    expected = tree_length(description, tiles, _read(tree, 0, 4))
    return None if expected[NUMBER] else lengths(expected[_WRITE_LENGTH], tree[1])


def of_list(answer: Any, tiles: int, body: Lent) -> Optional[str]:
    """What is wrong with a list of one u64 a tile."""
    if answer[NUMBER] == Refusal.BYTES:
        return lengths(8 + 8 * tiles, body[1])
    if answer[NUMBER] == Refusal.COUNT:
        return f"it is {_read(body, 0, 8)}, and there are {tiles} tiles"
    return None


def of_values(answer: Any, kind: Optional[int], tiles: int, body: Lent) -> Optional[str]:
    """What is wrong with mins or maxes of a kind, or of a var field, which has none."""
    if answer[NUMBER] != Refusal.BYTES:
        return of_list(answer, tiles, body)
    values = 8 + tiles * (8 if kind is None else WIDTHS[kind])
    if body[1] < values + 8:
        return f"{values + 8} bytes expected{' at least' if kind is None else ''}, {body[1]} given"
    buffer = _read(body, values, 8)
    if kind is not None and buffer:
        return f"the var buffer's size is {buffer}, and a fixed kind has none"
    return lengths(values + 8 + buffer, body[1])


def of_window(description: Description, answer: Any, window: Any, own: bytes) -> Optional[str]:
    """Why a window, whose kinds came to `own`, is not one of a description's."""
    if answer[NUMBER] != Refusal.WINDOW:
        return of_description(description) if answer[NUMBER] == Refusal.DESCRIPTION else None
    kinds = description._given[0]
    if len(own) != len(kinds):
        return f"{len(own)} dimensions, where the description has {len(kinds)}"
    at = next(i for i, kind in enumerate(own) if kind != kinds[i])
    name = NAME_OF.get(kinds[at])
    if own[at] in NAME_OF:
        return f"dimension {at} is {NAME_OF[own[at]]} in the window and {name} in the description"
    if isinstance(window, Window) or not isinstance(window, (list, tuple)):
        return f"dimension {at} is {name}, and the window has no kind there, no pair, or an end that its kind can't hold"
    return f"dimension {at} is {name}, and {_not_held(kinds[at], window[at])}"


def _not_held(kind: int, side: Any) -> str:
    """Which part of a side its kind can't hold."""
    try:
        low, high = side
    except (TypeError, ValueError):
        return f"{said(side)} is no pair of ends"
    return f"can't hold {said(low if side_bytes(kind, (low, low)) is None else high)}"
