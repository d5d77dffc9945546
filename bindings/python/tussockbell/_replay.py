"""Logs of queries: their lines, and the replay of a log against a tree."""

from __future__ import annotations

import operator
import struct
from collections.abc import Iterable
from typing import Any, SupportsIndex, Union

from tussockbell import _functions as c
from tussockbell._description import Description
from tussockbell._kinds import NO_KIND, Range, ends_format
from tussockbell._lending import Bytes, Lent, Room, lend, lend_room, lent, limited, overlap
from tussockbell._query import Hit
from tussockbell._refused import NUMBER, refused
from tussockbell._window import Window

_REPLAY_LENGTH, _REPLAY_PLACES = 2, 3
# No line of a replay is longer.
_REPLAY_LINE = 113
# A log's newlines are counted in copies of so many bytes.
_BLOCK = 1 << 20

_c_replay = c.function("replay", [*c.description, c.u64, *c.run, *c.run, *c.run, c.pointer])
_ReplayAnswer = c.u64 * _REPLAY_PLACES


def _logged_end(end: Any) -> int:
    try:
        return operator.index(end)
    except TypeError:
        raise TypeError(f"an end in a log is an integer, not {type(end).__name__}") from None


def _window_ends(window: Any) -> list[Any]:
    """The ends of a window, minimum and maximum of each dimension in turn."""
    if not isinstance(window, Window):
        return [end for low, high in window for end in (low, high)]
    if NO_KIND in window._kinds:
        raise TypeError("a window with a side of no kind has no line in a log")
    return list(struct.unpack(ends_format(window._kinds), window._ends))


def log_line(window: Union[Window, Iterable[Range]], hit: Hit) -> bytes:
    """The line of a log that says what a query answered: the window's ends, found and looked, tab-parted, and a newline.

    Only integers can be logged: a float end is a TypeError, and so is a `Refused` in place of the hit.
    """
    if not isinstance(hit, Hit):
        raise TypeError(f"a log has what a query answered, not {type(hit).__name__}")
    numbers = [*map(_logged_end, _window_ends(window)), hit.found, hit.looked]
    return "\t".join(map(str, numbers)).encode() + b"\n"


def _lines(view: memoryview) -> int:
    """As many lines as a log has, or one more."""
    data = view.cast("B") if view.nbytes else view
    return sum(bytes(data[at : at + _BLOCK]).count(b"\n") for at in range(0, view.nbytes, _BLOCK)) + 1


def _ask(description: Description, tiles: int, tree: Lent, log: memoryview, out: memoryview) -> int:
    answer = _ReplayAnswer()
    _c_replay(*description._given, tiles, *tree, *lent(log), *lent(out), answer)
    if answer[NUMBER]:
        raise refused(answer)
    return answer[_REPLAY_LENGTH]


def replayed(description: Description, tiles: int, tree: Lent, log: Bytes) -> bytes:
    """The replay's text, over a tree that is lent already."""
    with lend(log) as view:
        out = bytearray(_REPLAY_LINE * _lines(view))
        with memoryview(out) as room:
            return bytes(room[: _ask(description, tiles, tree, view, room)])


def replay(description: Description, tiles: SupportsIndex, tree: Bytes, log: Bytes) -> bytes:
    """Asks every query of a log again, of a tree of so many tiles, and tells line by line whether the answer is the logged one.

    A line of the log is a record: tab-parted decimal numbers, the minimum and the maximum of each dimension in turn, then the
    number found and the number looked at. `log_line` writes one. The last line may lack its newline.

    Each record has one tab-parted line in the text, in order, ended by a newline: its number, from 0; `same` where both numbers
    agree, else `differs`; the logged pair, and the pair found now. A line that can't be read, is above 255 bytes or holds a
    query that is refused has its number and `bad`. Nothing is refused: with a float dimension, or a tree or a description that
    `query` refuses, every line is `bad`. `Tree.replay` is over an opened tree.
    """
    with lend(tree) as body:
        return replayed(description, limited(tiles), lent(body), log)


def replay_into(description: Description, tiles: SupportsIndex, tree: Bytes, log: Bytes, out: Room) -> int:
    """Writes the text of `replay` to the start of a buffer that is lent, and returns its length. Bytes past it stay as they are.

    A buffer that is shorter than the text is refused (26) and stays as it is; 113 bytes a line are always enough, and with less
    the queries are asked twice. It must be one that can be written to, with its bytes one after the other, and must overlap
    neither the tree nor the log.
    """
    with lend_room(out) as room, lend(tree) as body, lend(log) as view:
        if any(overlap(lent(each), lent(room)) for each in (body, view)):
            raise ValueError("the buffer to write to overlaps the tree or the log")
        return _ask(description, limited(tiles), lent(body), view, room)
