"""Only committed fragments: which folders of a listing count."""

from __future__ import annotations

import operator
from dataclasses import dataclass, field
from typing import Optional, SupportsIndex

from tussockbell import _functions as c
from tussockbell._lending import LARGEST, Bytes, lend, lent
from tussockbell._refused import NUMBER, refused
from tussockbell._tiles import buffer, wanted_room

# ---- the names of include/tussockbell.h, without their TUSSOCKBELL

_COMMITTED_FOUND, _COMMITTED_PLACES = 2, 3

_c_committed = c.function("committed", [*c.run, c.u64, *c.run, c.pointer])

_CommittedAnswer = c.u64 * _COMMITTED_PLACES

# An accepted listing has no more lines, so that no more of them can be found.
_MOST_LINES = 1024


@dataclass(frozen=True)
class Committed:
    """What a listing answers.

    `lines` are the numbers of the lines, counted from 0, whose folders count and are no later than the reading time, in
    the order of the listing; the first ones where there was less room. `found` is how many there are in all. `names`
    are the names of the folders at `lines`.
    """

    lines: list[int]
    found: int
    _names: tuple[str, ...] = field(default=(), repr=False, compare=False)

    @property
    def names(self) -> list[str]:
        """The names of the folders at `lines`."""
        return list(self._names)


def committed(listing: Bytes, time: SupportsIndex, room: Optional[SupportsIndex] = None) -> Committed:
    """Which folders of a listing are committed, and no later than a reading time?

    A listing has one record a line: a kind, which is `folder`, `wrt`, `con` or `ign`, a tab, and a name,
    `__t1_t2_uuid_v`. A folder counts if a wrt names it, or a con names it and no ign does; those whose t2 is at most
    `time` are found. Where a listing is refused the place is its line, counted from 0: 24 says that it is no record, or
    one too many, and 25 that an earlier line is the same.

    `time` is any number from 0 to 2^64 - 1, else it is a ValueError. With `room` no more than that many lines are
    listed, the first ones.
    """
    until = operator.index(time)
    if not 0 <= until <= LARGEST:
        raise ValueError(f"a reading time is 0 to 2^64 - 1, not {until}")
    places = wanted_room(room, _MOST_LINES)
    out, answer = buffer(places), _CommittedAnswer()
    with lend(listing) as view:
        _c_committed(*lent(view), until, out.buffer_info()[0], places, answer)
        if answer[NUMBER]:
            raise refused(answer)
        found = answer[_COMMITTED_FOUND]
        lines = out[:found].tolist()
        text = view.tobytes().split(b"\n") if lines else []
    names = tuple(text[line].split(b"\t")[1].decode("ascii") for line in lines)
    return Committed(lines, found, names)
