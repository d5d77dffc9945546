"""Why does the library not answer? The refusals by name, and the exception that has one."""

from __future__ import annotations

import enum
from collections.abc import Sequence
from typing import Any, Optional

# ---- the names of include/tussockbell.h, without their TUSSOCKBELL

NUMBER, PLACE = 0, 1


class Refusal(enum.IntEnum):
    """The numbers of all refusals, by the names that C and Rust have. `text` says each in words.

        except tb.Refused as refused:
            if refused.number == tb.Refusal.REVERSED: ...
    """

    text: str

    def __new__(cls, number: int, text: str = "") -> Refusal:
        made = int.__new__(cls, number)
        made._value_, made.text = number, text
        return made

    DESCRIPTION = 1, "description outside the limits"
    BYTES = 2, "byte count or length field wrong"
    VERSION = 3, "version outside the limits"
    NAME_SIZE = 4, "name size outside the limits"
    FLAG = 5, "a flag byte is neither 0 nor 1"
    DENSE = 6, "the dense flag is not this entry's"
    NULL_DOMAIN = 7, "null-domain flag is 1"
    NOT_A_NUMBER = 8, "a range end is NaN"
    REVERSED = 9, "minimum above maximum"
    TILES = 10, "tile number outside the limits"
    LAST_CELLS = 11, "last tile's cells not 1 to the capacity"
    OFFSET = 12, "an offset not below the footer's place in the file"
    FANOUT = 13, "fanout outside the limits"
    LEVELS = 14, "level number or a level's box count wrong"
    OUTSIDE_PARENT = 15, "a box not inside its parent"
    OUTSIDE_DOMAIN = 16, "the first box not inside the domain"
    COUNT = 17, "a list's count is not the number of tiles"
    TILE_OFFSETS = 18, "tile offsets break their rule"
    WINDOW = 19, "the window's dimension number or a kind differs"
    SUM = 20, "tile sizes add up past 2^64 - 1"
    WORK = 21, "the work buffer is too short"
    RUNS = 22, "the answer run is not as long as the query run"
    INFINITE = 23, "a stored range end is infinite"
    BAD_LINE = 24, "a bad line of a listing"
    REPEATED = 25, "a record repeated whole"
    ROOM = 26, "the output buffer is too short"
    NULL_COUNT = 27, "a null count above its tile's cells"
    RETIRED = 28, "a dimension of kind float32, which is retired"
    GRID = 29, "a float kind, an extent of 0, or a domain that does not split into whole tiles"


_TEXTS: dict[int, str] = {0: "not refused", **{int(refusal): refusal.text for refusal in Refusal}}
# These are about the bytes of neither where two byte strings are lent; so is a number of tiles that the caller gave, whose place is 0.
_OF_NEITHER = (Refusal.DESCRIPTION, Refusal.RETIRED, Refusal.WORK, Refusal.ROOM)


class Refused(Exception):
    """Raised where the library refuses.

    `number` says why; `Refusal` has the numbers by name, and `text` says it in words. `place` counts in the bytes that were lent, or
    in the dimensions. `which` is 1 where the place counts in the second of two byte strings (the tree of `open_tree`), and 0
    elsewhere.

    What follows is for people, and no part of equality: `of` is what the bytes are called that the place counts in, such as "the
    tree", where two byte strings were lent; `detail` says more where more is known, such as the bytes expected and given; `window`
    is the number of the window, from 0, where `query_batch` raised it. Each of them is None elsewhere.
    """

    def __init__(
        self, number: int, place: int, which: int = 0, of: Optional[str] = None, detail: Optional[str] = None,
        window: Optional[int] = None,
    ) -> None:
        super().__init__(number, place, which)
        self.number, self.place, self.which = number, place, which
        self.of, self.detail, self.window = of, detail, window

    @property
    def text(self) -> str:
        """What the number means, in the words of the C header."""
        return _TEXTS.get(self.number, "no refusal number")

    def __str__(self) -> str:
        of = self.of or ("the second byte string" if self.which else "")
        more = ": ".join(([f"window {self.window}"] if self.window is not None else []) + ([self.detail] if self.detail else []))
        return f"refused {self.number} at {self.place}{' of ' if of else ''}{of}: {self.text}{f' ({more})' if more else ''}"

    def __eq__(self, other: object) -> bool:
        if not isinstance(other, Refused):
            return NotImplemented
        return bool(self.args == other.args)

    def __hash__(self) -> int:
        return hash(self.args)


def refused(answer: Any, detail: Optional[str] = None, which: int = 0, of: Sequence[str] = ()) -> Refused:
    """What an answer refuses. `of` are the names of both byte strings, where two were lent."""
    number, place = answer[NUMBER], answer[PLACE]
    neither = number in _OF_NEITHER or (number == Refusal.TILES and place == 0)
    return Refused(number, place, which, of[which] if of and not neither else None, detail)
