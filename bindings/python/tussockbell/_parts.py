"""A tree that arrives in blocks: is it one that opening would accept?"""

from __future__ import annotations

import ctypes
from collections.abc import Iterator
from contextlib import contextmanager
from typing import Any, NamedTuple, Optional, SupportsIndex

from tussockbell import _functions as c
from tussockbell import _reasons
from tussockbell._description import Description
from tussockbell._footer import footer_tiles
from tussockbell._kinds import box_bytes
from tussockbell._lending import Bytes, Room, file_size_of, lend, lent, overlap, view_of
from tussockbell._refused import NUMBER, PLACE, Refusal, refused
from tussockbell._tree import _OPEN_FANOUT, _OPEN_LEVELS, _OPEN_TILES, _OPEN_WHICH, OF, _OpenAnswer
from tussockbell.limits import MOST_FANOUT

# ---- the names of include/tussockbell.h, without their TUSSOCKBELL

_PARTS_PLACES = 40

_c_parts_start = c.function("parts_start", [*c.footer, c.u64, c.pointer])
_c_parts_block = c.function("parts_block", [c.pointer, *c.run, *c.run])
_c_parts_finish = c.function("parts_finish", [c.pointer, *c.run, c.pointer])

_PartsState = c.u64 * _PARTS_PLACES


class Opened(NamedTuple):
    """What an accepted tree answers that arrived in parts: `tiles`, `fanout` and `levels`, as a `Tree` has them."""

    tiles: int
    fanout: int
    levels: int


def _inner_bytes(width: int, tiles: int, fanout: int) -> int:
    """The bytes of the boxes above the leaf level."""
    boxes = 0
    while fanout > 1 and tiles > 1:
        tiles = -(-tiles // fanout)
        boxes += tiles
    return width * boxes


class TreeParts:
    """A tree that arrives in blocks, checked while it does: `write` each block, then `finish`.

        parts = tb.TreeParts(d, file_size, footer_bytes, stated=length)
        for block in blocks:
            parts.write(block)
        opened = parts.finish()  # or raises Refused, as open_tree of the whole would

    The answer depends on the bytes alone, not on how they were cut. No block is kept: to ask windows of the tree, keep its
    bytes, and open them with `open_tree` once all of them are there.

    The boxes above the leaf level go to a work buffer. It is made as large as it has to be once the fanout is known, or is
    lent as `work`: a writable buffer that nothing else may change until the finish. One that is too short is refused
    (21), and a block that has bytes in common with it is a ValueError.

    One object is for one thread at a time. A call that fails otherwise than by `Refused` may have taken a block in part
    or not at all: every later one is then a RuntimeError, and the tree has to be checked anew from its first block.
    """

    __slots__ = ("_description", "_stated", "_state", "_work", "_head", "_tiles", "_answer", "_under_way")

    def __init__(
        self, description: Description, file_size: SupportsIndex, footer: Bytes, stated: SupportsIndex,
        work: Optional[Room] = None,
    ) -> None:
        self._state, self._head, self._under_way = _PartsState(), bytearray(), False
        self._description, self._stated = description, file_size_of(stated)
        self._answer: Any = None
        self._work: Optional[memoryview] = None
        with lend(footer) as first:
            size, given = file_size_of(file_size), lent(first)
            _c_parts_start(*description._given, size, *given, self._stated, self._state)
            self._tiles = footer_tiles(description, size, given)
        if work is not None:
            view = view_of(work)
            if view.readonly or not view.c_contiguous:
                raise TypeError("a work buffer is writable, and its bytes lie one after the other")
            self._work = view

    def write(self, block: Bytes) -> None:
        """Takes one block, of any length."""
        if self._answer is not None:
            raise ValueError("the tree is finished")
        with self._call(), lend(block) as view:
            start, length = lent(view)
            if self._work is not None and overlap(lent(self._work), (start, length)):
                raise ValueError("the block and the work buffer overlap")
            if self._work is None and start is not None:
                # The first eight bytes are taken together, since they say how large the work buffer has to be.
                first = min(8 - len(self._head), length)
                self._head += ctypes.string_at(start, first)
                start, length = start + first, length - first
                if len(self._head) == 8:
                    self._take_head()
            if self._work is not None:
                _c_parts_block(self._state, *lent(self._work), start, length)

    def finish(self) -> Opened:
        """What all blocks came to: tiles, fanout and levels, or `Refused`."""
        if self._answer is None:
            with self._call():
                work = self._take_head() if self._work is None else self._work
                answer = _OpenAnswer()
                _c_parts_finish(self._state, *lent(work), answer)
                self._answer = answer
        if self._answer[NUMBER]:
            raise refused(self._answer, self._detail(), self._answer[_OPEN_WHICH], OF)
        return Opened(self._answer[_OPEN_TILES], self._answer[_OPEN_FANOUT], self._answer[_OPEN_LEVELS])

    def _detail(self) -> Optional[str]:
        """What more is known of the refusal: the lengths, or the number of the description."""
        number, place = self._answer[NUMBER], self._answer[PLACE]
        if number == Refusal.BYTES and self._answer[_OPEN_WHICH]:
            return f"{self._stated} bytes stated, {place} received" if place < self._stated else None
        return _reasons.of_description(self._description) if number == Refusal.DESCRIPTION else None

    @contextmanager
    def _call(self) -> Iterator[None]:
        """A call that takes bytes. There is none while another is under way, or after one that did not end well."""
        if self._under_way:
            raise RuntimeError("an earlier call of this TreeParts failed, or another thread is in one: it is of no use")
        self._under_way = True
        yield
        self._under_way = False

    def _take_head(self) -> memoryview:
        """Makes the work buffer, and takes the bytes that were held back until then."""
        fanout = int.from_bytes(self._head[:4], "little") if len(self._head) >= 4 else 0
        known = fanout if fanout <= MOST_FANOUT else 0
        self._work = memoryview(bytearray(_inner_bytes(box_bytes(self._description._given[0]), self._tiles, known)))
        with memoryview(self._head) as view:
            _c_parts_block(self._state, *lent(self._work), *lent(view))
        return self._work
