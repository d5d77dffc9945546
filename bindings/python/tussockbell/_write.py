"""The tree over given leaves: how long is it, and which bytes are it?"""

from __future__ import annotations

from typing import Any, SupportsIndex

from tussockbell import _functions as c
from tussockbell import _reasons
from tussockbell._boxes import lend_boxes
from tussockbell._description import Description
from tussockbell._kinds import box_bytes
from tussockbell._lending import Bytes, Lent, Room, lend_room, lent, limited, overlap
from tussockbell._reasons import _WRITE_LENGTH, _WriteAnswer
from tussockbell._refused import NUMBER, Refusal, refused

_c_write_tree = c.function("write_tree", [*c.description, c.u64, c.u64, *c.run, *c.run, c.pointer])


def tree_length(description: Description, tiles: SupportsIndex, fanout: SupportsIndex) -> int:
    """How many bytes a tree of so many tiles has."""
    return _told(description, _reasons.tree_length(description, limited(tiles), limited(fanout)))


def _told(description: Description, answer: Any) -> int:
    """The length that an answer tells."""
    if answer[NUMBER]:
        raise refused(answer, _reasons.of_description(description))
    length: int = answer[_WRITE_LENGTH]
    return length


def _write(description: Description, tiles: int, fanout: int, leaves: Lent, out: Lent) -> int:
    answer = _WriteAnswer()
    _c_write_tree(*description._given, tiles, fanout, *leaves, *out, answer)
    if answer[NUMBER] == Refusal.BYTES:
        raise refused(answer, _reasons.lengths(tiles * box_bytes(description._given[0]), leaves[1]))
    if answer[NUMBER] == Refusal.ROOM:
        raise refused(answer, _reasons.lengths(tree_length(description, tiles, fanout), out[1]))
    return _told(description, answer)


def write_tree(description: Description, tiles: SupportsIndex, fanout: SupportsIndex, leaves: Bytes) -> bytes:
    """Writes the whole R-tree body of so many leaf boxes, which stand one after the other in `leaves`.

    A leaf box is the minimum and the maximum of each dimension, little-endian, of that dimension's kind. An array of
    them fits as `help(tussockbell)` says, or is a TypeError. Each box above the leaves is the least box around its row
    of children. `open_tree` accepts the body with every footer of this description and this number of tiles whose
    domain holds the first box.
    """
    number, most = limited(tiles), limited(fanout)
    with lend_boxes(description._given[0], leaves, "leaves") as view:
        length = tree_length(description, number, most)
        # Leaves of another length are refused whatever the room is.
        out = bytearray(length if view.nbytes == number * box_bytes(description._given[0]) else 0)
        with memoryview(out) as room:
            _write(description, number, most, lent(view), lent(room))
    return bytes(out)


def write_tree_into(description: Description, tiles: SupportsIndex, fanout: SupportsIndex, leaves: Bytes, out: Room) -> int:
    """Writes the body to the start of a buffer that is lent, and returns its length. Bytes past it stay as they are.

    Where it is refused the buffer stays as it is; 26 says that all else is well and the buffer is too short. It must be one that
    can be written to, with its bytes one after the other, and must not overlap the leaves.
    """
    with lend_room(out) as room, lend_boxes(description._given[0], leaves, "leaves") as view:
        if overlap(lent(view), lent(room)):
            raise ValueError("the leaves and the buffer to write to overlap")
        return _write(description, limited(tiles), limited(fanout), lent(view), lent(room))
