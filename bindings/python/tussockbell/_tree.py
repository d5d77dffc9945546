"""A tree that was opened: what is asked of it?"""

from __future__ import annotations

from collections.abc import Iterable
from typing import Any, Optional, SupportsIndex, Union

from tussockbell import _functions as c
from tussockbell import _batch, _query, _reasons, _replay
from tussockbell._batch import Batch, Windows
from tussockbell._description import Description
from tussockbell._footer import footer_tiles
from tussockbell._kinds import Range
from tussockbell._lending import Bytes, Lent, file_size_of, kept, lend, lent, pickled_bytes, same_bytes
from tussockbell._query import Counts, Hit
from tussockbell._refused import NUMBER, Refused, refused
from tussockbell._window import Window

# ---- the names of include/tussockbell.h, without their TUSSOCKBELL

_OPEN_WHICH, _OPEN_TILES, _OPEN_FANOUT, _OPEN_LEVELS, _OPEN_PLACES = 2, 3, 4, 5, 6

_c_open = c.function("open", [*c.footer, *c.run, c.pointer])

_OpenAnswer = c.u64 * _OPEN_PLACES

# The two byte strings, as a refusal calls them.
OF = ("the footer", "the tree")


class Tree:
    """An opened tree: `tiles`, `fanout`, `levels`, `query`, `query_batch` and `replay`. `open_tree` makes it.

    It keeps hold of the tree's bytes for as long as it lives, with no copy. They must stay as they are: a query does not check
    them again. Where they are those of a mapped file, cutting the file short ends the process at the next query (SIGBUS).

    Two trees are equal if their description and their bytes are. A tree is pickled with its bytes, which are not checked again; one
    over a mapped file is a TypeError there, since a `Fragment` of paths does that better.
    """

    __slots__ = {
        "description": "The description that it was opened with.",
        "tiles": "How many tiles there are.",
        "fanout": "How many children a box has at most.",
        "levels": "How many levels there are, the root's and the tiles' counted.",
        "_view": None,
        "_lent": None,
    }

    def __init__(self, description: Description, view: memoryview, tiles: int, fanout: int, levels: int) -> None:
        self.description, self._view, self._lent = description, view, lent(view)
        self.tiles, self.fanout, self.levels = tiles, fanout, levels

    def query(self, window: Union[Window, Iterable[Range]], room: Optional[SupportsIndex] = None) -> Hit:
        """Which tiles does a window touch? Exactly those whose box meets it, in rising order.

        The window is a pair of ends for each dimension, or a `Window`, which says what an end may be. With `room` no more than
        that many tiles are listed, the first ones.
        """
        return _query.ask(self.description, self.tiles, self._lent, window, room)

    def query_into(self, window: Union[Window, Iterable[Range]], out: Any) -> Counts:
        """Which tiles does a window touch? As the function `query_into`, on this tree: the tiles go to a buffer that is lent."""
        return _query.ask_into(self.description, self.tiles, self._lent, window, out)

    def query_batch(
        self, windows: Windows, room: Optional[SupportsIndex] = None, refused: str = "list"
    ) -> list[Union[Hit, Refused]]:
        """Which tiles does each window touch? As the function `query_batch`, on this tree."""
        return _batch.ask_batch(self.description, self.tiles, self._lent, windows, room, refused)

    def query_batch_arrays(self, windows: Windows, room: Optional[SupportsIndex] = None, refused: str = "list") -> Batch:
        """Which tiles does each window touch? As the function `query_batch_arrays`, on this tree: answers and tiles as arrays."""
        return _batch.ask_arrays(self.description, self.tiles, self._lent, windows, room, refused)

    def replay(self, log: Bytes) -> bytes:
        """Asks every query of a log again. As the function `replay`, on this tree."""
        return _replay.replayed(self.description, self.tiles, self._lent, log)

    def __eq__(self, other: object) -> bool:
        if not isinstance(other, Tree):
            return NotImplemented
        return self.description == other.description and same_bytes(self._view, other._view)

    def __hash__(self) -> int:
        return hash((self.description, self.tiles, self.fanout))

    def __repr__(self) -> str:
        return f"<Tree: {self.tiles} tiles, fanout {self.fanout}, {self.levels} levels>"

    def __reduce__(self) -> tuple[Any, ...]:
        return _restored, (self.description, pickled_bytes(self._view, "a tree"), self.tiles, self.fanout, self.levels)


def _restored(description: Description, data: bytes, tiles: int, fanout: int, levels: int) -> Tree:
    """A tree that was pickled."""
    return Tree(description, memoryview(data), tiles, fanout, levels)


def refusal(description: Description, answer: Any, size: int, footer: Lent, tree: Lent) -> Refused:
    """Why a footer and a tree, lent together, are refused."""
    which = answer[_OPEN_WHICH]
    if which:
        detail = _reasons.of_tree(description, answer, footer_tiles(description, size, footer), tree)
    else:
        detail = _reasons.of_footer(description, answer, size, footer)
    return refused(answer, detail, which, OF)


def open_tree(description: Description, file_size: SupportsIndex, footer: Bytes, tree: Bytes) -> Tree:
    """Opens a footer and a tree together, and checks every box.

    The tree's bytes must stay as they are while the `Tree` is in use.
    """
    answer, size = _OpenAnswer(), file_size_of(file_size)
    with lend(footer) as first, kept(tree) as view:
        _c_open(*description._given, size, *lent(first), *lent(view), answer)
        if answer[NUMBER]:
            raise refusal(description, answer, size, lent(first), lent(view))
        return Tree(description, view, answer[_OPEN_TILES], answer[_OPEN_FANOUT], answer[_OPEN_LEVELS])
