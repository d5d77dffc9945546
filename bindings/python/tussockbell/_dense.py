"""Dense fragments: their footers, and which tiles of a dense array's grid a window touches."""

from __future__ import annotations

import operator
import struct
from array import array
from collections.abc import Iterable
from dataclasses import dataclass
from typing import Any, NamedTuple, Optional, SupportsIndex, Union

from tussockbell import _functions as c
from tussockbell import _reasons
from tussockbell._description import Description
from tussockbell._footer import FooterNumbers, footer_numbers
from tussockbell._kinds import Range, ends_format
from tussockbell._lending import LARGEST, Bytes, lent, limited
from tussockbell._refused import NUMBER, Refusal, Refused, refused
from tussockbell._tiles import TileNumbers, lend_places, listed, wanted_room
from tussockbell._window import Window, given_window
from tussockbell.limits import MOST_TILES

# ---- the names of include/tussockbell.h, without their TUSSOCKBELL

_ROW_MAJOR, _COLUMN_MAJOR = 0, 1
_DENSE_CHECK_PLACES, _DENSE_FOUND, _DENSE_PLACES = 2, 2, 3

_ORDERS = {"row-major": _ROW_MAJOR, "column-major": _COLUMN_MAJOR}

_grid = [*c.description, *c.run, *c.run, *c.run, c.u64]
_c_dense_check = c.function("dense_check", [*_grid, c.pointer])
_c_dense_query = c.function("dense_query", [*_grid, *c.run, *c.run, *c.run, c.pointer])
_c_dense_footer = c.function("dense_footer", [*c.footer, c.pointer])

_DenseCheckAnswer = c.u64 * _DENSE_CHECK_PLACES
_DenseAnswer = c.u64 * _DENSE_PLACES


@dataclass(frozen=True)
class DenseFooter(FooterNumbers):
    """The numbers of a dense fragment's footer. It holds no bytes of the caller's.

    They are those of a `Footer`, which says what each is, but for the cells. A dense fragment counts no cells in its
    footer: `tiles` is 0, and `last_tile_cells` is whatever stands there.
    """


def read_dense_footer(description: Description, file_size: SupportsIndex, footer: Bytes) -> DenseFooter:
    """Reads the footer of a dense fragment, of a metadata file of `file_size` bytes.

    `read_footer` refuses it (6), and this function a sparse one. A float dimension is refused (29), and so is a number
    of tiles other than 0 (10); all else is checked as `read_footer` checks it.
    """
    return DenseFooter(**footer_numbers(_c_dense_footer, description, file_size, footer))


class DenseHit(NamedTuple):
    """What a window finds in a grid.

    `tiles` are the tiles found, counted from 0, rising; the first ones where there was less room. They compare and
    print as a list does, and `numpy.asarray` makes no copy of them. `found` is how many there are in all.
    """

    tiles: TileNumbers
    found: int


def _order(order: Union[str, SupportsIndex]) -> int:
    """An order as the library takes it. What is none becomes the largest number, which is none there either."""
    if isinstance(order, str):
        return _ORDERS.get(order, LARGEST)
    return limited(order)


def _extent(extent: SupportsIndex) -> int:
    number = operator.index(extent)
    if not 0 <= number <= LARGEST:
        raise ValueError(f"a tile extent is 0 to 2^64 - 1, not {number}")
    return number


class DenseGrid:
    """The tiles of a dense array, which has no tree: a grid over its domain.

        grid = tb.DenseGrid(d, domain=[(0, 99), (0, 99)], extents=[10, 25])
        hit = grid.query([(5, 14), (30, 30)])  # the tiles 1 and 5

    `domain` is given as a window is: a pair of ends for each dimension, or a `Window`. `extents` has the cells of a
    tile along each dimension. The first tile begins at the domain's minimum; in the order "row-major" the last
    dimension is the fastest, in "column-major" the first. TileDB's own numbers 0 and 1 do for them too.

    A grid is checked when it is made. A float dimension, an extent of 0 or one that is missing, and a domain that does
    not split into whole tiles are refused (29 at the dimension), more than 16,777,216 tiles (10 at 0), an order that is
    none (1 at 0), and a domain as a window is. An extent outside 0 to 2^64 - 1 is a ValueError.

    Once it is made, `domain` has the numbers of each dimension's ends, `extents` those of the dimensions, `order` is
    one of the two words, and `tiles` is how many tiles there are.
    """

    __slots__ = {
        "description": "The description that it was made with.",
        "domain": "The minimum and the maximum of each dimension.",
        "extents": "The cells of a tile along each dimension.",
        "order": 'How tiles are numbered: "row-major" or "column-major".',
        "tiles": "How many tiles there are.",
        "_numbers": None,
        "_given": None,
    }

    def __init__(
        self, description: Description, domain: Union[Window, Iterable[Range]], extents: Iterable[SupportsIndex],
        order: Union[str, SupportsIndex] = "row-major",
    ) -> None:
        kinds, ends = given_window(description._given[0], domain)
        # Lent to the library in every call.
        self._numbers = array("Q", map(_extent, extents))
        extents_at, extents_length = self._numbers.buffer_info()
        layout = _order(order)
        self._given = (*description._given, kinds, len(kinds), ends, len(ends), extents_at, extents_length, layout)
        answer = _DenseCheckAnswer()
        _c_dense_check(*self._given, answer)
        if answer[NUMBER]:
            raise _refused(description, answer, domain, kinds)
        self.description, self.order = description, list(_ORDERS)[layout]
        numbers = struct.unpack(ends_format(kinds), ends)
        self.domain: tuple[tuple[int, int], ...] = tuple(zip(numbers[::2], numbers[1::2]))
        self.extents: tuple[int, ...] = tuple(self._numbers[: len(kinds)])
        self.tiles: int = self._ask(domain, kinds, ends, None, 0)

    def _ask(self, window: Any, kinds: bytes, ends: bytes, out: Optional[int], places: int) -> int:
        """How many tiles a window finds, with the first of them in a result buffer."""
        answer = _DenseAnswer()
        _c_dense_query(*self._given, kinds, len(kinds), ends, len(ends), out, places, answer)
        if answer[NUMBER]:
            raise _refused(self.description, answer, window, kinds)
        found: int = answer[_DENSE_FOUND]
        return found

    def query(self, window: Union[Window, Iterable[Range]], room: Optional[SupportsIndex] = None) -> DenseHit:
        """Which tiles have a cell in a window? Exactly those are found, in rising order; none where the window is
        outside the domain.

        The window is a pair of ends for each dimension, or a `Window`, which says what an end may be. What is refused
        is the window's. With `room` no more than that many tiles are listed, the first ones.
        """
        kinds, ends = given_window(self.description._given[0], window)

        def asked(out: array[int], places: int) -> int:
            return self._ask(window, kinds, ends, out.buffer_info()[0], places)

        return DenseHit(*listed(asked, wanted_room(room, MOST_TILES)))

    def query_into(self, window: Union[Window, Iterable[Range]], out: Any) -> int:
        """Which tiles have a cell in a window? As `query`, with the tiles written to the start of a buffer that is lent, of which
        the function `query_into` says what it may be. How many tiles there are in all is told."""
        kinds, ends = given_window(self.description._given[0], window)
        with lend_places(out) as view:
            start, length = lent(view)
            return self._ask(window, kinds, ends, start, length // view.itemsize)

    def __repr__(self) -> str:
        return f"<DenseGrid: {self.tiles} tiles, {self.order}>"


def _refused(description: Description, answer: Any, window: Any, kinds: bytes) -> Refused:
    """Why a grid or a window is refused; an order that is none is said as a fault of the description."""
    detail = _reasons.of_window(description, answer, window, kinds)
    if answer[NUMBER] == Refusal.DESCRIPTION and detail is None:
        detail = f"an order is {' or '.join(map(repr, _ORDERS))}"
    return refused(answer, detail)
