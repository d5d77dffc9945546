"""What does a fragment's footer say?"""

from __future__ import annotations

import struct
from array import array
from collections.abc import Callable, Iterable
from dataclasses import dataclass, field
from typing import Any, SupportsIndex, Union, cast, overload

from tussockbell import _functions as c
from tussockbell import _plan, _reasons
from tussockbell._description import Description
from tussockbell._kinds import FORMATS
from tussockbell._lending import Bytes, Lent, file_size_of, lend, lent, limited
from tussockbell._refused import NUMBER, refused

# ---- the names of include/tussockbell.h, without their TUSSOCKBELL

_FOOTER_DOMAIN, _DOMAIN_KIND, _DOMAIN_LOW, _DOMAIN_HIGH, _DOMAIN_PLACES = 14, 0, 1, 2, 3
_FOOTER_LIST_PLACES, _FOOTER_PLACES = 64, 730

# Places of the footer's answer, by the attribute that they become.
_FOOTER_NUMBERS = {
    "version": 2, "name_size": 3, "dense": 4, "null_domain": 5, "tiles": 6, "last_tile_cells": 7, "timestamps": 8, "deletes": 9,
    "rtree": 10, "fragment": 11, "conditions": 12, "length": 13,
}
_FOOTER_LISTS = {
    "file_sizes": 26, "file_var_sizes": 90, "file_validity_sizes": 154, "tile_offsets": 218, "var_offsets": 282, "var_sizes": 346,
    "validity": 410, "mins": 474, "maxes": 538, "sums": 602, "null_counts": 666,
}
# Where the schema name stands in the bytes of any footer.
_NAME_AT = 12

_c_footer = c.function("footer", [*c.footer, c.pointer])
_c_cells_at = c.function("cells_at", [c.u64, c.u64, c.u64, c.u64], c.u64)

_FooterAnswer = c.u64 * _FOOTER_PLACES


@dataclass(frozen=True)
class FooterNumbers:
    """What a footer has, be the fragment sparse or dense."""

    version: int
    name_size: int
    schema_name: bytes
    dense: int
    null_domain: int
    domain: tuple[tuple[Union[int, float], Union[int, float]], ...]
    tiles: int
    last_tile_cells: int
    timestamps: int
    deletes: int
    file_sizes: tuple[int, ...]
    file_var_sizes: tuple[int, ...]
    file_validity_sizes: tuple[int, ...]
    rtree: int
    tile_offsets: tuple[int, ...]
    var_offsets: tuple[int, ...]
    var_sizes: tuple[int, ...]
    validity: tuple[int, ...]
    mins: tuple[int, ...]
    maxes: tuple[int, ...]
    sums: tuple[int, ...]
    null_counts: tuple[int, ...]
    fragment: int
    conditions: int
    length: int


@dataclass(frozen=True)
class Footer(FooterNumbers):
    """The numbers of a fragment's footer. It holds no bytes of the caller's.

    `version` is the format's, and `schema_name` has `name_size` bytes. `dense`, `null_domain`, `timestamps` (whether the fragment
    includes them) and `deletes` (whether it includes delete metadata) are flags, 0 or 1. `domain` has the minimum and the maximum
    of each dimension. There are `tiles` tiles, the last of `last_tile_cells` cells; `total_cells` are those of all, and `cells`
    has those of one, or of many in one call.

    Lists have an entry for each field. `file_sizes`, `file_var_sizes` and `file_validity_sizes` are the bytes of its files. The
    others are where in the metadata file a generic tile stands: `tile_offsets`, `var_offsets`, `var_sizes`, `validity`, `mins`,
    `maxes`, `sums` and `null_counts` of each field; `rtree`, `fragment` (min, max, sum and null count of the fragment) and
    `conditions` (those that were processed) of the whole. `length` is the footer's own length field.
    """

    total_cells: int
    _capacity: int = field(repr=False)

    @overload
    def cells(self, tile: SupportsIndex) -> int: ...

    @overload
    def cells(self, tile: Iterable[SupportsIndex]) -> array[int]: ...

    def cells(self, tile: Union[SupportsIndex, Iterable[SupportsIndex]]) -> Union[int, array[int]]:
        """The cells of a tile, counted from 0; 0 for any number that is no tile. Of many tiles, which `Offsets.plan` says how to
        give, an array of uint64 items."""
        given = self.tiles, self.last_tile_cells, self._capacity
        try:
            cells: int = _c_cells_at(*given, limited(cast(SupportsIndex, tile)))
            return cells
        except TypeError:
            pass
        return _plan.cells(*given, cast(Iterable[SupportsIndex], tile))


def _domain_range(answer: Any, dimension: int) -> tuple[Union[int, float], Union[int, float]]:
    start = _FOOTER_DOMAIN + dimension * _DOMAIN_PLACES
    one = FORMATS[answer[start + _DOMAIN_KIND]]
    low, high = (answer[start + end].to_bytes(8, "little") for end in (_DOMAIN_LOW, _DOMAIN_HIGH))
    return struct.unpack_from(one, low)[0], struct.unpack_from(one, high)[0]


def footer_numbers(
    ask: Callable[..., None], description: Description, file_size: SupportsIndex, footer: Bytes
) -> dict[str, Any]:
    """What one of the functions that read a footer answers, by the attributes of `FooterNumbers`."""
    answer, size = _FooterAnswer(), file_size_of(file_size)
    with lend(footer) as view:
        ask(*description._given, size, *lent(view), answer)
        if answer[NUMBER]:
            raise refused(answer, _reasons.of_footer(description, answer, size, lent(view)))
        copy = bytes(view)
    numbers: dict[str, Any] = {at: answer[place] for at, place in _FOOTER_NUMBERS.items()}
    numbers.update({at: tuple(answer[place : place + description.fields]) for at, place in _FOOTER_LISTS.items()})
    numbers["schema_name"] = copy[_NAME_AT : _NAME_AT + numbers["name_size"]]
    numbers["domain"] = tuple(_domain_range(answer, i) for i in range(len(description.kinds)))
    return numbers


def footer_tiles(description: Description, size: int, footer: Lent) -> int:
    """The number of tiles of a footer that is lent, and 0 where it is refused."""
    answer = _FooterAnswer()
    _c_footer(*description._given, size, *footer, answer)
    tiles: int = answer[_FOOTER_NUMBERS["tiles"]]
    return tiles


def read_footer(description: Description, file_size: SupportsIndex, footer: Bytes) -> Footer:
    """Reads the footer of a metadata file of `file_size` bytes."""
    numbers, capacity = footer_numbers(_c_footer, description, file_size, footer), description._given[-1]
    total = (numbers["tiles"] - 1) * capacity + numbers["last_tile_cells"]
    return Footer(**numbers, total_cells=total, _capacity=capacity)
