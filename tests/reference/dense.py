"""Dense fragments, worked out from docs/RULES.md alone: which tiles have a cell in a window, by going through the cells
one by one, or along each dimension where there are too many of them; and the footer, by what the sparse entry says of
one that differs in what the rules name.
"""

import itertools
import math

import rules
from rules import KINDS, LIMITS, Refusal, Refused

ROW_MAJOR, COLUMN_MAJOR = 0, 1


def check_grid(d, kinds, domain, extents, order):
    """The number of tiles along each dimension. `order` is TileDB's number of it."""
    d.check_limits()
    if order not in (ROW_MAJOR, COLUMN_MAJOR):
        raise Refused(Refusal.DESCRIPTION, 0)
    d.check()
    rules.check_window(d, kinds, domain)
    tiles = []
    for i, (low, high) in enumerate(domain):
        extent = extents[i] if i < len(extents) else 0
        if not KINDS[kinds[i]].whole or extent == 0 or (high - low + 1) % extent != 0:
            raise Refused(Refusal.GRID, i)
        tiles.append((high - low + 1) // extent)
    if math.prod(tiles) > LIMITS["tiles"][1]:
        raise Refused(Refusal.TILES, 0)
    return tiles


def tile_number(tiles, places, order):
    """The number of the tile at these places, of which the last dimension's is the fastest, or the first's."""
    number = 0
    for along, place in zip(tiles, places) if order == ROW_MAJOR else reversed(list(zip(tiles, places))):
        number = number * along + place
    return number


def by_cells(domain, extents, window):
    """The places of all tiles that have a cell in the domain and in the window."""
    for cell in itertools.product(*(range(low, high + 1) for low, high in domain)):
        if all(low <= x <= high for x, (low, high) in zip(cell, window)):
            yield tuple((x - low) // extent for x, (low, _), extent in zip(cell, domain, extents))


def along(domain, extents, window):
    """The same, from the first and the last cell of the domain that lie in the window, along each dimension."""
    sides = []
    for (least, most), extent, (low, high) in zip(domain, extents, window):
        first, last = max(least, low), min(most, high)
        sides.append(range((first - least) // extent, (last - least) // extent + 1) if first <= last else range(0))
    return itertools.product(*sides)


def query(d, domain_kinds, domain, extents, order, kinds, window, places=along):
    """The tiles that the window touches, rising."""
    tiles = check_grid(d, domain_kinds, domain, extents, order)
    rules.check_window(d, kinds, window)
    return sorted({tile_number(tiles, place, order) for place in places(domain, extents, window)})


def footer(d, file_size, data):
    """As the sparse entry reads the same bytes with the other dense flag, with one tile where there are none and none
    where there are some, and with one cell in the last; before that a float kind is refused."""
    d.check()
    for i, kind in enumerate(d.kinds[: d.dimensions]):
        if not KINDS[kind].whole:
            raise Refused(Refusal.GRID, i)
    size = rules.number(data, 4, 8)
    flag = 12 + size
    tiles = flag + 2 + d.box_bytes()
    if len(data) < tiles + 16:
        return rules.footer(d, file_size, data)
    other = bytearray(data)
    other[flag] = {0: 1, 1: 0}.get(data[flag], data[flag])
    other[tiles : tiles + 16] = bytes([rules.number(data, tiles, 8) == 0, *bytes(7), 1, *bytes(7)])
    answer = rules.footer(d, file_size, bytes(other))
    return {**answer, "dense": 1, "tiles": 0, "last_cells": rules.number(data, tiles + 8, 8)}
