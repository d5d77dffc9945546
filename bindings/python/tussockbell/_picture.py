"""One or two dimensions of an accepted tree, or of a dense grid, as a picture: the tiles' boxes, those that a window touches
filled, the boxes above them in lighter lines, the window's edge, axes with numbers, and what can't be seen in words. Of very
many tiles it has how many lie over each place. SVG, written with the standard library alone."""

from __future__ import annotations

import math
import struct
from collections.abc import Iterator, Sequence
from fractions import Fraction
from itertools import product
from typing import Any, Optional

import tussockbell as tb
from tussockbell import _files
from tussockbell._axes import Number
from tussockbell._drawing import Layers, Subject, many, plane, row
from tussockbell._raster import Ends
from tussockbell._sheet import Key

ABOUT = """\
Draws the tiles, those that the window touches filled, the boxes above them and the window. More than 4000 tiles are not
drawn one by one, but how many of them lie over each place; touched ones are, while they are at most 1000. A tree, or a
grid, of one dimension has its tiles in a row, with a row for each level above them.

Where the tiles and the window lie in the dimensions that are not drawn stands below, and so does a window that lies
outside. Where the numbers at an axis would be long it says what is added to them or what they are multiplied by, exactly.

A dense grid has the options of `dense` in place of --file-size, FOOTER and TREE."""

# Above so many tiles none is drawn by itself but the touched ones, as long as these are few; and of the levels above them those
# that have few boxes.
_MOST_TILES, _MOST_TOUCHED, _MOST_ABOVE = 4000, 1000, 300
# A cell of a grid goes so far beyond its place on both sides.
_HALF = Fraction(1, 2)
_LETTERS = {"int32": "i", "int64": "q", "uint64": "Q", "float64": "d"}


def draw(opened: tb.Tree, tree: _files.Read, window: Sequence[Ends], hit: tb.Hit, axes: Sequence[int]) -> str:
    """The picture of an accepted tree and of what a window, which was not refused, finds in it."""
    kinds = [str(kind) for kind in opened.description.kinds]
    boxes = _Boxes(kinds, tree, opened.tiles, opened.fanout)
    title = f"{many(opened.tiles, 'tile')}, fanout {opened.fanout}: the window touches {hit.found}, "
    title += f"{many(hit.looked, 'box', 'es')} looked at"
    sides = [_exact(kind, side) for kind, side in zip(kinds, window)]
    subject = Subject(kinds, boxes.whole(), sides, axes, title, hit.found)
    layers = _counted_layers(boxes, axes, hit.tiles) if opened.tiles > _MOST_TILES else _each_layers(boxes, axes, hit.tiles)
    return (plane if len(axes) == 2 else row)(subject, layers)


def _level_key(levels: str) -> Key:
    return Key("level", f"boxes above the tiles ({levels})")


_WINDOW = Key("window edge", "window")


def _each_layers(boxes: _Boxes, axes: Sequence[int], found: Sequence[int]) -> Layers:
    """Every box is drawn."""
    last = len(boxes.counts) - 1
    touched = set(found)
    tiles = [box for tile, box in enumerate(boxes.of(last, axes)) if tile not in touched]
    keys = [Key("touched", f"touched ({len(found)})"), Key("tile" if len(axes) == 2 else "bar", f"not touched ({len(tiles)})")]
    if last:
        keys.append(_level_key(many(last, "level")))
    above = [list(boxes.of(level, axes)) for level in range(last)]
    return Layers(above, tiles, list(boxes.of(last, axes, found)), [*keys, _WINDOW], [])


def _counted_layers(boxes: _Boxes, axes: Sequence[int], found: Sequence[int]) -> Layers:
    """Tiles are counted at each place, and touched ones too unless they are few; of the levels above those that have few boxes are
    drawn."""
    last = len(boxes.counts) - 1
    shown = [level for level in range(last) if boxes.counts[level] <= _MOST_ABOVE]
    each = len(found) <= _MOST_TOUCHED and len(axes) == 2
    keys = [Key("touched", f"touched ({len(found)})")] if each else []
    keys += [_level_key(f"{len(shown)} of {last} levels"), _WINDOW]
    note = f"More than {_MOST_TILES} tiles are not drawn one by one, but how many of them lie over each place."
    touched = list(boxes.of(last, axes, found))
    return Layers(
        [list(boxes.of(level, axes)) for level in shown], [], touched if each else [], keys, [note],
        counted=boxes.of(last, axes), counted_touched=None if each else touched,
    )


class _Boxes:
    """The boxes of an accepted tree: of each level, the root's first, the ends of the dimensions that are drawn."""

    def __init__(self, kinds: Sequence[str], tree: _files.Read, tiles: int, fanout: int) -> None:
        self._letters, self._tree = [_LETTERS[kind] for kind in kinds], tree
        self.counts = [tiles]
        while self.counts[0] > 1:
            self.counts.insert(0, -(-self.counts[0] // fanout))

    def _start(self, level: int, size: int) -> int:
        return 8 + 8 * (level + 1) + size * sum(self.counts[:level])

    def whole(self) -> list[Ends]:
        """The root's box, of all dimensions."""
        box = struct.Struct("<" + "".join(2 * letter for letter in self._letters))
        ends = box.unpack_from(self._tree, self._start(0, box.size))
        return list(zip(ends[::2], ends[1::2]))

    def _struct(self, axes: Sequence[int]) -> struct.Struct:
        parts = [2 * letter if at in axes else f"{2 * struct.calcsize('<' + letter)}x" for at, letter in enumerate(self._letters)]
        return struct.Struct("<" + "".join(parts))

    def of(self, level: int, axes: Sequence[int], which: Optional[Sequence[int]] = None) -> Iterator[Ends]:
        """The boxes of a level, or some of them: two ends for each of the dimensions drawn, in that order."""
        box = self._struct(axes)
        start = self._start(level, box.size)
        if which is None:
            boxes: Iterator[Ends] = box.iter_unpack(memoryview(self._tree)[start : start + self.counts[level] * box.size])
        else:
            boxes = (box.unpack_from(self._tree, start + tile * box.size) for tile in which)
        if list(axes) == sorted(axes):
            return boxes
        return ((*ends[2:], *ends[:2]) for ends in boxes)


def _exact(kind: str, ends: Ends) -> Ends:
    """A window's side as its kind has it, which was not refused."""
    if kind in ("int32", "int64", "uint64"):
        return [int(end) for end in ends]
    return [_as_float(end) for end in ends]


def _as_float(end: Any) -> float:
    try:
        return float(end)
    except OverflowError:
        return math.inf if end > 0 else -math.inf


# ---- grids


def _tile_places(grid: tb.DenseGrid, counts: Sequence[int], tile: int) -> list[int]:
    """Which tile of each dimension a tile of the grid is."""
    places = [0] * len(counts)
    for dimension in range(len(counts)) if grid.order == "column-major" else reversed(range(len(counts))):
        tile, places[dimension] = divmod(tile, counts[dimension])
    return places


def _grid_box(grid: tb.DenseGrid, axes: Sequence[int], first: Sequence[int], last: Sequence[int]) -> Ends:
    """The box from one tile's place to another's. A cell is one wide around its place, so that tiles end in the middle between two."""
    box: list[Number] = []
    for at, axis in enumerate(axes):
        low, extent = grid.domain[axis][0], grid.extents[axis]
        box += [low + first[at] * extent - _HALF, low + (last[at] + 1) * extent - _HALF]
    return box


def _grid_layers(grid: tb.DenseGrid, axes: Sequence[int], found: Sequence[int]) -> Layers:
    """Each tile, with its number where no other lies at its place; or the grid as one where there are too many. What is touched is a
    block: the first tile found is at its beginning in every dimension, and the last one at its end."""
    counts = [(high - low + 1) // extent for (low, high), extent in zip(grid.domain, grid.extents)]
    first, last = ([_tile_places(grid, counts, tile)[axis] for axis in axes] for tile in ((found[0], found[-1]) if found else (0, 0)))
    drawn = [counts[axis] for axis in axes]
    whole = _grid_box(grid, axes, [0] * len(axes), [count - 1 for count in drawn])
    kind = "tile" if len(axes) == 2 else "bar"
    keys = [Key("touched", f"touched ({len(found)})"), Key(kind, f"not touched ({grid.tiles - len(found)})"), _WINDOW]
    if math.prod(drawn) > _MOST_TILES:
        cells = " by ".join(str(grid.extents[axis]) for axis in axes)
        note = f"More than {_MOST_TILES} tiles are not drawn one by one, but all as one box and the touched ones as another. "
        note += f"A tile has {cells} cells."
        return Layers([], [whole], [_grid_box(grid, axes, first, last)] if found else [], keys, [note])
    boxes = {places: _grid_box(grid, axes, places, places) for places in product(*map(range, drawn))}
    plain: list[Ends] = []
    touched: list[Ends] = []
    for places, box in boxes.items():
        inside = found and all(low <= at <= high for low, at, high in zip(first, places, last))
        (touched if inside else plain).append(box)
    texts = []
    if len(axes) == len(counts):
        at = [[_tile_places(grid, counts, tile)[axis] for axis in axes] for tile in range(grid.tiles)]
        texts = [(str(tile), boxes[tuple(places)]) for tile, places in enumerate(at)]
    return Layers([[whole]] * (len(axes) - 1), plain, touched, keys, [], texts)


def draw_grid(grid: tb.DenseGrid, window: Sequence[Ends], hit: tb.DenseHit, axes: Sequence[int]) -> str:
    """The picture of a grid and of what a window, which was not refused, finds in it, with the tiles' numbers."""
    kinds = [str(kind) for kind in grid.description.kinds]
    sides = [_exact(kind, side) for kind, side in zip(kinds, window)]
    title = f"{many(grid.tiles, 'tile')}, {grid.order}: the window touches {hit.found}"
    subject = Subject(kinds, grid.domain, sides, axes, title, hit.found, _HALF)
    return (plane if len(axes) == 2 else row)(subject, _grid_layers(grid, axes, hit.tiles))
