"""A picture of one or of two dimensions, from the boxes that are in it."""

from __future__ import annotations

from collections.abc import Iterable, Iterator, Sequence
from typing import Any, NamedTuple, Optional

from tussockbell._axes import Axis, Number
from tussockbell._raster import GREY, ORANGE, Ends, cell_counts, column_counts, raster, shade_keys, shades
from tussockbell._sheet import ACROSS, CELL, LEFT, UP, Key, across_axis, legend, line, rectangle, sheet, up_axis, words

# Of one dimension: a row of a level, a row of tiles and how many of these there may be, and the height of a raster.
_ROW, _LANE, _LANES, _BARS = 22, 30, 8, 160


def many(count: int, what: str, ending: str = "s") -> str:
    return f"{count} {what}{'' if count == 1 else ending}"


def _shown(number: Number) -> str:
    return str(number) if isinstance(number, int) else repr(float(number))


def _both(low: Number, high: Number, least: Number, greatest: Number) -> str:
    """Where the tiles and the window lie in a dimension."""
    return f"the tiles lie from {_shown(low)} to {_shown(high)}, the window from {_shown(least)} to {_shown(greatest)}"


class Subject(NamedTuple):
    """What is drawn, be it a tree or a grid: the kind, the ends of all tiles and the window's ends of each dimension, which
    dimensions are drawn, what the picture is called, how many tiles the window touches, and how far a cell goes beyond its place."""

    kinds: Sequence[str]
    whole: Sequence[Ends]
    window: Sequence[Ends]
    axes: Sequence[int]
    title: str
    found: int
    around: Number = 0

    def side(self, at: int) -> Ends:
        """The window's side of a dimension that is drawn."""
        low, high = self.window[self.axes[at]]
        return [low - self.around, high + self.around]

    def axis(self, at: int, start: float, length: float) -> Axis:
        number = self.axes[at]
        low, high = self.whole[number]
        return Axis(f"dimension {number} ({self.kinds[number]})", self.kinds[number], low, high, start, length)

    def notes(self) -> Iterator[str]:
        for number, ((low, high), (least, greatest)) in enumerate(zip(self.whole, self.window)):
            if number not in self.axes:
                yield f"Dimension {number} ({self.kinds[number]}) is not drawn: {_both(low, high, least, greatest)}."
        outside = [
            f"in dimension {number} {_both(low, high, least, greatest)}"
            for number, ((low, high), (least, greatest)) in enumerate(zip(self.whole, self.window))
            if greatest < low or high < least
        ]
        if outside:
            yield f"The window lies outside of all tiles: {'; '.join(outside)}."
        elif not self.found:
            yield "The window lies among the tiles and touches none."


class Layers(NamedTuple):
    """What is drawn, as boxes of the dimensions that are: those above the tiles, level by level; the tiles that are drawn each,
    with a text in some of them; and where these are too many, all tiles and all touched ones to be counted."""

    above: Sequence[Sequence[Ends]]
    tiles: Sequence[Ends]
    touched: Sequence[Ends]
    keys: Sequence[Key]
    notes: Sequence[str]
    texts: Sequence[tuple[str, Ends]] = ()
    counted: Optional[Iterable[Ends]] = None
    counted_touched: Optional[Iterable[Ends]] = None


def _seen(axis: Axis, ends: Ends) -> Optional[tuple[float, float, list[float]]]:
    """A side of the window as far as it is seen, and those of its ends that are."""
    low, high = ends
    if high < axis.low or axis.high < low:
        return None
    edges = [axis.at(end) for end in dict.fromkeys((low, high)) if axis.low <= end <= axis.high]
    return axis.at(max(low, axis.low)), axis.at(min(high, axis.high)), edges


# ---- two dimensions


def _box(kind: str, across: Axis, up: Axis, box: Ends) -> str:
    left, right, low, high = box
    x, y = across.at(left), up.at(high)
    return rectangle(kind, x, y, across.at(right) - x, up.at(low) - y)


def _window(across: Axis, up: Axis, window: Sequence[Ends]) -> Iterator[str]:
    """The window as far as it is seen: its inside, and each of its edges that lies in the picture."""
    first, second = _seen(across, window[0]), _seen(up, window[1])
    if first is None or second is None:
        return
    (left, right, upright), (bottom, top, level) = first, second
    yield rectangle("window", left, top, right - left, bottom - top)
    yield from (line("edge", x, top, x, bottom) for x in upright)
    yield from (line("edge", left, y, right, y) for y in level)


def _text(across: Axis, up: Axis, text: str, box: Ends) -> Iterator[str]:
    """A text in the middle of a box, where there is room for it."""
    left, right, bottom, top = across.at(box[0]), across.at(box[1]), up.at(box[2]), up.at(box[3])
    if right - left > 8 * len(text) and bottom - top > 14:
        yield words(text, (left + right) / 2, (top + bottom) / 2 + 4, more=' class="number"')


def _shaded(subject: Subject, layers: Layers, across: Axis) -> tuple[list[list[Key]], list[Any]]:
    """What is counted: its legend, and what `raster` takes for it but for the height."""
    keys: list[list[Key]] = []
    rasters: list[Any] = []
    up = subject.axis(1, 0, 1)
    for boxes, what, fills in ((layers.counted, "tiles", GREY), (layers.counted_touched, "touched", ORANGE)):
        if boxes is not None:
            cells = cell_counts(boxes, across, up, ACROSS // CELL, UP // CELL)
            most = max(count for each in cells for count in each)
            bounds = shades(most)
            rasters.append((cells, bounds, fills))
            keys.append([Key("", f"{what} over a place:"), *shade_keys(bounds, most, fills)])
    return keys, rasters


def plane(subject: Subject, layers: Layers) -> str:
    across = subject.axis(0, LEFT, ACROSS)
    counted, rasters = _shaded(subject, layers, across)
    drawn, top = legend([layers.keys, *counted], 54)
    floor = top + UP
    up = subject.axis(1, floor, -UP)
    for cells, bounds, fills in rasters:
        drawn += raster(cells, bounds, fills, top)
    drawn += [_box("level", across, up, box) for level in layers.above for box in level]
    drawn += [_box("tile", across, up, box) for box in layers.tiles]
    drawn += [_box("tile touched", across, up, box) for box in layers.touched]
    drawn += _window(across, up, [subject.side(0), subject.side(1)])
    drawn += [each for text, box in layers.texts for each in _text(across, up, text, box)]
    drawn += [*across_axis(across, floor), *up_axis(up, top, floor)]
    return sheet(subject.title, drawn, floor + 52, [*subject.notes(), *layers.notes])


# ---- one dimension


def _lanes(boxes: Iterable[Ends]) -> list[int]:
    """Rows for boxes, in order of where they begin: each in the first row that is free there, or in the one that is free first."""
    ends: list[Number] = []
    lanes = []
    for left, right in boxes:
        free = [lane for lane, end in enumerate(ends) if end <= left]
        if not free and len(ends) < _LANES:
            free = [len(ends)]
            ends.append(right)
        lane = free[0] if free else min(range(len(ends)), key=ends.__getitem__)
        ends[lane] = right
        lanes.append(lane)
    return lanes


def _span(kind: str, across: Axis, ends: Ends, y: float, height: float) -> str:
    left, right = across.at(ends[0]), across.at(ends[1])
    return rectangle(kind, left, y, right - left, height)


def _rows(layers: Layers, across: Axis, top: float) -> tuple[list[str], float]:
    """Tiles as bars, in as many rows as they need so that none hides another, and the height below them."""
    bars = sorted([(box, "bar") for box in layers.tiles] + [(box, "bar touched") for box in layers.touched])
    lanes = _lanes(box for box, _ in bars)
    height = max(lanes) + 1
    drawn = [_span(kind, across, box, top + _LANE * lane, _LANE - 6) for (box, kind), lane in zip(bars, lanes)]
    for text, (left, right) in layers.texts:
        if across.at(right) - across.at(left) > 8 * len(text):
            drawn.append(words(text, (across.at(left) + across.at(right)) / 2, top + 16, more=' class="number"'))
    drawn.append(words("tiles", LEFT - 9, top + _LANE * height / 2 + 1, "end"))
    return drawn, top + _LANE * height


def _bars(layers: Layers, across: Axis, top: float) -> tuple[list[str], float]:
    """How many tiles lie over each place, as heights, and the height below them."""
    top += _ROW / 2
    floor, drawn = top + _BARS, []
    counts = [column_counts(boxes or (), across, ACROSS) for boxes in (layers.counted, layers.counted_touched)]
    most = max(counts[0])
    for heights, kind, fill in zip(counts, ("counted", "counted found"), (GREY[2], ORANGE[2])):
        path = "".join(f"L{LEFT + at} {floor - _BARS * count / most:.1f}h1" for at, count in enumerate(heights))
        drawn.append(f'<path class="{kind}" fill="{fill}" d="M{LEFT} {floor:.1f}{path}V{floor:.1f}z"/>')
    for count in (0, most):
        y = floor - _BARS * count / most
        drawn += [line("tick", LEFT - 5, y, LEFT, y), words(str(count), LEFT - 9, y + 4, "end")]
    drawn.append(f'<path class="axis" d="M{LEFT} {top:.2f} V{floor:.2f}"/>')
    middle = floor - _BARS / 2
    drawn.append(words("tiles over a place", 18, middle, more=f' transform="rotate(-90 18 {middle:.2f})"'))
    return drawn, floor


def row(subject: Subject, layers: Layers) -> str:
    across = subject.axis(0, LEFT, ACROSS)
    keys = list(layers.keys)
    if layers.counted is not None:
        keys[:0] = [Key("", "tiles", GREY[2]), Key("", f"touched ({subject.found})", ORANGE[2])]
    drawn, top = legend([keys], 54)
    for level, boxes in enumerate(layers.above):
        y = top + _ROW * level
        drawn += [_span("level", across, box, y, _ROW - 6) for box in boxes]
        drawn.append(words(f"level {level + 1}", LEFT - 9, y + 12, "end"))
    more, floor = (_rows if layers.counted is None else _bars)(layers, across, top + _ROW * len(layers.above))
    drawn += more
    window = _seen(across, subject.side(0))
    if window is not None:
        left, right, edges = window
        drawn.append(rectangle("window", left, top - 4, right - left, floor - top + 4))
        drawn += [line("edge", x, top - 4, x, floor) for x in edges]
    drawn += across_axis(across, floor)
    return sheet(subject.title, drawn, floor + 52, [*subject.notes(), *layers.notes])
