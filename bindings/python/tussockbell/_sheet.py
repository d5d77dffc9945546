"""The parts of a picture in SVG: lines, boxes, texts, a legend, axes with numbers, and the sheet that they are on."""

from __future__ import annotations

from collections.abc import Iterable, Iterator, Sequence
from textwrap import wrap
from typing import NamedTuple
from xml.sax.saxutils import escape

from tussockbell._axes import Axis

# The picture's width, what is drawn of two dimensions, and a cell of a raster, in the picture's own units.
WIDTH, LEFT, RIGHT = 760, 90, 20
ACROSS, UP, CELL = WIDTH - LEFT - RIGHT, 450, 5
# Characters of a note's line, what one of the legend takes, and what a box is long at least, so that it is seen.
_NOTE, _CHARACTER, _LEAST = 112, 6.6, 3.0

_STYLE = """\
    text { font: 12px sans-serif; fill: #333 }
    .title { font-size: 15px }
    .note { font-size: 11px }
    .number { fill: #444b57; stroke: white; stroke-width: 3; paint-order: stroke }
    .axis, .tick { stroke: #333; fill: none }
    .level { fill: none; stroke: #8db0de }
    .tile { fill: none; stroke: #7f8794; stroke-width: 0.8 }
    .bar { fill: #dde1e7; stroke: #7f8794; stroke-width: 0.8 }
    .touched { fill: #f2a65a; fill-opacity: 0.75; stroke: #a85b12 }
    .window { fill: #2f6fb7; fill-opacity: 0.1 }
    .edge { stroke: #2f6fb7; stroke-width: 2; stroke-dasharray: 6 3; fill: none }
    .shade { shape-rendering: crispEdges }"""


def line(kind: str, x1: float, y1: float, x2: float, y2: float) -> str:
    return f'<line class="{kind}" x1="{x1:.2f}" y1="{y1:.2f}" x2="{x2:.2f}" y2="{y2:.2f}"/>'


def rectangle(kind: str, x: float, y: float, width: float, height: float) -> str:
    least = 1.0 if max(width, height) >= _LEAST else _LEAST
    wide, high = max(width, least), max(height, least)
    x, y = x - (wide - width) / 2, y - (high - height) / 2
    return f'<rect class="{kind}" x="{x:.2f}" y="{y:.2f}" width="{wide:.2f}" height="{high:.2f}"/>'


def words(text: str, x: float, y: float, anchor: str = "middle", more: str = "") -> str:
    return f'<text x="{x:.2f}" y="{y:.2f}" text-anchor="{anchor}"{more}>{escape(text)}</text>'


class Key(NamedTuple):
    """What a colour stands for. Without a kind it is a text alone."""

    kind: str
    text: str
    fill: str = ""


def _key(key: Key, x: float, y: float) -> Iterator[str]:
    if key.fill:
        yield f'<rect class="key" fill="{key.fill}" x="{x:.2f}" y="{y - 10:.2f}" width="16" height="11"/>'
    elif key.kind:
        yield rectangle(f"key {key.kind}", x, y - 10, 16, 11)
    yield words(key.text, x + (22 if key.kind or key.fill else 0), y, "start", ' class="legend"')


def legend(rows: Iterable[Sequence[Key]], y: float) -> tuple[list[str], float]:
    """The legend from a height on, each row in as many lines as it takes, and the height below it."""
    drawn: list[str] = []
    for row in rows:
        x = float(LEFT)
        for key in row:
            wide = (22 if key.kind or key.fill else 0) + _CHARACTER * len(key.text) + 14
            if x > LEFT and x + wide > WIDTH - RIGHT + 14:
                x, y = float(LEFT), y + 18
            drawn += _key(key, x, y)
            x += wide
        y += 18
    return drawn, y


def sheet(title: str, drawn: Sequence[str], floor: float, notes: Iterable[str]) -> str:
    """The whole picture: what is drawn, down to `floor`, and the notes below it."""
    lines = [each for note in notes for each in wrap(note, _NOTE)]
    height = floor + 16 * len(lines) + 14
    made = [
        f'<svg xmlns="http://www.w3.org/2000/svg" viewBox="0 0 {WIDTH} {height:.0f}" width="{WIDTH}" height="{height:.0f}">',
        f"  <title>{escape(title)}</title>",
        f"  <style>\n{_STYLE}\n  </style>",
        f'  <rect width="{WIDTH}" height="{height:.0f}" fill="white"/>',
        "  " + words(title, WIDTH / 2, 28, more=' class="title"'),
        *("  " + one for one in drawn),
        *("  " + words(each, 20, floor + 16 * (at + 1), "start", ' class="note"') for at, each in enumerate(lines)),
        "</svg>",
    ]
    return "\n".join(made) + "\n"


def across_axis(axis: Axis, floor: float) -> Iterator[str]:
    yield f'<path class="axis" d="M{LEFT} {floor:.2f} H{WIDTH - RIGHT}"/>'
    for at, label in axis.ticks:
        yield line("tick", at, floor, at, floor + 5)
        yield words(label, at, floor + 20)
    yield words(axis.title, LEFT + ACROSS / 2, floor + 42)


def up_axis(axis: Axis, top: float, floor: float) -> Iterator[str]:
    yield f'<path class="axis" d="M{LEFT} {top:.2f} V{floor:.2f}"/>'
    for at, label in axis.ticks:
        yield line("tick", LEFT - 5, at, LEFT, at)
        yield words(label, LEFT - 9, at + 4, "end")
    middle = (top + floor) / 2
    yield words(axis.title, 18, middle, more=f' transform="rotate(-90 18 {middle:.2f})"')
