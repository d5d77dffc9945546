"""How many boxes lie over each place of a picture, and the shades for that."""

from __future__ import annotations

from bisect import bisect_right
from collections.abc import Iterable, Iterator, Sequence
from itertools import accumulate
from typing import Any

from tussockbell._axes import Axis
from tussockbell._sheet import CELL, LEFT, Key

# Two ends for each of the dimensions drawn.
Ends = Sequence[Any]

_SHADES = 6
GREY = ("#e6e8ec", "#d0d4db", "#b8bec8", "#a0a8b4", "#8790a0", "#6c7686")
ORANGE = ("#fbdcb9", "#f7c08a", "#f2a65a", "#d98433", "#b86519", "#8f480a")


def cell_counts(boxes: Iterable[Ends], across: Axis, up: Axis, columns: int, rows: int) -> list[list[int]]:
    """How many boxes lie over each cell of a raster, row by row, the lowest first. A box adds one where it begins and takes it away
    where it ends, and the sums of these are the counts."""
    wide = columns + 1
    changes = [0] * (wide * (rows + 1))
    by_x, x, width = across.cells(columns)
    by_y, y, height = up.cells(rows)
    if (by_x, by_y) != (1, 1):
        boxes = ((left * by_x, right * by_x, low * by_y, high * by_y) for left, right, low, high in boxes)
    for left, right, low, high in boxes:
        begin, end = int((left - x) * width), int((right - x) * width) + 1
        first, past = int((low - y) * height) * wide, (int((high - y) * height) + 1) * wide
        changes[first + begin] += 1
        changes[first + end] -= 1
        changes[past + begin] -= 1
        changes[past + end] += 1
    counted, below = [], [0] * columns
    for at in range(0, wide * rows, wide):
        below = [one + more for one, more in zip(below, accumulate(changes[at : at + columns]))]
        counted.append(below)
    return counted


def column_counts(boxes: Iterable[Ends], across: Axis, columns: int) -> list[int]:
    changes = [0] * (columns + 1)
    by, x, width = across.cells(columns)
    for left, right in boxes:
        changes[int((left * by - x) * width)] += 1
        changes[int((right * by - x) * width) + 1] -= 1
    return list(accumulate(changes[:columns]))


def shades(most: int) -> list[int]:
    """From which count on each shade stands: all of them one by one, or each as many times the one before."""
    if most <= _SHADES:
        return list(range(1, most + 1))
    return sorted({round(most ** (at / _SHADES)) for at in range(_SHADES)})


def shade_keys(bounds: Sequence[int], most: int, fills: Sequence[str]) -> Iterator[Key]:
    for bound, following, fill in zip(bounds, [*bounds[1:], most + 1], fills):
        yield Key("", str(bound) if following == bound + 1 else f"{bound}–{following - 1}", fill)


def raster(counts: Sequence[Sequence[int]], bounds: Sequence[int], fills: Sequence[str], top: float) -> Iterator[str]:
    """Cells of the same shade side by side are one run, and all runs of a shade one path."""
    runs: list[list[str]] = [[] for _ in bounds]
    for at, row in enumerate(reversed(counts)):
        y, start = f"{top + at * CELL:g}", 0
        for column in range(1, len(row) + 1):
            if column == len(row) or bisect_right(bounds, row[column]) != bisect_right(bounds, row[start]):
                if row[start]:
                    wide = (column - start) * CELL
                    runs[bisect_right(bounds, row[start]) - 1].append(f"M{LEFT + start * CELL} {y}h{wide}v{CELL}h-{wide}z")
                start = column
    for run, fill in zip(runs, fills):
        if run:
            yield f'<path class="shade" fill="{fill}" d="{"".join(run)}"/>'
