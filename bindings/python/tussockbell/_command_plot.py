"""At the command line: the picture of a tree or of a dense grid (`plot`)."""

from __future__ import annotations

import argparse
from typing import Any

import tussockbell as tb
from tussockbell import _command_dense, _picture, _words
from tussockbell._files import read


def add_command(commands: Any, described: _words.Parser, gridded: _words.Parser, of_grid: bool) -> None:
    plot = commands.add_parser(
        "plot", parents=[gridded if of_grid else described], help="draw one or two dimensions of the tree, or of a dense grid",
        epilog=_picture.ABOUT,
    )
    if not of_grid:
        _words.add_window(plot, many=False)
        plot.add_argument("footer", metavar="FOOTER", help="the footer's bytes")
        plot.add_argument("tree", metavar="TREE", help="the R-tree body's bytes")
    plot.add_argument("--out", required=True, metavar="FILE.svg", help="where the picture goes")
    axes = _words.numbers("one or two dimensions, as 0 or 0,1")
    plot.add_argument("--axes", type=axes, metavar="I,J", help="the dimensions drawn, one or two (the first two)")
    plot.set_defaults(run=run)


def _axes(asked: argparse.Namespace, dimensions: int) -> list[int]:
    """The dimensions drawn: those that are asked for, or the first two as far as there are."""
    if asked.axes is None:
        return list(range(min(dimensions, 2)))
    axes: list[int] = asked.axes
    if not 1 <= len(axes) <= 2 or len(set(axes)) != len(axes) or any(not 0 <= axis < dimensions for axis in axes):
        raise ValueError(f"--axes takes one or two of the dimensions 0 to {dimensions - 1}")
    return axes


def _tree_picture(asked: argparse.Namespace, description: tb.Description) -> str:
    footer, tree = read(asked.footer), read(asked.tree)
    opened = tb.open_tree(description, asked.file_size, footer, tree)
    window = _words.closed(asked.window, description.kinds)
    hit = opened.query(window)
    return _picture.draw(opened, tree, window, hit, _axes(asked, len(description.kinds)))


def _grid_picture(asked: argparse.Namespace, description: tb.Description) -> str:
    grid = _command_dense.grid_of(asked, description)
    window = _words.closed(asked.window, description.kinds)
    return _picture.draw_grid(grid, window, grid.query(window), _axes(asked, len(grid.domain)))


def run(asked: argparse.Namespace, description: tb.Description) -> int:
    picture = (_grid_picture if hasattr(asked, "domain") else _tree_picture)(asked, description)
    try:
        with open(asked.out, "w", encoding="utf-8") as file:
            file.write(picture)
    except OSError as error:
        raise ValueError(f"{asked.out}: {error.strerror}") from None
    return 0


