"""Tussockbell at the command line, for every kind of dimension: `tussockbell` where the package is installed, and
`python3 -m tussockbell` wherever it is found.

    tussockbell query --kinds int32,float64 --fields 3 --capacity 1000 --file-size 40960 --data-size 90000 \
        --window 0:10,-1.5: FOOTER TREE OFFSETS

prints the report's lines, tab-parted: how many tiles the fragment has, how many the window touches and how many boxes
were looked at; then tile, offset, extent and cells of each tile that it touches. With `--windows FILE` in place of
`--window` the windows of a file are asked in one batch. An end that is left off is the least or the greatest number of
its kind.

    tussockbell plan .. --windows FILE --gap 4096 FOOTER TREE OFFSETS

prints which ranges of the data file are read for all tiles that the windows touch.

    tussockbell info .. FOOTER TREE
    tussockbell check .. --offsets OFFSETS --sizes SIZES FOOTER TREE

print a footer's numbers and a tree's shape, and which parts of a fragment are accepted.

    tussockbell plot .. --window 0:10,-1.5:2.5 --out tiles.svg FOOTER TREE

draws one or two dimensions of the tree and the tiles that the window touches.

    tussockbell replay .. FOOTER TREE LOG

asks the queries of a log again, and prints for each whether its answer is the logged one; a line that differs or is bad
gives exit status 1, and `--quiet` prints only such lines.

    tussockbell convert --kinds int32,float32 .. --out-footer NEW_FOOTER --out-tree NEW_TREE FOOTER TREE

writes the footer and the tree of a fragment from before float32 was retired with float64 in its place, and prints the new
kinds and the file size that goes with the new footer. Each file is written under another name and then renamed, so that
it is there whole or not at all.

    tussockbell dense --kinds int32,int64 --domain 0:99,0:99 --extents 10,25 --window 5:14,30:30

prints how many tiles the grid of a dense array has and how many the window touches, and then the number of each of
these; `plot` with `--domain` and `--extents` in place of FOOTER and TREE draws it.

    tussockbell committed LISTING --time 1700000000000

prints the names of the committed folders of a listing that are no later than a time, one a line.

With `--json` every answer is an object in one line; `--help` of a command says what it has. FOOTER, TREE and OFFSETS are
files of plain bytes, or pipes. What is wrong with them, with the numbers or with the window is asked of the library. A
refusal is a line on standard error, with its number, its place and its words, and exit status 1; with `--json` the line
is an object, `{"refused": {"number": .., "place": .., "which": .., "text": ..}}`. Any other failure is a line there, in
words, and exit status 2: a file that can't be read or written, a character device, a pipe longer than any tree, a
command that isn't one, an option that is given twice. Where whoever reads the answer has gone, as in `| head`, it is
exit status 2 and no line.
"""

from __future__ import annotations

import argparse
import os
import sys
from collections.abc import Iterator
from contextlib import contextmanager
from typing import Any, Optional

import tussockbell as tb
from tussockbell import (
    _command_about, _command_committed, _command_convert, _command_dense, _command_plot, _command_query, _command_replay, _output, _words,
)

_REFUSED, _FAILED = 1, _words.FAILED


def _called() -> str:
    """How whoever reads the usage started this: by its own name, or as a module."""
    return "python3 -m tussockbell" if os.path.basename(sys.argv[0]) == "__main__.py" else "tussockbell"


def _arguments(words: list[str]) -> argparse.Namespace:
    parser = _words.Parser(
        prog=_called(),
        description="Which data tiles of a TileDB fragment does a window touch?",
        epilog="Exit status: 0 answered; 1 refused, with number, place and words on standard error, or a line of a replay that\n"
        "differs, or a part that `check` refuses; 2 any other failure, as of a file or of the command.\n"
        "`COMMAND --help` says what a command prints, in lines and with --json.",
    )
    parser.add_argument("--version", action="version", version=f"tussockbell {tb.__version__}")
    names = "query|plan|info|check|plot|replay|convert|dense|committed"
    commands = parser.add_subparsers(dest="command", required=True, metavar=names)
    described, answering = _words.described(), _words.Parser(add_help=False)
    answering.add_argument("--json", action="store_true", help="print the answer as JSON, an object in one line")
    gridded = _command_dense.options(_words.Parser(add_help=False))
    _command_query.add_commands(commands, described, answering)
    _command_about.add_commands(commands, described, answering)
    _command_plot.add_command(commands, described, gridded, _command_dense.is_grid(words))
    _command_replay.add_command(commands, described, answering)
    _command_convert.add_command(commands, described, answering)
    _command_dense.add_command(commands, gridded, answering)
    _command_committed.add_command(commands, answering)
    # A window may start with a minus, which would else count as an option's.
    joined: list[str] = []
    for word in words:
        if joined and joined[-1] in ("--window", "--domain"):
            joined[-1] += "=" + word
        else:
            joined.append(word)
    return parser.parse_args(joined)


def _answer(asked: Any) -> int:
    """Answers a command, and tells the exit status."""
    if asked.command == "committed":
        return _command_committed.run(asked)
    description = tb.Description(_words.kinds(asked.kinds), asked.fields, asked.capacity)
    status: int = asked.run(asked, description)
    return status


@contextmanager
def _written() -> Iterator[None]:
    """What is printed is written to the last before the exit status is known, a help text too."""
    try:
        yield
    finally:
        if sys.stdout is not None:
            sys.stdout.flush()


def main(words: Optional[list[str]] = None) -> int:
    in_json = False
    try:
        with _written():
            asked = _arguments(sys.argv[1:] if words is None else words)
            in_json = getattr(asked, "json", False)
            return _answer(asked)
    except tb.Refused as refused:
        _output.say_refused(refused, in_json)
        return _REFUSED
    except OSError as error:
        if error.filename is None and error.errno is not None:
            _output.no_more(sys.stdout)
        if not isinstance(error, BrokenPipeError):
            _output.say(f"{error.filename or 'standard output'}: {error.strerror}" if error.errno else str(error))
        return _FAILED
    except Exception as error:
        _output.say(str(error) if isinstance(error, ValueError) else f"{type(error).__name__}: {error}")
        return _FAILED


if __name__ == "__main__":
    sys.exit(main())
