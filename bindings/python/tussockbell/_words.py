"""What stands in a command: numbers, windows, files of windows, and a parser that says in one line what is wrong with it."""

from __future__ import annotations

import argparse
import math
import sys
from collections.abc import Callable, Iterator, Sequence
from typing import Any, NoReturn, Optional, Tuple, Union

import tussockbell as tb
from tussockbell import _files, _output

FAILED = 2

Number = Union[int, float]
# A side of a window as it is written: an end that is left off is None.
Side = Tuple[Optional[Number], Optional[Number]]
Ends = Tuple[Number, Number]

# What an end that is left off stands for: the least and the greatest number of its kind.
_OPEN: dict[str, Ends] = {
    "int32": (-(2**31), 2**31 - 1),
    "int64": (-(2**63), 2**63 - 1),
    "uint64": (0, 2**64 - 1),
    "float64": (-math.inf, math.inf),
}
# A line that is no window is shown up to so many characters.
_SHOWN = 60


class _Once(argparse.Action):
    """An option that is given twice is a mistake: which of the two was meant?"""

    def __call__(self, parser: argparse.ArgumentParser, namespace: argparse.Namespace, values: Any, option: Optional[str] = None) -> None:
        given: set[str] = namespace.__dict__.setdefault("_given", set())
        if option is not None and self.dest in given:
            raise argparse.ArgumentError(self, "given twice")
        given.add(self.dest)
        setattr(namespace, self.dest, values)


class Parser(argparse.ArgumentParser):
    """One that says in one line what is wrong with a command, and that its help could not be written."""

    def __init__(self, **named: Any) -> None:
        common: dict[str, Any] = {"allow_abbrev": False, "formatter_class": argparse.RawDescriptionHelpFormatter}
        super().__init__(**{**common, **named})
        self.register("action", None, _Once)

    def error(self, message: str) -> NoReturn:
        _output.say(f"{message}; for usage: {self.prog} --help")
        sys.exit(FAILED)

    def _print_message(self, message: str, file: Any = None) -> None:
        """Help and version; argparse itself passes over what can't be written."""
        _output.write(message)


def number(text: str) -> Number:
    """An end of a window, or another number: an integer where it is written as one."""
    try:
        return int(text)
    except ValueError:
        return float(text)


def _side(text: str) -> Side:
    low, colon, high = text.partition(":")
    try:
        if not colon:
            raise ValueError
        return number(low) if low else None, number(high) if high else None
    except ValueError:
        raise argparse.ArgumentTypeError(f"{text[:_SHOWN]!r} is not MINIMUM:MAXIMUM") from None


def window(text: str) -> list[Side]:
    """The sides of a window, parted by commas."""
    return [_side(side) for side in text.split(",")]


def domain(text: str) -> list[Ends]:
    """A window of which no end is left off."""
    sides = [(low, high) for low, high in window(text) if low is not None and high is not None]
    if len(sides) <= text.count(","):
        raise argparse.ArgumentTypeError(f"{text[:_SHOWN]!r} has an open end")
    return sides


def closed(sides: Sequence[Side], kinds: Sequence[Any]) -> list[Ends]:
    """A window with the ends that were left off, which are the kinds' own. A side too many is of no kind, and refused whatever its
    ends are."""
    made: list[Ends] = []
    for at, (low, high) in enumerate(sides):
        if low is None or high is None:
            least, greatest = (0, 0) if at >= len(kinds) else _open(str(kinds[at]))
            low, high = least if low is None else low, greatest if high is None else high
        made.append((low, high))
    return made


def _open(kind: str) -> Ends:
    if kind not in _OPEN:
        raise ValueError(f"an open end needs one of the kinds {', '.join(_OPEN)}, not {kind}")
    return _OPEN[kind]


def kinds(text: str) -> list[str]:
    """Kinds by their names, however they are spelled; what is none stays as it is, and is refused."""
    return [next((name for name in (*_OPEN, "float32") if _described([word]) == _described([name])), word) for word in text.split(",")]


def _described(kinds: list[str]) -> tb.Description:
    return tb.Description(kinds, 1, 1)


def _lines(data: _files.Read) -> Iterator[str]:
    lines = bytes(data).decode("utf-8", "replace").split("\n")
    return (line.rstrip("\r") for line in (lines if lines[-1] else lines[:-1]))


def windows(path: str) -> list[list[Side]]:
    """The windows of a file, one a line, their sides parted by commas or tabs. Any other line is a ValueError, with its number."""
    made = []
    for at, line in enumerate(_lines(_files.read_input(path)), 1):
        try:
            made.append(window(line.replace("\t", ",")))
        except argparse.ArgumentTypeError as error:
            raise ValueError(f"{_files.shown(path)}: line {at}: {error}") from None
    return made


def numbers(what: str) -> Callable[[str], list[int]]:
    """What reads integers that are parted by commas."""

    def read(text: str) -> list[int]:
        try:
            return [int(each) for each in text.split(",")]
        except ValueError:
            raise argparse.ArgumentTypeError(f"{text!r} is not {what}") from None

    return read


def described() -> Parser:
    """What says which fragment it is."""
    made = Parser(add_help=False)
    made.add_argument("--kinds", required=True, help="a kind for each dimension, as int32,float64")
    made.add_argument("--fields", required=True, type=int, metavar="N", help="entries in each per-field list")
    made.add_argument("--capacity", required=True, type=int, metavar="C", help="cells of a full tile")
    made.add_argument("--file-size", required=True, type=int, metavar="F", help="bytes of the whole metadata file")
    return made


def add_window(parser: argparse.ArgumentParser, many: bool) -> None:
    """The option that says the window, and where it may be the one that says many."""
    which = parser.add_mutually_exclusive_group(required=True) if many else parser
    help_window = "minimum and maximum of each dimension, both inside; an end that is left off, as in 12: or :, is the least or the "
    help_window += "greatest number of its kind, of a float an infinity"
    which.add_argument("--window", required=not many, type=window, metavar="LOW:HIGH,..", help=help_window)
    if many:
        help_windows = "a file of windows, one a line, as --window has them (tabs do for the commas); - is standard input"
        which.add_argument("--windows", metavar="FILE", help=help_windows)
