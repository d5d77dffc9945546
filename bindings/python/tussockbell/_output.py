"""What a command writes: answers on standard output, as lines or as JSON, and what went wrong on standard error."""

from __future__ import annotations

import json
import os
import sys
from collections.abc import Iterator, Sequence
from typing import Any, TextIO

import tussockbell as tb

# Lines are made and written so many at a time.
_BLOCK = 1 << 16


def write(text: str) -> None:
    if sys.stdout is None:
        raise ValueError("standard output: closed")
    sys.stdout.write(text)


def say(text: str) -> None:
    """One line on standard error, if there is one."""
    _say("tussockbell: " + " ".join(text.split()))


def _say(line: str) -> None:
    try:
        if sys.stderr is not None:
            print(line, file=sys.stderr, flush=True)
    except OSError:
        no_more(sys.stderr)


def no_more(stream: TextIO) -> None:
    """What could not be written to a stream is not tried again at the end."""
    os.dup2(os.open(os.devnull, os.O_WRONLY), stream.fileno())


def as_json(answer: dict[str, Any]) -> str:
    """One object in one line. A float that JSON has no number for would be an error here, and no answer has one."""
    return json.dumps(answer, allow_nan=False) + "\n"


def refusal(refused: tb.Refused) -> dict[str, Any]:
    return {"number": refused.number, "place": refused.place, "which": refused.which, "text": refused.text}


def say_refused(refused: tb.Refused, in_json: bool, **where: int) -> None:
    """A refusal on standard error, in words or as an object, and of which window it is where there are many."""
    if in_json:
        _say(as_json({**where, "refused": refusal(refused)}).rstrip("\n"))
    else:
        say("".join(f"{name} {number}: " for name, number in where.items()) + str(refused))


def _blocks(columns: Sequence[Sequence[int]]) -> Iterator[str]:
    line = "\t".join(["%d"] * len(columns)) + "\n"
    for start in range(0, len(columns[0]), _BLOCK):
        parts = [column[start : start + _BLOCK] for column in columns]
        numbers = [0] * (len(parts) * len(parts[0]))
        for at, part in enumerate(parts):
            numbers[at :: len(parts)] = part
        yield line * len(parts[0]) % tuple(numbers)


def table(head: dict[str, int], columns: dict[str, Sequence[int]], in_json: bool) -> None:
    """An answer of some numbers and of a table: a line of names and numbers and then one for each row, tab-parted; or one object
    that has the numbers and each column as a list."""
    if in_json:
        write(as_json({**head, **{name: list(column) for name, column in columns.items()}}))
        return
    write("\t".join(f"{name}\t{number}" for name, number in head.items()) + "\n")
    for block in _blocks(list(columns.values())):
        write(block)
