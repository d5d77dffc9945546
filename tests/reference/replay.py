"""The replay of a log, worked out from the rules by `rules`: from a tree and a log to the whole text."""

import report
import rules
from rules import KINDS, Refused

LONGEST = 255
U64 = (0, 2**64 - 1)
ENDS = {"int32": (-(2**31), 2**31 - 1), "int64": (-(2**63), 2**63 - 1), "uint64": U64}


def lines(text):
    """Each line ends in one newline, which the last may lack; an empty text has none."""
    found = text.split(b"\n")
    return found[:-1] if found[-1] == b"" else found


def record(d, line):
    """The window, found and looked of a line, or None where it can't be read."""
    kinds, parts = d.kinds[: d.dimensions], line.split(b"\t")
    if len(line) > LONGEST or not all(KINDS[kind].whole for kind in kinds) or len(parts) != 2 * len(kinds) + 2:
        return None
    limits = [ENDS[kind] for kind in kinds for _ in range(2)] + [U64, U64]
    try:
        *ends, found, looked = (report.decimal(part, *limit) for part, limit in zip(parts, limits))
    except Refused:
        return None
    return list(zip(ends[::2], ends[1::2])), (found, looked)


def answer(d, n, body, window):
    """What the query finds now, or None where it is refused."""
    try:
        found, looked = rules.query(d, n, body, d.kinds, window)
    except Refused:
        return None
    return len(found), looked


def replay(d, n, body, log):
    """One line for each of the log's."""
    text = []
    for number, line in enumerate(lines(log)):
        read = record(d, line)
        now = None if read is None else answer(d, n, body, read[0])
        if now is None:
            fields = [number, "bad"]
        else:
            fields = [number, "same" if now == read[1] else "differs", *read[1], *now]
        text.append("\t".join(map(str, fields)) + "\n")
    return "".join(text).encode()
