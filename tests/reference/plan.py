"""The rules of the read plan, worked out by brute force from docs/RULES.md alone: once by tiles, once byte by byte."""

import rules
from rules import Refusal, Refused


def named(extents, run):
    """The different tiles that a run names, rising."""
    return sorted({i for i in run if 0 <= i < len(extents)})


def ranges(extents, run, gap):
    """Start and length of each range."""
    made = []
    for start, length in (extents[i] for i in named(extents, run)):
        if length == 0:
            continue
        if made and start - sum(made[-1]) <= gap:
            made[-1] = (made[-1][0], start + length - made[-1][0])
        else:
            made.append((start, length))
    return made


def ranges_by_bytes(extents, run, gap):
    """The same: every byte of a named tile, every byte between two of these at most g apart, and then what lies together."""
    own = sorted({at for i in named(extents, run) for at in range(extents[i][0], sum(extents[i]))})
    read = set(own)
    for first, second in zip(own, own[1:]):
        if second - first - 1 <= gap:
            read.update(range(first, second))
    made = []
    for at in sorted(read):
        if made and sum(made[-1]) == at:
            made[-1] = (made[-1][0], made[-1][1] + 1)
        else:
            made.append((at, 1))
    return made


def read_plan(check, n, size, data, gap, run, work):
    """Ranges, how many different tiles are named, their bytes and the entries outside, for a work buffer of so many bytes. `check` is
    `rules.extents` or `rules.var_extents`."""
    extents = check(n, size, data)
    if work < -(-n // 8):
        raise Refused(Refusal.WORK, 0)
    made = ranges(extents, run, gap)
    return made, len(named(extents, run)), sum(length for _, length in made), sum(not 0 <= i < n for i in run)
