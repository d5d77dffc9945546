"""The report, worked out from the rules by `rules`: from four byte strings to the program's whole output.

    report.py DESCRIPTION FOOTER TREE OFFSETS     writes what the program must write
"""

import pathlib
import re
import sys

import rules
from rules import LIMITS, Description, Refusal, Refused

LONGEST = 65536
DECIMAL = re.compile(rb"0|-?[1-9][0-9]*")


def decimal(line, low, high):
    """A decimal number from low to high, or refusal 1."""
    if not DECIMAL.fullmatch(line) or not low <= int(line) <= high:
        raise Refused(Refusal.DESCRIPTION, 0)
    return int(line)


def asked(text):
    """What the description file says."""
    lines = text.split(b"\n")
    if lines[-1] == b"":
        lines.pop()
    take = iter(lines)

    def number(low=0, high=2**64 - 1):
        try:
            return decimal(next(take), low, high)
        except StopIteration:
            raise Refused(Refusal.DESCRIPTION, 0)

    dimensions = number(*LIMITS["dimensions"])
    kinds = []
    for _ in range(dimensions):
        bits = number(32, 64)
        if bits not in (32, 64):
            raise Refused(Refusal.DESCRIPTION, 0)
        kinds.append("int32" if bits == 32 else "int64")
    fields, capacity, file_size, data_size = number(), number(), number(), number()
    window = []
    for kind in kinds:
        half = 2**31 if kind == "int32" else 2**63
        window.append((number(-half, half - 1), number(-half, half - 1)))
    if next(take, None) is not None:
        raise Refused(Refusal.DESCRIPTION, 0)
    d = Description(kinds, fields, capacity)
    d.check()
    return d, file_size, data_size, window


def report(description, footer, tree, offsets):
    if any(len(part) > LONGEST for part in (description, footer, tree, offsets)):
        return b"too long\n"
    try:
        d, file_size, data_size, window = asked(description)
        n = rules.open_tree(d, file_size, footer, tree)["tiles"]
        extents = rules.extents(n, data_size, offsets)
        found, looked = rules.query(d, n, tree, d.kinds, window)
    except Refused as r:
        return b"refused\t%d\t%d\n" % (r.number, r.place)
    last_cells = rules.footer(d, file_size, footer)["last_cells"]
    text = b"tiles\t%d\tfound\t%d\tlooked\t%d\n" % (n, len(found), looked)
    for tile in found:
        offset, extent = extents[tile]
        text += b"%d\t%d\t%d\t%d\n" % (tile, offset, extent, rules.cells(n, last_cells, d.capacity, tile))
    return text


if __name__ == "__main__":
    sys.stdout.buffer.write(report(*(pathlib.Path(p).read_bytes() for p in sys.argv[1:5])))
