"""The rules of mins, maxes, sums and null counts, worked out by brute force from docs/RULES.md alone.

A body is refused by raising `Refused`. An accepted one answers its tiles' values: numbers of a fixed kind, the bytes of a
var field's, sums and null counts as numbers.
"""

import struct

import rules
from rules import KINDS, Refusal, Refused, number

VAR = "var"


def check_count(n, data):
    if not rules.allowed("tiles", n):
        raise Refused(Refusal.TILES, 0)
    if len(data) < 8:
        raise Refused(Refusal.BYTES, len(data))
    if number(data, 0, 8) != n:
        raise Refused(Refusal.COUNT, 0)


def width(kind):
    return 8 if kind == VAR else KINDS[kind].range_bytes // 2


def layout(kind, n, data):
    """Checks what stands before the entries, and returns the values' bytes and the var buffer."""
    check_count(n, data)
    end = 8 + width(kind) * n
    size = number(data, end, 8)
    if len(data) != end + 8 + size or (kind != VAR and size != 0):
        raise Refused(Refusal.BYTES, len(data))
    return [data[at : at + width(kind)] for at in range(8, end, width(kind))], data[end + 8 :]


def fixed_values(kind, n, data):
    """The numbers of a body of a fixed kind."""
    entries, _ = layout(kind, n, data)
    values = [struct.unpack(KINDS[kind].format, entry)[0] for entry in entries]
    for i, value in enumerate(values):
        if rules.is_nan(value):
            raise Refused(Refusal.NOT_A_NUMBER, 8 + width(kind) * i)
    return values


def var_values(n, data):
    """The bytes of each value of a var field."""
    entries, buffer = layout(VAR, n, data)
    starts = [int.from_bytes(entry, "little") for entry in entries]
    for i, start in enumerate(starts):
        if (start != 0 if i == 0 else start < starts[i - 1]) or start > len(buffer):
            raise Refused(Refusal.TILE_OFFSETS, 8 + 8 * i)
    return [buffer[start:end] for start, end in zip(starts, [*starts[1:], len(buffer)])]


def values(kind, n, data):
    """Mins or maxes. A kind that is none of these is refused before all else."""
    if kind != VAR and kind not in KINDS:
        raise Refused(Refusal.DESCRIPTION, 0)
    return var_values(n, data) if kind == VAR else fixed_values(kind, n, data)


def ranges(kind, n, mins, maxes):
    """Both together: mins whole, maxes whole, and then each min against its max."""
    lows = values(kind, n, mins)
    try:
        highs = values(kind, n, maxes)
    except Refused as refused:
        raise Refused(refused.number, refused.place, 1) from None
    if kind != VAR:
        for i, (low, high) in enumerate(zip(lows, highs)):
            if low > high:
                raise Refused(Refusal.REVERSED, 8 + width(kind) * i, 1)
    return list(zip(lows, highs))


def sums(n, data):
    """Raw numbers, laid out as the lists are."""
    return rules.check_list(n, data)


def null_counts(d, file_size, footer_data, data):
    """With the footer, whose refusals come first."""
    footer = rules.footer(d, file_size, footer_data)
    try:
        counts = sums(footer["tiles"], data)
    except Refused as refused:
        raise Refused(refused.number, refused.place, 1) from None
    for i, count in enumerate(counts):
        if count > rules.cells(footer["tiles"], footer["last_cells"], d.capacity, i):
            raise Refused(Refusal.NULL_COUNT, 8 + 8 * i, 1)
    return counts
