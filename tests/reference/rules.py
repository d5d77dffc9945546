"""The rules of docs/RULES.md, worked out by brute force.

Written from the rules alone, to be compared with what the library says. Plain and slow on purpose: every check is
made where the rules name it, floats are compared by Python's own operators, and the flat listing and the flat count go
over every box.
"""

import math
import struct
from typing import NamedTuple


class Kind(NamedTuple):
    number: int  # TileDB's Datatype number
    range_bytes: int
    format: str  # of one end, for struct
    whole: bool


KINDS = {
    "int32": Kind(0, 8, "<i", True),
    "int64": Kind(1, 16, "<q", True),
    "float32": Kind(2, 8, "<f", False),
    "float64": Kind(3, 16, "<d", False),
    "uint64": Kind(10, 16, "<Q", True),
}

# Those that a dimension may have.
DIMENSION_KINDS = [kind for kind in KINDS if kind != "float32"]

# Least and most.
LIMITS = {
    "dimensions": (1, 4),
    "fields": (1, 64),
    "capacity": (1, 1_000_000_000),
    "version": (16, 21),
    "name": (1, 255),
    "tiles": (1, 16_777_216),
    "fanout": (2, 1_024),
}


class Refusal:
    """The refusal numbers."""

    DESCRIPTION = 1
    BYTES = 2
    VERSION = 3
    NAME_SIZE = 4
    FLAG = 5
    DENSE = 6
    NULL_DOMAIN = 7
    NOT_A_NUMBER = 8
    REVERSED = 9
    TILES = 10
    LAST_CELLS = 11
    OFFSET = 12
    FANOUT = 13
    LEVELS = 14
    OUTSIDE_PARENT = 15
    OUTSIDE_DOMAIN = 16
    COUNT = 17
    TILE_OFFSETS = 18
    WINDOW = 19
    SUM = 20
    WORK = 21
    RUNS = 22
    INFINITE = 23
    BAD_LINE = 24
    REPEATED = 25
    ROOM = 26
    NULL_COUNT = 27
    RETIRED = 28
    GRID = 29


def allowed(what, x):
    least, most = LIMITS[what]
    return least <= x <= most


class Refused(Exception):
    def __init__(self, number, place, which=0):
        super().__init__(number, place, which)
        self.number, self.place, self.which = number, place, which


class Description:
    def __init__(self, kinds, fields, capacity, dimensions=None):
        self.kinds, self.fields, self.capacity = kinds, fields, capacity
        self.dimensions = len(kinds) if dimensions is None else dimensions

    def check_limits(self):
        if not all(allowed(what, getattr(self, what)) for what in ("dimensions", "fields", "capacity")):
            raise Refused(Refusal.DESCRIPTION, 0)

    def check(self):
        self.check_limits()
        for i, kind in enumerate(self.kinds[: self.dimensions]):
            if kind == "float32":
                raise Refused(Refusal.RETIRED, i)

    def box_bytes(self):
        return sum(KINDS[k].range_bytes for k in self.kinds[: self.dimensions])


def number(data, at, size):
    return int.from_bytes(data[at : at + size], "little")


def is_nan(x):
    return isinstance(x, float) and math.isnan(x)


def is_infinite(x):
    return isinstance(x, float) and math.isinf(x)


def stored_range(kind, data, at):
    half = KINDS[kind].range_bytes // 2
    low = struct.unpack(KINDS[kind].format, data[at : at + half])[0]
    high = struct.unpack(KINDS[kind].format, data[at + half : at + 2 * half])[0]
    return low, high


def stored_box(d, data, at):
    box = []
    for kind in d.kinds[: d.dimensions]:
        box.append(stored_range(kind, data, at))
        at += KINDS[kind].range_bytes
    return box


def check_ranges(d, data, at):
    for kind, (low, high) in zip(d.kinds, stored_box(d, data, at)):
        if is_nan(low) or is_nan(high):
            raise Refused(Refusal.NOT_A_NUMBER, at)
        if is_infinite(low) or is_infinite(high):
            raise Refused(Refusal.INFINITE, at)
        if low > high:
            raise Refused(Refusal.REVERSED, at)
        at += KINDS[kind].range_bytes


def inside(box, outer):
    return all(o[0] <= b[0] and b[1] <= o[1] for b, o in zip(box, outer))


def meets(box, window):
    return all(b[0] <= w[1] and w[0] <= b[1] for b, w in zip(box, window))


# ---- footer


def footer(d, file_size, data):
    d.check()
    if len(data) < 12:
        raise Refused(Refusal.BYTES, len(data))
    version = number(data, 0, 4)
    if not allowed("version", version):
        raise Refused(Refusal.VERSION, 0)
    size = number(data, 4, 8)
    if not allowed("name", size):
        raise Refused(Refusal.NAME_SIZE, 4)
    n, b = d.fields, d.box_bytes()
    total = 64 + size + b + 88 * n
    if len(data) != total or file_size < total:
        raise Refused(Refusal.BYTES, len(data))
    answer = {"version": version, "name_size": size, "name": data[12 : 12 + size]}
    at = 12 + size
    for name, refusal in (("dense", Refusal.DENSE), ("null_domain", Refusal.NULL_DOMAIN)):
        if data[at] > 1:
            raise Refused(Refusal.FLAG, at)
        if data[at] == 1:
            raise Refused(refusal, at)
        answer[name] = data[at]
        at += 1
    check_ranges(d, data, at)
    answer["domain"] = stored_box(d, data, at)
    at += b
    answer["tiles"] = number(data, at, 8)
    if not allowed("tiles", answer["tiles"]):
        raise Refused(Refusal.TILES, at)
    at += 8
    answer["last_cells"] = number(data, at, 8)
    if not 1 <= answer["last_cells"] <= d.capacity:
        raise Refused(Refusal.LAST_CELLS, at)
    at += 8
    for name in ("timestamps", "deletes"):
        if data[at] > 1:
            raise Refused(Refusal.FLAG, at)
        answer[name] = data[at]
        at += 1
    for name in ("file_sizes", "file_var_sizes", "file_validity_sizes"):
        answer[name] = [number(data, at + 8 * i, 8) for i in range(n)]
        at += 8 * n

    def offset():
        nonlocal at
        value = number(data, at, 8)
        if value >= file_size - total:
            raise Refused(Refusal.OFFSET, at)
        at += 8
        return value

    answer["rtree"] = offset()
    for name in ("tile_offsets", "var_offsets", "var_sizes", "validity", "mins", "maxes", "sums", "null_counts"):
        answer[name] = [offset() for _ in range(n)]
    answer["fragment"] = offset()
    answer["conditions"] = offset()
    answer["length"] = number(data, at, 8)
    if answer["length"] != total - 8:
        raise Refused(Refusal.BYTES, len(data))
    return answer


def cells(tiles, last_cells, capacity, i):
    return 0 if i >= tiles else last_cells if i == tiles - 1 else capacity


def total_cells(tiles, last_cells, capacity):
    return (tiles - 1) * capacity + last_cells


# ---- tree


def level_counts(n, f):
    """Root first."""
    counts = [n]
    while counts[0] > 1:
        counts.insert(0, -(-counts[0] // f))
    return counts


def check_shape(d, n, body):
    """The counts and the places of the levels' first boxes, root first."""
    if len(body) < 8:
        raise Refused(Refusal.BYTES, len(body), 1)
    f = number(body, 0, 4)
    if not allowed("fanout", f):
        raise Refused(Refusal.FANOUT, 0, 1)
    counts = level_counts(n, f)
    if number(body, 4, 4) != len(counts):
        raise Refused(Refusal.LEVELS, 4, 1)
    b = d.box_bytes()
    if len(body) != 8 + 8 * len(counts) + b * sum(counts):
        raise Refused(Refusal.BYTES, len(body), 1)
    starts, at = [], 8
    for count in counts:
        if number(body, at, 8) != count:
            raise Refused(Refusal.LEVELS, at, 1)
        starts.append(at + 8)
        at += 8 + b * count
    return f, counts, starts


def open_tree(d, file_size, footer_data, body):
    foot = footer(d, file_size, footer_data)
    n = foot["tiles"]
    f, counts, starts = check_shape(d, n, body)
    b = d.box_bytes()
    for level, (count, start) in enumerate(zip(counts, starts)):
        for k in range(count):
            at = start + k * b
            try:
                check_ranges(d, body, at)
            except Refused as r:
                raise Refused(r.number, r.place, 1)
            box = stored_box(d, body, at)
            if level == 0:
                if not inside(box, foot["domain"]):
                    raise Refused(Refusal.OUTSIDE_DOMAIN, at, 1)
            elif not inside(box, stored_box(d, body, starts[level - 1] + k // f * b)):
                raise Refused(Refusal.OUTSIDE_PARENT, at, 1)
    return {"tiles": n, "fanout": f, "levels": len(counts)}


def shown(d, n, stated, room, came):
    """What the bytes of a body that came show of its shape, and of the work buffer's room."""
    if stated < 8:
        raise Refused(Refusal.BYTES, stated, 1)
    if len(came) < 4:
        return
    f = number(came, 0, 4)
    if not allowed("fanout", f):
        raise Refused(Refusal.FANOUT, 0, 1)
    counts = level_counts(n, f)
    if len(came) >= 8 and number(came, 4, 4) != len(counts):
        raise Refused(Refusal.LEVELS, 4, 1)
    b = d.box_bytes()
    if stated != 8 + 8 * len(counts) + b * sum(counts):
        raise Refused(Refusal.BYTES, stated, 1)
    if room < b * sum(counts[:-1]):
        raise Refused(Refusal.WORK, 0)
    at = 8
    for count in counts:
        if at + 8 <= len(came) and number(came, at, 8) != count:
            raise Refused(Refusal.LEVELS, at, 1)
        at += 8 + b * count


def open_parts(d, file_size, footer_data, stated, room, got):
    """A body of a stated length, of which these bytes came, with a work buffer of so much room."""
    n = footer(d, file_size, footer_data)["tiles"]
    shown(d, n, stated, room, got[:stated])
    if len(got) != stated:
        raise Refused(Refusal.BYTES, min(len(got), stated), 1)
    return open_tree(d, file_size, footer_data, got)


# ---- window query


def check_window(d, kinds, window):
    if len(kinds) != d.dimensions:
        raise Refused(Refusal.WINDOW, 0)
    for i, (kind, (low, high)) in enumerate(zip(kinds, window)):
        if kind != d.kinds[i]:
            raise Refused(Refusal.WINDOW, i)
        if is_nan(low) or is_nan(high):
            raise Refused(Refusal.NOT_A_NUMBER, i)
        if low > high:
            raise Refused(Refusal.REVERSED, i)


def query(d, n, body, kinds, window):
    """Tiles found and the looked-at number, by the walk."""
    d.check()
    if not allowed("tiles", n):
        raise Refused(Refusal.TILES, 0)
    check_window(d, kinds, window)
    f, counts, starts = check_shape(d, n, body)
    b = d.box_bytes()
    found, looked = [], 0

    def look(level, k):
        nonlocal looked
        looked += 1
        if not meets(stored_box(d, body, starts[level] + k * b), window):
            return
        if level == len(counts) - 1:
            found.append(k)
            return
        for child in range(k * f, min(k * f + f, counts[level + 1])):
            look(level + 1, child)

    look(0, 0)
    return found, looked


def batch(d, n, body, windows, answers, out):
    """Each window, of kinds and ranges, asked with what the earlier ones left of the result buffer: for each its answer, number, place, found
    and looked, and the places that it used; and the buffer. `answers` is how many answers there is a place for."""
    if answers != len(windows):
        raise Refused(Refusal.RUNS, 0)
    records, out, free = [], list(out), 0
    for kinds, window in windows:
        try:
            found, looked = query(d, n, body, kinds, window)
        except Refused as r:
            records.append((r.number, r.place, 0, 0, 0))
            continue
        used = min(len(found), len(out) - free)
        out[free : free + used] = found[:used]
        free += used
        records.append((0, 0, len(found), looked, used))
    return records, out


def box_test(d, box, kinds, window):
    """Whether one box meets the window, and how many of its dimensions are read up to the first that misses."""
    d.check()
    check_window(d, kinds, window)
    if len(box) != d.box_bytes():
        raise Refused(Refusal.BYTES, len(box))
    sides = stored_box(d, box, 0)
    misses = [i for i, (b, w) in enumerate(zip(sides, window)) if not (b[0] <= w[1] and w[0] <= b[1])]
    return not misses, misses[0] + 1 if misses else len(sides)


def open_and_ask(d, file_size, footer_data, body, kinds, window):
    """An opened tree, asked. A refused one holds an empty body and n 0, and the description that was given."""
    try:
        n = open_tree(d, file_size, footer_data, body)["tiles"]
    except Refused:
        n, body = 0, b""
    return query(d, n, body, kinds, window)


def flat(d, n, body, window):
    """The flat listing and the flat count of a body whose shape is right."""
    f, counts, starts = check_shape(d, n, body)
    b = d.box_bytes()
    listing = [k for k in range(n) if meets(stored_box(d, body, starts[-1] + k * b), window)]
    count = 1
    for level in range(len(counts) - 1):
        for k in range(counts[level]):
            if meets(stored_box(d, body, starts[level] + k * b), window):
                count += min(f, counts[level + 1] - k * f)
    return listing, count


# ---- writing a tree


def least_box(d, row):
    """The bytes of the least box around a row of boxes: each end's are those of the first box that has it."""
    box, at = b"", 0
    for kind in d.kinds[: d.dimensions]:
        half = KINDS[kind].range_bytes // 2
        low = high = row[0]
        for other in row[1:]:
            if stored_range(kind, other, at)[0] < stored_range(kind, low, at)[0]:
                low = other
            if stored_range(kind, other, at)[1] > stored_range(kind, high, at)[1]:
                high = other
        box += low[at : at + half] + high[at + half : at + 2 * half]
        at += 2 * half
    return box


def tree_length(d, n, f):
    d.check()
    if not allowed("tiles", n):
        raise Refused(Refusal.TILES, 0)
    if not allowed("fanout", f):
        raise Refused(Refusal.FANOUT, 0)
    counts = level_counts(n, f)
    return 8 + 8 * len(counts) + d.box_bytes() * sum(counts)


def write_tree(d, n, f, leaves, room):
    """The body, for an output buffer of so many bytes."""
    length = tree_length(d, n, f)
    b = d.box_bytes()
    if len(leaves) != n * b:
        raise Refused(Refusal.BYTES, len(leaves))
    for k in range(n):
        check_ranges(d, leaves, k * b)
    if room < length:
        raise Refused(Refusal.ROOM, 0)
    levels = [[leaves[k * b : k * b + b] for k in range(n)]]
    while len(levels[0]) > 1:
        below = levels[0]
        levels.insert(0, [least_box(d, below[k : k + f]) for k in range(0, len(below), f)])
    body = f.to_bytes(4, "little") + len(levels).to_bytes(4, "little")
    for level in levels:
        body += len(level).to_bytes(8, "little") + b"".join(level)
    assert len(body) == length
    return body


# ---- lists


def check_list(n, data):
    if not allowed("tiles", n):
        raise Refused(Refusal.TILES, 0)
    if len(data) < 8:
        raise Refused(Refusal.BYTES, len(data))
    if number(data, 0, 8) != n:
        raise Refused(Refusal.COUNT, 0)
    if len(data) != 8 + 8 * n:
        raise Refused(Refusal.BYTES, len(data))
    return [number(data, 8 + 8 * i, 8) for i in range(n)]


def offsets(n, size, data):
    entries = check_list(n, data)
    for i, x in enumerate(entries):
        if x >= size or (x != 0 if i == 0 else x <= entries[i - 1]):
            raise Refused(Refusal.TILE_OFFSETS, 8 + 8 * i)
    return entries


def var_offsets(n, size, data):
    entries = check_list(n, data)
    for i, x in enumerate(entries):
        if x > size or (x != 0 if i == 0 else x < entries[i - 1]):
            raise Refused(Refusal.TILE_OFFSETS, 8 + 8 * i)
    return entries


def between(entries, size):
    return [(a, z - a) for a, z in zip(entries, entries[1:] + [size])]


def extents(n, size, data):
    return between(offsets(n, size, data), size)


def var_extents(n, size, data):
    return between(var_offsets(n, size, data), size)


def sizes(n, data):
    total = 0
    for i, x in enumerate(check_list(n, data)):
        total += x
        if total >= 2**64:
            raise Refused(Refusal.SUM, 8 + 8 * i)
    return total
