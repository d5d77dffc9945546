"""Writes the cases that the program `examples` runs, and what it must answer, worked out by `rules`.

    cases.py DIR     writes DIR/stdin and DIR/stdout
"""

import pathlib
import struct
import sys

import pieces
import rules
from pieces import u64
from rules import DIMENSION_KINDS, KINDS, LIMITS, Description, Refusal, Refused

NAN32 = struct.pack("<I", 0x7FC00000)
NAN64 = struct.pack("<Q", 0x7FF8000000000001)
INF = float("inf")
# Ends of a stored range, or of one that is asked with: an infinity at either end or at both, in order and reversed, and one beside a NaN.
INFINITE = [(-INF, 0.5), (0.5, INF), (INF, INF), (INF, -INF), (0.5, -INF), (NAN64, INF), (-INF, NAN64)]
# Dimensions of which one or more are float32.
RETIRED = [["float32"], ["float64", "float32"], ["int32", "float32", "float32"], ["int64", "uint64", "float64", "float32"]]
MOST = 2**64 - 1
HALF = 2**63
# What the program reads.
SPACE = 655_360
MOST_DIMENSIONS, MOST_FIELDS, MOST_CAPACITY, MOST_TILES, MOST_FANOUT = (
    LIMITS[what][1] for what in ("dimensions", "fields", "capacity", "tiles", "fanout")
)
LISTS = ["file_sizes", "file_var_sizes", "file_validity_sizes", "tile_offsets", "var_offsets", "var_sizes"]
LISTS += ["validity", "mins", "maxes", "sums", "null_counts"]


class Cases:
    def __init__(self):
        self.asked, self.answers = [], []

    def add(self, what, d, numbers, first, second, answer):
        # Kinds past D are not looked at: they are the one that no dimension may have.
        kinds = [KINDS[k].number for k in d.kinds] + [KINDS["float32"].number] * (MOST_DIMENSIONS - len(d.kinds))
        numbers = list(numbers) + [0] * (3 - len(numbers))
        row = [what, d.dimensions] + kinds + [d.fields, d.capacity] + numbers + [len(first)]
        case = b"".join(map(u64, row)) + first + second
        self.asked.append(u64(len(case) + 8) + case)
        self.answers.append(b"".join(str(x).encode() + b"\t" for x in [what]) + answer + b"\n")

    def write(self, folder):
        (folder / "stdin").write_bytes(b"".join(self.asked))
        (folder / "stdout").write_bytes(b"".join(self.answers))


def text(numbers):
    return b"".join(b"%d\t" % x for x in numbers)


def footer_answer(d, file_size, data, tile):
    try:
        f = rules.footer(d, file_size, data)
    except Refused as r:
        return text([r.number, r.place] + [0] * 12 + [0] * (4 * len(LISTS)) + [0, 0])
    numbers = [0, 0, f["version"], f["name_size"], f["dense"], f["null_domain"], f["tiles"], f["last_cells"]]
    numbers += [f["timestamps"], f["deletes"], f["rtree"], f["fragment"], f["conditions"], f["length"]]
    for name in LISTS:
        entries = f[name] + [0] * (MOST_FIELDS - d.fields)
        numbers += [entries[0], entries[1], entries[2], entries[-1]]
    numbers.append(rules.cells(f["tiles"], f["last_cells"], d.capacity, tile))
    numbers.append(rules.total_cells(f["tiles"], f["last_cells"], d.capacity))
    return text(numbers)


def name_answer(d, file_size, data):
    try:
        name = rules.footer(d, file_size, data)["name"]
    except Refused:
        name = b""
    return text([len(name)]) + name


def footer_cases(cases):
    one = Description(["int32"], 1, 32)
    two = Description(["int32", "int32"], 1, 32)
    mixed = Description(["int32", "float64", "int64", "float64"], 2, 1000)
    many = Description(["float64"], MOST_FIELDS, MOST_CAPACITY)
    unsigned = Description(["uint64", "int64", "uint64"], 1, 32)
    zero = [(-5, 24)]

    def ask(d, data, file_size, tile=0):
        cases.add(1, d, [file_size, tile], data, b"", footer_answer(d, file_size, data, tile))

    def ask_changed(d, domain, **changes):
        f = pieces.Footer(d, domain)
        for name, value in changes.items():
            setattr(f, name, value)
        ask(d, f.data(), f.file_size)

    # accepted: every number, zero fill past N, the ends of the tiles, names, kinds past D
    worked = pieces.Footer(two, [(0, 9), (0, 9)], name=b"four")
    assert worked.total() == 172 and worked.length == 164
    for tile in (0, 1, 2, 3, MOST):
        ask(two, worked.data(), worked.file_size, tile)
    full = [(-(2**31), 2**31 - 1)]
    ask_changed(one, full, tiles=1, last_cells=32)
    # more tiles than there once might be
    for tiles in (65_536, 65_537, MOST_TILES):
        f = pieces.Footer(one, zero, tiles=tiles)
        for tile in (0, tiles - 1, tiles):
            ask(one, f.data(), f.file_size, tile)
    ask_changed(mixed, [(0, 24), (-1.5, 1.7976931348623157e308), (-(2**63), 2**63 - 1), (0.0, -0.0)])
    for domain in ((0, MOST), (HALF - 1, HALF), (HALF, HALF), (MOST, MOST), (0, 0)):
        ask_changed(unsigned, [domain, (-1, 0), domain])
    f = pieces.Footer(many, [(-1.7976931348623157e308, 0.5)], name=b"\0" * 255)
    ask(many, f.data(), f.file_size, 2)
    for d, f in ((two, worked), (many, f)):
        for file_size in (f.file_size, f.total() - 1):
            cases.add(2, d, [file_size], f.data(), b"", name_answer(d, file_size, f.data()))

    # 1
    data = pieces.Footer(one, zero).data()
    for d in (
        Description(["int32"], 1, 32, 0), Description(["int32"], 1, 32, MOST_DIMENSIONS + 1),
        Description(["int32"], 0, 32), Description(["int32"], MOST_FIELDS + 1, 32),
        Description(["int32"], 1, 0), Description(["int32"], 1, MOST_CAPACITY + 1),
        Description(["int32"], MOST, MOST, MOST),
    ):
        ask(d, data, 10000)

    # 28: after 1 and before every byte, at the first float32 dimension
    for kinds in RETIRED:
        d = Description(kinds, 1, 32)
        f = pieces.Footer(d, [(0, 1)] * len(kinds))
        ask(d, f.data(), f.file_size)
        ask(d, b"", 0)
        cases.add(2, d, [f.file_size], f.data(), b"", name_answer(d, f.file_size, f.data()))
    for d in (Description(["float32"], 0, 32), Description(["float32"], 1, 0), Description(["float32"], 1, 32, MOST_DIMENSIONS + 1)):
        ask(d, b"", 0)

    # 2: too few, unlike the total, F below it, the length field
    f = pieces.Footer(one, zero)
    for cut in (b"", f.data()[:11], f.data()[:12], f.data()[:-1], f.data() + b"\0"):
        ask(one, cut, f.file_size)
    ask(one, f.data(), f.total() - 1)
    ask_changed(one, zero, length=f.total() - 7)
    ask_changed(one, zero, length=f.total())
    # F equal to the total is no 2: every offset is then 12
    ask(one, f.data(), f.total())

    # 3, 4: also before the total's 2
    for version in (15, 22, 2**32 - 1):
        ask_changed(one, zero, version=version)
    ask(one, pieces.u32(15) + bytes(8), 10000)
    for size in (0, 256, MOST, 5, 7):
        ask_changed(one, zero, name_size=size)

    # 5, 6, 7
    for name in ("dense", "null_domain", "timestamps", "deletes"):
        for value in (1, 2, 255):
            ask_changed(one, zero, **{name: value})

    # 8, 9: each end, each dimension, NaN before reversed, the first dimension first
    for low, high in ((NAN64, 1.0), (1.0, NAN64), (2.0, 1.0), (NAN64, NAN64)):
        ask_changed(Description(["int64", "float64"], 1, 32), [(0, 1), (low, high)])
    for low, high in ((NAN64, 1.0), (1.0, NAN64), (2.0, 1.0)):
        ask_changed(Description(["float64", "int64"], 1, 32), [(low, high), (1, 0)])
    ask_changed(one, [(1, 0)])
    ask_changed(one, [(0, -1)])
    ask_changed(Description(["int64"], 1, 32), [(0, -(2**63))])
    for domain in ((HALF, HALF - 1), (MOST, 0), (MOST, HALF), (1, 0)):
        ask_changed(unsigned, [domain, (0, 0), (0, 0)])
        ask_changed(unsigned, [(0, 0), (0, 0), domain])

    # 23: after 8 and before 9, in each dimension; an infinity of the first before the second's fault, and after the first's
    for pair in INFINITE:
        ask_changed(Description(["float64", "int64"], 1, 32), [pair, (1, 0)])
        ask_changed(Description(["int64", "float64"], 1, 32), [(0, 1), pair])
    ask_changed(Description(["float64", "float64"], 1, 32), [(2.0, 1.0), (-INF, INF)])
    ask_changed(Description(["float64", "float64"], 1, 32), [(-INF, INF), (2.0, 1.0)])

    # 10, 11
    for tiles in (0, MOST_TILES + 1, MOST):
        ask_changed(one, zero, tiles=tiles)
    for last in (0, 33, MOST):
        ask_changed(one, zero, last_cells=last)

    # 12: first and last entry of each list, at the limit and below it
    d = Description(["int32"], 2, 32)
    limit = 1000
    for value in (limit, limit - 1, MOST):
        for name in ("rtree", "fragment", "conditions"):
            ask_changed(d, zero, **{name: value})
    for a in range(8):
        for i in range(2):
            f = pieces.Footer(d, zero)
            f.offsets[a][i] = limit
            ask(d, f.data(), f.file_size)
    f = pieces.Footer(d, zero)
    f.sizes = [[MOST, 0], [0, MOST], [MOST, MOST]]
    ask(d, f.data(), f.file_size)

    # several faults: the first check decides
    ask_changed(one, [(1, 0)], dense=2, tiles=0)
    ask_changed(one, [(1, 0)], tiles=0)
    ask_changed(one, zero, tiles=0, last_cells=0, length=0)
    ask_changed(one, zero, rtree=MOST, length=0)


def list_cases(cases):
    none = Description([], 0, 0)

    def ask_by(what, rule, n, size, data, tile):
        try:
            extents = rule(n, size, data)
            answer = [0, 0, len(extents), *(extents[tile] if tile < n else (0, 0))]
        except Refused as r:
            answer = [r.number, r.place, 0, 0, 0]
        cases.add(what, none, [n, size, tile], data, b"", text(answer))

    def ask(n, size, data, tile=0):
        ask_by(3, rules.extents, n, size, data, tile)

    def ask_var(n, size, data, tile=0):
        ask_by(8, rules.var_extents, n, size, data, tile)

    def ask_sizes(n, data):
        try:
            answer = [0, 0, rules.sizes(n, data)]
        except Refused as r:
            answer = [r.number, r.place, 0]
        cases.add(4, none, [n], data, b"", text(answer))

    good = pieces.entries([0, 100, 250])
    for tile in (0, 1, 2, 3, MOST):
        ask(3, 300, good, tile)
    for offsets, size in (
        ([0, 100, 300], 300), ([0, 100, 299], 300), ([0, 100, 100], 300), ([0, 100, 99], 300), ([1, 100, 200], 300),
        ([0, 300, 100], 300), ([0, 1, 2], 0), ([0, 1, 2], 3), ([0, MOST - 1, MOST], MOST), ([MOST, 0, 1], MOST),
    ):
        for tile in (0, 2):
            ask(3, size, pieces.entries(offsets), tile)
            ask_var(3, size, pieces.entries(offsets), tile)
    for offsets, size in (
        ([0, 0, 0], 0), ([0, 0, 0], 300), ([0, 300, 300], 300), ([0, 100, 301], 300), ([0, 301, 300], 300), ([0, 0, 1], 0),
        ([1, 1, 1], 1), ([0, 2, 1], 300), ([0, MOST, MOST], MOST), ([0, MOST, MOST - 1], MOST), ([0, MOST, MOST], MOST - 1),
    ):
        for tile in (0, 1, 2, 3, MOST):
            ask_var(3, size, pieces.entries(offsets), tile)
    for list_case in (ask, ask_var):
        list_case(1, 1, pieces.entries([0]))
        list_case(1, 0, pieces.entries([0]))
    for list_case in (lambda n, data: ask(n, 300, data), lambda n, data: ask_var(n, 300, data), ask_sizes):
        for n in (0, MOST_TILES + 1, MOST):
            list_case(n, good)
        for n in (2, 4, 65_537, MOST_TILES):
            list_case(n, good)
            list_case(n, u64(n) + good[8:])
        for data in (b"", good[:7], good[:8], good[:-1], good + b"\0", good[:8] + b"\0" * 8, pieces.entries([0, 1, 2], 2)):
            list_case(3, data)
    for sizes in ([1, 2, 3], [0, 0, 0], [MOST, 0, 0], [MOST, 0, 1], [MOST - 5, 5, 0], [MOST - 5, 6, 0], [1, MOST, MOST]):
        ask_sizes(3, pieces.entries(sizes))


def pattern(kind, x):
    return int.from_bytes(pieces.end(kind, x), "little")


def window_bytes(kinds, window, dimensions=None):
    row = [len(kinds) if dimensions is None else dimensions]
    for i in range(MOST_DIMENSIONS):
        if i < len(kinds):
            row += [KINDS[kinds[i]].number, pattern(kinds[i], window[i][0]), pattern(kinds[i], window[i][1])]
        else:
            row += [KINDS["float32"].number, pattern("float32", NAN32), pattern("float32", NAN32)]
    return b"".join(map(u64, row))


def near(kind, low, high):
    """A range of small numbers of a kind."""
    return pieces.origin(kind) + low, pieces.origin(kind) + high


def numbers_of(kinds, window):
    """The window with the numbers that its ends stand for."""
    return [tuple(struct.unpack(KINDS[k].format, pieces.end(k, x))[0] for x in pair) for k, pair in zip(kinds, window)]


def tree_cases(cases):
    one = Description(["int32"], 1, 32)
    leaves = [[(0, 4)], [(10, 14)], [(20, 24)]]
    tree_a = pieces.tree(["int32"], leaves, 2)
    assert len(tree_a) == 80

    def ask(d, n, body, kinds, window, room=8, dimensions=None):
        given = numbers_of(kinds, window)
        buffer = [7] * 8
        try:
            if dimensions is not None and dimensions != len(kinds):
                rules.Description.check(d)
                raise Refused(Refusal.WINDOW, 0)
            found, looked = rules.query(d, n, body, kinds, given)
            answer = [0, 0, len(found), looked]
            room = min(room, 8)
            buffer[: min(room, len(found))] = found[:room]
        except Refused as r:
            answer = [r.number, r.place, 0, 0]
        cases.add(6, d, [n, room], body, window_bytes(kinds, window, dimensions), text(answer + buffer))

    def ask_opened(d, foot, body, kinds, window, room=8):
        """A tree that is opened and asked."""
        buffer = [7] * 8
        try:
            found, looked = rules.open_and_ask(d, foot.file_size, foot.data(), body, kinds, numbers_of(kinds, window))
            answer = [0, 0, len(found), looked]
            buffer[: min(room, len(found))] = found[:room]
        except Refused as r:
            answer = [r.number, r.place, 0, 0]
        second = window_bytes(kinds, window) + body
        cases.add(7, d, [foot.file_size, room], foot.data(), second, text(answer + buffer))

    def ask_batch(d, n, body, windows, room):
        """Thirty-two windows at once: their answers, and a buffer of 64 places of which `room` are lent."""
        windows = [windows[i % len(windows)] for i in range(32)]
        given = [(kinds, numbers_of(kinds, window)) for kinds, window in windows]
        records, buffer = rules.batch(d, n, body, given, 32, [7] * room)
        answers = [x for record in records for x in record[:4]]
        second = b"".join(window_bytes(kinds, window) for kinds, window in windows)
        cases.add(9, d, [n, room], body, second, text(answers + buffer + [7] * (64 - room)))

    def ask_open(d, foot, body):
        try:
            r = rules.open_tree(d, foot.file_size, foot.data(), body)
            answer = [0, 0, 0, r["tiles"], r["fanout"], r["levels"]]
        except Refused as r:
            answer = [r.number, r.place, r.which, 0, 0, 0]
        cases.add(5, d, [foot.file_size], foot.data(), body, text(answer))

    # tree A
    for window in ((12, 21), (5, 9), (30, 40), (4, 4), (0, 24), (-(2**31), 2**31 - 1), (24, 24), (-9, 0)):
        for room in (0, 1, 2, 8):
            ask(one, 3, tree_a, ["int32"], [window], room)
    # batches: room for none, for all that is found, one place less, and in the middle of a window; refused windows first, in between and last
    whole, two, none, back = (["int32"], [(0, 24)]), (["int32"], [(12, 21)]), (["int32"], [(5, 9)]), (["int32"], [(1, 0)])
    other, more = (["int64"], [(0, 24)]), (["int32", "int32"], [(0, 24), (0, 24)])
    for windows, rooms in (([two], (64, 63, 40)), ([whole, none], (0, 48, 47, 1, 2)), ([back, two, other, none, more], (64, 12, 13, 5)),
                           ([two] * 31 + [back], (62, 61)), ([back] * 31 + [whole], (3, 2)), ([back], (8,))):
        for room in rooms:
            ask_batch(one, 3, tree_a, windows, room)
    ask_batch(Description(["int32"], 0, 32), 3, tree_a, [two, back], 8)
    ask_batch(one, 0, tree_a, [two, back], 8)
    ask_batch(one, 3, tree_a[:-1], [two, back], 8)
    foot = pieces.Footer(one, [(0, 24)])
    ask_open(one, foot, tree_a)
    ask_open(one, foot, tree_a[:72] + pieces.box(["int32"], [(20, 25)]))
    ask_open(one, pieces.Footer(one, [(1, 24)]), tree_a)
    ask_open(one, pieces.Footer(one, [(0, 23)]), tree_a)
    ask_open(one, pieces.Footer(one, [(-5, 100)]), tree_a)
    # wider parents than the children need
    ask_open(one, pieces.Footer(one, [(-5, 100)]), tree_a[:32] + pieces.box(["int32"], [(0, 20), (15, 24)]) + tree_a[48:])

    # opened and asked: accepted; refused for footer, body and description; a window that is refused
    for window in ((12, 21), (5, 9), (30, 40), (4, 4), (0, 24)):
        for room in (0, 1, 8):
            ask_opened(one, foot, tree_a, ["int32"], [window], room)
    for bad_foot, bad_body in (
        (pieces.Footer(one, [(1, 24)]), tree_a), (pieces.Footer(one, [(0, 24)], tiles=2), tree_a),
        (pieces.Footer(one, [(0, 24)], last_cells=33), tree_a), (foot, tree_a[:79]), (foot, b""),
        (foot, tree_a[:72] + pieces.box(["int32"], [(20, 25)])),
    ):
        ask_opened(one, bad_foot, bad_body, ["int32"], [(12, 21)])
    ask_opened(Description(["int32"], 1, 0), foot, tree_a, ["int32"], [(12, 21)])
    ask_opened(one, foot, tree_a, ["int32"], [(21, 12)])
    ask_opened(one, foot, tree_a, ["int64"], [(12, 21)])
    ask_opened(one, foot, tree_a[:79], ["int32"], [(21, 12)])

    # the shape, asked and opened
    def ask_both(body, n=3):
        ask(one, n, body, ["int32"], [(12, 21)])
        f = pieces.Footer(one, [(0, 24)])
        f.tiles = n
        ask_open(one, f, body)

    for cut in (0, 7, 8, 15, 16, 79):
        ask_both(tree_a[:cut])
    ask_both(tree_a + b"\0")
    for f in (0, 1, 3, MOST_FANOUT, MOST_FANOUT + 1, 2**32 - 1):
        ask_both(pieces.u32(f) + tree_a[4:])
    for level_number in (0, 2, 4, 2**32 - 1):
        ask_both(tree_a[:4] + pieces.u32(level_number) + tree_a[8:])
    for at in (8, 24, 48):
        for count in (0, 4, MOST, 2**32 + rules.number(tree_a, at, 8)):
            ask_both(tree_a[:at] + u64(count) + tree_a[at + 8 :])
    for n in (1, 2, 4, 5, 65_536, 65_537, MOST_TILES):
        ask_both(tree_a, n)
    # the right number of levels for so many tiles, and not their bytes
    for n, f, level_number in ((65_536, 2, 17), (65_537, 2, 18), (65_537, 1024, 3), (MOST_TILES, 2, 25), (MOST_TILES, 3, 17), (MOST_TILES, 1024, 4)):
        for stored in (level_number, level_number - 1):
            ask_both(pieces.u32(f) + pieces.u32(stored) + tree_a[8:], n)
    for n in (0, MOST_TILES + 1, MOST):
        ask(one, n, tree_a, ["int32"], [(12, 21)])
    single = pieces.tree(["int32"], [[(3, 9)]], 7)
    assert len(single) == 24
    for body in (single, single[:23], single + b"\0"):
        ask_both(body, 1)

    # every box: NaN and reversed in each dimension, not inside its parent
    mixed = Description(["float64", "int64"], 1, 32)
    boxes = [[(float(i), i + 1.5), (-i, 2 * i)] for i in range(5)]
    body = pieces.tree(mixed.kinds, boxes, 3)
    foot = pieces.Footer(mixed, [(-1e30, 1e30), (-100, 100)], tiles=5)
    ask_open(mixed, foot, body)
    _, counts, starts = rules.check_shape(mixed, 5, body)
    for start, count in zip(starts, counts):
        for k in range(count):
            at = start + 32 * k
            ask_open(mixed, foot, body[:at] + NAN64 + body[at + 8 :])
            ask_open(mixed, foot, body[: at + 8] + NAN64 + body[at + 16 :])
            ask_open(mixed, foot, body[:at] + pieces.box(["float64"], [(2.0, 1.0)]) + body[at + 16 :])
            ask_open(mixed, foot, body[: at + 16] + pieces.box(["int64"], [(1, 0)]) + body[at + 32 :])
            ask_open(mixed, foot, body[: at + 16] + pieces.box(["int64"], [(-101, 101)]) + body[at + 32 :])
            ask_open(mixed, foot, body[:at] + pieces.box(["float64"], [(-0.0, 0.0)]) + body[at + 16 :])
            # asked as it is: shape-right bytes that opening refuses
            broken = body[:at] + NAN64 + body[at + 8 :]
            ask(mixed, 5, broken, mixed.kinds, [(0.0, 9.0), (-9, 9)])
            ask(mixed, 5, body[:at] + pieces.box(["float64"], [(2.0, 1.0)]) + body[at + 16 :], mixed.kinds, [(0.0, 9.0), (-9, 9)])

    # 23 in the domain and in every box, root, inner box and leaf, in each dimension; asked as it is, such a tree is walked
    floats = Description(["float64", "float64"], 1, 32)
    fine = pieces.tree(floats.kinds, [[(float(i), i + 1.5), (-float(i), 2.5 * i)] for i in range(5)], 3)
    wide = [(-1e30, 1e30), (-1e30, 1e30)]
    ask_open(floats, pieces.Footer(floats, wide, tiles=5), fine)
    for i in (0, 1):
        for pair in INFINITE:
            ask_open(floats, pieces.Footer(floats, wide[:i] + [pair] + wide[i + 1 :], tiles=5), fine)
    _, counts, starts = rules.check_shape(floats, 5, fine)
    for start, count in zip(starts, counts):
        for k in sorted({0, count - 1}):
            for side in (0, 16):
                at = start + 32 * k + side
                for pair in INFINITE if k == 0 else INFINITE[:2]:
                    bad = fine[:at] + pieces.box(["float64"], [pair]) + fine[at + 16 :]
                    ask_open(floats, pieces.Footer(floats, wide, tiles=5), bad)
                if k > 0:
                    continue
                ask(floats, 5, bad, floats.kinds, [(0.0, 2.0), (-2.0, 2.0)])
                bad = fine[:at] + pieces.box(["float64"], [(-INF, INF)]) + fine[at + 16 :]
                ask(floats, 5, bad, floats.kinds, [(0.0, 2.0), (-2.0, 2.0)])
    bad = fine[:16] + pieces.box(["float64"], [(-INF, INF)]) + fine[32:]
    ask(floats, 5, bad, floats.kinds, [(-INF, INF), (INF, INF)])
    ask_opened(floats, pieces.Footer(floats, wide, tiles=5), bad, floats.kinds, [(0.0, 2.0), (-2.0, 2.0)])
    for i in (0, 1):
        for pair in INFINITE:
            window = [(0.0, 2.0), (-2.0, 2.0)]
            ask(floats, 5, fine, floats.kinds, window[:i] + [pair] + window[i + 1 :])

    # 28: opened, asked, asked once it was refused so, in a batch for each window; before 10, the window and every byte
    for kinds in RETIRED:
        d, window = Description(kinds, 1, 32), [near(kind, 0, 1) for kind in kinds]
        old, old_foot = pieces.tree(kinds, [window] * 3, 2), pieces.Footer(d, window)
        ask_open(d, old_foot, old)
        ask(d, 3, old, kinds, window)
        ask(d, 0, b"", ["int32"], [(1, 0)])
        ask_opened(d, old_foot, old, kinds, window)
    old = Description(["float32"], 1, 32)
    ask_batch(old, 3, tree_a, [(["float32"], [(0.0, 9.0)]), back], 8)
    ask(Description(["float32"], 1, 0), 3, tree_a, ["float32"], [(0.0, 9.0)])

    # the window: 19 for the number, then per dimension 19, 8, 9
    inf = INF
    ask(mixed, 5, body, ["float64"], [(0.0, 1.0)])
    ask(mixed, 5, body, ["float64", "int64", "int64"], [(0.0, 1.0), (0, 1), (0, 1)])
    for kinds, window in (
        (["float32", "int64"], [(0.0, 1.0), (0, 1)]), (["float64", "int32"], [(0.0, 1.0), (0, 1)]),
        (["int32", "int64"], [(1, 0), (0, 1)]), (["float64", "int32"], [(NAN64, 1.0), (0, 1)]),
        (["float64", "int32"], [(1.0, 0.5), (0, 1)]), (["float64", "int64"], [(1.0, NAN64), (1, 0)]),
        (["float64", "int64"], [(-inf, inf), (1, 0)]), (["float64", "int64"], [(-inf, inf), (0, 1)]),
        (["float64", "int64"], [(0.0, -0.0), (-(2**63), 2**63 - 1)]), (["float64", "int64"], [(inf, inf), (0, 0)]),
    ):
        ask(mixed, 5, body, kinds, window)
    # order of the checks
    ask(Description(["int32"], 1, 0), 0, b"", ["int32"], [(1, 0)])
    ask(one, 0, b"", ["int32"], [(1, 0)])
    ask(one, 3, b"", ["int32"], [(1, 0)])
    ask(one, 3, b"", ["int32"], [(0, 1)])

    # uint64, on both sides of 2^63: domain, root, inner boxes, leaves and window
    wide = Description(["uint64"], 1, 32)
    boxes = [[(0, 4)], [(HALF - 4, HALF - 1)], [(HALF - 1, HALF)], [(HALF, HALF + 4)], [(MOST - 1, MOST)]]
    body = pieces.tree(["uint64"], boxes, 2)
    foot = pieces.Footer(wide, [(0, MOST)], tiles=5)
    for domain in ((0, MOST), (1, MOST), (0, MOST - 1), (HALF, MOST), (0, HALF), (HALF - 1, HALF)):
        ask_open(wide, pieces.Footer(wide, [domain], tiles=5), body)
    _, counts, starts = rules.check_shape(wide, 5, body)
    for start, count in zip(starts, counts):
        for at in range(start, start + 16 * count, 16):
            for side in ((HALF, HALF - 1), (HALF - 1, HALF)):
                ask_open(wide, foot, body[:at] + pieces.box(["uint64"], [side]) + body[at + 16 :])
    for window in (
        (0, MOST), (0, 0), (0, HALF - 1), (HALF, MOST), (HALF - 1, HALF), (HALF - 1, HALF - 1), (HALF, HALF), (MOST, MOST),
        (5, HALF - 5), (HALF + 5, MOST - 2), (MOST - 2, MOST), (HALF, HALF - 1), (MOST, 0), (MOST, HALF),
    ):
        ask(wide, 5, body, ["uint64"], [window])
        ask_opened(wide, foot, body, ["uint64"], [window])
    # int64 and uint64 are different kinds, either way round, and a kind that differs comes before a range that is reversed
    signed = Description(["int64"], 1, 32)
    for side in ((0, 1), (1, 0)):
        ask(wide, 5, body, ["int64"], [side])
        ask(signed, 5, body, ["uint64"], [side])
        ask(wide, 5, body, ["float64"], [side])

    # short last rows, all kinds, infinities
    alone, mix = [[kind] for kind in DIMENSION_KINDS], [["int32", "int64", "uint64", "float64"], ["uint64", "int64"]]
    for kinds in alone + mix:
        d = Description(kinds, 1, 32)
        for n, f in ((1, 2), (2, 2), (7, 3), (10, 10), (11, 10)):
            leaves = [[near(k, i - 3, i - 2) if KINDS[k].whole else (i - 3.5, i - 1.5) for k in kinds] for i in range(n)]
            b = pieces.tree(kinds, leaves, f)
            ask_open(d, pieces.Footer(d, [near(k, -9, 99) for k in kinds], tiles=n), b)
            for low, high in ((-1, 1), (n - 3, n - 3), (-99, 99), (n + 9, n + 9)):
                ask(d, n, b, kinds, [near(k, low, high) for k in kinds])


def blocks_cases(cases):
    """A whole body in blocks of some sizes, with room for its inner boxes and a byte less; bytes changed, and cut short."""

    def ask(d, foot, body, size, room):
        try:
            r = rules.open_parts(d, foot.file_size, foot.data(), len(body), room, body)
            answer = [0, 0, 0, r["tiles"], r["fanout"], r["levels"]]
        except Refused as r:
            answer = [r.number, r.place, r.which, 0, 0, 0]
        cases.add(11, d, [foot.file_size, size, room], foot.data(), body, text(answer))

    one = Description(["int32"], 1, 32)
    foot = pieces.Footer(one, [(0, 24)])
    body = pieces.tree(["int32"], [[(0, 4)], [(10, 14)], [(20, 24)]], 2)
    for size in (0, 9, MOST):
        for room in (23, 24):
            ask(one, foot, body, size, room)
    for at in (8, 76):
        bad = body[:at] + bytes([body[at] ^ 0x81]) + body[at + 1 :]
        for size in (1, 13):
            ask(one, foot, bad, size, 24)
    for cut in (3, 79):
        ask(one, foot, body[:cut], 5, 24)
    ask(one, pieces.Footer(one, [(1, 24)]), body, 5, 24)
    ask(one, pieces.Footer(one, [(0, 24)], last_cells=33), body, 5, 0)
    ask(Description(["int32"], 1, 0), foot, body, 5, 0)


def box_test_cases(cases):
    """One box and a window: a first miss in each dimension, of each kind, below, above and by NaN; refusals."""

    def ask(d, box, kinds, window, dimensions=None):
        try:
            if dimensions is not None and dimensions != len(kinds):
                d.check()
                raise Refused(Refusal.WINDOW, 0)
            meets, read = rules.box_test(d, box, kinds, numbers_of(kinds, window))
            answer = [0, 0, int(meets), read]
        except Refused as r:
            answer = [r.number, r.place, 0, 0]
        cases.add(10, d, [], box, window_bytes(kinds, window, dimensions), text(answer))

    def box(kinds, sides):
        return pieces.box(kinds, [near(kind, *side) for kind, side in zip(kinds, sides)])

    mixes = [["int32", "float64", "int64", "uint64"], ["float64", "int64"], ["float64", "int32", "float64"], ["uint64", "int64"]]
    for kinds in [[kind] * n for kind in DIMENSION_KINDS for n in range(1, MOST_DIMENSIONS + 1)] + mixes:
        d, window = Description(kinds, 1, 32), [near(kind, -4, 9) for kind in kinds]
        ask(d, box(kinds, [(-7, -4)] * len(kinds)), kinds, window)
        for first in range(len(kinds)):
            sides = [(9, 20)] * first + [(-9, -5)] + [(10, 11)] * (len(kinds) - first - 1)
            ask(d, box(kinds, sides), kinds, window)
            for ends in [(NAN64, 3), (3, NAN64)] if not KINDS[kinds[first]].whole else []:
                sides = [near(kind, 0, 1) for kind in kinds]
                sides[first] = ends
                ask(d, pieces.box(kinds, sides), kinds, window)
    # a reversed stored range goes by the formula
    two = Description(["int32", "int64"], 1, 32)
    good, window = pieces.box(two.kinds, [(0, 4), (10, 14)]), [(4, 4), (10, 14)]
    for side in ((5, 3), (3, 5), (4, -1)):
        ask(two, pieces.box(two.kinds, [side, (10, 14)]), two.kinds, window)
    # 1, 28, the window, the bytes, in that order
    ask(two, good, two.kinds, window)
    for bad in (Description(two.kinds, 0, 32), Description(two.kinds, 1, 32, 0), Description(two.kinds, 1, 32, MOST_DIMENSIONS + 1)):
        ask(bad, b"", two.kinds, [(5, 3), (10, 14)])
    for kinds in RETIRED:
        ask(Description(kinds, 1, 32), b"", ["int32"], [(1, 0)])
        ask(Description(kinds, 1, 32), box(kinds, [(0, 1)] * len(kinds)), kinds, [near(kind, 0, 1) for kind in kinds])
    ask(two, b"", two.kinds, window, 1)
    ask(two, b"", ["int64", "int64"], window)
    ask(two, b"", ["int32", "int32"], [(5, 3), (10, 14)])
    ask(two, b"", two.kinds, [(4, 4), (14, 10)])
    for data in (b"", good[:8], good[:-1], good + b"\0", good + good):
        ask(two, data, two.kinds, window)


def fixture_cases(cases):
    """The fixture files through the library: opening, each window, the lists."""
    none = Description([], 0, 0)
    for folder in sorted((pathlib.Path(__file__).parent.parent / "fixtures").iterdir()):
        if not (folder / "about").exists():
            continue
        kinds, fields, capacity, file_size, size = (folder / "about").read_text().splitlines()
        d = Description(kinds.split(), int(fields), int(capacity))
        foot, body = (folder / "footer").read_bytes(), (folder / "tree").read_bytes()
        r = rules.open_tree(d, int(file_size), foot, body)
        n = r["tiles"]
        cases.add(5, d, [int(file_size)], foot, body, text([0, 0, 0, n, r["fanout"], r["levels"]]))
        cases.add(1, d, [int(file_size), n - 1], foot, b"", footer_answer(d, int(file_size), foot, n - 1))
        offsets, sizes = (folder / "offsets").read_bytes(), (folder / "sizes").read_bytes()
        cases.add(3, none, [n, int(size), n - 1], offsets, b"", text([0, 0, n, *rules.extents(n, int(size), offsets)[-1]]))
        cases.add(4, none, [n], sizes, b"", text([0, 0, int(size)]))
        for line in (folder / "answers").read_text().splitlines():
            ends, tiles, looked, _ = line.split("\t")
            numbers = [int(x) if KINDS[k].whole else float(x) for k, x in zip([k for k in d.kinds for _ in (0, 1)], ends.split())]
            window = list(zip(numbers[::2], numbers[1::2]))
            tiles = [int(t) for t in tiles.split()]
            buffer = (tiles + [7] * 8)[:8]
            answer, second = text([0, 0, len(tiles), int(looked)] + buffer), window_bytes(d.kinds, window)
            cases.add(6, d, [n, 8], body, second, answer)
            cases.add(7, d, [int(file_size), 8], foot, second + body, answer)


def main():
    cases = Cases()
    footer_cases(cases)
    list_cases(cases)
    tree_cases(cases)
    blocks_cases(cases)
    box_test_cases(cases)
    fixture_cases(cases)
    size = sum(map(len, cases.asked))
    assert size < SPACE, size
    cases.write(pathlib.Path(sys.argv[1]))
    sys.stderr.write(f"{len(cases.asked)} cases, {size} bytes\n")


if __name__ == "__main__":
    main()
