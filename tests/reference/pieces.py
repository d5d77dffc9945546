"""Fragment metadata pieces, written from the format's description: footers, tree bodies and lists."""

import struct

import rules


def u32(x):
    return struct.pack("<I", x)


def u64(x):
    return struct.pack("<Q", x)


def end(kind, x):
    """One end of a range: a number, or the bytes of its pattern."""
    return x if isinstance(x, bytes) else struct.pack(rules.KINDS[kind].format, x)


def origin(kind):
    """Where the small numbers of a kind are counted from: of uint64 from 2^63, the first that a signed number can't hold."""
    return 2**63 if kind == "uint64" else 0


def box(kinds, ranges):
    return b"".join(end(k, low) + end(k, high) for k, (low, high) in zip(kinds, ranges))


class Footer:
    """A footer by its fields, each of which a case may set to what it likes."""

    def __init__(self, d, domain, tiles=3, last_cells=5, name=b"schema", file_size=None):
        n = d.fields
        self.d, self.name, self.name_size = d, name, len(name)
        self.version, self.dense, self.null_domain = 21, 0, 0
        self.domain = box(d.kinds, domain)
        self.tiles, self.last_cells, self.timestamps, self.deletes = tiles, last_cells, 0, 1
        self.sizes = [[1000 * a + i for i in range(n)] for a in range(1, 4)]
        self.rtree = 7
        self.offsets = [[10 * a + i for i in range(n)] for a in range(8)]
        self.fragment, self.conditions = 90, 91
        self.length = self.total() - 8
        self.file_size = self.total() + 1000 if file_size is None else file_size

    def total(self):
        return 64 + len(self.name) + len(self.domain) + 88 * self.d.fields

    def fields(self):
        """Name and bytes of each field, in footer order."""
        yield "version", u32(self.version)
        yield "name_size", u64(self.name_size)
        yield "name", self.name
        yield "dense", bytes([self.dense])
        yield "null_domain", bytes([self.null_domain])
        yield "domain", self.domain
        yield "tiles", u64(self.tiles)
        yield "last_cells", u64(self.last_cells)
        yield "timestamps", bytes([self.timestamps])
        yield "deletes", bytes([self.deletes])
        for entries in self.sizes:
            yield "sizes", b"".join(map(u64, entries))
        yield "rtree", u64(self.rtree)
        for entries in self.offsets:
            yield "offsets", b"".join(map(u64, entries))
        yield "fragment", u64(self.fragment)
        yield "conditions", u64(self.conditions)
        yield "length", u64(self.length)

    def data(self):
        return b"".join(part for _, part in self.fields())


def around(boxes):
    """The least box around others."""
    return [(min(b[i][0] for b in boxes), max(b[i][1] for b in boxes)) for i in range(len(boxes[0]))]


def levels(leaves, f):
    """The boxes of each level, root first."""
    all_levels = [leaves]
    while len(all_levels[0]) > 1:
        below = all_levels[0]
        all_levels.insert(0, [around(below[k : k + f]) for k in range(0, len(below), f)])
    return all_levels


def tree(kinds, leaves, f):
    all_levels = levels(leaves, f)
    body = u32(f) + u32(len(all_levels))
    for level in all_levels:
        body += u64(len(level)) + b"".join(box(kinds, b) for b in level)
    return body


def entries(numbers, count=None):
    return u64(len(numbers) if count is None else count) + b"".join(map(u64, numbers))
