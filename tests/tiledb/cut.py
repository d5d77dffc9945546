"""Cuts a fragment's metadata file into the footer and the plain bodies of its generic tiles.

A generic tile is a header (version u32, persisted size u64, tile size u64, datatype u8, cell size u64, encryption type u8, filter pipeline size
u32), the filter pipeline (largest chunk u32, number of filters u32, and per filter its type u8, metadata size u32 and metadata) and the filtered
tile: the number of chunks u64 and per chunk its original length u32, its filtered length u32, the length of its metadata u32, the metadata and
the data. Metadata files are written unencrypted and filtered with gzip or not at all; anything else is an error here.

    cut.py METADATA_FILE BOX_BYTES FIELDS DIR     writes DIR/footer, DIR/tree and DIR/offsets.I of each field
"""

import pathlib
import struct
import sys
import zlib

HEADER = struct.Struct("<IQQBQBI")
GZIP, NO_FILTER, NO_ENCRYPTION = 1, 0, 0


class NotReadable(Exception):
    pass


def chunk(filters, data, metadata, length):
    """One chunk's bytes before its filters, undone from the last to the first."""
    for kind in reversed(filters):
        if kind == NO_FILTER:
            continue
        if kind != GZIP:
            raise NotReadable(f"filter {kind}")
        # metadata of a compressor: how many parts of metadata and of data, and for each its length before and after
        parts_of_metadata, parts_of_data = struct.unpack_from("<II", metadata)
        at, read, plain = 8, 0, b""
        for _ in range(parts_of_metadata + parts_of_data):
            before, after = struct.unpack_from("<II", metadata, at)
            part = zlib.decompress(data[read : read + after])
            if len(part) != before:
                raise NotReadable("a part's length differs")
            plain, at, read = plain + part, at + 8, read + after
        data, metadata = plain, b""
    if len(data) != length:
        raise NotReadable("a chunk's length differs")
    return data


def generic_tile(data, at):
    """The plain body of the generic tile at a place, and the place after it."""
    _, persisted, size, _, _, encryption, pipeline = HEADER.unpack_from(data, at)
    if encryption != NO_ENCRYPTION:
        raise NotReadable("encrypted")
    at += HEADER.size
    _, number = struct.unpack_from("<II", data, at)
    filters, place = [], at + 8
    for _ in range(number):
        kind, length = struct.unpack_from("<BI", data, place)
        filters.append(kind)
        place += 5 + length
    if place != at + pipeline:
        raise NotReadable("the filter pipeline's size differs")
    at = place
    end = at + persisted
    (chunks,) = struct.unpack_from("<Q", data, at)
    at += 8
    body = b""
    for _ in range(chunks):
        length, filtered, about = struct.unpack_from("<III", data, at)
        at += 12
        metadata, at = data[at : at + about], at + about
        body += chunk(filters, data[at : at + filtered], metadata, length)
        at += filtered
    if at != end or len(body) != size:
        raise NotReadable("a generic tile's size differs")
    return body, end


def write_generic_tile(body, compressed, largest=65536):
    """A generic tile around a body, as `generic_tile` reads it."""
    pipeline = struct.pack("<II", largest, 1 if compressed else 0)
    if compressed:
        pipeline += struct.pack("<BI", GZIP, 5) + struct.pack("<BI", GZIP, 6)
    tile = struct.pack("<Q", max(1, -(-len(body) // largest)))
    for start in range(0, max(1, len(body)), largest):
        part = body[start : start + largest]
        data = zlib.compress(part) if compressed else part
        metadata = struct.pack("<IIII", 0, 1, len(part), len(data)) if compressed else b""
        tile += struct.pack("<III", len(part), len(data), len(metadata)) + metadata + data
    return HEADER.pack(21, len(tile), len(body), 0, 1, NO_ENCRYPTION, len(pipeline)) + pipeline + tile


def footer_of(data):
    """The footer: its length stands in the file's last eight bytes."""
    (length,) = struct.unpack_from("<Q", data, len(data) - 8)
    return data[len(data) - 8 - length :]


def offsets_in(footer, box_bytes, fields):
    """The R-tree's offset, and for each field those of its tile offsets, var offsets and var sizes, as the footer states them."""
    (size,) = struct.unpack_from("<Q", footer, 4)
    at = 32 + size + box_bytes + 24 * fields
    (tree,) = struct.unpack_from("<Q", footer, at)
    return tree, [struct.unpack_from(f"<{fields}Q", footer, at + 8 + 8 * fields * k) for k in range(3)]


def cut(data, box_bytes, fields):
    """The footer, the tree's body, and the body of each field's tile offsets."""
    footer = footer_of(data)
    tree, lists = offsets_in(footer, box_bytes, fields)
    return footer, generic_tile(data, tree)[0], [generic_tile(data, at)[0] for at in lists[0]]


def var(data, box_bytes, fields, field):
    """The bodies of a field's var offsets and var sizes."""
    _, lists = offsets_in(footer_of(data), box_bytes, fields)
    return [generic_tile(data, lists[k][field])[0] for k in (1, 2)]


def main():
    data = pathlib.Path(sys.argv[1]).read_bytes()
    footer, tree, lists = cut(data, int(sys.argv[2]), int(sys.argv[3]))
    folder = pathlib.Path(sys.argv[4])
    (folder / "footer").write_bytes(footer)
    (folder / "tree").write_bytes(tree)
    for i, body in enumerate(lists):
        (folder / f"offsets.{i}").write_bytes(body)


if __name__ == "__main__":
    main()
