"""The converter of trees and footers with float32 dimensions, worked out from docs/RULES.md alone.

What was said of a description just before float32 was retired is `Old`: the limits, and nothing after them.
"""

import struct

import rules
from rules import KINDS, Description, Refusal, Refused


class Old(Description):
    """A description as it was checked when float32 was a kind like the others."""

    @classmethod
    def of(cls, d):
        return cls(d.kinds, d.fields, d.capacity, d.dimensions)

    def check(self):
        self.check_limits()


def widened_kind(kind):
    return "float64" if kind == "float32" else kind


def widened(d):
    """The description under which what is written is accepted. Kinds past D stay: nobody looks at them."""
    kinds = [widened_kind(kind) if i < d.dimensions else kind for i, kind in enumerate(d.kinds)]
    return Description(kinds, d.fields, d.capacity, d.dimensions)


def added(d):
    """The bytes that a box grows by."""
    return widened(d).box_bytes() - d.box_bytes()


def widened_box(d, box):
    """Side by side: the two ends of a float32 range as float64, the bytes of every other as they are."""
    made, at = b"", 0
    for kind in d.kinds[: d.dimensions]:
        side = box[at : at + KINDS[kind].range_bytes]
        made += struct.pack("<2d", *struct.unpack("<2f", side)) if kind == "float32" else side
        at += len(side)
    return made


def convert(d, file_size, footer, body, room):
    """The written tree, for an output buffer of so many bytes."""
    n = rules.open_tree(Old.of(d), file_size, footer, body)["tiles"]
    f, counts, starts = rules.check_shape(d, n, body)
    b, made = d.box_bytes(), body[:8]
    for count, start in zip(counts, starts):
        boxes = (body[start + k * b : start + k * b + b] for k in range(count))
        made += body[start - 8 : start] + b"".join(widened_box(d, box) for box in boxes)
    if room < len(made):
        raise Refused(Refusal.ROOM, 0)
    return made


def convert_footer(d, file_size, footer, room):
    """The written footer: a wider domain, and a length field that says so."""
    name_size = rules.footer(Old.of(d), file_size, footer)["name_size"]
    start, b = 14 + name_size, d.box_bytes()
    made = footer[:start] + widened_box(d, footer[start : start + b]) + footer[start + b : -8]
    made += struct.pack("<Q", len(made))
    if room < len(made):
        raise Refused(Refusal.ROOM, 0)
    return made
