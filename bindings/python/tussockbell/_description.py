"""What is known of a fragment beforehand, from the array's schema?"""

from __future__ import annotations

from collections.abc import Iterable, Sequence
from dataclasses import dataclass, field
from typing import Any, Union

from tussockbell._kinds import FLOAT32, NAME_OF, NAMES, NO_KIND, Kind, Range, kind_byte, kind_bytes
from tussockbell._lending import limited
from tussockbell._window import Window, widened

# What TileDB counts in each per-field list beside attributes and dimensions: an entry for coordinates as a whole; one for the time at
# which a cell was written; two for when, and by which condition, it was deleted.
_COORDINATES, _TIMESTAMPS, _DELETES = 1, 1, 2


@dataclass(frozen=True)
class Description:
    """What is known of a fragment beforehand, from the array's schema.

    `kinds` has a kind for each dimension: "int32", "int64", "float64", "uint64", numpy's short spellings of them ("i4", "<i8"),
    TileDB's Datatype number, or a type that is called so, such as numpy.dtype("uint64"), numpy.uint64 or a TileDB dimension's
    dtype. A spelling with another byte order, ">i8", is no kind. A string in the list's place is a TypeError: one dimension is
    ["int32"]. "float32" is a kind too, of fields and of old dimensions: `convert_tree` and `convert_footer` take a description
    with it, and it is refused (28 at the dimension) by all else.

    `fields` is the number of entries in each per-field list of the footer: the attributes, the dimensions and one more, which
    TileDB has for coordinates as a whole; one more in a fragment that was consolidated with timestamps, and two more in one with
    delete metadata. `from_schema` counts them. `capacity` is the cells of a full tile.

    A description is not checked when it is made. One outside the limits is refused (1 at 0) where it is used. Two are equal where
    their numbers and kinds are, however the kinds are spelled; what is no kind is as good as any other.
    """

    kinds: Sequence[Kind] = field(compare=False)
    fields: int
    capacity: int
    # What the C functions take: kinds, their number, fields and capacity.
    _given: tuple[bytes, int, int, int] = field(init=False, repr=False)

    def __post_init__(self) -> None:
        kinds = self.kinds if isinstance(self.kinds, str) else tuple(self.kinds)
        given = kind_bytes(kinds)
        object.__setattr__(self, "kinds", kinds)
        object.__setattr__(self, "_given", (given, len(given), limited(self.fields), limited(self.capacity)))

    @classmethod
    def from_schema(cls, schema: Any, timestamps: bool = False, deletes: bool = False) -> Description:
        """The description of an array's fragments, from its schema: a tiledb.ArraySchema of TileDB-Py, or what has its attributes.

            with tiledb.open(uri) as array:
                d = tb.Description.from_schema(array.schema)

        `timestamps` and `deletes` say of the fragment whether it has these fields of TileDB's own: a footer's attributes of the
        same names tell. A fragment that was written and not consolidated has neither.

        A dense array, and a dimension of variable size or of a type that is no kind, are a ValueError, which names it.
        """
        if not schema.sparse:
            raise ValueError("a dense array has no tree: DenseGrid takes a Description of its kinds, its domain and its tile extents")
        dimensions = [schema.domain.dim(i) for i in range(schema.domain.ndim)]
        for dimension in dimensions:
            if dimension.isvar:
                raise ValueError(f"dimension {dimension.name!r} is of variable size, which has no kind")
            if kind_byte(dimension.dtype) == NO_KIND:
                raise ValueError(f"dimension {dimension.name!r} has the type {dimension.dtype}, where the kinds are {', '.join(NAMES)}")
        fields = schema.nattr + len(dimensions) + _COORDINATES + _TIMESTAMPS * bool(timestamps) + _DELETES * bool(deletes)
        return cls([NAME_OF[kind_byte(dimension.dtype)] for dimension in dimensions], fields, int(schema.capacity))

    def widened(self) -> Description:
        """The description with float64 for float32: that of what `convert_tree` and `convert_footer` write."""
        kinds = [("float64" if kind_byte(kind) == FLOAT32 else kind) for kind in self.kinds]
        return Description(kinds, self.fields, self.capacity)

    def widen(self, window: Union[Window, Iterable[Range]]) -> Window:
        """The window of a converted tree that asks what this one asked of the old tree, whose description this is.

        The ends of a float32 dimension are first rounded to the nearest float32, as a query of the old tree did, and
        then widened. Plain numbers have no kind, so it takes the old description to do that, and it has to be done: the
        window from 0.05 to 0.1 met a float32 box from 0.1 on, since the nearest float32 to 0.1 is above it, and asked
        unrounded it misses the same box. A `Window` is widened by its own kinds, and a numpy array of float32 windows,
        whose ends are rounded, by its own `astype("<f8")`.
        """
        return widened(self._given[0], window)
