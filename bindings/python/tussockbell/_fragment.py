"""A fragment: its footer, its tree and the offsets of its fields, checked once and then asked together."""

from __future__ import annotations

import operator
import os
from collections.abc import Callable, Iterable, Mapping
from types import MappingProxyType
from typing import Any, Optional, SupportsIndex, Tuple, Union

from tussockbell import _files, _plan
from tussockbell._batch import Batch, Windows
from tussockbell._description import Description
from tussockbell._footer import Footer, read_footer
from tussockbell._kinds import Range
from tussockbell._lending import Bytes, file_size_of, same_bytes
from tussockbell._lists import Offsets, tile_offsets, var_tile_offsets
from tussockbell._query import Counts, Hit
from tussockbell._refused import Refused
from tussockbell._tree import Tree, open_tree
from tussockbell._window import Window

Path = Union[str, "os.PathLike[str]"]
Field = Union[int, Tuple[int, str]]

# The files that a field may have: the footer's list of their sizes, and what checks the offsets of the tiles in them.
_FILES: dict[str, tuple[str, Callable[..., Offsets]]] = {
    "data": ("file_sizes", tile_offsets),
    "var": ("file_var_sizes", var_tile_offsets),
    "validity": ("file_validity_sizes", tile_offsets),
}


def _bytes_of(given: Union[Bytes, Path]) -> Bytes:
    return _files.read(given) if isinstance(given, (str, os.PathLike)) else given


def _lasting(given: Union[Bytes, Path]) -> Optional[str]:
    """A path that is good in another folder and another process; None for bytes."""
    return os.path.abspath(given) if isinstance(given, (str, os.PathLike)) else None


def _named(field: Field) -> Field:
    """A field in one way: its data file by the number alone."""
    number, file = field if isinstance(field, tuple) else (field, "data")
    return operator.index(number) if file == "data" else (operator.index(number), file)


class Fragment:
    """A fragment's footer, tree and offsets, checked once: `query`, `query_into`, `query_batch`, `query_batch_arrays` and `plan`.

        with tb.Fragment(d, file_size, "footer", "tree", {0: "offsets", (2, "var"): "var_offsets"}) as fragment:
            plan = fragment.plan(windows, field=0, gap=4096)

    `footer`, `tree` and each list of offsets is a path, whose file is mapped, or bytes, which are lent as they are. `file_size` is
    that of the metadata file. `offsets` has the lists of as many fields as there are to read. A field is its number in the
    footer's lists, and stands for its data file; (number, "var") and (number, "validity") are its other files. How many bytes such
    a file has, the footer says. What is wrong with any of them is `Refused`, that of `read_footer`, `open_tree`, `tile_offsets` or
    `var_tile_offsets`; a field that the footer has not is a KeyError.

    Mapped files and lent bytes must stay as they are while the fragment is in use. Of a mapped file that is cut short meanwhile,
    the next look at what it had ends the whole process (SIGBUS), which nothing here can catch: replace such a file by another of
    its name, and never write into it; or read the bytes yourself and lend them. After `close`, or the end of `with`, a fragment
    can't be asked any more; a file stays mapped for as long as a `tree` or `offsets` of it is still in use elsewhere.

    Two fragments are equal if their description, file size and all of their bytes are. A fragment whose parts are all paths is
    pickled as these, made absolute: whoever unpickles it opens and checks the files. One that holds bytes is a TypeError there.
    """

    __slots__ = {
        "description": "The description that it was opened with.",
        "file_size": "The size of the metadata file.",
        "footer": "What the footer says, as a `Footer`.",
        "_tree": None,
        "_offsets": None,
        "_paths": None,
    }

    def __init__(
        self, description: Description, file_size: SupportsIndex, footer: Union[Bytes, Path], tree: Union[Bytes, Path],
        offsets: Optional[Mapping[Field, Union[Bytes, Path]]] = None,
    ) -> None:
        lists = {_named(field): given for field, given in (offsets or {}).items()}
        first = _bytes_of(footer)
        self.description, self.file_size = description, file_size_of(file_size)
        self.footer: Footer = read_footer(description, file_size, first)
        self._tree: Optional[Tree] = open_tree(description, file_size, first, _bytes_of(tree))
        self._offsets = {field: self._checked(field, given) for field, given in lists.items()}
        self._paths = (_lasting(footer), _lasting(tree), {field: _lasting(given) for field, given in lists.items()})

    def _checked(self, field: Field, given: Union[Bytes, Path]) -> Offsets:
        number, file = field if isinstance(field, tuple) else (field, "data")
        sizes, check = _FILES.get(file, ("", tile_offsets))
        of_fields = dict(enumerate(getattr(self.footer, sizes, ())))
        if number not in of_fields:
            raise KeyError(f"no such field, or no such file of one: {field}")
        return check(self.footer.tiles, of_fields[number], _bytes_of(given))

    @property
    def tree(self) -> Tree:
        """The opened tree."""
        if self._tree is None:
            raise ValueError("the fragment is closed")
        return self._tree

    @property
    def offsets(self) -> Mapping[Field, Offsets]:
        """The checked offsets of each field that was given."""
        if self._tree is None:
            raise ValueError("the fragment is closed")
        return MappingProxyType(self._offsets)

    def query(self, window: Union[Window, Iterable[Range]], room: Optional[SupportsIndex] = None) -> Hit:
        """Which tiles does a window touch? As `Tree.query`."""
        return self.tree.query(window, room)

    def query_into(self, window: Union[Window, Iterable[Range]], out: Any) -> Counts:
        """Which tiles does a window touch? As `Tree.query_into`."""
        return self.tree.query_into(window, out)

    def query_batch(
        self, windows: Windows, room: Optional[SupportsIndex] = None, refused: str = "list"
    ) -> list[Union[Hit, Refused]]:
        """Which tiles does each window touch? As `Tree.query_batch`."""
        return self.tree.query_batch(windows, room, refused)

    def query_batch_arrays(self, windows: Windows, room: Optional[SupportsIndex] = None, refused: str = "list") -> Batch:
        """Which tiles does each window touch? As `Tree.query_batch_arrays`."""
        return self.tree.query_batch_arrays(windows, room, refused)

    def plan(self, windows: Windows, field: Field = 0, gap: SupportsIndex = 0) -> _plan.Plan:
        """Which bytes of a field's file are read for all tiles that the windows touch?

        The windows are those of `query_batch`; the first that is refused raises its `Refused`. `Offsets.plan` says what a gap is.
        A field whose offsets were not given is a KeyError. A tile that the offsets have not is an IndexError, so that a plan has
        the bytes of every tile that was found.
        """
        # Tree and offsets are held here, so that no other thread's `close` takes their bytes away.
        tree, offsets, number = self.tree, self.offsets[_named(field)], _plan.taken_gap(gap)
        tiles = tree.query_batch_arrays(windows, refused="raise").tiles
        plan = _plan.planned(offsets._given, tiles.buffer_info(), number)
        if plan.outside:
            raise IndexError(f"{plan.outside} of the tiles that were found have no offsets")
        return plan

    def close(self) -> None:
        """Lets go of all bytes."""
        self._tree, self._offsets = None, {}

    def __enter__(self) -> Fragment:
        return self

    def __exit__(self, *_raised: object) -> None:
        self.close()

    def __eq__(self, other: object) -> bool:
        if not isinstance(other, Fragment):
            return NotImplemented
        if self is other or self._tree is None or other._tree is None:
            return self is other
        about = [(each.description._given, each.file_size, each.footer, each._offsets.keys()) for each in (self, other)]
        if about[0] != about[1]:
            return False
        views = [[each.tree._view, *(each._offsets[field]._view for field in self._offsets)] for each in (self, other)]
        return all(same_bytes(first, second) for first, second in zip(*views))

    def __hash__(self) -> int:
        return hash((self.description._given, self.file_size, self.footer))

    def __repr__(self) -> str:
        state = f"{self.footer.tiles} tiles, {self.footer.total_cells} cells, offsets of {list(self._offsets)}"
        return f"<Fragment: {state if self._tree is not None else 'closed'}>"

    def __reduce__(self) -> tuple[Any, ...]:
        footer, tree, offsets = self._paths
        if footer is None or tree is None or None in offsets.values():
            raise TypeError("a fragment is pickled by its paths, and this one holds bytes")
        return Fragment, (self.description, self.file_size, footer, tree, offsets)
