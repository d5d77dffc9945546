"""Records of as many u64 each, in one run: how are they a sequence, and an array of numpy's?"""

from __future__ import annotations

from array import array
from collections.abc import Iterator, Sequence
from typing import Any, ClassVar, SupportsIndex, TypeVar, Union, overload

Record = TypeVar("Record", covariant=True)


class Records(Sequence[Record]):
    """What `Ranges` and `Answers` have in common."""

    __slots__ = {"numbers": "All numbers of all records, as a read-only memoryview of uint64 items."}

    # How many numbers a record has, and what makes one of them.
    _width: ClassVar[int]
    _record: ClassVar[Any]

    def __init__(self, numbers: array[int]) -> None:
        self.numbers = memoryview(numbers).toreadonly()

    def __len__(self) -> int:
        return len(self.numbers) // self._width

    @overload
    def __getitem__(self, at: SupportsIndex) -> Record: ...

    @overload
    def __getitem__(self, at: slice) -> list[Record]: ...

    def __getitem__(self, at: Union[SupportsIndex, slice]) -> Union[Record, list[Record]]:
        if isinstance(at, slice):
            return [self[i] for i in range(len(self))[at]]
        i = self._width * range(len(self))[at]
        record: Record = self._record(self.numbers[i : i + self._width])
        return record

    def __iter__(self) -> Iterator[Record]:
        return map(self._record, zip(*self._width * [iter(self.numbers.tolist())]))

    def __eq__(self, other: object) -> bool:
        if not isinstance(other, Records) or type(other) is not type(self):
            return NotImplemented
        return self.numbers == other.numbers

    def __hash__(self) -> int:
        return hash(self.numbers.tobytes())

    def __repr__(self) -> str:
        return f"{type(self).__name__}({list(self)})"

    def __reduce__(self) -> tuple[Any, ...]:
        return type(self), (array("Q", self.numbers.tobytes()),)

    def _interface(self, typestr: str, shape: tuple[int, ...]) -> dict[str, Any]:
        """What numpy makes an array of. It is given the memory itself, and holds it."""
        return {"version": 3, "typestr": typestr, "shape": shape, "data": self.numbers}
