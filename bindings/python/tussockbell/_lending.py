"""How are a caller's bytes lent to the library, and its numbers handed on?"""

from __future__ import annotations

import ctypes
import mmap
import operator
from array import array
from collections.abc import Iterator
from contextlib import contextmanager
from typing import Any, Optional, Protocol, SupportsIndex, Tuple, Union

from tussockbell import _functions as c


class _Array(Protocol):
    """What lends its items as an array of numpy does."""

    @property
    def __array_interface__(self) -> dict[str, Any]: ...


Bytes = Union[bytes, bytearray, memoryview, mmap.mmap, "array[Any]", "ctypes.Array[Any]", _Array]
# Where lent bytes are, and how many: what a C function takes.
Lent = Tuple[Optional[int], int]
# What is written to.
Room = Union[bytearray, memoryview, mmap.mmap]

LARGEST = 2**64 - 1
# A run of numbers is as many of these as it has.
ONE_NUMBER = array("Q", [0])


def limited(number: SupportsIndex) -> int:
    """A number that has limits. One outside u64 becomes the largest, which is outside all of them."""
    number = operator.index(number)
    return number if 0 <= number <= LARGEST else LARGEST


def file_size_of(size: SupportsIndex) -> int:
    """A size that may be any u64; outside of that it counts as the nearest."""
    return min(max(operator.index(size), 0), LARGEST)


class _Buffer(ctypes.Structure):
    """Python's Py_buffer."""

    _fields_ = [
        ("buf", ctypes.c_void_p), ("obj", ctypes.c_void_p), ("len", ctypes.c_ssize_t), ("itemsize", ctypes.c_ssize_t),
        ("readonly", ctypes.c_int), ("ndim", ctypes.c_int), ("format", ctypes.c_void_p), ("shape", ctypes.c_void_p),
        ("strides", ctypes.c_void_p), ("suboffsets", ctypes.c_void_p), ("internal", ctypes.c_void_p),
    ]


_simple = 0  # PyBUF_SIMPLE
has_buffer = ctypes.PYFUNCTYPE(ctypes.c_int, ctypes.py_object)(("PyObject_CheckBuffer", ctypes.pythonapi))
_get_buffer = ctypes.PYFUNCTYPE(ctypes.c_int, ctypes.py_object, c.pointer, ctypes.c_int)(("PyObject_GetBuffer", ctypes.pythonapi))
_release_buffer = ctypes.PYFUNCTYPE(None, c.pointer)(("PyBuffer_Release", ctypes.pythonapi))


def view_of(data: Any) -> memoryview:
    """A view of what lends its bytes; a TypeError for all else, such as a numpy array of dates."""
    try:
        return memoryview(data)
    except (ValueError, BufferError) as error:
        raise TypeError(f"no bytes can be lent of this {type(data).__name__}: {error}") from error


def one_after_the_other(view: memoryview) -> memoryview:
    """The view, or one of a copy where its bytes do not lie one after the other."""
    if view.c_contiguous:
        return view
    with view:
        return memoryview(view.tobytes())


def lend(data: Bytes) -> memoryview:
    """A view of bytes that lie one after the other. While it is not released they can neither move nor go."""
    return one_after_the_other(view_of(data))


def lent(view: memoryview) -> Lent:
    """Where a view's bytes are, and how many: what a C function takes. Good until the view is released."""
    held = _Buffer()
    _get_buffer(view, ctypes.byref(held), _simple)
    try:
        return held.buf, held.len
    finally:
        _release_buffer(ctypes.byref(held))


@contextmanager
def kept(data: Bytes) -> Iterator[memoryview]:
    """A view that is released only where something is raised; otherwise whoever keeps it holds the bytes."""
    view = lend(data)
    try:
        yield view
    except BaseException:
        view.release()
        raise


@contextmanager
def lend_room(out: Room) -> Iterator[memoryview]:
    """A view of a buffer that is written to, which is never a copy."""
    with memoryview(out) as room:
        if room.readonly or not room.c_contiguous:
            raise TypeError("the buffer to write to is read-only, or its bytes do not lie one after the other")
        yield room


def overlap(first: Lent, second: Lent) -> bool:
    """Whether two lent byte strings have a byte in common."""
    (start, length), (other, room) = first, second
    return start is not None and other is not None and max(start, other) < min(start + length, other + room)


def same_bytes(first: memoryview, second: memoryview) -> bool:
    """Whether two views, whose bytes lie one after the other, have the same bytes."""
    return first.nbytes == second.nbytes and (first.nbytes == 0 or first.cast("B") == second.cast("B"))


def pickled_bytes(view: memoryview, what: str) -> bytes:
    """A copy of the bytes that are held, for a pickle. Those of a mapped file are a TypeError: whoever unpickles them can map it."""
    held = view.obj
    if isinstance(held, mmap.mmap) or isinstance(getattr(held, "_mmap", None), mmap.mmap):
        raise TypeError(f"{what} over a mapped file can't be pickled: pickle a `Fragment` made of paths, which maps the files anew")
    return view.tobytes()
