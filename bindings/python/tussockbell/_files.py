"""Files of bytes, mapped where they can be."""

from __future__ import annotations

import mmap
import os
import stat
import sys
from typing import BinaryIO, Union

import tussockbell as tb

# What `read` gives.
Read = Union[bytearray, mmap.mmap]


def _most_bytes() -> int:
    """The bytes of the largest body that the limits allow."""
    return tb.tree_length(tb.Description(["uint64"] * 4, 1, 1), 2**24, 2)


def _read_at_most(file: BinaryIO, most: int) -> bytearray:
    data = bytearray()
    while block := file.read(min(2**20, most + 1 - len(data))):
        data += block
    if len(data) > most:
        raise ValueError(f"{shown(file.name)}: more than {most} bytes, which no body has")
    return data


def read(path: Union[str, os.PathLike[str]]) -> Read:
    """A file's bytes: mapped, or read with a limit where they can't be, as those of a pipe can't."""
    with open(path, "rb") as file:
        about = os.fstat(file.fileno())
        if stat.S_ISCHR(about.st_mode):
            raise ValueError(f"{path}: a character device, which is no file of bytes")
        if stat.S_ISREG(about.st_mode) and about.st_size:
            try:
                return mmap.mmap(file.fileno(), 0, access=mmap.ACCESS_READ)
            except OSError:
                pass
        return _read_at_most(file, _most_bytes())


# Stands for standard input.
_INPUT = "-"


def shown(path: object) -> object:
    """A path as a message has it."""
    return "standard input" if path in (_INPUT, "<stdin>") else path


def read_input(path: str) -> Read:
    """A file's bytes, or with - those of standard input, as `read` has them."""
    if path != _INPUT:
        return read(path)
    if sys.stdin is None:
        raise ValueError("standard input: closed")
    return _read_at_most(sys.stdin.buffer, _most_bytes())
