"""Where is the C library, and how are its functions called?"""

from __future__ import annotations

import ctypes
import functools
import os
import pathlib
from typing import Any, Union


# The version that this package is of, as the library tells its own.
VERSION = 1_001_000


def _parts(number: int) -> str:
    return f"{number // 1_000_000}.{number // 1_000 % 1_000}.{number % 1_000}"


def _of_this_version(loaded: ctypes.CDLL, path: str) -> Union[ctypes.CDLL, OSError]:
    """The library, or that it does not have this package's functions: it is of an earlier version, or its first part is another."""
    try:
        version = loaded.tussockbell_version
    except AttributeError:
        return OSError(f"{path}: tells no version, so it is from before 1.1.0, where this package is of {_parts(VERSION)}")
    version.argtypes, version.restype = [], ctypes.c_uint64
    number = version()
    if number < VERSION or number // 1_000_000 != VERSION // 1_000_000:
        return OSError(f"{path}: a library of version {_parts(number)}, where this package is of {_parts(VERSION)}")
    return loaded


def _load() -> Union[ctypes.CDLL, OSError]:
    """The library, or why there is none."""
    here = pathlib.Path(__file__).resolve()
    installed, built = here.with_name("libtussockbell.so"), here.parents[3] / "build" / "libtussockbell.so"
    path = os.path.abspath(os.environ.get("TUSSOCKBELL_LIBRARY") or (installed if installed.exists() else built))
    try:
        return _of_this_version(ctypes.CDLL(path), path)
    except OSError as error:
        return error


library = _load()

# What parameters are, as the header declares them: a number, an address, lent bytes or another run, and what a description, a footer
# with its description, and a list of offsets come as.
u64: type[ctypes.c_uint64] = ctypes.c_uint64
pointer: type[ctypes.c_void_p] = ctypes.c_void_p
run: list[Any] = [pointer, ctypes.c_size_t]
description: list[Any] = [*run, u64, u64]
footer: list[Any] = [*description, u64, *run]
offsets: list[Any] = [u64, u64, *run]


def function(name: str, arguments: list[Any], result: Any = None) -> Any:
    try:
        if isinstance(library, OSError):
            raise library
        found = getattr(library, "tussockbell_" + name)
    except (OSError, AttributeError) as error:
        return functools.partial(_missing, str(error))
    found.argtypes, found.restype = arguments, result
    return found


def _missing(why: str, *_arguments: Any) -> None:
    """Stands for a function of a library that could not be loaded, or that has no such function."""
    raise OSError(f"{why}: run `make lib` in the checkout, or set TUSSOCKBELL_LIBRARY to the path of libtussockbell.so")
