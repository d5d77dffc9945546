"""Which fragments of an array are committed? Makes a listing from the array's folder, and asks it.

    python3 examples/committed.py ARRAY [TIME]

A fragment whose write did not finish has a folder and no commit, and is left out; so is one whose last time is above
TIME.
"""

import pathlib
import sys
from collections.abc import Iterator

import tussockbell as tb


def names_in(file: pathlib.Path) -> Iterator[str]:
    """The names in a consolidated commits file or an ignore file: one name or URI of a fragment a line."""
    for number, line in enumerate(file.read_text().splitlines(), 1):
        name = line.rpartition("/")[2].removesuffix(".wrt")
        if not name:
            sys.exit(f"{file}: line {number} gives no name: {line!r}")
        yield name


def listing(array: pathlib.Path) -> bytes:
    """A record for each folder, each write file, and each name that the other files hold, each once."""
    records = [("folder", path.name) for path in sorted((array / "__fragments").iterdir()) if path.is_dir()]
    for path in sorted((array / "__commits").iterdir()):
        if path.suffix == ".wrt":
            records.append(("wrt", path.stem))
        elif path.suffix in (".con", ".ign"):
            records += [(path.suffix[1:], name) for name in names_in(path)]
    # Two consolidated commits files may hold the same name.
    return "".join(f"{kind}\t{name}\n" for kind, name in dict.fromkeys(records)).encode()


time = int(sys.argv[2]) if len(sys.argv) > 2 else 2**64 - 1
for name in tb.committed(listing(pathlib.Path(sys.argv[1])), time).names:
    print(name)
