"""The build backend that pip calls: wheels, editable installs and sdists, with the standard library alone, so that no package index is
needed. In a checkout the shared library is made first, so that no stale one is packed; an sdist has it in it.

    python3 make_wheel.py wheel DIRECTORY
    python3 make_wheel.py sdist DIRECTORY
"""

import base64
import hashlib
import io
import pathlib
import re
import subprocess
import sys
import tarfile
import zipfile

HERE = pathlib.Path(__file__).resolve().parent
PACKAGE = HERE / "tussockbell"
CHECKOUT = HERE.parents[1]
UNPACKED = (HERE / "PKG-INFO").exists()  # an sdist, and no checkout
SHARED = "libtussockbell.so"
OLDEST = (2, 17)  # of the C libraries that a tag is for: manylinux2014


def _about():
    return (HERE / "pyproject.toml").read_text()


def _version():
    return re.search(r'^__version__ = "(.+)"$', (PACKAGE / "__init__.py").read_text(), re.M)[1]


def _beside(name):
    """A file that stands at the top of the checkout or of the sdist."""
    return ((HERE if UNPACKED else CHECKOUT) / name).read_bytes()


def _library():
    """The shared library; in a checkout, as it is made of the sources as they are."""
    if UNPACKED:
        return (PACKAGE / SHARED).read_bytes()
    if not (CHECKOUT / "crates.txt").exists():
        raise FileNotFoundError(f"{HERE} is in no checkout and is no sdist; pip before 21.3 copies it there, and `make wheel` does not")
    # its messages go where messages go, since the answer may be all that is read of the output
    subprocess.run(["make", "--no-print-directory", "-C", CHECKOUT, "lib"], check=True, stdout=sys.stderr)
    return (CHECKOUT / "build" / SHARED).read_bytes()


def _sources():
    """The package's files by their paths."""
    paths = [*sorted(PACKAGE.rglob("*.py")), PACKAGE / "py.typed"]
    return {path.relative_to(HERE).as_posix(): path.read_bytes() for path in paths}


def _platforms(library):
    """Linux on x86-64 with the C library whose symbols the library asks for, or a later one."""
    if library[:5] != b"\x7fELF\x02" or library[18:20] != b"\x3e\0":
        raise ValueError(f"{SHARED} is not for x86-64 Linux")
    asked = re.findall(rb"\0GLIBC_(\d+)\.(\d+)(?=[.\0])", library)
    needed = max([OLDEST, *((int(major), int(minor)) for major, minor in asked)])
    return [f"manylinux_{needed[0]}_{needed[1]}_x86_64"] + ["manylinux2014_x86_64"] * (needed == OLDEST)


def _metadata():
    """What pyproject.toml says of the project, and the README as the long description."""
    about = _about()
    field = {name: re.search(rf'^{name} = "(.+)"$', about, re.M)[1] for name in ("description", "requires-python")}
    author = re.search(r'^authors = \[\{ name = "(.+)" \}\]$', about, re.M)[1]
    licence = re.search(r'^license = \{ text = "(.+)" \}$', about, re.M)[1]
    keywords = re.findall(r'"(.+?)"', re.search(r"^keywords = \[(.+)\]$", about, re.M)[1])
    classifiers = re.findall(r'^    "(.+ :: .+)",$', about, re.M)
    lines = [
        f"Metadata-Version: 2.1\nName: tussockbell\nVersion: {_version()}\n"
        f"Summary: {field['description']}\nRequires-Python: {field['requires-python']}\n"
        f"Author: {author}\nLicense: {licence}\nKeywords: {','.join(keywords)}\n",
        *(f"Classifier: {classifier}\n" for classifier in classifiers),
        "Description-Content-Type: text/markdown\n\n",
    ]
    return "".join(lines).encode() + _beside("README.md")


def _scripts():
    """The commands that are installed."""
    section = _about().split("[project.scripts]\n")[1].split("\n[")[0]
    return "[console_scripts]\n" + "".join(f"{name} = {place}\n" for name, place in re.findall(r'^(\w+) = "(.+)"$', section, re.M))


def _wheel(directory, contents, platforms):
    """Writes a wheel with these files for any Python 3 on these platforms. The answer is its name."""
    about = f"tussockbell-{_version()}.dist-info"
    tags = "".join(f"Tag: py3-none-{platform}\n" for platform in platforms)
    pure = str(platforms == ["any"]).lower()
    contents = {
        **contents,
        f"{about}/METADATA": _metadata(),
        f"{about}/LICENSE": _beside("LICENSE"),
        f"{about}/entry_points.txt": _scripts().encode(),
        f"{about}/WHEEL": f"Wheel-Version: 1.0\nGenerator: tussockbell\nRoot-Is-Purelib: {pure}\n{tags}".encode(),
    }
    record = []
    for path, data in contents.items():
        digest = base64.urlsafe_b64encode(hashlib.sha256(data).digest()).rstrip(b"=").decode()
        record.append(f"{path},sha256={digest},{len(data)}\n")
    contents[f"{about}/RECORD"] = "".join([*record, f"{about}/RECORD,,\n"]).encode()
    name = f"tussockbell-{_version()}-py3-none-{'.'.join(platforms)}.whl"
    with zipfile.ZipFile(pathlib.Path(directory) / name, "w", zipfile.ZIP_DEFLATED) as wheel:
        for path, data in contents.items():
            entry = zipfile.ZipInfo(path)  # of 1980, so that the same files are the same wheel
            entry.external_attr = 0o644 << 16
            entry.compress_type = zipfile.ZIP_DEFLATED
            wheel.writestr(entry, data)
    return name


def build_wheel(wheel_directory, config_settings=None, metadata_directory=None):
    """What `pip install` calls. The answer is the wheel's name."""
    library = _library()
    return _wheel(wheel_directory, {**_sources(), f"tussockbell/{SHARED}": library}, _platforms(library))


def build_editable(wheel_directory, config_settings=None, metadata_directory=None):
    """What `pip install -e` calls: the package stays where it is, over the library that it finds there."""
    _library()
    return _wheel(wheel_directory, {"tussockbell-checkout.pth": f"{HERE}\n".encode()}, ["any"])


def build_sdist(sdist_directory, config_settings=None):
    """The package with the built library, from which a wheel is made with no toolchain. The answer is the sdist's name."""
    name = f"tussockbell-{_version()}"
    contents = {
        "PKG-INFO": _metadata(),
        **{file: (HERE / file).read_bytes() for file in ("pyproject.toml", "make_wheel.py")},
        **{file: _beside(file) for file in ("README.md", "LICENSE")},
        **_sources(),
        f"tussockbell/{SHARED}": _library(),
    }
    with tarfile.open(pathlib.Path(sdist_directory) / f"{name}.tar.gz", "w:gz", format=tarfile.PAX_FORMAT) as sdist:
        for path, data in contents.items():
            entry = tarfile.TarInfo(f"{name}/{path}")
            entry.size = len(data)
            sdist.addfile(entry, io.BytesIO(data))
    return f"{name}.tar.gz"


if __name__ == "__main__":
    print(pathlib.Path(sys.argv[2]) / {"wheel": build_wheel, "sdist": build_sdist}[sys.argv[1]](sys.argv[2]))
