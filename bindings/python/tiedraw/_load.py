"""Finds the library, opens it, and sees to it that it belongs to this binding."""

from __future__ import annotations

import ctypes
import os
import stat
from pathlib import Path

from ._version import __version__, series, text_of

VARIABLE = "TIEDRAW_LIBRARY"
SONAME = f"libtiedraw.so.{series(__version__)}"


def _anybody_writes(folder: Path) -> bool:
    """Whether a folder is for all to put files in, as /tmp is."""
    shared = stat.S_ISVTX | stat.S_IWOTH
    return folder.stat().st_mode & shared == shared


def _repository(package: Path) -> list[Path]:
    """The nearest folder above the package that has the library's header, if there is one."""
    marked = (folder for folder in package.parents if os.path.isfile(folder / "include" / "tiedraw.h"))
    return [folder for folder in marked if not _anybody_writes(folder)][:1]


def candidates(package: Path) -> list[Path]:
    """The files that are the library if they are there: beside the package, then built in its repository."""
    folders = [package, *(root / "target" / "lib" for root in _repository(package))]
    return [folder / name for folder in folders for name in (SONAME, "libtiedraw.so")]


def _open(file: str, complaint: str) -> ctypes.CDLL:
    try:
        return ctypes.CDLL(file)
    except OSError as error:
        raise ImportError(f"{complaint}: {error}") from error


def _found() -> ctypes.CDLL:
    """The first library there is. One that can't be loaded is an error: no other is taken in its place."""
    named = os.environ.get(VARIABLE)
    if named:
        return _open(os.path.abspath(named), f"{VARIABLE} names {named}, which can't be loaded")
    files = [str(file) for file in candidates(Path(__file__).resolve().parent)]
    file = next(filter(os.path.isfile, files), None)
    if file:
        return _open(file, f"{file} can't be loaded")
    tried = "".join(f"\n  {place}" for place in [f"{VARIABLE}: not set", *files, f"{SONAME}, by the system"])
    return _open(SONAME, f"libtiedraw is not found (`make lib` builds it); tried:{tried}")


def load() -> tuple[ctypes.CDLL, str]:
    """The library, and its version."""
    library = _found()
    try:
        ask = library.tiedraw_version
    except AttributeError:
        raise ImportError(
            f"{library._name} has no tiedraw_version: it is older than binding {__version__}, or another library"
        ) from None
    ask.restype, ask.argtypes = ctypes.c_uint32, []
    version = text_of(ask())
    if series(version) != series(__version__):
        raise ImportError(
            f"library {version}, binding {__version__}: they belong together where the first two numbers are equal; "
            f"the library is {library._name}"
        )
    return library, version
