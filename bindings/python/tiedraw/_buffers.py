"""A caller's buffer, lent to C for a call without a copy."""

from __future__ import annotations

import sys
from ctypes import addressof, c_uint32, c_void_p
from reprlib import repr as shown
from typing import TYPE_CHECKING, Any

if TYPE_CHECKING:
    from _typeshed import WriteableBuffer  # collections.abc has a Buffer from Python 3.12 on

    Buffer = WriteableBuffer
else:
    Buffer = Any

SIZE = 4
WANTED = "a writable row of 32-bit unsigned numbers is asked for, as array.array('I') is"

# What a buffer calls unsigned numbers in this machine's byte order; how many bytes L has, its size tells.
_ORDERS = ("", "@", "=", "<" if sys.byteorder == "little" else ">")
_FORMATS = {order + letter for order in _ORDERS for letter in "IL"}

_Front = c_uint32 * 0  # of a buffer of any length


def _start(view: memoryview) -> int:
    return addressof(_Front.from_buffer(view))


def _fault(view: memoryview) -> str:
    """Why no words can be written into a view, if so."""
    if view.ndim != 1:
        return f"has {view.ndim} dimensions"
    if view.itemsize != SIZE or view.format not in _FORMATS:
        return f"has entries of format {view.format!r} and size {view.itemsize}"
    if view.readonly:
        return "is read-only"
    if not view.c_contiguous:
        return "has entries that don't stand side by side"
    if len(view) and _start(view) % SIZE:
        return f"begins at an address that is no multiple of {SIZE}"
    return ""


def _view(buffer: Buffer) -> memoryview:
    try:
        return memoryview(buffer)
    except TypeError:
        raise TypeError(f"buffer: {shown(buffer)} is not a buffer; {WANTED}") from None
    except (BufferError, ValueError) as error:  # it was closed or released, or has numbers that no buffer can tell of
        raise ValueError(f"buffer: {type(buffer).__name__} can't be lent: {error}") from error


def words_of(buffer: Buffer) -> memoryview:
    """A view of a buffer that words can be written into. The buffer stays lent, and keeps its length, until it is released."""
    view = _view(buffer)
    fault = _fault(view)
    if fault:
        view.release()  # since the error keeps this frame
        raise TypeError(f"buffer: {type(buffer).__name__} {fault}; {WANTED}")
    return view


def address(view: memoryview) -> c_void_p:
    """Where C finds the words of such a view: null where there are none."""
    return c_void_p(_start(view) if len(view) else None)
