"""What goes wrong, octets and numbers as C takes them, and what owns a handle."""

from __future__ import annotations

import ctypes
import operator
import threading
import weakref
from typing import TYPE_CHECKING, Any, Callable, Optional, Tuple, TypeVar, Union

from ._native import (_BAD_CHOICE, _BAD_LENGTH, _BAD_WIDTH, _EMPTY_HANDLE, _FRAME_LOST, _NO_MEMORY, _NO_ROWS, _NOT_CALLABLE, _OK, _TOO_MANY_ROWS,
                      _Handle, _library, _u64)
from ._names import Reason
from ._shown import Shown

if TYPE_CHECKING:
    from _typeshed import ReadableBuffer as Buffer


class Fault(Exception, metaclass=Shown):
    """What went wrong: `number` is the status of bindings/README.md, and `bit` the bit from 0 where a coded page can't go on, or None."""

    def __init__(self, number: int, bit: Optional[int] = None) -> None:
        text = _library.g3_status_text(number).decode()
        super().__init__(text if bit is None else f"{text}, at bit {bit}")
        self.number = number
        self.bit = bit

    def __reduce__(self) -> Tuple[Any, ...]:
        return type(self), (self.number, self.bit)


class Closed(Fault, ValueError):
    """What is used was closed, or has moved, as a page into a document."""

    def __init__(self, number: int = 100) -> None:
        super().__init__(number)
        self.args = ("it was closed, or has moved into something else",)

    def __reduce__(self) -> Tuple[Any, ...]:
        return type(self), (self.number,)


class CodeFault(Fault):
    """A coded page can't be read, or has no row."""


class Invalid(Fault, ValueError):
    """What is given isn't allowed: a width, a number that is no choice, a length, too many rows."""

    def __init__(self, number: int, name: str = "") -> None:
        super().__init__(number)
        self.name = name
        if name:
            self.args = (f"{self.args[0]}: {name}",)

    def __reduce__(self) -> Tuple[Any, ...]:
        return type(self), (self.number, self.name)


class NoMemory(Fault, MemoryError):
    """Memory was refused; what is here is as it was, save where it is FrameLost."""


class FrameLost(NoMemory):
    """Memory was refused after a terminal took octets of the line: frames in them are lost, as on a line, and the call goes on."""


class NotCompatible(Fault):
    """Two stations have no way to send pages: `reason` is the first reason why."""

    def __init__(self, number: int, reason: int) -> None:
        super().__init__(number)
        self.reason = Reason(reason)

    def __reduce__(self) -> Tuple[Any, ...]:
        return type(self), (self.number, int(self.reason))


def _done(status: int, bit: Optional[int] = None, wrong: Union[str, Callable[[], Any]] = "") -> None:
    """Raises what a status above 0 says; `wrong` is the name of a number that is no choice, or finds it."""
    if status == _OK:
        return
    if status == _NO_MEMORY:
        raise NoMemory(status)
    if status == _EMPTY_HANDLE:
        raise Closed(status)
    if status == _FRAME_LOST:
        raise FrameLost(status)
    if status == _NO_ROWS or 10 <= status <= 18:
        raise CodeFault(status, bit)
    if status == _BAD_CHOICE:
        raise Invalid(status, wrong if isinstance(wrong, str) else (wrong() or b"").decode())
    if status in (_BAD_WIDTH, _TOO_MANY_ROWS, _NOT_CALLABLE, _BAD_LENGTH):
        raise Invalid(status)
    raise Fault(status)


def _width(width: int) -> int:
    """A width as C takes it. One that no page has is Invalid, whatever the number is."""
    whole = operator.index(width)
    if not 0 <= whole < 1 << 32:
        raise Invalid(_BAD_WIDTH)
    return whole


def _is(it: Any, kind: type, name: str) -> None:
    """Raises TypeError if it isn't of a kind."""
    if not isinstance(it, kind):
        raise TypeError(f"{name} is a g3fax.{kind.__name__}, and not {type(it).__name__}")


def _number(number: int, name: str, bits: int = 32) -> int:
    """A number as C takes it, of 32 or 64 bits: ctypes would cut off what is more. A float raises TypeError, as any that isn't whole."""
    whole = operator.index(number)
    if not 0 <= whole < 1 << bits:
        raise ValueError(f"{name} is {number}, and not a number of {bits} bits")
    return whole


def _flag(flag: Any, name: str) -> bool:
    """Yes or no, as C takes it. A float raises TypeError: it is a number in the wrong place."""
    if hasattr(type(flag), "__float__") and not hasattr(type(flag), "__index__"):
        raise TypeError(f"{name} is {flag}, and neither True nor False")
    return bool(flag)


def _octets(buffer: Buffer) -> Tuple[Any, int]:
    """An address of octets for a call, which keeps them, and how many there are."""
    if isinstance(buffer, bytes):
        return buffer, len(buffer)
    view = memoryview(buffer)
    if view.nbytes == 0:
        return None, 0
    if view.readonly or not view.c_contiguous:
        octets = view.tobytes()
        return octets, len(octets)
    return ctypes.byref(ctypes.c_char.from_buffer(view)), view.nbytes


def _packed(buffer: Buffer, width: int, stride: Optional[int] = None) -> Buffer:
    """Packed rows as they are given. ValueError if they can't be that: octets of one dimension, or of two, rows and the octets of each."""
    view = memoryview(buffer)
    if view.format not in ("B", "b", "c") or (view.ndim == 2 and view.format != "B"):
        raise ValueError(f"rows are octets, of format B, and not of format {view.format}; pixels are for encode_pixels and Page.of_pixels")
    row = (width + 7) // 8
    if view.ndim == 2 and view.shape is not None and view.shape[1] != (row if stride is None else stride):
        raise ValueError(f"the rows have {view.shape[1]} octets each, and {width} pixels have {row}; pixels are for encode_pixels and "
                         "Page.of_pixels")
    if view.ndim > 2 or view.ndim == 0:
        raise ValueError(f"rows have one dimension or two, and not {view.ndim}")
    return buffer


def _row(buffer: Buffer) -> Tuple[Any, int]:
    """A packed row for a call, as _octets gives it. ValueError if it can't be that: octets of one dimension."""
    view = memoryview(buffer)
    if view.format not in ("B", "b", "c") or view.ndim != 1:
        raise ValueError(f"a row is octets of one dimension, and not {view.ndim} of format {view.format}; pixels are for Page.of_pixels")
    return _octets(buffer)


def _pack(pixels: Buffer, width: Optional[int]) -> Tuple[bytearray, int]:
    """Packed rows of pixels, and their width."""
    view = memoryview(pixels)
    if view.format not in ("?", "B", "b"):
        raise ValueError(f"pixels are bool, or octets 0 and 1, of format ? or B, and not of format {view.format}")
    if view.ndim == 2 and view.shape is not None:
        if width is not None and width != view.shape[1]:
            raise ValueError(f"the rows have {view.shape[1]} pixels, and not {width}")
        width = view.shape[1]
    elif view.ndim != 1:
        raise ValueError(f"pixels have one dimension or two, and not {view.ndim}")
    elif width is None:
        raise ValueError("pixels of one dimension need their width")
    width, (given, length), count = _width(width), _octets(view), _u64()
    if length % (width or 1) != 0:
        raise ValueError(f"{length} pixels are no whole number of rows of {width}")
    buffer, address = _room(length // (width or 1) * ((width + 7) // 8))
    status = _library.g3_pixels_pack(given, length, width, address, len(buffer), ctypes.byref(count))
    if status == _BAD_CHOICE:
        raise ValueError("a pixel is neither 0 nor 1")
    _done(status)
    return buffer, width


def _unpack(rows: Buffer, width: int) -> memoryview:
    """The pixels of packed rows: two dimensions, rows and pixels."""
    (given, length), count = _octets(rows), _u64()
    out, address = _room(length // ((width + 7) // 8 or 1) * width)
    _done(_library.g3_pixels_unpack(given, length, width, address, len(out), ctypes.byref(count)))
    return memoryview(out).cast("B", (len(out) // width, width)) if out else memoryview(out)


def _room(length: int) -> Tuple[bytearray, Any]:
    """A new buffer, and its address."""
    buffer = bytearray(length)
    return buffer, ctypes.byref(ctypes.c_char.from_buffer(buffer)) if length else None


def _taken(handle: _Handle) -> memoryview:
    """The octets of a handle, which is freed."""
    try:
        count = _u64()
        _done(_library.g3_octets_len(ctypes.byref(handle), ctypes.byref(count)))
        buffer, address = _room(count.value)
        _done(_library.g3_octets_copy(ctypes.byref(handle), address, len(buffer), ctypes.byref(count)))
        return memoryview(buffer)
    finally:
        _library.g3_octets_free(ctypes.byref(handle))


_Self = TypeVar("_Self", bound="_Owner")


class _Owner(metaclass=Shown):
    """Has a handle, which is freed by `close`, at the end of `with`, or with the object. Calls of several threads wait for each other."""

    def __init__(self, free: str) -> None:
        self._handle = _Handle()
        self._at = ctypes.byref(self._handle)
        self._lock = threading.RLock()
        self._free = weakref.finalize(self, getattr(_library, free), self._at)

    def close(self) -> None:
        """Frees what is here. Later calls raise Closed, a ValueError; closing again does nothing."""
        with self._lock:
            self._free()

    @property
    def closed(self) -> bool:
        """Whether it was closed, or has moved."""
        return not self._handle.at

    def _says(self) -> str:
        """What `repr` says beside the name, of what isn't closed."""
        return ""

    def __repr__(self) -> str:
        with self._lock:
            says = "closed" if self.closed else self._says()
        return f"<g3fax.{type(self).__name__}{': ' if says else ''}{says}>"

    def __reduce__(self) -> Union[str, Tuple[Any, ...]]:
        raise TypeError(f"a g3fax.{type(self).__name__} can't be copied or pickled")

    def __enter__(self: _Self) -> _Self:
        """`with` gives what is here."""
        return self

    def __exit__(self, *_: object) -> None:
        """At its end `with` frees what is here."""
        self.close()
