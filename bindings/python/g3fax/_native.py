"""The library for C: the structs and functions of g3fax.h, by ctypes."""

import ctypes
import os
from typing import Any, List, Tuple

from ._header import Header

#: the version of the library that this package is for
__version__ = "0.1.0"

_OK, _BAD_WIDTH, _TOO_MANY_ROWS, _NO_ROWS, _NO_MEMORY, _MISSING_EOFB, _NOT_CALLABLE, _NOT_COMPATIBLE = 0, 1, 3, 4, 9, 17, 26, 28
_EMPTY_HANDLE, _BAD_CHOICE, _BAD_LENGTH, _NOTHING, _FRAME_LOST = 100, 104, 105, 106, 108
_u8, _u32, _u64, _size, _address = ctypes.c_uint8, ctypes.c_uint32, ctypes.c_uint64, ctypes.c_size_t, ctypes.c_void_p
_text = ctypes.c_char_p
_TYPES = {"uint64_t": _u64, "uint32_t": _u32, "size_t": _size, "uint8_t": _u8, "char": ctypes.c_char, "g3_status": _u32, "const char *": _text,
          "void": None}
_folder = os.path.dirname(os.path.abspath(__file__))
# the header is beside this file in a package, and two folders above it in the repository
_places = [os.path.join(_folder, "g3fax.h"), os.path.join(_folder, "..", "..", "g3fax.h")]
with open(next((place for place in _places if os.path.isfile(place)), _places[0]), encoding="ascii") as _file:
    _header = Header(_file.read())


def _type(kind: str) -> Any:
    """The type of ctypes that a word of the header stands for; a struct is a class of this module."""
    return _TYPES[kind] if kind in _TYPES else globals()[f"_{kind[3:].capitalize()}"]


def _members(name: str) -> List[Tuple[str, Any]]:
    """What the header has in a struct."""
    return [(member, _type(kind) * int(count) if count else _type(kind)) for kind, member, count in _header.structs[name]]


class _Handle(ctypes.Structure):
    _fields_ = [("at", ctypes.c_void_p)]


class _Sized(ctypes.Structure):
    """A struct that the library writes: it begins with its size."""

    def __init__(self) -> None:
        super().__init__()
        self.size = ctypes.sizeof(self)


class _Size(_Sized):
    _fields_ = _members("g3_size")


class _Code(ctypes.Structure):
    _fields_ = _members("g3_code")


class _Raster(ctypes.Structure):
    _fields_ = _members("g3_raster")


class _Counts(_Sized):
    _fields_ = _members("g3_counts")


class _Found(_Sized):
    _fields_ = _members("g3_found")


class _Caps(ctypes.Structure):
    _fields_ = _members("g3_caps")


class _Wish(ctypes.Structure):
    _fields_ = _members("g3_wish")


class _Burst(_Sized):
    _fields_ = _members("g3_burst")


class _State(_Sized):
    _fields_ = _members("g3_state")


class _Figures(ctypes.Structure):
    _fields_ = _members("g3_figures")


class _Progress(_Sized):
    _fields_ = _members("g3_progress")


class _Dis(ctypes.Structure):
    _fields_ = _members("g3_dis")


class _Dcs(ctypes.Structure):
    _fields_ = _members("g3_dcs")


class _Block(ctypes.Structure):
    _fields_ = _members("g3_block")


class _Signal(_Sized):
    _fields_ = _members("g3_signal")


class _Params(_Sized):
    _fields_ = _members("g3_params")


def _load() -> ctypes.CDLL:
    beside = os.path.join(_folder, "libg3fax.so.0")
    file = os.environ.get("G3FAX_LIBRARY") or (beside if os.path.exists(beside) else "libg3fax.so.0")
    try:
        library = ctypes.CDLL(file)
    except OSError as error:
        raise ImportError(f"the library for C, {file}, can't be loaded: {error}. Install libg3fax, or set G3FAX_LIBRARY to the file "
                          "libg3fax.so.0") from None
    major, minor, patch = (int(word) for word in __version__.split("."))
    try:
        number = library.g3_version_number()
    except AttributeError:
        raise ImportError(f"{file} isn't libg3fax {major}.{minor}, which this module of Python is for: it is older, or another library") \
            from None
    if not major * 10000 + minor * 100 + patch <= number < major * 10000 + (minor + 1) * 100:
        raise ImportError(f"{file} is libg3fax {number // 10000}.{number // 100 % 100}.{number % 100}, and this module of Python is for "
                          f"{__version__} and later versions of {major}.{minor}")
    for returns, name, words in _header.functions:
        function = getattr(library, name)
        function.argtypes, function.restype = [_address if "*" in written else _type(written.strip()) for written, _ in words], _type(returns)
    return library


_library = _load()
