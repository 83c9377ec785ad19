"""Group 3 fax pages, frames and stations, by the library for C, libg3fax.so.0: coding and decoding in T.4 one-dimensional (MH) and
T.6 (MMR), salvage and repair of broken pages, raw PBM in memory, HDLC frames, signals, and the two stations of a call.

    import g3fax
    rows = g3fax.decode(octets, width=1728)      # packed: a memoryview of two dimensions, rows and 216 octets of each
    pixels = g3fax.to_pixels(rows, width=1728)   # one octet a pixel, 0 white and 1 black: rows and 1,728 of each
    code = g3fax.encode(rows, width=1728)
    code = g3fax.encode_pixels(pixels)
    for page in g3fax.pages(octets):             # all pages of a file, whose code, order of bits and width are found by identify
        image = page.pbm()

Rows are packed: eight pixels an octet, the leftmost in the highest bit, 1 black; a row has (width + 7) // 8 octets. `width` is in pixels, 1
to 2,432. `fine` says how far rows are apart: True 7.7 a millimeter, False 3.85. Octets come in as any buffer: bytes, bytearray, mmap, a
memoryview, an array of numpy. One that is read-only and isn't bytes, or isn't contiguous, is copied. Octets go out as a memoryview of
memory of its own. What goes wrong raises Fault, with its number and its bit; a float for a number raises TypeError.

The library is the file that G3FAX_LIBRARY names, else libg3fax.so.0 beside this module, else that of the system; it must be of the version
of this module. It needs Python 3.8 or later, and Python's standard library alone."""

from typing import cast as _cast

from ._calls import Answerer, Burst, Caller, Document, Terminal
from ._frames import Deframer, agree, frames, read_signal, write_frame, write_signal
from ._native import __version__ as __version__
from ._native import _library
from ._names import (Carrier, Coding, Counts, Dis, End, Figures, FileKind, Found, Frame, Kind, Listens, Modems, Next, Order, PageEnd, Params,
                     Pps, Progress, Reason, Refusal, Side, Signal, State, Wait)
from ._owning import Closed, CodeFault, Fault, FrameLost, Invalid, NoMemory, NotCompatible
from ._pages import Page, RowCoder, RowReader, decode, encode, encode_pixels, identify, pages, repair, salvage, to_pixels

__all__ = ["Coding", "Order", "Fault", "Closed", "CodeFault", "Invalid", "NoMemory", "Counts", "Frame", "Page", "RowCoder", "RowReader", "Deframer",
           "decode", "encode", "encode_pixels", "to_pixels", "salvage", "repair", "write_frame", "frames", "version"]
__all__ += ["FileKind", "Found", "identify", "pages"]
__all__ += ["FrameLost", "NotCompatible", "Modems", "Carrier", "Wait", "Listens", "Next", "End", "State", "Figures", "Progress", "Burst", "Document",
            "Terminal", "Caller", "Answerer", "Kind", "Side", "PageEnd", "Reason", "Refusal", "Dis", "Params", "Pps", "Signal", "read_signal",
            "write_signal", "agree"]


def version() -> str:
    """The version of the library."""
    return _cast(bytes, _library.g3_version()).decode()


# each is of the package, and not of the module that it is written in: so it is shown, and so it is pickled
for _name in __all__:
    globals()[_name].__module__ = __name__
