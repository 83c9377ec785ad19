"""Pages, whole and row by row."""

from __future__ import annotations

import contextlib
import ctypes
import importlib
import operator
from typing import TYPE_CHECKING, Any, Callable, Dict, Iterator, Optional, Tuple, Type, Union, cast, overload

from ._native import _MISSING_EOFB, _NOTHING, _Code, _Found, _Handle, _Raster, _Size, _library, _u32, _u64
from ._names import Coding, FileKind, Found, Order
from ._owning import CodeFault, _done, _flag, _number, _octets, _Owner, _pack, _packed, _room, _row, _taken, _unpack, _width

if TYPE_CHECKING:
    from _typeshed import ReadableBuffer as Buffer


class Page(_Owner):
    """A page: up to 20,000 rows of 1 to 2,432 pixels. `page[n]` is a packed row, `page[a:b]` a page of these rows, and iterating gives the
    rows. Two pages are equal if width, `fine` and rows are. `bytes(page)` is its raw PBM image."""

    __hash__ = None  # type: ignore[assignment]

    def __init__(self, width: int = 1728, fine: bool = False) -> None:
        """A page of no rows."""
        super().__init__("g3_page_free")
        #: the bits that its code uses, where it was decoded
        self.bits: Optional[int] = None
        #: the rows that are the one before, where it was repaired
        self.repaired: Optional[int] = None
        #: the images of the file, where it was read from one
        self.images: Optional[int] = None
        #: its code, its order of bits and the bit at which it begins, where `pages` found it in a file
        self.coding: Optional[Coding] = None
        self.order: Optional[Order] = None
        self.start: Optional[int] = None
        #: why its code has no end, where `pages` has all of its rows nevertheless; why no more rows are read, where it was salvaged
        self.fault: Optional[CodeFault] = None
        _done(_library.g3_page_new(self._at, _width(width), _flag(fine, "fine")))

    @classmethod
    def _empty(cls) -> Page:
        page = cls.__new__(cls)
        _Owner.__init__(page, "g3_page_free")
        page.bits = page.repaired = page.images = page.coding = page.order = page.start = page.fault = None
        return page

    @classmethod
    def of_rows(cls, octets: Buffer, width: int = 1728, *, rows: Optional[int] = None, stride: Optional[int] = None,
                fine: bool = False) -> Page:
        """The page of packed rows that begin `stride` octets apart; without a stride, one directly after the other. `rows` is how many;
        without it, as many as there are. A buffer of two dimensions has a row's (width + 7) // 8 octets, or `stride`, as its second one, of
        format B: else ValueError."""
        width = _width(width)
        address, length = _octets(_packed(octets, width, stride))
        row = (width + 7) // 8
        if stride is None:
            stride = row
            if rows is None and row > 0 and length % row != 0:
                raise ValueError(f"{length} octets are no whole number of rows of {row}")
        if rows is None:
            rows = 0 if length < row or stride <= 0 else (length - row) // stride + 1
        raster = _Raster(_number(stride, "stride", 64), width, _number(rows, "rows"), _flag(fine, "fine"))
        page = cls._empty()
        _done(_library.g3_page_read_raster(address, length, ctypes.byref(raster), page._at))
        return page

    @classmethod
    def of_pixels(cls, pixels: Buffer, width: Optional[int] = None, *, fine: bool = False) -> Page:
        """The page of pixels that are bool, or octets 0 and 1, 1 black: two dimensions, rows and the pixels of each; or one dimension and
        a width."""
        rows, width = _pack(pixels, width)
        return cls.of_rows(rows, width, fine=fine)

    @classmethod
    def from_pil(cls, image: Any, fine: bool = False) -> Page:
        """The page of an image of PIL, black where the image is. One that isn't of mode "1" is made so by `convert`, which dithers."""
        image = image if image.mode == "1" else image.convert("1")
        return cls.of_rows(image.tobytes("raw", "1;I"), image.width, fine=fine)

    @classmethod
    def decode(cls, octets: Buffer, width: int = 1728, coding: Coding = Coding.MMR, order: Order = Order.MSB_FIRST,
               fine: bool = False) -> _DecodedPage:
        """The page that octets begin with; what follows is ignored. `bits` of it are the bits used. Raises CodeFault with the bit."""
        page, place, (address, length) = cls._empty(), _u64(), _octets(octets)
        code = _code(coding, order, width, fine)
        status = _library.g3_page_decode(address, length, ctypes.byref(code), page._at, ctypes.byref(place))
        _done(status, place.value, _wrong(code))
        page.bits = place.value
        return cast("_DecodedPage", page)

    @classmethod
    def salvage(cls, octets: Buffer, width: int = 1728, coding: Coding = Coding.MMR, order: Order = Order.MSB_FIRST,
                fine: bool = False) -> Page:
        """The whole rows that octets begin with, of a page that can't be read; there may be none. `fault` of it is why it can't be, with its
        bit; of a page that can, `bits` of it are the bits used."""
        page, fault, place, (address, length) = cls._empty(), _u32(), _u64(), _octets(octets)
        code = _code(coding, order, width, fine)
        status = _library.g3_page_salvage(address, length, ctypes.byref(code), page._at, ctypes.byref(fault), ctypes.byref(place))
        _done(status, None, _wrong(code))
        if fault.value:
            page.fault = CodeFault(fault.value, place.value)
        else:
            page.bits = place.value
        return page

    @classmethod
    def repair(cls, octets: Buffer, width: int = 1728, order: Order = Order.MSB_FIRST, fine: bool = False) -> Page:
        """The page whose lines octets of Coding.MH begin with: a row that can't be read is the one before it, and `repaired` of the page
        counts these."""
        page, count, (address, length) = cls._empty(), _u64(), _octets(octets)
        code = _code(Coding.MH, order, width, fine)
        _done(_library.g3_page_repair(address, length, ctypes.byref(code), page._at, ctypes.byref(count)), None, _wrong(code))
        page.repaired = count.value
        return page

    @classmethod
    def read_pbm(cls, octets: Buffer, fine: bool = False) -> Page:
        """The first image of a raw PBM file; `images` of the page is how many images there are."""
        page, count, (address, length) = cls._empty(), _u64(), _octets(octets)
        _done(_library.g3_page_read_pbm(address, length, _flag(fine, "fine"), page._at, ctypes.byref(count)))
        page.images = count.value
        return page

    def __reduce__(self) -> Tuple[Any, ...]:
        """A copy has the same rows, and all that is said of the page."""
        with self._lock:
            said = {name: getattr(self, name) for name in _SAID}
            return _page_of, (type(self), self.rows().tobytes(), self.width, self.fine, said)

    @property
    def __array_interface__(self) -> Dict[str, Any]:
        """The rows, as `rows` gives them, for numpy."""
        rows = self.rows()
        return {"version": 3, "typestr": "|u1", "shape": rows.shape if rows.nbytes else (0, (self.width + 7) // 8), "data": rows}

    def _size(self) -> _Size:
        size = _Size()
        with self._lock:
            _done(_library.g3_page_size(self._at, ctypes.byref(size)))
        return size

    def _says(self) -> str:
        size = self._size()
        return f"{size.rows} rows of {size.width} pixels{', fine' if size.fine else ''}"

    def __eq__(self, other: object) -> bool:
        if self is other:
            return True
        if not isinstance(other, Page):
            return NotImplemented
        if self.closed or other.closed:
            return False
        return (self.width, self.fine) == (other.width, other.fine) and self.rows() == other.rows()

    @property
    def width(self) -> int:
        """The width in pixels."""
        return int(self._size().width)

    @property
    def fine(self) -> bool:
        """Whether the lines are fine: 7.7 a millimeter, and not 3.85."""
        return bool(self._size().fine)

    def __len__(self) -> int:
        """The number of rows."""
        return int(self._size().rows)

    def append(self, octets: Buffer) -> None:
        """Appends a packed row: the first bits of (width + 7) // 8 octets or more, of one dimension: else ValueError."""
        address, length = _row(octets)
        with self._lock:
            _done(_library.g3_page_push_row(self._at, address, length))

    @overload
    def __getitem__(self, number: int) -> memoryview: ...

    @overload
    def __getitem__(self, number: slice) -> Page: ...

    def __getitem__(self, number: Union[int, slice]) -> Union[memoryview, Page]:
        """A packed row of (width + 7) // 8 octets, from 0 at the top; -1 is the last one. Of a slice, a page of its rows."""
        with self._lock:
            size, count = self._size(), _u64()
            row = (size.width + 7) // 8
            if isinstance(number, slice):
                octets = self.rows().tobytes()
                taken = (octets[row * at:row * (at + 1)] for at in range(size.rows)[number])
                return Page.of_rows(b"".join(taken), size.width, fine=bool(size.fine))
            at = operator.index(number)
            at += size.rows if at < 0 else 0
            if not 0 <= at < size.rows:
                raise IndexError(f"no row {number}")
            buffer, address = _room(row)
            _done(_library.g3_page_row(self._at, at, address, len(buffer), ctypes.byref(count)))
        return memoryview(buffer)

    def __iter__(self) -> Iterator[memoryview]:
        """The rows, from the top."""
        for number in range(len(self)):
            yield self[number]

    def rows(self) -> memoryview:
        """All rows, as octets of two dimensions: the rows, and the octets of each. Of no rows, no octets."""
        with self._lock:
            size, count = self._size(), _u64()
            row = (size.width + 7) // 8
            buffer, address = _room(row * size.rows)
            _done(_library.g3_page_write_raster(self._at, row, address, len(buffer), ctypes.byref(count)))
        return memoryview(buffer).cast("B", (size.rows, row)) if size.rows else memoryview(buffer)

    def pixels(self) -> memoryview:
        """All pixels, one octet each, 0 white and 1 black: two dimensions, rows and the pixels of each. Of no rows, no octets."""
        with self._lock:
            return _unpack(self.rows(), self.width)

    def to_pil(self) -> Any:
        """The page as an image of PIL, of mode "1". Its resolution isn't in it."""
        image = importlib.import_module("PIL.Image")
        with self._lock:
            if len(self) == 0:
                raise ValueError("a page without rows is no image")
            return image.frombytes("1", (self.width, len(self)), self.rows().tobytes(), "raw", "1;I")

    def write_rows(self, buffer: Buffer, stride: int) -> int:
        """Copies all rows to a buffer that can be written, `stride` octets apart; those between them stay. Answers how many octets there
        are to the end of the last row."""
        view, count = memoryview(buffer), _u64()
        if view.readonly or not view.c_contiguous:
            raise TypeError("the buffer is read-only, or isn't contiguous")
        stride = _number(stride, "stride", 64)
        address, length = _octets(view)
        with self._lock:
            _done(_library.g3_page_write_raster(self._at, stride, address, length, ctypes.byref(count)))
        return count.value

    def encode(self, coding: Coding = Coding.MMR, order: Order = Order.MSB_FIRST) -> memoryview:
        """The code of the page; 0 bits fill the last octet."""
        out, code = _Handle(), _code(coding, order, 1, False)
        with self._lock:
            _done(_library.g3_page_encode(self._at, code.coding, code.order, ctypes.byref(out)), None, _wrong(code))
        return _taken(out)

    def pbm(self) -> memoryview:
        """The page as a raw PBM image."""
        out = _Handle()
        with self._lock:
            _done(_library.g3_page_write_pbm(self._at, ctypes.byref(out)))
        return _taken(out)

    def __bytes__(self) -> bytes:
        """The page as a raw PBM image."""
        return bytes(self.pbm())


if TYPE_CHECKING:
    class _DecodedPage(Page):
        """A page that was decoded, for what checks types: it has bits."""

        bits: int


#: what is said of a page beside its rows
_SAID = "bits", "repaired", "images", "coding", "order", "start", "fault"


def _page_of(kind: Type[Page], rows: bytes, width: int, fine: bool, said: Dict[str, Any]) -> Page:
    """The page that a copy is made of."""
    page = kind.of_rows(rows, width, fine=fine)
    for name, value in said.items():
        setattr(page, name, value)
    return page


# ---- pages row by row


class RowCoder(_Owner):
    """Codes a page whose rows come one by one, in memory that doesn't grow with the page where its octets are taken as they come."""

    def __init__(self, width: int = 1728, coding: Coding = Coding.MMR, order: Order = Order.MSB_FIRST) -> None:
        super().__init__("g3_row_coder_free")
        code = _code(coding, order, width, False)
        _done(_library.g3_row_coder_new(self._at, ctypes.byref(code)), None, _wrong(code))

    def append(self, octets: Buffer) -> None:
        """Codes a packed row: the first bits of (width + 7) // 8 octets or more, of one dimension: else ValueError."""
        address, length = _row(octets)
        with self._lock:
            _done(_library.g3_row_coder_push_row(self._at, address, length))

    def take(self) -> memoryview:
        """The octets of the code that are whole so far, after those that were taken."""
        out = _Handle()
        with self._lock:
            _done(_library.g3_row_coder_take(self._at, ctypes.byref(out)))
        return _taken(out)

    def finish(self) -> memoryview:
        """The last octets of the code; 0 bits fill the last one. The coder is done with then, and later calls raise Closed."""
        out = _Handle()
        with self._lock:
            _done(_library.g3_row_coder_finish(self._at, ctypes.byref(out)))
        return _taken(out)


class RowReader(_Owner):
    """Reads a page whose octets come in pieces, row by row, and holds 65,536 octets of it at most. Iterating gives the rows that are whole
    so far."""

    def __init__(self, width: int = 1728, coding: Coding = Coding.MMR, order: Order = Order.MSB_FIRST) -> None:
        super().__init__("g3_row_reader_free")
        #: the bits that the page uses, where its end was found
        self.bits: Optional[int] = None
        #: why no row more is whole in the octets so far; more octets may change it
        self.fault: Optional[CodeFault] = None
        code = _code(coding, order, width, False)
        self._row = (code.width + 7) // 8
        _done(_library.g3_row_reader_new(self._at, ctypes.byref(code)), None, _wrong(code))

    def feed(self, octets: Buffer) -> int:
        """Takes the next octets of the page, as many as there is room for, and answers how many."""
        taken, (address, length) = _u64(), _octets(octets)
        with self._lock:
            _done(_library.g3_row_reader_feed(self._at, address, length, ctypes.byref(taken)))
        return taken.value

    def next(self) -> Optional[memoryview]:
        """The next row that is whole in the octets so far. Where none is, None, and `bits` is set at the page's end, else `fault`."""
        buffer, address = _room(self._row)
        count, place = _u64(), _u64()
        with self._lock:
            status = _library.g3_row_reader_next(self._at, address, len(buffer), ctypes.byref(count), ctypes.byref(place))
            self.bits = place.value if status == _NOTHING else None
            self.fault = None
            try:
                if status != _NOTHING:
                    _done(status, place.value)
            except CodeFault as fault:
                self.fault = fault
                return None
        return None if status == _NOTHING else memoryview(buffer)

    def __iter__(self) -> Iterator[memoryview]:
        """The rows that are whole so far."""
        return iter(self.next, None)

    def finish(self) -> int:
        """The bits that the page uses, after its last row. Raises CodeFault with the bit where the octets so far are refused."""
        for _ in self:
            pass
        if self.fault is not None:
            raise self.fault
        return self.bits or 0


def _code(coding: int, order: int, width: int, fine: bool) -> _Code:
    return _Code(_number(coding, "coding"), _number(order, "order"), _width(width), _flag(fine, "fine"))


def _wrong(code: _Code) -> Callable[[], Any]:
    """Finds which number of a code is no choice."""
    return lambda: _library.g3_code_wrong(ctypes.byref(code))


def decode(octets: Buffer, width: int = 1728, coding: Coding = Coding.MMR, order: Order = Order.MSB_FIRST) -> memoryview:
    """The rows of the page that octets begin with, as Page.rows gives them. Raises CodeFault with the bit where no page can be read."""
    with Page.decode(octets, width, coding, order) as page:
        return page.rows()


def encode(rows: Buffer, width: int = 1728, coding: Coding = Coding.MMR, order: Order = Order.MSB_FIRST, *,
           stride: Optional[int] = None) -> memoryview:
    """The code of packed rows, as Page.of_rows takes them."""
    with Page.of_rows(rows, width, stride=stride) as page:
        return page.encode(coding, order)


def encode_pixels(pixels: Buffer, width: Optional[int] = None, coding: Coding = Coding.MMR, order: Order = Order.MSB_FIRST) -> memoryview:
    """The code of pixels, as Page.of_pixels takes them: bool, or octets 0 and 1, in rows of `width`."""
    with Page.of_pixels(pixels, width) as page:
        return page.encode(coding, order)


def to_pixels(rows: Buffer, width: int = 1728) -> memoryview:
    """The pixels of packed rows, one octet each, 0 white and 1 black: two dimensions, rows and the pixels of each."""
    width, length = _width(width), memoryview(rows).nbytes
    if width == 0 or length % ((width + 7) // 8) != 0:
        raise ValueError(f"{length} octets are no whole number of rows of {width} pixels")
    return _unpack(_packed(rows, width), width)


def salvage(octets: Buffer, width: int = 1728, coding: Coding = Coding.MMR, order: Order = Order.MSB_FIRST) -> memoryview:
    """The whole rows that octets begin with, as Page.rows gives them."""
    with Page.salvage(octets, width, coding, order) as page:
        return page.rows()


def repair(octets: Buffer, width: int = 1728, order: Order = Order.MSB_FIRST) -> Tuple[memoryview, int]:
    """The rows of a repaired page of Coding.MH, and how many of them are the one before."""
    with Page.repair(octets, width, order) as page:
        return page.rows(), page.repaired or 0


# ---- files

#: each octet with its bits in the other order
_TURNED = bytes(int(f"{octet:08b}"[::-1], 2) for octet in range(256))


def identify(octets: Buffer) -> Found:
    """What octets are, as `faxtool identify` finds it: they are tried as pages in both codes and both orders of bits, Coding.MH at the
    width that its first row says, else at the usual ones."""
    found, (address, length) = _Found(), _octets(octets)
    _done(_library.g3_identify(address, length, ctypes.byref(found)))
    kind = FileKind(found.kind)
    if kind == FileKind.TWO_DIM:
        return Found(kind, None, Order(found.order), found.width)
    if kind not in (FileKind.PAGE, FileKind.BEGUN):
        return Found(kind, format=found.format.decode())
    bits, fault = (None, found.fault) if found.fault else (found.place, None)
    return Found(kind, Coding(found.coding), Order(found.order), found.width, found.rows, bits, fault, found.repaired)


def _form(octets: Buffer, width: Optional[int], coding: Optional[Coding], order: Optional[Order]) -> Tuple[int, Coding, Order]:
    """How a file's pages are read: as is said; if no code is, as `identify` finds it."""
    if coding is not None:
        return 1728 if width is None else width, Coding(coding), Order.MSB_FIRST if order is None else Order(order)
    if width is not None or order is not None:
        raise ValueError("a width or an order needs a code")
    found = identify(octets)
    if found.kind != FileKind.PAGE or found.coding is None or found.order is None:
        why = {FileKind.FORMAT: f"it is {found.format}", FileKind.SEVERAL: "several ways fit", FileKind.NOTHING: "no way fits",
               FileKind.BEGUN: "no way reads it to a page's end", FileKind.TWO_DIM: "it is T.4 in two dimensions (MR), which isn't read"}
        raise ValueError(f"its code isn't known: {why[found.kind]}")
    return found.width, found.coding, found.order


def _whole(octets: memoryview, width: int, coding: Coding, fine: bool) -> Page:
    """The page that octets begin with, most significant bit first. If nothing but its EOFB is missing, or if repair of Coding.MH reads it
    and copies no row, it has `fault`."""
    try:
        return Page.decode(octets, width, coding, Order.MSB_FIRST, fine)
    except CodeFault as refused:
        fault = refused
    page = Page._empty()
    if coding == Coding.MMR and fault.number == _MISSING_EOFB:
        page = Page.salvage(octets, width, coding, Order.MSB_FIRST, fine)
    elif coding == Coding.MH:
        with contextlib.suppress(CodeFault):
            page = Page.repair(octets, width, Order.MSB_FIRST, fine)
    if page.closed or page.repaired or not len(page):
        page.close()
        raise fault
    page.fault = fault
    return page


def _fault_of_file(fault: CodeFault, begin: int) -> CodeFault:
    """The fault of a page whose octets begin at a bit of a file, with its bit of the file."""
    return CodeFault(fault.number, None if fault.bit is None else begin + fault.bit)


def pages(octets: Buffer, width: Optional[int] = None, coding: Optional[Coding] = None, order: Optional[Order] = None,
          fine: bool = False) -> Iterator[Page]:
    """The pages of a file, one after another, each with its `coding`, `order`, `start` and `bits`. If no code is said, all are as
    `identify` finds it: ValueError if that is no page. A page with a `fault` is the last one: only its EOFB is missing, or repair reads it and copies
    no row. Raises CodeFault at a page that can't be read. The bit of both is that of the file."""
    width, coding, order = _form(octets, width, coding, order)
    code, next_at = _code(coding, Order.MSB_FIRST, width, fine), _u64()
    # a copy, in which g3_page_next sets bits to 0; turned once for all pages, and not for each
    file = bytearray(memoryview(octets).tobytes().translate(_TURNED if order == Order.LSB_FIRST else None))
    address, length = _octets(file)
    while True:
        start = next_at.value
        at = start // 8
        try:
            page = _whole(memoryview(file)[at:], width, coding, fine)
        except CodeFault as fault:
            raise _fault_of_file(fault, 8 * at) from None
        page.coding, page.order, page.start = coding, order, start
        page.fault = page.fault and _fault_of_file(page.fault, 8 * at)
        if page.bits is None:
            yield page
            return
        end = 8 * at + page.bits
        page.bits = end - start
        yield page
        status = _library.g3_page_next(address, length, ctypes.byref(code), end, ctypes.byref(next_at))
        if status == _NOTHING:
            return
        _done(status)
