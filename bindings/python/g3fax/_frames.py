"""Frames, found in bits and made, and what they say."""

from __future__ import annotations

import ctypes
from typing import TYPE_CHECKING, Iterable, Iterator, List, Optional, Tuple

from ._native import _NOT_COMPATIBLE, _NOTHING, _Counts, _Dcs, _Dis, _Handle, _library, _Params, _Block, _Signal, _u32, _u64, _Wish
from ._names import Carrier, Coding, Counts, Dis, Frame, Kind, Modems, PageEnd, Params, Pps, Side, Signal
from ._owning import NotCompatible, _done, _flag, _is, _number, _octets, _Owner, _room, _taken, _width

if TYPE_CHECKING:
    from _typeshed import ReadableBuffer as Buffer


class Deframer(_Owner):
    """Finds the good frames in bits that come in any pieces. Iterating takes out the contents that wait."""

    def __init__(self) -> None:
        super().__init__("g3_deframer_free")
        _done(_library.g3_deframer_new(self._at))

    def feed(self, octets: Buffer) -> None:
        """Takes the bits of octets, the least significant of each first."""
        address, length = _octets(octets)
        with self._lock:
            _done(_library.g3_deframer_feed(self._at, address, length))

    def next(self) -> Optional[bytes]:
        """The oldest content that wasn't taken out, without its check sequence, or None."""
        buffer, address = _room(300)
        count = _u64()
        with self._lock:
            status = _library.g3_deframer_next(self._at, address, len(buffer), ctypes.byref(count))
        if status == _NOTHING:
            return None
        _done(status)
        return bytes(memoryview(buffer)[:count.value])

    def __iter__(self) -> Iterator[bytes]:
        """The contents that wait, each taken out."""
        return iter(self.next, None)

    @property
    def counts(self) -> Counts:
        """How many gaps there were of each class so far."""
        counts = _Counts()
        with self._lock:
            _done(_library.g3_deframer_counts(self._at, ctypes.byref(counts)))
        return Counts(*(getattr(counts, name) for name in Counts._fields))


def write_frame(content: Buffer) -> Frame:
    """The frame of a content of 3 to 300 octets: a flag, the content and its check sequence with 0 bits stuffed, and a flag."""
    out, bits, (address, length) = _Handle(), _u64(), _octets(content)
    _done(_library.g3_frame_write(address, length, ctypes.byref(out), ctypes.byref(bits)))
    return Frame(_taken(out), bits.value)


def frames(octets: Buffer) -> Tuple[List[bytes], Counts]:
    """The contents of the good frames of a line's bits, and the counts of all gaps."""
    with Deframer() as deframer:
        deframer.feed(octets)
        return list(deframer), deframer.counts


def _dis(told: _Dis) -> Dis:
    return Dis(bool(told.receiver), Modems(told.modems), bool(told.fine), told.widest, bool(told.t6), bool(told.ecm))


def _params(told: _Dcs) -> Params:
    return Params(Carrier(told.carrier), bool(told.fine), told.width, Coding(told.coding), told.frame)


def _numbers(words: Iterable[int]) -> List[int]:
    return [_number(word, "a field") for word in words]


def read_signal(content: Buffer) -> Signal:
    """The signal that the content of a frame says; what comes after its fields is ignored, save in an FCD. Raises Fault 20, 21 or 22 where
    it says none."""
    told, (address, length) = _Signal(), _octets(content)
    _done(_library.g3_signal_read(address, length, ctypes.byref(told)))
    kind, pps = Kind(told.kind), told.pps
    return Signal(
        kind,
        _dis(told.dis) if kind == Kind.DIS else None,
        _params(told.dcs) if kind == Kind.DCS else None,
        Pps(PageEnd(pps.ends), pps.page, pps.block, pps.last) if kind == Kind.PPS else None,
        told.number, told.control, bytes(told.octets[:told.length]))


def write_signal(signal: Signal, side: Side, last: bool = True) -> bytes:
    """The content of the frame that says a signal, as this station sends it; `last` in the last frame of a transmission."""
    _is(signal, Signal, "signal")
    octets, given, count = bytes(signal.octets), _Signal(), _u64()
    given.length, given.kind = len(octets), _number(signal.kind, "kind")
    given.number, given.control = _number(signal.number, "number"), _number(signal.control, "control")
    if signal.dis is not None:
        given.dis = _Dis(*_numbers(signal.dis))
    if signal.dcs is not None:
        given.dcs = _Dcs(*_numbers(signal.dcs))
    if signal.pps is not None:
        given.pps = _Block(*_numbers(signal.pps))
    given.octets[:min(len(octets), 296)] = octets[:296]
    buffer, address = _room(300)
    status = _library.g3_signal_write(ctypes.byref(given), _number(side, "side"), _flag(last, "last"), address, len(buffer),
                                      ctypes.byref(count))
    _done(status)
    return bytes(memoryview(buffer)[:count.value])


def _wish(modems: int, coding: int, frame: int) -> _Wish:
    return _Wish(_number(modems, "modems"), _number(coding, "coding"), _number(frame, "frame"))


def agree(dis: Dis, width: int = 1728, fine: bool = False, modems: Modems = Modems.V17, coding: Coding = Coding.MMR,
          frame: int = 256) -> Params:
    """What a caller with these modems, this code and these frames agrees on with a station of a DIS, for pages of a width, fine or not.
    Raises NotCompatible with the reason."""
    _is(dis, Dis, "dis")
    theirs, wish, told, reason = _Dis(*_numbers(dis)), _wish(modems, coding, frame), _Params(), _u32()
    status = _library.g3_agree(ctypes.byref(theirs), ctypes.byref(wish), _width(width), _flag(fine, "fine"), ctypes.byref(told),
                               ctypes.byref(reason))
    if status == _NOT_COMPATIBLE:
        raise NotCompatible(status, reason.value)
    _done(status, None, lambda: _library.g3_wish_wrong(ctypes.byref(wish)))
    return _params(told.dcs)
