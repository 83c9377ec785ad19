"""Documents, and the two stations of a call."""

from __future__ import annotations

import ctypes
from typing import TYPE_CHECKING, Iterable, Iterator, List, NamedTuple, Optional, Tuple, Union

from ._frames import _dis, _params, _wish, frames
from ._native import _NOTHING, _Burst, _Caps, _Figures, _Handle, _library, _Params, _Progress, _Signal, _State, _u32, _u64
from ._names import Carrier, Coding, Dis, End, Figures, Kind, Listens, Modems, Next, Params, Progress, Refusal, State, Wait
from ._owning import _done, _flag, _is, _number, _octets, _Owner, _taken
from ._pages import Page
from ._shown import shown

if TYPE_CHECKING:
    from _typeshed import ReadableBuffer as Buffer


@shown
class Burst(NamedTuple):
    """What is to be sent: the bits, the least significant of each octet first; what it goes out on; whether it is a training check, and
    whether it is the last before the other station has its turn."""

    octets: memoryview
    bits: int
    carrier: Carrier
    check: bool
    last: bool

    def frames(self) -> List[bytes]:
        """The contents of its frames, in order, for a modem that wants frames and not bits. A training check has none."""
        return [] if self.check else frames(self.octets)[0]


class Document(_Owner):
    """The pages of a call, in order."""

    def __init__(self, pages: Iterable[Page] = ()) -> None:
        super().__init__("g3_document_free")
        #: how many of its first pages are confirmed, where a caller gave it back
        self.confirmed: Optional[int] = None
        if isinstance(pages, Page):
            raise TypeError("pages is a list of g3fax.Page, and not one")
        _done(_library.g3_document_new(self._at))
        for page in pages:
            self.append(page)

    @classmethod
    def _empty(cls) -> Document:
        document = cls.__new__(cls)
        _Owner.__init__(document, "g3_document_free")
        document.confirmed = None
        return document

    def append(self, page: Page) -> None:
        """Moves a page to the end: later calls of the page raise Closed."""
        _is(page, Page, "page")
        with self._lock, page._lock:
            _done(_library.g3_document_push(self._at, page._at))

    def code(self, coding: Coding) -> None:
        """Codes each page now: no call that agrees on this code codes it again. The document has the codes as long as its pages, through
        calls, and of one code alone: those of the other one take their place. A page that is appended later is coded when it is due. Fault 106
        without a page."""
        number = _number(coding, "coding")
        with self._lock:
            _done(_library.g3_document_code(self._at, number), None, "coding")

    def __len__(self) -> int:
        """The number of pages."""
        count = _u64()
        with self._lock:
            _done(_library.g3_document_pages(self._at, ctypes.byref(count)))
        return count.value

    def _says(self) -> str:
        return f"{len(self)} pages"


def _carrier(number: int) -> Optional[Carrier]:
    """A carrier by its number, or None."""
    return Carrier(number) if number else None


def _figures(told: _Figures) -> Figures:
    """What a call came to."""
    peer = bytes(told.peer[:told.peer_length]).decode("latin-1") or None
    return Figures(told.blocks, told.pprs, told.resent, told.retries, told.failed_checks, _carrier(told.first_speed), _carrier(told.last_speed),
                   told.control if told.other else None, peer)


class Terminal(_Owner):
    """A station of a call with error correction, from octets of the line to octets of the line: a Caller or an Answerer. It has no
    modem: bindings/README.md, "A call", says what a program does with it."""

    def __init__(self) -> None:
        super().__init__("g3_terminal_free")

    def _says(self) -> str:
        end = self.state.end
        return "the call goes on" if end is None else f"ended, {end}"

    def hear(self, octets: Buffer) -> None:
        """Hears octets that came by V.21 or by the carrier of a page, in pieces of any size. NoMemory: nothing was taken. FrameLost: don't
        give them again."""
        address, length = _octets(octets)
        with self._lock:
            _done(_library.g3_terminal_hear(self._at, address, length))

    def hear_frame(self, content: Buffer) -> None:
        """Hears a good frame by its content of 3 to 300 octets, for a modem that finds the frames itself."""
        address, length = _octets(content)
        with self._lock:
            _done(_library.g3_terminal_hear_frame(self._at, address, length))

    def hear_training(self, octets: Buffer) -> None:
        """Hears the octets of a training check."""
        address, length = _octets(octets)
        with self._lock:
            _done(_library.g3_terminal_hear_training(self._at, address, length))

    def missed(self) -> None:
        """What it listens for didn't come. An awaited training check counts as a bad one then; else nothing changes."""
        with self._lock:
            _done(_library.g3_terminal_missed(self._at))

    def wait_over(self, wait: Wait) -> None:
        """A wait is over; one that doesn't run changes nothing."""
        with self._lock:
            _done(_library.g3_terminal_wait_over(self._at, _number(wait, "wait")), None, "wait")

    def tick(self, now: int, carrier: bool = False, *, ended: bool = False) -> None:
        """Tells the time, in milliseconds since the call was set up, and whether a carrier of either station is on; `ended`: that of the
        other station has just ended, so that it is this one's turn. A wait that is over on a quiet line ends: wait_over isn't called then."""
        line = 3 if _flag(ended, "ended") else 2 if _flag(carrier, "carrier") else 1
        with self._lock:
            _done(_library.g3_terminal_tick(self._at, _number(now, "now", 64), line), None, "now")

    @property
    def due(self) -> Optional[int]:
        """When the next tick does something, by the time of the ticks, if the line stays as it is and nothing comes: a wait is over, or the
        call has lasted as long as it may. None: never; so on a carrier, before the first tick, and after a burst until the next, if there
        is no limit."""
        at = _u64()
        with self._lock:
            status = _library.g3_terminal_due(self._at, ctypes.byref(at))
        if status == _NOTHING:
            return None
        _done(status)
        return at.value

    @property
    def next(self) -> Tuple[Next, Optional[int]]:
        """What a program does next, and of Next.AT the time, as `due` has it."""
        what, at = _u32(), _u64()
        with self._lock:
            _done(_library.g3_terminal_next(self._at, ctypes.byref(what), ctypes.byref(at)))
        return Next(what.value), at.value if what.value == Next.AT else None

    def most_seconds(self, seconds: int) -> None:
        """How many seconds the call may last, by the time of the ticks; 0 for no limit. The first tick of a quiet line from then on stops it;
        if the line doesn't fall quiet, it is lost 10 s later."""
        with self._lock:
            _done(_library.g3_terminal_most_seconds(self._at, _number(seconds, "seconds")))

    def set_busy(self, is_busy: bool) -> None:
        """Whether an answerer can't take pages for now."""
        with self._lock:
            _done(_library.g3_terminal_set_busy(self._at, _flag(is_busy, "is_busy")))

    def stop(self) -> None:
        """Ends the call in order: DCN is to be sent in place of what was."""
        with self._lock:
            _done(_library.g3_terminal_stop(self._at))

    def hang_up(self) -> None:
        """Ends the call as `stop` does, and also if it has ended, so that a page that couldn't be kept isn't confirmed."""
        with self._lock:
            _done(_library.g3_terminal_hang_up(self._at))

    def lost(self) -> None:
        """The line is gone: nothing is left to be sent."""
        with self._lock:
            _done(_library.g3_terminal_lost(self._at))

    def next_burst(self) -> Optional[Burst]:
        """The next burst that is to be sent, or None."""
        out, told = _Handle(), _Burst()
        with self._lock:
            status = _library.g3_terminal_next_burst(self._at, ctypes.byref(out), ctypes.byref(told))
        if status == _NOTHING:
            return None
        _done(status)
        return Burst(_taken(out), told.bits, Carrier(told.carrier), bool(told.check), bool(told.last))

    def bursts(self) -> Iterator[Burst]:
        """The bursts of the turn that are left."""
        return iter(self.next_burst, None)

    @property
    def state(self) -> State:
        """What it listens for, its waits, its pages, and why its call ended."""
        told = _State()
        with self._lock:
            _done(_library.g3_terminal_state(self._at, ctypes.byref(told)))
        return State(told.pages, told.frames, Listens(told.listens), _carrier(told.carrier),
                     Wait(told.wait) if told.wait else None, Wait(told.longer) if told.longer else None,
                     End(told.end) if told.end else None)

    @property
    def progress(self) -> "Progress":
        """How far the call is."""
        told = _Progress()
        with self._lock:
            _done(_library.g3_terminal_progress(self._at, ctypes.byref(told)))
        numbers = {name: getattr(told, name) for name in Progress._fields}
        numbers["accepted"] = (told.accepted_page, told.accepted_block) if told.accepted else None
        numbers["refused_why"] = Refusal(told.refused_why) if told.refused_why else None
        numbers["gap"] = told.gap_page if told.gap else None
        numbers["figures"] = _figures(told.figures)
        return Progress(**numbers)

    @property
    def params(self) -> "Optional[Params]":
        """How the pages of the group that is under way are sent, or None."""
        told = _Params()
        with self._lock:
            status = _library.g3_terminal_params(self._at, ctypes.byref(told))
        if status == _NOTHING:
            return None
        _done(status)
        return _params(told.dcs)

    @property
    def peer(self) -> "Union[Dis, Params, None]":
        """What is known of the other station: the Dis of a caller's answerer, the Params of an answerer's caller, or None."""
        told = _Signal()
        with self._lock:
            status = _library.g3_terminal_peer(self._at, ctypes.byref(told))
        if status == _NOTHING:
            return None
        _done(status)
        return _dis(told.dis) if told.kind == Kind.DIS else _params(told.dcs)

    def take_page(self) -> Optional[Page]:
        """The oldest page that an answerer has stored and that wasn't taken, or None."""
        page = Page._empty()
        with self._lock:
            status = _library.g3_terminal_take_page(self._at, page._at)
        if status == _NOTHING:
            return None
        _done(status)
        return page

    def hold(self) -> Optional[Page]:
        """Takes the oldest page as `take_page` does, and the answerer is busy, so that the caller isn't told that its page has arrived until
        set_busy(False) says that it is stored. Fault 104 if the answerer's limit isn't 1."""
        page = Page._empty()
        with self._lock:
            status = _library.g3_terminal_hold(self._at, page._at)
        if status == _NOTHING:
            return None
        _done(status, None, "limit")
        return page

    def pages(self) -> Iterator[Page]:
        """The pages that an answerer has stored and that weren't taken; each is taken out."""
        return iter(self.take_page, None)


class Caller(Terminal):
    """The station that calls and sends a document."""

    def __init__(self, document: Document, modems: Modems = Modems.V17, coding: Coding = Coding.MMR, frame: int = 256, *,
                 first: int = 0) -> None:
        """Waits for a DIS. The document moves in. `frame` is the octets of data in a frame, 256 or 64. `first` is the page, from 0, from
        which on the pages are sent: those before it are freed."""
        _is(document, Document, "document")
        super().__init__()
        wish, first = _wish(modems, coding, frame), _number(first, "first", 64)
        with document._lock:
            if first == 0:
                status = _library.g3_caller_new(self._at, document._at, ctypes.byref(wish))
            else:
                status = _library.g3_caller_new_from(self._at, document._at, first, ctypes.byref(wish))
            _done(status, None, lambda: _library.g3_wish_wrong(ctypes.byref(wish)))

    def take_document(self) -> Document:
        """Hands back the document, where the call has ended, for another call; `confirmed` of it are its first pages that are confirmed. The
        caller is closed then. Fault 106 while the call goes on."""
        document, confirmed = Document._empty(), _u64()
        with self._lock:
            _done(_library.g3_terminal_take_document(self._at, document._at, ctypes.byref(confirmed)))
        document.confirmed = confirmed.value
        return document


class Answerer(Terminal):
    """The station that is called and stores pages."""

    def __init__(self, modems: Modems = Modems.V17, t6: bool = True, fine: bool = True, widest: int = 2432, limit: int = 1) -> None:
        """Its first burst is DIS. `limit`: how many pages it stores before it is busy."""
        super().__init__()
        caps = _Caps(_number(modems, "modems"), _flag(t6, "t6"), _flag(fine, "fine"), _number(widest, "widest"), _number(limit, "limit"))
        _done(_library.g3_answerer_new(self._at, ctypes.byref(caps)), None, lambda: _library.g3_caps_wrong(ctypes.byref(caps)))
