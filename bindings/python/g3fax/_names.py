"""Names of the numbers of g3fax.h, and tuples of what calls and signals say."""

from __future__ import annotations

from enum import IntEnum
from typing import NamedTuple, Optional, Tuple, cast

from ._native import _library
from ._shown import Choices, shown


class _Choice(IntEnum, metaclass=Choices):
    """A number of g3fax.h, which prints as its name; `format` with a form of numbers, as in f"{coding:d}", prints the number."""

    def __str__(self) -> str:
        return self.name

    def __format__(self, form: str) -> str:
        return format(int(self), form) if form[-1:] in tuple("bcdoxXneEfFgG%") else format(self.name, form)


class Coding(_Choice):
    """The code of a page."""

    MH = 1
    MMR = 2


class Order(_Choice):
    """Which bit of an octet is first."""

    MSB_FIRST = 0
    LSB_FIRST = 1


class FileKind(_Choice):
    """What octets are: a page, or pages, that read in one way; a file of another format; a page whose width isn't known, since several fit;
    nothing that is known; a page that can't be read to its end; T.4 in two dimensions (MR), which isn't read."""

    PAGE = 1
    FORMAT = 2
    SEVERAL = 3
    NOTHING = 4
    BEGUN = 5
    TWO_DIM = 6


@shown
class Found(NamedTuple):
    """What octets are. Of a page: its code, order and width, the rows of the first one, and the bits of its code. Where its code ends by a
    fault, `bits` is None and `fault` the number of that: with 17 its EOFB is missing, and `rows` are those that Page.salvage gives; else
    `repaired` are the rows that Page.repair gives, none of them a copy. Of a page without an end: `rows` are those before its `fault`. Of another
    format: its name, as "TIFF". Of T.4 in two dimensions: its order, and the width of its first row."""

    kind: FileKind
    coding: Optional[Coding] = None
    order: Optional[Order] = None
    width: int = 0
    rows: int = 0
    bits: Optional[int] = None
    fault: Optional[int] = None
    repaired: int = 0
    format: str = ""


@shown
class Counts(NamedTuple):
    """How many gaps between flags there were of each class."""

    good: int
    aborted: int
    ragged: int
    too_short: int
    too_long: int
    damaged: int


@shown
class Frame(NamedTuple):
    """The bits of a frame, the least significant of each octet first: fewer than eight 0 bits fill the last octet."""

    octets: memoryview
    bits: int


class Modems(_Choice):
    """The modems of a station. The last two are those that a DIS may say, and no station here has."""

    V27TER = 1
    V29 = 2  #: V.27 ter and V.29
    V17 = 3  #: V.27 ter, V.29 and V.17
    V29_ALONE = 4
    V27TER_2400_ALONE = 5


class Carrier(_Choice):
    """What a burst goes out on, by its bits a second."""

    V21 = 1
    V27TER_2400 = 2
    V27TER_4800 = 3
    V29_7200 = 4
    V29_9600 = 5
    V17_7200 = 6
    V17_9600 = 7
    V17_12000 = 8
    V17_14400 = 9

    @property
    def rate(self) -> int:
        """Its bits a second."""
        return int(_library.g3_carrier_rate(self))

    @property
    def word(self) -> str:
        """Its name in lines of text, as "v17-14400"."""
        return cast(bytes, _library.g3_carrier_name(self)).decode()


class Wait(_Choice):
    """The waits of T.30, 5.4.3.1."""

    T1 = 1
    T2 = 2
    T4 = 4
    T5 = 5

    @property
    def millis(self) -> int:
        """How long it runs, in milliseconds."""
        return int(_library.g3_wait_millis(self))


class Next(_Choice):
    """What a program does next with a terminal: it waits for what comes; it sends the burst that waits; or it waits until a time."""

    NOTHING = 0
    SEND = 1
    AT = 2


class Listens(_Choice):
    """What a station listens for: V.21 alone; a training check; V.21, and the frames of a page; or these with V.21 first."""

    V21 = 1
    CHECK = 2
    PAGES = 3
    V21_THEN_PAGES = 4


class End(_Choice):
    """Why a call ended, as g3fax.h says."""

    NORMAL = 1
    NO_ANSWER = 2
    NOT_COMPATIBLE = 3
    TRAINING = 4
    NO_REPLY = 5
    UNREADABLE = 6
    STILL_BUSY = 7
    PEER_LEFT = 8
    BAD_PAGE = 9
    PAGE_TOO_LONG = 10
    STOPPED = 11
    LINE_LOST = 12

    @property
    def text(self) -> str:
        """Why, in English."""
        return cast(bytes, _library.g3_end_text(self)).decode()


@shown
class State(NamedTuple):
    """The state of a terminal: `pages` of a caller are confirmed, of an answerer stored and not taken; `frames` are the good ones heard.
    None: no carrier, no wait, and a call that goes on."""

    pages: int
    frames: int
    listens: Listens
    carrier: Optional[Carrier]
    wait: Optional[Wait]
    longer: Optional[Wait]
    end: Optional[End]


class Refusal(_Choice):
    """Why a call is refused: a second DCS is without error correction, or has a speed, a width, lines or a code that aren't offered; or a page
    has come under the number of the last one, so that the terminal has stopped the call."""

    NO_ECM = 1
    NOT_OFFERED = 2
    USED_NUMBER = 3


@shown
class Figures(NamedTuple):
    """What a call came to, counted from the good frames that its terminal heard and from those of the bursts that were taken: the `blocks` that
    are confirmed, its `pprs`, the frames that these ask for, `resent`, the `retries` of commands that nothing answered, the
    `failed_checks`, the carriers of the first DCS and of the last, `first_speed` and `last_speed`, or None; the facsimile control field
    of the last frame that was heard, `other`, if that is no signal of these stations, or None; and the other station's name, `peer`, each
    octet as a character of Latin-1, or None."""

    blocks: int = 0
    pprs: int = 0
    resent: int = 0
    retries: int = 0
    failed_checks: int = 0
    first_speed: Optional[Carrier] = None
    last_speed: Optional[Carrier] = None
    other: Optional[int] = None
    peer: Optional[str] = None


@shown
class Progress(NamedTuple):
    """How far a call is; what belongs to the other station is 0. Of a caller: the `pages` of its document, how many are `confirmed`, the
    `block` of the next one that it sends, from 1, of so many `blocks`, its `resends`, and the `tries` of the last command. Of an answerer:
    the `pages` that it has stored and that weren't taken, how many of all are `confirmed`, the `octets` of the page under way, the `frames`
    of the block under way, and the page and block that it has `accepted` last, by their numbers modulo 256, or None; how often it had a DCS
    that it doesn't allow, `refused`, 0 to 2 for twice or more, and why the call is refused, `refused_why`, or None; and the first page
    number modulo 256, from 0, that was neither the last one nor the next, `gap`, or None. Of both: what the call came to, its `figures`."""

    pages: int
    confirmed: int
    block: int
    blocks: int
    octets: int
    resends: int
    tries: int
    frames: int
    accepted: Optional[Tuple[int, int]]
    refused: int = 0
    refused_why: Optional[Refusal] = None
    gap: Optional[int] = None
    figures: Figures = Figures()


class Kind(_Choice):
    """The kinds of signals. OTHER has another facsimile control field, or is a DCS or PPS that says what isn't known here."""

    DIS = 1
    DCS = 2
    CFR = 3
    FTT = 4
    FCD = 5
    RCP = 6
    PPS = 7
    PPR = 8
    MCF = 9
    RNR = 10
    RR = 11
    DCN = 12
    OTHER = 13


class Side(_Choice):
    """Who sends a signal."""

    CALLER = 1
    ANSWERER = 2


class PageEnd(_Choice):
    """What ends with the block of a PPS: nothing more, a page, the last page of a group, the last page."""

    BLOCK_ALONE = 1
    MPS = 2
    EOM = 3
    EOP = 4


class Reason(_Choice):
    """Why two stations don't agree; of several reasons the first one."""

    NO_RECEIVER = 1
    NO_ECM = 2
    TOO_WIDE = 3
    NO_FINE = 4
    NO_COMMON_SPEED = 5


@shown
class Dis(NamedTuple):
    """What a station can do, as its DIS says it."""

    receiver: bool = True
    modems: Modems = Modems.V17
    fine: bool = True
    widest: int = 2432
    t6: bool = True
    ecm: bool = True


@shown
class Params(NamedTuple):
    """How pages are sent, as a DCS says it. `frame` is the octets of data in a frame, 256 or 64."""

    carrier: Carrier
    fine: bool
    width: int
    coding: Coding
    frame: int


@shown
class Pps(NamedTuple):
    """What a PPS says of a block: the page and the block by their numbers modulo 256, and the number of the block's last frame."""

    ends: PageEnd
    page: int
    block: int
    last: int


@shown
class Signal(NamedTuple):
    """A signal: `dis`, `dcs` and `pps` where it is of that kind; `number` of an FCD's frame, and `control`, the octet of another one's
    facsimile control field; `octets` of an FCD's data, or a PPR's 256 bits, of which bit n % 8 of octet n / 8 asks for frame n."""

    kind: Kind
    dis: Optional[Dis] = None
    dcs: Optional[Params] = None
    pps: Optional[Pps] = None
    number: int = 0
    control: int = 0
    octets: bytes = b""
