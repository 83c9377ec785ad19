"""What is on the line of a call, in octets, and how long it lasts: a plain reading of the tables of T.30 over
bench/fuzz/reference_call.py, for .ci/data/try_octets.py, fuzz_calls.py, fuzz_drive.py and reference_times.py."""

import functools
import sys
from fractions import Fraction

sys.dont_write_bytecode = True
from fuzz_stream import TRAINING, line_of, octets_of
from reference_call import TO_ANSWERER, TO_CALLER, Answerer, Caller, Line

# The modems by their bits in a DIS, and the bits in a DCS of their speeds, the fastest first.
V27, V29, V17 = ["0100", "0000"], ["1000", "1100"], ["0001", "0101", "1001", "1101"]
MODEMS = {
    "v17": ("1101", V17 + V27),
    "v27v29": ("1100", V29 + V27),
    "v29": ("1000", V29),
    "v27": ("0100", V27),
    "fallback": ("0000", V27[1:]),
}
# Bits a second of a page, by those bits.
SPEEDS = {"0000": 2400, "0100": 4800, "1000": 9600, "1100": 7200, "0001": 14400, "0101": 12000, "1001": 9600, "1101": 7200}
# In seconds: the silence before a carrier; the flags before frames at 300 bit/s and before those of a page; a training check.
SILENCE, FLAGS, PAGE_FLAGS, CHECK = Fraction("0.075"), Fraction(1), Fraction("0.2"), Fraction("1.5")
WIDTHS = {1728: "00", 2048: "10", 2432: "01"}
PAGE_ENDS = {"NULL": 0x00, "EOM": 0x8F, "MPS": 0x4F, "EOP": 0x2F}
# The control fields of what has nothing else; those that a caller sends have the lowest bit.
ALONE = {"CFR": 0x84, "FTT": 0x44, "RCP": 0x86, "MCF": 0x8C, "RNR": 0xEC, "RR": 0x6F, "DCN": 0xFB}


class Sent(tuple):
    """An item under way, with its octets."""

    def __new__(cls, item, octets):
        made = super().__new__(cls, item)
        made.octets = octets
        return made


@functools.lru_cache(maxsize=1000)
def frame_of(content):
    return line_of([content])


def framed(item, control, fields=b""):
    """The item in a frame, which is the last of what is sent unless it is an FCD or an RCP."""
    return Sent(item, frame_of(bytes([0xFF, 0x03 if item[0] in ("FCD", "RCP") else 0x13, control]) + fields))


def lasting(octets, speed):
    """How long octets last at a speed, in seconds."""
    return Fraction(8 * octets, speed)


def turn_lasts(station, items):
    """How long a turn of a station lasts: the carriers of its page's frames, of its training check and of its frame at 300 bit/s."""
    pages = sum(len(item.octets) for item in items if item[0] in ("FCD", "RCP"))
    lasts = SILENCE + PAGE_FLAGS + lasting(pages, SPEEDS[station.speed_bits()]) if pages else Fraction(0)
    for item in items:
        if item[0] == "TRAINING":
            lasts += SILENCE + CHECK
        elif item[0] not in ("FCD", "RCP"):
            lasts += SILENCE + FLAGS + lasting(len(item.octets), 300)
    return lasts


def noted(station, items):
    """The items of a turn, whose octets the station has sent now."""
    for item in items:
        station.line += item.octets
    station.lasts += turn_lasts(station, items)
    return items


class OctetCaller(Caller):
    """A caller of codes in octets; `options` are the modems, whether lines are fine, and whether the code is that of T.6."""

    def __init__(self, pages, size, options):
        self.codes, (self.modems, self.fine, self.is_t6) = [code for _, code in pages], options
        super().__init__([(width, len(code)) for width, code in pages], size, len(MODEMS[self.modems][1]))
        self.line, self.lasts = bytearray(), Fraction(0)

    def items(self, turn):
        return noted(self, [self.sent(item) for item in super().items(turn)])

    def speed_bits(self):
        return MODEMS[self.modems][1][self.speed]

    def sent(self, item):
        if item[0] in ALONE:
            return framed(item, ALONE[item[0]])
        if item[0] == "TRAINING":
            return Sent(item, bytes(TRAINING[self.speed_bits()]))
        page, place, _, _ = self.blocks[self.place]
        if item[0] == "DCS":
            speed, width, small = self.speed_bits(), WIDTHS[self.pages[page][0]], int(self.size == 64)
            return framed(item, 0x83, octets_of(f"0000000001{speed}{int(self.fine)}0{width}011111001{small}00{int(self.is_t6)}0"))
        if item[0] == "FCD":
            first = (256 * place + item[1]) * self.size
            return framed(item, 0x06, bytes([item[1]]) + self.codes[page][first : first + self.size].ljust(self.size, b"\0"))
        return framed(item, 0xBF, bytes([PAGE_ENDS[item[1]], *item[2], item[3]]))


class OctetAnswerer(Answerer):
    def __init__(self, modems):
        super().__init__()
        self.modems, self.line, self.lasts = modems, bytearray(), Fraction(0)

    def items(self, turn):
        return noted(self, self.sent(turn))

    def sent(self, turn):
        """A DIS says 7.7 lines a millimetre, each width, error correction and T.6."""
        if turn[0] == "DIS":
            return [framed(turn, 0x80, octets_of(f"0000000001{MODEMS[self.modems][0]}100101111100100010"))]
        if turn[0] == "PPR":
            return [framed(turn, 0xBC, bytes(sum((8 * at + bit in turn[1]) << bit for bit in range(8)) for at in range(32)))]
        return [framed(turn, ALONE[turn[0]])]


class OctetLine(Line):
    """A line whose items have their octets. Each station has in `line` the octets of all that it has sent, and in `lasts` for how many
    seconds it has sent."""

    def __init__(self, pages, size, options):
        super().__init__([(width, len(code)) for width, code in pages], size, len(MODEMS[options[0]][1]))
        self.caller, self.answerer = OctetCaller(pages, size, options), OctetAnswerer(options[0])
        self.under_way[TO_CALLER] = self.answerer.items(("DIS",))

    def event(self, word):
        """What the event delivers or loses, in octets; none where nothing is under way, or it does neither."""
        place = word.removeprefix("lose-")
        first = (self.under_way.get(place) or [None])[0]
        check = (self.under_way[TO_ANSWERER] or [None])[0]
        super().event(word)
        if word == "spoil" and check == ("TRAINING", True):
            self.under_way[TO_ANSWERER][0] = Sent(("TRAINING", False), b"\xff" * len(check.octets))
        return first.octets if first else b""
