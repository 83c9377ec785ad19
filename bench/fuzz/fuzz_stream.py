#!/usr/bin/env python3
"""Sends random streams of a stranger to the answerer of `answer_stream`, for a given time, and compares what it does with the tables.

    bench/fuzz/fuzz_stream.py SECONDS [SEED]     builds the program of crates/stream_tool, or takes the one that STREAM names
    bench/fuzz/fuzz_stream.py --dry              tries the deframer, the reader and the answerer here on worked streams

A stream has frames of DCS, FCD, RCP, PPS, RR, DCN and others, right or wrong: bits changed before or after the stuffing, a wrong
check sequence, a stuffed bit left out or added, cut short, repeated, lost, out of order, of 257 to 300 octets of data, with one flag,
two or a shared 0 between two frames; random octets, flags and runs of 1; training checks good and bad, both timers, busy and ready.
One answerer in five has few capabilities. For each stream:
- the program ends with status 0 within 20 seconds;
- its turns, pages and end are those of a plain deframer and reader of signals here, of the answerer of bench/fuzz/reference_call.py
  and of the reader of pages of bench/fuzz/reference_pages.py, whose pixels are compared by a number of 32 bits;
- the same octets cut at other places give the same.
At the first stream that fails, its files stay in the folder that is printed, and the status is 1."""

import os
import random
import re
import shutil
import subprocess
import sys
import tempfile
import time
from collections import Counter, namedtuple

sys.dont_write_bytecode = True
from reference_call import Answerer
from reference_pages import code_of, digest, random_rows, read_page

TOP = os.path.dirname(os.path.dirname(os.path.dirname(os.path.abspath(__file__))))
FLAG = "01111110"
EOL = "000000000001"
# The text of a white row in one dimension: a make-up code, and the code of no pixels more.
WHITE_ROWS = {1728: "010011011" + "00110101", 2048: "000000010011" + "00110101", 2432: "000000011101" + "00110101"}
# The octets of a training check by the bits of the speed.
TRAINING = {"0000": 450, "0100": 900, "1100": 1350, "1000": 1800, "1101": 1350, "1001": 1800, "0101": 2250, "0001": 2700}
# Control fields by their octet; those of WITH_SIDE have either lowest bit.
CONTROLS = {0x80: "DIS", 0x82: "DCS", 0x84: "CFR", 0x44: "FTT", 0x06: "FCD", 0x86: "RCP", 0xBE: "PPS", 0xBC: "PPR"}
CONTROLS |= {0x8C: "MCF", 0xEC: "RNR", 0x6E: "RR", 0xFA: "DCN"}
WITH_SIDE = "DCS CFR FTT PPS PPR MCF RNR RR DCN".split()
LEAST_FIELDS = {"DIS": 3, "DCS": 3, "FCD": 2, "PPS": 4, "PPR": 32}
PAGE_ENDS = {0x4E: "MPS", 0x2E: "EOP", 0x8E: "EOM"}
TURNS = {"-": "Silent", "DIS": "Dis", "CFR": "Cfr", "FTT": "Ftt", "MCF": "Mcf", "RNR": "Rnr", "DCN": "Dcn"}
ENDS = {None: "None", "normal": "Some(Normal)", "no-answer": "Some(NoAnswer)", "peer-left": "Some(PeerLeft)", "bad-page": "Some(BadPage)"}
KINDS = {"T1": b"1", "T2": b"2", "TRAINING": b"C", "LINE": b"O"}
Params = namedtuple("Params", "speed fine width frame t6")
# What an answerer of few capabilities allows: the bits of the speeds of V.29, standard lines, 2,048 pixels, no T.6.
FEW_SPEEDS = ["1000", "1100"]


class Failed(Exception):
    pass


def bits_of(octets):
    """The bits as they are sent, the least significant of each octet first."""
    return f"{int.from_bytes(octets, 'little'):0{8 * len(octets)}b}"[::-1] if octets else ""


def octets_of(bits):
    return int(bits[::-1] or "0", 2).to_bytes(-(-len(bits) // 8), "little")


def remainder(left):
    for _ in range(8):
        left = left >> 1 ^ 0x8408 * (left & 1)
    return left


REMAINDERS = [remainder(octet) for octet in range(256)]


def check_sequence(octets):
    left = 0xFFFF
    for octet in octets:
        left = left >> 8 ^ REMAINDERS[(left ^ octet) & 0xFF]
    return (left ^ 0xFFFF).to_bytes(2, "little")


# What the line says.


def good_contents(bits):
    """Pairs of the number of bits up to a good frame's end and its content."""
    places = [match.start() for match in re.finditer(f"(?={FLAG})", bits)]
    found = []
    for place, after in zip(places, places[1:]):
        gap = bits[place + 8 : after]
        clear = gap.replace("111110", "11111")
        if len(gap) < 8 or "111111" in gap or len(clear) % 8 or not 5 <= len(clear) // 8 <= 302:
            continue
        octets = octets_of(clear)
        if check_sequence(octets[:-2]) == octets[-2:]:
            found.append((after + 8, octets[:-2]))
    return found


def read_params(fields):
    """What a DCS says, or None where it is outside the table."""
    bits = bits_of(fields[:4] if fields[2] & 0x80 else fields[:3]).ljust(32, "0")
    speed, width = bits[10:14], {"00": 1728, "10": 2048, "01": 2432}.get(bits[16:18])
    t6, is_corrected = bits[30] == "1", bits[26] == "1"
    if speed not in TRAINING or width is None or not is_corrected or (bits[15] == "1" and not t6):
        return None
    return Params(speed, bits[14] == "1", width, 64 if bits[27] == "1" else 256, t6)


def is_allowed(params, few):
    return not few or (params.speed in FEW_SPEEDS and not params.fine and params.width <= 2048 and not params.t6)


def read_signal(content):
    """The input that a content says, or None where it is refused."""
    if content[0] != 0xFF or content[1] not in (0x03, 0x13):
        return None
    control, fields = content[2], content[3:]
    name = CONTROLS.get(control) or CONTROLS.get(control & 0xFE)
    if control not in CONTROLS and name not in WITH_SIDE:
        return ("OTHER",)
    if len(fields) < LEAST_FIELDS.get(name, 0):
        return None
    if name == "FCD":
        return (name, fields[0], fields[1:])
    if name == "DCS":
        params = read_params(fields)
        return (name, params) if params else ("OTHER",)
    if name == "PPS":
        ends = "NULL" if fields[0] == 0 else PAGE_ENDS.get(fields[0] & 0xFE)
        return (name, ends, (fields[1], fields[2]), fields[3]) if ends else ("OTHER",)
    return (name,)


def rows_of(params, octets):
    """The rows of the page that octets are a code of, or None."""
    return read_page(bits_of(octets), params.width, params.t6)


# What the answerer does.


class Reading:
    """A new answerer over feeds, and the lines that it has given."""

    def __init__(self, few):
        self.few, self.lines = few, ["Dis"]
        self.station = Answerer(lambda params, octets: rows_of(params, octets) is not None, lambda params: params.frame)

    def give(self, what, *data):
        turn = ("-",) if what == "DCS" and not is_allowed(data[0], self.few) else self.station.step(what, *data)
        if turn[0] == "PPR":
            octets = [sum((8 * at + bit in turn[1]) << bit for bit in range(8)) for at in range(32)]
            self.lines.append(f"Ppr({octets})")
        else:
            self.lines.append(TURNS[turn[0]])

    def train(self, octets):
        longest = max((len(run) for run in re.findall(b"\0+", octets)), default=0)
        self.give("TRAINING", self.station.params is not None and 2 * longest >= TRAINING[self.station.params.speed])

    def ends(self):
        lines = []
        for params, octets in self.station.pages:
            rows = rows_of(params, octets)
            lines.append(f"page {params.width} {str(params.fine).lower()} {len(rows)} {digest(rows, params.width)}")
        return lines + [f"end {ENDS[self.station.end]}"]


def wanted(feeds, few=False):
    """The lines for feeds."""
    reading = Reading(few)
    contents = good_contents(bits_of(b"".join(data for kind, data in feeds if kind == "LINE")))[::-1]
    bits = 0
    for kind, data in feeds:
        if kind == "LINE":
            bits += 8 * len(data)
            while contents and contents[-1][0] <= bits:
                signal = read_signal(contents.pop()[1])
                if signal:
                    reading.give(*signal)
        elif kind == "TRAINING":
            reading.train(data)
        elif kind == "BUSY":
            reading.give(kind, data)
        else:
            reading.give(kind)
    return reading.lines + reading.ends()


def compare(feeds, output, few=False):
    lines = output.split("\n")[:-1]
    lines_wanted = wanted(feeds, few)
    for at, (line, other) in enumerate(zip(lines, lines_wanted)):
        if line != other:
            raise Failed(f"line {at + 1}: it printed {line!r}, the tables say {other!r}")
    if len(lines) != len(lines_wanted):
        raise Failed(f"it printed {len(lines)} lines, the tables say {len(lines_wanted)}")
    return [line for line in lines if not line.startswith(("page ", "end "))]


# What a stranger sends.


def stuffed(bits):
    return bits.replace("11111", "111110")


def changed(rand, octets):
    """The octets with one to three bits changed."""
    octets = bytearray(octets)
    for _ in range(rand.randint(1, 3)):
        octets[rand.randrange(len(octets))] ^= 1 << rand.randrange(8)
    return bytes(octets)


def frame_bits(rand, content, wrong):
    """The bits between two flags of a content's frame, right or wrong in one way."""
    way = rand.choice("content check line stuffing more short".split()) if rand.random() < wrong else ""
    if way == "content":
        content = changed(rand, content)
    octets = content + check_sequence(content)
    if way == "check":
        octets = content + changed(rand, octets[-2:])
    bits = stuffed(bits_of(octets))
    place = rand.randrange(len(bits))
    if way == "line":
        bits = bits[:place] + "10"[int(bits[place])] + bits[place + 1 :]
    elif way == "stuffing":
        bits = bits_of(octets) if rand.random() < 0.5 else bits.replace("111110", "11111", 1)
    elif way == "more":
        bits = bits[:place] + rand.choice(["0", "1", "1111111", FLAG]) + bits[place:]
    elif way == "short":
        bits = bits[:place]
    return bits


class Stranger:
    """Sends feeds: it keeps the bits of the line that aren't a feed yet, and what it agreed last."""

    def __init__(self, rand, few=False):
        self.rand, self.few, self.feeds, self.bits = rand, few, [], ""
        self.wrong, self.lost = rand.choice([0, 0, 0.02, 0.2, 0.6]), rand.choice([0, 0, 0.05, 0.3])
        self.params, self.page, self.block, self.sent = Params("0001", False, 1728, 256, True), 0, 0, []

    def content(self, content):
        """A frame, or nothing where it is lost, or the frame several times."""
        rand = self.rand
        self.sent.append(content)
        for _ in range(0 if rand.random() < self.lost else rand.choices([1, 2, 5], [60, 2, 1])[0]):
            if self.bits.endswith(FLAG):
                ones, zeros = "1" * rand.randint(1, 30), "0" * rand.randint(1, 9)
                self.bits += rand.choices([FLAG, FLAG[1:], "", FLAG + ones + FLAG, zeros + FLAG], [8, 2, 4, 1, 1])[0]
            else:
                self.bits += "1" * rand.randint(0, 9) + FLAG
            self.bits += frame_bits(rand, content, self.wrong) + FLAG

    def signal(self, octets):
        self.content(bytes([0xFF, self.rand.choice([0x03, 0x13]), *octets]))

    def other(self, kind, data):
        """A feed that isn't octets of the line; the octet before it is filled."""
        short = -len(self.bits) % 8
        self.bits += self.rand.choice(["1" * short, "0" * short, f"{self.rand.getrandbits(8):08b}"[:short]])
        self.feeds += [("LINE", octets_of(self.bits)), (kind, data)]
        self.bits = ""

    def begin(self):
        """A DCS and a training check."""
        rand = self.rand
        speed, fine, small, t6 = rand.choice(list(TRAINING)), rand.randint(0, 1), rand.randint(0, 1), rand.random() < 0.7
        width, unnamed = rand.choice(list(WHITE_ROWS)), int(rand.random() < 0.05)
        if self.few and rand.random() < 0.7:
            speed, fine, t6, width = rand.choice(FEW_SPEEDS), 0, False, rand.choice([1728, 2048])
        self.params = Params(speed, bool(fine), width, 64 if small else 256, t6)
        text = {1728: "00", 2048: "10", 2432: "01"}[width]
        bits = f"0000000001{speed}{fine}{unnamed}{text}011111001{small}00{int(t6)}0"
        fields = octets_of(bits)
        self.signal(bytes([0x82 + rand.randint(0, 1)]) + (changed(rand, fields) if rand.random() < 0.1 else fields))
        if rand.random() < 0.95:
            self.train(TRAINING[speed])

    def train(self, size):
        rand = self.rand
        octets = bytes(rand.choices([size, size // 2, size // 2 - 1, 0], [10, 3, 1, 1])[0])
        octets += rand.choice([b"", b"\xff"]) + bytes(rand.choice([0, size // 4, size]))
        self.other("TRAINING", rand.choices([octets, b"", b"\xff" * size], [20, 1, 1])[0])

    def code(self):
        """A page's code, of white rows or of others, and seldom of none."""
        rand, params = self.rand, self.params
        if params.t6:
            ends = rand.choices([2 * EOL, "", EOL, "0" * 40], [20, 1, 1, 1])[0]
        else:
            ends = rand.choices([6 * EOL, 2 * EOL, EOL, "", 7 * EOL], [20, 1, 1, 1, 1])[0]
        lead = "" if params.t6 else rand.choice([EOL, "0000" + EOL, ""])
        bits = lead + (self.white_rows() if rand.random() < 0.5 else self.other_rows()) + ends
        octets = octets_of(bits + "0" * (-len(bits) % 8)) or b"\0"
        return changed(rand, octets) if rand.random() < 0.05 else octets

    def white_rows(self):
        rand, params = self.rand, self.params
        rows = rand.choice([1, 1, 2, 30, 300, rand.randint(1, 3000)])
        if params.t6:
            return "1" * rand.choices([rows, 20001, 0], [30, 1, 1])[0]
        return EOL.join(min(rows, 60) * [WHITE_ROWS[params.width]])

    def other_rows(self):
        rand, params = self.rand, self.params
        return code_of(rand, random_rows(rand, params.width, rand.choice([1, 2, 5, 30])), params.width, params.t6)

    def pieces(self):
        """A block's data fields, and whether they end a page."""
        rand, octets, fields = self.rand, self.code(), []
        most = self.params.frame
        size = rand.choice([most, most, max(1, len(octets) // rand.randint(1, 9)), rand.randint(1, most)])
        while octets and len(fields) < 256:
            fields.append(octets[: min(size, most)])
            octets = octets[min(size, most) :]
        if rand.random() < 0.3:
            fields[-1] = fields[-1].ljust(most, b"\0")
        if rand.random() < 0.02:
            fields[rand.randrange(len(fields))] = bytes(rand.choice([65, 255, 256, 257, 290, 295, 296, 297, 300]))
        return fields

    def blocks(self):
        """A page in one block, or its front in blocks of their own, each in one to three rounds."""
        rand, fields = self.rand, self.pieces()
        while fields:
            here = rand.choice([len(fields), len(fields), rand.randint(1, len(fields))])
            self.rounds(fields[:here], is_last=here == len(fields))
            fields = fields[here:]

    def rounds(self, fields, is_last):
        rand, here = self.rand, list(range(len(fields)))
        ends = rand.choice([0x2F, 0x4F, 0x4F, 0x8F, 0x2E]) if is_last else 0
        ends = rand.choices([ends, rand.choice([0, 1, 0x2F, 0x4F, 0x8E, 0xF4])], [40, 1])[0]
        for _ in range(rand.choices([1, 2, 3], [6, 2, 1])[0]):
            if rand.random() < 0.1:
                rand.shuffle(here)
            for number in here:
                self.signal(bytes([0x06, number]) + fields[number])
            for _ in range(rand.choice([0, 3])):
                self.signal(b"\x86")
            last = rand.choices([len(fields) - 1, len(here) - 1 if here else 0, rand.randrange(256)], [16, 6, 1])[0]
            self.signal(bytes([0xBE + rand.randint(0, 1), ends, self.page % 256, self.block % 256, last]))
            here = [number for number in here if rand.random() < 0.3]
            if rand.random() < 0.05:
                self.begin()
                here = list(range(rand.randint(1, len(fields))))
        if ends & 0xFE == 0x2E and rand.random() < 0.15:
            self.signal(rand.choice([b"\xfb", b"\xfa"]))
        self.block += 1
        if ends and rand.random() < 0.95:
            self.page, self.block = self.page + rand.choices([1, 0, 255], [30, 1, 1])[0], 0
        if ends & 0xFE == 0x8E and rand.random() < 0.9:
            self.begin()

    def anything(self):
        rand = self.rand
        pick = rand.randint(0, 11)
        if pick == 0:
            self.bits += bits_of(rand.randbytes(rand.randint(1, 60)))
        elif pick == 1:
            self.bits += rand.choice([FLAG, FLAG[:-1], "1", "0", "11111", "0111111"]) * rand.randint(1, 30)
        elif pick == 2:
            self.signal(bytes([rand.choice([*CONTROLS, rand.randrange(256)])]) + rand.randbytes(rand.choice([0, 1, 2, 3, 4, 5, 32, 33])))
        elif pick == 3:
            self.content(rand.randbytes(rand.choice([1, 2, 3, 4, 5, 299, 300, 301])))
        elif pick == 4:
            self.signal(b"\x06" + bytes([rand.randrange(256)]) + bytes(rand.choice([0, 1, 64, 65, 256, 257, 296, 297, 300])))
        elif pick < 8:
            self.content(rand.choice(self.sent or [b"\xff\x13\x6f"]))
        elif pick == 8:
            self.train(rand.choice(list(TRAINING.values())))
        else:
            self.signal(rand.choice([b"\x6f", b"\x6e", b"\x6f\x00", b"\x86"]))

    def stream(self):
        rand = self.rand
        if rand.random() < 0.95:
            self.begin()
        for _ in range(rand.randint(1, rand.choice([3, 10, 30]))):
            what = rand.choices("blocks begin anything T2 T1 BUSY DCN".split(), [40, 6, 40, 6, 0.3, 10, 1.5])[0]
            if what in ("blocks", "begin", "anything"):
                getattr(self, what)()
            elif what == "DCN":
                self.signal(rand.choice([b"\xfb", b"\xfa"]))
            else:
                self.other(what, rand.random() < 0.5 if what == "BUSY" else b"")
        self.other("BUSY", False)
        return [(kind, data) for kind, data in self.feeds if kind != "LINE" or data]


# The runs, and what is worked by hand.


def cut(rand, feeds):
    """The feeds with the octets of the line cut anywhere, as the program reads them."""
    size = rand.choice([1, 2, 7, 50, 1000, 60000])
    out = b""
    for kind, data in feeds:
        if kind == "BUSY":
            out += (b"B" if data else b"R") + bytes(2)
            continue
        while data or kind != "LINE":
            here = min(len(data), rand.randint(0, size) if kind == "LINE" and size > 1 else size if kind == "LINE" else len(data))
            out += KINDS[kind] + here.to_bytes(2, "big") + data[:here]
            data = data[here:]
            if kind != "LINE":
                break
    return out


def run_once(program, name, few=False):
    ran = subprocess.run([program, name] + few * ["few"], capture_output=True, timeout=20)
    if ran.returncode or ran.stderr:
        raise Failed(f"status {ran.returncode}: {ran.stderr.decode(errors='replace')}")
    return ran.stdout.decode("ascii", "replace")


def try_stream(rand, folder, program):
    """One stream. Answers its octets, the program's turns, the number of its pages and the end."""
    few = rand.random() < 0.2
    feeds, outputs = Stranger(rand, few).stream(), []
    for number in (1, 2):
        name = os.path.join(folder, f"feeds{number}")
        with open(name, "wb") as file:
            file.write(cut(rand, feeds))
        outputs.append(run_once(program, name, few))
    if outputs[0] != outputs[1]:
        raise Failed("the same octets cut elsewhere give something else")
    turns = compare(feeds, outputs[0], few)
    pages = sum(line.startswith("page ") for line in outputs[0].split("\n"))
    octets = sum(len(data) for kind, data in feeds if kind == "LINE")
    return octets, turns, pages, outputs[0].split("\n")[-2]


def fuzz(seconds, seed, program):
    rand, end = random.Random(seed), time.monotonic() + seconds
    streams = octets = pages = 0
    turns, ends = Counter(), Counter()
    folder = tempfile.mkdtemp(prefix="fuzz-stream-")
    while time.monotonic() < end:
        try:
            more, its_turns, its_pages, its_end = try_stream(rand, folder, program)
        except (Failed, subprocess.TimeoutExpired) as why:
            print(f"FAILED in stream {streams + 1} of seed {seed}: {why}\nits files: {folder}")
            return 1
        streams, octets, pages = streams + 1, octets + more, pages + its_pages
        turns.update(turn[:3] for turn in its_turns)
        ends[its_end] += 1
    shutil.rmtree(folder)
    told = [", ".join(f"{name} {count}" for name, count in sorted(counter.items())) for counter in (turns, ends)]
    print(f"{streams} streams of {octets} octets, each sent twice, all well; seed {seed}")
    print(f"{pages} pages stored\nturns: {told[0]}\nends: {told[1]}")
    return 0


def build(folder):
    """The program of crates/stream_tool, unproved."""
    program = os.path.join(folder, "stream_tool")
    subprocess.run([os.path.join(TOP, "packaging", "build_unproved.sh"), os.path.join(TOP, "crates", "stream_tool"), program], check=True)
    return program


DCS = b"\xff\x13\x83\x00\x22\xf8\x44"
FIRST, REST, PPS = b"\xff\x03\x06\x00\x01", b"\xff\x03\x06\x01\x10\x00\x01", b"\xff\x13\xbf"
ALL_BUT_0 = f"Ppr({[254] + 31 * [255]})"
WHITE_PAGE = f"page 1728 false 1 {digest([[]], 1728)}"
# The contents that come after a DCS and a good training check, and what is answered to them.
WORKED = [
    ([FIRST + REST[4:], PPS + b"\x2f\0\0\0"], ["Silent", "Mcf", WHITE_PAGE, "end None"]),
    (
        [FIRST + REST[4:], PPS + b"\x2f\0\0\0", PPS + b"\x2f\0\0\0", b"\xff\x13\xfb"],
        ["Silent", "Mcf", "Mcf", "Silent", WHITE_PAGE, "end Some(Normal)"],
    ),
    ([b"\xff\x03\x06\0\xff", PPS + b"\x2f\0\0\0"], ["Silent", "Dcn", "end Some(BadPage)"]),
    ([FIRST, PPS + b"\0\0\0\xff"], ["Silent", ALL_BUT_0, "end None"]),
    (
        [FIRST, PPS + b"\x2f\0\0\1", REST, PPS + b"\x2f\0\0\0"],
        ["Silent", ALL_BUT_0, "Silent", "Mcf", WHITE_PAGE, "end None"],
    ),
    ([b"\xff\x03\x06\0" + bytes(257), PPS + b"\0\0\0\0"], ["Silent", f"Ppr({32 * [255]})", "end None"]),
]


def line_of(contents):
    bits = "".join(FLAG + stuffed(bits_of(content + check_sequence(content))) + FLAG for content in contents)
    return octets_of(bits.ljust(-(-len(bits) // 8) * 8, "0"))


def dry():
    """The frame of an MCF, and the worked streams, whose line is also heard octet by octet."""
    mcf = bytes.fromhex("7edf47308ac6fb01")
    if line_of([b"\xff\x13\x8c"]) != mcf or good_contents(bits_of(mcf)) != [(58, b"\xff\x13\x8c")]:
        print("the frame of an MCF is another")
        return 1
    for contents, answers in WORKED:
        line, check = line_of(contents), [("LINE", line_of([DCS])), ("TRAINING", bytes(2700))]
        for rest in ([("LINE", line)], [("LINE", line[at : at + 1]) for at in range(len(line))]):
            lines = wanted(check + rest)
            if lines != ["Dis", "Silent", "Cfr"] + answers:
                print(f"{contents} are answered {lines}")
                return 1
    print(f"{len(WORKED)} worked streams are answered")
    return 0


def main():
    if sys.argv[1:] == ["--dry"]:
        return dry()
    if not 2 <= len(sys.argv) <= 3 or not sys.argv[1].isdigit():
        print(__doc__, file=sys.stderr)
        return 2
    with tempfile.TemporaryDirectory() as folder:
        program = os.environ.get("STREAM") or build(folder)
        return fuzz(int(sys.argv[1]), int(sys.argv[2]) if len(sys.argv) > 2 else random.randrange(10**6), program)


if __name__ == "__main__":
    sys.exit(main())
