#!/usr/bin/env python3
"""What `faxtool station` must answer: a plain reading of docs/STATION.md and of T.30's tables, apart from the program.

    bench/fuzz/reference_station.py [station] --answer --out DIR [options]     reads the lines of one end, and prints its lines
    bench/fuzz/reference_station.py [station] --call [options] IN              the options are those of docs/STATION.md, but --trace
    bench/fuzz/reference_station.py --dry                                      tries it on lines worked by hand

The stations are those of reference_call.py, with the agreement on modems, codes and widths beside them; signals are read and written as
fuzz_stream.py and call_octets.py do, pages as reference_pages.py does. `Answering` and `Calling` are the two ends: `take(line)` answers the
lines that are printed for one, and whether the process ends then. fuzz_station.py joins them."""

import argparse
import functools
import os
import re
import sys
from collections import namedtuple
from pathlib import Path

sys.dont_write_bytecode = True
sys.path.insert(0, str(Path(__file__).resolve().parent))
from call_octets import ALONE, MODEMS, PAGE_ENDS, V27, V29, WIDTHS  # noqa: E402
from fuzz_stream import FLAG, TRAINING, bits_of, check_sequence, good_contents, octets_of, read_signal, rows_of, stuffed  # noqa: E402
from reference_call import MOST_OCTETS, SILENT, Answerer, Caller, blocks_of  # noqa: E402
from reference_pages import MOST_ROWS, prescribed  # noqa: E402

MOST_LINE = 400000
# The carriers of a page by the bits of a DCS that name them, and the bits a second at each.
CARRIERS = {"0000": "v27ter-2400", "0100": "v27ter-4800", "1100": "v29-7200", "1000": "v29-9600"}
CARRIERS |= {"1101": "v17-7200", "1001": "v17-9600", "0101": "v17-12000", "0001": "v17-14400"}
RATES = {name: int(name.partition("-")[2]) for name in CARRIERS.values()} | {"v21": 300}
WAITS = {"t1": 35000, "t2": 7000, "t4": 3000, "t5": 60000}
FIRST_DIS = 1000
LINE = re.compile(
    rb"(?P<word>quiet|busy|not-ready|ready|stop|end) (?P<at>[0-9]{1,15})"
    rb"|rx (?P<ended>[0-9]{1,15}) (?P<carrier>[0-9a-z-]+) (?P<kind>hdlc|raw) (?P<bits>[0-9]{1,7}) (?P<hex>[0-9A-Fa-f]*)"
)
Caps = namedtuple("Caps", "modems fine widest t6 receiver ecm")
Wish = namedtuple("Wish", "modems frame fine t6")
Said = namedtuple("Said", "word at carrier kind octets")


class Fault(Exception):
    """A fault by its line on standard error."""


# Lines in.


def read_line(line):
    """What a line says, or None where it isn't one."""
    found = LINE.fullmatch(line) if len(line) <= MOST_LINE else None
    if not found:
        return None
    if found["word"]:
        return Said(found["word"].decode(), int(found["at"]), None, None, None)
    carrier, digits = found["carrier"].decode(), found["hex"].decode()
    if carrier not in RATES or len(digits) != 2 * -(-int(found["bits"]) // 8):
        return None
    return Said("rx", int(found["ended"]), carrier, found["kind"].decode(), bytes.fromhex(digits))


class Ear:
    """The good frames of bits that come one after the other, whatever bursts they come in."""

    def __init__(self):
        self.bits = ""

    def contents(self, octets):
        self.bits += bits_of(octets)
        found = [content for _, content in good_contents(self.bits)]
        flag = self.bits.rfind(FLAG)
        self.bits = self.bits[flag if flag >= 0 else -7 :]
        return found


def caps_of(fields):
    """What a DIS offers. Bits past the last octet are 0, and those of the fourth are read where bit 24 is 1."""
    bits = bits_of(fields[:4] if fields[2] & 0x80 else fields[:3]).ljust(32, "0")
    modems = {text: name for name, (text, _) in MODEMS.items()}.get(bits[10:14], "fallback")
    widest = 2432 if bits[17] == "1" else 2048 if bits[16] == "1" else 1728
    return Caps(modems, bits[14] == "1", widest, bits[30] == "1", bits[9] == "1", bits[26] == "1")


def signal_of(content):
    """The input that a content says, or None; of a DIS with what it offers, and of a PPR with the frames that it names."""
    signal = read_signal(content)
    if signal == ("DIS",):
        return ("DIS", caps_of(content[3:]))
    if signal == ("PPR",):
        return ("PPR", {number for number, bit in enumerate(bits_of(content[3:35])) if bit == "1"})
    return signal


def refusal_of(content, caps):
    """Why a frame is a DCS that an answerer doesn't allow, or None: it may be another frame, or too short for a DCS."""
    signal = read_signal(content)
    if not signal or content[2] & 0xFE != 0x82 or (signal[0] == "DCS" and allows(caps, signal[1])):
        return None
    bits = bits_of(content[3:7]).ljust(32, "0")
    corrects = bits[23] == bits[26] == "1"
    return "the caller " + ("sends at a speed or pages that the answerer doesn't offer" if corrects else "sends without error correction")


def allows(caps, params):
    """Whether an answerer of these capabilities takes pages that come by these parameters."""
    fits = params.width <= caps.widest and (caps.fine or not params.fine) and (caps.t6 or not params.t6)
    return fits and supports(caps.modems, params.speed)


def supports(modems, speed):
    return modems == "v17" or speed in MODEMS[modems][1]


def common_speeds(ours, theirs):
    """The speeds that two stations try, the fastest first: those of V.17 where both have it, and else of V.29 and V.27 ter."""
    if ours == theirs == "v17":
        return list(MODEMS["v17"][1])
    return [speed for speed in V29 + V27 if supports(ours, speed) and supports(theirs, speed)]


# Bursts.


def frame(control, fields=b"", is_last=True, side=0):
    """The bits of a frame, with a flag on either side of it. `side` is 1 where the caller sends it."""
    content = bytes([0xFF, 0x13 if is_last else 0x03, control | side]) + fields
    return FLAG + stuffed(bits_of(content + check_sequence(content))) + FLAG


def hdlc(carrier, frames):
    """Flags for 1 s by V.21, which are 37 with the one that the first frame begins with, or for 200 ms; the frames; and two flags."""
    flags = 37 if carrier == "v21" else RATES[carrier] // 40
    return (carrier, "hdlc", flags * FLAG + "".join(frames) + 2 * FLAG)


def alone(name, side):
    """The burst of a signal that has nothing but its name."""
    return hdlc("v21", [frame(ALONE[name] & 0xFE, side=side)])


def sent(burst):
    carrier, kind, bits = burst
    return f"tx {carrier} {kind} {len(bits)} {octets_of(bits).hex().upper()}"


# The stations, with what reference_call.py leaves out.


class StationCaller(Caller):
    """A caller of pages of rows. A group's blocks are there from the DIS on that agrees on it."""

    def __init__(self, pages, wish):
        super().__init__([], wish.frame, 0)
        self.document, self.wish, self.codes, self.speeds, self.t6 = pages, wish, {}, [], False

    def on_dis(self, caps):
        if self.state != "WaitDis":
            return super().on_dis()
        due, wish = self.confirmed(), self.wish
        width = self.document[due][0]
        takes = caps.receiver and caps.ecm and width <= caps.widest and (caps.fine or not wish.fine)
        self.speeds = common_speeds(wish.modems, caps.modems) if takes else []
        if not self.speeds:
            return self.give_up("not-compatible")
        self.t6 = wish.t6 and caps.t6
        self.blocks += blocks_of(self.group(due, width), wish.frame)
        return self.wait("WaitCfr", ("DCS",))

    def group(self, due, width):
        """The pages with the octets of their code, 0 outside the group and from one on whose code is too long."""
        sizes, is_group = [0] * len(self.document), True
        for number in range(due, len(self.document)):
            is_group = is_group and self.document[number][0] == width
            is_group = is_group and len(self.code(number)) <= MOST_OCTETS
            if not is_group:
                break
            sizes[number] = len(self.code(number))
        return [(page[0], size) for page, size in zip(self.document, sizes)]

    def code(self, number):
        key = (number, self.t6)
        if key not in self.codes:
            width, rows = self.document[number]
            self.codes[key] = octets_of(prescribed(rows, width, self.t6))
        return self.codes[key]

    def on_ftt(self):
        if self.state != "WaitCfr":
            return SILENT
        self.speeds.pop(0)
        return self.wait("WaitCfr", ("DCS",)) if self.speeds else self.give_up("training")

    def on_cfr(self):
        if self.state == "WaitCfr" and self.place == len(self.blocks):
            return self.give_up("page-too-long")
        return super().on_cfr()

    def on_mcf(self):
        if self.state not in ("WaitBlock", "WaitReady"):
            return SILENT
        ends = self.blocks[self.place][2]
        self.place += 1
        if ends == "EOM":
            self.state = "WaitDis"
            return SILENT
        if self.place < len(self.blocks):
            return self.first_burst()
        return self.give_up("normal" if ends == "EOP" else "page-too-long")

    def bursts(self, turn):
        """The bursts of a turn, as the station has them now."""
        if turn[0] in ("BURST", "PPS"):
            return self.block_bursts(turn) if self.state in ("WaitBlock", "WaitReady") and not self.end else []
        if turn[0] != "DCS":
            return [] if turn == SILENT else [alone(turn[0], 1)]
        if self.state == "WaitDis":
            return []
        # After a failed training at the last speed the turn is DCN.
        speed, width = self.speeds[0], WIDTHS[self.document[self.confirmed()][0]]
        fields = f"0000000001{speed}{int(self.wish.fine)}0{width}011111001{int(self.size == 64)}00{int(self.t6)}0"
        return [hdlc("v21", [frame(0x82, octets_of(fields), side=1)]), (CARRIERS[speed], "raw", 8 * TRAINING[speed] * "0")]

    def block_bursts(self, turn):
        page, place, ends, count = self.blocks[self.place]
        pps = hdlc("v21", [frame(0xBE, bytes([PAGE_ENDS[ends], page % 256, place % 256, count - 1]), side=1)])
        if turn[0] == "PPS":
            return [pps]
        code, frames = self.code(page), []
        for number in sorted(turn[1] & set(range(count))):
            first = (256 * place + number) * self.size
            data = code[first : first + self.size].ljust(self.size, b"\0")
            frames.append(frame(0x06, bytes([number]) + data, is_last=False))
        return [hdlc(CARRIERS[self.speeds[0]], frames + 3 * [frame(0x86, is_last=False)]), pps]


@functools.lru_cache(maxsize=8)
def read_rows(params, octets):
    return rows_of(params, octets)


class StationAnswerer(Answerer):
    """An answerer of some capabilities, with room for so many pages until they are taken."""

    def __init__(self, caps, limit):
        super().__init__(lambda params, octets: read_rows(params, octets) is not None, lambda params: params.frame)
        self.caps, self.limit, self.told = caps, limit, False

    def is_full(self):
        return len(self.pages) >= self.limit

    def step(self, what, *data):
        was_full = self.is_full()
        if was_full and (what == "FCD" or (what == "PPS" and data[1] != self.accepted)):
            return SILENT
        if what == "BUSY":
            self.told = data[0]
            data = (self.told or was_full,)
        turn = super().step(what, *data)
        if not was_full and self.is_full():
            self.busy = True
            return ("RNR",) if turn == ("MCF",) else turn
        return turn

    def take_pages(self):
        pages, self.pages = self.pages, []
        if not self.end:
            self.busy = self.told
        return pages

    def on_dcs(self, params):
        return super().on_dcs(params) if allows(self.caps, params) else SILENT

    def bursts(self, turn):
        if turn == SILENT:
            return []
        if turn[0] == "DIS":
            modems, width = MODEMS[self.caps.modems][0], WIDTHS[self.caps.widest]
            fields = f"0000000001{modems}{int(self.caps.fine)}0{width}011111001000{int(self.caps.t6)}0"
            return [hdlc("v21", [frame(0x80, octets_of(fields))])]
        if turn[0] == "PPR":
            return [hdlc("v21", [frame(0xBC, octets_of("".join("01"[number in turn[1]] for number in range(256))))])]
        return [alone(turn[0], 0)]


# The two ends: a station, what it hears, and its clock.


class Ending:
    """One end of a call. `quiet_from` is the first `quiet` since something was on the line, `heard_from` since when T1 runs."""

    def __init__(self, station, waits):
        self.station, self.waits, self.ear = station, waits, Ear()
        self.turn, self.cut, self.number, self.at = SILENT, None, 0, 0
        self.quiet_from, self.heard_from, self.spoken = None, 0, None
        # the numbers of the lines whose frames it heard
        self.heard_lines = set()
        # how many milliseconds the call lasts at most, 0 for any; and whether it has lasted as long
        self.most, self.late = 0, False

    def take(self, raw):
        """The lines that answer a line, and whether the process ends after them."""
        self.number += 1
        said = read_line(raw)
        if not said or not self.at <= said.at <= self.at + self.longest(said):
            raise Fault(f"fault 31 at line {self.number}")
        self.at, self.turn = said.at, SILENT
        getattr(self, "on_" + said.word.replace("-", "_"))(said)
        self.end_late(said.word)
        self.settle()
        bursts = self.station.bursts(self.turn)
        if bursts:
            self.quiet_from, self.spoken = None, self.turn[0]
        is_over = bool(self.name())
        return [sent(burst) for burst in bursts] + ["done" if is_over else "wait"], is_over

    def longest(self, said):
        """How much later than the line before it a line may be: T1 or 35 s from quiet to quiet, else T1 or ten minutes."""
        is_calm = self.quiet_from is not None and said.word == "quiet"
        return max(self.waits["t1"], 35000 if is_calm else 600000)

    def settle(self):
        """What is done before the turn is sent."""

    def name(self):
        """How the call ended, if it has."""
        return self.station.end or self.cut

    def give(self, *given):
        """The station's step. Its turn takes the place of one before it, unless it is silent."""
        turn = self.station.step(*given)
        self.turn = turn if turn != SILENT else self.turn

    def is_done(self):
        """Whether all was done: all pages are confirmed, and the last DCN is missing at most."""
        return self.is_whole() and self.name() in ("normal", "no-answer", "line-lost", None)

    def stop(self):
        if not self.name():
            self.cut, self.turn = "stopped", ("DCN",)

    def end_late(self, word):
        """A call that has lasted as long as it may is stopped where the other side hears that, or given up in silence ten seconds later."""
        is_heard = word in ("quiet", "rx")
        if self.most and not self.name() and self.at >= self.most + (0 if is_heard else 10000):
            self.late = is_heard
            self.stop()
            # an answerer that hasn't begun says nothing
            self.turn = self.turn if is_heard and getattr(self, "has_begun", True) else SILENT
            self.cut = "stopped" if is_heard else "never-quiet"

    def reason(self):
        """The line that says why the call was stopped or given up, if it lasted too long."""
        if self.cut == "never-quiet":
            return "the call is given up, as its line never fell quiet: --most-seconds\n"
        return "the call is stopped: --most-seconds\n" if self.late else ""

    def on_quiet(self, said):
        if self.quiet_from is None:
            self.quiet_from = said.at
        self.quiet(said.at)

    def on_busy(self, _said):
        self.quiet_from = None

    def on_rx(self, said):
        self.quiet_from = None
        self.rx(said)

    def on_not_ready(self, _said):
        self.give("BUSY", True)

    def on_ready(self, _said):
        self.give("BUSY", False)

    def on_stop(self, _said):
        self.stop()

    def on_end(self, _said):
        self.cut = "line-lost"

    def hear(self, said):
        """Each good frame of a burst, in order. A station that has something to send hears DCN alone."""
        self.heard_lines.add(self.number)
        for content in self.ear.contents(said.octets):
            self.see(content)
            self.heard_from = said.at
            signal = signal_of(content)
            if signal and (self.turn == SILENT or signal[0] == "DCN"):
                self.heard(signal, said.at)

    def see(self, content):
        """What is noted of a good frame, by whatever carrier its bits came."""

    def heard(self, signal, _at):
        self.give(*signal)

    def has_waited(self, wait, since):
        return since is not None and self.at - since >= self.waits[wait]


class Calling(Ending):
    def __init__(self, pages, wish, waits):
        super().__init__(StationCaller(pages, wish), waits)
        self.busy_from = None

    def rx(self, said):
        if (said.carrier, said.kind) == ("v21", "hdlc"):
            self.hear(said)

    def settle(self):
        """T5 runs from the first line after which the caller waits for a busy answerer."""
        is_busy = self.station.state == "WaitReady" and not self.name()
        self.busy_from = (self.at if self.busy_from is None else self.busy_from) if is_busy else None

    def quiet(self, _at):
        state = self.station.state
        if state == "WaitReady" and self.has_waited("t5", self.busy_from):
            self.give("T5")
        elif self.has_waited("t1", self.heard_from) if state == "WaitDis" else self.has_waited("t4", self.quiet_from):
            self.give("TIMEOUT")

    def is_whole(self):
        return self.station.confirmed() == len(self.station.document)

    def last_line(self):
        return f"{self.reason()}end {self.name() or 'line-lost'} confirmed {self.station.confirmed()}"


class Answering(Ending):
    """`store(page)` writes a page's PBM, and errs with OSError where it can't. The call is stopped at the second DCS that isn't allowed,
    unless it `refuses` none, and at a PPS of the block that was accepted last, if an FCD came since: it repeats that PPS no more."""

    def __init__(self, caps, limit, waits, store, refuses=True):
        super().__init__(StationAnswerer(caps, limit), waits)
        self.store, self.has_begun, self.stored, self.failed = store, False, 0, None
        self.refuses, self.reasons, self.last_pps = refuses, [], None
        # the last page number, and whether one didn't follow that before it
        self.last_page, self.has_gap = None, False
        # the block that was accepted last, whether an FCD came since, and then its PPS
        self.used, self.has_frames, self.is_reused = None, False, False

    def rx(self, said):
        if not self.has_begun:
            return
        if self.used != self.station.accepted:
            self.used, self.has_frames = self.station.accepted, False
        self.listen(said)
        if self.refusal() and not self.name():
            self.stop()
            self.cut = "refused"

    def refusal(self):
        """Why the call is refused, or None."""
        if self.is_reused:
            return "a page came under the number of the last one"
        return self.reasons[1] if self.refuses and len(self.reasons) > 1 else None

    def see(self, content):
        """The DCSs that aren't allowed, gaps in the numbers of pages, frames under those of the last block, and the last PPS, but for one that
        repeats a confirmed block."""
        why, signal = refusal_of(content, self.station.caps), read_signal(content)
        self.reasons += [why] if why else []
        if signal and signal[0] == "PPS":
            page = signal[2][0]
            self.has_gap |= page not in ((0,) if self.last_page is None else (self.last_page, (self.last_page + 1) % 256))
            self.last_page = page
            self.is_reused |= self.has_frames and signal[2] == self.used
            if self.spoken != "MCF" or not self.last_pps or self.last_pps[1] != signal[2]:
                self.last_pps = signal[1:3]
        self.has_frames |= bool(signal) and signal[0] == "FCD"

    def is_whole(self):
        """Whether the last block ended with EOP and was answered by MCF, and no page number was passed over."""
        return self.spoken == "MCF" and self.last_pps == ("EOP", self.station.accepted) and not self.has_gap

    def listen(self, said):
        station = self.station
        named = CARRIERS[station.params.speed] if station.state != "PhaseB" else None
        if said.kind == "raw" and station.state == "WaitTraining" and said.carrier == named:
            self.heard_from = said.at
            longest = max((len(run) for run in re.findall(b"\0+", said.octets)), default=0)
            self.give("TRAINING", 2 * longest >= TRAINING[station.params.speed])
        elif said.kind == "hdlc" and (said.carrier == "v21" or (station.state == "Message" and said.carrier == named)):
            self.hear(said)

    def quiet(self, at):
        state = self.station.state
        if not self.has_begun:
            if at >= FIRST_DIS:
                self.has_begun, self.turn = True, ("DIS",)
            return
        waits = {"PhaseB": ["t1", "t2"], "WaitTraining": ["t1", "t2"], "Message": ["t1"]}[state]
        for wait in waits:
            is_by_quiet = wait == "t2" or state == "Message"
            if self.has_waited(wait, self.quiet_from if is_by_quiet else self.heard_from):
                self.give(wait.upper())
                return

    def settle(self):
        """The pages stored in this line are written. Where that fails the station hangs up in place of its turn."""
        for params, octets in self.station.take_pages():
            try:
                self.store(pbm_of(read_rows(params, octets), params.width))
            except OSError as why:
                self.stop()
                self.turn, self.failed = ("DCN",), why
                return
            self.stored += 1

    def last_line(self):
        name, why = self.name() or "line-lost", self.reason()
        if name == "refused":
            why = f"the call is refused: {self.refusal()}\n"
        if name == "normal" and self.spoken != "MCF":
            name, why = "peer-left", "the caller left before its last page was confirmed\n"
        return f"{why}end {name} pages {self.stored}"


# Files.


def pbm_of(rows, width):
    """An image with the pixels of rows, the leftmost of an octet its highest bit."""
    size = -(-width // 8)
    octets = [f"P4\n{width} {len(rows)}\n".encode()]
    for row in rows:
        black = 0
        for place in row:
            black ^= (1 << (width - place)) - 1
        octets.append((black << (8 * size - width)).to_bytes(size, "big"))
    return b"".join(octets)


@functools.lru_cache(maxsize=10000)
def changes_of(octets, width):
    """The changing positions of a packed row."""
    pixels = int.from_bytes(octets, "big") >> (8 * len(octets) - width)
    return [match.start() for match in re.finditer("1", f"{pixels ^ pixels >> 1:0{width}b}")]


def image_of(octets):
    """The first image of octets, as its width and rows, and the octets after it."""
    space = rb"(?:[ \t\n\v\f\r]|#[^\r\n]*[\r\n])+"
    width = re.match(rb"P4" + space + rb"([0-9]+)", octets)
    if not width:
        raise Fault("fault 5")
    if not 1 <= int(width[1]) <= 2432:
        raise Fault("fault 1")
    height = re.compile(space + rb"([0-9]+)").match(octets, width.end())
    if not height:
        raise Fault("fault 5")
    if not 1 <= int(height[1]) <= MOST_ROWS:
        raise Fault("fault 3" if int(height[1]) else "fault 4")
    first, pixels = height.end() + 1, int(width[1])
    if octets[first - 1 : first] not in [bytes([octet]) for octet in b" \t\n\v\f\r"]:
        raise Fault("fault 5")
    size = -(-pixels // 8)
    end = first + size * int(height[1])
    if end > len(octets):
        raise Fault("fault 6")
    return (pixels, [changes_of(octets[at : at + size], pixels) for at in range(first, end, size)]), octets[end:]


def document_of(octets):
    """The pages of a PBM file, each of which has a width that a call can have."""
    if not octets:
        raise Fault("fault 7")
    pages = []
    while octets:
        page, octets = image_of(octets)
        pages.append(page)
    if any(width not in WIDTHS for width, _ in pages):
        raise Fault("fault 26")
    return pages


class Folder:
    """A folder of pages: each goes to a new file, of its own number or the next one that is free."""

    def __init__(self, name):
        self.name, self.page, self.file = name, 0, 0

    def store(self, octets):
        self.page += 1
        self.file = max(self.page, self.file + 1)
        while os.path.lexists(self.path()):
            self.file += 1
        try:
            with open(self.path(), "xb") as file:
                file.write(octets)
                file.flush()
                os.fsync(file.fileno())
        except OSError:
            Path(self.path()).unlink(missing_ok=True)
            raise

    def path(self):
        return os.path.join(self.name, f"page-{self.file}.pbm")


# The process.


def arguments(words):
    """The words of a command. argparse ends with status 2 where they are none."""
    parser = argparse.ArgumentParser(prog="station", allow_abbrev=False)
    ends = parser.add_mutually_exclusive_group(required=True)
    ends.add_argument("--answer", action="store_true")
    ends.add_argument("--call", action="store_true")
    parser.add_argument("--out")
    parser.add_argument("--modems", choices=list(MODEMS), default="v17")
    parser.add_argument("--code", choices=["mh", "mmr"], default="mmr")
    parser.add_argument("--standard", action="store_true")
    parser.add_argument("--fine", action="store_true")
    parser.add_argument("--widest", choices=["1728", "2048", "2432"])
    parser.add_argument("--frame", choices=["256", "64"])
    parser.add_argument("--limit", type=int, choices=range(1, 1001), metavar="PAGES")
    refuses = parser.add_mutually_exclusive_group()
    refuses.add_argument("--refuse", action="store_true")
    refuses.add_argument("--no-refuse", action="store_true")
    for wait, millis in WAITS.items():
        parser.add_argument("--" + wait, type=int, default=millis, choices=range(1, 3600001), metavar="MS")
    parser.add_argument("--most-seconds", type=int, default=14400, choices=range(2**32), metavar="S")
    parser.add_argument("--explain", action="store_true")
    parser.add_argument("input", nargs="?")
    asked = parser.parse_args(words)
    of_answerer = [asked.out, asked.standard, asked.widest, asked.limit, asked.refuse, asked.no_refuse]
    foreign = [asked.frame, asked.fine, asked.input] if asked.answer else of_answerer
    missing = asked.out is None if asked.answer else asked.input is None
    if missing or any(value not in (None, False) for value in foreign) or asked.input == "-":
        parser.error("other words of this end")
    return asked


def end_of(asked, store):
    """The end that words ask for. `store` takes the pages of an answerer."""
    waits, t6 = {wait: getattr(asked, wait) for wait in WAITS}, asked.code == "mmr"
    if asked.answer:
        caps = Caps(asked.modems, not asked.standard, int(asked.widest or 2432), t6, True, True)
        end = Answering(caps, asked.limit or 2, waits, store, not asked.no_refuse)
    else:
        pages = document_of(Path(asked.input).read_bytes())
        end = Calling(pages, Wish(asked.modems, int(asked.frame or 256), asked.fine, t6), waits)
    end.most = 1000 * asked.most_seconds
    return end


def lines_of(file):
    """The lines of a file, without their LF; what follows the last one is a line too, unless it is empty."""
    return (line.removesuffix(b"\n") for line in file)


def serve(end, lines, write):
    """Answers lines until the call ends or there are no more. Answers the lines of standard error, and the status."""
    for line in lines:
        try:
            answers, is_over = end.take(line)
        except Fault as fault:
            return [str(fault)], 1
        write(answers)
        if is_over:
            break
    if getattr(end, "failed", None):
        return ["fault 8"], 1
    return [end.last_line()], 0 if end.is_done() else 1


def put(answers):
    sys.stdout.write("".join(line + "\n" for line in answers))
    sys.stdout.flush()


def main():
    words = sys.argv[1:]
    if words == ["--dry"]:
        return dry()
    asked = arguments(words[1:] if words[:1] == ["station"] else words)
    try:
        if asked.answer and not os.path.isdir(asked.out):
            raise Fault("fault 8")
        end = end_of(asked, Folder(asked.out).store)
        errors, status = serve(end, lines_of(sys.stdin.buffer), put)
    except (Fault, OSError) as fault:
        errors, status = [str(fault) if isinstance(fault, Fault) else "fault 8"], 1
    if asked.explain and errors[0].startswith("fault"):
        errors.append("docs/FAULTS.md says what is wrong")
    print("\n".join(errors), file=sys.stderr)
    return status


# What is worked by hand from the tables of T.30: the contents of frames, as .ci/data/try_rows.py has them.
DIS, DCS, CFR, MCF, DCN, RNR, RR = "FF1380006EFA44", "FF13830022F844", "FF1384", "FF138C", "FF13FB", "FF13EC", "FF136F"
WHITE_FCD, RCP, LAST = "FF030600" + "01100001".ljust(512, "0"), "FF0386", "FF13BF2F000000"
CHECK, WHITE_BURST = "0" * 21600, [WHITE_FCD, RCP, RCP, RCP]
PAGE = "v17-14400"
# The burst of an MCF as octets: 37 flags; a flag, FF 13 8C with its check sequence, and a flag, which are 58 bits; and two flags more.
MCF_BURST = "tx v21 hdlc 370 " + 37 * "7E" + "7EDF47308AC6FB" + "F9F901"
# Lines in with what is answered: a text, or a carrier and the contents of its frames, or with the bits of a check; and how it ends.
ANSWERED = [
    ("quiet 980", []),
    (("rx 985", "v21", [DCS]), []),
    ("quiet 1000", [("v21", [DIS])]),
    ("quiet 3000", []),
    ("quiet 9999", []),
    ("quiet 10000", [("v21", [DIS])]),
    ("busy 10100", []),
    (("rx 10200", "v21", [DCS]), []),
    (("rx 11000", "v17-12000", CHECK), []),
    (("rx 12000", PAGE, CHECK), [("v21", [CFR])]),
    (("rx 13000", PAGE, WHITE_BURST), []),
    ("not-ready 13001", []),
    (("rx 14000", "v21", [LAST]), [("v21", [RNR])]),
    ("ready 14001", []),
    (("rx 15000", "v21", [RR]), [MCF_BURST]),
    (("rx 16000", "v21", [DCN]), []),
    "end normal pages 1",
]
# A repeated PPS is confirmed again; after an FCD it is of a page that isn't there.
REUSED = ANSWERED[:-3] + [
    (("rx 15500", PAGE, [RCP, RCP, RCP]), []),
    (("rx 16000", "v21", [LAST]), [("v21", [MCF])]),
    (("rx 17000", "v21", WHITE_BURST), []),
    (("rx 18000", "v21", [RR]), []),
    (("rx 19000", "v21", [LAST]), [("v21", ["FF13FA"])]),
    "the call is refused: a page came under the number of the last one\nend refused pages 1",
]
CALLED = [
    ("quiet 34000", []),
    (("rx 34900", "v21", [DIS]), [("v21", [DCS]), (PAGE, CHECK)]),
    ("quiet 40000", []),
    ("quiet 42999", []),
    ("quiet 43000", [("v21", [DCS]), (PAGE, CHECK)]),
    (("rx 44000", "v21", [CFR]), [(PAGE, WHITE_BURST), ("v21", [LAST])]),
    (("rx 50000", "v21", [RNR]), [("v21", [RR])]),
    ("busy 51000", []),
    (("rx 108000", "v21", [RNR]), [("v21", [RR])]),
    ("quiet 109999", []),
    ("quiet 110000", [("v21", [DCN])]),
    "end still-busy confirmed 0",
]
SENT_WELL = CALLED[:6] + [(("rx 50000", "v21", [MCF]), [("v21", [DCN])]), "end normal confirmed 1"]
UNANSWERED = [("quiet 0", []), ("quiet 34999", []), ("quiet 35000", [("v21", [DCN])]), "end no-answer confirmed 0"]
NO_LINES = ["", "quiet", "quiet ", "quiet 1 ", " quiet 1", "quiet 1\r", "Quiet 1", "quiet +1", "quiet 1000000000000000", "quiet 1 1"]
NO_LINES += ["hush 1", "end", "quiet \u0661", "rx 1 v21 hdlc 0", "rx 1 v21 hdlc 8 0", "rx 1 v21 hdlc 8 0000", "rx 1 v21 hdlc 9 00"]
NO_LINES += ["rx 1 v21 hdlc 8 0G", "rx 1 v17-4800 raw 8 00", "rx 1 v21 psk 8 00", "rx 1 v21 hdlc 00000008 00", "rx 1  v21 hdlc 8 00"]
NO_LINES += ["rx 1 v21 hdlc -8 00"]


def written(burst):
    """A worked burst as it is on a line, after `rx T` or `tx`."""
    carrier, what = burst
    if isinstance(what, str):
        return f"{carrier} raw {len(what)} {octets_of(what).hex().upper()}"
    frames = [FLAG + stuffed(bits_of(octets + check_sequence(octets))) + FLAG for octets in map(bytes.fromhex, what)]
    return sent(hdlc(carrier, frames))[3:]


def try_worked(end, worked):
    """The first line that is answered otherwise, or None."""
    for line, bursts in worked[:-1]:
        text = line if isinstance(line, str) else f"{line[0]} {written(line[1:])}"
        answers, is_over = end.take(text.encode())
        wanted = [burst if isinstance(burst, str) else "tx " + written(burst) for burst in bursts]
        if answers != wanted + ["done" if (line, bursts) == worked[-2] else "wait"]:
            return f"{text[:60]} is answered by {[answer[:90] for answer in answers]}"
    return None if end.last_line() == worked[-1] else end.last_line()


def dry():
    pages, wish = [(1728, [[]])], Wish("v17", 256, False, True)
    for worked in (ANSWERED, REUSED, CALLED, SENT_WELL, UNANSWERED):
        end = Calling(pages, wish, WAITS)
        if worked in (ANSWERED, REUSED):
            end = Answering(Caps("v17", True, 2432, True, True, True), 2, WAITS, lambda octets: None)
        wrong = try_worked(end, worked)
        if wrong:
            print(wrong)
            return 1
    wrong = [line for line in NO_LINES if read_line(line.encode())]
    if wrong or not read_line(b"rx 1 v21 hdlc 0 ") or not read_line(b"rx 000000000000001 v21 hdlc 0000009 0aF0"):
        print(f"lines are read otherwise: {wrong}")
        return 1
    data = Path(__file__).resolve().parent.parent.parent / ".ci" / "data"
    ((width, rows),) = [image_of((data / "page.pbm").read_bytes())[0]]
    for name, is_t6 in (("page.mh.lsb", False), ("page.mmr.lsb", True)):
        if octets_of(prescribed(rows, width, is_t6)) != (data / name).read_bytes():
            print(f"the page is coded otherwise than in {name}")
            return 1
    print(f"5 worked conversations and {len(NO_LINES)} wrong lines are answered")
    return 0


if __name__ == "__main__":
    sys.exit(main())
