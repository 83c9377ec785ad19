"""What a call of `faxtool station` came to: a second reading of the figures that it tells at its end, apart from the program.

They are counted from the lines in and out of one conversation alone, by docs/STATION.md and T.30. What was heard are the good frames of
the lines in that the station hears: those of V.21, by an answerer from its first DIS on, and those of the page's carrier while it takes
blocks; reference_station.py knows these lines. What was said are the frames of the lines out. FCD and RCP count as nothing, by whatever
carrier they come. `figures_of` counts, `words_of` and
`record_of` are the line of words and the JSON object, and `told_of` adds the line to what else is told at the end."""

import json
import sys
from pathlib import Path

sys.dont_write_bytecode = True
sys.path.insert(0, str(Path(__file__).resolve().parent))
from frame_names import OTHERS  # noqa: E402
from fuzz_stream import FLAG, bits_of, check_sequence, octets_of, read_signal, stuffed  # noqa: E402
from reference_station import CARRIERS, FIRST_DIS, Ear  # noqa: E402

# What a station says again if nothing answers it.
COMMANDS = ("DIS", "DCS", "PPS", "RR")
# The frames of a page, which count as nothing.
OF_PAGES = ("FCD", "RCP")
# CSI, and TSI with either first bit, by which a station names itself with so many signs of a telephone (T.30, 5.3.6.2).
NAMING, MOST_SIGNS, SIGNS = (0x40, 0x42, 0x43), 20, "0123456789+*# "
# What goes beside a DIS or a DCS and asks for no answer: what a station is, who it is, and where it wants a page to go.
BESIDE = ("NSF", "NSC", "CSI", "CIG", "SEP", "PWD", "PSA", "CIA", "ISP", "CSA", "NSS", "TSI", "SID", "SUB", "TSA", "IRA")
# The ends of which more is known, or that the station's own side brought.
KNOWN = ("normal", "not-compatible", "stopped", "refused")


def framed(content):
    return FLAG + stuffed(bits_of(content + check_sequence(content))) + FLAG


def frame_octets(burst):
    """The octets of a burst of frames, after `rx T` or `tx`; none of a training check."""
    _carrier, kind, *rest = burst.split(" ")
    if kind == "raw":
        return b""
    if kind == "frames":
        return octets_of("".join(framed(bytes.fromhex(content)) for content in rest)) if rest else b""
    return bytes.fromhex(rest[1])


def v21_octets(burst):
    """The octets of a burst of frames by V.21; none of another one."""
    return frame_octets(burst) if burst.startswith("v21 ") else b""


def name_of(fields):
    """What a station calls itself: its signs, of which the last one is sent first."""
    text = "".join(map(chr, reversed(fields))).lstrip(" ")
    return "".join(sign if sign in SIGNS else "?" for sign in text)


class Count:
    """The figures so far."""

    def __init__(self):
        self.blocks = self.pprs = self.resent = self.retries = self.failed_checks = 0
        self.speeds, self.peer, self.left_out = [], None, None
        # the mark and the last frame of the last PPS, and whether its block isn't counted
        self.mark, self.last, self.is_open = None, -1, False
        # whether no frame was heard since the last command
        self.is_waiting = False

    def heard(self, content):
        signal, fields = read_signal(content), content[3:]
        if signal and signal[0] in OF_PAGES:
            return
        self.is_waiting, self.left_out = False, None
        if signal == ("OTHER",):
            self.left_out = OTHERS.get(content[2])
            if content[2] in NAMING and len(fields) == MOST_SIGNS:
                self.peer = name_of(fields) or self.peer
        self.count(signal, content)

    def said(self, content):
        signal = read_signal(content)
        if signal and signal[0] in COMMANDS:
            self.retries += self.is_waiting
            self.is_waiting = True
        self.count(signal, content)

    def count(self, signal, content):
        """What a signal adds, whoever says it."""
        name = signal[0] if signal else None
        if name == "DCS":
            self.speeds.append(CARRIERS[signal[1].speed])
        elif name == "FTT":
            self.failed_checks += 1
        elif name == "PPS":
            _, _, mark, self.last = signal
            self.is_open |= mark != self.mark
            self.mark = mark
        elif name == "PPR":
            self.pprs += 1
            self.resent += bits_of(content[3:35])[: self.last + 1].count("1")
        elif name == "MCF":
            self.blocks += self.is_open
            self.is_open = False


def turns(lines, answers):
    """Each line that was taken, with the lines that answer it before `wait` or `done`."""
    rest = iter(answers)
    for line in lines:
        said = []
        for answer in rest:
            word = answer.partition(" ")[0]
            if word in ("wait", "done"):
                break
            said.append(answer)
        else:
            return
        yield line, said
        if word == "done":
            return


def contents_of(lines, answers, calls, heard):
    """The contents of a conversation in order, each with whether it was said. `heard` has the numbers, from 1, of the lines in whose frames
    the station heard; None if it heard those by V.21 alone."""
    ear, mouth, hears = Ear(), Ear(), calls
    for number, (line, said) in enumerate(turns(lines, answers), 1):
        word, time, *rest = line.split(" ", 2)
        if word == "rx" and (hears if heard is None else number in heard):
            octets = v21_octets(rest[0]) if heard is None else frame_octets(rest[0])
            yield from ((False, content) for content in ear.contents(octets))
        hears |= word == "quiet" and int(time) >= FIRST_DIS
        for burst in said:
            if burst.startswith("tx "):
                yield from ((True, content) for content in mouth.contents(v21_octets(burst[3:])))


def figures_of(lines, answers, calls, heard=None):
    """The figures of a conversation, of which `heard` says what `contents_of` says of it; `left_out` is the name of the last frame heard, if it is no signal of the stations."""
    count = Count()
    for is_said, content in contents_of(lines, answers, calls, heard):
        (count.said if is_said else count.heard)(content)
    at = max([int(line.split(" ")[1]) for line, _ in turns(lines, answers)], default=0)
    figures = {name: getattr(count, name) for name in "blocks failed_checks left_out peer pprs resent retries".split()}
    first, last = (count.speeds[0], count.speeds[-1]) if count.speeds else (None, None)
    return figures | {"first_speed": first, "last_speed": last, "seconds": at // 1000}


def words_of(figures):
    """The figures as the line before that of the end."""
    words = "{seconds} s; blocks {blocks}, PPRs {pprs}, frames sent again {resent}, failed checks {failed_checks}, retries {retries}"
    words += "; {first_speed} to {last_speed}" if figures["first_speed"] else ""
    words += "; peer {peer}" if figures["peer"] else ""
    return words.format(**figures)


def record_of(figures, end, calls, pages, why):
    """The record of the end. `why` is that of the record of how the call stands, or None."""
    record = {name: value for name, value in figures.items() if name != "left_out"}
    record |= {"end": end, "confirmed" if calls else "pages": pages, "why": why}
    return json.dumps(record, sort_keys=True, separators=(",", ":"))


def left_out_of(figures, end):
    """Why a call ended so after a frame that isn't answered, if nothing else is known of why; else None."""
    name = None if end in KNOWN or figures["left_out"] in BESIDE else figures["left_out"]
    return f"{name}, which isn't answered" if name else None


def told_of(told, figures):
    """The lines that are told at the end, from those without the figures: why, if that is known, and the end, or a fault."""
    *why, end = told
    if not end.startswith("end "):
        return told
    left_out = left_out_of(figures, end.split(" ")[1])
    return [*(why or ([left_out] if left_out else [])), words_of(figures), end]
