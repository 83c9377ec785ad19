#!/usr/bin/env python3
"""Judges the logs of calls: a second reading of the rules of T.30, Annex A, that `faxtool judge` judges by, apart from its code.

    bench/judge.py [--all] LOG ..     prints of each frame that breaks a rule its number, its time, its station and the first such rule,
                                      or all of them

A log is as docs/BENCH.md says. Status 1: a frame breaks a rule, or a log can't be read; 2: wrong words. bench/judge_alike.py compares this
with the program. It needs Python's standard library alone.

The program looks back from each frame through what was said before it. This goes through the call once, and keeps what the rules ask for.
A set of frame numbers is an integer, whose bit n stands for the number n, as in the map of a PPR.

In three things the program judges otherwise than T.30, and so does this if it is asked to (`as_program`): it lets a DCS pass though no DIS
offers to receive with error correction; it reads no PPS with PRI; and the MCF of a page without error correction answers nothing for it."""

import re
import sys
from pathlib import Path

# Facsimile control fields (T.30, 5.3.6.1 and Annex A), the first bit sent being the lowest: those that are the same from both stations, and
# those whose first bit, X, tells the station and is 0 here.
FIXED = {0x80: "DIS", 0x06: "FCD", 0x86: "RCP"}
WITH_X = {0x82: "DCS", 0x84: "CFR", 0x44: "FTT", 0xBE: "PPS", 0xBC: "PPR", 0x8C: "MCF", 0xEC: "RNR", 0x6E: "RR", 0xFA: "DCN"}
# Those that no rule speaks of, but that what comes after them depends on: the last ones end pages without error correction.
ASIDE = {0xC4: "CTR", 0xCE: "EOR", 0x1C: "ERR", 0x4E: "MPS", 0x8E: "EOM", 0x2E: "EOP", 0x5E: "MPS", 0x9E: "EOM", 0x3E: "EOP"}
# How many octets the fields of a signal have at least.
LEAST = {"DIS": 3, "DCS": 3, "FCD": 2, "PPS": 4, "PPR": 32}
# The second octet of a PPS; with PRI an operator is asked for.
PAGE_ENDS = {0x00: "NULL", 0x4E: "MPS", 0x4F: "MPS", 0x8E: "EOM", 0x8F: "EOM", 0x2E: "EOP", 0x2F: "EOP"}
WITH_PRI = {0x5E: "MPS", 0x5F: "MPS", 0x9E: "EOM", 0x9F: "EOM", 0x3E: "EOP", 0x3F: "EOP"}
# Bits 11 to 14: of a DCS the modem and its bits a second; of a DIS the speeds that are offered, V.27 ter's lower one by any other bits.
SPEEDS = {"0000": "V.27 2400", "0100": "V.27 4800", "1000": "V.29 9600", "1100": "V.29 7200"}
SPEEDS |= {"0001": "V.17 14400", "0101": "V.17 12000", "1001": "V.17 9600", "1101": "V.17 7200"}
OFFERED = {"0100": "V.27", "1000": "V.29", "1100": "V.27 V.29", "1101": "V.27 V.29 V.17"}
# Bits 17 and 18: the width of a DCS, and the greatest one of a DIS, of which 11 stands for 01.
WIDTHS = {"00": 1728, "10": 2048, "01": 2432}
ALL = (1 << 256) - 1
LINE = re.compile(rb"([!-~]+) (caller|answerer) ((?:[0-9A-Fa-f]{2})+)")


def up_to(last):
    """The set of 0 to a number."""
    return (2 << last) - 1


# What a frame says.


def bit(fields, number):
    """A bit of a signal's fields, numbered from 1 in the order of sending. The fourth octet is there if bit 24 says so."""
    at, place = divmod(number - 1, 8)
    return at < len(fields) and fields[at] >> place & 1 == 1 and (number <= 24 or bit(fields, 24))


def bits(fields, first, last):
    return "".join(str(int(bit(fields, number))) for number in range(first, last + 1))


def is_known(fields):
    """Whether a DCS is for pages with error correction, in T.6 or one-dimensional T.4, at a known speed and of a known width."""
    is_two_dimensional = bit(fields, 16) and not bit(fields, 31)
    return bit(fields, 27) and not is_two_dimensional and bits(fields, 11, 14) in SPEEDS and bits(fields, 17, 18) in WIDTHS


class Frame:
    """A frame that a station said: the name of its signal, and what its fields say."""

    def __init__(self, by, name, fields, ends):
        self.by, self.name, self.fields = by, name, fields
        if name == "DCS" and not is_known(fields) or name == "PPS" and fields[0] not in ends:
            self.name = "other " + name
        elif name == "FCD":
            self.number, self.data = fields[0], fields[1:]
        elif name == "PPS":
            self.mark, self.last = (ends[fields[0]], fields[1], fields[2]), fields[3]
        elif name == "PPR":
            self.asks = int.from_bytes(fields[:32], "little")


def read(by, content, ends):
    """The frame of a content; None for a content that is no signal. `ends` are what a page can end with."""
    if len(content) < 3 or content[0] != 0xFF or content[1] not in (0x03, 0x13):
        return None
    control, fields = content[2], content[3:]
    name = FIXED.get(control) or (WITH_X | ASIDE).get(control & 0xFE, "other")
    return Frame(by, name, fields, ends) if len(fields) >= LEAST.get(name, 0) else None


# What was said before a frame.


class Block:
    """What was said of a block. `sent`, `may_have` and `has` are the frames that were sent, that may have come, being sent after they were
    known to be missing, and that the answerer has said to have come; `data` are the contents by their numbers. `reached` are the frames that
    a PPS of it counts, and `within` those that each counts, since callers differ in what they count after a resend."""

    def __init__(self):
        self.sent = self.may_have = self.has = self.within = self.reached = 0
        self.data, self.mark = {}, None

    def take(self, said):
        if said.name == "FCD":
            self.sent |= 1 << said.number
            self.may_have |= 1 << said.number
            self.data.setdefault(said.number, set()).add(said.data)
        elif said.name == "PPS":
            self.within = self.within & up_to(said.last) if self.reached else up_to(said.last)
            self.reached |= up_to(said.last)
            self.mark = said.mark
        elif said.name == "PPR":
            self.may_have = self.has = ALL & ~said.asks
        elif said.name == "MCF":
            self.may_have = self.has = ALL


class Call:
    """What was said so far. `command` is the caller's last frame but for DCN, `last` its last one, `rcps` how many RCPs that ends. `asked` is
    what the PPR asks for that the burst under way answers, None without one, and `left` what it hasn't sent of this. `block` is the block
    under way, and `coming` that of an FCD that would come now. `pps` is the last PPS, and `repeated` too, until a frame comes after it."""

    def __init__(self, as_program=False):
        self.as_program, self.ended, self.offers, self.is_small = as_program, set(), [], False
        self.command = self.last = self.pps = self.repeated = self.asked = None
        self.rcps = self.left = 0
        self.may_begin = self.is_busy = False
        self.block = self.coming = Block()

    def hear(self, said):
        self.hear_caller(said)
        self.hear_burst(said)
        self.hear_block(said)
        if said.name == "DCN":
            self.ended.add(said.by)
        elif said.name == "DIS":
            self.offers.append(said.fields)
        elif said.name == "DCS":
            self.is_small = bit(said.fields, 28)

    def hear_caller(self, said):
        if said.by == "caller":
            self.rcps = self.rcps + 1 if said.name == "RCP" else 0
            self.last = said
            self.command = self.command if said.name == "DCN" else said.name

    def hear_burst(self, said):
        """A burst begins by an answer. What isn't read may come between, as CTC and CTR do, and a DIS that the caller doesn't hear."""
        if said.name in ("CFR", "PPR", "MCF", "CTR", "ERR"):
            self.may_begin = True
        elif said.by == "caller":
            self.may_begin = False
        if said.name == "PPR":
            self.asked = self.left = said.asks
        elif said.name == "FCD":
            self.left &= ~(1 << said.number)
        elif said.name in ("DCS", "CFR", "FTT", "PPS", "MCF", "RNR", "RR", "DCN", "ERR"):
            self.asked, self.left = None, 0

    def hear_block(self, said):
        """A block ends by MCF or ERR, and so do what was said of it; but until the next one's first frame either may be said again."""
        if said.name == "CFR":
            self.block = self.coming = Block()
        elif said.name == "FCD":
            self.block = self.coming
        for block in {self.block, self.coming}:
            block.take(said)
        if said.name in ("MCF", "ERR"):
            self.coming = Block()
        if said.name == "PPS":
            self.pps = self.repeated = said
        elif said.name in ("FCD", "CFR"):
            self.repeated = None
        if said.name == "RNR":
            self.is_busy = True
        elif said.name in ("PPS", "FCD", "CFR"):
            self.is_busy = False

    @property
    def is_in_burst(self):
        return self.last is not None and self.last.name in ("FCD", "RCP")

    @property
    def goes_on(self):
        return self.last is not None and self.last.name == "FCD"


# The rules, in the order in which they are tried: the name of each, the signals that it speaks of, and whether such a frame breaks it.
RULES = []


def rule(name, *signals):
    def add(breaks):
        RULES.append((name, signals, breaks))
        return breaks

    return add


@rule("wrong-side", "DIS", "CFR", "FTT", "MCF", "PPR", "RNR", "ERR", "CTR", "DCS", "FCD", "RCP", "PPS", "RR")
def is_of_other_station(said, call):
    """An ERR or a CTR of an answerer is let pass, and one of a caller is the answerer's."""
    return (said.by == "caller") != (said.name in ("DCS", "FCD", "RCP", "PPS", "RR"))


@rule("ended")
def is_after_dcn(said, call):
    return said.by in call.ended


@rule("not-offered", "DCS")
def is_not_offered(said, call):
    """Which DIS was heard isn't known, so any will do."""
    return not any(offers(dis, said.fields) and (call.as_program or receives(dis)) for dis in call.offers)


@rule("not-trained", "CFR", "FTT")
def answers_no_training(said, call):
    return call.command not in ("DCS", "other DCS")


@rule("no-burst", "FCD")
def begins_unasked(said, call):
    return not call.goes_on and not call.may_begin


@rule("bad-length", "FCD")
def has_bad_length(said, call):
    return not 1 <= len(said.data) <= (64 if call.is_small else 256)


@rule("out-of-order", "FCD")
def is_out_of_order(said, call):
    return call.goes_on and said.number <= call.last.number


@rule("not-asked-for", "FCD")
def is_not_asked_for(said, call):
    return call.asked is not None and not call.asked >> said.number & 1


@rule("new-data", "FCD")
def has_new_data(said, call):
    return bool(call.coming.data.get(said.number, {said.data}) - {said.data})


@rule("rcp-count", "RCP", "PPS")
def miscounts_rcps(said, call):
    if said.name == "RCP":
        return not call.is_in_burst or call.rcps >= 3
    return call.is_in_burst and call.rcps != 3


@rule("uncounted", "PPS")
def counts_unsent(said, call):
    return up_to(said.last) & ~call.block.sent != 0


@rule("wrong-count", "PPS")
def leaves_out_sent(said, call):
    return call.block.sent & ~up_to(said.last) != 0


@rule("not-sent-again", "PPS")
def leaves_out_asked(said, call):
    return call.is_in_burst and call.left & up_to(said.last) != 0


@rule("not-repeated", "PPS")
def differs_from_repeated(said, call):
    """The PPSs of a block have the same mark, and without a frame in between the same last frame."""
    return call.block.mark not in (None, said.mark) or call.repeated is not None and call.repeated.last != said.last


@rule("wrong-counts", "PPS")
def counts_otherwise(said, call):
    """The first PPS of a block: after NULL the block is one more, else the page is, or after EOM it may begin anew."""
    if call.block.reached:
        return False
    if call.pps is None:
        return said.mark[1:] != (0, 0)
    ends, page, block = call.pps.mark
    if ends == "NULL":
        return said.mark[1:] != (page, (block + 1) % 256)
    return said.mark[1:] not in [((page + 1) % 256, 0), (0, 0)][: 2 if ends == "EOM" else 1]


@rule("no-command", "MCF", "PPR", "RNR")
def answers_no_command(said, call):
    ends_page = said.name == "MCF" and call.command in ("MPS", "EOM", "EOP") and not call.as_program
    return call.command not in ("PPS", "RR", "EOR") and not ends_page


@rule("not-whole", "MCF")
def confirms_missing(said, call):
    return call.block.within & ~call.block.may_have != 0


@rule("not-come", "PPR")
def asks_too_little(said, call):
    return call.block.within & ~said.asks & ~call.block.may_have != 0


@rule("asks-again", "PPR")
def asks_for_what_came(said, call):
    return call.block.within & said.asks & call.block.has != 0


@rule("asks-nothing", "PPR")
def asks_for_nothing(said, call):
    return call.block.reached != 0 and call.block.reached & said.asks == 0


@rule("bad-map", "PPR")
def has_bad_map(said, call):
    return call.block.reached != 0 and ALL & ~call.block.reached & ~said.asks != 0


@rule("not-busy", "RR")
def asks_who_is_not_busy(said, call):
    return not call.is_busy


def offers(dis, dcs):
    """Whether a DIS offers the speed, the lines, the width and the code that a DCS asks for."""
    modem = SPEEDS[bits(dcs, 11, 14)].split()[0]
    modems = OFFERED.get(bits(dis, 11, 14))
    has_speed = modem in modems.split() if modems else bits(dcs, 11, 14) == "0000"
    widest = WIDTHS["01" if bit(dis, 18) else bits(dis, 17, 18)]
    return has_speed and WIDTHS[bits(dcs, 17, 18)] <= widest and all(bit(dis, number) for number in (15, 31) if bit(dcs, number))


def receives(dis):
    """Whether a DIS offers to receive pages, with error correction."""
    return bit(dis, 10) and bit(dis, 27)


def judge(contents, as_program=False):
    """Of each frame, a station and a content, the names of the rules that it breaks, in order; None where the content is no signal."""
    call, ends = Call(as_program), PAGE_ENDS if as_program else PAGE_ENDS | WITH_PRI
    for by, content in contents:
        said = read(by, content, ends)
        if said is None:
            yield None
            continue
        yield [name for name, signals, breaks in RULES if (not signals or said.name in signals) and breaks(said, call)]
        call.hear(said)


# Logs.


def frames_of(text):
    """The time, the station and the content of each line of a log that has a frame; ValueError with the number of a line that is none."""
    for number, line in enumerate(text.split(b"\n"), 1):
        if not line or line.startswith(b"#"):
            continue
        parts = LINE.fullmatch(line)
        if not parts:
            raise ValueError(f"line {number} is none of a log")
        yield parts[1].decode(), parts[2].decode(), bytes.fromhex(parts[3].decode())


def judge_file(name, shows_all):
    """Prints the frames of a log that break a rule; returns how many do."""
    frames = list(frames_of(Path(name).read_bytes()))
    verdicts = list(judge([frame[1:] for frame in frames]))
    for number, (frame, broken) in enumerate(zip(frames, verdicts), 1):
        if broken:
            print(number, *frame[:2], *(broken if shows_all else broken[:1]))
    count = sum(bool(broken) for broken in verdicts)
    print(f"{name}: {count} of {len(frames)} frames break a rule, {verdicts.count(None)} are no signal")
    return count


def main(words):
    shows_all = words[:1] == ["--all"]
    names = words[shows_all:]
    if not names or any(name.startswith("-") for name in names):
        print(__doc__, file=sys.stderr)
        return 2
    try:
        return int(sum([judge_file(name, shows_all) for name in names]) > 0)
    except (OSError, ValueError) as why:
        print(f"judge.py: {why}", file=sys.stderr)
        return 1


if __name__ == "__main__":
    sys.exit(main(sys.argv[1:]))
