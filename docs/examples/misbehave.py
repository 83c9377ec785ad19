#!/usr/bin/env python3
"""Plays a call in which one station misbehaves by a script, to test the other one, and logs every frame.

    misbehave.py [--test caller|answerer] [--command COMMAND] [--script FILE] [--do LINE] .. [--seed N] [--log FILE] [--most SECONDS]
        [--faxtool PROGRAM] IN.pbm DIR
    misbehave.py --words

The station under test is run by COMMAND, `faxtool station --call --hear` if it isn't said; IN.pbm or `--out DIR` is put after it. It reads and writes
the lines of docs/STATION.md. The other one is `faxtool station --frames --hear`, and what it says and hears is changed on its way. The
line and its clock are those of join.py. A call that lasts longer than so many seconds, 1,800 if not said, is ended.

A line of the script is a word, or a word and a number: `--words` lists them. It holds from the call's begin, or after so many frames that a
line `after N` names. Of the lines that can change a frame the first one does. FILE and the LINEs are one script.

The log has a line for each good frame that is said, `T caller HEX` or `T answerer HEX`: when it ends, in milliseconds, and its content.
Lines that begin with # tell the options, what was changed, and how the station under test ended. The same seed gives the same call.

Prints the last line of the station under test, and its exit status. The exit status is 0 if it ended, by itself, and 1 otherwise."""

import argparse
import contextlib
import shlex
import sys
from collections import namedtuple

from hdlc import FLAG, bits_of, content, frame, gaps, octets_of
from join import Line, Side, Station

# Signals by their third octet, as the answerer says it; of all but the first three the least significant bit says who speaks.
NAMES = {0x80: "DIS", 0x06: "FCD", 0x86: "RCP", 0x82: "DCS", 0x84: "CFR", 0x44: "FTT", 0xBE: "PPS", 0xBC: "PPR", 0x8C: "MCF", 0xEC: "RNR"}
NAMES |= {0x6E: "RR", 0xFA: "DCN", 0x40: "CSI", 0x42: "TSI", 0x20: "NSF", 0x22: "NSS", 0x12: "CTC", 0xC4: "CTR", 0xCE: "EOR", 0x1C: "ERR"}
OCTETS = {name: octet for octet, name in NAMES.items()}
REPLIES = ("MCF", "PPR", "RNR")
# Fourth octets of a PPS: what ends with its block.
NULL, MPS, EOP, EOM = 0x00, 0x4F, 0x2F, 0x8F
# How long a carrier lasts that doesn't end, and how late a late burst is, in milliseconds.
ENDLESS, LATE = 60000, 2500

# A burst: frames are pairs of a content and whether it is good; of a training check the octets are known. `octets` is what came, if nothing
# was changed. It lasts so many flags longer.
Burst = namedtuple("Burst", "carrier kind frames bits octets flags")


def name_of(said):
    """The name of a frame's signal, or its third octet."""
    octet = said[2] if len(said) > 2 else 0
    return NAMES.get(octet) or NAMES.get(octet & 0xFE) or f"{octet:02X}"


def signal(name, *fields, caller=False):
    """The content of a signal that ends a transmission."""
    return bytes([0xFF, 0x13, OCTETS[name] | caller, *fields])


def put(said, place, octet):
    """A content with another octet at a place."""
    return said[:place] + bytes([octet & 0xFF]) + said[place + 1 :]


def with_bit(said, number, is_set):
    """A DIS or DCS with a bit as it is numbered in T.30, table 2."""
    place, mask = 3 + (number - 1) // 8, 1 << (number - 1) % 8
    return put(said, place, said[place] | mask if is_set else said[place] & ~mask)


def with_speed(said, bits):
    """A DCS with bits 11 to 14."""
    for number, bit in zip(range(11, 15), bits):
        said = with_bit(said, number, bit == "1")
    return said


def replaces(names, made, words):
    """What a word with a count does to that many frames: the signals that it is for, the contents in place of one, and the word's line of help."""
    return names, lambda said: [made(said)], words


COUNTED = {
    "ppr-all": replaces(REPLIES, lambda said: signal("PPR", *[0xFF] * 32), "N replies to a block are a PPR for all frames"),
    "ppr-none": replaces(REPLIES, lambda said: signal("PPR", *[0] * 32), "N replies to a block are a PPR of 256 bits 0"),
    "rnr": replaces(("MCF", "PPR"), lambda said: signal("RNR"), "N replies to a block are RNR"),
    "mcf": replaces(("PPR", "RNR"), lambda said: signal("MCF"), "N replies PPR or RNR are MCF, though the block lacks a frame"),
    "rtn": replaces(("MCF",), lambda said: bytes([0xFF, 0x13, 0x4C]), "N MCFs are RTN, which error correction hasn't"),
    "err": replaces(("MCF",), lambda said: signal("ERR"), "N MCFs are ERR, though no EOR was said"),
    "ftt": replaces(("CFR",), lambda said: signal("FTT"), "N CFRs are FTT"),
    "dis": replaces(("CFR",) + REPLIES, lambda said: bytes.fromhex("FF1380002EF844"), "N replies are a DIS"),
    "no-ecm": replaces(("DIS",), lambda said: with_bit(said, 27, False), "N DISs are without error correction"),
    "no-receiver": replaces(("DIS",), lambda said: with_bit(said, 10, False), "N DISs are of a station that can't receive"),
    "short-dis": replaces(("DIS",), lambda said: said[:5], "N DISs have two octets of capabilities"),
    "long-dis": replaces(("DIS",), lambda said: put(said, 6, said[6] | 0x80) + b"\x80" * 15 + b"\0", "N DISs go on for 16 octets"),
    "dcs-no-ecm": replaces(("DCS",), lambda said: with_bit(said, 27, False), "N DCSs are without error correction"),
    "dcs-speed": replaces(("DCS",), lambda said: with_speed(said, "0111"), "N DCSs name a speed that T.30 hasn't"),
    "dcs-width": replaces(("DCS",), lambda said: with_bit(with_bit(said, 17, True), 18, True), "N DCSs name a width that T.30 hasn't"),
    "wrong-page": replaces(("PPS",), lambda said: put(said, 4, said[4] + 1), "N PPSs have a page number that is one too high"),
    "wrong-block": replaces(("PPS",), lambda said: put(said, 5, said[5] + 1), "N PPSs have a block number that is one too high"),
    "wrong-last": replaces(("PPS",), lambda said: put(said, 6, said[6] + 1), "N PPSs count a frame that was never sent"),
    "one-less": replaces(("PPS",), lambda said: put(said, 6, said[6] - 1), "N PPSs don't count the last frame"),
    "wrong-end": replaces(("PPS",), lambda said: put(said, 3, EOP if said[3] == MPS else MPS), "N PPSs have MPS for EOP, or EOP for MPS"),
    "null": replaces(("PPS",), lambda said: put(said, 3, NULL), "N PPSs have NULL, though a page ends"),
    "eom": replaces(("PPS",), lambda said: put(said, 3, EOM), "N PPSs have EOM"),
    "rr": replaces(("PPS",), lambda said: signal("RR", caller=True), "RR comes in place of N PPSs"),
    "ctc": replaces(("PPS",), lambda said: signal("CTC", 0, 0x08, caller=True), "CTC comes in place of N PPSs"),
    "eor": replaces(("PPS",), lambda said: signal("EOR", said[3], caller=True), "EOR comes in place of N PPSs"),
    "short-fcd": replaces(("FCD",), lambda said: said[: 4 + (len(said) - 4) // 2], "N FCDs have half of their data"),
    "long-fcd": replaces(("FCD",), lambda said: said + b"\0", "N FCDs have an octet of data too many"),
    "empty-fcd": replaces(("FCD",), lambda said: said[:4], "N FCDs have no data"),
    "tsi": (("DCS",), lambda said: [bytes([0xFF, 0x03, OCTETS["TSI"] | 1]) + b"1" * 20, said], "N DCSs come after a TSI"),
}
COUNTED |= {f"no-{name.lower()}": ((name,), lambda said: [], f"N {name}s aren't said") for name in
            ("DIS", "CFR", "FTT", "MCF", "PPR", "RNR", "DCS", "FCD", "RCP", "PPS", "RR", "DCN")}

# What a word with a place does to the Nth frame that is said or heard: the contents in place of it, each with whether it is good.
PLACED = {
    "lose-said": (lambda said: [], "the Nth frame said is lost"),
    "spoil-said": (lambda said: [(said, False)], "the Nth frame said has a wrong check sequence"),
    "repeat-said": (lambda said: [(said, True)] * 2, "the Nth frame said is said twice, in one burst"),
    "dcn": (lambda said: [(signal("DCN", caller=said[2] & 1), True)], "the Nth frame said is DCN"),
    "unknown": (lambda said: [(put(said[:3], 2, 0x9A | said[2] & 1), True)], "the Nth frame said is of a signal that T.30 hasn't"),
    "other-side": (lambda said: [(put(said, 2, said[2] ^ 1), True)], "the Nth frame said has the bit X of the other side"),
    "address": (lambda said: [(put(said, 0, 0xC0), True)], "the Nth frame said has another address than FF"),
    "control": (lambda said: [(put(said, 1, said[1] ^ 0x10), True)], "the Nth frame said has the other control field, 03 for 13"),
    "cut": (lambda said: [(said[:2], True)], "the Nth frame said has two octets alone"),
    "lose-heard": (lambda said: [], "the Nth frame heard is lost"),
    "spoil-heard": (lambda said: [(said, False)], "the Nth frame heard has a wrong check sequence"),
}
# Words of other kinds.
OTHERS = {
    "after": "the lines below hold once N frames are said",
    "nsf": "each DIS comes after an NSF of N octets, 4 to 300",
    "some-lost": "of all frames N percent are lost, by chance",
    "some-spoiled": "of all frames N percent have a wrong check sequence, by chance",
    "any": "of all frames said N percent are changed by some word, by chance",
    "ppr-beyond": "N replies to a block are a PPR for numbers beyond it alone",
    "no-check": "N training checks aren't sent",
    "spoil-check": "N training checks are 1 bits",
    "reversed": "N bursts have their frames in reversed order",
    "endless": "the carrier of the Nth burst said goes on for 60 s",
    "late": "the Nth burst said begins 2.5 s late, if nothing is heard before",
}
WORDS = {word: words for word, (*_, words) in (COUNTED | PLACED).items()} | OTHERS


class Rule:
    """A line of the script: `left` is how often its word still acts, or which frame or burst it is for; it holds after so many frames said."""

    def __init__(self, word, number, after):
        self.word, self.number, self.left, self.after = word, number, number, after

    def __str__(self):
        return f"{self.word} {self.number}"

    def once(self):
        """Counts a case that the rule is for; whether it still acts."""
        self.left -= 1
        return self.left >= 0

    def is_at(self, place):
        """The rule is for the frame or burst of this place, counted from where it holds."""
        return place - self.after == self.number


def rules_of(lines):
    """The rules of a script. A line that is none ends the program."""
    rules, after = [], 0
    for count, line in enumerate(lines, 1):
        word, _space, number = line.partition(" ")
        if not line or line.startswith("#"):
            continue
        if word not in WORDS or (number and not (number.isascii() and number.isdigit() and 1 <= int(number) <= 1000000)):
            sys.exit(f"misbehave.py: line {count} of the script is none: {line!r}; --words lists the words")
        number = int(number or 1)
        if word == "after":
            after = number
        else:
            rules.append(Rule(word, number, after))
    return rules


class Tampered(Line):
    """A line on which one side's frames are changed by rules. Sides are the caller and the answerer; `ours` is the side that misbehaves."""

    def __init__(self, sides, ours, rules, seed, log, most):
        super().__init__(sides, seed=seed)
        self.ours, self.rules, self.log, self.most = ours, rules, log, most * 1000
        # how many frames were said and heard, and bursts said; how many frames the last PPS heard counts; the burst that is late
        self.said = self.heard = self.bursts = self.frames = 0
        self.late = None
        # our station has confirmed the block that the other one sends again: the frames of it aren't for it
        self.is_confirmed = False

    def play(self):
        """Plays the call to its end, or until it lasts too long: then the line drops."""
        super().play()
        for side in self.sides:
            if side.station.runs:
                side.station.tell(f"end {self.clock}")

    def is_over(self):
        return self.clock >= self.most

    def carry(self, sender, receiver):
        """Carries a burst to the other side, changed."""
        is_ours, is_late = sender is self.ours, sender.bursts[0] is self.late
        self.bursts += is_ours and not is_late
        if is_ours and not is_late and self.holding("late", self.bursts):
            self.late, sender.free = sender.bursts[0], self.clock + LATE
            self.tell(f"the burst comes {LATE} ms late")
            return
        sender.began, start = self.clock, self.clock
        said = burst = read_burst(sender.bursts.pop(0))
        burst = (self.check if burst.kind == "raw" else self.change)(burst, is_ours)
        if is_ours and burst.frames and self.holding("endless", self.bursts):
            self.tell("the carrier goes on")
            burst = burst._replace(flags=ENDLESS * speed(burst) // 8000, octets=None)
        bits, ends = bits_of_burst(burst)
        if is_ours:
            self.log_frames(sender, start, burst, ends)
        else:
            # the other station has said what isn't heard, too
            self.log_frames(sender, start, said, bits_of_burst(said)[1])
        self.clock += len(bits) * 1000 // speed(burst)
        if burst.frames or burst.kind == "raw" and bits:
            receiver.lines += [(start, f"busy {start}"), (self.clock, f"rx {self.clock} {written(burst, bits, receiver is self.ours)}")]
        self.clock += 75
        # who has said all hears the silence before the answer: T5 ends at such a line, though answers follow each other
        if not sender.bursts:
            sender.lines.append((self.clock, f"quiet {self.clock}"))

    def log_frames(self, sender, start, burst, ends):
        """Logs the good frames of a burst that begins at a time."""
        for (said, is_good), end in zip(burst.frames, ends):
            if is_good:
                self.log(f"{start + end * 1000 // speed(burst)} {sender.station.name} {said.hex().upper()}")

    def tell(self, text):
        self.log(f"# {self.clock} {text}")

    def holding(self, word, place):
        """A rule of this word is for this place. Bursts are counted from the call's begin."""
        return any(rule.word == word and rule.number == place for rule in self.rules)

    def check(self, burst, is_ours):
        """A training check, with what the rules make of it."""
        for rule in self.rules if is_ours else []:
            if rule.word in ("no-check", "spoil-check") and self.said >= rule.after and rule.once():
                self.tell(f"TRAINING: {rule}")
                octets = b"" if rule.word == "no-check" else b"\xff" * len(burst.octets)
                return burst._replace(octets=octets, bits=8 * len(octets))
        return burst

    def change(self, burst, is_ours):
        """A burst of frames, with what the rules make of each."""
        frames = []
        for said, is_good in burst.frames:
            frames += self.changed(said, is_ours) if is_good else [(said, False)]
        for rule in self.rules if is_ours and len(frames) > 1 else []:
            if rule.word == "reversed" and self.said >= rule.after and rule.once():
                self.tell(f"frames in reversed order: {rule}")
                frames.reverse()
        return burst if frames == burst.frames else burst._replace(frames=frames, octets=None)

    def changed(self, said, is_ours):
        """What comes in place of a good frame, by the first rule that is for it."""
        name = name_of(said)
        self.said, self.heard = self.said + is_ours, self.heard + (not is_ours)
        if not is_ours and name == "PPS":
            self.frames = said[6] + 1
        if not is_ours and name == "FCD" and self.is_confirmed:
            return []
        found = self.first(said, name, is_ours)
        if is_ours and name == "MCF":
            self.is_confirmed = [name_of(one) for one, _is_good in found] == ["PPR"]
        return found

    def first(self, said, name, is_ours):
        """What the first rule that is for a frame makes of it."""
        for rule in self.rules:
            # what was said before this frame
            if self.said - is_ours >= rule.after and (found := self.by(rule, said, is_ours)) is not None:
                self.tell(f"{name} {'said' if is_ours else 'heard'}: {rule}")
                return found
        return [(said, True)]

    def by(self, rule, said, is_ours):
        """What a rule makes of a frame, None if it isn't for it."""
        word, name = rule.word, name_of(said)
        if word in COUNTED and is_ours:
            names, made, _words = COUNTED[word]
            return [(one, True) for one in made(said)] if name in names and rule.once() else None
        if word in PLACED and is_ours != word.endswith("-heard"):
            return PLACED[word][0](said) if rule.is_at(self.said if is_ours else self.heard + rule.after) else None
        if word == "nsf" and is_ours and name == "DIS":
            return [(bytes([0xFF, 0x03, OCTETS["NSF"]]).ljust(max(4, min(rule.number, 300)), b"\x55"), True), (said, True)]
        if word == "ppr-beyond" and is_ours and name in REPLIES and rule.once():
            return [(signal("PPR", *octets_of("0" * self.frames + "1" * (256 - self.frames))), True)]
        if word in ("some-lost", "some-spoiled") and self.chance.random() * 100 < rule.number:
            return [] if word == "some-lost" else [(said, False)]
        if word == "any" and is_ours and self.chance.random() * 100 < rule.number:
            return self.by(Rule(self.any_word(name), 1, self.said - 1), said, is_ours)
        return None

    def any_word(self, name):
        """A word that is for a frame of this name, by chance."""
        return self.chance.choice([word for word, (names, *_) in COUNTED.items() if name in names] + [
            word for word in PLACED if not word.endswith("-heard")])


def speed(burst):
    """The bits a second of its carrier."""
    return 300 if burst.carrier == "v21" else int(burst.carrier.split("-")[1])


def read_burst(text):
    """What a station says after `tx`."""
    carrier, kind, rest = text.split(" ", 2)
    if kind == "frames":
        return Burst(carrier, "hdlc", [(bytes.fromhex(digits), True) for digits in rest.split()], 0, None, 0)
    bits, octets = int(rest.split(" ")[0]), bytes.fromhex(rest.split(" ")[1])
    if kind == "raw":
        return Burst(carrier, kind, [], bits, octets, 0)
    line = bits_of(octets)[:bits]
    found = [content(line[begin:end]) for begin, end in gaps(line) if end - begin >= 8]
    return Burst(carrier, kind, [(said or b"", said is not None) for said in found], bits, octets, 0)


def bits_of_burst(burst):
    """A burst's bits, and where each frame ends in them. One that wasn't changed has those that came; docs/STATION.md says how one begins."""
    if burst.octets is not None:
        bits = bits_of(burst.octets)[: burst.bits]
        return bits, [end + 8 for begin, end in gaps(bits) if end - begin >= 8] if burst.kind == "hdlc" else []
    bits, ends = FLAG * (37 if burst.carrier == "v21" else speed(burst) // 40), []
    for said, is_good in burst.frames:
        bits += frame(said, is_good)
        ends.append(len(bits))
    return bits + FLAG * (2 + burst.flags), ends


def written(burst, bits, by_frames):
    """What a station is told after `rx T`; ours hears V.21 as frames, as a modem gives them."""
    good = [said.hex().upper() for said, is_good in burst.frames if is_good and len(said) > 2]
    if by_frames and burst.carrier == "v21" and good:
        return " ".join([burst.carrier, "frames", *good])
    return f"{burst.carrier} {burst.kind} {len(bits)} {octets_of(bits).hex().upper()}"


def call(asked, lines, log):
    """Plays a call, and returns the last line of the station under test and its exit status."""
    options = {"caller": ["--call"], "answerer": ["--answer"]}
    words = {"caller": [asked.document], "answerer": ["--out", asked.pages]}
    sides = []
    for name in options:
        command = [asked.faxtool, "station", *options[name], "--frames", "--hear"]
        if name == asked.test:
            command = shlex.split(asked.command) if asked.command else [*command[:-2], "--hear"]
        sides.append(Side(Station(name, command + words[name])))
    tested = sides[asked.test == "answerer"]
    log(f"# misbehave.py --test {asked.test} --seed {asked.seed}: {'; '.join(lines)}")
    Tampered(sides, sides[asked.test == "caller"], rules_of(lines), asked.seed, log, asked.most).play()
    ends = [side.station.end() for side in sides]
    said, status = ends.pop(sides.index(tested))
    # what the other one did without ours says nothing of it
    if not ends[0][0] or not ends[0][0][-1].startswith("end "):
        sys.exit(f"misbehave.py: the station that misbehaves failed: {'; '.join(ends[0][0]) or 'nothing said'}")
    log(f"# {asked.test}: {said[-1] if said else 'nothing said'}, status {status}")
    return said[-1] if said else "nothing said", status


def main():
    parser = argparse.ArgumentParser(description=__doc__, formatter_class=argparse.RawDescriptionHelpFormatter)
    parser.add_argument("--test", choices=("caller", "answerer"), default="caller")
    parser.add_argument("--command")
    parser.add_argument("--script")
    parser.add_argument("--do", action="append", default=[])
    parser.add_argument("--seed", type=int, default=1)
    parser.add_argument("--log")
    parser.add_argument("--most", type=int, default=1800)
    parser.add_argument("--faxtool", default="faxtool")
    parser.add_argument("--words", action="store_true")
    parser.add_argument("document", metavar="IN.pbm", nargs="?")
    parser.add_argument("pages", metavar="DIR", nargs="?")
    asked = parser.parse_args()
    if asked.words:
        print("\n".join(f"{word:12} {words}" for word, words in WORDS.items()))
        return 0
    if asked.pages is None:
        parser.error("IN.pbm and DIR are needed")
    lines = asked.do
    if asked.script:
        with open(asked.script, encoding="utf-8") as file:
            lines = file.read().splitlines() + lines
    rules_of(lines)
    with open(asked.log, "w", encoding="utf-8") if asked.log else contextlib.nullcontext(sys.stdout) as log:
        end, status = call(asked, lines, lambda text: print(text, file=log))
        if asked.log:
            print(f"{asked.test}: {end}, status {status}")
    return 0 if status in (0, 1) else 1


if __name__ == "__main__":
    sys.exit(main())
