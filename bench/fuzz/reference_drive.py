#!/usr/bin/env python3
"""What a call over a bad line must print: the reading of reference_call.py, driven by fates that a generator draws.

    bench/fuzz/reference_drive.py --lose 5% [--spoil 1/20] [--busy 10%] --seed N [--calls K] [--number C] [--frame 64] [--speeds N]
        WIDTH:OCTETS..
    bench/fuzz/reference_drive.py --dry        tries it on calls worked by hand and on the generator's published words

The generator is PCG-XSH-RR of 64 bits of state and 32 bits a word (M. O'Neill, pcg32), written here from its definition; its state
begins with the seed, its stream is the number of the call. What is first under way comes, is lost or is spoiled; where nothing is
under way a wait is over: the answerer's T2 while the caller waits for a DIS and at most K were sent in this wait, else the caller's
wait for an answer, and the answerer's T1 once the caller has ended. Where the answerer may be busy, a PPS or an RR that is first under way
to it takes a word before its own: below the share the answerer is set busy, else ready. Of the RNRs for a block 20 may come; the next one
is lost, and the caller's T5 is over. A page is here its width and the octets of its code."""

import sys
from fractions import Fraction
from pathlib import Path

sys.path.insert(0, str(Path(__file__).resolve().parent))
from reference_call import TO_ANSWERER, TO_CALLER, Line  # noqa: E402

WORD = 1 << 32
RNRS = 20


class Pcg32:
    """pcg32: a linear congruential generator of 64 bits, whose high bits are shifted and turned."""

    def __init__(self, seed, stream):
        self.step = (stream << 1 | 1) % 2**64
        self.state = (self.step + seed) % 2**64
        self.advance()

    def advance(self):
        self.state = (self.state * 6364136223846793005 + self.step) % 2**64

    def word(self):
        state = self.state
        self.advance()
        folded = ((state >> 18 ^ state) >> 27) % WORD
        turns = state >> 59
        return (folded >> turns | folded << (32 - turns)) % WORD


def rate_of(text):
    """A rate as 5% or 1/20."""
    if text.endswith("%"):
        return Fraction(int(text[:-1]), 100)
    above, below = text.split("/")
    return Fraction(int(above), int(below))


class Drawn:
    """What a generator draws: fates, and whether the answerer is busy."""

    def __init__(self, generator, lose, spoil, busy=0):
        self.generator, self.lost, self.busy = generator, int(lose * WORD), int(busy * WORD)
        self.spoiled = self.lost + int(spoil * WORD)

    def fate(self):
        word = self.generator.word()
        return "lost" if word < self.lost else "spoiled" if word < self.spoiled else "comes"

    def setting(self):
        """Whether the answerer is set busy or ready; none where it never is."""
        return ("busy" if self.generator.word() < self.busy else "ready") if self.busy else None


class Listed:
    """Fates as a text has them, c, l and s, and then all comes; and settings as another one has them, b and r, and then none."""

    def __init__(self, fates, settings=""):
        self.fates, self.settings, self.busy = iter(fates), iter(settings), bool(settings)

    def fate(self):
        return {"c": "comes", "l": "lost", "s": "spoiled"}[next(self.fates, "c")]

    def setting(self):
        return {"b": "busy", "r": "ready", "": None}[next(self.settings, "")]


def meet(line, towards, fate):
    """What is first under way in a direction meets its fate."""
    if fate == "comes":
        line.event(towards)
    elif fate == "spoiled" and line.under_way[towards][0][0] == "TRAINING":
        line.event("spoil")
        line.event(towards)
    else:
        line.event("lose-" + towards)


def drive(line, drawn, calls, busy):
    """Drives a call to its end; answers the number of steps."""
    caller, answerer = line.caller, line.answerer
    dis, rnrs, steps = 1, 0, 0
    while any(line.under_way.values()) or not caller.end or not answerer.end:
        steps += 1
        place, waits = caller.place, caller.state == "WaitDis"
        if line.under_way[TO_ANSWERER]:
            setting = drawn.setting() if line.under_way[TO_ANSWERER][0][0] in ("PPS", "RR") else None
            if setting:
                line.event(setting)
            meet(line, TO_ANSWERER, drawn.fate())
        elif line.under_way[TO_CALLER]:
            item = line.under_way[TO_CALLER][0][0]
            if item == "RNR" and rnrs >= busy:
                line.event("lose-" + TO_CALLER)
                line.event("caller-t5")
            else:
                fate = drawn.fate()
                rnrs += item == "RNR" and fate == "comes"
                meet(line, TO_CALLER, fate)
        elif caller.end:
            line.event("answerer-t1")
        elif waits and answerer.state == "PhaseB" and not answerer.end and dis < calls:
            dis += 1
            line.event("answerer-t2")
        else:
            line.event("caller-timeout")
        dis = dis if waits else 0
        rnrs = rnrs if caller.place == place else 0
    return steps


def transcript(pages, size, speeds, drawn, calls=3, busy=RNRS):
    """The lines that such a call prints."""
    line = Line(pages, size, speeds)
    drive(line, drawn, calls, busy)
    return line.entries + line.ends()


ONE = [(1728, 4)]
# Fates, the speeds that both stations have, and how the call ends: nothing lost; three DIS; a check spoiled where there is one speed; a PPS and
# twice its answer; one answer; the DCN.
WORKED = [
    ("", 6, "caller normal confirmed 1", "answerer normal pages 1"),
    ("lll", 6, "caller no-answer confirmed 0", "answerer peer-left pages 0"),
    ("ccs", 1, "caller training confirmed 0", "answerer peer-left pages 0"),
    ("cccccccclclcl", 6, "caller no-reply confirmed 0", "answerer normal pages 1"),
    ("cccccccccl", 6, "caller normal confirmed 1", "answerer normal pages 1"),
    ("ccccccccccl", 6, "caller normal confirmed 1", "answerer no-answer pages 1"),
]
# Settings of the answerer at each PPS and RR, where two RNRs may come, and how the call ends: ready after two of them; still busy at the
# third, when the answerer has stored the page.
BUSY = [
    ("bbr", "caller normal confirmed 1", "answerer normal pages 1"),
    ("bbb", "caller still-busy confirmed 0", "answerer normal pages 1"),
]
# The first words of pcg32 with state 42 and stream 54, as its author's demonstration prints them.
PUBLISHED = [0xA15C02B7, 0x7B47F409, 0xBA1D3330, 0x83D2F293, 0xBFA4784B, 0xCBED606E]


def dry():
    generator = Pcg32(42, 54)
    if [generator.word() for _ in PUBLISHED] != PUBLISHED:
        print("the generator's words are not the published ones")
        return 1
    for settings, caller, answerer in BUSY:
        printed = transcript(ONE, 256, 6, Listed("", settings), busy=2)
        if printed[-2:] != [caller, answerer]:
            print(f"{settings!r} ends with {printed[-2:]}: {printed}")
            return 1
    for fates_text, speeds, caller, answerer in WORKED:
        printed = transcript(ONE, 256, speeds, Listed(fates_text))
        if printed[-2:] != [caller, answerer]:
            print(f"{fates_text!r} ends with {printed[-2:]}: {printed}")
            return 1
    print(f"{len(WORKED) + len(BUSY)} worked calls end as they should")
    return 0


def main():
    words = sys.argv[1:]
    if words == ["--dry"]:
        return dry()
    options = {"--lose": "0%", "--spoil": "0%", "--busy": "0%", "--seed": "0", "--calls": "3", "--number": "0", "--frame": "256", "--speeds": "6"}
    while len(words) > 2 and words[0] in options:
        options[words[0]] = words[1]
        del words[:2]
    if not words or words[0].startswith("-"):
        print(__doc__, file=sys.stderr)
        return 2
    pages = [tuple(int(number) for number in page.split(":")) for page in words]
    rates = [rate_of(options[name]) for name in ("--lose", "--spoil", "--busy")]
    drawn = Drawn(Pcg32(int(options["--seed"]), int(options["--number"])), *rates)
    lines = transcript(pages, int(options["--frame"]), int(options["--speeds"]), drawn, int(options["--calls"]))
    print("\n".join(lines))
    return 0


if __name__ == "__main__":
    sys.exit(main())
