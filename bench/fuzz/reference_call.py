#!/usr/bin/env python3
"""What a call's script must print: a plain reading of the tables of both stations and of the line, apart from the program.

    bench/fuzz/reference_call.py SCRIPT [--frame 64] [--speeds N] WIDTH:OCTETS..     prints it, for pages of so many octets of code
    bench/fuzz/reference_call.py --dry                                              tries it on calls worked by hand

N is how many speeds both stations have. A page is here its width and the number of octets of its code. An input and a turn are a
name with what belongs to it: `("FCD", number, octets)`, `("PPS", page end, mark, last frame)`, `("PPR", missing frames)`.
`Answerer` is also the answerer of bench/fuzz/fuzz_stream.py, which hears foreign peers."""

import sys

SILENT = ("-",)
MOST_OCTETS = 8388608
TO_CALLER, TO_ANSWERER = "to-caller", "to-answerer"


def blocks_of(pages, size):
    """The blocks of all pages: their page and place, how they end, and how many frames they have."""
    blocks = []
    for page, (width, octets) in enumerate(pages):
        frames = -(-octets // size)
        for place in range(-(-frames // 256)):
            if 256 * (place + 1) < frames:
                ends = "NULL"
            elif page + 1 == len(pages):
                ends = "EOP"
            else:
                ends = "MPS" if pages[page + 1][0] == width else "EOM"
            blocks.append((page, place, ends, min(256, frames - 256 * place)))
    return blocks


class Station:
    """A station by its table: `on_` and an input's name answers that input's turn; an ended station is silent."""

    end = None

    def step(self, what, *data):
        answer = None if self.end else getattr(self, "on_" + what.lower(), None)
        return answer(*data) if answer else SILENT


class Caller(Station):
    def __init__(self, pages, size, speeds):
        self.pages, self.size, self.speeds = pages, size, speeds
        self.blocks = blocks_of(pages, size)
        self.state, self.place = "WaitDis", 0
        self.tries = self.rounds = self.speed = 0

    def give_up(self, end):
        self.end = end
        return ("DCN",)

    def wait(self, state, turn):
        self.state, self.tries = state, 1
        return turn

    def on_dis(self):
        if self.state == "WaitDis":
            self.speed = 0
            return self.wait("WaitCfr", ("DCS",))
        return self.on_timeout() if self.state == "WaitCfr" else SILENT

    def on_ftt(self):
        if self.state != "WaitCfr":
            return SILENT
        self.speed += 1
        return self.wait("WaitCfr", ("DCS",)) if self.speed < self.speeds else self.give_up("training")

    def on_timeout(self):
        if self.state == "WaitDis":
            return self.give_up("no-answer")
        if self.tries == 3:
            return self.give_up("no-reply")
        self.tries += 1
        return {"WaitCfr": ("DCS",), "WaitBlock": ("PPS",), "WaitReady": ("RR",)}[self.state]

    def on_t5(self):
        return self.give_up("still-busy") if self.state == "WaitReady" else SILENT

    def first_burst(self):
        self.rounds = 0
        return self.wait("WaitBlock", ("BURST", set(range(256))))

    def on_cfr(self):
        return self.first_burst() if self.state == "WaitCfr" else SILENT

    def on_mcf(self):
        if self.state not in ("WaitBlock", "WaitReady"):
            return SILENT
        self.place += 1
        if self.place == len(self.blocks):
            return self.give_up("normal")
        if self.blocks[self.place - 1][2] == "EOM":
            self.state = "WaitDis"
            return SILENT
        return self.first_burst()

    def on_ppr(self, missing):
        if self.state not in ("WaitBlock", "WaitReady"):
            return SILENT
        if self.rounds == 3:
            return self.give_up("unreadable")
        self.rounds += 1
        return self.wait("WaitBlock", ("BURST", missing))

    def on_rnr(self):
        return self.wait("WaitReady", ("RR",)) if self.state in ("WaitBlock", "WaitReady") else SILENT

    def on_dcn(self):
        self.end = "peer-left"
        return SILENT

    def confirmed(self):
        return sum(ends != "NULL" for _, _, ends, _ in self.blocks[: self.place])

    def items(self, turn):
        """What a turn sends."""
        if turn[0] == "DCS":
            return [("DCS", self.size), ("TRAINING", True)]
        if turn[0] not in ("BURST", "PPS"):
            return [turn]
        page, place, ends, frames = self.blocks[self.place]
        pps = ("PPS", ends, (page % 256, place % 256), frames - 1)
        if turn[0] == "PPS":
            return [pps]
        return [("FCD", n, bytes(self.size)) for n in range(frames) if n in turn[1]] + 3 * [("RCP",)] + [pps]


class Answerer(Station):
    """`reads(params, octets)` is whether octets are a page's code, for what the DCS agreed; `size_of(params)` its octets a frame."""

    def __init__(self, reads=lambda params, octets: True, size_of=lambda params: params):
        self.reads, self.size_of = reads, size_of
        self.state, self.busy, self.params = "PhaseB", False, None
        self.accepted = self.ends = self.asked = None
        self.frames, self.octets, self.pages = {}, bytearray(), []

    def items(self, turn):
        return [turn]

    def ready(self):
        return ("RNR",) if self.busy else ("MCF",)

    def on_t1(self):
        self.end = "no-answer"
        return SILENT

    def on_t2(self):
        if self.state == "Message":
            return SILENT
        self.state = "PhaseB"
        return ("DIS",)

    def on_busy(self, is_busy):
        self.busy = is_busy
        return SILENT

    def on_dcn(self):
        self.end = "normal" if self.ends == "EOP" else "peer-left"
        return SILENT

    def on_dcs(self, params):
        self.state, self.params = "WaitTraining", params
        self.frames, self.asked = {}, None
        return SILENT

    def on_training(self, is_good):
        if self.state != "WaitTraining":
            return SILENT
        self.state = "Message" if is_good else "PhaseB"
        return ("CFR",) if is_good else ("FTT",)

    def on_fcd(self, number, octets):
        if self.state == "Message" and len(octets) <= self.size_of(self.params):
            self.frames[number] = octets
        return SILENT

    def on_rr(self):
        return self.ready() if self.accepted and not self.frames else SILENT

    def on_pps(self, ends, mark, last):
        if mark == self.accepted:
            return self.ready()
        if self.state != "Message":
            return SILENT
        if self.asked and self.asked[0] == mark:
            last = max(last, self.asked[1])
        if any(n not in self.frames for n in range(last + 1)):
            self.asked = (mark, last)
            return ("PPR", {n for n in range(256) if n > last or n not in self.frames})
        return self.accept(ends, mark, b"".join(self.frames[n] for n in range(last + 1)))

    def accept(self, ends, mark, octets):
        """A whole block has come: its page is read at its end, and a page that can't be read ends the call."""
        all_octets = len(self.octets) + len(octets)
        if all_octets > MOST_OCTETS or (ends != "NULL" and not self.reads(self.params, bytes(self.octets + octets))):
            self.end = "bad-page"
            return ("DCN",)
        self.octets += octets
        if ends != "NULL":
            self.pages.append((self.params, bytes(self.octets)))
            self.octets = bytearray()
        self.frames, self.asked, self.accepted, self.ends = {}, None, mark, ends
        if ends == "EOM":
            self.state = "PhaseB"
        return self.ready()


class Line:
    """Both stations, what is under way to each, and an entry for each event."""

    def __init__(self, pages, size, speeds):
        self.caller, self.answerer = Caller(pages, size, speeds), Answerer()
        self.under_way = {TO_CALLER: [("DIS",)], TO_ANSWERER: []}
        self.entries = []

    def give(self, station, *given):
        """The station's turn, which drops what still comes towards it and is then under way to the other."""
        turn = station.step(*given)
        if turn != SILENT:
            towards, away = (TO_CALLER, TO_ANSWERER) if station is self.caller else (TO_ANSWERER, TO_CALLER)
            self.under_way[towards].clear()
            self.under_way[away] += station.items(turn)
        return turn

    def act(self, word):
        """The item that an event delivers or loses, if any, and the turn that it leads to."""
        place = word.removeprefix("lose-")
        if place in self.under_way:
            if not self.under_way[place]:
                return None, SILENT
            item = self.under_way[place].pop(0)
            if word != place:
                return item, SILENT
            return item, self.give(self.caller if word == TO_CALLER else self.answerer, *item)
        if word == "spoil":
            if self.under_way[TO_ANSWERER][:1] == [("TRAINING", True)]:
                self.under_way[TO_ANSWERER][0] = ("TRAINING", False)
            return None, SILENT
        if word in ("busy", "ready"):
            return None, self.give(self.answerer, "BUSY", word == "busy")
        who, _, timer = word.partition("-")
        return None, self.give(self.caller if who == "caller" else self.answerer, timer)

    def event(self, word):
        item, turn = self.act(word)
        shown = "-" if item is None else f"FCD:{item[1]}" if item[0] == "FCD" else item[0]
        said = turn[0]
        if said == "BURST":
            frames = self.caller.blocks[self.caller.place][3]
            said += f":{sum(n < frames for n in turn[1])}"
        self.entries.append(f"{len(self.entries) + 1} {word} {shown} {said}")

    def is_between_groups(self):
        caller, answerer = self.caller, self.answerer
        waits = caller.state == "WaitDis" and caller.place > 0 and answerer.state == "PhaseB"
        return waits and not caller.end and not answerer.end

    def polite(self, most):
        for _ in range(most):
            if not any(self.under_way.values()):
                if not self.is_between_groups():
                    return
                self.event("answerer-t2")
            self.event(TO_ANSWERER if self.under_way[TO_ANSWERER] else TO_CALLER)

    def ends(self):
        caller, answerer = self.caller, self.answerer
        return [
            f"caller {caller.end or 'running'} confirmed {caller.confirmed()}",
            f"answerer {answerer.end or 'running'} pages {len(answerer.pages)}",
        ]


def play(line, script):
    """The lines that a script prints of a call on a line."""
    for text in script.split("\n"):
        word, _, count = text.partition(" ")
        if word == "polite":
            line.polite(int(count))
        elif text and not text.startswith("#"):
            for _ in range(int(count or "1")):
                line.event(word)
    return line.entries + line.ends()


def transcript(script, pages, size, speeds):
    """The lines that a script prints. Pages are pairs of a width and the number of octets of the code."""
    return play(Line(pages, size, speeds), script)


ONE, TWO = [(1728, 4)], [(1728, 4), (2048, 4)]
# A script, its pages, the number of the first entry that is compared, and these entries and the ends.
WORKED = [
    (
        "polite 8\ncaller-timeout\nto-answerer\nto-answerer\nto-caller\nto-answerer\n",
        ONE,
        9,
        """caller-timeout - PPS
to-answerer PPS MCF
to-answerer - -
to-caller MCF DCN
to-answerer DCN -
caller normal confirmed 1
answerer normal pages 1""",
    ),
    (
        "polite 9\n" + 3 * "lose-to-caller\ncaller-timeout\nto-answerer\n",
        ONE,
        17,
        """caller-timeout - DCN
to-answerer DCN -
caller no-reply confirmed 0
answerer normal pages 1""",
    ),
    (
        "polite 2\nspoil\nto-answerer\nto-caller",
        ONE,
        4,
        """to-answerer TRAINING FTT
to-caller FTT DCS
caller running confirmed 0
answerer running pages 0""",
    ),
    (
        "polite 21",
        TWO,
        10,
        """to-caller MCF -
answerer-t2 - DIS
to-caller DIS DCS
to-answerer DCS -
to-answerer TRAINING CFR
to-caller CFR BURST:1
to-answerer FCD:0 -
to-answerer RCP -
to-answerer RCP -
to-answerer RCP -
to-answerer PPS MCF
to-caller MCF DCN
to-answerer DCN -
caller normal confirmed 2
answerer normal pages 2""",
    ),
]


def dry():
    for script, pages, first, text in WORKED:
        lines = text.split("\n")
        numbered = [f"{first + at} {line}" for at, line in enumerate(lines[:-2])] + lines[-2:]
        printed = transcript(script, pages, 256, 4)
        if printed[first - 1 :] != numbered:
            print(f"{script!r} prints from entry {first}: {printed[first - 1:]}")
            return 1
    deliveries = len(transcript("polite 100000", [(2432, 4194788)], 64, 4)) - 2
    if deliveries != 66834:
        print(f"a call of 257 blocks has {deliveries} deliveries")
        return 1
    print(f"{len(WORKED) + 1} worked calls are printed")
    return 0


def main():
    words = sys.argv[1:]
    if words == ["--dry"]:
        return dry()
    options = {"--frame": "256", "--speeds": "6"}
    while len(words) > 2 and words[1] in options:
        options[words[1]] = words[2]
        del words[1:3]
    if len(words) < 2:
        print(__doc__, file=sys.stderr)
        return 2
    with open(words[0], encoding="utf-8") as file:
        script = file.read()
    pages = [tuple(int(number) for number in page.split(":")) for page in words[1:]]
    print("\n".join(transcript(script, pages, int(options["--frame"]), int(options["--speeds"]))))
    return 0


if __name__ == "__main__":
    sys.exit(main())
