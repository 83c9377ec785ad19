#!/usr/bin/env python3
"""Holds random conversations with `faxtool station`, and compares what it does with a second reading:

    bench/fuzz/fuzz_station.py --times N [--seed S]       so many conversations
    bench/fuzz/fuzz_station.py --seconds T [--seed S]     as many as there is time for
    bench/fuzz/fuzz_station.py --dry                      joins two stations of the reference, with no program

The program is crates/faxtool/out/faxtool, or the one that FAXTOOL names, as bench/fuzz/reference_station.py itself. A conversation is
one of three: two stations over a line that loses, spoils, cuts and delays bursts; an answerer that hears a stranger of fuzz_stream.py;
and a caller that hears random answers. Among them are a busy receiver, bursts that nobody asked for, stops, dropped lines and, seldom,
lines of no allowed form. The stations of reference_station.py hold it first; then the program is given the same lines. Each line out,
the lines on standard error, the status and the pages have to be the same; so have the figures of the call, which figures.py counts, in
words and, of one call in eight, in the record of its end. Where neither late answers nor others' bursts are among the
lines, the pages stored are also the first of the document. At the first that differs its files stay in the folder that is printed, and
the status is 1."""

import argparse
import json
import os
import random
import re
import shutil
import subprocess
import sys
import tempfile
import time
from collections import Counter
from pathlib import Path

sys.dont_write_bytecode = True
sys.path.insert(0, str(Path(__file__).resolve().parent))
from figures import NAMING, SIGNS, figures_of, record_of, told_of  # noqa: E402
from fuzz_calls import PROGRAM, Failed, need, random_image  # noqa: E402
from fuzz_stream import Stranger, bits_of, changed, octets_of  # noqa: E402
from reference_station import CARRIERS, RATES, arguments, end_of, frame, hdlc, serve  # noqa: E402

# How often a burst is lost, spoiled in some bits, cut short, late, cut at its front, by another carrier, or in two parts.
FATES = ["lost", "spoiled", "short", "late", "front", "elsewhere", "parts"]
MOODS = [
    [0] * 7,
    [0.02, 0.02, 0.02, 0.02, 0.01, 0.005, 0.01],
    [0.2, 0.05, 0, 0, 0, 0, 0],
    [0.02, 0.3, 0, 0, 0, 0, 0],
    [0, 0, 0.1, 0.2, 0.1, 0.02, 0.2],
]
# What is said once in so many bursts or quiet lines beside what is on the line.
ASIDES = {"not-ready": 60, "ready": 40, "busy": 80, "burst": 300}
ENDINGS = {"stop": 2000, "end": 2000, "wrong": 1500}
MOST_LINES = 4000
WRONG = ["", "quiet", "quiet {} ", "quiet -1", "hush {}", "rx {} v21 hdlc 8 0", "rx {} v21 hdlc 0", "rx {} v34 hdlc 8 00"]
WRONG += ["end", "quiet {}\r", "quiet {}\0", "quiet 0", "QUIET {}", "rx {} v21 hdlc 99999999 00", "rx {} v21 raw 9 00", "busy {} 1"]
WRONG += ["quiet 9999999999999999"]


class Spoken:
    """An end of the reference that is told lines: its words, the lines so far, and what it answered."""

    def __init__(self, words):
        self.words, self.lines, self.answers, self.pages, self.over = words, [], [], [], None
        self.end = end_of(arguments(words), self.pages.append)

    def tell(self, line):
        """The bursts that answer a line, without their `tx`."""
        if self.over:
            return []
        self.lines.append(line)
        before = len(self.answers)
        errors, status = serve(self.end, [line.encode("latin-1")], self.answers.extend)
        if len(self.answers) == before or self.answers[-1] == "done":
            self.over = (errors, status)
        return [answer[3:] for answer in self.answers[before:] if answer.startswith("tx ")]

    def result(self):
        """All that the program has to answer: its lines, those of standard error, the status and the pages."""
        errors, status = self.over or ([self.end.last_line()], 0 if self.end.is_done() else 1)
        told = told_of("\n".join(errors).split("\n"), self.figures())
        return "".join(line + "\n" for line in self.answers), "".join(line + "\n" for line in told), status, self.pages

    def figures(self):
        return figures_of(self.lines, self.answers, "--call" in self.words, self.end.heard_lines)


def random_waits(rand):
    """Options of waits that run otherwise than in T.30."""
    words = []
    values = {"--t1": [1, 500, 20000, 60000], "--t2": [1, 700, 5000], "--t4": [1, 100, 2550, 3450], "--t5": [1, 3000, 10000, 65000]}
    for wait, times in (("--t1", 25), ("--t2", 25), ("--t4", 25), ("--t5", 6)):
        words += [wait, str(rand.choice(values[wait]))] if rand.random() * times < 1 else []
    words += ["--most-seconds", str(rand.choice([1, 10, 30, 60, 120, 600]))] if rand.random() < 0.1 else []
    return words


def chosen(rand, options):
    """The words of some of the options, each with one of its values."""
    words = random_waits(rand)
    for name, values in options.items():
        words += [name, rand.choice(values)] if rand.random() < 0.4 else []
    return words


MODEM_NAMES = ["v17", "v17", "v27v29", "v29", "v27", "fallback"]


def answerer_words(rand, folder):
    words = chosen(rand, {"--code": ["mh", "mmr"], "--modems": MODEM_NAMES, "--limit": ["1", "1", "2", "3", "1000"]})
    words += ["--widest", rand.choice(["1728", "2048", "2432"])] if rand.random() < 0.1 else []
    words += rand.choice([[], [], ["--refuse"], ["--no-refuse"]])
    return ["--answer", "--out", folder] + words + ["--standard"] * (rand.random() < 0.1)


def caller_words(rand, document):
    words = chosen(rand, {"--code": ["mh", "mmr"], "--modems": MODEM_NAMES, "--frame": ["64", "256"]})
    return ["--call"] + words + ["--fine"] * (rand.random() < 0.3) + [document]


def written_document(rand, folder):
    """A file of one to four images, now and then of several blocks. Answers its name and the images."""
    images = [random_image(rand) for _ in range(rand.choice([1, 1, 2, 3, 4]))]
    if rand.random() < 0.05:
        width, height = rand.choice([1728, 2432]), rand.randint(40, 150)
        images.append(b"P4\n%d %d\n" % (width, height) + rand.randbytes(width // 8 * height))
    name = os.path.join(folder, "in.pbm")
    Path(name).write_bytes(b"".join(images))
    return name, images


def random_name(rand):
    """An information field of CSI or TSI: mostly 20 signs of a telephone, with spaces beside; one may be no sign, or all are spaces."""
    signs = "".join(rand.choice(SIGNS) for _ in range(rand.choice([1, 5, 12, 20]))) + "0"
    text = (" " * rand.choice([0, 2, 8]) + signs + " " * rand.choice([0, 3, 20]))[: rand.choice([20, 20, 20, 20, 19, 21])]
    octets = bytearray(text.rjust(20).encode()[::-1])
    if rand.random() < 0.3:
        octets[rand.randrange(len(octets))] = rand.randrange(256)
    return bytes(octets) if rand.random() < 0.9 else b" " * 20


def random_aside(rand, side):
    """A frame that the stations leave out: a name, or one of those that have none or say what isn't answered."""
    if rand.random() < 0.5:
        return frame(rand.choice(NAMING) & 0xFE, random_name(rand), is_last=rand.random() < 0.5, side=side)
    return frame(rand.choice([0x12, 0x20, 0x22, 0x2E, 0x4C, 0xC4, 0xCE, 0x10]), rand.randbytes(rand.choice([0, 1, 2])), side=side)


def random_burst(rand, station):
    """A burst that nobody asked for: any carrier, mostly the one that the last DCS named, with frames or any octets, or a length of 0."""
    carrier, kind = rand.choice(["v21", *CARRIERS.values()]), rand.choice(["hdlc", "hdlc", "raw"])
    if getattr(station, "params", None) and rand.random() < 0.6:
        carrier = CARRIERS[station.params.speed]
    bits = bits_of(rand.randbytes(rand.randint(0, 40)))[rand.randint(0, 7) :]
    if rand.random() < 0.5:
        names = [0x84, 0x44, 0x8C, 0xEC, 0x6E, 0xFA, 0x80, 0x82, 0xBE, 0xBC, 0x06]
        frames = [frame(rand.choice(names), rand.randbytes(rand.choice([0, 0, 4, 32]))) for _ in range(rand.randint(1, 3))]
        frames += [random_aside(rand, rand.randint(0, 1))] if rand.random() < 0.3 else []
        bits = hdlc("v21", frames)[2]
    return burst_of(carrier, kind, bits)


def burst_of(carrier, kind, bits):
    return f"{carrier} {kind} {len(bits)} {octets_of(bits).hex().upper()}"


def harmed(rand, burst, fate):
    """A burst after what a line does to it."""
    carrier, kind, count, octets = burst.split(" ")
    bits = bits_of(bytes.fromhex(octets))[: int(count)]
    place = rand.randrange(len(bits) + 1)
    if fate == "spoiled" and kind == "raw":
        bits = "1" * len(bits) if rand.random() < 0.7 else bits[:place] + "1" + bits[place + 1 :]
    elif fate == "spoiled":
        # from one wrong bit to some in each thousand
        octets = bytearray(octets_of(bits))
        for _ in range(rand.choice([1, 2, 1 + len(bits) // 10000, 1 + len(bits) // 1000])):
            octets = bytearray(changed(rand, bytes(octets)))
        bits = bits_of(octets)
    elif fate == "short":
        bits = bits[:place]
    elif fate == "front":
        bits = bits[rand.choice([place, 8, 37 * 8, 38 * 8, 1]) :]
    elif fate == "elsewhere":
        carrier, kind = rand.choice([(rand.choice(list(RATES)), kind), (carrier, rand.choice(["raw", "hdlc"]))])
    return burst_of(carrier, kind, bits)


def in_parts(rand, burst):
    """A burst as two, the first of whole octets."""
    carrier, kind, count, octets = burst.split(" ")
    place = rand.randint(0, int(count) // 8)
    return [f"{carrier} {kind} {8 * place} {octets[: 2 * place]}", f"{carrier} {kind} {int(count) - 8 * place} {octets[2 * place :]}"]


class Talk:
    """Ends that are told lines at a clock, and what is said beside the bursts of the line."""

    def __init__(self, rand, ends):
        self.rand, self.ends, self.clock = rand, ends, rand.choice([0, 0, 20, 1000, 590000])
        self.mood, self.step, self.told = rand.choice(MOODS), rand.choice([20, 20, 20, 100, 500, 1700]), 0
        self.asides = rand.choice([0, 1, 1, 1, 8])

    def is_over(self):
        return self.told > MOST_LINES or all(end.over for end in self.ends)

    def tell(self, end, word, rest=""):
        """What an end is told, after what is said beside it. Answers its bursts."""
        bursts = self.aside(end)
        self.told += 1
        return bursts + end.tell(f"{word} {self.clock}{rest}")

    def aside(self, end):
        rand = self.rand
        words = [word for word, times in ASIDES.items() if rand.random() * times < self.asides]
        words += [word for word, times in ENDINGS.items() if self.asides and rand.random() * times < 1]
        if not words:
            return []
        if words[0] == "burst":
            return end.tell(f"rx {self.clock} {random_burst(rand, end.end.station)}")
        if words[0] == "wrong":
            return end.tell(rand.choice(WRONG).format(self.clock))
        return end.tell(f"{words[0]} {self.clock}")

    def quiet(self, end):
        """Nothing is on the line; now and then for a long time in which nothing was said, where two waits may be over at once."""
        often = 0.05 if end.end.station.state in ("WaitTraining", "WaitReady") else 0.003
        if self.rand.random() < often:
            self.clock += self.rand.choice([2999, 7000, 29000, 35000, 36000])
        return self.tell(end, "quiet")

    def burst(self, end, burst):
        """A burst comes to an end, or what is left of it."""
        fate = self.rand.choices(FATES + ["well"], self.mood + [1 - sum(self.mood)])[0]
        carrier, _, bits, _ = burst.split(" ")
        length = int(bits) * 1000 // RATES[carrier]
        if fate == "lost":
            self.clock += length
            return []
        answers = []
        if fate == "late":
            for _ in range(self.rand.choice([1, 5, 50])):
                self.clock += self.rand.choice([20, 100])
                answers += self.quiet(end)
        answers += self.tell(end, "busy") if self.rand.random() < 0.95 else []
        self.clock += length
        if fate == "parts":
            parts = in_parts(self.rand, burst)
        else:
            parts = [burst if fate in ("well", "late") else harmed(self.rand, burst, fate)]
        for part in parts:
            answers += self.tell(end, "rx", " " + part)
        return answers


def join(rand, folder):
    """Two stations over a bad line. Answers both ends, and the images of the document where they must arrive."""
    name, images = written_document(rand, folder)
    caller, answerer = Spoken(caller_words(rand, name)), Spoken(answerer_words(rand, os.path.join(folder, "pages")))
    talk, to_send, most = Talk(rand, [caller, answerer]), [], rand.choice([10**9, 10**9, 10**9, rand.randint(1, 200)])
    while not talk.is_over() and talk.told < most:
        if not to_send:
            talk.clock += talk.step
            for end, other in ((caller, answerer), (answerer, caller)):
                to_send += [(other, burst) for burst in talk.quiet(end)]
            continue
        end, burst = to_send.pop(0)
        other = caller if end is answerer else answerer
        to_send += [(other, answer) for answer in talk.burst(end, burst)]
        talk.clock += 75
    # A page may be taken for confirmed by an answer that comes late, or that nobody gave.
    is_plain = not talk.asides and not talk.mood[FATES.index("late")] and not any("--t" in word for word in caller.words + answerer.words)
    return [caller, answerer], images if is_plain else None


def hear_stranger(rand, folder):
    """An answerer that hears a stranger: its feeds by V.21, or by the carrier that the last DCS named."""
    answerer = Spoken(answerer_words(rand, os.path.join(folder, "pages")))
    talk = Talk(rand, [answerer])
    talk.mood = MOODS[0]
    if rand.random() < 0.2:
        talk.burst(answerer, burst_of(*hdlc("v21", [random_aside(rand, 1)])))
    for at in (900, 1000):
        talk.clock = max(talk.clock, at)
        talk.quiet(answerer)
    for kind, data in Stranger(rand).stream():
        if rand.random() < 0.1:
            talk.burst(answerer, burst_of(*hdlc("v21", [random_aside(rand, 1)])))
        params = answerer.end.station.params
        named = CARRIERS[params.speed] if params and rand.random() < 0.98 else rand.choice(list(RATES))
        talk.clock += rand.choice([0, 20, 500])
        if kind == "LINE":
            # in one to three bursts, each by V.21, by the carrier named or by another
            places = sorted(rand.randint(0, len(data)) for _ in range(rand.choice([0, 0, 1, 2])))
            for first, last in zip([0, *places], [*places, len(data)]):
                carrier = rand.choices(["v21", named, rand.choice(list(RATES))], [6, 4, 1])[0]
                bits = bits_of(data[first:last])
                talk.burst(answerer, burst_of(carrier, "hdlc", bits[: -3 if rand.random() < 0.1 else None]))
        elif kind == "TRAINING":
            talk.burst(answerer, burst_of(named, "raw", bits_of(data)))
        elif kind == "BUSY":
            talk.tell(answerer, "not-ready" if data else "ready")
        else:
            for _ in range(rand.choice([2, 2, 2, 40]) if kind == "T2" else 2):
                talk.clock += 3000 if kind == "T2" else 17500
                talk.quiet(answerer)
    return [answerer], None


def random_answer(rand, busy):
    """A frame of an answerer, mostly one that a caller waits for. `busy` is how often it is an RNR."""
    receiver, ecm, fine, t6 = (int(rand.random() < share) for share in (0.98, 0.98, 0.95, 0.8))
    modems = rand.choice(["1101"] * 6 + ["1100", "1000", "0100", "0000", "0010"])
    width = rand.choice(["01"] * 12 + ["00", "10", "11"])
    offer = f"000000000{receiver}{modems}{fine}0{width}01111100{ecm}000{t6}0"
    fields = octets_of(offer)[: rand.choices([4, 3], [30, 1])[0]]
    marks = rand.choice([b"\xff" * 32, rand.randbytes(32), b"\xfe" + 31 * b"\xff", bytes(32), bytes(31)])
    data = {0x80: fields, 0xBC: marks, 0x20: rand.randbytes(20)}
    signal = rand.choices([0x80, 0x84, 0x44, 0x8C, 0xBC, 0xEC, 0xFA, 0x20, 0x6E], [12, 10, 3, 14, 4, busy, 0.3, 2, 0.5])[0]
    return frame(signal, data.get(signal, b""), is_last=rand.random() < 0.9, side=int(rand.random() < 0.05) if signal != 0x80 else 0)


def hear_answers(rand, folder):
    """A caller that hears random answers, mostly those that lead on; or many RNRs, with a short T5."""
    name, _ = written_document(rand, folder)
    busy, words = rand.choice([5, 40]), caller_words(rand, name)
    if busy == 40 and "--t5" not in words:
        words[1:1] = ["--t5", rand.choice(["5000", "10000", "20000"])]
    caller = Spoken(words)
    talk, wanted = Talk(rand, [caller]), {"WaitDis": 0x80, "WaitCfr": 0x84, "WaitBlock": 0x8C, "WaitReady": 0x8C}
    while not talk.is_over() and talk.told < 400:
        talk.clock += rand.choice([20, 100, 1000])
        if rand.random() < 0.4:
            talk.quiet(caller)
            continue
        frames = [random_answer(rand, busy) for _ in range(rand.choice([1, 1, 1, 2, 3]))]
        if rand.random() < 0.5:
            wish = wanted[caller.end.station.state]
            frames.append(frame(wish, octets_of("00000000011101100101111100100010") if wish == 0x80 else b""))
        if rand.random() < 0.15:
            frames.insert(rand.randint(0, len(frames)), random_aside(rand, 0))
        talk.burst(caller, burst_of(*hdlc("v21", frames)))
    return [caller], None


def run(program, spoken, folder, *more):
    """What the program answers to an end's lines, with more words."""
    pages = os.path.join(folder, "pages")
    shutil.rmtree(pages, ignore_errors=True)
    os.mkdir(pages)
    lines = "\n".join(spoken.lines) + ("\n" if spoken.lines else "")
    Path(folder, "lines").write_text(lines, encoding="latin-1", newline="")
    Path(folder, "words").write_text(" ".join(spoken.words) + "\n", encoding="ascii")
    with open(os.path.join(folder, "lines"), "rb") as file:
        ran = subprocess.run([program, "station", *spoken.words, *more], stdin=file, capture_output=True, timeout=120)
    names = sorted(os.listdir(pages), key=lambda name: (len(name), name))
    need(names == [f"page-{number + 1}.pbm" for number in range(len(names))], f"it left {names}")
    stored = [Path(pages, name).read_bytes() for name in names]
    # what happens during the call has a line with its time, and what an answerer lacks has one; the reference says how it ends
    lines = ran.stderr.decode("utf-8", "replace").splitlines(True)
    told = "".join(line for line in lines if not re.match("[0-9]+ (?!s; )|not compatible: ", line))
    return ran.stdout.decode("ascii", "replace"), told, ran.returncode, stored


def compare(ran, wanted):
    """Raises Failed where the program has answered something else."""
    for at, (line, other) in enumerate(zip(ran[0].split("\n"), wanted[0].split("\n"))):
        need(line == other, f"answer {at + 1} is {line[:200]!r}, the reference has {other[:200]!r}")
    need(ran[0] == wanted[0], f"it answered {ran[0].count(chr(10))} lines, the reference {wanted[0].count(chr(10))}")
    need(ran[1:3] == wanted[1:3], f"it ended with {ran[1:3]}, the reference with {wanted[1:3]}")
    need(ran[3] == wanted[3], "it stored other pages than the reference")


def compare_records(told, spoken):
    """Raises Failed where the last records of an end that isn't a fault have other figures, or another reason."""
    *why, last = spoken.result()[1].splitlines()
    if not last.startswith("end "):
        return
    _, name, counted, pages = last.split(" ")
    state, ended = told.splitlines()[-2:]
    found = json.loads(state).get("why")
    # what an answerer lacks isn't known here
    wanted = found if name == "not-compatible" else why[0].removeprefix("the call is refused: ") if len(why) > 1 else None
    record = record_of(spoken.figures(), name, counted == "confirmed", int(pages), wanted)
    need((found, ended) == (wanted, record), f"its last records are {state} and {ended}, and by the reference {record}")


def check_pages(ends, images):
    """Of two stations of the reference: the pages stored are the first of the document, the confirmed ones among them."""
    caller, answerer = ends
    stored, confirmed = answerer.pages, caller.end.station.confirmed()
    need(stored == images[: len(stored)], "the pages that arrived aren't the document's")
    need(confirmed <= len(stored) <= confirmed + 1, f"{confirmed} pages are confirmed and {len(stored)} stored")


def hold(rand, folder, program):
    """One conversation. Answers how its ends ended and how many pages were stored."""
    ends, images = rand.choices([join, hear_stranger, hear_answers], [6, 2, 2])[0](rand, folder)
    if images:
        check_pages(ends, images)
    for end in ends:
        if program:
            compare(run(program, end, folder), end.result())
        if program and len(end.lines) % 8 == 0:
            compare_records(run(program, end, folder, "--json")[1], end)
    lasts = [end.result()[1].splitlines()[-1] for end in ends]
    told = ["fault 31" if last.startswith("fault") else last.rpartition(" ")[0] for last in lasts]
    return told, sum(len(end.pages) for end in ends), sum(len(end.lines) for end in ends)


def fuzz(asked, program):
    seed = random.randrange(10**6) if asked.seed is None else asked.seed
    rand, until, held, ends = random.Random(seed), time.monotonic() + (asked.seconds or 10**9), 0, Counter()
    folder, pages, lines = tempfile.mkdtemp(prefix="fuzz-station-"), 0, 0
    while held < (asked.times or 10**9) and time.monotonic() < until:
        try:
            told, stored, said = hold(rand, folder, program)
        except (Failed, subprocess.TimeoutExpired) as why:
            print(f"FAILED in conversation {held + 1} of seed {seed}: {why}\nits files: {folder}")
            return 1
        ends.update(told)
        held, pages, lines = held + 1, pages + stored, lines + said
    shutil.rmtree(folder)
    print(f"{held} conversations of {lines} lines, all well; seed {seed}; {pages} pages stored")
    print(", ".join(f"{end} {count}" for end, count in sorted(ends.items())))
    return 0


def main():
    parser = argparse.ArgumentParser(description=__doc__, formatter_class=argparse.RawDescriptionHelpFormatter)
    for name in ("--times", "--seconds", "--seed"):
        parser.add_argument(name, type=int)
    parser.add_argument("--dry", action="store_true")
    asked = parser.parse_args()
    if not (asked.times or asked.seconds or asked.dry):
        parser.error("--times, --seconds or --dry is missing")
    if asked.dry:
        asked.times, asked.seed = asked.times or 100, asked.seed or 1
    return fuzz(asked, None if asked.dry else PROGRAM)


if __name__ == "__main__":
    sys.exit(main())
