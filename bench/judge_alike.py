#!/usr/bin/env python3
"""Judges random logs by `faxtool judge` and by bench/judge.py, and compares what they say of each frame:

    bench/judge_alike.py [--logs N] [--seed S]     so many logs, 1000 if not said

The program is crates/faxtool/out/faxtool, or the one that FAXTOOL names. Of 24 logs two are calls of its two stations over a line that
loses, as they are, and ten are such a call changed in one place: a frame left out, said twice, moved, said by the other station, another
frame said instead or before, an octet changed, or octets left out or added at a frame's end. Nine are calls of stations that err, and three
are frames at random. Of each frame both have to name the same rule as the first that it breaks, or none, and as many frames have to be no
signal. At the first log that differs its file stays in the folder that is printed, and the status is 1. Otherwise it prints how many frames
broke each rule. It needs Python's standard library alone."""

import argparse
import json
import os
import random
import shutil
import subprocess
import sys
import tempfile
from collections import Counter
from pathlib import Path

sys.dont_write_bytecode = True
BENCH = Path(__file__).resolve().parent
sys.path[:0] = [str(BENCH), str(BENCH / "fuzz"), str(BENCH.parent / "docs" / "examples")]
from call2log import BURST_ENDS, frames_of  # noqa: E402
from fuzz_calls import PROGRAM, random_image, random_options  # noqa: E402
from judge import ALL, RULES, judge  # noqa: E402

LOGS_OF_A_CALL = 12
SIDES = ["caller", "answerer"]
DIS, DCS, SMALL_DCS = (bytes.fromhex(text) for text in ["ff1380006efa44", "ff13830022f844", "ff13830022f84c"])
CFR, MCF, RNR, ERR, CTR = (bytes([0xFF, 0x13, control]) for control in (0x84, 0x8C, 0xEC, 0x1C, 0xC4))
RR, DCN, CTC, EOR, RCP = (bytes.fromhex(text) for text in ["ff136f", "ff13fb", "ff1313", "ff13cf2f", "ff0386"])
# Contents that may stand anywhere: the signals above, others, also such as the program judges otherwise than T.30, and no signals.
PLAIN = [DIS, DCS, SMALL_DCS, CFR, MCF, RNR, ERR, CTR, RR, DCN, CTC, EOR, RCP] + [bytes.fromhex(text) for text in """ff1344 ff0340
    ff1383000e00 ff138300a0f84c ff1380004efac4 ff138000eefac4 ff13800000c0 ff1380006ef240 ff132f ff13bf3f000000 ff13bfff000000
    ff03060a ff13bc ff fe138c""".split()]  # fmt: skip


def fcd(number, octets):
    return bytes([0xFF, 0x03, 0x06, number]) + octets


def pps(ends, page, block, last):
    return bytes([0xFF, 0x13, 0xBF, ends, page % 256, block % 256, last])


def ppr(asks):
    return bytes([0xFF, 0x13, 0xBC]) + asks.to_bytes(32, "little")


# Calls of the program's two stations.


def random_call(rand, folder):
    """What is said in a call of one to three pages over a line that loses."""
    page = os.path.join(folder, "page.pbm")
    Path(page).write_bytes(b"".join(random_image(rand) for _ in range(rand.randint(1, 3))))
    words = ["--lose", rand.choice(["2%", "5%", "10%", "20%"]), "--seed", str(rand.randrange(2**32)), *random_options(rand)]
    words += ["--spoil", "10%"] * (rand.random() < 0.3) + ["--busy", "30%"] * (rand.random() < 0.3)
    _status, frames = frames_of(PROGRAM, [*words, page])
    return [(by, bytes.fromhex(content)) for _line, by, content in frames]


# Changed calls, and frames at random.


def octet_changed(rand, content):
    """A content of which one octet is another: mostly one of the first ones, and mostly by a bit."""
    at = rand.randrange(2, min(len(content), rand.choice([3, 8, 8, 40]))) if len(content) > 2 else 0
    octet = content[at] ^ 1 << rand.randrange(8) if rand.random() < 0.7 else rand.randrange(256)
    return content[:at] + bytes([octet]) + content[at + 1 :]


def random_content(rand, contents):
    """A content at random: one of those that were said, a plain one, or one whose fields are drawn."""
    pick = rand.random()
    if contents and pick < 0.3:
        return rand.choice(contents)
    if pick < 0.6:
        return rand.choice(PLAIN)
    if pick < 0.75:
        return fcd(rand.randrange(5), rand.choice([b"\0", b"\1", bytes(64), bytes(65), bytes(257)]))
    if pick < 0.9:
        return pps(rand.choice([0x00, 0x4F, 0x8F, 0x2F, 0x2E]), rand.choice([0, 0, 1, 255]), rand.choice([0, 0, 0, 1, 255]), rand.randrange(5))
    return ppr(rand.choice([0, ALL]) & ~255 | rand.choice([0xE0, 0xE1, 0xFF, 0xFE, 0xF8, 0, rand.randrange(256)]))


def changed(rand, frames):
    """The log with a change in one place."""
    at = rand.randrange(len(frames))
    by, content = frames[at]
    before, after = frames[:at], frames[at + 1 :]
    way = rand.choice("leave twice move side other put octet octet octet cut long".split())
    if way == "move":
        rest, at = before + after, rand.randrange(len(frames))
        return rest[:at] + [(by, content)] + rest[at:]
    instead = {
        "leave": [],
        "twice": 2 * [(by, content)],
        "side": [(SIDES[by == "caller"], content)],
        "other": [(by, random_content(rand, [other for _by, other in frames]))],
        "put": [(rand.choice(SIDES), random_content(rand, [other for _by, other in frames])), (by, content)],
        "octet": [(by, octet_changed(rand, content))],
        "cut": [(by, content[: rand.randrange(1, len(content) + 1)])],
        "long": [(by, content + bytes(rand.choice([1, 60, 300])))],
    }
    return before + instead[way] + after


def at_random(rand):
    """Frames at random; mostly each is said by the station whose it is."""
    frames = [("answerer", DIS), ("caller", DCS), ("answerer", CFR)] * (rand.random() < 0.7)
    for _ in range(rand.randint(1, 60)):
        content = random_content(rand, [other for _by, other in frames])
        is_callers = content[2:3] and content[2] & 0xFE in (0x82, 0x06, 0x86, 0xBE, 0x6E, 0xCE)
        by = "caller" if is_callers else "answerer"
        if rand.random() < 0.1:
            by = rand.choice(SIDES)
        frames.append((by, content))
    return frames


# Calls of stations that err.


class Erring:
    """A call of two stations that make a mistake now and then, and of which each does what the other one's last frame lets it do."""

    def __init__(self, rand):
        self.rand, self.frames, self.rate = rand, [], rand.choice([0, 0.01, 0.03, 0.1])

    def errs(self):
        return self.rand.random() < self.rate

    def one_of(self, right, *wrong):
        return self.rand.choice(wrong) if self.errs() else right

    def calls(self, *contents):
        self.frames += [("caller", content) for content in contents]

    def answers(self, *contents):
        self.frames += [("answerer", content) for content in contents]

    def begins(self):
        self.answers(DIS)
        self.calls(self.one_of(DCS, SMALL_DCS, RR))
        self.answers(self.one_of(CFR, MCF, bytes([0xFF, 0x13, 0x44])))

    def bursts(self, numbers, data):
        """A burst of frames with these numbers."""
        numbers = sorted(numbers)
        if self.errs():
            self.rand.shuffle(numbers)
        if self.errs():
            numbers.insert(self.rand.randrange(len(numbers) + 1), self.rand.randrange(6))
        numbers = numbers[self.one_of(0, 1) :]
        self.calls(*[fcd(number, self.one_of(data[number], b"", b"\2", bytes(257))) for number in numbers])
        self.calls(*[RCP] * self.one_of(3, 0, 2, 4))

    def waits(self, *again):
        """What may be said between a PPS and its answer: the PPS again, and RNR and RR."""
        for _ in range(self.rand.choice([0, 0, 0, 1, 2])):
            self.calls(*[self.one_of(content, DCN, RR) for content in again])
        for _ in range(self.one_of(self.rand.choice([0, 0, 0, 1, 2]), 3)):
            self.answers(*[RNR] * self.one_of(1, 0, 2))
            self.calls(RR)

    def says_block(self, ends, page, block):
        """A block, until it is confirmed or given up."""
        rand = self.rand
        last = rand.randint(0, 4)
        data = [rand.choice([b"\0", b"\1", bytes(64), bytes(65)]) for _ in range(6)]
        missing = set(range(last + 1))
        for tries in range(6):
            self.bursts(missing, data)
            counted = self.one_of(last, last + 1, max(missing))
            counts = self.one_of(page, page + 1, 0), self.one_of(block, block + 1, 0)
            end = pps(self.one_of(ends, 0x00, 0x4F, 0x8F, 0x2F, 0x5F), *counts, counted)
            self.calls(end)
            self.waits(end if not self.errs() else pps(ends, *counts, self.one_of(counted, 0, 7)))
            missing = {number for number in missing if rand.random() < 0.3}
            if not missing or tries == 5 and self.errs():
                break
            asks = ALL & ~((2 << last) - 1) | sum(1 << number for number in missing)
            self.answers(ppr(self.one_of(asks, asks ^ 1 << rand.randrange(6), asks ^ 1 << rand.randrange(256), asks & ~31)))
            if rand.random() < 0.1:
                self.calls(EOR)
                self.answers(self.one_of(ERR, RNR, MCF))
                return
            if rand.random() < 0.1:
                self.calls(CTC)
                self.answers(self.one_of(CTR, RNR))
        for _ in range(rand.choice([1, 1, 1, 2])):
            self.answers(MCF)
            self.calls(*[end] * (rand.random() < 0.1))

    def call(self):
        """The frames of a call of a few blocks."""
        page = block = self.rand.choice([0, 0, 0, 254])
        self.begins()
        for ends in self.rand.choices([0x00, 0x4F, 0x8F], k=self.rand.randint(0, 4)) + [0x2F]:
            self.says_block(ends, page, block)
            page, block = (page, (block + 1) % 256) if ends == 0x00 else ((page + 1) % 256, 0)
            if ends == 0x8F:
                page = self.rand.choice([page, page, 0])
                self.begins()
        self.calls(DCN)
        return self.frames


def logs_of(rand, count, folder):
    """So many logs."""
    call = []
    for made in range(count):
        if made % LOGS_OF_A_CALL == 0:
            call = random_call(rand, folder)
            yield call
        elif made % 8 == 7:
            yield at_random(rand)
        elif made % 2:
            yield Erring(rand).call()
        else:
            yield changed(rand, call)


# Both judges.


def by_program(path):
    """The first rule that each frame breaks, by its number, as the program says, and how many are no signal."""
    ran = subprocess.run([PROGRAM, "judge", "--json", path], capture_output=True, text=True, timeout=120)
    if ran.stderr:
        return {}, ran.stderr
    *found, counts = map(json.loads, ran.stdout.splitlines())
    rules = {record["frame"]: record["rule"] for record in found}
    readings = sum(record["reading"] for record in found)
    if (counts["broken"], counts["readings"], ran.returncode) != (len(rules) - readings, readings, int(len(rules) > readings)):
        return {}, f"status {ran.returncode}, and it counts otherwise than it names: {counts}"
    return rules, counts["unread"]


def by_reading(frames, as_program):
    """The same, as bench/judge.py says."""
    verdicts = list(judge(frames, as_program))
    return {number: broken[0] for number, broken in enumerate(verdicts, 1) if broken}, verdicts.count(None)


def compare(frames, path):
    """The rules that frames of a log break, if both say the same; else what each says of the first frame that they differ in."""
    Path(path).write_text("".join(f"{number} {by} {content.hex()}\n" for number, (by, content) in enumerate(frames, 1)))
    (told, unread), (read, unread_too) = by_program(path), by_reading(frames, True)
    for number in sorted(told.keys() | read.keys()):
        if told.get(number) != read.get(number):
            return None, f"frame {number}: the program says {told.get(number, 'nothing')}, judge.py {read.get(number, 'nothing')}"
    if unread != unread_too:
        return None, f"frames that are no signal: the program says {unread}, judge.py {unread_too}"
    return told, ""


def main():
    parser = argparse.ArgumentParser()
    parser.add_argument("--logs", type=int, default=1000)
    parser.add_argument("--seed", type=int, default=86)
    given = parser.parse_args()
    rand, folder, rules = random.Random(given.seed), tempfile.mkdtemp(), Counter()
    path, frames, otherwise = os.path.join(folder, "log"), 0, 0
    for number, log in enumerate(logs_of(rand, given.logs, folder), 1):
        told, why = compare(log, path)
        if why:
            print(f"log {number}, {path}: {why}")
            return 1
        rules.update(told.values())
        frames += len(log)
        otherwise += told != by_reading(log, False)[0]
    shutil.rmtree(folder)
    print(f"{given.logs} logs, {frames} frames: " + ", ".join(f"{rules[name]} {name}" for name, _signals, _breaks in RULES))
    print(f"in {otherwise} logs the program judges otherwise than T.30, as bench/judge.py says")
    return 0


if __name__ == "__main__":
    sys.exit(main())
