#!/usr/bin/env python3
"""Joins a caller and an answerer of `faxtool station` by a simulated line, and prints what goes over it.

    join.py [--lose RATE] [--lose-frames RATE] [--slow MS] [--seed N] [--caller-command COMMAND] [--answerer-command COMMAND] IN.pbm DIR

RATE is the share of bursts that are lost, or of frames in those that come: 10%, 1/10 or 0.1. A lost frame comes as 1 bits. One station sends
at a time. The clock is simulated: a burst lasts as long as its bits take, 75 ms of silence come after it, and a quiet line says so every
20 ms, or when it is due if both stations say `wait T`. So a call of a minute takes a second. With --slow the
answerer takes up to that many milliseconds to store a page; a page that it hands over, with --hold, is kept after as many.

An answer is sent only if the other side hasn't begun to speak since the line that it answers. What is left of it is dropped before a newer
`busy` or `rx` is written.

The exit status is 0 if both stations end normally, and 1 if not. If one ends with a fault, a line on standard error says which one and
why. If one can't be started, or words are wrong, a line says so, with status 2."""

import argparse
import contextlib
import fractions
import os
import random
import shlex
import subprocess
import sys
import tempfile

from hdlc import bits_of, frame, gaps, octets_of

# How many flags a modem sends before and after frames that it is given by V.21.
FLAGS = 37 + 2


def rate(text):
    """A share: a percentage, a fraction or a decimal number, 0 to 1."""
    try:
        share = fractions.Fraction(text[:-1]) / 100 if text.endswith("%") else fractions.Fraction(text)
    except ZeroDivisionError:
        share = 2
    if not 0 <= share <= 1:
        raise ValueError(text)
    return float(share)


def number(text):
    """A number, 0 or more."""
    found = int(text)
    if found < 0:
        raise ValueError(text)
    return found


def command(text):
    """The words of a command, as a shell takes them."""
    words = shlex.split(text)
    if not words:
        raise ValueError(text)
    return words


class Words(argparse.ArgumentParser):
    """The words of a program, which names what is wrong with them in one line."""

    def error(self, message):
        self.exit(2, f"{self.prog}: error: {message}\n")


def without(burst, is_lost):
    """A burst without some of its frames, and how many were lost; a training check has none."""
    carrier, kind, *rest = burst.split(" ")
    if kind == "frames":
        kept = [digits for digits in rest if not is_lost()]
        return " ".join([carrier, kind, *kept]), len(rest) - len(kept)
    if kind != "hdlc":
        return burst, 0
    number, octets = rest
    bits, lost = bits_of(bytes.fromhex(octets)), 0
    for begin, end in gaps(bits[: int(number)]):
        if is_lost():
            bits, lost = bits[:begin] + "1" * (end - begin) + bits[end:], lost + 1
    return f"{carrier} {kind} {number} {octets_of(bits).hex()}", lost


def count_bits(burst):
    """How many bits a burst has on the line."""
    _carrier, kind, *rest = burst.split(" ")
    return 8 * FLAGS + sum(len(frame(bytes.fromhex(digits))) for digits in rest) if kind == "frames" else int(rest[0])


class Station:
    """A process that answers each line."""

    def __init__(self, name, command):
        self.name, self.runs, self.page, self.due = name, True, None, None
        # a fault is explained in words too
        how = {"env": {**os.environ, "FAXTOOL_EXPLAIN": "1"}, "text": True}
        # a pipe that nobody reads is full after some 900 pages, and a station that can't write there waits
        self.errors = tempfile.TemporaryFile("w+")
        try:
            self.process = subprocess.Popen(command, stdin=subprocess.PIPE, stdout=subprocess.PIPE, stderr=self.errors, **how)
        except OSError as error:
            print(f"join.py: {command[0]} can't be run as the {name}: {error.strerror}; --{name}-command names another program", file=sys.stderr)
            sys.exit(2)

    def tell(self, line):
        """Writes a line, and returns the bursts that the station sends then; `page` is one that it hands over. An ended station hears nothing."""
        bursts = []
        if self.runs:
            try:
                self.process.stdin.write(line + "\n")
                self.process.stdin.flush()
            except BrokenPipeError:
                self.runs = False
                return bursts
            while (answer := self.process.stdout.readline().strip()).startswith(("tx ", "page ", "hear ")):
                word, _space, rest = answer.partition(" ")
                if word == "page":
                    self.page = rest
                elif word == "tx":
                    bursts.append(rest)
            # with --hear the time stands behind it from which a quiet does something
            word, _space, rest = answer.partition(" ")
            self.runs, self.due = word == "wait", int(rest) if rest else None
        return bursts

    def end(self):
        """What it says on standard error, whose last line is how it ended, and its exit status."""
        with contextlib.suppress(BrokenPipeError):
            self.process.communicate()
        self.process.wait()
        with self.errors:
            self.errors.seek(0)
            return self.errors.read().strip().splitlines(), self.process.returncode


class Side:
    """A station at the line: the lines that wait for it, and the bursts of its last answer. Storing a page in the folder is slow."""

    def __init__(self, station, folder=None, slow=0):
        self.station, self.folder, self.slow, self.lines, self.bursts = station, folder, slow, [], []
        # when it takes the next line; the time of the line that it answers; when it last began to send
        self.free = self.asked = self.began = 0
        # the page that was handed over, and when it is kept; the files that were handed over and aren't kept
        self.held, self.kept, self.unkept = None, 0, set()

    def stored(self):
        return len(os.listdir(self.folder)) if self.slow and os.path.isdir(self.folder) else 0

    def hear(self, clock, chance):
        """Takes the lines that wait, once it is done with the one before."""
        while self.lines and clock >= self.free:
            before = self.stored()
            self.asked, line = self.lines.pop(0)
            # the other side has begun to speak: bursts that answer an older line are void
            if line.startswith(("busy ", "rx ")):
                self.bursts.clear()
            self.bursts += self.station.tell(line)
            waits = chance.randrange(self.slow + 1) if self.station.page or self.stored() > before else 0
            if self.station.page:
                self.held, self.kept, self.station.page, waits = self.station.page, clock + waits, None, 0
                self.unkept.add(self.held)
            self.free = clock + waits
        if self.held and clock >= self.kept:
            self.lines.append((clock, f"kept {clock} {self.held}"))
            self.unkept.discard(self.held)
            self.held = None


class Line:
    """A half-duplex line between two sides, on a clock of its own. Of the bursts, the share `lose` doesn't arrive, nor `frames` of the frames."""

    def __init__(self, sides, lose=0.0, seed=1, step=20, shows=lambda text: None, frames=0.0):
        self.sides, self.lose, self.step, self.shows, self.frames = sides, lose, step, shows, frames
        self.chance, self.clock = random.Random(seed), 0

    def is_over(self):
        """The call is given up, though a station runs."""
        return False

    def play(self):
        """Plays a call to the end of both stations."""
        while any(side.station.runs or side.bursts for side in self.sides) and not self.is_over():
            for side, other in (self.sides, self.sides[::-1]):
                side.hear(self.clock, self.chance)
                # the other side has begun to speak since: what is answered now would answer another line
                if other.began > side.asked:
                    side.bursts.clear()
            sender = next((side for side in self.sides if side.bursts and self.clock >= side.free), None)
            if sender:
                self.carry(sender, self.sides[sender is self.sides[0]])
                continue
            self.clock = max(self.clock + self.step, self.next_due())
            for side in self.sides:
                if self.clock >= side.free and not side.lines:
                    side.lines.append((self.clock, f"quiet {self.clock}"))

    def next_due(self):
        """When a quiet line does something, or a side is free again, if all stations that run say when; else 0."""
        dues = [side.station.due for side in self.sides if side.station.runs]
        if None in dues or any(side.held for side in self.sides):
            return 0
        return min(dues + [side.free for side in self.sides if side.free > self.clock], default=0)

    def carry(self, sender, receiver):
        """Carries a burst to the other side, or loses it."""
        burst, sender.began = sender.bursts.pop(0), self.clock
        carrier, kind, *_rest = burst.split(" ")
        bits, is_lost, words = count_bits(burst), self.chance.random() < self.lose, ""
        if self.frames and not is_lost:
            burst, lost = without(burst, lambda: self.chance.random() < self.frames)
            words = f" without {lost} frames" if lost else ""
        self.shows(f"{self.clock:7} {sender.station.name:8} {carrier} {kind} {bits}{' lost' if is_lost else words}")
        receiver.lines += [] if is_lost else [(self.clock, f"busy {self.clock}")]
        self.clock += bits * 1000 // (300 if carrier == "v21" else int(carrier.split("-")[1]))
        receiver.lines += [] if is_lost else [(self.clock, f"rx {self.clock} {burst}")]
        self.clock += 75


def main():
    parser = Words(description=__doc__, formatter_class=argparse.RawDescriptionHelpFormatter)
    parser.add_argument("--lose", type=rate, default=0.0)
    parser.add_argument("--lose-frames", type=rate, default=0.0)
    parser.add_argument("--slow", type=number, default=0)
    parser.add_argument("--seed", type=int, default=1)
    parser.add_argument("--caller-command", type=command, default="faxtool station --call", help="IN.pbm is put after it")
    parser.add_argument("--answerer-command", type=command, default="faxtool station --answer", help="--out DIR is put after it")
    parser.add_argument("document", metavar="IN.pbm")
    parser.add_argument("folder", metavar="DIR")
    asked = parser.parse_args()
    caller = Station("caller", asked.caller_command + [asked.document])
    answerer = Station("answerer", asked.answerer_command + ["--out", asked.folder])
    Line([Side(caller), Side(answerer, asked.folder, asked.slow)], asked.lose, asked.seed, shows=print, frames=asked.lose_frames).play()
    ended = True
    for station in (caller, answerer):
        errors, status = station.end()
        print(f"{station.name}: {errors[-1] if errors else 'nothing said'}, status {status}", flush=True)
        if not errors or not errors[-1].startswith("end "):
            print(f"join.py: the {station.name} failed: {'; '.join(errors) or 'nothing said'}", file=sys.stderr)
        ended = ended and status == 0
    return 0 if ended else 1


if __name__ == "__main__":
    sys.exit(main())
