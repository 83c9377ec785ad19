#!/usr/bin/env python3
"""Plays many calls over lines that lose, with a disk that is slow and stations that are killed, and sees that what is confirmed is stored.

    pool.py [--calls N] [--lines N] [--lose RATE] [--slow MS] [--kill SHARE] [--hold] [--seed N] [--command COMMAND] IN.pbm DIR

Each call has a folder of its own in DIR, `call-1` and on, and the lines run side by side. RATE, MS and the clock are those of join.py;
SHARE of the calls, as 0.2, lose their caller or answerer by `kill -9` at a line that chance gives. With --hold the answerers hand their
pages over. COMMAND is `faxtool station` if it isn't said.

Prints how the calls ended and what they left. The exit status is 0 if each page is stored whole, in its place, before the MCF that confirms
it is sent (and kept, if it was handed over), each page that a caller counts as confirmed is stored once, and no file of a page is anything
else. Words that are wrong, and files and folders that aren't there or are there already, are named in a line, with status 2."""

import argparse
import collections
import os
import random
import shutil
import signal
import sys
from concurrent.futures import ThreadPoolExecutor

from hdlc import bits_of, content, gaps
from join import Line, Side, Station, Words, command, number, rate

# Third octets of signals, and the fourth of a PPS that no page ends with.
MCF, PPS, NULL = 0x8C, 0xBE, 0x00


class Killed(Station):
    """A station that is killed when it has taken some lines; never, if that is None."""

    def __init__(self, name, command, lines):
        super().__init__(name, command)
        self.left = lines

    def tell(self, line):
        if self.left is not None and self.runs:
            self.left -= 1
            if self.left < 0:
                self.process.kill()
                self.process.wait()
                self.runs = False
        return super().tell(line)


def frames_of(octets):
    """The contents of the good frames of a burst that is given in hex."""
    bits = bits_of(bytes.fromhex(octets))
    return [found for begin, end in gaps(bits) if (found := content(bits[begin:end]))]


class Watched(Line):
    """A line that looks into the answerer's folder when an MCF is sent: what it confirms must be there."""

    def __init__(self, sides, pages, lose, seed):
        super().__init__(sides, lose, seed, 200)
        # the page of the last PPS, from 1, if it ends there; what was wrong with the first MCF that was sent and shouldn't have been
        self.pages, self.ends, self.wrong = pages, None, None

    def carry(self, sender, receiver):
        carrier, _kind, _bits, octets = sender.bursts[0].split(" ")
        for frame in frames_of(octets) if carrier == "v21" else []:
            # the first bit of the third octet says which side speaks
            name = frame[2] & 0xFE
            if name == PPS:
                self.ends = frame[4] + 1 if frame[3] != NULL else None
            elif name == MCF and self.ends:
                self.wrong = self.wrong or self.wrong_with(sender)
        super().carry(sender, receiver)

    def wrong_with(self, answerer):
        """What is wrong with an MCF that answers the last PPS, or the RR after it; None if nothing is."""
        name = f"page-{self.ends}.pbm"
        try:
            with open(os.path.join(answerer.folder, name), "rb") as file:
                is_there = file.read() == self.pages[self.ends - 1]
        except FileNotFoundError:
            is_there = False
        if not is_there or name in answerer.unkept:
            return f"page {self.ends} is confirmed before it is {'kept' if is_there else 'stored'}"
        if len(answerer.bursts) > 1:
            return f"page {self.ends} is confirmed by the answer to an older line"
        return None


def count(text):
    """A number, 1 or more."""
    if number(text) == 0:
        raise ValueError(text)
    return number(text)


def pages_of(octets):
    """The PBM images of a document, one after another, each alone. ValueError if it has none, or they aren't PBM."""
    pages = []
    while octets or not pages:
        magic, size, _rest = octets.split(b"\n", 2)
        width, height = map(int, size.split())
        if magic != b"P4" or width < 1 or height < 1:
            raise ValueError("no PBM")
        length = len(b"P4\n" + size + b"\n") + (width + 7) // 8 * height
        pages.append(octets[:length])
        octets = octets[length:]
    return pages


class Call:
    """A call of the pool, and what was left of it."""

    def __init__(self, asked, name, pages):
        chance = random.Random(f"{asked.seed} {name.removeprefix('call-')}")
        self.folder, self.pages = os.path.join(asked.folder, name), pages
        dies = chance.choice(["caller", "answerer"]) if chance.random() < asked.kill else None
        words = {"caller": ["--call", asked.document], "answerer": ["--answer", "--out", self.folder] + ["--hold"] * asked.hold}
        stations = [Killed(name, asked.command + words[name], chance.randrange(1, 120) if dies == name else None) for name in words]
        line = Watched([Side(stations[0]), Side(stations[1], self.folder, asked.slow)], pages, asked.lose, chance.random())
        line.play()
        ends = [station.end() for station in stations]
        self.said = ends[0][0]
        # a station ends with status 0 or 1; one that is to be killed may have ended before
        crashed = [f"the {name} ended with status {status}" for name, (_said, status) in zip(words, ends)
                   if status not in (0, 1) and (name, status) != (dies, -signal.SIGKILL)]
        self.dies, self.mistaken = dies, line.wrong or "; ".join(crashed)
        # `end NAME confirmed N`, of a caller that wasn't killed
        found = [line.split(" ") for line in self.said if line.startswith("end ")]
        self.end, self.confirmed = (found[-1][1], int(found[-1][3])) if found else ("killed" if dies == "caller" else "fault", 0)

    def stored(self):
        """The pages that are stored, in order."""
        names = sorted((name for name in os.listdir(self.folder) if name.startswith("page-")), key=lambda name: int(name[5:-4]))
        found = []
        for name in names:
            with open(os.path.join(self.folder, name), "rb") as file:
                found.append(file.read())
        return found

    def wrong(self):
        """What is wrong with what the call left; None if nothing is."""
        stored = self.stored()
        if self.end == "fault":
            return "; ".join(self.said)
        if stored != self.pages[: len(stored)]:
            return "a stored page is cut short, is another one, or is there twice"
        if self.mistaken:
            return self.mistaken
        if self.confirmed > len(stored):
            return f"{self.confirmed} pages are confirmed, and {len(stored)} stored"
        return None


def prepare(parser, asked):
    """The names of the calls, for each of which a folder is made, and the pages of the document."""
    names = [f"call-{place}" for place in range(1, asked.calls + 1)]
    if not shutil.which(asked.command[0]):
        parser.error(f"{asked.command[0]} can't be run: --command names another program")
    try:
        with open(asked.document, "rb") as file:
            pages = pages_of(file.read())
        for name in names:
            os.mkdir(os.path.join(asked.folder, name))
    except OSError as error:
        parser.error(f"{error.filename}: {error.strerror}")
    except ValueError:
        parser.error(f"{asked.document}: PBM images (P4) are expected here")
    return names, pages


def main():
    parser = Words(description=__doc__, formatter_class=argparse.RawDescriptionHelpFormatter)
    parser.add_argument("--calls", type=count, default=100)
    parser.add_argument("--lines", type=count, default=8)
    parser.add_argument("--lose", type=rate, default=0.05)
    parser.add_argument("--slow", type=number, default=12000)
    parser.add_argument("--kill", type=rate, default=0.2)
    parser.add_argument("--hold", action="store_true")
    parser.add_argument("--seed", type=int, default=1)
    parser.add_argument("--command", type=command, default="faxtool station")
    parser.add_argument("document", metavar="IN.pbm")
    parser.add_argument("folder", metavar="DIR")
    asked = parser.parse_args()
    names, pages = prepare(parser, asked)
    with ThreadPoolExecutor(asked.lines) as pool:
        calls = list(pool.map(lambda name: Call(asked, name, pages), names))
    ends = collections.Counter(call.end for call in calls)
    print(f"{len(calls)} calls: {', '.join(f'{ends[name]} {name}' for name in sorted(ends))}; {sum(bool(call.dies) for call in calls)} to be killed")
    print(f"{sum(call.confirmed for call in calls)} pages confirmed, {sum(len(call.stored()) for call in calls)} stored")
    wrong = [f"{call.folder}: {call.wrong()}" for call in calls if call.wrong()]
    for words in wrong:
        print(f"pool.py: {words}", file=sys.stderr)
    return 1 if wrong else 0


if __name__ == "__main__":
    sys.exit(main())
