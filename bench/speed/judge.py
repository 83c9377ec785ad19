#!/usr/bin/env python3
"""Counts the instructions of `faxtool judge` by the frames of a log: do they grow with the log alone?

    bench/speed/judge.py [PROGRAM] [LENGTH ..]       (build/faxtool of `make try`, and 1000 2000, if not said)

The logs: a call of many pages of 32 frames, one of whole blocks of 256 frames, one whose PPS is repeated, one in which RNR and RR follow each
other, one whose block lacks a frame after each PPR, and one that is nothing but RR and PPR. Prints the millions of instructions of each, by
valgrind's callgrind, of the whole process, and how many times as many the last length takes as the first; a log that takes more than MOST,
by those before it, is timed instead, by the program's seconds. A build without proof takes two to four times as many instructions."""

import re
import resource
import subprocess
import sys
import tempfile
from pathlib import Path

TOP = Path(__file__).resolve().parent.parent.parent
MOST = 4e9
BEGIN = ["answerer FF1380006EFA44", "caller FF13830022F844", "answerer FF1384"]
RCPS, MCF, RR, RNR = 3 * ["caller FF0386"], "answerer FF138C", "caller FF136F", "answerer FF13EC"


def fcds(count):
    """Frames of one octet."""
    return [f"caller FF0306{number:02X}00" for number in range(count)]


def pps(ends, page, block, last):
    return f"caller FF13BF{ends}{page % 256:02X}{block % 256:02X}{last:02X}"


def ppr(first, others):
    """A PPR, by its first octet and the others."""
    return f"answerer FF13BC{first:02X}{31 * f'{others:02X}'}"


def again(begin, part, length):
    """So many frames: a begin, and a part that follows again and again."""
    return (begin + part * (length // len(part) + 1))[:length]


def pages(length):
    """Pages of a block of 32 frames."""
    parts = [fcds(32) + RCPS + [pps("4F", page, 0, 31), MCF] for page in range(length // 37 + 1)]
    return (BEGIN + sum(parts, []))[:length]


def blocks(length):
    """Blocks of 256 frames of a page."""
    parts = [fcds(256) + RCPS + [pps("00", 0, block, 255), MCF] for block in range(length // 261 + 1)]
    return (BEGIN + sum(parts, []))[:length]


def repeated(length):
    """A PPS again and again, after a block of one frame."""
    return again(BEGIN + fcds(1) + RCPS, [pps("2F", 0, 0, 0)], length)


def busy(length):
    return again(BEGIN + fcds(1) + RCPS + [pps("2F", 0, 0, 0)], [RNR, RR], length)


def resent(length):
    """A frame of a whole block is asked for again and again."""
    end = RCPS + [pps("2F", 0, 0, 255), ppr(1, 0)]
    return again(BEGIN + fcds(256) + end, fcds(1) + end, length)


def unread(length):
    """PPRs for which no PPS was said."""
    return again([], [RR, ppr(255, 255)], length)


def run(program, log, counts):
    """The instructions of a run, or its seconds."""
    start = resource.getrusage(resource.RUSAGE_CHILDREN).ru_utime
    call = [program, "judge", log]
    if counts:
        call = ["valgrind", "--tool=callgrind", "--callgrind-out-file=/dev/null", *call]
    said = subprocess.run(call, capture_output=True, text=True, check=False)
    if said.returncode not in (0, 1):
        sys.exit(f"{' '.join(call)}: status {said.returncode}: {said.stderr}")
    if counts:
        return int(re.search(r"Collected : (\d+)", said.stderr).group(1))
    return resource.getrusage(resource.RUSAGE_CHILDREN).ru_utime - start


def row(program, folder, kind, lengths):
    """The cells of a kind of log."""
    log, cells, counted = Path(folder) / "log", [], []
    for length in lengths:
        log.write_text("".join(f"{number} {frame}\n" for number, frame in enumerate(kind(length))))
        # a log that is longer by so much takes at most the square of it as many
        if counted and counted[-1][1] * (length / counted[-1][0]) ** 2 > MOST:
            cells.append(f"{run(program, str(log), False):.1f} s")
        else:
            counted.append((length, run(program, str(log), True)))
            cells.append(f"{counted[-1][1] / 1e6:,.1f}")
    growth = f"{counted[-1][1] / counted[0][1]:.1f} from {counted[0][0]} to {counted[-1][0]}" if len(counted) > 1 else "-"
    return cells, growth


def main(words):
    program = words.pop(0) if words and not words[0].isdigit() else str(TOP / "build" / "faxtool")
    lengths = [int(word) for word in words] or [1000, 2000]
    print(f"| Log | {' | '.join(map(str, lengths))} | Growth |\n|---|{'---|' * len(lengths)}---|")
    with tempfile.TemporaryDirectory() as folder:
        for kind in (pages, blocks, busy, repeated, resent, unread):
            cells, growth = row(program, folder, kind, lengths)
            print(f"| {kind.__name__} | {' | '.join(cells)} | {growth} |", flush=True)


if __name__ == "__main__":
    main(sys.argv[1:])
