#!/usr/bin/env python3
"""Runs a call by `faxtool call`, and prints a log of what is said in it, for `faxtool judge`.

    call2log.py [--faxtool PROGRAM] OPTION .. IN.pbm        as: call2log.py --lose 20% --seed 7 row.pbm | faxtool judge -

The options are those of `faxtool call`, but for --bits, --json and --times. A line is `T caller HEX` or `T answerer HEX`: T is the number
of the transcript's line, 0 for the answerer's first DIS. The exit status is that of the call."""

import subprocess
import sys
import tempfile
from pathlib import Path

BURST_ENDS = 4  # a burst's FCDs are followed by three RCPs and a PPS


def turns_in(transcript):
    """The line of each turn, who says it, and how many frames it has. The answerer's first DIS comes before the first line."""
    yield "0", "answerer", 1
    for line in transcript.splitlines():
        number, event, *items = line.split(" ")
        if not number.isdigit() or items[1] == "-":
            continue
        says, _colon, count = items[1].partition(":")
        if says == "DCN":
            yield number, "caller" if event in ("to-caller", "caller-timeout", "caller-t5") else "answerer", 1
        elif count:
            yield number, "caller", int(count) + BURST_ENDS
        else:
            yield number, "caller" if says in ("DCS", "PPS", "RR") else "answerer", 1


def contents_of(program, path):
    """The contents of what a station sent in a call, in hex."""
    ran = subprocess.run([program, "frames", path], capture_output=True, text=True, check=True)
    return [line.split(" ")[1] for line in ran.stdout.splitlines() if line[:1].isdigit()]


def frames_of(program, words):
    """Runs a call: its exit status, and for each frame the line, who says it and its content."""
    with tempfile.TemporaryDirectory() as folder:
        ran = subprocess.run([program, "call", "--bits", folder, *words], stdout=subprocess.PIPE, text=True, check=False)
        captures = {"caller": Path(folder, "to-answerer.bits"), "answerer": Path(folder, "to-caller.bits")}
        if not all(map(Path.exists, captures.values())):
            return ran.returncode, []
        said = {by: contents_of(program, path) for by, path in captures.items()}
    frames = []
    for number, by, count in turns_in(ran.stdout):
        frames += [(number, by, content) for content in said[by][:count]]
        del said[by][:count]
    if any(said.values()):
        sys.exit("call2log.py: more is said in the call than its transcript has")
    return ran.returncode, frames


def main():
    words = sys.argv[1:]
    program = "faxtool"
    if words[:1] == ["--faxtool"]:
        program, words = words[1], words[2:]
    status, frames = frames_of(program, words)
    for number, by, content in frames:
        print(number, by, content.upper())
    return status


if __name__ == "__main__":
    sys.exit(main())
