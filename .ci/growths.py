#!/usr/bin/env python3
"""Refuses each growth of memory in turn, one a run, during seven calls: whole ones of a world, and of both stations without a line:

    .ci/growths.py [PROGRAM]

PROGRAM is what .ci/growths/main.txt makes; with no word it is built without proof. A call without a refusal ends normally at both stations.
Each other one ends with fault 9, before it has begun, or is told of one refusal. Its pages are then the first of the document, each
confirmed one among them, and all of them if a station ended normally. If the refusal lost a CFR, the caller trains again at its time-out,
and the call ends normally. A station whose step was refused is given the same input again, and its call ends normally.
Prints how many growths there were, and ends with status 1 at the first call that goes otherwise, if a call had no growth, or if none lost a
CFR. It needs a C compiler, the one that CC names or cc, and Python's standard library."""

import collections
import os
import shutil
import subprocess
import sys
import tempfile
from pathlib import Path

TOP = Path(__file__).resolve().parent.parent
SOURCE = TOP / ".ci" / "growths" / "main.txt"
REFUSES = TOP / ".ci" / "end_to_end" / "memory.c"
LIBRARIES = "raster page_code signals stations line_sim"
CALLS = ("one", "two", "again", "groups", "frames", "stations", "stations-groups")
# What a call says that was refused a growth.
ENDS = ("fault 9", "kept 1", "kept 1 cfr")


def build(room):
    """The program, of a copy of the sources in which it is a crate."""
    shutil.copytree(TOP / "crates", room / "crates", ignore=shutil.ignore_patterns("out"))
    (room / "crates" / "growths" / "src").mkdir(parents=True)
    shutil.copy(SOURCE, room / "crates" / "growths" / "src" / "main.rt")
    (room / "crates.txt").write_text((TOP / "crates.txt").read_text() + f"growths: {LIBRARIES}\n")
    shutil.copy(TOP / "HANDLES", room)
    subprocess.run([TOP / "packaging" / "build_unproved.sh", room / "crates" / "growths", room / "growths"], check=True)
    return room / "growths"


def run(program, library, call, room, at):
    """What a call says whose growth of this number is refused, 0 for none, and how many growths it had."""
    count = room / "count"
    env = {**os.environ, "LD_PRELOAD": str(library), "MEMORY_FROM": "call ", "MEMORY_AT": str(at), "MEMORY_COUNT": str(count)}
    ran = subprocess.run([program, call], capture_output=True, text=True, timeout=60, env=env)
    if ran.returncode or ran.stderr:
        return f"status {ran.returncode} {ran.stderr}".strip(), 0
    return ran.stdout.removeprefix(f"call {call}\n").strip(), int(count.read_text())


def main(words):
    if len(words) > 1:
        print(__doc__)
        return 2
    with tempfile.TemporaryDirectory() as name:
        room, ends = Path(name), collections.Counter()
        library, counts = room / "memory.so", {}
        subprocess.run([os.environ.get("CC", "cc"), "-std=gnu11", "-O1", "-shared", "-fPIC", "-o", library, REFUSES], check=True)
        program = words[0] if words else build(room)
        for call in CALLS:
            said, counts[call] = run(program, library, call, room, 0)
            if said != "kept 0" or not counts[call]:
                sys.exit(f"growths: the call {call} says `{said}` with no growth refused, of {counts[call]}")
            for at in range(1, counts[call] + 1):
                said, _ = run(program, library, call, room, at)
                if said not in ENDS:
                    sys.exit(f"growths: the call {call} says `{said}` without growth {at} of {counts[call]}")
                ends[said] += 1
    if not all(ends[end] for end in ENDS):
        sys.exit(f"growths: these ends are missing: {', '.join(end for end in ENDS if not ends[end])}")
    each = ", ".join(f"{call} {count}" for call, count in counts.items())
    kept = ends["kept 1"] + ends["kept 1 cfr"]
    print(f"growths: {sum(counts.values())} were refused in turn in {len(counts)} calls ({each}):", end=" ")
    print(f"{ends['fault 9']} are fault 9, {kept} are told once and all is kept, {ends['kept 1 cfr']} at the CFR")
    return 0


if __name__ == "__main__":
    sys.exit(main(sys.argv[1:]))
