#!/usr/bin/env python3
"""What a station does without memory:

    memory.py PROGRAM LIBRARY KEPT

PROGRAM answers the kept conversation KEPT with LIBRARY, made of memory.c, before it, once for each growth of memory, which is refused then.
Each line that is answered has one answer, no page is there that isn't whole, and none is confirmed that isn't there. Some of the runs lose a
line, say so once, in the trace too, and go on to the end; the others end with fault 9. Prints how many runs there were; ends with status 1,
and with what was wrong, at the first one that is."""
import os
import subprocess
import sys
import tempfile
from pathlib import Path


# What is said of a line that is lost.
LOST = " memory was refused, lines lost: 1\n"


def run(program, library, kept, **env):
    """The status, what was said and told, and the pages, of a run into an empty folder; how often it asked for memory; and how often it or its
    trace says that a line is lost."""
    with tempfile.TemporaryDirectory() as room:
        folder, asked, trace = Path(room) / "pages", Path(room) / "asked", Path(room) / "trace"
        folder.mkdir()
        env = {**os.environ, "LD_PRELOAD": library, "MEMORY_COUNT": str(asked), **env}
        with open(f"{kept}.lines", "rb") as lines:
            words = [program, "station", "--answer", "--out", str(folder), "--trace", str(trace)]
            ran = subprocess.run(words, stdin=lines, capture_output=True, timeout=60, env=env)
        pages = [file.read_bytes() for file in folder.iterdir()]
        told = ran.stderr.decode() + (trace.read_text() if trace.exists() else "")
        return ran.returncode, ran.stdout.decode(), ran.stderr.decode(), pages, int(asked.read_text()) if asked.exists() else 0, told.count(LOST)


def main(program, library, kept):
    page, lines = Path(f"{kept}.pages").read_bytes(), Path(f"{kept}.lines").read_bytes().count(b"\n")
    whole = run(program, library, kept)
    if whole[0] != 0:
        print(f"memory.py: with all memory: status {whole[0]}", file=sys.stderr)
        return 1
    mcf = [line for line in whole[1].splitlines() if line.startswith("tx ")][3]
    lost, faults, whole_answers = 0, 0, sum(line in ("wait", "done") for line in whole[1].splitlines())
    for at in range(1, whole[4] + 1):
        status, said, told, pages, _, times = run(program, library, kept, MEMORY_AT=str(at))
        answers = sum(line in ("wait", "done") for line in said.splitlines())
        wrong = None
        if any(stored != page for stored in pages):
            wrong = "a page is cut short"
        elif mcf in said.splitlines() and not pages:
            wrong = "MCF is written, and the page isn't there"
        elif status not in (0, 1):
            wrong = f"it ends with status {status}"
        elif "fault 9" in told.splitlines():
            faults += 1
        elif answers > lines or not told.splitlines()[-1:] or not told.splitlines()[-1].startswith("end "):
            wrong = f"{answers} answers to {lines} lines, and: {told}"
        elif times not in (0, 2) or (times == 0 and answers != whole_answers):
            wrong = f"a lost line is said {times} times: {told}"
        elif (status, said) != whole[:2]:
            lost += times == 2
        if wrong:
            print(f"memory.py: without growth {at}: {wrong}", file=sys.stderr)
            return 1
    if not lost or not faults:
        print(f"memory.py: {lost} runs lose a line, and {faults} end with fault 9", file=sys.stderr)
        return 1
    print(whole[4] + 1)
    return 0


if __name__ == "__main__":
    sys.exit(main(*sys.argv[1:]))
