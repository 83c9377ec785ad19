#!/usr/bin/env python3
"""Times `faxtool code` and `faxtool show` on pages 2,432 pixels wide whose runs have one length.

Prints the times of pages of 5,000, 10,000 and 20,000 rows of runs of 1, and of 20,000 rows of runs of 4, 16 and 64: they
grow in proportion to the rows, and beside a part for the pixels in proportion to the changing positions.
Words: the codes to time, `mh` and `mmr`. Build the program first: `rt run` in crates/faxtool."""

import os
import subprocess
import sys
import tempfile
import time

TOP = os.path.dirname(os.path.dirname(os.path.dirname(os.path.abspath(__file__))))
PROGRAM = os.path.join(TOP, "crates", "faxtool", "out", "faxtool")
WIDTH = 2432


def timed(*words, **more):
    start = time.monotonic()
    subprocess.run([PROGRAM, *words], check=True, **more)
    return time.monotonic() - start


def pixels(run, row):
    """A row of runs of one length, each second row begun with black."""
    return [(place // run + row) % 2 for place in range(WIDTH)]


def octets(row):
    return bytes(int("".join(map(str, row[at : at + 8])), 2) for at in range(0, WIDTH, 8))


def measure(folder, code, rows, run):
    page = os.path.join(folder, "page.pbm")
    coded = os.path.join(folder, "page.code")
    text = os.path.join(folder, "text")
    pair = [pixels(run, 0), pixels(run, 1)]
    with open(page, "wb") as file:
        file.write(b"P4\n%d %d\n" % (WIDTH, rows) + b"".join(map(octets, pair)) * (rows // 2))
    coding = timed("code", "--code", code, page, coded)
    with open(text, "wb") as file:
        showing = timed("show", "--code", code, "--width", str(WIDTH), coded, stdout=file)
    with open(text, "rb") as file:
        shown = file.read()
    lines = ["".join(".#"[pixel] for pixel in row) + "\n" for row in pair]
    assert shown == ("".join(lines) * (rows // 2)).encode()
    size = os.path.getsize(coded)
    print(f"{code}, {rows} rows, runs of {run}: code {coding:.2f} s, show {showing:.2f} s, {size} octets")


def main():
    with tempfile.TemporaryDirectory() as folder:
        for code in sys.argv[1:] or ["mh", "mmr"]:
            for rows in (5000, 10000, 20000):
                measure(folder, code, rows, 1)
            for run in (4, 16, 64):
                measure(folder, code, 20000, run)


main()
