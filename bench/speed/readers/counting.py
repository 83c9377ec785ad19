"""Octets for each reader of the library for C, made of a short recipe, and the instructions that reading them takes."""

import os
import re
import subprocess
import sys
import tempfile
from functools import lru_cache
from pathlib import Path

HERE = Path(__file__).resolve().parent
TOP = HERE.parent.parent.parent
sys.path.insert(0, str(TOP / "bench" / "fuzz"))
from reference_pages import HORIZONTAL, PASS, VERTICAL, b1_and_b2, run_words  # noqa: E402

WIDTH, MOST_ROWS = 1728, 10000
EOL = "000000000001"


def runs_of(pattern):
    """The runs of a row, white first: these over and over, the last one cut at the width. Without a pixel in them, white."""
    runs, left = [], WIDTH
    while left:
        for run in pattern if sum(pattern) else [WIDTH]:
            runs.append(min(run, left))
            left -= runs[-1]
            if not left:
                break
    return runs


def changes_of(runs):
    """The places where a row's color changes."""
    places, at = [], 0
    for run in runs[:-1]:
        at += run
        if places and places[-1] == at:
            places.pop()
        else:
            places.append(at)
    return [place for place in places if place]


def run_row(pattern):
    return "".join(run_words(at % 2, run) for at, run in enumerate(runs_of(pattern)))


@lru_cache(4096)
def row_of(above, pattern, way):
    """A row in T.6 under one: by the modes that are prescribed, without the horizontal one where another may come, or by that alone."""
    if way == "horizontal":
        runs = runs_of(pattern)
        runs += [0] * (len(runs) % 2)
        return "".join(
            HORIZONTAL + run_words(0, runs[at]) + run_words(1, runs[at + 1]) for at in range(0, len(runs), 2)
        )
    reference, row = changes_of(runs_of(above)), changes_of(runs_of(pattern))
    bits, a0, color, place, ends = [], -1, 0, 0, row + [WIDTH, WIDTH]
    while a0 < WIDTH:
        a1, a2 = ends[place : place + 2]
        b1, b2 = b1_and_b2(reference, WIDTH, a0, color)
        if b2 < a1:
            bits.append(PASS)
            a0 = b2
        elif abs(a1 - b1) <= 3:
            bits.append(VERTICAL[a1 - b1])
            a0, color, place = a1, 1 - color, place + 1
        else:
            bits.append(HORIZONTAL + run_words(color, a1 - max(a0, 0)) + run_words(1 - color, a2 - a1))
            a0, place = a2, place + 2
    return "".join(bits)


def page_of(recipe, is_t6, size):
    """The bits of rows over and over, of so many octets or a few more, with their end. A row is its runs, a way, and bits before it."""
    bits, count, above, rows = [], 0, (WIDTH,), 0
    while count < 8 * size and rows < MOST_ROWS:
        for pattern, way, before in recipe:
            if is_t6:
                text = before + row_of(above, tuple(pattern), way)
            else:
                text = EOL + before + ("" if way == "broken" else run_row(tuple(pattern)))
            above, rows, count = tuple(pattern), rows + 1, count + len(text)
            bits.append(text)
    return "".join(bits) + (2 if is_t6 else 6) * EOL


def packed(bits):
    return int("1" + bits + "0" * (-len(bits) % 8), 2).to_bytes(len(bits) // 8 + 2, "big")[1:] if bits else b""


def octets_of(reader, recipe, size):
    """What a reader is given: a page of the rows of a recipe, or its octets over and over."""
    if reader.split("-")[0] in ("decode", "salvage", "repair", "rows"):
        return packed(page_of(recipe, reader.endswith("-mmr"), size))
    octets = bytes.fromhex(recipe)
    front = b"P4\n1728 " if reader == "pbm" else b""
    return front + (octets * (size // len(octets) + 1))[:size]


class Counter:
    """A reader under callgrind, which is given octets and gives the instructions that they take."""

    def __init__(self, program, reader, piece, folder):
        self.dumps = Path(tempfile.mkdtemp(dir=folder))
        tool = ["valgrind", "--tool=callgrind", "--toggle-collect=counted", "--dump-after=counted"]
        words = [*tool, f"--callgrind-out-file={self.dumps}/of", program, reader, str(piece)]
        self.process = subprocess.Popen(words, stdin=subprocess.PIPE, stdout=subprocess.PIPE, stderr=subprocess.DEVNULL)
        self.number = 0

    def count(self, octets):
        """The instructions, the octets that came out, and the status."""
        self.process.stdin.write(len(octets).to_bytes(4, "little") + octets)
        self.process.stdin.flush()
        out, status = map(int, self.process.stdout.readline().split())
        self.number += 1
        dump = self.dumps / f"of.{self.number}"
        text = dump.read_text()
        dump.unlink()
        return int(re.search(r"^(?:totals|summary): (\d+)", text, re.M).group(1)), out, status

    def close(self):
        self.process.stdin.close()
        self.process.wait()


def build(folder, library):
    """The program, over the library in a folder."""
    program = Path(folder) / "readers"
    words = ["-std=gnu11", "-O1", "-Wall", "-Wextra", "-I", library, HERE / "main.c", Path(library) / "libg3fax.a"]
    subprocess.run([os.environ.get("CC", "cc"), *words, "-o", program], check=True)
    return program
