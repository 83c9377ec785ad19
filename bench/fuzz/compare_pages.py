#!/usr/bin/env python3
"""Compares two builds of `faxtool` on random pages: what they code, decode, show, salvage and refuse.

    bench/fuzz/compare_pages.py BEFORE AFTER [PAGES] [SEED]

BEFORE and AFTER are the two programs (`packaging/build_unproved.sh crates/faxtool OUT` of each), PAGES how many pages, 1,000 if
none is said. Each page is coded in both codes and both orders; its code is then decoded and shown as it is, with a bit turned
and cut off: files, outputs and statuses have to be the same, and a whole code has to decode to the page's own rows."""

import os
import random
import subprocess
import sys


def run_row(width, rng):
    """Runs about one length."""
    most = rng.choice([1, 2, 4, 9, 40, 300, 2600])
    row, color = [], rng.randrange(2)
    while len(row) < width:
        row += [color] * rng.randint(1, most)
        color = 1 - color
    return row[:width]


def next_row(kind, above, width, rng):
    if kind == "white" or (kind == "sparse" and rng.random() < 0.6):
        return [0] * width
    if kind == "black":
        return [1] * width
    if kind == "dither":
        return [rng.randrange(2) for _ in range(width)]
    if kind == "comb":
        return [place % 2 for place in range(width)] if rng.random() < 0.5 else [0] * width
    if kind == "shifted" and above:
        by = rng.randint(-4, 4)
        row = [above[min(max(place - by, 0), width - 1)] for place in range(width)]
        for _ in range(rng.randrange(4)):
            at = rng.randrange(width)
            row[at : at + 3] = [1 - pixel for pixel in row[at : at + 3]]
        return row
    return run_row(width, rng)


def random_page(rng):
    widths = [1, 2, 7, 8, 9, 63, 64, 65, 255, 256, 257, 1728, 2431, 2432, rng.randint(1, 2432)]
    width = rng.choice(widths)
    kind = rng.choice(["white", "black", "sparse", "dither", "comb", "shifted", "shifted", "runs", "runs"])
    rows = []
    for _ in range(rng.choice([1, 2, 5, 20, 60])):
        rows.append(next_row(kind, rows[-1] if rows else None, width, rng))
    return width, rows


def pbm(width, rows):
    lines = []
    for row in rows:
        bits = "".join(map(str, row)) + "0" * (-width % 8)
        lines.append(int(bits, 2).to_bytes(len(bits) // 8, "big"))
    return b"P4\n%d %d\n" % (width, len(rows)) + b"".join(lines)


def answer(program, words, data):
    """The status, what was written and what was said."""
    done = subprocess.run([program, *words], input=data, capture_output=True, timeout=60)
    return done.returncode, done.stdout, done.stderr


def same(programs, words, data):
    before, after = (answer(program, words, data) for program in programs)
    if before != after:
        with open("differing_input", "wb") as file:
            file.write(data)
        sys.exit(f"{' '.join(words)} on differing_input: {before[0]} {before[2]!r}, {after[0]} {after[2]!r}")
    return after


def compare(programs, seed):
    rng = random.Random(seed)
    width, rows = random_page(rng)
    image = pbm(width, rows)
    for code in ("mh", "mmr"):
        for order in ("lsb", "msb"):
            page = ["--code", code, "--order", order]
            coded = same(programs, ["code", *page, "-", "-"], image)[1]
            page += ["--width", str(width)]
            whole = same(programs, ["decode", "--fine", *page, "-", "-"], coded)
            assert whole[0] == 0 and whole[1].endswith(image.split(b"\n", 2)[2]), (seed, code, order)
            same(programs, ["show", *page, "-"], coded)
            turned = bytearray(coded)
            turned[rng.randrange(len(turned))] ^= 1 << rng.randrange(8)
            cut = coded[: rng.randrange(len(coded))]
            for broken in (bytes(turned), cut):
                same(programs, ["decode", *page, "-", "-"], broken)
                same(programs, ["decode", "--salvage", "--verbose", *page, "-", "-"], broken)


def main():
    if len(sys.argv) < 3:
        sys.exit(__doc__)
    programs = [os.path.abspath(program) for program in sys.argv[1:3]]
    pages = int(sys.argv[3]) if len(sys.argv) > 3 else 1000
    seed = int(sys.argv[4]) if len(sys.argv) > 4 else random.randrange(1 << 30)
    print(f"seed {seed}", flush=True)
    for at in range(pages):
        compare(programs, seed + at)
    print(f"{pages} pages: the same")


if __name__ == "__main__":
    main()
