#!/usr/bin/env python3
"""How many calls over a bad line end normally, by the rate at which items are lost, and by the options of the call.

    bench/calls_by_loss.py [--calls N] [--svg FILE]

Runs `faxtool call --lose --times N` (1000 if not said) with the seed 0 for each number of two tables, and prints them: of 100 calls those
whose caller ended normally. The program is crates/faxtool/out/faxtool, or the one that FAXTOOL names. With --svg it writes the first table
as a picture too. It needs Python's standard library alone."""

import os
import random
import subprocess
import sys
import tempfile
from concurrent.futures import ThreadPoolExecutor
from pathlib import Path

PROGRAM = os.environ.get("FAXTOOL", str(Path(__file__).resolve().parent.parent / "crates" / "faxtool" / "out" / "faxtool"))
RATES = [1, 2, 5, 10, 15, 20, 30]
# Frames of 256 octets in the page's only block.
FRAMES = [8, 40, 118, 235]
COLORS = ["#1b6ca8", "#2a9d5c", "#d1801f", "#a8321b"]
# The lines and the options of the second table, for a page of 118 frames.
LINES = [["--lose", "10%"], ["--lose", "15%"], ["--lose", "5%", "--spoil", "10%"]]
OPTIONS = ["", "--frame 64", "--code mh", "--modems v27v29", "--modems v29", "--modems fallback", "--calls 6"]


def image(rows):
    """An image of rows, each with some 30 runs that are drawn from a fixed seed."""
    rand = random.Random(32)
    octets = b"P4\n1728 %d\n" % rows
    for _ in range(rows):
        row = bytearray(216)
        for place in rand.sample(range(216), 15):
            row[place] = rand.choice([0xFF, 0xF0, 0x3C])
        octets += bytes(row)
    return octets


def frames_of(folder, rows):
    """The frames that a page of so many rows has."""
    path = os.path.join(folder, "page.pbm")
    Path(path).write_bytes(image(rows))
    subprocess.run([PROGRAM, "code", "--code", "mmr", path, path + ".mmr"], check=True)
    return -(-os.path.getsize(path + ".mmr") // 256)


def page_of(folder, frames):
    """The file of a page of so many frames."""
    least, most = 1, 20000
    while least < most:
        middle = (least + most) // 2
        least, most = (middle + 1, most) if frames_of(folder, middle) < frames else (least, middle)
    if frames_of(folder, least) != frames:
        sys.exit(f"no page has {frames} frames")
    path = os.path.join(folder, f"{frames}.pbm")
    Path(path).write_bytes(image(least))
    return path


def share(page, line, options, calls):
    """Of 100 calls those that end normally."""
    words = [*line, "--seed", "0", "--times", str(calls), *options.split(), page]
    printed = subprocess.run([PROGRAM, "call", *words], check=True, capture_output=True, text=True).stdout.split("\n")
    normal = [int(row.split()[2]) for row in printed if row.startswith("caller normal ")]
    return round(100 * sum(normal) / calls)


def all_shares(numbers):
    """The share of each, two at a time."""
    with ThreadPoolExecutor(2) as pool:
        return list(pool.map(lambda number: share(*number), numbers))


def in_rows(numbers, width):
    return [numbers[place : place + width] for place in range(0, len(numbers), width)]


def table(heads, names, shares):
    """The lines of a table."""
    yield "| " + " | ".join(heads) + " |"
    yield "|---|" + "---|" * (len(heads) - 1)
    for name, row in zip(names, shares):
        yield f"| {name} | " + " | ".join(str(normal) for normal in row) + " |"


def picture(shares):
    """An SVG picture: a line for each size."""
    across = lambda rate: 60 + rate * 14  # noqa: E731
    down = lambda normal: 220 - 2 * normal  # noqa: E731
    yield '<svg xmlns="http://www.w3.org/2000/svg" viewBox="0 0 620 270" font-family="sans-serif" font-size="12">'
    yield '<rect width="620" height="270" fill="white"/>'
    for normal in range(0, 101, 25):
        yield f'<line x1="60" y1="{down(normal)}" x2="480" y2="{down(normal)}" stroke="#ccc"/>'
        yield f'<text x="52" y="{down(normal) + 4}" text-anchor="end">{normal}</text>'
    for rate in RATES:
        yield f'<text x="{across(rate)}" y="238" text-anchor="middle">{rate}</text>'
    yield '<text x="270" y="260" text-anchor="middle">items lost, of 100</text>'
    yield '<text x="8" y="12">calls that end normally, of 100</text>'
    for place, (frames, row) in enumerate(zip(FRAMES, shares)):
        points = " ".join(f"{across(rate)},{down(normal)}" for rate, normal in zip(RATES, row))
        yield f'<polyline points="{points}" fill="none" stroke="{COLORS[place]}" stroke-width="2"/>'
        yield f'<text x="490" y="{60 + 20 * place}" fill="{COLORS[place]}">{frames} frames</text>'
    yield "</svg>"


def main():
    words = sys.argv[1:]
    options = {"--calls": "1000", "--svg": None}
    while len(words) > 1 and words[0] in options:
        options[words[0]] = words[1]
        del words[:2]
    if words:
        print(__doc__, file=sys.stderr)
        return 2
    calls = int(options["--calls"])
    with tempfile.TemporaryDirectory() as folder:
        pages = {frames: page_of(folder, frames) for frames in FRAMES}
        numbers = [(pages[frames], ["--lose", f"{rate}%"], "", calls) for frames in FRAMES for rate in RATES]
        shares = in_rows(all_shares(numbers), len(RATES))
        print("\n".join(table(["Frames in the block", *(f"{rate} %" for rate in RATES)], FRAMES, shares)), flush=True)
        others = in_rows(all_shares([(pages[118], line, option, calls) for option in OPTIONS for line in LINES]), len(LINES))
        print("\n" + "\n".join(table(["Options", *(" ".join(line) for line in LINES)], [option or "none" for option in OPTIONS], others)))
    if options["--svg"]:
        Path(options["--svg"]).write_text("\n".join(picture(shares)) + "\n")
    return 0


if __name__ == "__main__":
    sys.exit(main())
