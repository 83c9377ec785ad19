#!/usr/bin/env python3
"""Measures how many answering stations one core carries, by the kind of the page that they hear at 14,400 bit/s.

    bench/speed/stations.py [--calls N] [PAGE.pbm ..]

Makes its own pages, and takes those that are named, all 1,728, 2,048 or 2,432 pixels wide. Of each, in T.6 and in T.4, prints a row of
a table: the seconds of the call on the line; the instructions of an answerer that has it, counted by valgrind's callgrind, and those for
each second on the line; the least and the median of the milliseconds of processor time of N calls, 300 if not said; how many stations
a core carries by the least, as many as there are seconds of the line in a second of it; and the octets of memory of a station that has
heard 15 of 16 octets of the last block. Then the greatest memory of a process of 1,000 such stations, in the text page.
Builds bench/speed/stations.c over libg3fax, which bindings/build.sh builds, or which LIBRARY names the folder of. Needs cc and valgrind."""

import os
import re
import subprocess
import sys
import tempfile

TOP = os.path.dirname(os.path.dirname(os.path.dirname(os.path.abspath(__file__))))
WIDTH, ROWS = 1728, 2376
# The letters A to Z, five columns of seven pixels each, the uppermost in the lowest bit.
LETTERS = bytes.fromhex(
    "7e1111117e7f494949363e414141227f4141221c7f494949417f090909013e4149497a7f0808087f00417f41002040413f017f081422417f404040407f020c027f"
    "7f0408107f3e4141413e7f090909063e4151215e7f09192946464949493101017f01013f4040403f1f2040201f3f4038403f6314081463070870080761"
    "51494543"
)


def packed(row):
    return int(row, 2).to_bytes(len(row) // 8, "big")


class Numbers:
    """Numbers that look random, the same ones each time."""

    def __init__(self):
        self.state = 12345

    def below(self, most):
        self.state = (self.state * 6364136223846793005 + 1442695040888963407) % 2**64
        return (self.state >> 33) % most


def text(scale, filled):
    """Lines of words, of which so many hundredths are filled."""
    numbers, rows, height = Numbers(), [], 9 * scale
    places = (WIDTH - 16 * scale) // (6 * scale)
    while len(rows) + height <= ROWS:
        count = places * (filled + numbers.below(100 - filled + 1)) // 100
        line = [numbers.below(26) if numbers.below(6) else None for _ in range(count)]
        for y in range(7):
            pixels = "".join(
                "000000" if at is None else "".join(str(LETTERS[5 * at + x] >> y & 1) for x in range(5)) + "0" for at in line
            )
            wide = "".join(pixel * scale for pixel in pixels)
            rows += [packed(("0" * 8 * scale + wide).ljust(WIDTH, "0"))] * scale
        rows += [bytes(WIDTH // 8)] * (2 * scale)
    return rows + [bytes(WIDTH // 8)] * (ROWS - len(rows))


def dither():
    """Shades that change slowly, each pixel black by chance."""
    numbers = Numbers()
    return [packed("".join("01"[numbers.below(WIDTH + ROWS) < x + y] for x in range(WIDTH))) for y in range(ROWS)]


def pages():
    """The pages: a name and its rows."""
    yield "letter", text(4, 0)
    yield "text", text(3, 30)
    yield "text dense", text(2, 60)
    yield "white", [bytes(WIDTH // 8)] * ROWS
    yield "20,000 blank rows", [bytes(WIDTH // 8)] * 20000
    yield "dither", dither()
    yield "each second row a comb", [bytes([0x55 * (row % 2)]) * (WIDTH // 8) for row in range(ROWS)]


def build(folder):
    library = os.environ.get("LIBRARY")
    if not library:
        library = os.path.join(folder, "library")
        subprocess.run([os.path.join(TOP, "bindings", "build.sh"), library], check=True)
    program = os.path.join(folder, "stations")
    words = ["-std=gnu11", "-O2", "-I", library, os.path.join(TOP, "bench", "speed", "stations.c")]
    subprocess.run([os.environ.get("CC", "cc"), *words, os.path.join(library, "libg3fax.a"), "-o", program], check=True)
    return program


def numbers_of(*words):
    said = subprocess.run(words, check=True, stdout=subprocess.PIPE, text=True).stdout
    return [float(word) for word in said.split()]


def instructions(program, page, code, folder):
    """Those of a call: a process of two calls has so many more than one of one."""
    counted = []
    for calls in ("1", "2"):
        words = ["valgrind", "--tool=callgrind", "--callgrind-out-file=" + os.path.join(folder, "counts"), program, page, code, calls]
        said = subprocess.run(words, check=True, capture_output=True, text=True).stderr
        counted.append(int(re.search(r"Collected : (\d+)", said).group(1)))
    return counted[1] - counted[0]


def measure(program, name, page, calls, folder):
    for code, shown in (("mmr", "T.6"), ("mh", "T.4")):
        millis, least, median, _line = numbers_of(program, page, code, str(calls))
        octets, _resident = numbers_of(program, page, code, "1", "20")
        count = instructions(program, page, code, folder)
        rate = count / (millis / 1000)
        print(
            f"| {name}, {shown} | {millis / 1000:.1f} | {count / 1e6:.2f} | {rate / 1e6:.2f} | {least / 1000:.2f} | {median / 1000:.2f} "
            f"| {int(millis * 1000 / least / 100) * 100:,} | {octets:,.0f} |",
            flush=True,
        )


def main():
    words, calls = sys.argv[1:], 300
    if words[:1] == ["--calls"]:
        calls, words = int(words[1]), words[2:]
    with tempfile.TemporaryDirectory() as folder:
        program = build(folder)
        print("| call | seconds | M instructions | a second | least ms | median ms | stations a core | octets a station |")
        print("|---|---|---|---|---|---|---|---|", flush=True)
        for page in words:
            measure(program, os.path.basename(page).removesuffix(".pbm"), page, calls, folder)
        page = os.path.join(folder, "page.pbm")
        for name, rows in pages():
            with open(page, "wb") as file:
                file.write(b"P4\n%d %d\n" % (WIDTH, len(rows)) + b"".join(rows))
            measure(program, name, page, calls, folder)
            if name == "text":
                _octets, resident = numbers_of(program, page, "mmr", "1", "1000")
        print(f"1,000 stations with a text page open: {resident / 1000:.1f} MB resident")


main()
