"""Runs `decode --repair` on the large page's code with one of its bits flipped, at 1,000 places: try_repair.py PROGRAM FOLDER

FOLDER has large.pbm, and large.mh, its code with the most significant bit first. What is written is the page but for two rows at
most, one after the other, in whose place are two at most: a bit can make an EOL inside a row. Those that standard error tells as
repaired are as many as it says, and each is the row before it. That RTC is missing is told where a bit of its six EOLs is flipped, and
only there. The whole page is repaired to itself, with nothing told. Ends with status 1 at the first that differs."""

import re
import subprocess
import sys

program, folder = sys.argv[1:]
WIDTH = 2432
STRIDE = WIDTH // 8


def rows_of(image):
    header = b"P4\n%d " % WIDTH
    if not image.startswith(header):
        sys.exit("no image of this width was written")
    start = image.index(b"\n", len(header)) + 1
    raster = image[start:]
    rows = [raster[k : k + STRIDE] for k in range(0, len(raster), STRIDE)]
    if int(image[len(header) : start]) != len(rows):
        sys.exit("the image has another number of rows than it says")
    return rows


def repaired(octets, name, has_end=True):
    with open(f"{folder}/flipped", "wb") as file:
        file.write(octets)
    words = [program, "decode", "--repair", "--code", "mh", "--width", str(WIDTH), f"{folder}/flipped", f"{folder}/repaired.pbm"]
    done = subprocess.run(words, stderr=subprocess.PIPE)
    if done.returncode != 0:
        sys.exit(f"{name}: status {done.returncode}, {done.stderr!r}")
    rows = rows_of(open(f"{folder}/repaired.pbm", "rb").read())
    lines = done.stderr.decode().splitlines()
    no_end = f"the page ends without its RTC after {len(rows)} rows"
    if (no_end in lines[-1:]) == has_end:
        sys.exit(f"{name}: other lines of RTC: {lines}")
    lines = lines if has_end else lines[:-1]
    told = [re.fullmatch(r"row (\d+) repaired at bit (\d+)", line) for line in lines[:-1]]
    if lines and (None in told or lines[-1] != f"repaired rows: {len(told)}"):
        sys.exit(f"{name}: other lines: {lines}")
    for match in told:
        row = int(match[1]) - 1
        if rows[row] != (rows[row - 1] if row else bytes(STRIDE)):
            sys.exit(f"{name}: row {row + 1} isn't the one before it")
    return rows, len(told)


def differing(rows, others):
    """How many rows of each page are neither among the first nor among the last ones that they share."""
    most = min(len(rows), len(others))
    first = next((k for k in range(most) if rows[k] != others[k]), most)
    last = next((k for k in range(most - first) if rows[-1 - k] != others[-1 - k]), most - first)
    return len(rows) - first - last, len(others) - first - last


page = rows_of(open(f"{folder}/large.pbm", "rb").read())
octets = open(f"{folder}/large.mh", "rb").read()
if repaired(octets, "the whole page") != (page, 0):
    sys.exit("the whole page isn't repaired to itself")
bits = 8 * len(octets)
# where the six EOLs of RTC begin, each of 12 bits, without the fill at the end
end = len(f"{int.from_bytes(octets):b}".rstrip("0")) + bits - int.from_bytes(octets).bit_length() - 72
for k in range(1000):
    bit = bits * k // 1000
    flipped = bytearray(octets)
    flipped[bit // 8] ^= 0x80 >> bit % 8
    rows, _ = repaired(flipped, f"bit {bit}", has_end=not end <= bit < end + 72)
    changed = differing(page, rows)
    if max(changed) > 2:
        sys.exit(f"bit {bit}: {changed[1]} other rows in place of {changed[0]}")
