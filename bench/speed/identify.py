#!/usr/bin/env python3
"""Counts the instructions of finding how a page is coded, beside those of decoding it: does looking cost more than it may?

    bench/speed/identify.py PROGRAM [--files N] PAGE.pbm ..

PROGRAM is a built `faxtool`, as build/faxtool of `make try`. A row has a page in one code and one order of bits: the millions of
instructions of `decode` in the right way; how many times as many `identify` takes; the same of the page with three bits turned, beside
`decode --salvage`; and how many times as many `decode --each` of N files of the page (10) takes without `--code` as with it. A last row
has 1 MB of random octets, which `decode` refuses. All are counted by valgrind's callgrind, of the whole process. A `!` marks what is above
its bound: 3 of `identify` of a whole page, 1.3 of `decode --each`. Ends with status 1 if there is one. A program without proof takes two to
four times as many, so its ratios alone count."""

import argparse
import os
import random
import re
import subprocess
import sys
import tempfile

OF_IDENTIFY, OF_EACH = 3, 1.3
WAYS = [(code, order) for code in ("mh", "mmr") for order in ("msb", "lsb")]


def counted(program, *words):
    """The instructions of a run that ends with status 0 or 1."""
    call = ["valgrind", "--tool=callgrind", "--callgrind-out-file=/dev/null", program, *words]
    said = subprocess.run(call, stdin=subprocess.DEVNULL, capture_output=True, text=True, check=False)
    if said.returncode not in (0, 1):
        sys.exit(f"{' '.join(call)}: status {said.returncode}: {said.stderr}")
    return int(re.search(r"Collected : (\d+)", said.stderr).group(1))


def turned(octets):
    """The octets with three bits turned, by chance, but the same in each run."""
    rand, changed = random.Random(3), bytearray(octets)
    for _ in range(3):
        changed[rand.randrange(len(changed) // 10, len(changed) * 9 // 10)] ^= 1 << rand.randrange(8)
    return bytes(changed)


def each(program, folder, octets, count, words):
    """The instructions of `decode --each` of so many files with these octets."""
    with tempfile.TemporaryDirectory(dir=folder) as own:
        files = [os.path.join(own, f"{number}.fax") for number in range(count)]
        for file in files:
            with open(file, "wb") as output:
                output.write(octets)
        images = os.path.join(own, "images")
        os.mkdir(images)
        return counted(program, "decode", *words, "--each", images, *files)


def ratio(above, below, most):
    """A cell with how many times as many instructions one takes, and whether that is within its bound."""
    times = above / below
    return f"{times:.2f}{'!' if times > most else ''}", times <= most


def row(program, folder, page, way, count):
    """Prints the row of a page, and returns whether it is within its bounds."""
    code, order = way
    coded, image, bad = (os.path.join(folder, name) for name in ("coded", "image.pbm", "bad"))
    subprocess.run([program, "code", "--code", code, "--order", order, page, coded], check=True)
    with open(coded, "rb") as file, open(page, "rb") as source:
        octets = file.read()
        width = re.match(rb"P4\s+(?:#.*\n)*(\d+)", source.read(200)).group(1).decode()
    with open(bad, "wb") as file:
        file.write(turned(octets))
    words = ["--code", code, "--order", order, "--width", width]
    decoded = counted(program, "decode", *words, coded, image)
    found, is_found_soon = ratio(counted(program, "identify", coded), decoded, OF_IDENTIFY)
    salvaged, _ = ratio(counted(program, "identify", bad), counted(program, "decode", "--salvage", *words, bad, image), float("inf"))
    many, are_many_soon = ratio(each(program, folder, octets, count, []), each(program, folder, octets, count, words), OF_EACH)
    name = os.path.splitext(os.path.basename(page))[0]
    print(f"| {name} {code} {order} | {decoded / 1e6:.1f} | {found} | {salvaged} | {many} |", flush=True)
    return is_found_soon and are_many_soon


def main():
    asked = argparse.ArgumentParser(usage="bench/speed/identify.py PROGRAM [--files N] PAGE.pbm ..")
    asked.add_argument("program")
    asked.add_argument("--files", type=int, default=10)
    asked.add_argument("pages", nargs="*")
    asked = asked.parse_intermixed_args()
    print("| | decode | identify | three bits turned | --each |\n|---|---|---|---|---|", flush=True)
    with tempfile.TemporaryDirectory() as folder:
        within = [row(asked.program, folder, page, way, asked.files) for page in asked.pages for way in WAYS]
        noise, image = os.path.join(folder, "noise"), os.path.join(folder, "image.pbm")
        with open(noise, "wb") as file:
            file.write(random.Random(1).randbytes(1 << 20))
        refused = counted(asked.program, "decode", "--code", "mmr", "--width", "1728", noise, image)
        found = counted(asked.program, "identify", noise)
        print(f"| 1 MB of random octets | {refused / 1e6:.1f} | {found / 1e6:.1f} million | | |")
    return 0 if all(within) else 1


if __name__ == "__main__":
    sys.exit(main())
