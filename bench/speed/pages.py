#!/usr/bin/env python3
"""Times `faxtool decode --page` and `faxtool decode --each` on files of many pages: do both grow with the file alone?

    bench/speed/pages.py [PROGRAM]

The pages have one white row, 1,728 pixels wide, in T.6 and in T.4, with the most and the least significant bit first. Prints the seconds
that the program itself takes, without the system: of `decode --page` of the last page of files of 64, 128, 256 and 512 KiB, and of
`decode --each` of 1,000 pages before as many octets that are no page. Each is the least of three. Ends with status 1 if one of them grows
by more than 2.2 a doubling, from the first file to the last. Build the program first, by `rt run` in crates/faxtool, or name another, as
build/faxtool of `make try`."""

import os
import resource
import subprocess
import sys
import tempfile

TOP = os.path.dirname(os.path.dirname(os.path.dirname(os.path.abspath(__file__))))
PROGRAM = sys.argv[1] if len(sys.argv) > 1 else os.path.join(TOP, "crates", "faxtool", "out", "faxtool")
WIDTH = 1728
KIB = [64, 128, 256, 512]
PAGES = 1000
MOST = 2.2
LEAST = 0.004  # of a clock's step


def timed(*words):
    """The seconds that the program itself takes, and its status."""
    start = resource.getrusage(resource.RUSAGE_CHILDREN).ru_utime
    status = subprocess.run([PROGRAM, *words], stdout=subprocess.DEVNULL, stderr=subprocess.DEVNULL).returncode
    return resource.getrusage(resource.RUSAGE_CHILDREN).ru_utime - start, status


def last_page(folder, words, page, kib):
    """The seconds for the last page of a file, and how many pages it has."""
    file, image = os.path.join(folder, "file"), os.path.join(folder, "image.pbm")
    count = kib * 1024 // len(page)
    with open(file, "wb") as output:
        output.write(page * count)
    seconds, status = timed("decode", *words, "--page", str(count), file, image)
    assert status == 0
    return seconds, count


def each_page(folder, words, page, kib):
    """The seconds for the images of the pages before the rest of a file, and how many they are."""
    file = os.path.join(folder, "file")
    with open(file, "wb") as output:
        output.write(page * PAGES + b"\xff" * (kib * 1024))
    with tempfile.TemporaryDirectory() as images:
        seconds, status = timed("decode", *words, "--each", images, file)
        assert status == 1 and sum(len(files) for _, _, files in os.walk(images)) == PAGES
    return seconds, PAGES


def measure(folder, code, order):
    """Prints both rows of a code and an order, and returns whether they grow with the file alone."""
    row, coded = os.path.join(folder, "row.pbm"), os.path.join(folder, "page")
    with open(row, "wb") as output:
        output.write(b"P4\n%d 1\n" % WIDTH + bytes(WIDTH // 8))
    subprocess.run([PROGRAM, "code", "--code", code, "--order", order, row, coded], check=True)
    with open(coded, "rb") as file:
        page = file.read()
    words = ["--code", code, "--order", order, "--width", str(WIDTH)]
    linear = True
    for what, of in (("--page", last_page), ("--each", each_page)):
        times = [min(of(folder, words, page, kib) for _ in range(3)) for kib in KIB]
        linear = linear and times[-1][0] <= MOST ** (len(KIB) - 1) * max(times[0][0], LEAST)
        cells = " | ".join(f"{seconds:.3f} ({count:,})" for seconds, count in times)
        print(f"| {code} {order} {what} | {cells} |", flush=True)
    return linear


def main():
    print(f"| Seconds (pages) | {' | '.join(f'{kib} KiB' for kib in KIB)} |\n|---|{'---|' * len(KIB)}")
    with tempfile.TemporaryDirectory() as folder:
        return 0 if all([measure(folder, code, order) for code in ("mmr", "mh") for order in ("msb", "lsb")]) else 1


if __name__ == "__main__":
    sys.exit(main())
