#!/usr/bin/env python3
"""Decodes every page of random files by `faxtool decode --each`, and compares what it says and writes with a second reading:

    bench/fuzz/fuzz_each.py --times N [--seed S]

The program is crates/faxtool/out/faxtool, or the one that FAXTOOL names. A run has one to five files of one code, width and bit order, each
of one to three pages one after the other, whole or cut at an octet of the last one. The line of each file, up to its fault, the images and
the status have to be the same, with `--salvage` and without, with `--whole` and without. With `--repair` octets of the last page are
random, and the images are those of `decode --repair --page N`. The lines under a file's line are what `decode --page N` writes of each page
alone on standard error. Ends with status 1 at the first run that differs."""

import argparse
import random
import re
import subprocess
import sys
import tempfile
from collections import Counter
from pathlib import Path

sys.dont_write_bytecode = True
sys.path.insert(0, str(Path(__file__).resolve().parent))
from fuzz_calls import PROGRAM  # noqa: E402
from fuzz_captures import image_of  # noqa: E402
from fuzz_stream import octets_of  # noqa: E402
from reference_pages import prescribed, random_rows, read_rows  # noqa: E402

TURNED = bytes(int(f"{octet:08b}"[::-1], 2) for octet in range(256))


def file_of(rand, width, is_t6):
    """Pages, the octets of their file, the most significant bit first, and how many octets of the last page are left."""
    pages = [random_rows(rand, width, rand.randint(1, 4)) for _ in range(rand.choice([1, 1, 2, 3]))]
    # octets_of has the first bit as the least significant one
    codes = [octets_of(prescribed(rows, width, is_t6)).translate(TURNED) for rows in pages]
    left = len(codes[-1]) if rand.random() < 0.5 else rand.randint(1, len(codes[-1]))
    return pages, b"".join(codes[:-1]) + codes[-1][:left], codes[-1][:left]


def ran(folder, *words):
    """A run of `decode`, which ends with status 0 or 1."""
    done = subprocess.run([PROGRAM, "decode", *words], cwd=folder, capture_output=True, text=True, timeout=60)
    if done.returncode not in (0, 1):
        sys.exit(f"decode {' '.join(words)} ended with status {done.returncode}: {folder}")
    return done


def alone(folder, words, name, number):
    """What `decode` writes of one page of a file alone, as the lines under the file's line; its status, and its image."""
    Path(folder, "one.pbm").unlink(missing_ok=True)
    done = ran(folder, *words, "--page", str(number), name, "one.pbm")
    lines = [f"    page {number}: {line}" for line in done.stderr.splitlines() if not line.startswith("fault ")]
    image = Path(folder, "one.pbm")
    return lines, done.returncode, image.read_bytes() if image.exists() else None


def expected(name, pages, last, width, is_t6, salvage):
    """What is said of a file up to its fault, if nothing is said of its pages; how many pages are decoded, its images by their names, and
    whether it has no fault."""
    bits = "".join(f"{octet:08b}" for octet in last)
    rows, is_page = read_rows(bits, width, is_t6)
    images = {f"{name}-{number:04}.pbm": image_of(page, width) for number, page in enumerate(pages[:-1], 1)}
    if len(pages) > 1 and not any(last):
        # 0 bits after a page are no page
        return f"{name}: whole {len(pages) - 1} pages", len(pages) - 1, images, True
    if is_page or (salvage and rows):
        images[f"{name}-{len(pages):04}.pbm"] = image_of(rows, width)
    said = f"whole {len(pages)} pages" if is_page else f"cut at row {len(rows) + 1} of page {len(pages)}"
    return f"{name}: {said}", len(pages), images, is_page


def each(folder, words, names):
    """What `decode --each` gives: its lines up to a fault, its images by their names, and its status."""
    out = Path(folder, "out")
    out.mkdir()
    done = ran(folder, "--each", "out", *words, *names)
    said = [line.split(": fault")[0] for line in done.stdout.splitlines()]
    return said, {file.name: file.read_bytes() for file in out.iterdir()}, done.returncode


def differs_repaired(rand, folder, words, kinds):
    """How `--repair` of one file, of which octets are random, differs from that of each of its pages alone, if it does."""
    name, is_t6 = "file", "mmr" in words
    pages, octets, last = file_of(rand, int(words[3]), is_t6)
    broken = bytearray(octets)
    for _ in range(rand.randint(0, 2)):
        broken[len(octets) - rand.randint(1, len(last))] = rand.randint(0, 255)
    Path(folder, name).write_bytes(broken.translate(TURNED) if "lsb" in words else broken)
    said, stored, status = each(folder, words, [name])
    lines, images, statuses = [], {}, []
    numbers = [file.split("-")[1].split(".")[0] for file in stored] + re.findall(r"page (\d+)", said[0])
    count = max(map(int, numbers), default=1)
    for number in range(1, count + 1):
        told, ended, image = alone(folder, words, name, number)
        lines += told
        statuses.append(ended)
        images |= {f"{name}-{number:04}.pbm": image} if image else {}
    kinds["repaired" if " repaired " in said[0] or lines else "read"] += 1
    if said[1:] != lines or stored != images or status != max(statuses):
        return f"{' '.join(words)}: it says {said} with status {status}, and not {lines} with {statuses}, or other images"
    is_whole = said[0].startswith(f"{name}: whole ")
    return f"{' '.join(words)}: {said[0]}, and {lines}" if is_whole and (lines or status) else ""


def differs(rand, folder, kinds):
    """How the program's answer to random files differs from the reading, if it does."""
    width, is_t6, is_lsb, salvage = rand.choice([200, 315, 1728]), rand.random() < 0.5, rand.random() < 0.5, rand.random() < 0.5
    words = ["--code", "mmr" if is_t6 else "mh", "--width", str(width), "--order", "lsb" if is_lsb else "msb"] + ["--whole"] * (rand.random() < 0.3)
    if rand.random() < 0.3:
        return differs_repaired(rand, folder, [*words, "--repair"], kinds)
    words += ["--salvage"] * salvage
    names, lines, images, status = [], [], {}, 0
    for number in range(rand.randint(1, 5)):
        name = f"file{number}"
        pages, octets, last = file_of(rand, width, is_t6)
        Path(folder, name).write_bytes(octets.translate(TURNED) if is_lsb else octets)
        line, count, found, is_read = expected(name, pages, last, width, is_t6, salvage)
        told = []
        for page in range(1, count + 1):
            of_page, ended, _ = alone(folder, words, name, page)
            told += of_page
            status = max(status, ended)
        names.append(name)
        lines += [f"{name}: {count} pages, and one or more has no end" if told and is_read else line, *told]
        images |= found
        status = max(status, 0 if is_read else 1)
        kinds["open" if told and is_read else line.split()[1]] += 1
    said, stored, ended = each(folder, words, names)
    if said != lines:
        return f"{' '.join(words)}: it says {said} and not {lines}"
    if stored != images:
        return f"{' '.join(words)}: images {sorted(stored)} and {sorted(images)}, or other pixels"
    return "" if ended == status else f"{' '.join(words)}: status {ended} and not {status}"


def main():
    parser = argparse.ArgumentParser()
    parser.add_argument("--times", type=int, required=True)
    parser.add_argument("--seed", type=int, default=8)
    asked = parser.parse_args()
    kinds = Counter()
    for number in range(asked.times):
        rand = random.Random(f"{asked.seed} {number}")
        with tempfile.TemporaryDirectory(prefix="fuzz-each-") as folder:
            why = differs(rand, folder, kinds)
        if why:
            print(f"run {number} of seed {asked.seed}: {why}")
            return 1
    print(f"{asked.times} runs: {', '.join(f'{count} {kind}' for kind, count in sorted(kinds.items()))}")
    return 0


if __name__ == "__main__":
    sys.exit(main())
