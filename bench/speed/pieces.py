#!/usr/bin/env python3
"""Counts the instructions of reading rows that come in pieces: does work grow with the octets alone?

    bench/speed/pieces.py [PIECE] [FILE.mh:ROWS|FILE.mmr:ROWS ..]

Pieces have PIECE octets, 256 if no number is given. Of rows that don't end (only 0 bits in T.6, and in T.4 runs of no pixels, fill, fill
after an EOL, and fill after a row and three EOLs) and of combs (comb in T.4, comb6 in T.6), read by a `PageReader`, as a station does, and by
a `RowReader`, and of a page that is repaired, a comb and lines of one bit, prints the instructions for each octet of 16, 32 and 64 KiB,
counted by valgrind's callgrind. Ends with status 1 if one takes more than 1.1 times as many an octet. Then, row by row, of combs and of
docs/examples/a4.mmr, or of coded pages of 1,728 pixels and these rows, prints the instructions for each octet in pieces of 1, 7, 36, 256 and
4,096 octets and in one piece. Ends with status 1 too if pieces of 36 of a page of T.6 take more than 2.5 times as many as one piece. Builds
bench/speed/pieces without proof, so the figures are above those of proved crates, or LIBRARY names its libpieces.a. Needs cc and
valgrind."""

import os
import re
import subprocess
import sys
import tempfile

HERE = os.path.dirname(os.path.abspath(__file__))
TOP = os.path.dirname(os.path.dirname(HERE))
SIZES = [16, 32, 64]
PIECES = [1, 7, 36, 256, 4096, 1 << 22]
PAGES = [os.path.join(TOP, "docs", "examples", "a4.mmr:2287")]


def build_library(folder):
    copy = os.path.join(folder, "copy")
    os.mkdir(copy)
    subprocess.run(["cp", "-r", *(os.path.join(TOP, name) for name in ("crates", "crates.txt", "HANDLES")), copy], check=True)
    crate = os.path.join(copy, "crates", "pieces")
    os.makedirs(os.path.join(crate, "src"))
    with open(os.path.join(HERE, "pieces", "libraries.txt")) as file:
        libraries = file.read().strip()
    with open(os.path.join(copy, "crates.txt"), "a") as file:
        file.write(f"pieces staticlib: {libraries}\n")
    subprocess.run(["cp", os.path.join(HERE, "pieces", "lib.txt"), os.path.join(crate, "src", "pieces.rt")], check=True)
    with open(os.path.join(crate, "src", "lib.rt"), "w") as file:
        file.write("//! Octets of a page that come in pieces.\n#![tactic(auto)]\n\nmod pieces;\n")
    library = os.path.join(folder, "libpieces.a")
    words = [os.path.join(TOP, "packaging", "build_unproved.sh"), crate, library, "--library"]
    subprocess.run(words, check=True, stdout=subprocess.DEVNULL)
    return library


def counted(program, *words):
    call = ["valgrind", "--tool=callgrind", "--toggle-collect=counted", "--callgrind-out-file=/dev/null", program, *words]
    said = subprocess.run(call, check=True, capture_output=True, text=True)
    return int(re.search(r"Collected : (\d+)", said.stderr).group(1))


def tried(program, name, size, words):
    """Prints what each piece takes, and returns whether those of 36 octets of a page of T.6 take too much."""
    each = [counted(program, *words, str(piece)) / size for piece in PIECES]
    bad = not name.endswith((".mh", "comb")) and each[PIECES.index(36)] > 2.5 * each[-1]
    print(f"{name}, pieces of 1, 7, 36, 256, 4,096, whole: {', '.join(f'{count:.0f}' for count in each)}{' !' if bad else ''}", flush=True)
    return bad


def main():
    words = sys.argv[1:]
    piece = words.pop(0) if words and words[0].isdigit() else "256"
    grows = False
    with tempfile.TemporaryDirectory() as folder:
        library = os.environ.get("LIBRARY") or build_library(folder)
        program = os.path.join(folder, "main")
        memory = os.path.join(os.environ.get("KIT", "/opt/rattle"), "c", "liblibc_c.a")
        options = ["-std=gnu11", "-O1", "-Wall", "-Wextra", os.path.join(HERE, "pieces", "main.c"), library, memory, "-o", program]
        subprocess.run([os.environ.get("CC", "cc"), *options], check=True)
        ways = [(row, reader) for row in ("zeros", "runs", "fill", "eol", "end", "comb", "comb6") for reader in ("page", "rows")]
        for row, reader in [*ways, ("broken", "repair")]:
            each = [counted(program, row, reader, str(size), piece) / (1024 * size) for size in SIZES]
            bad = each[-1] > 1.1 * each[0]
            grows = grows or bad
            print(f"{row}, {reader}: {', '.join(f'{count:.1f}' for count in each)}{' !' if bad else ''}", flush=True)
        for row in ("comb", "comb6"):
            grows = tried(program, row, 16 * 1024, [row, "rows", "16"]) or grows
        for page in words or PAGES:
            file, rows = page.rsplit(":", 1)
            grows = tried(program, os.path.basename(file), os.path.getsize(file), [file, "rows", rows]) or grows
    return 1 if grows else 0


sys.exit(main())
