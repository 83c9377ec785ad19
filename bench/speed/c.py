#!/usr/bin/env python3
"""Counts the instructions of coding and reading pages through the library for C, beside those of the crates alone.

    bench/speed/c.py PAGE.pbm ..

The crates alone are bench/speed/c/lib.txt, a static library of two functions. Both begin with packed rows or octets in memory, and end with
such. Of each page prints millions of instructions by the crates, counted by valgrind's callgrind, and in brackets how many times as many go
through the library: for the whole page, with a ! where that is more than 1.03 and one instruction for each octet that is copied out; and
row by row. The most significant bit is first in the first table, the least significant one in the second. Builds both libraries, proved, or
LIBRARY names a folder with libg3fax.a, g3fax.h and libpage_bench.a. Needs cc and valgrind."""

import os
import re
import subprocess
import sys
import tempfile

HERE = os.path.dirname(os.path.abspath(__file__))
TOP = os.path.dirname(os.path.dirname(HERE))
KIT = os.environ.get("KIT", "/opt/rattle")
FUNCTIONS = ["crates_code", "library_code", "library_code_rows", "crates_read", "library_read", "library_read_rows"]


def build_libraries(folder):
    """The library for C, and the crates alone, which are made of a copy of the repository."""
    subprocess.run([os.path.join(TOP, "bindings", "build.sh"), folder], check=True)
    copy = os.path.join(folder, "copy")
    os.mkdir(copy)
    subprocess.run(["cp", "-r", *(os.path.join(TOP, name) for name in ("crates", "crates.txt", "HANDLES")), copy], check=True)
    crate = os.path.join(copy, "crates", "page_bench")
    os.makedirs(os.path.join(crate, "src"))
    with open(os.path.join(HERE, "c", "libraries.txt")) as file:
        libraries = file.read().strip()
    with open(os.path.join(copy, "crates.txt"), "a") as file:
        file.write(f"page_bench staticlib: {libraries}\n")
    subprocess.run(["cp", os.path.join(HERE, "c", "lib.txt"), os.path.join(crate, "src", "lib.rt")], check=True)
    subprocess.run([os.path.join(KIT, "bin", "rt"), "lib"], cwd=crate, check=True, stdout=subprocess.DEVNULL)
    subprocess.run(["cp", os.path.join(crate, "out", "libpage_bench.a"), folder], check=True)


def build(folder):
    library = os.environ.get("LIBRARY")
    if not library:
        library = os.path.join(folder, "library")
        os.mkdir(library)
        build_libraries(library)
    program = os.path.join(folder, "main")
    words = ["-std=gnu11", "-O1", "-Wall", "-Wextra", "-I", library, os.path.join(HERE, "c", "main.c")]
    archives = [os.path.join(library, name) for name in ("libpage_bench.a", "libg3fax.a")]
    subprocess.run([os.environ.get("CC", "cc"), *words, *archives, "-o", program], check=True)
    return program


def counted(program, page, code, order, function, folder):
    """The instructions of one of the functions, with those that it calls."""
    counts = os.path.join(folder, "counts")
    words = ["valgrind", "--tool=callgrind", f"--toggle-collect={function}", f"--callgrind-out-file={counts}", program, page, code, order]
    said = subprocess.run(words, check=True, capture_output=True, text=True)
    return int(re.search(r"Collected : (\d+)", said.stderr).group(1)), [int(word) for word in said.stdout.split()]


def cells(program, page, code, order, folder):
    """What is printed of coding and of reading a page."""
    count = {}
    for function in FUNCTIONS:
        count[function], (coded, packed) = counted(program, page, code, order, function, folder)
    for what, copied in (("code", coded), ("read", packed)):
        crates, whole = count[f"crates_{what}"], count[f"library_{what}"]
        rows = count[f"library_{what}_rows"]
        allowed = 1.03 * crates + copied
        yield f"{crates / 1e6:.2f} ({whole / crates:.3f}{'' if whole <= allowed else '!'}, {rows / crates:.2f})"


def main():
    with tempfile.TemporaryDirectory() as folder:
        program = build(folder)
        for order in ("msb", "lsb"):
            print(f"{order} first\n\n| | T.4 code | T.4 read | T.6 code | T.6 read |\n|---|---|---|---|---|", flush=True)
            for page in sys.argv[1:]:
                row = [cell for code in ("mh", "mmr") for cell in cells(program, page, code, order, folder)]
                print(f"| {os.path.basename(page).removesuffix('.pbm')} | {' | '.join(row)} |", flush=True)
            print()


main()
