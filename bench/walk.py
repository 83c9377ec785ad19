#!/usr/bin/env python3
"""Counts what a reader of the code walks through: the functions of this repository that run for one page, one frame and one refusal.

    bench/walk.py PROGRAM

PROGRAM is a built `faxtool`. Each of three commands runs under valgrind's callgrind: `decode` of a page in T.6, `frames` of a line with
one FCD, and `decode` of a page that is cut short. For each it prints how many functions ran, in how many files, how many calls led from
one crate into another, and how many instructions the command took. A function that was built into another one isn't counted, nor is one
of a library. It needs valgrind (Debian's package) and Python's standard library."""

import re
import shutil
import subprocess
import sys
import tempfile
from collections import defaultdict
from pathlib import Path

TOP = Path(__file__).resolve().parent.parent
EXAMPLES = TOP / "docs" / "examples"
CRATES = {line.split(":")[0].split()[0] for line in (TOP / "crates.txt").read_text().splitlines() if line.strip()}
# An FCD of one octet of data, 2A, with its flags, as `hdlc` writes it; the address, 03 and the number 0 are before the data.
FCD = "FF 03 06 00 2A"


def content_bits(content):
    """A content as HDLC bits between two flags: the check sequence, a 0 after five 1 bits, the least significant bit first."""
    register = 0xFFFF
    for octet in content:
        for place in range(8):
            register = register >> 1 ^ (0x8408 if (register ^ octet >> place) & 1 else 0)
    check = register ^ 0xFFFF
    bits, ones = "", 0
    for octet in [*content, check & 0xFF, check >> 8]:
        for place in range(8):
            bit = octet >> place & 1
            bits += str(bit)
            ones = ones + 1 if bit else 0
            if ones == 5:
                bits, ones = bits + "0", 0
    return "01111110" * 2 + bits + "01111110" * 2


def octets_of(bits):
    """Bits as octets, the least significant bit first."""
    bits += "1" * (-len(bits) % 8)
    return bytes(int(bits[at : at + 8][::-1], 2) for at in range(0, len(bits), 8))


def walk(program, words, folder):
    """Runs a command, and tells its functions, files, calls between crates, and instructions."""
    profile = Path(folder) / "profile"
    command = ["valgrind", "--tool=callgrind", f"--callgrind-out-file={profile}", program, *words]
    subprocess.run(command, stdout=subprocess.DEVNULL, stderr=subprocess.DEVNULL)
    names, now, calls, total = {}, None, defaultdict(int), 0
    called = None
    for line in profile.read_text().splitlines():
        found = re.match(r"(c?fn)=\((\d+)\)(?: (.*))?$", line)
        if found:
            kind, number, name = found.groups()
            if name:
                names[number] = name
            if kind == "fn":
                now = number
            else:
                called = number
        elif line.startswith("calls="):
            calls[now, called] += int(line.split("=")[1].split()[0])
        elif line.startswith(("summary:", "totals:")):
            total = int(line.split()[1])

    def path(number):
        name = re.sub(r"<.*", "", names.get(number, ""))
        parts = name.replace("'2", "").split("::")
        return parts if parts[0] in CRATES and not parts[1:2] == [""] and "++" not in (parts[1] if len(parts) > 1 else "") else None

    ours = {number for number in names if path(number)}
    files = {"::".join(part for part in path(number)[:-1] if not part[:1].isupper()) for number in ours}
    across = sum(count for (one, other), count in calls.items() if one in ours and other in ours and path(one)[0] != path(other)[0])
    return len(ours), len(files), across, total


def main(words):
    if len(words) != 1:
        sys.exit(__doc__)
    if not shutil.which("valgrind"):
        sys.exit("walk: valgrind is missing: apt-get install valgrind")
    program = str(Path(words[0]).resolve())
    with tempfile.TemporaryDirectory() as folder:
        line = Path(folder) / "line.bits"
        line.write_bytes(octets_of(content_bits(bytes.fromhex(FCD))))
        made = str(Path(folder) / "made.pbm")
        page = ["--code", "mmr", "--width", "315"]
        runs = {
            "a page": ["decode", *page, str(EXAMPLES / "page.mmr"), made],
            "an FCD": ["frames", str(line)],
            "a refusal": ["decode", "--explain", *page, str(EXAMPLES / "cut.mmr"), made],
        }
        for name, run in runs.items():
            functions, files, across, total = walk(program, run, folder)
            print(f"{name}: {functions} functions, {files} files, {across} calls between crates, {total} instructions")


if __name__ == "__main__":
    main(sys.argv[1:])
