#!/usr/bin/env python3
"""Prints large.sums of the pages that make_large.py has written into the folder that is this script's word: a page, its code,
the order of the bits, and the checksum and the length in octets that `cksum` prints. The codes are those of netpbm's pbmtog3
and of libtiff by netpbm's pnmtotiff (Debian packages netpbm and libtiff-tools), with no code of this repository."""

import struct
import subprocess
import sys
from pathlib import Path

EOL = "000000000001"


def made(words, page):
    return subprocess.run([*words, page], check=True, capture_output=True).stdout


def mh(page):
    """The bits of the T.4 code: without the last of the seven EOLs that pbmtog3 ends with."""
    octets = made(["pbmtog3", "-nofixedwidth"], page)
    bits = f"{int.from_bytes(octets, 'big'):0{8 * len(octets)}b}".rstrip("0")
    assert bits.endswith(7 * EOL)
    return bits[: -len(EOL)]


def mmr(page):
    """The bits of the T.6 code: those of the one strip that libtiff writes, up to the end of EOFB."""
    file = made(["pnmtotiff", "-g4", "-msb2lsb", "-rowsperstrip", "100000"], page)
    order = "<" if file[:2] == b"II" else ">"
    at = struct.unpack_from(order + "I", file, 4)[0]
    count = struct.unpack_from(order + "H", file, at)[0]
    tags = {}
    for entry in range(at + 2, at + 2 + 12 * count, 12):
        tag, kind, values = struct.unpack_from(order + "HHI", file, entry)
        assert values == 1 or tag not in (273, 279)
        tags[tag] = struct.unpack_from(order + ("H" if kind == 3 else "I"), file, entry + 8)[0]
    octets = file[tags[273] : tags[273] + tags[279]]
    bits = f"{int.from_bytes(octets, 'big'):0{8 * len(octets)}b}".rstrip("0")
    assert bits.endswith(2 * EOL)
    return bits


def summed(bits, order):
    """What `cksum` prints of the octets of the bits."""
    filled = bits + -len(bits) % 8 * "0"
    if order == "msb":
        octets = int(filled, 2).to_bytes(len(filled) // 8, "big")
    else:
        octets = int(filled[::-1], 2).to_bytes(len(filled) // 8, "little")
    return subprocess.run(["cksum"], check=True, capture_output=True, input=octets).stdout.decode().strip()


def main():
    folder = Path(sys.argv[1])
    for name, code, order in (
        ("large", mh, "lsb"),
        ("large", mh, "msb"),
        ("large", mmr, "lsb"),
        ("large", mmr, "msb"),
        ("long", mh, "lsb"),
        ("long", mmr, "msb"),
    ):
        print(name, code.__name__, order, summed(code(folder / f"{name}.pbm"), order))


main()
