#!/usr/bin/env python3
"""Tries `faxtool frames --explain` and `--order` on frames with random DIS, DCS, PPS and PPR, and on frames of other stations:

    try_words.py PROGRAM WORK

The words of each frame are put together here, from the bit numbers of T.30, table 2, and the names of bench/fuzz/frame_names.py, and
compared with what the program prints; and the same octets with their bits in the other order are listed alike by `--order msb`. Ends with
status 1 where something differs. It needs Python's standard library alone."""

import json
import random
import subprocess
import sys
from pathlib import Path

sys.dont_write_bytecode = True
sys.path.insert(0, str(Path(__file__).resolve().parent.parent.parent / "bench" / "fuzz"))
from frame_names import OTHERS  # noqa: E402

MODEMS = {"0100": "V.27 ter", "1000": "V.29", "1100": "V.27 ter, V.29", "1101": "V.27 ter, V.29, V.17"}
SPEEDS = {
    "0000": "V.27 ter at 2400", "0100": "V.27 ter at 4800", "1000": "V.29 at 9600", "1100": "V.29 at 7200", "0001": "V.17 at 14400",
    "0101": "V.17 at 12000", "1001": "V.17 at 9600", "1101": "V.17 at 7200",
}
ENDS = {
    0x00: "the page goes on", 0x4F: "the page ends, and another one follows",
    0x8F: "the page ends, and another one follows after a new DIS", 0x2F: "the last page ends",
}

WITH_SIGNS = {"CSI", "CIG", "TSI", "SEP", "SID", "PWD", "SUB"}

# the controls of the stations' signals
OWN = {0x80, 0x82, 0x83, 0x84, 0x85, 0x44, 0x45, 0x06, 0x86, 0xBE, 0xBF, 0xBC, 0xBD, 0x8C, 0x8D, 0xEC, 0xED, 0x6E, 0x6F, 0xFA, 0xFB}

UNREAD = sorted(OTHERS.keys() - OWN)


def bit(fields, number):
    at = number - 1
    return at // 8 < len(fields) and fields[at // 8] >> at % 8 & 1


def some(fields, first, last):
    return "".join(str(bit(fields, number)) for number in range(first, last + 1))


def others(fields, read):
    found = [str(number) for number in range(1, 8 * len(fields) + 1) if bit(fields, number) and number not in read]
    return f"; other bits {', '.join(found)}" if found else ""


def late(fields, number):
    return bit(fields, 24) and bit(fields, number)


def dis_words(fields):
    widest = {"00": 1728, "10": 2048}.get(some(fields, 17, 18), 2432)
    words = ["receives" if bit(fields, 10) else "doesn't receive", MODEMS.get(some(fields, 11, 14), "V.27 ter at 2400 bit/s"),
             "fine lines" if bit(fields, 15) else "standard lines", f"up to {widest} pixels",
             "T.6" if late(fields, 31) else "T.4 one-dimensional",
             "error correction" if late(fields, 27) else "no error correction"]
    return "; ".join(words) + others(fields, {10, 11, 12, 13, 14, 15, 17, 18, 24, 27, 31})


def dcs_words(fields):
    """Its name of a DCS that no station here reads."""
    speed, width = SPEEDS.get(some(fields, 11, 14)), {"00": 1728, "10": 2048, "01": 2432}.get(some(fields, 17, 18))
    if speed is None or width is None or not late(fields, 27) or bit(fields, 16) and not late(fields, 31):
        return "DCS"
    words = [f"{speed} bit/s", "fine lines" if bit(fields, 15) else "standard lines", f"{width} pixels",
             "T.6" if late(fields, 31) else "T.4 one-dimensional", f"frames of {64 if late(fields, 28) else 256} octets"]
    return "; ".join(words) + others(fields, {11, 12, 13, 14, 15, 16, 17, 18, 24, 27, 28, 31})


def ppr_words(fields):
    marked = [number for number in range(256) if bit(fields, number + 1)]
    ranges = []
    for number in marked:
        if ranges and ranges[-1][1] == number - 1:
            ranges[-1][1] = number
        else:
            ranges.append([number, number])
    texts = [str(first) if first == last else f"{first} to {last}" for first, last in ranges]
    return f"again: frames {', '.join(texts)}" if texts else "again: frames"


def words_of(content):
    control, fields = content[2], content[3:]
    if control == 0x80:
        return dis_words(fields)
    if control in (0x82, 0x83):
        return dcs_words(fields)
    if control in (0xBE, 0xBF) and fields[0] in ENDS:
        return f"page {fields[1]}, block {fields[2]}; frames 0 to {fields[3]}; {ENDS[fields[0]]}"
    if control in (0xBC, 0xBD):
        return ppr_words(fields)
    name = OTHERS.get(control)
    # the last sign is sent first
    signs = "".join(chr(octet) if chr(octet) in "0123456789+*# " else "?" for octet in reversed(fields)).lstrip(" ")
    return f"{name}: {signs}" if name in WITH_SIGNS else name


def check(content):
    register = 0xFFFF
    for octet in content:
        register ^= octet
        for _ in range(8):
            register = register >> 1 ^ 0x8408 if register & 1 else register >> 1
    register ^= 0xFFFF
    return bytes((register & 255, register >> 8))


def frame(content):
    ones, bits = 0, "01111110"
    for octet in content + check(content):
        for at in range(8):
            one = octet >> at & 1
            bits += str(one)
            ones = ones + 1 if one else 0
            if ones == 5:
                bits, ones = bits + "0", 0
    return bits + "01111110"


def random_content(draw):
    map_of = bytes(draw.choice((0, 0, 255, draw.randrange(256))) for _ in range(32))
    return draw.choice((
        lambda: b"\xFF\x13\x80" + draw.randbytes(draw.choice((3, 4, 4, 7, 12))),
        lambda: b"\xFF\x13\x83" + bytes((0, draw.randrange(256) & 0x7F, draw.randrange(256) & 0xFC | 0x80, draw.randrange(256) | 4)),
        lambda: b"\xFF\x13\xBF" + bytes((draw.choice(list(ENDS)), draw.randrange(256), draw.randrange(256), draw.randrange(256))),
        lambda: b"\xFF\x13\xBF" + bytes((draw.choice((0x9F, 0x5F, 0x3F, 0xFF)), 0, 0, 255)),
        lambda: b"\xFF\x13\xBC" + map_of,
        lambda: b"\xFF\x13\x8C",
        lambda: b"\xFF\x13" + bytes((draw.choice(UNREAD),)) + "+49 30 12 34*#".rjust(20).encode()[::-1],
        lambda: b"\xFF\x13" + bytes((draw.choice(UNREAD),)) + draw.randbytes(draw.choice((0, 1, 5, 20))),
    ))()


def run(program, *words):
    done = subprocess.run((program, "frames", *words), capture_output=True, check=True)
    return done.stdout.decode(), done.stderr.decode()


def main(program, work):
    draw = random.Random(30)
    contents = [random_content(draw) for _ in range(300)]
    contents += [b"\xFF\x13\xBC" + bytes(32), b"\xFF\x13\xBC" + b"\xFF" * 32, b"\xFF\x13\xBC" + bytes((8,)) + bytes((0, 14)) + bytes(28) + b"\x80"]
    contents += [b"\xFF\x13" + bytes((octet,)) + b" 4321  " for octet in range(256) if octet not in OWN]
    bits = "".join(map(frame, contents))
    bits += "0" * (-len(bits) % 8)
    lsb, msb = f"{work}/words.lsb", f"{work}/words.msb"
    with open(lsb, "wb") as file:
        file.write(bytes(int(bits[at:at + 8][::-1], 2) for at in range(0, len(bits), 8)))
    with open(msb, "wb") as file:
        file.write(bytes(int(bits[at:at + 8], 2) for at in range(0, len(bits), 8)))
    plain, _error = run(program, lsb)
    explained, _error = run(program, "--explain", lsb)
    wanted, lines = [], plain.splitlines()
    if len(lines) != len(contents) + 1:
        sys.exit(f"{len(lines)} lines of {len(contents)} frames")
    for line, content in zip(lines, contents):
        wanted.append(line)
        words = words_of(content)
        if words is not None:
            wanted.append(f"    {words}")
    wanted.append(lines[-1])
    for have, want in zip(explained.splitlines(), wanted):
        if have != want:
            sys.exit(f"other words:\n{have}\n{want}")
    if explained.splitlines() != wanted:
        sys.exit("lines are missing")
    records = [json.loads(line) for line in run(program, "--json", lsb)[0].splitlines()]
    others = [(record["content"][4:6], record["says"].get("name")) for record in records if record.get("says", {}).get("signal") == "other"]
    if [(field, OTHERS.get(int(field, 16))) for field, _ in others] != others or len(others) < len(UNREAD):
        sys.exit("--json has other names")
    for words in ((), ("--explain",)):
        turned, error = run(program, *words, "--order", "msb", msb)
        if turned != (explained if words else plain) or error:
            sys.exit("--order msb lists other lines")
    for order, name in (("lsb", msb), ("msb", lsb)):
        _listed, error = run(program, "--order", order, name)
        other = {"lsb": "msb", "msb": "lsb"}[order]
        if error != f"no good frame: try --order {other}\n":
            sys.exit(f"other words where no frame is found: {error}")
    for size, said in ((64, False), (65, True)):
        with open(f"{work}/words.none", "wb") as file:
            file.write(bytes(size))
        _listed, error = run(program, f"{work}/words.none")
        if bool(error) != said:
            sys.exit(f"{size} octets with no frame: {error}")
    print(f"end to end: {len(contents)} frames in words, in both orders")


if __name__ == "__main__":
    main(*sys.argv[1:])
