#!/usr/bin/env python3
"""Writes the bits of a line to line.bits, eight an octet, the least significant first: frames with the check sequence by
long division over the bits, fill between them, an aborted gap, and a damaged, a short and a ragged one."""

CONTENTS = """FF1380006EFA44
FF13830022F844
FF1383002AF844
FF13830012F844
FF1384
FF1344
FF03060001100001
FF0386
FF13BF2F000000
FF13BF000000FF
FF13BF8F010203
FF13BF01000000
FF13BCFA""" + 31 * "FF" + """
FF138C
FF13EC
FF136F
FF13FB
FF1380006E
FE138C
FF128C
FF1383
FF13800040F940
FF1380000AF804
FF13800006F800
FF1380000EF800
FF138000EEFAC48010
FF13830026F94C
FF1383002EFA04
FF13830046F80C
FF1383000EF844
FF1383000AF844
FF13830002F844
FF13830062F844
FF13FA
FF130F
FF13A0
FF0306C8010203
FF13BF000114FF
FF13BF4F0114FF
FF13BF2F0114FF
FF13BF8E0114FF
FF13BF900114FF
FF13BC""" + 32 * "FF" + """
FF03403031323334353637383930313233343536373839
FF13830022"""

FLAG = [0, 1, 1, 1, 1, 1, 1, 0]
GENERATOR = [1, 0, 0, 0, 1, 0, 0, 0, 0, 0, 0, 1, 0, 0, 0, 0, 1]


def bits_of(octets):
    return [octet >> place & 1 for octet in octets for place in range(8)]


def check(bits):
    """The remainder of the bits, the first 16 of them complemented, and 16 bits 0, complemented, in order of sending."""
    left = [1 - bit for bit in bits[:16]] + bits[16:] + 16 * [0]
    for at in range(len(bits)):
        if left[at]:
            for place, bit in enumerate(GENERATOR):
                left[at + place] ^= bit
    return [1 - bit for bit in left[-16:]]


def stuffed(bits):
    out, ones = [], 0
    for bit in bits:
        out.append(bit)
        ones = ones + 1 if bit else 0
        if ones == 5:
            out.append(0)
            ones = 0
    return out


def frame(content):
    bits = bits_of(content)
    return FLAG + stuffed(bits + check(bits)) + FLAG


def main():
    line = [1, 1, 0, 1]
    for number, text in enumerate(CONTENTS.split("\n")):
        line += frame(bytes.fromhex(text)) + number % 8 * [0]
    mcf = frame(bytes.fromhex("FF138C"))
    line += mcf[:24] + [1 - mcf[24]] + mcf[25:]
    line += FLAG + bits_of([0xFF]) + FLAG
    line += FLAG + bits_of([1, 2, 3]) + FLAG
    line += FLAG + bits_of([1, 2, 3, 4, 5]) + [0] + FLAG
    line += frame(bytes(300 * [0x55])) + frame(bytes(301 * [0x55]))
    line += -len(line) % 8 * [0]
    octets = [sum(bit << place for place, bit in enumerate(line[at : at + 8])) for at in range(0, len(line), 8)]
    with open("line.bits", "wb") as file:
        file.write(bytes(octets))


if __name__ == "__main__":
    main()
