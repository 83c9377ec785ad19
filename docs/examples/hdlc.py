"""Frames as the bits of a line: flags, stuffed bits and check sequences, for the programs beside it. Bits are a text of 0 and 1."""

import binascii

FLAG = "01111110"


def bits_of(octets):
    """The bits of octets, the least significant of each first."""
    return f"{int.from_bytes(octets, 'little'):0{8 * len(octets)}b}"[::-1] if octets else ""


def octets_of(bits):
    """The octets of bits; spare bits of the last one are 0."""
    return int(bits[::-1] or "0", 2).to_bytes(-(-len(bits) // 8), "little")


def check_sequence(bits):
    """The 16 bits that follow those of a content: T.30's polynomial is that of XMODEM, over the bits as they are sent."""
    return f"{binascii.crc_hqx(int(bits, 2).to_bytes(len(bits) // 8, 'big'), 0xFFFF) ^ 0xFFFF:016b}"


def frame(content, is_good=True):
    """The bits of a frame with its two flags. The check sequence of a bad one is wrong in each bit."""
    bits = bits_of(content)
    check = check_sequence(bits)
    bits += check if is_good else check.translate({ord("0"): "1", ord("1"): "0"})
    return FLAG + bits.replace("11111", "111110") + FLAG


def gaps(bits):
    """Where each run of bits between two flags begins and ends; a flag may share its first 0 with the one before."""
    flag = bits.find(FLAG)
    while flag >= 0:
        following = bits.find(FLAG, flag + 7)
        if following > flag + 8:
            yield flag + 8, following
        flag = following


def content(gap):
    """The content of the frame between two flags, if it is good: whole octets, three at least, with a right check sequence."""
    plain = gap.replace("111110", "11111")
    if "111111" in gap or len(plain) % 8 or len(plain) < 40 or check_sequence(plain[:-16]) != plain[-16:]:
        return None
    return octets_of(plain[:-16])
