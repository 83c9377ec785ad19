#!/usr/bin/env python3
"""Makes the log of a call, as misbehave.py writes it, from a session log of HylaFAX with a Class 1 modem:

    hylafax2log.py < c000000123 > log

SessionTracing must have the bits for HDLC frames, and for ECM frames. `<--` is said by HylaFAX, `-->` is heard; the first bit of an octet that is
sent is the highest here. What is heard, and data frames, have their check sequence: a frame that is heard with a wrong one is passed over."""

import re
import sys

from hdlc import check_sequence, octets_of

FRAME = re.compile(r"(\d\d):(\d\d):(\d\d\.\d+): \[ *\d+\]: (<--|-->) HDLC<\d+:((?:[0-9A-F]{2} )*[0-9A-F]{2})>$")
DIS, DCS = 0x80, 0x82


def frames(lines):
    """The time, `<--` or `-->`, and the content of each good frame."""
    for found in filter(None, map(FRAME.search, lines)):
        at = (int(found[1]) * 60 + int(found[2])) * 60000 + round(float(found[3]) * 1000)
        bits = "".join(f"{octet:08b}" for octet in bytes.fromhex(found[5]))
        is_checked = len(bits) > 39 and check_sequence(bits[:-16]) == bits[-16:]
        if is_checked or found[4] == "<--":
            yield at, found[4], octets_of(bits[:-16] if is_checked else bits)


def main():
    heard = list(frames(sys.stdin))
    # who says a DIS answers, who says a DCS calls
    first = next(((side, said[2] == DIS) for _at, side, said in heard if len(said) > 2 and (said[2] == DIS or said[2] & 0xFE == DCS)), None)
    if not first:
        sys.exit("hylafax2log.py: there is no DIS and no DCS")
    for at, side, said in heard:
        print(at, "answerer" if (side == first[0]) == first[1] else "caller", said.hex().upper())


if __name__ == "__main__":
    main()
