#!/usr/bin/env python3
"""Makes the log of a call, as misbehave.py writes it, from what libspandsp logs of its T.30 (SPAN_LOG_FLOW):

    spandsp2log.py < spandsp.log > log

Each frame stands behind `Tx:` or `Rx:` in hexadecimal digits; what a program puts before it is passed over, but for a time such as
12:34:56.789, which becomes milliseconds of the day. Without one a frame's time is the number of its line. libspandsp logs a frame that it
says, and each good one that it hears; a frame of data octets fits, a longer line is cut there and passed over here."""

import re
import sys

FRAME = re.compile(r"\b([TR])x: +((?:[0-9a-f]{2} )*[0-9a-f]{2}) *$")
TIME = re.compile(r"\b(\d\d):(\d\d):(\d\d)(\.\d+)?")
DIS, DCS = 0x80, 0x82


def frames(lines):
    """The time, the side, T or R, and the content of each frame."""
    for count, line in enumerate(lines, 1):
        found, time = FRAME.search(line), TIME.search(line)
        if found and len(found[2]) < 3 * 262:
            hours, minutes, seconds, rest = time.groups() if time else (0, 0, 0, None)
            at = ((int(hours) * 60 + int(minutes)) * 60 + int(seconds)) * 1000 + round(float(rest or 0) * 1000)
            yield at if time else count, found[1], bytes.fromhex(found[2])


def main():
    heard = list(frames(sys.stdin))
    # who says a DIS answers, who says a DCS calls
    first = next(((side, said[2] == DIS) for _at, side, said in heard if len(said) > 2 and (said[2] == DIS or said[2] & 0xFE == DCS)), None)
    if not first:
        sys.exit("spandsp2log.py: there is no DIS and no DCS")
    for at, side, said in heard:
        print(at, "answerer" if (side == first[0]) == first[1] else "caller", said.hex().upper())


if __name__ == "__main__":
    main()
