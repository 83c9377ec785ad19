#!/usr/bin/env python3
"""Runs a station and logs each good frame that it says and hears, for `faxtool judge`.

    tap.py LOG COMMAND ..        as: tap.py call.log faxtool station --call page.pbm

It stands in place of the station: lines go in and out as they are, and the exit status is the station's. A line of the log is
`T caller HEX` or `T answerer HEX`. T is the time of the line with the frame, or of the line that it answers.

A caller's log is judged by all rules. An answerer's lacks what it didn't hear: uncounted, rcp-count and not-sent-again say nothing of a
caller there. A burst that is dropped before it is sent is logged like the others."""

import contextlib
import subprocess
import sys

from hdlc import bits_of, content, gaps


def contents(words):
    """The contents of the good frames of a burst, by its words; none of words that are no burst."""
    with contextlib.suppress(ValueError):
        _carrier, kind, *rest = words
        if kind == "frames":
            return [bytes.fromhex(word) for word in rest]
        if kind == "hdlc":
            number, octets = rest
            bits = bits_of(bytes.fromhex(octets))[: int(number)]
            return [each for begin, end in gaps(bits) if (each := content(bits[begin:end]))]
    return []


def answers(station, line):
    """The lines with which the station answers a line; none once it has ended."""
    with contextlib.suppress(BrokenPipeError):
        station.stdin.write(line)
        station.stdin.flush()
    for answer in iter(station.stdout.readline, ""):
        yield answer
        if answer.split()[0] in ("wait", "done"):
            return


def main():
    if len(sys.argv) < 3:
        sys.exit(__doc__)
    own, other = ("caller", "answerer") if "--call" in sys.argv else ("answerer", "caller")
    station = subprocess.Popen(sys.argv[2:], stdin=subprocess.PIPE, stdout=subprocess.PIPE, text=True)
    with open(sys.argv[1], "w", encoding="ascii") as log:

        def logs(time, side, words):
            log.writelines(f"{time} {side} {each.hex().upper()}\n" for each in contents(words))
            log.flush()

        for line in sys.stdin:
            word, time, *words = [*line.split(), "", ""]
            if word == "rx":
                logs(time, other, words[:-2])
            for answer in answers(station, line):
                print(answer, end="", flush=True)
                if answer.startswith("tx "):
                    logs(time, own, answer.split()[1:])
    with contextlib.suppress(BrokenPipeError):
        station.stdin.close()
    return station.wait()


if __name__ == "__main__":
    sys.exit(main())
