#!/usr/bin/env python3
"""One real end of a call: `faxtool station` on one side, your modem's program on the other, by a socket. Keeps the time, and drops answers
that the other side has spoken into.

    driver.py SOCKET faxtool station --answer --out DIR --late 2000

To the modem's program goes a line `tx CARRIER KIND BITS HEX` for each burst, one at a time, and with --hear `hear CARRIER KIND`, what comes
first, when that changes. From it come lines: `sent` once a burst is on the line, `busy` when a carrier of the other side begins, `rx CARRIER
KIND BITS HEX` when it has ended, and `end` if the line drops. The exit status is the station's. It takes each option of a station but
--hold, since it keeps no pages."""

import contextlib
import select
import socket
import subprocess
import sys
import time

PAUSE, EACH = 75, 20  # milliseconds: of silence before a burst; between two `quiet`


def tell(station, line, bursts):
    """Writes a line to the station, and adds what it sends to the bursts. Whether it has ended, and what it hears first."""
    answer, hears = "", []
    # a station that ended by a fault reads no more
    with contextlib.suppress(BrokenPipeError):
        station.stdin.write(line + "\n")
        while (answer := station.stdout.readline().strip()).startswith(("tx ", "hear ")):
            (bursts if answer.startswith("tx ") else hears).append(answer)
    # with --hear the time stands behind it
    return not answer.startswith("wait"), hears[:1]


def say(modem, line):
    """Writes a line to the modem's program. That it has left is seen when it is read."""
    with contextlib.suppress(BrokenPipeError, ConnectionResetError):
        modem.sendall(f"{line}\n".encode())


def heard_of(modem):
    """The octets that the modem's program wrote; `end` once it has left."""
    with contextlib.suppress(ConnectionResetError):
        return modem.recv(1 << 16) or b"end\n"
    return b"end\n"


def main():
    if len(sys.argv) < 3 or "--hold" in sys.argv:
        sys.exit(__doc__)
    modem = socket.socket(socket.AF_UNIX)
    modem.connect(sys.argv[1])
    station = subprocess.Popen(sys.argv[2:], stdin=subprocess.PIPE, stdout=subprocess.PIPE, text=True, bufsize=1)
    began, free, heard, bursts, hears = time.monotonic(), 0, b"", [], []
    is_sending = is_hearing = is_over = False
    while not is_over or is_sending or bursts:
        line, rest, after = heard.partition(b"\n")
        if not rest and select.select([modem], [], [], EACH / 1000)[0]:
            heard += heard_of(modem)
            continue
        now = int((time.monotonic() - began) * 1000)
        word, _space, burst = line.decode().partition(" ") if rest else ("quiet", "", "")
        heard = after if rest else heard
        if word == "sent":
            is_sending, free = False, now + PAUSE
        if word in ("busy", "rx"):
            is_hearing, free = word == "busy", now + PAUSE
            bursts = [] if word == "busy" else bursts  # they answer what was said before
        if word == "end":
            bursts, is_sending = [], False
        if word == "quiet" and bursts and not is_sending and now >= free:
            say(modem, bursts.pop(0))
            is_sending = True
        if is_over or word == "sent" or (word == "quiet" and (is_sending or is_hearing or bursts)):
            continue
        is_over, first = tell(station, f"{word} {now} {burst}" if burst else f"{word} {now}", bursts)
        if first and first != hears:
            say(modem, (hears := first)[0])
    with contextlib.suppress(BrokenPipeError):
        station.stdin.close()
    return station.wait()


if __name__ == "__main__":
    sys.exit(main())
