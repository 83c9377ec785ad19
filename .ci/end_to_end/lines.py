#!/usr/bin/env python3
"""What a station says on standard error is whole lines, and none of it goes elsewhere:

    lines.py PROGRAM KEPT

PROGRAM answers the kept conversation KEPT, in words and with --json. Standard error is a socket that keeps what each call of write has
written apart: each must be one whole line. A station whose standard error is closed writes nothing of it into its trace, which is the
same as with standard error open. Prints how many runs there were; ends with status 1, and with what was wrong, at the first one that is."""
import os
import socket
import subprocess
import sys
import tempfile
from pathlib import Path


def ends(ran):
    """The conversation has a gap, so that each station ends with status 1."""
    if ran.returncode != 1:
        sys.exit(f"lines.py: {ran.args[1:]} ended with status {ran.returncode}")


def written(program, words, kept):
    """What each call of write to standard error has written."""
    ours, theirs = socket.socketpair(socket.AF_UNIX, socket.SOCK_DGRAM)
    with tempfile.TemporaryDirectory() as folder, open(f"{kept}.lines", "rb") as lines:
        command = [program, "station", "--answer", "--out", folder, *words]
        ends(subprocess.run(command, stdin=lines, stdout=subprocess.DEVNULL, stderr=theirs.fileno(), timeout=60, check=False))
    theirs.close()
    pieces = []
    ours.setblocking(False)
    try:
        while piece := ours.recv(65536):
            pieces.append(piece)
    except BlockingIOError:
        pass
    return pieces


def traced(program, kept, closed):
    """The trace of a station, with standard error closed or not, and the mode of its file."""
    with tempfile.TemporaryDirectory() as folder, open(f"{kept}.lines", "rb") as lines:
        trace = Path(folder) / "trace"
        command = ["sh", "-c", f"exec \"$@\" {'2>&-' if closed else '2> /dev/null'}", "sh", program, "station", "--answer", "--out", folder]
        ends(subprocess.run([*command, "--trace", str(trace)], stdin=lines, stdout=subprocess.DEVNULL, timeout=60, check=False))
        return trace.read_bytes(), trace.stat().st_mode & 0o777


def main(program, kept):
    runs = 0
    for words in ([], ["--json"], ["--most-pages", "1"]):
        pieces = written(program, words, kept)
        runs += 1
        torn = [piece for piece in pieces if piece.count(b"\n") != 1 or not piece.endswith(b"\n")]
        if torn or len(pieces) < 2:
            print(f"lines.py: {words}: {torn[:3] or pieces} is no whole line", file=sys.stderr)
            return 1
    (open_trace, mode), (closed_trace, _) = traced(program, kept, False), traced(program, kept, True)
    runs += 2
    if open_trace != closed_trace or b"end " in closed_trace or b" page-" in closed_trace:
        print("lines.py: what is told goes into the trace if standard error is closed", file=sys.stderr)
        return 1
    if mode != 0o600:
        print(f"lines.py: a trace has mode {mode:o}, and not that of the pages", file=sys.stderr)
        return 1
    print(runs)
    return 0


if __name__ == "__main__":
    os.umask(0o022)
    sys.exit(main(*sys.argv[1:]))
