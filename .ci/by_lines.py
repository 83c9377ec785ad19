#!/usr/bin/env python3
"""Talks to an answerer by lines through pipes, as a program that has a modem: each line is written after the answer to the one before it
has come.

    .ci/by_lines.py PROGRAM OUT TALK..

Each talk is TALK.lines, and TALK.expected has the answers. The answerer is the program with the word OUT. Ends with status 1 if an answer
doesn't come within five minutes, or is another one,
or if the answerer ends with a status other than 0 and 1."""

import subprocess
import sys
import threading


def talks(command, talk):
    """What the answerer writes in a talk."""
    process = subprocess.Popen(command, stdin=subprocess.PIPE, stdout=subprocess.PIPE, text=True)
    late = threading.Timer(300, process.kill)
    late.start()
    answers = []
    for line in open(f"{talk}.lines"):
        process.stdin.write(line)
        process.stdin.flush()
        said = ""
        while said not in ("wait\n", "done\n"):
            said = process.stdout.readline()
            if not said:
                process.kill()
                sys.exit(f"{talk}: no answer to {line[:60].rstrip()}")
            answers.append(said)
        if said == "done\n":
            break
    process.stdin.close()
    answers.append(process.stdout.read())
    process.wait()
    late.cancel()
    if process.returncode not in (0, 1):
        sys.exit(f"{talk}: the answerer ended with status {process.returncode}")
    return "".join(answers)


def main(program, out, *talk):
    for each in talk:
        if talks([program, out], each) != open(f"{each}.expected").read():
            sys.exit(f"{each}: other answers")


if __name__ == "__main__":
    main(*sys.argv[1:]) if len(sys.argv) > 3 else sys.exit(__doc__)
