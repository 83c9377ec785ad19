#!/usr/bin/env python3
"""Many starters of softfax on one tty, whose lock files a process has left that is gone: one of them has the tty, and the others say that
it has. They give the tty by its own name and by a link in turn. Last the lock files are away. lock-test has more of such races.

    locks.py SOFTFAX FOLDER"""

import os
import pty
import subprocess
import sys
import time
import tty

PROGRAM, FOLDER = sys.argv[1:]
STARTERS, ROUNDS, GONE = 6, 3, 99999999


def lock(name):
    return "/var/lock/LCK.." + os.path.basename(name)


def start(name):
    return subprocess.Popen([PROGRAM, "--tty", name, "--answer", FOLDER], stderr=subprocess.PIPE, text=True)


def round_of_starters(device, link):
    for name in (device, link):
        with open(lock(name), "w") as file:
            file.write(f"{GONE:10}\n")
    programs = [start((device, link)[i % 2]) for i in range(STARTERS)]
    ends = time.monotonic() + 60
    while sum(program.poll() is None for program in programs) > 1 and time.monotonic() < ends:
        time.sleep(0.05)
    for program in programs:
        if program.poll() is None:
            program.terminate()
    said = [program.communicate(timeout=60)[1] for program in programs]
    winners = [program for program, text in zip(programs, said) if "has it" not in text]
    if len(winners) != 1 or any("has it" in text and f"process {winners[0].pid} " not in text for text in said):
        sys.exit(f"of {STARTERS} starters {len(winners)} have the tty: {said}")
    left = [name for name in (device, link) if os.path.exists(lock(name))]
    if left:
        sys.exit(f"lock files are left: {left}")


master, slave = pty.openpty()
tty.setraw(slave)
DEVICE, LINK = os.ttyname(slave), os.path.join(FOLDER, "ttyLOCKS")
os.symlink(DEVICE, LINK)
try:
    with open(lock(DEVICE), "w"):
        pass
except OSError as fault:
    print(f"softfax: locks aren't tried, since /var/lock can't be written: {fault}")
    sys.exit()
for _ in range(ROUNDS):
    round_of_starters(DEVICE, LINK)
print(f"softfax: of {STARTERS} starters on a tty with a lock that was left, one has it, {ROUNDS} times")
