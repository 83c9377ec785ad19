#!/usr/bin/env python3
"""Runs commands at the same time, for a gate that ends sooner where there are more processors than one:

    .ci/beside.py COMMAND..

Each is one word with its own words in it. What the first one says is printed as it says it; what another one says, when it ends, with the
minutes that it took, by the clock and of processors. One that begins with `after 1 2:` waits until the first and the second have passed. The first one that fails ends all
the others, and this with status 1."""
import os
import re
import shlex
import signal
import subprocess
import sys
import tempfile
import time


class Beside:
    """A command that runs in a group of its own, so that all that it began can be ended with it."""

    def __init__(self, command, is_shown):
        self.command, self.begun = command, time.monotonic()
        self.said = None if is_shown else tempfile.TemporaryFile()
        self.run = subprocess.Popen(
            shlex.split(command), stdin=subprocess.DEVNULL, stdout=self.said, stderr=self.said and subprocess.STDOUT, process_group=0
        )

    def has_ended(self):
        """Whether it has ended. What it said is printed then."""
        ended, status, used = os.wait4(self.run.pid, os.WNOHANG)
        if not ended:
            return False
        self.run.returncode = os.waitstatus_to_exitcode(status)
        if self.said:
            self.said.seek(0)
            sys.stdout.write(self.said.read().decode(errors="replace"))
        how = f"failed, with status {self.run.returncode}," if self.run.returncode else "passed"
        minutes, of_processors = (time.monotonic() - self.begun) / 60, (used.ru_utime + used.ru_stime) / 60
        print(f"beside: {self.command} {how} after {minutes:.1f} minutes, {of_processors:.1f} of processors", flush=True)
        return True

    def end(self):
        """Ends it, and all that it began."""
        try:
            os.killpg(self.run.pid, signal.SIGTERM)
        except ProcessLookupError:
            pass
        self.run.wait()


def needs_of(command):
    """The numbers of the commands that one waits for, and what is run then."""
    after = re.match(r"after ([0-9 ]+): *", command)
    return {int(number) for number in after[1].split()} if after else set(), command[after.end() :] if after else command


def main(commands):
    waiting = [(number, *needs_of(command)) for number, command in enumerate(commands, 1)]
    running, passed = {}, set()
    try:
        while running or waiting:
            ready = [it for it in waiting if it[1] <= passed]
            waiting = [it for it in waiting if it not in ready]
            running |= {number: Beside(command, number == 1) for number, _, command in ready}
            if not running:
                sys.exit(f"beside: {waiting[0][2]} waits for what isn't there")
            ended = {number for number, it in running.items() if it.has_ended()}
            if any(running[number].run.returncode for number in ended):
                return 1
            running = {number: it for number, it in running.items() if number not in ended}
            passed |= ended
            time.sleep(0.2)
    finally:
        for it in running.values():
            it.end()
    return 0


if __name__ == "__main__":
    # ended by a signal, it ends what it began
    signal.signal(signal.SIGTERM, lambda number, frame: sys.exit(1))
    sys.exit(main(sys.argv[1:]))
