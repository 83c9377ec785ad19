#!/usr/bin/env python3
"""Runs `rt ci` over the checkout, and beside it what rests on the crates that it has proved so far:

    .ci/prove.py

`rt ci` proves the longest chain of crates first, and has no work for all processors while the last crates of the chain are proved. So the
planted bugs of a crate (must_fail.py) are tried as soon as that crate is proved, and the library for C is built as soon as all below it are,
both at a low priority. Of the proofs that `rt ci` prints one line a crate is printed, with the minutes since it began, and all of what a crate
that fails says. Ends with status 1 if something fails, and ends what still runs then."""
import os
import re
import signal
import subprocess
import sys
import threading
import time
from pathlib import Path

TOP = Path(__file__).resolve().parent.parent
PROCESSORS = sorted(os.sched_getaffinity(0))
# How `rt ci` says that a crate, or its tests, are proved, by this run or by an earlier one, or that they aren't.
ENDS = re.compile(r"^rt: (\w+)(: its tests are)? (proved|is kept: .*|NOT PROVED.*)$")


def read_crates():
    """Each crate with its line of crates.txt and the crates that it names, in the file's order."""
    lines = [line for line in (TOP / "crates.txt").read_text().splitlines() if ":" in line and not line.startswith("#")]
    named = {line.split(":")[0].split()[0]: line for line in lines}
    return {name: (line, [dep for dep in line.split(":")[1].split() if dep in named]) for name, line in named.items()}


def below(crates, name):
    """The crate and all that it stands on."""
    found = {name}
    for dep in crates[name][1]:
        found |= below(crates, dep)
    return found


def started(command, settings=()):
    """A command in a group of its own, so that all that it begins can be ended with it; what it says comes in one stream. A session of its
    own would have as much of the processors as all others together, whatever its priority."""
    settings = os.environ | {"PYTHONUNBUFFERED": "1"} | dict(settings)
    streams = {"stdin": subprocess.DEVNULL, "stdout": subprocess.PIPE, "stderr": subprocess.STDOUT, "text": True, "errors": "replace"}
    return subprocess.Popen(command, cwd=TOP, env=settings, process_group=0, **streams)


def end(run):
    """Ends a command, and all that it began."""
    try:
        os.killpg(run.pid, signal.SIGTERM)
    except ProcessLookupError:
        pass


class Gate:
    """What `rt ci` has proved so far, what waits for that, and what failed."""

    def __init__(self):
        self.begun, self.crates, self.proved, self.failed, self.running = time.monotonic(), read_crates(), set(), [], []
        self.changed = threading.Condition()
        planted = sorted(folder.name for folder in (TOP / ".ci" / "must-fail").iterdir())
        self.waiting = [(f"planted bugs of {name}", {name}, [".ci/must_fail.py", "crates", name], ()) for name in planted]
        self.waiting += [self.library(name) for name, (line, _deps) in self.crates.items() if line.split(":")[0].endswith(" staticlib")]

    def library(self, name):
        """The library for C, over what is proved of these sources."""
        sources = subprocess.run(["packaging/trust.py", "--sources"], cwd=TOP, check=True, capture_output=True, text=True).stdout.strip()
        settings = {"CRATES": f"{TOP}/crates", "PROVED": sources, "RT_JOBS": "1"}
        # the crate itself has to be one that passes
        return "the library for C", below(self.crates, name), ["packaging/build_library.sh"], settings.items()

    def say(self, text):
        print(f"prove: after {(time.monotonic() - self.begun) / 60:.1f} minutes: {text}", flush=True)

    def fail(self, what):
        """Notes what failed, and ends all that runs."""
        with self.changed:
            self.failed.append(what)
            for run in self.running:
                end(run)
            self.changed.notify_all()

    def begin(self, command, settings=()):
        """A command that is ended if another one fails; None if one has."""
        with self.changed:
            if self.failed:
                return None
            self.running.append(started(command, settings))
            return self.running[-1]

    def hear(self, line, said):
        """Takes a line of `rt ci`: a crate that is proved, or one that isn't, of which all that was said is printed."""
        ended = ENDS.match(line)
        if not ended:
            return said + [line]
        is_proved = not ended[3].startswith("NOT")
        if not is_proved:
            print("".join(said), end="")
        self.say(line.removeprefix("rt: ").rstrip())
        if is_proved and not ended[2]:
            self.have({ended[1]})
        return []

    def have(self, names):
        """Notes that these crates are proved and built."""
        with self.changed:
            self.proved |= names
            self.changed.notify_all()

    def run_all(self):
        """Runs `rt ci` to its end, and says what its last lines are."""
        run, said = self.begin(["rt", "ci"]), []
        for line in run.stdout:
            said = self.hear(line, said)
        print("".join(said), end="", flush=True)
        if run.wait():
            self.fail("rt ci")
        else:
            # also those of which it said so in other words: nothing may wait for ever
            self.have(set(self.crates))

    def next(self):
        """The first of what waits that has all that it needs; None if nothing is left, or something has failed."""
        is_ready = lambda it: it[1] <= self.proved
        with self.changed:
            self.changed.wait_for(lambda: self.failed or not self.waiting or any(map(is_ready, self.waiting)))
            found = None if self.failed else next(filter(is_ready, self.waiting), None)
            if found:
                self.waiting.remove(found)
            return found

    def run_beside(self):
        """Runs what waits, one after the other, at a low priority."""
        while found := self.next():
            what, _needs, command, settings = found
            run = self.begin(["nice", "-n", "19", *command], settings)
            if not run:
                return
            said = run.communicate()[0]
            with self.changed:
                is_cut = bool(self.failed)
            print(said, end="", flush=True)
            self.say(f"{what} {'ended' if is_cut else 'failed' if run.returncode else 'passed'}")
            if run.returncode and not is_cut:
                self.fail(what)


def main():
    gate = Gate()
    signal.signal(signal.SIGTERM, lambda number, frame: gate.fail("a signal"))
    beside = [threading.Thread(target=gate.run_beside) for _ in range(max(1, len(PROCESSORS) // 2))]
    whole = threading.Thread(target=gate.run_all)
    for lane in [whole, *beside]:
        lane.start()
    # a join with no limit would keep the signal waiting
    while any(lane.is_alive() for lane in [whole, *beside]):
        time.sleep(0.2)
    gate.say(f"failed: {', '.join(gate.failed)}" if gate.failed else "all passed")
    return 1 if gate.failed else 0


if __name__ == "__main__":
    sys.exit(main())
