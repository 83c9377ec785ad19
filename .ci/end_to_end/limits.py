#!/usr/bin/env python3
"""What a command does at the greatest size of a file (`ulimit -f`), past which the system ends a process that writes:

    limits.py PROGRAM TOP

Standard output, standard error, both as one file, and the file of `--trace` have BASE octets before a run, and may have so many more: none, one,
half of what the command writes there, all but one, and all. A file of standard output or error is appended to, or is written from its end on, or
from BASE on where it is longer than it may be. No run may end by a signal, and no octet is written past the limit. If all may be written, the run
is as it is without a limit. Otherwise:

- standard output: fault 8 in words, status 1; what is there is a beginning of what would be;
- standard error: each line is there whole or not at all, and the status isn't 0;
- `--trace`: that it ends is said, its lines are whole, and the call goes on.

TOP is the checkout. Prints how many runs there were; ends with status 1, and with what was wrong, at the first run that is."""
import os
import resource
import subprocess
import sys
import tempfile
from pathlib import Path

BASE = 1_000_000
WORDS = "standard output: it would be larger than a file may be"
FAULTS = (["fault 8", WORDS], [f'{{"fault":8,"words":"{WORDS}"}}'])
ENDED = "the trace can't be written any more and ends here; the call goes on"
PAST = 100_000
# how a file is opened, and how many octets it has after BASE
WAYS = {"appended": (os.O_APPEND, 0), "at its end": (0, 0), "written over": (0, PAST)}


class Command:
    """A command with its input, which runs in a new folder each time."""

    def __init__(self, program, words, files, lines=b""):
        self.words, self.files, self.lines = [program, *words.split()], files, lines
        self.name = words

    def run(self, streams=(), more=None, way="appended", trace=False):
        """Runs it with these streams as one file, which may have so many octets more. Its status, and what it wrote: by stream, and the file."""
        flags, past = WAYS[way]
        with tempfile.TemporaryDirectory() as room:
            for name, octets in self.files.items():
                (Path(room) / name).write_bytes(octets)
            (Path(room) / "pages").mkdir()
            (Path(room) / "limited").write_bytes(bytes(BASE + past))
            opened = os.open(Path(room) / "limited", os.O_WRONLY | flags)
            os.lseek(opened, BASE, os.SEEK_SET)

            def limit():
                if more is not None:
                    resource.setrlimit(resource.RLIMIT_FSIZE, (BASE + more, resource.getrlimit(resource.RLIMIT_FSIZE)[1]))

            pipes = {name: opened if name in streams else subprocess.PIPE for name in ("stdout", "stderr")}
            words = self.words + (["--trace", "limited"] if trace else [])
            env = {**os.environ, "FAXTOOL_EXPLAIN": "1"}
            ran = subprocess.run(words, cwd=room, input=self.lines, env=env, preexec_fn=limit, timeout=60, **pipes)
            end = None if trace else os.lseek(opened, 0, os.SEEK_CUR)
            os.close(opened)
            left = (Path(room) / "limited").read_bytes()[BASE:end]
        return ran.returncode, ran.stdout or b"", ran.stderr or b"", left


def is_whole(left, whole):
    """Whether what is left has lines of the whole alone, in their order."""
    lines = iter(whole.splitlines(keepends=True))
    return all(line in lines for line in left.splitlines(keepends=True))


def wrong_with(command, streams, more, way, whole):
    """What is wrong with a run with a limit, where the run without one wrote this on its streams. None if nothing is."""
    status, printed, told, left = command.run(streams, more, way)
    if status < 0:
        return f"it ends by signal {-status}"
    if len(left) > more:
        return "its file is past the limit"
    if more >= len(whole[3]):
        return None if (status, printed, told, left) == whole else f"it isn't as it is without a limit: status {status}, {told[-300:]}"
    if status != (1 if streams == ("stdout",) else max(whole[0], 1)):
        return f"status {status}, {told[-300:]}"
    if streams == ("stderr",) and not is_whole(left, whole[3]):
        return f"what is told is {left[-100:]!r}"
    is_told = [fault for fault in FAULTS if told.decode().splitlines()[-len(fault) :] == fault]
    if streams == ("stdout",) and not (is_told and whole[3].startswith(left)):
        return f"{left[-100:]!r} is printed, and told is {told[-300:]}"
    return None


def wrong_trace(command, more, whole):
    """What is wrong with a run whose trace has a limit."""
    status, printed, told, left = command.run((), more, trace=True)
    if (status, printed) != whole[:2]:
        return f"the call doesn't go on: status {status}"
    if len(left) > more or not is_whole(left, whole[3]):
        return f"the trace ends with {left[-100:]!r}"
    is_told = ENDED in told.decode()
    return None if is_told == (more < len(whole[3])) else f"that it ends is {'' if is_told else 'not '}said"


def runs_of(command):
    """Each run of a command: what it is, and what is wrong with it."""
    for streams in (("stdout",), ("stderr",), ("stdout", "stderr")):
        whole = command.run(streams)
        size = len(whole[3])
        for more in sorted({0, 1, size // 2, size - 1, size}) if size else ():
            for way in WAYS:
                named = f"{' and '.join(streams)}, {way}, with {more} of {size} octets"
                yield named, wrong_with(command, streams, more, way, whole)
    if " station " in f" {command.name}":
        whole = command.run(trace=True)
        size = len(whole[3])
        for more in sorted({0, 1, size // 2, size - 1, size}) if size else ():
            yield f"--trace, with {more} of {size} octets", wrong_trace(command, more, whole)


def commands(program, top):
    examples, kept = Path(top) / "docs/examples", Path(top) / ".ci/conversations"
    data = {name: (examples / name).read_bytes() for name in ("page.mh", "page.mmr", "bad.mh", "fax.mmr", "line.bits", "row.pbm", "page.pbm")}
    data = {**data, "script": b"polite 11", "called.pbm": (kept / "worked_caller.pbm").read_bytes()}
    lines = {name: (kept / f"{name}.lines").read_bytes() for name in ("worked_answerer", "worked_caller", "reference_page_of_many_rows")}
    for words in (
        "code --code mmr page.pbm -",
        "decode --code mh --width 315 page.mh -",
        "decode --repair --code mh --width 315 bad.mh new.pbm",
        "decode --code mh --width 315 bad.mh new.pbm",
        "decode --each pages page.mh bad.mh fax.mmr no-file",
        "decode --each pages --json page.mh no-file",
        "show --code mh --width 315 page.mh",
        "frames line.bits",
        "frames --json line.bits",
        "frames --pages pages line.bits",
        "frames --json --pages pages line.bits",
        "identify fax.mmr",
        "identify page.mh fax.mmr no-file",
        "call --script script row.pbm",
        "call --script script --json row.pbm",
        "version",
        "decode --help",
        "decode --wrong",
        "decode",
    ):
        yield Command(program, words, data)
    yield Command(program, "station --answer --out pages", data, lines["worked_answerer"])
    yield Command(program, "station --answer --out pages --json", data, lines["worked_answerer"])
    yield Command(program, "station --answer --out pages", data, lines["reference_page_of_many_rows"])
    yield Command(program, "station --answer --out pages", data, b"no line\n")
    yield Command(program, "station --call called.pbm", data, lines["worked_caller"])
    yield Command(program, "station --call --json called.pbm", data, lines["worked_caller"])


def main(program, top, more=""):
    count, found = 0, 0
    for command in commands(program, top):
        for named, wrong in runs_of(command):
            count += 1
            if wrong:
                print(f"limits.py: faxtool {command.name}: {named}: {wrong}", file=sys.stderr)
                found += 1
                if not more:
                    return 1
    print(count)
    return 1 if found else 0


if __name__ == "__main__":
    sys.exit(main(*sys.argv[1:]))
