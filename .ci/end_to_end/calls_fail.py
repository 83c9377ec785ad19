#!/usr/bin/env python3
"""What the commands that write files leave if a call of the system fails:

    calls_fail.py PROGRAM LIBRARY TOP [--all]

Each command runs once with LIBRARY, made of calls_fail.c, before it. That writes down its calls that change a file or write, and those that
read one or look for one. Then each of these calls fails, in a run of its own, with each error that it can have. After such a run:

- each file that was there has its octets and its permissions, or those that the command gives it, whole;
- each new file is one that the command writes, whole; a part file stays only if it couldn't be removed;
- the status is 0 and all is as the command leaves it, or 1 with fault 8, whose words name the file or its folder;
- a page that is named, and one that is confirmed, is there;
- a trace has what it had, and whole lines after it; if it can't be written, that is said, and the call goes on.

A write that is lost must be seen. TOP is the checkout. Prints how many runs there were; ends with status 1, and with what was wrong, at the
first run that is. With --all it goes on, and says all that is wrong."""
import errno
import os
import re
import stat
import subprocess
import sys
import tempfile
from concurrent.futures import ThreadPoolExecutor
from dataclasses import dataclass, field
from pathlib import Path

# The errors of each call. HALF: a write takes half of its octets; FULL: and then the disk is full. LOST: it takes none, and says all.
ERRORS = {
    "new": ("EACCES", "ENOSPC", "EINTR"),
    "open": ("EACCES", "ENOSPC", "EINTR"),
    "write": ("EIO", "ENOSPC", "EINTR", "HALF", "FULL"),
    "close": ("EIO", "EINTR"),
    "sync": ("EIO", "ENOSPC", "EINTR"),
    "chmod": ("EPERM", "EIO", "EINTR"),
    "truncate": ("EIO", "ENOSPC", "EINTR"),
    "lock": ("ENOLCK", "EINTR"),
    "link": ("EACCES", "EIO", "ENOSPC"),
    "rename": ("EACCES", "EIO", "ENOSPC"),
    "unlink": ("EACCES", "EIO"),
    "look": ("EACCES", "EIO", "EINTR"),
    "read": ("EIO", "EINTR"),
    "seek": ("EIO",),
    "stat": ("EACCES", "EIO"),
    "readlink": ("EACCES", "EIO"),
}
READS = ("look", "read", "seek", "stat", "readlink")
ON_OUTPUTS = {"out": ("ENOSPC", "EINTR", "HALF"), "error": ("EIO", "HALF")}
# What is wrong today, by its last words: it is refused with --all alone.
KNOWN = ("the trace lost what it had, or ends in the midst of a line", "the fault's words don't name its file")
PART = re.compile(r"(.*/)?faxtool-[0-9a-f]{16}\.(part|trial)")
OLD = b"what was there before\n"
# How often a run is made for a call that is to fail.
MOST_TRIES = 50


@dataclass
class Case:
    """A command, what it is to find, and what it is to read."""

    words: str
    # the files that are there, by name, beside those of every case
    there: dict = field(default_factory=dict)
    lines: bytes = b""
    trace: str = ""


@dataclass
class Left:
    """What a run left: its status, what it printed, its calls, and the files."""

    status: int
    printed: str
    told: str
    calls: list
    files: dict


def same_file(name):
    """A call's file without what chance names in it."""
    return PART.sub("a part file", re.sub(r"/proc/\d+/", "/proc/self/", name))


def files_of(folder):
    """Each file in a folder and its folders: its permissions and octets."""
    found = {}
    for path in sorted(folder.rglob("*")):
        found[str(path.relative_to(folder))] = (stat.S_IMODE(path.stat().st_mode), b"" if path.is_dir() else path.read_bytes())
    return found


class Trial:
    """The runs of a case."""

    def __init__(self, program, library, case, inputs, reads):
        self.program, self.case, self.reads = program, case, reads
        self.there = {**inputs, **case.there}
        self.env = {**os.environ, "FAXTOOL_EXPLAIN": "1", "LD_PRELOAD": library, **({"CALLS_READS": "1"} if reads else {})}
        self.before, self.whole = {}, None
        self.whole = self.run()
        if self.whole.status not in (0, 1):
            sys.exit(f"calls_fail.py: faxtool {case.words} ended with status {self.whole.status}")

    def run(self, **env):
        with tempfile.TemporaryDirectory() as room:
            folder, log = Path(room) / "there", Path(room) / "log"
            folder.mkdir()
            for name, octets in self.there.items():
                self.place(folder / name, octets)
            self.before = self.before or files_of(folder)
            words = [self.program, *self.case.words.split()]
            env = {**self.env, "CALLS_LOG": str(log), **env}
            # all lines lie in the pipe before the program begins, so how many calls read them is no matter of time
            lines, to = os.pipe()
            os.set_blocking(to, False)
            assert os.write(to, self.case.lines) == len(self.case.lines)
            os.close(to)
            with open(lines, "rb") as given:
                ran = subprocess.run(words, cwd=folder, stdin=given, capture_output=True, timeout=60, env=env)
            found = log.read_text().replace(f"{folder}/", "").replace(str(folder), ".").splitlines() if log.exists() else []
            calls = [line.split("\t") for line in found]
            return Left(ran.returncode, ran.stdout.decode(), ran.stderr.decode(), calls, files_of(folder))

    @staticmethod
    def place(file, octets):
        """Puts a file or a folder into its place."""
        file.parent.mkdir(exist_ok=True)
        if octets is None:
            file.mkdir(exist_ok=True)
        else:
            file.write_bytes(octets)
            file.chmod(0o640)

    def failures(self):
        """Each call that fails in a run of its own: its number, the call, its file, and the error."""
        for at, (call, file, _) in enumerate(self.whole.calls, 1):
            if (call in READS) == self.reads:
                yield from ((at, call, file, error) for error in (ON_OUTPUTS.get(file) or ERRORS[call]))

    def wrongs(self, failure):
        """What is wrong with the run in which this fails, in a text with the failure."""
        at, call, file, error = failure
        number = {"HALF": 0, "FULL": 0, "LOST": -2}.get(error) or getattr(errno, error, 0)
        full = {"CALLS_FULL": str(errno.ENOSPC)} if error == "FULL" else {}
        # how many calls a run makes may still be a matter of time, so another call may have this number
        for _ in range(MOST_TRIES):
            left = self.run(CALLS_AT=str(at), CALLS_ERROR=str(number), **full)
            if len(left.calls) >= at and left.calls[at - 1][0] == call and same_file(left.calls[at - 1][1]) == same_file(file):
                break
        else:
            return [f"faxtool {self.case.words}: {call} {file} wasn't call {at} in {MOST_TRIES} runs"]
        found = (
            self.wrong_files(left, call),
            self.wrong_claims(left),
            self.wrong_trace(left, failure),
            self.wrong_status(left, file),
            self.wrong_words(left, file),
        )
        there = ", ".join(self.case.there) or "nothing"
        file = PART.sub("a part file", file)
        return [f"faxtool {self.case.words} (there: {there}): {call} {file}: {error}: {wrong}" for some in found for wrong in some]

    def wrong_files(self, left, failed):
        """The files that a run left and that are neither as they were nor as the command leaves them."""
        for name in sorted({*self.before, *left.files}):
            is_as_it_was = left.files.get(name) == self.before.get(name)
            is_whole = name in self.whole.files and left.files.get(name) == self.whole.files[name]
            if is_as_it_was or is_whole or name == self.case.trace:
                continue
            if not (PART.fullmatch(name) and failed == "unlink"):
                yield f"{name} is {'lost' if name not in left.files else 'changed' if name in self.before else 'left'}"

    def wrong_claims(self, left):
        """The pages that are named or confirmed and aren't there."""
        named = set(re.findall(r"\b(page-\d+\.pbm)\b", left.printed + left.told))
        for file, pages in re.findall(r"^(\S+): whole (\d+) pages$", left.printed, re.M):
            named |= {f"{file}-{page:04}.pbm" for page in range(1, int(pages) + 1)}
        bursts = [line for line in self.whole.printed.splitlines() if line.startswith("tx ")]
        is_confirmed = "--answer " in self.case.words and bursts and bursts[-1] in left.printed.splitlines()
        stored = {name.rpartition("/")[2] for name in left.files if left.files[name] == self.whole.files.get(name)}
        yield from (f"{name} is named, and isn't there" for name in sorted(named - stored))
        if is_confirmed and not any(name.startswith("page-") for name in stored):
            yield "a page is confirmed, and isn't there"

    def wrong_trace(self, left, failure):
        """What is wrong with a trace, and with a call that can't write it any more."""
        (_, call, file, error), name = failure, self.case.trace
        if not name:
            return
        had, has, wanted = (files.get(name, (0, b""))[1] for files in (self.before, left.files, self.whole.files))
        if not has.startswith(had) or (has and not has.endswith(b"\n")):
            yield "the trace lost what it had, or ends in the midst of a line"
        if has != wanted and left.status != 1 and "the trace can't be written" not in left.told:
            yield "the trace isn't whole, and that isn't said"
        goes_on = (left.status, left.printed) == (self.whole.status, self.whole.printed)
        if file == name and call in ("write", "close", "sync", "truncate") and error != "FULL" and not goes_on:
            yield "the call doesn't go on without its trace"

    def wrong_status(self, left, file):
        """A status that doesn't say what the run left."""
        is_told = re.search(r'fault 8|"fault":8', left.told + left.printed) is not None
        if left.status == self.whole.status and not is_told:
            other = [name for name in sorted({*left.files, *self.whole.files}) if left.files.get(name) != self.whole.files.get(name)]
            if [name for name in other if name != self.case.trace and not PART.fullmatch(name)]:
                yield f"the status is {left.status}, and {other[0]} isn't as it should be"
            if left.printed != self.whole.printed and file != "error":
                yield f"the status is {left.status}, and what is printed isn't whole"
        elif left.status != 1:
            yield f"the status is {left.status}"
        elif not is_told and file != "error":
            yield f"the status is 1, and nothing says why: {left.told!r}"

    def wrong_words(self, left, file):
        """A fault whose words name neither the file that failed nor the folder of it that the command names."""
        words = [line for line in (left.told + left.printed).splitlines() if "fault" not in line or '"fault":8' in line]
        name = {"out": "standard output", "in": "standard input"}.get(file, file.removeprefix("./").partition("/")[0])
        is_named = PART.fullmatch(name) or any(name in line for line in words)
        if re.search(r'fault 8|"fault":8', left.told) and file != "error" and not is_named:
            yield "the fault's words don't name its file"


def cases(kept):
    """The commands that write files, into places where nothing is and where something is."""
    answer, held, call = (Path(f"{kept}/worked_{name}.lines").read_bytes() for name in ("answerer", "held_page", "caller"))
    two = Path(f"{kept}/reference_room_for_one_page.lines").read_bytes()
    trace = b"an earlier trace\n"
    outs = {"made": OLD}
    folder = {"pages": None}
    taken = {"pages/page-1.pbm": OLD, "pages/other": OLD}
    sent = {"sent/to-answerer.bits": OLD, "sent/to-caller.bits": OLD, "sent/other": OLD}
    for there in ({}, outs):
        yield Case("code --code mh page.pbm made", there)
        yield Case("decode --code mh --width 315 page.mh made", there)
        yield Case("decode --code mh --width 315 --salvage cut.mh made", there)
        yield Case("frames --diagram made --caller caller.bits --answerer answerer.bits", there)
        yield Case("call --script script --out made row.pbm", there)
        yield Case("call --script script --diagram made row.pbm", there)
    for there in ({"sent": None}, sent):
        yield Case("call --script script --bits sent row.pbm", there)
        yield Case("call --lose 5% --seed 1 --out made --diagram drawn --bits sent row.pbm", {**there, **outs, "drawn": OLD})
    for there in (folder, taken, {"pages/two.mh-2.pbm": OLD}):
        yield Case("decode --each pages two.mh fax.mmr", there)
    for there in (folder, taken):
        yield Case("frames --pages pages caller.bits", there)
        yield Case("frames --json --pages pages caller.bits", there)
        yield Case("station --answer --out pages --limit 1", there, two)
        yield Case("station --answer --out pages --trace trace", {**there, "trace": trace}, answer, "trace")
    yield Case("station --answer --out pages --mode 640 --hold", {"pages/other": OLD}, held)
    yield Case("station --call --trace trace called.pbm", {}, call, "trace")
    yield Case("station --call --trace trace --json called.pbm", {"trace": trace}, call, "trace")


def inputs_of(program, examples, kept):
    """The files that are there in every case."""
    with tempfile.TemporaryDirectory() as room:
        row = (Path(examples) / "row.pbm").read_bytes()
        (Path(room) / "script").write_text("polite 11")
        (Path(room) / "two.pbm").write_bytes(2 * row)
        subprocess.run([program, "call", "--script", "script", "--bits", ".", "two.pbm"], cwd=room, stdout=subprocess.DEVNULL, check=True)
        sent = {name: (Path(room) / f"to-{other}.bits").read_bytes() for name, other in (("caller", "answerer"), ("answerer", "caller"))}
    code = (Path(examples) / "page.mh").read_bytes()
    return {
        "page.pbm": (Path(examples) / "page.pbm").read_bytes(),
        "page.mh": code,
        "two.mh": 2 * code,
        "cut.mh": code[:300],
        "fax.mmr": (Path(examples) / "fax.mmr").read_bytes(),
        "row.pbm": row,
        "called.pbm": Path(f"{kept}/worked_caller.pbm").read_bytes(),
        "script": b"polite 11",
        "caller.bits": sent["caller"],
        "answerer.bits": sent["answerer"],
    }


def main(program, library, top, more=""):
    examples, kept = f"{top}/docs/examples", f"{top}/.ci/conversations"
    inputs = inputs_of(program, examples, kept)
    trials = [Trial(program, library, case, inputs, reads) for case in cases(kept) for reads in (False, True)]
    lost = next((at, call, file, "LOST") for at, call, file, _ in trials[0].failures() if call == "write")
    if not trials[0].wrongs(lost):
        print("calls_fail.py: a file that isn't whole isn't seen", file=sys.stderr)
        return 1
    runs, found = [(trial, failure) for trial in trials for failure in trial.failures()], 0
    with ThreadPoolExecutor(os.cpu_count()) as pool:
        for wrongs in pool.map(lambda run: run[0].wrongs(run[1]), runs):
            wrongs = [wrong for wrong in wrongs if more or not wrong.endswith(KNOWN)]
            found += len(wrongs)
            for wrong in wrongs:
                print(f"calls_fail.py: {wrong}", file=sys.stderr)
            if wrongs and not more:
                pool.shutdown(cancel_futures=True)
                return 1
    print(len(runs))
    return 1 if found else 0


if __name__ == "__main__":
    sys.exit(main(*sys.argv[1:]))
