#!/usr/bin/env python3
"""What a station promises of its pages, on a disk that is watched, that fails, and under a process that is killed:

    disk.py PROGRAM LIBRARY KEPT

PROGRAM answers the kept conversation KEPT with LIBRARY, made of disk.c, before it. Its page must be whole and synced under another name,
and the folder synced after the page has its own, before MCF is written; that must be seen to be missed where syncing does nothing. Then
each call that changes a file or writes a turn is the one before or after which the process is killed, and the one that fails: no file of a
page is ever cut short, and MCF is never written for a page that isn't there. All of this is tried with links and without: without them a
process that is killed, and no other one, may leave an empty file. A call that fails before the first line is in the words of the fault, and
leaves nothing. Calls that signals interrupt are tried again. And two answerers in one folder without links, each of whose renames takes a
while, leave both their pages. And where 50 numbers are taken, the second page of a call is tried under the number after the first one's
alone; the names of part files are by chance. Prints how many runs there were; ends with status 1, and with what was wrong, at the first
one that is."""
import errno
import os
import re
import signal
import subprocess
import sys
import tempfile
from pathlib import Path

# how many calls try the folder before the first line, and what the fault says if one of them fails
TRIAL = {
    True: ("new", "write", "sync", "link", "sync folder", "unlink", "unlink"),
    False: ("new", "write", "sync", "link", "reserve", "rename", "sync folder", "unlink", "unlink"),
}
WORDS = {
    "new": "no new file can be made in it",
    "write": "a new file in it can't be written",
    "sync": "a new file in it can't be synced",
    "link": "a new file in it can't get its name",
    "reserve": "a new file in it can't get its name",
    "rename": "a new file in it can't get its name",
    "sync folder": "the folder can't be synced",
    "unlink": "a file in it can't be removed",
}
NO_LINKS = (errno.EPERM, errno.EACCES, errno.EOPNOTSUPP, errno.ENOSYS, errno.EMLINK)


def begin(program, library, kept, folder, log, env):
    """A station that answers a kept conversation into a folder."""
    given = {**os.environ, "LD_PRELOAD": library, "DISK_LOG": str(log), "FAXTOOL_EXPLAIN": "1", **env}
    words = [program, "station", "--answer", "--out", str(folder)]
    with open(f"{kept}.lines", "rb") as lines:
        return subprocess.Popen(words, stdin=lines, stdout=subprocess.PIPE, stderr=subprocess.PIPE, env=given)


class Run:
    """One run of the station into a folder where the first numbers are taken: what it said, what its calls were, and what it left."""

    def __init__(self, program, library, kept, taken=0, **env):
        with tempfile.TemporaryDirectory() as room:
            folder, log = Path(room) / "pages", Path(room) / "log"
            folder.mkdir()
            for number in range(1, taken + 1):
                (folder / f"page-{number}.pbm").touch()
            ran = begin(program, library, kept, folder, log, env)
            out, error = ran.communicate(timeout=60)
            self.status = ran.returncode
            is_killed = env.get("DISK_DOES") in ("kill", "after")
            if (self.status != -signal.SIGKILL) if is_killed else (self.status not in (0, 1)):
                sys.exit(f"disk.py: {env}: the station ended with status {self.status}")
            self.turns = [line for line in out.decode().splitlines() if line.startswith("tx ")]
            self.told = error.decode().replace(str(folder), "DIR").splitlines()
            found = log.read_text().splitlines() if log.exists() else []
            self.calls = [line.replace(str(folder), "DIR").rsplit(" ", 1) for line in found]
            self.files = {file.name: file.read_bytes() for file in folder.iterdir()}

    def parts(self):
        """The names of its part files."""
        return [call.split("/")[-1] for call, _ in self.calls if call.startswith("new DIR/") and call.endswith(".part")]

    def pages(self):
        return {name: octets for name, octets in self.files.items() if name.startswith("page-")}


def missed(run, turns_before):
    """What is missing of: written and synced as a part, named, the folder synced, and MCF after it all. None if nothing is."""
    calls = [(*call.split(" ", 1), result) for call, result in run.calls]
    named = [at for at, (call, file, result) in enumerate(calls) if call in ("link", "rename") and file == "DIR/page-1.pbm" and result == "0"]
    if not named:
        return "the page's file isn't put in its place whole"
    # the calls before the last new part are those of the trial
    begun = max(at for at, (call, file, _) in enumerate(calls) if call == "new" and file.endswith(".part"))
    writes = [at for at, (call, file, _) in enumerate(calls) if at > begun and call == "write" and file.startswith("DIR/")]
    parts = {calls[at][1] for at in writes}
    synced = [at for at, (call, file, result) in enumerate(calls) if call == "sync" and file in parts and result == "0"]
    if len(parts) != 1 or "DIR/page-1.pbm" in parts or not synced or not max(writes) < synced[-1] < named[0]:
        return "the page's octets aren't synced before its file has its name"
    folder = [at for at, (call, file, result) in enumerate(calls) if (call, file, result) == ("sync", "DIR", "0") and at > named[0]]
    said = [at for at, (call, file, _) in enumerate(calls) if (call, file) == ("write", "out")]
    if not folder or len(said) <= turns_before or said[turns_before] < folder[0]:
        return "the folder isn't synced before MCF is written"
    return None


def is_wrong(run, page, mcf, turns_before, may_be_empty):
    """What is wrong with what a run has left, if anything is. A page may be empty only if that is said."""
    for name, octets in run.pages().items():
        if octets != page and not (may_be_empty and not octets):
            return f"{name} is cut short, of {len(octets)} octets"
    if len(run.turns) > turns_before and run.turns[turns_before] == mcf and page not in run.pages().values():
        return "MCF is written, and the page isn't there"
    return None


def is_wrong_at_first(run, step):
    """What is wrong with a run in which a step of the trial fails, if anything is."""
    wanted = ["fault 8", f"DIR: {WORDS[step]}: it can't be read or written"]
    if run.status != 1 or run.turns or run.told != wanted:
        return f"status {run.status}, {len(run.turns)} turns, {run.told}"
    return f"{min(run.files)} is left" if run.files and step != "unlink" else None


def try_calls(program, library, kept, page, turns, before, links):
    """Each call is the one before or after which the process is killed, and the one that fails. How many runs there were, and what was wrong."""
    env = {} if links else {"DISK_LINK": str(errno.EPERM)}
    whole, runs, trial = Run(program, library, kept, **env), 1, TRIAL[links]
    wrong = missed(whole, before) or ("its page is another" if whole.files != {"page-1.pbm": page} else None)
    for at in range(1, len(whole.calls) + 1):
        for does in ("kill", "after", "fail"):
            if wrong:
                break
            run = Run(program, library, kept, DISK_AT=str(at), DISK_DOES=does, **env)
            runs += 1
            called = whole.calls[at - 1][0]
            wrong = is_wrong(run, page, turns[before], before, not links and does != "fail")
            left = [name for name in run.files if not name.startswith("page-")]
            if not wrong and does == "fail" and left and not called.startswith("unlink"):
                wrong = f"{left[0]} is left"
            # a link that fails isn't the end where there are no links, but only for the reasons that say so
            if not wrong and does == "fail" and at <= len(trial):
                wrong = is_wrong_at_first(run, trial[at - 1])
            wrong = wrong and f"{does} at call {at}, {called}, {'with' if links else 'without'} links: {wrong}"
    return runs, wrong


def try_errors(program, library, kept, page):
    """Links that are refused for each reason, calls that a signal interrupts, and a folder that can't be synced."""
    cases = [{"DISK_LINK": str(number)} for number in NO_LINKS]
    cases += [{"DISK_STOPS": call} for call in ("link", "sync", "unlink")]
    cases += [{"DISK_STOPS": "rename", "DISK_LINK": str(errno.ENOSYS)}, {"DISK_LOCK": str(errno.EOPNOTSUPP)}]
    runs = 0
    for case in cases:
        run = Run(program, library, kept, **case)
        runs += 1
        if run.status or run.files != {"page-1.pbm": page}:
            return runs, f"{case}: status {run.status}, {run.told[-2:]}, {sorted(run.files)}"
    for number, words in (errno.EINVAL, "its file system can't do this"), (errno.EACCES, "permission denied"):
        run = Run(program, library, kept, DISK_FOLDER=str(number))
        runs += 1
        if run.status != 1 or run.told != ["fault 8", f"DIR: the folder can't be synced: {words}"] or run.turns or run.files:
            return runs, f"a folder that can't be synced: status {run.status}, {run.told}, {len(run.turns)} turns, {sorted(run.files)}"
    return runs, None


def try_two(program, library, kept, page):
    """Two answerers in one folder, without links, 20 times: each page that one says it has stored is there."""
    env = {"DISK_LINK": str(errno.EPERM), "DISK_SLOW": "rename"}
    for _ in range(20):
        with tempfile.TemporaryDirectory() as folder:
            two = [begin(program, library, kept, folder, os.devnull, env) for _ in range(2)]
            told = [one.communicate(timeout=60)[1].decode().splitlines()[-1] for one in two]
            statuses = [one.returncode for one in two]
            pages = [file.read_bytes() for file in Path(folder).iterdir()]
        if told != ["end normal pages 1"] * 2 or pages != [page] * 2 or statuses != [0, 0]:
            return 20, f"two answerers in a folder without links: {told}, statuses {statuses}, and {len(pages)} files are there"
    return 20, None


def main(program, library, kept):
    page = Path(f"{kept}.pages").read_bytes()
    turns = [line for line in Path(f"{kept}.expected").read_text().splitlines() if line.startswith("tx ")]
    # the kept conversation: DIS, DIS again, CFR, and MCF for its one page
    before, runs, wrong = 3, 3, None
    if not missed(Run(program, library, kept, DISK_SYNCS="none"), before):
        wrong = "a station that syncs nothing isn't seen"
    two = Run(program, library, Path(kept).with_name("reference_room_for_one_page"), 50)
    parts = two.parts() + Run(program, library, kept).parts()
    if not wrong and (len(parts) != 5 or len(set(parts)) != 5 or not all(re.fullmatch(r"faxtool-[0-9a-f]{16}\.part", name) for name in parts)):
        wrong = f"the names of five part files: {parts}"
    tried = [call.split("page-")[1] for call, _ in two.calls if call.startswith("link DIR/page-")]
    if not wrong and tried != [f"{number}.pbm" for number in range(1, 53)]:
        wrong = f"two pages where 50 numbers are taken: {len(tried)} names are tried, up to {tried[-1:]}"
    for tries in (
        lambda: try_calls(program, library, kept, page, turns, before, True),
        lambda: try_calls(program, library, kept, page, turns, before, False),
        lambda: try_errors(program, library, kept, page),
        lambda: try_two(program, library, kept, page),
    ):
        if not wrong:
            more, wrong = tries()
            runs += more
    if wrong:
        print(f"disk.py: {wrong}", file=sys.stderr)
        return 1
    print(runs)
    return 0


if __name__ == "__main__":
    sys.exit(main(*sys.argv[1:]))
