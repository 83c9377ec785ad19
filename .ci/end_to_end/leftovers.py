#!/usr/bin/env python3
"""What a station does with the part files that other processes have left in its folder:

    leftovers.py PROGRAM LIBRARY

PROGRAM begins to answer, with LIBRARY, made of disk.c, before it where a file system without locks is tried. It removes the part files, and
the files of trials, that no process has locked and that are older than a minute, or than a day if nobody can know; it says how many they
were. Links, folders and files of other names stay. Prints how many runs there were; ends with status 1, and with what was wrong."""
import fcntl
import os
import subprocess
import sys
import tempfile
import time
from pathlib import Path

MINUTE, DAY = 60, 86_400
NOTHING = "0 s; blocks 0, PPRs 0, frames sent again 0, failed checks 0, retries 0"
# each name, its age in seconds, whether a process has locked it, and whether it goes, with locks and without
FILES = (
    ("faxtool-0123456789abcdef.part", 2 * MINUTE, False, True, False),
    ("faxtool-00000000000000ff.trial", 2 * MINUTE, False, True, False),
    ("faxtool-0123456789abcd00.part", 2 * DAY, False, True, True),
    ("faxtool-0123456789abcd01.part", 0, False, False, False),
    ("faxtool-0123456789abcd02.part", 2 * MINUTE, True, False, False),
    ("faxtool-0123456789abcd03.part", -2 * DAY, False, False, False),
    ("faxtool-4711-1.part", 2 * MINUTE, False, False, False),
    ("faxtool-4711-100.part", 2 * DAY, False, True, True),
    ("faxtool-4711-.part", 2 * DAY, False, False, False),
    ("faxtool-4711-1.trial", 2 * DAY, False, False, False),
    ("faxtool-4711.part", 2 * DAY, False, False, False),
    ("faxtool-0123456789abcdeg.part", 2 * DAY, False, False, False),
    ("faxtool-0123456789ABCDEF.part", 2 * DAY, False, False, False),
    ("faxtool-0123456789abcdef0.part", 2 * DAY, False, False, False),
    ("faxtool-0123456789abcdef.part.pbm", 2 * DAY, False, False, False),
    ("faxtool-0123456789abcdef.pbm", 2 * DAY, False, False, False),
    ("my-faxtool-0123456789abcdef.part", 2 * DAY, False, False, False),
    ("page-1.pbm", 2 * DAY, False, False, False),
)
# what else has a name of a part file: a link to a file, one that leads nowhere, and a folder
LINK, NOWHERE, FOLDER = (f"faxtool-00000000000000{number}.part" for number in ("10", "11", "12"))


def fill(folder):
    """Fills a folder, and returns the files that are locked."""
    locked = []
    for name, age, is_locked, _, _ in FILES:
        (folder / name).write_text(name)
        os.utime(folder / name, (time.time() - age,) * 2)
        if is_locked:
            locked.append(open(folder / name, "rb"))
            fcntl.flock(locked[-1], fcntl.LOCK_EX)
    (folder / LINK).symlink_to("page-1.pbm")
    (folder / NOWHERE).symlink_to("nothing")
    (folder / FOLDER).mkdir()
    for name in (LINK, NOWHERE, FOLDER):
        os.utime(folder / name, (time.time() - 2 * DAY,) * 2, follow_symlinks=False)
    return locked


def wrong(program, has_locks, env):
    """What is wrong with a station's beginning, if anything is."""
    with tempfile.TemporaryDirectory() as room:
        folder = Path(room)
        locked = fill(folder)
        ran = subprocess.run([program, "station", "--answer", "--out", room], input=b"end 1\n", capture_output=True, env={**os.environ, **env})
        for file in locked:
            file.close()
        kept = {name for name, _, _, goes, always in FILES if not (goes if has_locks else always)}
        count = len(FILES) - len(kept)
        told = ran.stderr.decode().splitlines()
        if ran.returncode != 1:
            return f"a call whose line was lost ended with status {ran.returncode}"
        if told != [f"part files of ended programs were removed: {count}", NOTHING, "end line-lost pages 0"]:
            return f"{told} is said, and {count} files are left"
        there = {file.name for file in folder.iterdir()}
        if there != kept | {LINK, NOWHERE, FOLDER}:
            return f"removed: {sorted((kept | {LINK, NOWHERE, FOLDER}) - there)}, kept: {sorted(there - kept - {LINK, NOWHERE, FOLDER})}"
        if any((folder / name).read_text() != name for name in kept):
            return "a file that stays has other octets"
    return None


def main(program, library):
    without = {"LD_PRELOAD": library, "DISK_LOCK": "95", "DISK_LOG": os.devnull}
    why = wrong(program, True, {}) or wrong(program, False, without)
    if why:
        print(f"leftovers.py: {why}", file=sys.stderr)
        return 1
    print(2)
    return 0


if __name__ == "__main__":
    sys.exit(main(*sys.argv[1:]))
