"""Tries long runs of `decode --each`:

    archive_runs.py PROGRAM CODED IMAGE

CODED is a file of T.6, and IMAGE its page. A run that SIGINT stops while it stores pages leaves no page that isn't whole, and a line of each
file that it ended; `--resume` does the rest. A run with 20,000 names takes no more memory than it does after the first 200, whose pages are
stored alike. Prints what is wrong with status 1."""

import os
import shutil
import signal
import subprocess
import sys
import tempfile
import time
from pathlib import Path

COPIES, FEW, NAMES = 150, 200, 20_000
MOST_KB = 64


def fails(words):
    print(words)
    sys.exit(1)


def pages(folder):
    """The pages that are stored."""
    return sorted(folder.glob("pages/in/*.pbm"))


def starts(program, folder, *words, **how):
    # a shell that starts this in the background has SIGINT ignored
    return subprocess.Popen(
        [program, "decode", *words, "--each", "pages", "--from", "-"], cwd=folder, text=True, stdout=subprocess.PIPE,
        restore_signals=True, preexec_fn=lambda: signal.signal(signal.SIGINT, signal.SIG_DFL), stdin=subprocess.PIPE, **how,
    )  # fmt: skip


def stops(program, coded, image, folder):
    """A run that is stopped, and one that does the rest."""
    names = [f"in/{number}" for number in range(COPIES)]
    for name in names:
        shutil.copy(coded, folder / name)
    asked = "\n".join(names)
    run = starts(program, folder)
    run.stdin.write(asked)
    run.stdin.close()
    end = time.monotonic() + 60
    while not pages(folder) and time.monotonic() < end:
        time.sleep(0.005)
    run.send_signal(signal.SIGINT)
    said, status = run.stdout.read(), run.wait()
    stored = pages(folder)
    if status != -signal.SIGINT or not 0 < len(stored) < COPIES:
        fails(f"a run that is stopped ended with status {status} and {len(stored)} pages")
    if any(page.read_bytes() != image for page in stored):
        fails("a run that is stopped left a page that isn't whole")
    # the last page may be stored and not told yet
    told = [f"{name}: whole 1 pages" for name in names]
    if said.splitlines() != told[: said.count("\n")] or not 0 <= len(stored) - said.count("\n") <= 1:
        fails(f"a run that is stopped said so of {len(stored)} pages: {said}")
    run = starts(program, folder, "--resume")
    said = run.communicate(asked)[0]
    if run.returncode or said.splitlines() != told or any(page.read_bytes() != image for page in pages(folder)) or len(pages(folder)) != COPIES:
        fails(f"--resume after it ended with status {run.returncode}: {said}")


def takes(run, names):
    """The most memory, in KB, that a run has taken when it has read these names."""
    for name in names:
        run.stdin.write(f"{name}\n")
        run.stdin.flush()
        run.stdout.readline()
    words = Path(f"/proc/{run.pid}/status").read_text().split()
    return int(words[words.index("VmHWM:") + 1])


def remembers(program, coded, folder):
    """A run with few names, and then with many."""
    for number in range(FEW):
        os.link(coded, folder / "in" / f"few{number}")
    run = starts(program, folder)
    few = takes(run, (f"in/few{number}" for number in range(FEW)))
    many = takes(run, (f"in/none{number}" for number in range(NAMES)))
    run.communicate()
    if many > few + MOST_KB:
        fails(f"{NAMES} names take {many} KB of memory, and {FEW} take {few}")


def main(words):
    program, coded, image = words[0], Path(words[1]), Path(words[2]).read_bytes()
    with tempfile.TemporaryDirectory() as name:
        folder = Path(name)
        (folder / "in").mkdir()
        (folder / "pages").mkdir()
        shutil.copy(coded, folder / "coded")
        stops(program, coded, image, folder)
        remembers(program, folder / "coded", folder)


main(sys.argv[1:])
