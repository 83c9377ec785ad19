#!/usr/bin/env python3
"""Calls of two processes of softfax-checked over two pipes, in which one growth of memory is refused, of the caller or of the answerer:
each of the first ones, and some of the others; or in which the answerer can't sync or link a page. The sanitizers report nothing, both end,
and no page is confirmed that isn't stored, whole.

    refusals.py SOFTFAX-CHECKED PAGE.pbm FOLDER"""

import json
import os
import shutil
import subprocess
import sys
from concurrent.futures import ThreadPoolExecutor
from pathlib import Path

PROGRAM, PAGE, FOLDER = sys.argv[1], Path(sys.argv[2]), Path(sys.argv[3])
FIRST, SOME = 10, 50
SIDES = ("caller", "answerer")


def begin(work, side, refused, words):
    more = {"REFUSED": str(refused), "GROWTHS": str(work / f"{side}.growths")}
    if side == "answerer":
        more |= {"FAILS": work.name.partition("fails-")[2], "KEPT": str(work / "kept")}
        more |= {"NO_LINKS": "1"} if work.name == "no-links" else {}
    with open(work / f"{side}.said", "wb") as file:
        return subprocess.Popen([PROGRAM, *map(str, words), "--json"], stderr=file, env=dict(os.environ, **more))


def end(programs):
    """Waits for both; who is still waiting for the other one to begin is stopped. Returns their statuses."""
    try:
        programs[0].wait(300)
        for program in programs[1:]:
            try:
                program.wait(1)
            except subprocess.TimeoutExpired:
                program.terminate()
        return [program.wait(120) for program in programs]
    except subprocess.TimeoutExpired:
        for program in programs:
            program.kill()
        return [program.wait() for program in programs]


def confirmed(work):
    records = [json.loads(line) for line in (work / "caller.said").read_text().splitlines() if line.startswith("{")]
    return max((record["confirmed"] for record in records if "confirmed" in record), default=0)


def call(side, refused, name=""):
    """Runs a call; returns how many growths that side had, and what was wrong."""
    work = FOLDER / (name or f"{side}-{refused}")
    (work / "pages").mkdir(parents=True)
    to, back = work / "to", work / "back"
    os.mkfifo(to)
    os.mkfifo(back)
    answerer = begin(work, "answerer", refused * (side == "answerer"),
                     ["--answer", work / "pages", "--rx", to, "--tx", back, "--id", "1"])
    caller = begin(work, "caller", refused * (side == "caller"), ["--call", PAGE, PAGE, "--rx", back, "--tx", to, "--id", "2"])
    statuses = end([caller, answerer] if side == "caller" else [answerer, caller])
    stored = [file.read_bytes() for file in sorted((work / "pages").iterdir())]
    is_right = set(statuses) <= {0, 1} and set(stored) <= {PAGE.read_bytes()} and confirmed(work) <= len(stored)
    if not is_right:
        said = "".join((work / f"{name}.said").read_text() for name in SIDES)
        return 0, f"growth {refused} of the {side}: statuses {statuses}, {len(stored)} pages are stored\n{said}"
    growths = int((work / f"{side}.growths").read_text())
    if not name:
        shutil.rmtree(work)
    return growths, ""


def keep(fails):
    """Runs a call whose answerer fails so in keeping its first page, 0: it doesn't; returns what was wrong. A page is synced before it
    has its name, a name that is free, and its folder after that."""
    _, fault = call("answerer", 0, f"fails-{fails}")
    work = FOLDER / f"fails-{fails}"
    kept = [line.replace(str(work / "pages"), "DIR") for line in (work / "kept").read_text().splitlines()]
    part = kept[0].partition(" ")[2] if kept else ""
    wanted = [f"syncs {part}", "links DIR/page-1.pbm", "syncs DIR"]
    pages = [] if fails else [*wanted, f"syncs {part}", "links DIR/page-2.pbm", "syncs DIR"]
    left = [] if fails else ["page-1.pbm", "page-2.pbm"]
    if fault or not part.endswith(".part") or kept != (pages or wanted[:fails]) or sorted(os.listdir(work / "pages")) != left:
        return f"a page that can't be kept, {fails}: {kept}, left are {os.listdir(work / 'pages')} {fault}"
    return ""


def keep_without_links():
    """Runs a call on a file system without links; returns what was wrong. A page isn't written over one that is there."""
    _, fault = call("answerer", 0, "no-links")
    pages = FOLDER / "no-links" / "pages"
    if fault or sorted(os.listdir(pages)) != ["page-1.pbm", "page-2.pbm"] or {page.stat().st_mode & 0o777 for page in pages.iterdir()} != {0o600}:
        return f"pages without links: {os.listdir(pages)} {fault}"
    return ""


tried, faults = 0, []
with ThreadPoolExecutor(2) as pool:
    for one in SIDES:
        count, fault = call(one, 0)
        numbers = sorted({*range(1, FIRST + 1), *range(1, count + 1, max(1, count // SOME))})
        tried += len(numbers)
        faults += [fault, *(text for _, text in pool.map(call, [one] * len(numbers), numbers))]
faults = [text for text in [*faults, *map(keep, range(4)), keep_without_links()] if text]
if faults:
    sys.exit("\n".join(faults[:5]))
print(f"softfax: {tried} growths of memory of two processes were refused in turn, under the sanitizers, and pages that can't be kept "
      "aren't confirmed")
