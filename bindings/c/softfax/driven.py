#!/usr/bin/env python3
"""Calls of docs/examples/driver.py, with a station of faxtool, and libspandsp's own terminal, each way: the modem's program is driven.c, over
libspandsp's modems, in real time. Both end normally, and the page that is stored is the one that was sent.

    driven.py DRIVEN FAXTOOL DRIVER FOLDER"""

import subprocess
import sys
import threading
import time
from pathlib import Path

DRIVEN, FAXTOOL, DRIVER = sys.argv[1:4]
FOLDER = Path(sys.argv[4])
FAULTS = []


def call(they_are):
    """A call with libspandsp's terminal as the caller, or as the answerer."""
    folder = FOLDER / they_are
    folder.mkdir()
    words = ["--answer", "--out", folder] if they_are == "caller" else ["--call", "--fine", folder / "page.pbm"]
    theirs = subprocess.Popen([DRIVEN, folder / "modem", folder, they_are], stdout=subprocess.PIPE, stderr=subprocess.STDOUT, text=True)
    ends = time.monotonic() + 20
    while not (folder / "modem").exists() and time.monotonic() < ends:
        time.sleep(0.1)
    station = [DRIVER, folder / "modem", FAXTOOL, "station", *words, "--hear", "--trace", folder / "trace"]
    try:
        ours = subprocess.run(station, capture_output=True, text=True, timeout=240)
        said = theirs.communicate(timeout=60)[0]
    except subprocess.TimeoutExpired as late:
        theirs.kill()
        FAULTS.append(f"{they_are}: {late}")
        return
    is_page = they_are == "answerer" or (folder / "page-1.pbm").exists() and (
        (folder / "page-1.pbm").read_bytes() == (folder / "page.pbm").read_bytes())
    if ours.returncode or theirs.returncode or not is_page:
        trace = (folder / "trace").read_text() if (folder / "trace").exists() else ""
        FAULTS.append(f"libspandsp's {they_are}: statuses {theirs.returncode} and {ours.returncode}: {said}{ours.stderr}{trace}")


THREADS = [threading.Thread(target=call, args=[they_are]) for they_are in ("caller", "answerer")]
for thread in THREADS:
    thread.start()
for thread in THREADS:
    thread.join()
if FAULTS:
    sys.exit("\n".join(FAULTS))
print("softfax: driver.py and a station of faxtool carry a page to libspandsp's terminal, and from it, over its modems")
