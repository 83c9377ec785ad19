"""Two terminals joined by their octets alone: try_joined.py PROGRAM FAXTOOL CALLS FOLDER

Each script of CALLS that isn't refused is run by FAXTOOL, which has to print the script's last lines, and by the program of
crates/stream_tool, in which one terminal hears the octets that the other one sends, in pieces of 1, of 7 and of 4,096 octets: with the
same events it has to come to the same ends and the same pages. Ends with status 1 at the first call that differs."""

import os
import subprocess
import sys
from pathlib import Path

program, faxtool, calls, folder = sys.argv[1:]
# The events and the modems in the order of their numbers in crates/stream_tool/src/call.rt.
EVENTS = "to-answerer to-caller lose-to-answerer lose-to-caller spoil caller-timeout caller-t5 answerer-t1 answerer-t2 busy ready".split()
MODEMS = "v17 v27v29 v29 v27 fallback".split()
PIECES = [1, 7, 4096]


def images_of(script):
    """The images of a call, as .ci/calls/README says."""
    rows, copies = script.with_suffix(".rows"), script.with_suffix(".copies")
    if rows.exists():
        count = int(rows.read_text())
        return b"P4\n2432 %d\n" % count + count * 304 * b"U"
    return script.with_suffix(".pbm").read_bytes() * (int(copies.read_text()) if copies.exists() else 1)


def digest(octets):
    """The number that the program prints of a page's octets."""
    number = 0
    for octet in octets:
        number = (number * 31 + octet + 1) % 2**32
    return number


def pages_of(images, count, fine):
    """The lines that the program prints of the first pages."""
    lines = []
    for _ in range(count):
        _, size, images = images.split(b"\n", 2)
        width, rows = map(int, size.split())
        octets, images = images[: (width + 7) // 8 * rows], images[(width + 7) // 8 * rows :]
        lines.append(f"page {width} {fine} {rows} {digest(octets)}")
    return lines


def lines_of(words):
    ran = subprocess.run(words, capture_output=True, text=True, timeout=120)
    if ran.returncode or ran.stderr:
        sys.exit(f"{' '.join(map(str, words))}: status {ran.returncode}: {ran.stderr}")
    return ran.stdout.splitlines()


def name_of(end):
    """An end as the library names it."""
    return "None" if end == "running" else "Some(" + "".join(part.capitalize() for part in end.split("-")) + ")"


def try_call(script):
    images, options = images_of(script), script.with_suffix(".options")
    words = options.read_text().split() if options.exists() else []
    given, line = os.path.join(folder, "images"), os.path.join(folder, "joined")
    with open(given, "wb") as file:
        file.write(images)
    printed = lines_of([faxtool, "call", "--script", script, *words, given])
    told = script.with_suffix(".expected" if script.with_suffix(".expected").exists() else ".tail").read_text().splitlines()
    if printed[-2:] != told[-2:]:
        sys.exit(f"{script.name}: faxtool ends with {printed[-2:]}, and not {told[-2:]}")
    events = bytes(EVENTS.index(one.split(" ")[1]) for one in printed[:-2])
    value = dict(zip(words, words[1:]))
    head = bytes([MODEMS.index(value.get("--modems", "v17")), value.get("--code") == "mh", value.get("--frame") == "64", "--fine" in words])
    caller, answerer = [one.split(" ") for one in told[-2:]]
    wanted = [f"caller {name_of(caller[1])} confirmed {caller[3]}", f"answerer {name_of(answerer[1])} pages {answerer[3]}"]
    wanted += pages_of(images, int(answerer[3]), "true" if "--fine" in words else "false")
    for piece in PIECES:
        with open(line, "wb") as file:
            file.write(head + piece.to_bytes(2, "big") + len(events).to_bytes(4, "big") + events + images)
        found = lines_of([program, line, "join"])
        if found != wanted:
            sys.exit(f"{script.name} in pieces of {piece}: {found[:3]}, and not {wanted[:3]}")


scripts = [script for script in sorted(Path(calls).glob("*.script")) if not script.with_suffix(".fault").exists()]
if len(scripts) < 24:
    sys.exit(f"there are only {len(scripts)} calls in {calls}")
for script in scripts:
    try_call(script)
print(f"end to end: {len(scripts)} calls of two terminals, joined by their octets alone")
