#!/usr/bin/env python3
"""Tries `faxtool frames --json`:

    try_json.py PROGRAM FILE FOLDER

Each record of the frames in FILE is put back together as the line that `frames` writes of the same frame, and each record of a page, or of
what is missing of one, as the line that `frames --pages` writes; and the lines must be the same. FOLDER is empty, for the pages. Ends with
status 1 where something differs. It needs Python's standard library alone."""

import glob
import json
import os
import subprocess
import sys

sys.dont_write_bytecode = True
from try_json_texts import signal_text

program, bits, folder = sys.argv[1:]


def run(*words):
    ran = subprocess.run([program, "frames", *words], capture_output=True, check=False)
    if ran.returncode not in (0, 1):
        sys.exit(f"frames {' '.join(words)} ended with status {ran.returncode}")
    return ran


def frame_text(frame):
    cut = ".." if len(frame["content"]) < 2 * frame["octets"] else ""
    return f"{frame['number']} {frame['content']}{cut} {signal_text(frame['says'])}"


def ranges(numbers):
    """Numbers as ranges, as `--explain` shows those of a PPR."""
    found = []
    for number in numbers:
        if found and number == found[-1][1] + 1:
            found[-1][1] = number
        else:
            found.append([number, number])
    return ", ".join(str(first) if first == last else f"{first} to {last}" for first, last in found)


def missing_text(found):
    what = found["missing"]
    if what == "page" and "after" in found:
        return f"page {found['page']} is missing: the page before it ended with {found['after']}"
    if what == "page" and "fault" not in found:
        return f"page {found['page']} is missing"
    if what == "page":
        return f"page {found['page']}: can't be read, fault {found['fault']} at bit {found['bit']}"
    if what == "end of page":
        return "a page has no end"
    block = f"page {found['page']} block {found['block']}"
    if what == "frame":
        return f"{block}: frame {found['frame']} is missing"
    if what == "blocks before":
        return f"{block}: the blocks before it are missing"
    if what == "new number":
        return f"{block}: its number was used already, so it counts as what follows {found['after']}"
    if what == "DCS" and "after" in found:
        return f"{block}: no DCS after {found['after']}, so it isn't stored"
    if what == "DCS":
        return f"{block}: no DCS before it"
    raise ValueError(what)


def line_text(record):
    if "number" in record:
        return frame_text(record)
    if "file" in record:
        return f"page {record['page']}: {record['file']}, {record['width']} x {record['height']} pixels, {record['lines']} lines"
    if "missing" in record:
        return missing_text(record)
    if "notice" in record:
        return record["notice"]
    return " ".join(f"{name} {record[name]}" for name in ("good", "aborted", "ragged", "short", "long", "damaged"))


def records(octets):
    return [json.loads(line) for line in octets.decode("ascii").splitlines()]


def compare(what, found, wanted):
    if found != wanted:
        at = next((at for at, pair in enumerate(zip(found, wanted)) if pair[0] != pair[1]), min(len(found), len(wanted)))
        sys.exit(f"{what}: line {at + 1} differs: {found[at:at + 1]} and not {wanted[at:at + 1]}")


def emptied():
    for name in glob.glob(os.path.join(folder, "*")):
        os.remove(name)


def try_lists():
    for words in ([], ["--data", "3"], ["--data", "0"]):
        plain = run(*words, bits)
        told = run("--json", *words, bits)
        compare("a listing", [line_text(record) for record in records(told.stdout)], plain.stdout.decode().splitlines())
        if (plain.returncode, told.returncode, told.stderr) != (0, 0, b""):
            sys.exit("a listing failed")


def try_marks():
    """The frames of each PPR are those that `--explain` names."""
    lines = run("--explain", bits).stdout.decode().splitlines()
    words = [line.split("again: frames", 1)[1].strip() for line in lines if line.startswith("    again: frames")]
    marks = [record["says"]["frames"] for record in records(run("--json", bits).stdout)
             if record.get("says", {}).get("signal") == "PPR"]
    compare("the frames of a PPR", [ranges(numbers) for numbers in marks], words)


def try_pages():
    plain = run("--pages", folder, bits)
    emptied()
    told = run("--json", "--pages", folder, bits)
    emptied()
    compare("a listing with pages", [line_text(record) for record in records(told.stdout)], plain.stdout.decode().splitlines())
    compare("what is missing", [line_text(record) for record in records(told.stderr)], plain.stderr.decode().splitlines())
    if plain.returncode != told.returncode:
        sys.exit("another status with --json")


def try_faults():
    told = run("--json", bits + ".none")
    words = run("--explain", bits + ".none").stderr.decode().splitlines()
    fault = records(told.stderr)
    compare("a fault", [f"fault {fault[0]['fault']}", fault[0]["words"]], words)
    if (told.returncode, told.stdout, len(fault)) != (1, b"", 1):
        sys.exit("a fault has another status or something beside it")


try_lists()
try_marks()
try_pages()
try_faults()
