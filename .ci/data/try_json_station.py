#!/usr/bin/env python3
"""Tries `faxtool station --json` on the kept conversations:

    try_json_station.py PROGRAM FOLDER

Each conversation of .ci/conversations is made with and without `--json`. The trace's records, put back together, are the lines of the trace
without it; the records of what happens and of how the call ended are their lines, with its figures; and a fault's record has its number and
its line. FOLDER is empty, for the pages.
Prints how many runs there were, and ends with status 1 where something differs. It needs Python's standard library alone."""

import json
import os
import subprocess
import sys
from pathlib import Path

sys.dont_write_bytecode = True
TOP = Path(__file__).resolve().parent.parent.parent
sys.path.insert(0, str(TOP / "bench" / "fuzz"))
import try_json_texts as texts  # noqa: E402
from figures import words_of  # noqa: E402

program, folder = sys.argv[1:]
KEPT = TOP / ".ci" / "conversations"


def made(words, lines, *more):
    """What is printed, what is told and traced, and the status."""
    for name in os.listdir(folder):
        os.remove(os.path.join(folder, name))
    trace = os.path.join(folder, "trace")
    with open(lines, "rb") as given:
        command = [program, "station", *more, "--trace", trace, "--trace-frames", *words]
        done = subprocess.run(command, stdin=given, capture_output=True, timeout=60, check=False)
    if done.returncode not in (0, 1):
        sys.exit(f"{lines.stem}: status {done.returncode}")
    traced = Path(trace).read_bytes() if os.path.exists(trace) else b""
    return done.stdout, done.stderr, traced, done.returncode


def happened_text(record):
    """The line of what happens during a call."""
    if "file" in record:
        size = f"{record['width']} x {record['height']}, {record['lines']}, {record['code']}, {record['speed']}"
        return f"{record['at']} page {record['page']} in {record['file']}: {size}"
    if "confirmed" in record:
        return f"{record['at']} page {record['confirmed']} confirmed"
    if "gap" in record:
        return f"{record['at']} gap before page {record['gap']}: one may be missing"
    return f"{record['at']} heard {record.get('words') or texts.signal_text(record['heard'])}"


def end_text(record):
    """The lines of the record of the end: why, unless a notice has said it, the figures, and the end."""
    name, why = record["end"], record["why"]
    before = {"refused": "the call is refused: ", "not-compatible": "not compatible: "}.get(name, "")
    counted = "confirmed" if "confirmed" in record else "pages"
    lines = [words_of(record), f"end {name} {counted} {record[counted]}"]
    return "\n".join([before + why, *lines] if why and name != "stopped" else lines)


def told_text(record):
    """The lines of a record on standard error."""
    if "at" in record:
        return happened_text(record)
    if "end" in record:
        return end_text(record)
    if "fault" in record:
        return f"fault {record['fault']}" + (f" at line {record['line']}" if "line" in record else "")
    return record["notice"]


def traced_text(record):
    word = "said" if "said" in record else "heard"
    says = record[word]
    return " ".join([str(record["at"]), word, texts.signal_text(says), *([says["name"]] if "name" in says else [])])


def records(octets):
    return [json.loads(line) for line in octets.decode("ascii").splitlines()]


def compare(name, what, found, wanted):
    if found != wanted:
        sys.exit(f"{name}: {what} with --json: {found} and not {wanted}")


runs = 0
for words in sorted(KEPT.glob("*.words")):
    name = words.stem
    given = words.read_text().replace("IN", str(KEPT / f"{name}.pbm")).replace("DIR", folder).split()
    printed, told, traced, status = made(given, KEPT / f"{name}.lines")
    also, told_records, traced_records, other = made(given, KEPT / f"{name}.lines", "--json")
    compare(name, "the answers", also, printed)
    compare(name, "the trace", [traced_text(record) for record in records(traced_records)], traced.decode().splitlines())
    found = records(told_records)
    lines = [told_text(record) for record in found if "whole" not in record]
    compare(name, "what is told", "\n".join(lines), told.decode().rstrip("\n"))
    compare(name, "how the call stands", [record["whole"] for record in found if "whole" in record], [not status])
    why = [record.get("why") for record in found if "whole" in record]
    compare(name, "why", [record["why"] for record in found if "end" in record] or why, why)
    compare(name, "the status", other, status)
    runs += 2
if runs < 52:
    sys.exit(f"{runs} runs, and not 52 at least")
print(runs)
