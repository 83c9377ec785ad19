#!/usr/bin/env python3
"""Runs random scripts over small documents through `faxtool call` for a given time, and checks what each leaves.

    bench/fuzz/fuzz_calls.py SECONDS [SEED]      with the program that `rt run` left, or the one that FAXTOOL names
    bench/fuzz/fuzz_calls.py --dry               tries the checks alone, on a worked call and on wrong answers to it

A document has 1 to 4 pages of 1 to 4 rows, and seldom of more blocks than one, 1,728, 2,048 or 2,432 pixels wide; a script 1 to 300
lines, half of them at random, half following the call so that it comes far. After each run:
- each line that it printed is that of bench/fuzz/reference_call.py, a plain reading of the tables apart from the program;
- the files of --bits have the octets that bench/fuzz/call_octets.py says, in each direction;
- the transcript has the form of its entries, numbered from 1, as many as the script asks for, and ends with both stations;
- the file of --out has the first pages of the document, octet for octet, as many as `pages` says, and isn't made for none;
- `confirmed` is `pages` or one less; a station that ended normally leaves all pages stored, and all confirmed for a caller;
- the same script prints the same again, and leaves the same pages.
One script in twenty has a line that isn't one: then it is the fault of that line, and nothing is printed or left.
At the first run that fails, its files stay in the folder that is printed, and the status is 1."""

import os
import random
import re
import shutil
import subprocess
import sys
import tempfile
import time
from collections import Counter

sys.dont_write_bytecode = True
from call_octets import OctetLine
from reference_call import Line, play

TOP = os.path.dirname(os.path.dirname(os.path.dirname(os.path.abspath(__file__))))
PROGRAM = os.environ.get("FAXTOOL", os.path.join(TOP, "crates", "faxtool", "out", "faxtool"))
WORDS = "to-answerer to-caller lose-to-answerer lose-to-caller spoil caller-timeout caller-t5 answerer-t1 answerer-t2 busy ready".split()
# How often each of these comes in a script: deliveries mostly, and the ends of long waits seldom; or many losses, or long waits.
MOODS = [
    [60, 40, 6, 4, 2, 10, 0.6, 0.3, 6, 1, 2],
    [100, 40, 9, 1, 0, 1, 0, 0, 0, 0, 0],
    [60, 30, 1, 1, 15, 3, 0, 0, 10, 1, 1],
    [100, 60, 40, 1, 0, 5, 0, 0, 3, 0, 0],
    [60, 60, 0, 0, 0, 2, 1, 0, 3, 6, 6],
    [100, 100, 0.5, 0.5, 0.5, 0.5, 0, 0, 3, 0, 0],
]
# Pieces of scripts, several times one after the other: lost frames, bad training checks, an answerer that stays busy.
PIECES = [
    ["lose-to-answerer", "to-answerer 300", "to-caller"],
    ["to-caller", "to-answerer", "spoil", "to-answerer", "to-caller"],
    ["answerer-t2", "to-caller", "to-answerer", "spoil", "to-answerer", "to-caller"],
    ["busy", "to-answerer 300", "to-caller", "caller-timeout"],
    ["to-answerer 300", "lose-to-caller", "caller-timeout"],
]
# A busy answerer and its caller say RNR and RR to each other for as long as a polite call goes.
POLITE = 50 * [1, 2, 5, 9, 11, 21, 100, 300] + [5000, 1000000]
# How many speeds two stations of these modems try.
SPEEDS = {"v17": 6, "v27v29": 4, "v29": 2, "v27": 2, "fallback": 1}
ITEMS = r"-|DIS|DCS|TRAINING|CFR|FTT|FCD:\d+|RCP|PPS|MCF|PPR|RNR|RR|DCN"
TURNS = r"-|DIS|DCS|CFR|FTT|BURST:\d+|PPS|MCF|PPR|RNR|RR|DCN"
ENTRY = re.compile(rf"(\d+) ({'|'.join(WORDS)}) ({ITEMS}) ({TURNS})( !)?")
ENDS = "normal|no-answer|not-compatible|training|no-reply|unreadable|still-busy|peer-left|bad-page|page-too-long|running"
CALLER = re.compile(rf"caller ({ENDS}) confirmed (\d+)")
ANSWERER = re.compile(rf"answerer ({ENDS}) pages (\d+)")
NO_LINES = ["to-caller  2", "to-caller 0", "to-caller 1000001", "to-caller +1", "polite", "polite 0", " polite 1", "ready\r", "call", "busy 1 ",
            "spoil -1", "# \udcff"]


class Failed(Exception):
    pass


def need(holds, what):
    if not holds:
        raise Failed(what)


def random_image(rand):
    width, height = rand.choice([1728, 2048, 2432]), rand.randint(1, 4)
    kind = rand.randint(0, 3)
    if rand.random() < 0.02:
        height, kind = rand.randint(30, 60), 2
    size = width // 8 * height
    if kind == 0:
        rows = bytes(size)
    elif kind == 1:
        rows = bytes([rand.choice([0x55, 0xAA, 0xFF, 0x0F])]) * size
    elif kind == 2:
        rows = rand.randbytes(size)
    else:
        rows = bytes(rand.choice([0, 0, 0, 0xFF, 0xF0, 0x3C]) for _ in range(size))
    return b"P4\n%d %d\n" % (width, height) + rows


def random_lines(rand, mood, pieces, polite):
    """A line of a script, or a piece of one."""
    pick = rand.random()
    if pick < 0.05:
        return [rand.choice(["", "# a comment", "#"])]
    if pick < 0.05 + pieces:
        return rand.choice(PIECES) * rand.choice([1, 1, 2, 3, 4, 6])
    if pick < 0.05 + pieces + polite:
        count = rand.choice(POLITE)
        return ["polite %s%d" % ("0" * rand.choice([0, 0, 0, 7 - len(str(count))]), count)]
    word = rand.choices(WORDS, mood)[0]
    count = rand.choice([1, 1, 1, 1, 2, 3, 5, 30 if word.startswith("to-") else 1])
    return [word if count == 1 and rand.random() < 0.7 else f"{word} {count}"]


def random_script(rand):
    """A script, and the number of entries that it has at least and at most."""
    lines, most = [], rand.randint(1, rand.choice([3, 20, 60, 300]))
    mood, pieces, polite = rand.choice(MOODS), rand.choice([0.03, 0.03, 0.3]), rand.choice([0.01, 0.05, 0.2])
    while len(lines) < most:
        lines += random_lines(rand, mood, pieces, polite)
    lines = lines[:most]
    counts = [(line.split()[0], int((line.split() + ["1"])[1])) for line in lines if line and not line.startswith("#")]
    least = sum(count for word, count in counts if word != "polite")
    politely = sum(count for word, count in counts if word == "polite")
    return "\n".join(lines) + rand.choice(["", "\n"]), least, least + 2 * politely


def next_word(rand, line, harm):
    """An event of a call that goes on: mostly the delivery that is next, and else something that goes wrong."""
    place = next((place for place, items in line.under_way.items() if items), None)
    if place is None or rand.random() < harm / 3:
        timeouts = 1 if line.caller.state == "WaitDis" else 20
        waits = ["caller-timeout", "answerer-t2", "busy", "ready", "caller-t5", "answerer-t1"]
        return rand.choices(waits, [timeouts, 20, 3, 12, 1, 0.1])[0]
    if line.under_way[place][0][0] == "TRAINING" and rand.random() < 3 * harm:
        return "spoil"
    return ("lose-" if rand.random() < harm else "") + place


def guided_script(rand, pages, frame, speeds):
    """A script that follows a call of these pages, so that it comes far, and the number of entries that it has."""
    line, harm, words = Line(pages, frame, speeds), rand.choice([0.01, 0.03, 0.1, 0.2]), []
    lines, most, size = [], rand.randint(1, 300), rand.randint(1, 3000)
    while len(lines) < most and len(words) < size:
        words.append(next_word(rand, line, harm))
        line.event(words[-1])
        if line.caller.end and line.answerer.end:
            most = min(most, len(lines) + 5)
        if words[-2:-1] == words[-1:]:
            word, _, count = lines[-1].partition(" ")
            lines[-1] = f"{word} {int(count or 1) + 1}"
        else:
            lines.append(words[-1])
    return "\n".join(lines), len(words)


def spoiled_script(rand, text):
    """The script with a line that isn't one, and the number of that line."""
    lines = text.split("\n")
    place = rand.randint(0, len(lines) - 1)
    lines.insert(place, rand.choice(NO_LINES))
    return "\n".join(lines), place + 1


def random_options(rand):
    options = []
    for name, values in (("--code", ["mh", "mmr"]), ("--frame", ["256", "64"]), ("--modems", list(SPEEDS))):
        if rand.random() < 0.6:
            options += [name, rand.choice(values)]
    return options + ["--fine"] * rand.randint(0, 1)


def check(images, least, most, status, output, error, left):
    """Raises Failed where a run isn't right. `left` is what the file of --out has, or None."""
    need(status == 0, f"status {status}: {error}")
    need(error == "", f"it wrote to standard error: {error}")
    lines = output.split("\n")
    need(len(lines) >= 3 and lines[-1] == "", "it didn't print both stations")
    entries = [ENTRY.fullmatch(line) for line in lines[:-3]]
    need(all(entries), "an entry has another form")
    need([int(it[1]) for it in entries] == list(range(1, len(entries) + 1)), "the entries aren't numbered from 1")
    need(least <= len(entries) <= most, f"{len(entries)} entries, and not {least} to {most}")
    need(not any(it[5] for it in entries), "a growth was refused")
    caller, answerer = CALLER.fullmatch(lines[-3]), ANSWERER.fullmatch(lines[-2])
    need(caller and answerer, "the stations' lines have another form")
    confirmed, pages = int(caller[2]), int(answerer[2])
    need(confirmed <= pages <= confirmed + 1, f"confirmed {confirmed}, pages {pages}")
    need(pages <= len(images), "more pages than the document has")
    need(caller[1] != "normal" or confirmed == len(images), "a caller's normal end before the last page was confirmed")
    need(answerer[1] != "normal" or pages == len(images), "an answerer's normal end before the last page was stored")
    need(left == (b"".join(images[:pages]) if pages else None), "the pages left aren't a beginning of the document")


def value_of(options, name, otherwise):
    return options[options.index(name) + 1] if name in options else otherwise


def pages_of(folder, images, options):
    """Each page's width and the octets of its code, as `faxtool code` writes it."""
    pages = []
    for image in images:
        one, code = os.path.join(folder, "one.pbm"), os.path.join(folder, "code")
        with open(one, "wb") as file:
            file.write(image)
        words = [PROGRAM, "code", "--code", value_of(options, "--code", "mmr"), "--order", "lsb", one, code]
        subprocess.run(words, check=True, timeout=120)
        with open(code, "rb") as file:
            pages.append((int(image.split()[1]), file.read()))
    return pages


def line_of_call(pages, options):
    """The line of a call of pages with these options."""
    size, modems = int(value_of(options, "--frame", "256")), value_of(options, "--modems", "v17")
    return OctetLine(pages, size, (modems, "--fine" in options, value_of(options, "--code", "mmr") == "mmr"))


def compare_bits(folder, line):
    """Raises Failed where the files of a call's bits aren't what the stations of the reference have sent."""
    for name, station in (("to-answerer.bits", line.caller), ("to-caller.bits", line.answerer)):
        with open(os.path.join(folder, name), "rb") as file:
            sent = file.read()
        same = len(os.path.commonprefix([sent, bytes(station.line)]))
        what = f"{name} has {len(sent)} octets, the reference {len(station.line)}, and the first {same} are the same"
        need(sent == station.line, what)


def compare(output, wanted):
    """Raises Failed where a line that was printed isn't the reference's."""
    lines = output.split("\n")[:-1]
    for line, other in zip(lines, wanted):
        need(line == other, f"it printed {line!r}, the reference {other!r}")
    need(len(lines) == len(wanted), f"it printed {len(lines)} lines, the reference {len(wanted)}")


def remove_outputs(folder):
    """Removes what a call before has left: --bits replaces no file."""
    for name in ("pages.pbm", "to-answerer.bits", "to-caller.bits"):
        if os.path.exists(os.path.join(folder, name)):
            os.remove(os.path.join(folder, name))


def run_once(folder, options):
    out = os.path.join(folder, "pages.pbm")
    remove_outputs(folder)
    files = ["--bits", folder, "--out", out, os.path.join(folder, "in.pbm")]
    words = [PROGRAM, "call", "--script", os.path.join(folder, "script"), *options, *files]
    ran = subprocess.run(words, capture_output=True, timeout=120)
    left = None
    if os.path.exists(out):
        with open(out, "rb") as file:
            left = file.read()
    return ran.returncode, ran.stdout.decode("ascii", "replace"), ran.stderr.decode("utf-8", "replace"), left


def try_call(rand, folder):
    """One document and one script. Answers the number of entries and the caller's end."""
    images = [random_image(rand) for _ in range(rand.randint(1, 4))]
    options, bad = random_options(rand), None
    frame, speeds = int(value_of(options, "--frame", "256")), SPEEDS[value_of(options, "--modems", "v17")]
    codes = pages_of(folder, images, options)
    pages = [(width, len(code)) for width, code in codes]
    script, least, most = random_script(rand)
    if rand.random() < 0.5:
        script, least = guided_script(rand, pages, frame, speeds)
        most = least
    if rand.random() < 0.05:
        script, bad = spoiled_script(rand, script)
    for name, octets in (("in.pbm", b"".join(images)), ("script", script.encode(errors="surrogateescape")), ("options", " ".join(options).encode())):
        with open(os.path.join(folder, name), "wb") as file:
            file.write(octets)
    ran = run_once(folder, options)
    if bad:
        need(ran == (1, "", f"fault 30 at line {bad}\n", None), f"not fault 30 at line {bad}: {ran[0]} {ran[2]}")
        return 0, "fault 30"
    check(images, least, most, *ran)
    line = line_of_call(codes, options)
    compare(ran[1], play(line, script))
    compare_bits(folder, line)
    need(run_once(folder, options) == ran, "the same script printed or left something else")
    lines = ran[1].split("\n")
    return len(lines) - 3, CALLER.fullmatch(lines[-3])[1]


def fuzz(seconds, seed):
    rand, end = random.Random(seed), time.monotonic() + seconds
    runs, entries, ends = 0, 0, Counter()
    folder = tempfile.mkdtemp(prefix="fuzz-calls-")
    while time.monotonic() < end:
        try:
            more, end_of_call = try_call(rand, folder)
            entries += more
            ends[end_of_call] += 1
        except (Failed, subprocess.TimeoutExpired) as why:
            print(f"FAILED in run {runs + 1} of seed {seed}: {why}\nits files: {folder}")
            return 1
        runs += 1
    shutil.rmtree(folder)
    print(f"{runs} scripts, {entries} entries, all well; seed {seed}; callers' ends: {', '.join(f'{end} {ends[end]}' for end in sorted(ends))}")
    return 0


WORKED = """1 to-caller DIS DCS
2 to-answerer DCS -
3 to-answerer TRAINING CFR
4 to-caller CFR BURST:1
5 to-answerer FCD:0 -
6 to-answerer RCP -
7 to-answerer RCP -
8 to-answerer RCP -
9 to-answerer PPS MCF
10 to-caller MCF DCN
11 to-answerer DCN -
caller normal confirmed 1
answerer normal pages 1
"""


def dry():
    image = b"P4\n1728 1\n" + bytes(216)
    good = ([image], 0, 22, 0, WORKED, "", image)
    check(*good)
    check([image], 0, 0, 0, "caller running confirmed 0\nanswerer running pages 0\n", "", None)
    wrong = [
        ([image], 0, 22, 1, "", "fault 9\n", None),
        ([image], 0, 22, 0, WORKED, "", None),
        ([image], 0, 22, 0, WORKED, "", image[:-1] + b"\1"),
        ([image, image], 0, 22, 0, WORKED, "", image),
        ([image], 12, 22, 0, WORKED, "", image),
        ([image], 0, 10, 0, WORKED, "", image),
        ([image], 0, 22, 0, WORKED.replace("2 to-answerer", "3 to-answerer"), "", image),
        ([image], 0, 22, 0, WORKED.replace("PPS MCF", "PPS ACK"), "", image),
        ([image], 0, 22, 0, WORKED.replace("normal confirmed 1", "no-reply confirmed 2"), "", image),
        ([image], 0, 22, 0, WORKED.replace("pages 1", "pages 0").replace("normal", "peer-left"), "", None),
        ([image], 0, 22, 0, WORKED.replace("pages 1", "pages 2"), "", image + image),
        ([image], 0, 22, 0, "caller running confirmed 0\n", "", None),
    ]
    for case in wrong:
        try:
            check(*case)
        except Failed:
            continue
        print(f"a wrong answer passes: {case}")
        return 1
    rand = random.Random(1)
    for _ in range(1000):
        script, least, most = random_script(rand)
        need(1 <= len(script.split("\n")) <= 301 and least <= most, "a script out of range")
        random_image(rand), random_options(rand), spoiled_script(rand, script), guided_script(rand, [(1728, 4), (2048, 999)], 64, 2)
    print(f"the checks pass a worked call and refuse {len(wrong)} wrong answers")
    return 0


def main():
    if sys.argv[1:] == ["--dry"]:
        return dry()
    if not 2 <= len(sys.argv) <= 3 or not sys.argv[1].isdigit():
        print(__doc__, file=sys.stderr)
        return 2
    return fuzz(int(sys.argv[1]), int(sys.argv[2]) if len(sys.argv) > 2 else random.randrange(10**6))


if __name__ == "__main__":
    sys.exit(main())
