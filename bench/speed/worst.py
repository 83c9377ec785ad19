#!/usr/bin/env python3
"""Searches for the octets that cost a reader of the library for C most, by small changes that are kept if they cost no less.

    bench/speed/worst.py [--seconds N] [--seed N] [--octets N] [--cases FILE] [READER ..]
    bench/speed/worst.py --refusals

The cost is the instructions, counted by valgrind's callgrind, for each octet that is read or comes out as a row. A READER is a name and the
octets of a piece, as `rows-mmr 36` in one word; without one, all are searched, each for 20 seconds if not said, with about 2,048 octets, or
so many. Prints a row of a table for each: the worst, what a white page or random octets cost it, and how many recipes were tried. With
--cases the recipes of the worst go to FILE, each with 15 % more as its bound, for .ci/worst.py.

With --refusals prints what it costs to refuse octets that are bad from the first one on, after a white row, and at the end of a row of many
runs; and how many such a core refuses in a second, at 5,000 million instructions.

Builds the library by packaging/try.sh --library, without proof, or LIBRARY names the folder of another. Needs cc and valgrind."""

import json
import os
import random
import subprocess
import sys
import tempfile
import time
from pathlib import Path

sys.path.insert(0, str(Path(__file__).resolve().parent / "readers"))
from counting import EOL, TOP, WIDTH, Counter, build, octets_of, packed, page_of, run_row  # noqa: E402

READERS = [
    *("decode-mh 4096", "decode-mmr 4096", "salvage-mh 4096", "salvage-mmr 4096", "repair-mh 4096"),
    *("rows-mh 1", "rows-mh 36", "rows-mh 4096", "rows-mmr 1", "rows-mmr 36", "rows-mmr 4096"),
    *("deframer 1", "deframer 7", "deframer 36", "deframer 4096", "answerer 36", "identify 4096", "pbm 4096", "pack 4096", "unpack 4096"),
]
PAGES = ("decode", "salvage", "repair", "rows")
# where a search begins, beside what is ordinary
KNOWN = {
    "rows": [[[[1], "best", ""]], [[[1], "best", ""], [[WIDTH], "best", ""]], [[[0], "best", ""]]],
    "repair": [[[[1], "best", ""], [[1], "broken", "1"]], [[[2], "best", "0000001111"]]],
    "": [[[[1], "best", ""]], [[[1], "best", ""], [[WIDTH], "best", ""]], [[[1], "horizontal", ""], [[2], "best", ""]]],
    "deframer": ["7eff", "f8f5", "7e3f", "7e5a", "ff557e2a7eff7e"],
    "answerer": ["7eff", "3f7e"],
    "identify": ["f551", "ff", "7ef53f"],
    "pbm": ["20", "0a", "230a"],
    "pack": ["0001"],
    "unpack": ["0001"],
}
RUNS = [0, 1, 1, 1, 2, 3, 4, 5, 7, 8, 31, 63, 64, 65, 640, 1728, 2560]
DAMAGE = ["", "0", "1", "000", "00000000", "0000001111", "1" * 16]
OCTETS = [0x7E, 0xFF, 0x00, 0x55, 0xAA, 0xFE, 0x7F, 0xF8, 0xF5, 0x1F, 0x3F, 0xFC, 0xE7, 0x0A, 0x20, 0x30, 0x50]


def words_of(kind):
    """What stands in a recipe's octets beside single ones: frames, or the beginnings of files."""
    if kind in ("deframer", "answerer"):
        return [bytes.fromhex(word) for word in ("7E7E", "7EFF", "FF0313", "FF1384B5", "7EFF13FB6E2B7E")]
    return [b"P4\n", b"8 8\n", b"#\n", b"II*\0", packed(6 * EOL), packed(page_of([[[1, 1], "best", ""]], False, 64)[:200])]


def new_recipe(rand, reader):
    if reader.split("-")[0] in PAGES:
        return [[[rand.choice(RUNS) for _ in range(rand.randint(1, 3))], "best", ""] for _ in range(rand.randint(1, 2))]
    return bytes(rand.choice(OCTETS) for _ in range(rand.randint(1, 8))).hex()


def changed_row(rand, row, damaged):
    """A row with another run, one more or one less, another way, or other bits before it."""
    runs, way, before = list(row[0]), row[1], row[2]
    what = rand.random()
    if what < 0.45:
        runs[rand.randrange(len(runs))] = rand.choice(RUNS) if rand.random() < 0.5 else rand.randint(0, 70)
    elif what < 0.6:
        runs.insert(rand.randint(0, len(runs)), rand.choice(RUNS))
    elif what < 0.75 and len(runs) > 1:
        runs.pop(rand.randrange(len(runs)))
    elif what < 0.9 or not damaged:
        way = rand.choice(["best", "horizontal", "broken"] if damaged else ["best", "horizontal"])
    else:
        before = rand.choice(DAMAGE) + rand.choice(["", before])
    return [runs[:40], way, before[:200]]


def changed(rand, reader, recipe):
    """A recipe that differs a little."""
    if isinstance(recipe, list):
        rows, at, what = list(recipe), rand.randrange(len(recipe)), rand.random()
        if what < 0.7:
            rows[at] = changed_row(rand, rows[at], reader in ("repair-mh", "rows-mh", "salvage-mh"))
        elif what < 0.85:
            rows.insert(at, changed_row(rand, rows[at], False))
        elif len(rows) > 1:
            rows.pop(at)
        return rows[:12]
    octets, words = bytearray.fromhex(recipe), words_of(reader)
    at, what = rand.randrange(len(octets)), rand.random()
    if what < 0.3:
        octets[at] = rand.choice(OCTETS) if rand.random() < 0.5 else rand.randrange(256)
    elif what < 0.4:
        octets[at] ^= 1 << rand.randrange(8)
    elif what < 0.6:
        octets[at:at] = rand.choice(words) if rand.random() < 0.3 else bytes([rand.choice(OCTETS)])
    elif what < 0.8 and len(octets) > 1:
        del octets[at : at + rand.choice([1, 1, 2, 4])]
    else:
        octets[at:at] = octets[max(0, at - rand.choice([1, 2, 4, 8])) : at]
    return (bytes(octets[:300]) or b"\0").hex()


def cost_of(counter, reader, recipe, size):
    octets = octets_of(reader, recipe, size)
    count, out, _status = counter.count(octets)
    return count / (len(octets) + out)


def search(counter, reader, seconds, seed, size):
    """The worst recipe, its cost, what an ordinary one costs, and how many were tried."""
    rand, end = random.Random(f"{seed} {reader}"), time.monotonic() + seconds
    kind = reader.split("-")[0]
    if kind in PAGES:
        plain = [[[WIDTH], "best", ""]]
    else:
        plain = "00" if "pack" in kind else rand.randbytes(300).hex()
    ordinary = cost_of(counter, reader, plain, size)
    begun = [(cost_of(counter, reader, known, size), at, known) for at, known in enumerate(KNOWN.get(kind, KNOWN[""]))]
    best, _at, recipe = max([(ordinary, -1, plain), *begun])
    tried = 1 + len(begun)
    while time.monotonic() < end:
        # sometimes from a new beginning, so that it doesn't stay where no small change helps
        other = new_recipe(rand, reader) if rand.random() < 0.05 else recipe
        for _ in range(rand.choice([1, 1, 2, 4])):
            other = changed(rand, reader, other)
        cost, tried = cost_of(counter, reader, other, size), tried + 1
        if cost >= best:
            best, recipe = cost, other
    return recipe, best, ordinary, tried


def searched(program, folder, options):
    """Searches for each reader, prints its row, and returns the cases."""
    cases = []
    print("| reader | octets at once | ordinary | worst | tried | recipe |\n|---|---|---|---|---|---|", flush=True)
    for words in options["readers"] or READERS:
        reader, piece = words.split()
        counter = Counter(program, reader, piece, folder)
        size = options["octets"] // (4 if piece == "1" or reader == "identify" else 1)
        recipe, worst, ordinary, tried = search(counter, reader, options["seconds"], options["seed"], size)
        counter.close()
        text = json.dumps(recipe, separators=(",", ":"))
        print(f"| {reader} | {piece} | {ordinary:.1f} | {worst:.1f} | {tried} | `{text[:90]}` |", flush=True)
        cases.append({"reader": reader, "piece": int(piece), "octets": size, "most": round(1.15 * worst + 1), "recipe": recipe})
    return cases


def refused_cells(counter, given):
    """What each of these octets costs, by a name or none, where it is refused."""
    for name, octets in given:
        count, _out, _status = counter.count(octets)
        yield f"{name}{count:,} ({5e9 / count:,.0f} a second)"


def refusals(program, folder):
    """What refusing costs."""
    comb = [page_of([[[1, 1], "best", ""]], is_t6, 8)[: -24 if is_t6 else -72][:-3] for is_t6 in (False, True)]
    fronts = ["", ""], [EOL + run_row([WIDTH]), "1"], comb
    others = {
        "deframer 36": {"wrong check": "7EFF13FB00007E", "aborted": "7EFF13FBFFFFFF7E", "ragged": "7EFF13FB6E2B1F7E"},
        "pbm 4096": {"no header": "5031", "no width": "50340A302031", "cut short": "50340A3137323820320A00"},
        "identify 36": {"text": "0123456789ABCDEF" * 4, "0 bits": "00" * 36, "1 bits": "FF" * 36},
        "signal 36": {"address": "001384", "control": "FF0013", "cut short": "FF13"},
    }
    print("| reader | at once, or of this kind | after a white row | at the end of a comb |\n|---|---|---|---|")
    for words in ["decode-mh 4096", "decode-mmr 4096", "salvage-mh 4096", "salvage-mmr 4096", "rows-mh 4096", "rows-mmr 4096", *others]:
        reader, piece = words.split()
        bad = "0000000011110000" + "0" * 16
        given = [("", packed(front[reader.endswith("-mmr")] + bad)) for front in fronts]
        if words in others:
            given = [(f"{name}: ", bytes.fromhex(octets)) for name, octets in others[words].items()]
        counter = Counter(program, reader, piece, folder)
        counter.count(given[0][1])  # the first call also binds names
        print(f"| {reader} | {' | '.join(refused_cells(counter, given))} |", flush=True)
        counter.close()


def main(words):
    options = {"seconds": 20, "seed": 1, "octets": 2048, "cases": None, "readers": []}
    refuses = words == ["--refusals"]
    while words and not refuses:
        word = words.pop(0)
        if word in ("--seconds", "--seed", "--octets"):
            options[word[2:]] = int(words.pop(0))
        elif word == "--cases":
            options["cases"] = words.pop(0)
        elif word in READERS:
            options["readers"].append(word)
        else:
            print(__doc__)
            return 2
    library = os.environ.get("LIBRARY")
    if not library:
        subprocess.run([TOP / "packaging" / "try.sh", "--library"], check=True, stdout=subprocess.DEVNULL)
        library = TOP / "build"
    with tempfile.TemporaryDirectory() as folder:
        program = build(folder, library)
        if refuses:
            refusals(program, folder)
            return 0
        cases = searched(program, folder, options)
    if options["cases"]:
        Path(options["cases"]).write_text("".join(json.dumps(case) + "\n" for case in cases))
    return 0


if __name__ == "__main__":
    sys.exit(main(sys.argv[1:]))
