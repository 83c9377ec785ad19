#!/usr/bin/env python3
"""Runs random calls over a bad line, and compares what `faxtool call --lose` prints and leaves with a second reading:

    bench/fuzz/fuzz_drive.py CALLS [SEED]

The program is crates/faxtool/out/faxtool, or the one that FAXTOOL names. A document has 1 to 4 of 24 random pages; the rates, the seed, the
number of DIS and the options of the call are random too. Each line that is printed has to be the one that reference_drive.py gives, the
pages stored have to be the first of the document, and the files of --bits the octets of call_octets.py. Prints how many calls ended how, and
ends with status 1 at the first that differs."""

import os
import random
import shutil
import subprocess
import sys
import tempfile
from collections import Counter
from pathlib import Path

sys.dont_write_bytecode = True
sys.path.insert(0, str(Path(__file__).resolve().parent))
from fuzz_calls import CALLER, PROGRAM, Failed, check, compare, compare_bits, line_of_call, pages_of  # noqa: E402
from fuzz_calls import random_image, random_options, remove_outputs, value_of  # noqa: E402
from reference_drive import RNRS, Drawn, Pcg32, drive, rate_of  # noqa: E402

RATES = ["0%", "1%", "2%", "05%", "10%", "20%", "30%", "40%", "100%", "1/20", "3/1000", "1/3", "000000001/7", "999999999/999999999"]
SPOILS = ["0%", "5%", "10%", "1/3", "1/1000000"]
BUSY = ["0%", "10%", "1/2", "90%", "99%", "100%"]
IMAGES = 24


class Pages:
    """Random pages, each with its octets of code by the words of its options."""

    def __init__(self, rand, folder):
        self.images = [random_image(rand) for _ in range(IMAGES)]
        self.folder, self.codes = folder, {}

    def coded(self, number, options):
        code = value_of(options, "--code", "mmr")
        if (number, code) not in self.codes:
            self.codes[number, code] = pages_of(self.folder, [self.images[number]], ["--code", code])[0]
        return self.codes[number, code]


def random_rates(rand):
    """A rate of losses and one of spoiled items, which are 1 at most together, and one of a busy answerer."""
    lose, spoil = rand.choice(RATES), rand.choice(SPOILS) if rand.random() < 0.5 else None
    if spoil and rate_of(lose) + rate_of(spoil) > 1:
        spoil = None
    return lose, spoil, rand.choice(BUSY) if rand.random() < 0.5 else None


def try_drive(rand, pages, folder):
    """One call. Answers the caller's end."""
    chosen = [rand.randrange(IMAGES) for _ in range(rand.randint(1, 4))]
    options, (lose, spoil, busy) = random_options(rand), random_rates(rand)
    seed, calls = rand.choice([0, 1, 2**32 - 1, rand.randrange(2**32)]), rand.choice([None, 1, 2, 3, 4, 9])
    line = ["--lose", lose, "--seed", str(seed)]
    line += ["--spoil", spoil] if spoil else []
    line += ["--busy", busy] if busy else []
    line += ["--calls", str(calls)] if calls else []
    out, document = os.path.join(folder, "pages.pbm"), os.path.join(folder, "in.pbm")
    with open(document, "wb") as file:
        file.write(b"".join(pages.images[number] for number in chosen))
    remove_outputs(folder)
    words = [PROGRAM, "call", *line, *options, "--bits", folder, "--out", out, document]
    ran = subprocess.run(words, capture_output=True, timeout=120)
    left = Path(out).read_bytes() if os.path.exists(out) else None
    printed = ran.stdout.decode("ascii", "replace")
    try:
        check([pages.images[number] for number in chosen], 1, 10**9, ran.returncode, printed, ran.stderr.decode("utf-8", "replace"), left)
        drawn = Drawn(Pcg32(seed, 0), rate_of(lose), rate_of(spoil or "0%"), rate_of(busy or "0%"))
        line_read = line_of_call([pages.coded(number, options) for number in chosen], options)
        drive(line_read, drawn, calls or 3, RNRS)
        compare(printed, line_read.entries + line_read.ends())
        compare_bits(folder, line_read)
    except Failed as why:
        raise Failed(f"{why}: {' '.join(words[1:])}") from why
    return CALLER.fullmatch(printed.split("\n")[-3])[1]


def try_drives(rand, calls, folder):
    """So many calls. Answers how many ended how."""
    pages = Pages(rand, folder)
    return Counter(try_drive(rand, pages, folder) for _ in range(calls))


def main():
    if not 2 <= len(sys.argv) <= 3 or not all(word.isdigit() for word in sys.argv[1:]):
        print(__doc__, file=sys.stderr)
        return 2
    seed = int(sys.argv[2]) if len(sys.argv) > 2 else random.randrange(10**6)
    folder = tempfile.mkdtemp(prefix="fuzz-drive-")
    try:
        ends = try_drives(random.Random(seed), int(sys.argv[1]), folder)
    except (Failed, subprocess.TimeoutExpired) as why:
        print(f"FAILED with seed {seed}: {why}\nits files: {folder}")
        return 1
    shutil.rmtree(folder)
    print(f"{sys.argv[1]} calls of seed {seed} print what the reference says: " + ", ".join(f"{end} {count}" for end, count in ends.most_common()))
    return 0


if __name__ == "__main__":
    sys.exit(main())
