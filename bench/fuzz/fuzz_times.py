#!/usr/bin/env python3
"""Runs many calls over a bad line at once, and compares what `faxtool call --times` prints with a second reading:

    bench/fuzz/fuzz_times.py RUNS [SEED]

The program is crates/faxtool/out/faxtool, or the one that FAXTOOL names. A run has 1 to 20 calls of a document of 1 to 4 of 24 random
pages; the rates, the seed, the number of DIS and the options are random too. Each line that is printed, and the table, have to be those that
reference_times.py gives; and of the first call the ends have to be those that the call alone prints. Ends with status 1 at the first run
that differs."""

import os
import random
import shutil
import subprocess
import sys
import tempfile
from pathlib import Path

sys.dont_write_bytecode = True
sys.path.insert(0, str(Path(__file__).resolve().parent))
from fuzz_calls import PROGRAM, Failed, compare, need, random_options, value_of  # noqa: E402
from fuzz_drive import IMAGES, Pages, random_rates  # noqa: E402
from reference_drive import Drawn, Pcg32, rate_of  # noqa: E402
from reference_times import TimedLine, times  # noqa: E402


def printed_by(words):
    ran = subprocess.run([PROGRAM, "call", *words], capture_output=True, timeout=120)
    need(ran.returncode == 0 and ran.stderr == b"", f"status {ran.returncode}: {ran.stderr.decode('utf-8', 'replace')}")
    return ran.stdout.decode("ascii", "replace")


def line_of(pages, options):
    """A new line of a call of pages with these options."""
    modems, is_t6 = value_of(options, "--modems", "v17"), value_of(options, "--code", "mmr") == "mmr"
    return TimedLine(pages, int(value_of(options, "--frame", "256")), (modems, "--fine" in options, is_t6))


def try_run(rand, pages, folder):
    """One run. Answers the number of its calls."""
    chosen = [rand.randrange(IMAGES) for _ in range(rand.randint(1, 4))]
    options, (lose, spoil, busy) = random_options(rand), random_rates(rand)
    rates = rate_of(lose), rate_of(spoil or "0%"), rate_of(busy or "0%")
    seed, calls = rand.choice([0, 1, 2**32 - 1, rand.randrange(2**32)]), rand.choice([None, 1, 2, 3, 4, 9])
    count = rand.randint(1, 20)
    line = ["--lose", lose, "--seed", str(seed)]
    line += ["--spoil", spoil] if spoil else []
    line += ["--busy", busy] if busy else []
    line += ["--calls", str(calls)] if calls else []
    document = os.path.join(folder, "in.pbm")
    Path(document).write_bytes(b"".join(pages.images[number] for number in chosen))
    words = [*line, "--times", str(count), *options, document]
    try:
        coded, printed = [pages.coded(number, options) for number in chosen], printed_by(words)
        compare(printed, list(times(lambda: line_of(coded, options), lambda number: Drawn(Pcg32(seed, number), *rates), count, calls or 3)))
        alone = printed_by([*line, *options, document]).split("\n")
        first = printed.split("\n")[0]
        need(first.startswith(f"call 0 {alone[-3]} {alone[-2]} deliveries "), f"the call alone ends with {alone[-3:-1]}")
    except Failed as why:
        raise Failed(f"{why}: call {' '.join(words)}") from why
    return count


def try_times(rand, runs, folder):
    """So many runs. Answers the number of their calls."""
    pages = Pages(rand, folder)
    return sum(try_run(rand, pages, folder) for _ in range(runs))


def main():
    if not 2 <= len(sys.argv) <= 3 or not all(word.isdigit() for word in sys.argv[1:]):
        print(__doc__, file=sys.stderr)
        return 2
    seed = int(sys.argv[2]) if len(sys.argv) > 2 else random.randrange(10**6)
    folder = tempfile.mkdtemp(prefix="fuzz-times-")
    try:
        calls = try_times(random.Random(seed), int(sys.argv[1]), folder)
    except (Failed, subprocess.TimeoutExpired) as why:
        print(f"FAILED with seed {seed}: {why}\nits files: {folder}")
        return 1
    shutil.rmtree(folder)
    print(f"{sys.argv[1]} runs of seed {seed}, of {calls} calls, print what the reference says")
    return 0


if __name__ == "__main__":
    sys.exit(main())
