"""Compares the program of crates/stream_tool with the second reading of the tables in bench/fuzz: try_streams.py PROGRAM FOLDER

300 random streams of octets of a fixed seed, with training checks, timers and a busy answerer among them, each cut in two ways: the turns
that answer them, the pages that are stored and the end have to be those of bench/fuzz/fuzz_stream.py. Ends with status 1 at the first
that differs."""

import os
import random
import subprocess
import sys
from collections import Counter

sys.dont_write_bytecode = True
sys.path.insert(0, os.path.join(os.path.dirname(os.path.abspath(__file__)), "..", "..", "bench", "fuzz"))
import fuzz_stream

STREAMS = 300
program, folder = sys.argv[1:]
rand, turns, ends, pages = random.Random(34), Counter(), Counter(), 0
for number in range(STREAMS):
    try:
        _octets, its_turns, its_pages, its_end = fuzz_stream.try_stream(rand, folder, program)
    except (fuzz_stream.Failed, subprocess.TimeoutExpired) as why:
        sys.exit(f"stream {number}: {why}: {folder}")
    turns.update(turn[:3] for turn in its_turns)
    ends[its_end] += 1
    pages += its_pages
# What is never answered isn't compared either.
rare = [f"{name} {count}" for counter in (turns, ends) for name, count in counter.items() if count < 5]
if len(turns) < 8 or len(ends) < 5 or rare or pages < 100:
    sys.exit(f"the streams lead to few turns, ends or pages: {dict(turns)}, {dict(ends)}, {pages} pages")
