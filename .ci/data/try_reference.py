"""Compares `faxtool` with the second reading of the tables in bench/fuzz: try_reference.py PROGRAM FOLDER

300 random scripts of a fixed seed are run by `call`, half of which follow the call, and what they print has to be what
bench/fuzz/reference_call.py says, line for line; so is it of 100 random calls over a bad line and bench/fuzz/reference_drive.py, and of 20
runs of many such calls and bench/fuzz/reference_times.py. The files of `--bits` have to be the octets of bench/fuzz/call_octets.py, in both
directions. Then 300 random pages of a fixed seed, whose codes bench/fuzz/reference_pages.py writes with any modes that may come, whole, with
a bit flipped or cut short: `decode` has to give its rows, or refuse it, as the reader there does. Ends with status 1 at the first that
differs."""

import os
import random
import subprocess
import sys

sys.dont_write_bytecode = True
program, folder = sys.argv[1:]
os.environ["FAXTOOL"] = program
sys.argv = sys.argv[:1]
sys.path.insert(0, os.path.join(os.path.dirname(os.path.abspath(__file__)), "..", "..", "bench", "fuzz"))
import fuzz_calls
import fuzz_drive
import fuzz_times
from reference_pages import EOFB, code_of, random_rows, read_page

CALLS = PAGES = 300
DRIVES = 100
RUNS = 20


def image_of(rows, width):
    """The image of rows, each the places where its color turns."""
    size = -(-width // 8)
    image = b"P4\n%d %d\n" % (width, len(rows))
    for row in rows:
        ones = 0
        for place in row:
            ones ^= (1 << (width - place)) - 1
        image += (ones << (8 * size - width)).to_bytes(size, "big")
    return image


def broken(rand, bits):
    """The bits as they are, with one turned, or cut short."""
    way, place = rand.random(), rand.randrange(len(bits))
    if way < 0.3:
        return bits[:place] + "10"[int(bits[place])] + bits[place + 1 :]
    return bits[:place] if way < 0.5 else bits


def try_page(rand, number):
    width, is_t6 = rand.choice([1, 8, 13, 64, 1728, 2048, 2432]), number % 2 == 0
    rows = random_rows(rand, width, rand.randint(1, 6)) if width > 100 else [sorted(rand.sample(range(width), min(width, 3))) for _ in range(5)]
    ends = EOFB if is_t6 else rand.choice(["", "000000000001", 6 * "000000000001"])
    bits = broken(rand, code_of(rand, rows, width, is_t6) + ends)
    bits += "0" * (-len(bits) % 8)
    code, out = os.path.join(folder, "reference.code"), os.path.join(folder, "reference.pbm")
    with open(code, "wb") as file:
        file.write(bytes(int(bits[at : at + 8], 2) for at in range(0, len(bits), 8)))
    if os.path.exists(out):
        os.remove(out)
    words = [program, "decode", "--code", "mmr" if is_t6 else "mh", "--width", str(width), code, out]
    status = subprocess.run(words, capture_output=True, timeout=60).returncode
    wanted = read_page(bits, width, is_t6)
    given = open(out, "rb").read() if os.path.exists(out) else None
    if (status, given) != ((0, image_of(wanted, width)) if wanted else (1, None)):
        sys.exit(f"page {number}: status {status}, where the reference reads {'no page' if wanted is None else 'a page'}: {code}")
    return wanted is not None


rand, ends = random.Random(34), set()
for number in range(CALLS):
    try:
        ends.add(fuzz_calls.try_call(rand, folder)[1])
    except fuzz_calls.Failed as why:
        sys.exit(f"script {number}: {why}: {folder}")
if len(ends) < 6:
    sys.exit(f"the scripts lead to few ends: {ends}")
try:
    driven = fuzz_drive.try_drives(random.Random(34), DRIVES, folder)
except fuzz_calls.Failed as why:
    sys.exit(f"call over a bad line: {why}: {folder}")
if len(driven) < 3:
    sys.exit(f"the calls over a bad line lead to few ends: {driven}")
try:
    fuzz_times.try_times(random.Random(34), RUNS, folder)
except fuzz_calls.Failed as why:
    sys.exit(f"many calls over a bad line: {why}: {folder}")
rand = random.Random(34)
read = sum(try_page(rand, number) for number in range(PAGES))
if not 50 < read < PAGES - 20:
    sys.exit(f"{read} of {PAGES} pages are read")
