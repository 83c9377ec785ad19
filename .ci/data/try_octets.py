"""Compares the octets on the line of calls with the second reading of the tables: try_octets.py PROGRAM FAXTOOL FOLDER

300 calls of random documents by scripts of a fixed seed, one in twenty with a page of two blocks and no loss, are run by the program of
crates/stream_tool: the octets that each event delivers or loses have to be those of bench/fuzz/call_octets.py. The codes of the pages
are FAXTOOL's own. Ends with status 1 at the first that differs."""

import os
import random
import subprocess
import sys
from collections import Counter

sys.dont_write_bytecode = True
program, faxtool, folder = sys.argv[1:]
os.environ["FAXTOOL"] = faxtool
sys.path.insert(0, os.path.join(os.path.dirname(os.path.abspath(__file__)), "..", "..", "bench", "fuzz"))
import fuzz_calls
from call_octets import MODEMS, OctetLine

CALLS = 300
# The events in the order of their numbers in crates/stream_tool/src/call.rt.
EVENTS = "to-answerer to-caller lose-to-answerer lose-to-caller spoil caller-timeout caller-t5 answerer-t1 answerer-t2 busy ready".split()
# An image whose one-dimensional code is a block of 256 frames of 64 octets and one frame more.
COMBS = b"P4\n2432 12\n" + 12 * 304 * b"\x55"
sent = Counter()


def guided_words(rand, pages, size, speeds):
    """The events of a script that follows a call, in which things go wrong, each as often as its line says."""
    script, _count = fuzz_calls.guided_script(rand, pages, size, speeds)
    lines = [line.partition(" ") for line in script.split("\n")]
    return [word for word, _, count in lines for _ in range(int(count or "1"))]


def whole_call(rand, pages, size, speeds):
    """The events of a call in which nothing goes wrong, up to its end."""
    line, words = fuzz_calls.Line(pages, size, speeds), []
    while len(words) < 5000 and not (line.caller.end and line.answerer.end):
        words.append(fuzz_calls.next_word(rand, line, 0))
        line.event(words[-1])
    return words


def try_call(rand, is_whole):
    images = [fuzz_calls.random_image(rand) for _ in range(rand.randint(1, 4))]
    modems, is_mh, size, is_fine = rand.randrange(len(MODEMS)), rand.random() < 0.5, rand.choice([64, 256]), rand.random() < 0.5
    if is_whole:
        images, is_mh, size = [COMBS] + images, True, 64
    pages, name = fuzz_calls.pages_of(folder, images, ["--code", "mh" if is_mh else "mmr"]), list(MODEMS)[modems]
    lengths = [(width, len(code)) for width, code in pages]
    make = whole_call if is_whole else guided_words
    words = make(rand, lengths, size, len(MODEMS[name][1]))
    call = os.path.join(folder, "call")
    with open(call, "wb") as file:
        file.write(bytes([modems, is_mh, size == 64, is_fine]) + len(words).to_bytes(2, "big"))
        file.write(bytes(EVENTS.index(word) for word in words) + b"".join(images))
    ran = subprocess.run([program, call, "call"], capture_output=True, timeout=60)
    if ran.returncode or ran.stderr:
        sys.exit(f"status {ran.returncode}: {ran.stderr.decode(errors='replace')}: {call}")
    line = OctetLine(pages, size, (name, is_fine, not is_mh))
    wanted = [(word, line.event(word)) for word in words]
    wanted = [(word, octets.hex() or "-") for word, octets in wanted if word.removeprefix("lose-") in line.under_way]
    compare(ran.stdout.decode().split("\n")[:-1], wanted, call)
    sent["PPS of a second block"] += any(place for _, place, _, _ in line.caller.blocks[: line.caller.place])
    sent.update(entry.split(" ")[2].partition(":")[0] for entry in line.entries)


def compare(lines, wanted, call):
    for number, (octets, (word, other)) in enumerate(zip(lines, wanted)):
        if octets != other:
            sys.exit(f"delivery {number + 1}, {word}: {octets[:100]}, where the reference has {other[:100]}: {call}")
    if len(lines) != len(wanted):
        sys.exit(f"{len(lines)} deliveries, where the reference has {len(wanted)}: {call}")


rand = random.Random(34)
for number in range(CALLS):
    try_call(rand, number % 20 == 0)
# What is never sent isn't compared either.
if len(sent) < 15 or min(sent.values()) < 10:
    sys.exit(f"of some frames there are few: {dict(sent)}")
