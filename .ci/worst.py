#!/usr/bin/env python3
"""Holds what reading costs below a bound, on the worst octets that bench/speed/worst.py has found for each reader of the library for C:

    .ci/worst.py FOLDER

FOLDER has libg3fax.a and g3fax.h, as `make lib-try` leaves them without proof. A line of .ci/data/worst.jsonl is a case: a reader, the octets
of a piece, the recipe of what it reads, and the most instructions for each octet that is read or comes out as a row; a proved library takes
fewer. They are counted by valgrind's callgrind; where there is none, nothing is counted, and a line says so. Ends with status 1 if a case
takes more than its bound."""

import json
import shutil
import sys
import tempfile
from pathlib import Path

TOP = Path(__file__).resolve().parent.parent
CASES = TOP / ".ci" / "data" / "worst.jsonl"
sys.path.insert(0, str(TOP / "bench" / "speed" / "readers"))
from counting import Counter, build, octets_of  # noqa: E402


def main(words):
    if len(words) != 1:
        print(__doc__)
        return 2
    if not shutil.which("valgrind"):
        print("worst: nothing was counted: there is no valgrind")
        return 0
    over = []
    cases = [json.loads(line) for line in CASES.read_text().splitlines()]
    with tempfile.TemporaryDirectory() as folder:
        program = build(folder, words[0])
        for case in cases:
            counter = Counter(program, case["reader"], case["piece"], folder)
            octets = octets_of(case["reader"], case["recipe"], case["octets"])
            count, out, _status = counter.count(octets)
            counter.close()
            cost = count / (len(octets) + out)
            if cost > case["most"]:
                over.append(f"{case['reader']} {case['piece']}: {cost:.1f} instructions an octet, and not {case['most']} at most")
    if over:
        sys.exit("worst: " + "; ".join(over))
    print(f"worst: {len(cases)} cases, the worst that were found of each reader, are read within their bounds")
    return 0


if __name__ == "__main__":
    sys.exit(main(sys.argv[1:]))
