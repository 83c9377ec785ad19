#!/usr/bin/env python3
"""Prints what is drawn of two captures, as lines of a transcript:

    order_captures.py CALLER ANSWERER [WORDS]

CALLER and ANSWERER are what `frames --explain` prints of each. Each frame is a line; one of the answerer comes after the first frame of the
caller that it can answer, and a DIS while the caller has sent nothing or after another frame of the answerer. Frames of no known signal
aren't drawn. WORDS is a file that the same lines are written to, each with what it says in words after it.
"""

import sys

ANSWERS = {"DCS": ("CFR", "FTT"), "PPS": ("MCF", "PPR", "RNR"), "RR": ("MCF", "PPR", "RNR")}
KNOWN = {"DIS", "DCS", "CFR", "FTT", "FCD", "RCP", "PPS", "PPR", "MCF", "RNR", "RR", "DCN"}


def frames(name):
    """The signal, the text and the words of each frame of a known signal."""
    found = []
    for line in open(name).read().splitlines():
        if line.startswith("    "):
            found[-1] = (*found[-1][:2], line.split("; other bits ")[0] + "\n")
        elif not line.startswith("good "):
            said = line.split(" ")[2:]
            found.append((said[0], f"FCD:{said[1]}" if said[0] == "FCD" else said[0], ""))
    return [frame for frame in found if frame[0] in KNOWN]


def main():
    caller, answerer = frames(sys.argv[1]), frames(sys.argv[2])
    last, number, explained = None, 0, ""
    while caller or answerer:
        can = answerer and (answerer[0][0] in ANSWERS.get(last, ()) or (answerer[0][0] == "DIS" and last in (None, "an answer")))
        if can or not caller:
            word, (_, text, words), last = "to-caller", answerer.pop(0), "an answer"
        else:
            word, (last, text, words) = "to-answerer", caller.pop(0)
        number += 1
        print(number, word, text, "-")
        explained += f"{number} {word} {text} -\n{words}"
    for name in sys.argv[3:]:
        open(name, "w").write(explained)


main()
