#!/usr/bin/env python3
"""Draws a call: the level of both directions of its sound, and its frames as a ladder between them.

    picture.py CALL.wav CALL.told OUT.svg

CALL.wav and CALL.told are what `softfax --call .. --wav CALL.wav --tell 2> CALL.told` has left: the caller's sound is on the left."""

import array
import sys
from itertools import groupby

SECOND, TOP, WIDTH, STEP = 34, 40, 620, 0.05  # pixels a second, above and across; how many seconds a level is measured over
LEFT, RIGHT, HALF = 130, 490, 60              # the middles of the two directions, and how wide the loudest is to each side
LOUDEST = 32768 / 2                           # of samples


def levels(samples):
    """The greatest sample of each step, as pixels; to the next two, so that the picture is short."""
    size = int(8000 * STEP)
    for at in range(0, len(samples), size):
        yield 2 * round(HALF / 2 * min(1, max(map(abs, samples[at : at + size])) / LOUDEST))


def shape(middle, samples):
    """The outline of a direction's levels."""
    sizes = list(levels(samples))
    bends = [i for i, size in enumerate(sizes) if not 0 < i < len(sizes) - 1 or not sizes[i - 1] == size == sizes[i + 1]]
    down = [f"{middle + sizes[i]},{TOP + i * STEP * SECOND:.0f}" for i in bends]
    up = [f"{middle - sizes[i]},{TOP + i * STEP * SECOND:.0f}" for i in bends]
    return f'<polygon points="{" ".join(down + up[::-1])}" fill="#48a"/>'


def frames(lines):
    """What was said or heard: its time in seconds, whether it goes from left to right, and its names."""
    told = []
    for line in lines:
        words = line.split()
        if len(words) > 3 and words[2] in ("says", "hears"):
            told.append((words[2], int(words[0]) / 1000, "check" if words[4:5] == ["training"] else words[3]))
    for (verb, _), turn in groupby(told, lambda it: (it[0], it[1] if it[0] == "says" else it[2])):
        turn = list(turn)
        names = [(name, len(list(same))) for name, same in groupby(it[2] for it in turn)]
        text = ", ".join(f"{count} {name}" if count > 1 else name for name, count in names)
        yield turn[-1][1], verb == "says", text


with open(sys.argv[1], "rb") as file:
    sound = array.array("h", file.read()[44:])
if sys.byteorder == "big":
    sound.byteswap()
seconds = len(sound) / 2 / 8000
height = TOP + seconds * SECOND + 20
out = [f'<svg xmlns="http://www.w3.org/2000/svg" viewBox="0 0 {WIDTH} {height:.0f}" font-family="sans-serif" font-size="12">']
out.append(f'<rect width="{WIDTH}" height="{height:.0f}" fill="white"/>')
out.append(f'<text x="{LEFT}" y="20" text-anchor="middle">caller</text><text x="{RIGHT}" y="20" text-anchor="middle">answerer</text>')
for second in range(0, int(seconds) + 1, 2):
    y = TOP + second * SECOND
    out.append(f'<line x1="40" y1="{y}" x2="{WIDTH - 20}" y2="{y}" stroke="#ddd"/>')
    out.append(f'<text x="34" y="{y + 4}" text-anchor="end">{second} s</text>')
out += [shape(LEFT, sound[0::2]), shape(RIGHT, sound[1::2])]
for at, goes_right, text in frames(open(sys.argv[2])):
    y = TOP + at * SECOND
    begin, end, back = (LEFT + HALF + 10, RIGHT - HALF - 10, -7) if goes_right else (RIGHT - HALF - 10, LEFT + HALF + 10, 7)
    out.append(f'<path d="M{begin} {y:.1f}H{end}m{back} -4l{-back} 4l{back} 4" stroke="black" fill="none"/>')
    out.append(f'<text x="{(LEFT + RIGHT) / 2}" y="{y + (13 if goes_right else -5):.1f}" text-anchor="middle">{text}</text>')
out.append("</svg>")
with open(sys.argv[3], "w") as file:
    file.write("\n".join(out) + "\n")
