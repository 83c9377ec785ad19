#!/usr/bin/env python3
"""Writes what end_to_end.sh tries the program on at size, with no code of this repository, into the folder that is its word:
large.pbm and long.pbm, pages of 300 and of 20,000 rows of 2,432 pixels; large.txt and long.txt, their pixels as . and #;
frames.bits, a mebibyte of frames of 260 octets, and frames.txt, what is in it."""

import sys
from pathlib import Path

from make_line import FLAG, bits_of, check, frame, stuffed

WIDTH = 2432
LAST = [1000, 2000]


class Numbers:
    """Numbers that are the same on each machine, by a linear congruence."""

    def __init__(self):
        self.state = 1

    def below(self, limit):
        self.state = (1103515245 * self.state + 12345) % 2**31
        return (self.state >> 8) % limit


def some_edges(numbers):
    """Where the pixels of a row change: runs of a length of its own, from single pixels to the whole width."""
    longest = 2 ** (1 + numbers.below(12))
    edges, at = [], numbers.below(longest)
    while at < WIDTH:
        edges.append(at)
        at += 1 + numbers.below(longest)
    return edges


def moved(numbers, edges):
    """The same edges, each up to four pixels to the left or to the right; now and then two neighbours are left out."""
    left_out = numbers.below(4 * len(edges) + 4)
    kept = edges[:left_out] + edges[left_out + 2 :]
    return sorted({min(max(edge + numbers.below(9) - 4, 0), WIDTH - 1) for edge in kept})


def large_rows():
    """300 rows: a new one or a moved one, white and black ones; one with runs of each multiple of 64; 20 white rows, and a last
    one with one black run."""
    numbers, edges = Numbers(), []
    for row in range(242):
        edges = some_edges(numbers) if numbers.below(6) == 0 else moved(numbers, edges)
        yield [] if row % 40 == 39 else [0] if row % 40 == 38 else edges
    yield from ([edge] for edge in range(64, WIDTH, 64))
    yield from 20 * [[]]
    yield LAST


def long_rows():
    """20,000 rows: a black run that goes to the right by one pixel a row, each seventh row white."""
    for row in range(20000):
        first = row % 2000
        yield [] if row % 7 == 0 else [first, first + 300]


def pixels(edges):
    """A row as a number: its leftmost pixel the highest bit, 1 for black."""
    number = 0
    for edge in edges:
        number ^= (1 << WIDTH - edge) - 1
    return number


def write_page(folder, name, rows):
    numbers = [pixels(edges) for edges in rows]
    octets = b"".join(number.to_bytes(WIDTH // 8, "big") for number in numbers)
    (folder / f"{name}.pbm").write_bytes(b"P4\n%d %d\n" % (WIDTH, len(numbers)) + octets)
    text = "".join(f"{number:0{WIDTH}b}\n" for number in numbers)
    (folder / f"{name}.txt").write_text(text.translate(str.maketrans("01", ".#")))


def some_frames():
    """FCD of 256 octets of data each, and whether each is good: one of 64 is damaged, one aborted."""
    numbers = Numbers()
    for number in range(128):
        content = bytes([0xFF, 0x03, 0x06, number]) + bytes(numbers.below(256) for _ in range(256))
        if number % 64 == 31:
            body = bits_of(content) + check(bits_of(content))
            yield content, "damaged", FLAG + stuffed([1 - body[0]] + body[1:]) + FLAG
        elif number % 64 == 63:
            yield content, "aborted", FLAG + stuffed(bits_of(content)) + 8 * [1] + FLAG
        else:
            yield content, "good", frame(content) + number % 7 * [0]


def write_frames(folder):
    """The frames again and again, until a mebibyte is full."""
    frames = list(some_frames())
    line = "".join(str(bit) for _, _, bits in frames for bit in bits)
    times = -(-(8 * 2**20) // len(line))
    bits = times * line
    bits += -len(bits) % 8 * "0"
    (folder / "frames.bits").write_bytes(int(bits[::-1], 2).to_bytes(len(bits) // 8, "little"))
    good = times * [content for content, kind, _ in frames if kind == "good"]
    lines = [f"{number} {content.hex()} FCD {content[3]} 256" for number, content in enumerate(good, 1)]
    counts = f"good {len(good)} aborted {2 * times} ragged 0 short 0 long 0 damaged {2 * times}"
    (folder / "frames.txt").write_text("\n".join(lines + [counts]) + "\n")


def main():
    folder = Path(sys.argv[1])
    write_page(folder, "large", large_rows())
    write_page(folder, "long", long_rows())
    write_frames(folder)


if __name__ == "__main__":
    main()
