#!/usr/bin/env python3
"""A plain reader and a writer of pages in both codes, apart from the crates, by the standards' tables and rules.

    bench/fuzz/reference_pages.py --dry      tries both on worked pages and on random ones

Bits are a text of `0` and `1` in the order of sending. A row is the list of its changing positions, a page a list of rows."""

import random
import re
import sys
from bisect import bisect_right

# The code words of runs (ITU-T T.4, tables 2 and 3): of 0 to 63 pixels, of 64 to 1728 in steps of 64, and of 1792 to 2560 for both colors.
WHITE_ENDS = """
00110101 000111 0111 1000 1011 1100 1110 1111 10011 10100 00111 01000 001000 000011 110100 110101 101010 101011 0100111 0001100
0001000 0010111 0000011 0000100 0101000 0101011 0010011 0100100 0011000 00000010 00000011 00011010 00011011 00010010 00010011
00010100 00010101 00010110 00010111 00101000 00101001 00101010 00101011 00101100 00101101 00000100 00000101 00001010 00001011
01010010 01010011 01010100 01010101 00100100 00100101 01011000 01011001 01011010 01011011 01001010 01001011 00110010 00110011
00110100
""".split()
BLACK_ENDS = """
0000110111 010 11 10 011 0011 0010 00011 000101 000100 0000100 0000101 0000111 00000100 00000111 000011000 0000010111 0000011000
0000001000 00001100111 00001101000 00001101100 00000110111 00000101000 00000010111 00000011000 000011001010 000011001011
000011001100 000011001101 000001101000 000001101001 000001101010 000001101011 000011010010 000011010011 000011010100 000011010101
000011010110 000011010111 000001101100 000001101101 000011011010 000011011011 000001010100 000001010101 000001010110 000001010111
000001100100 000001100101 000001010010 000001010011 000000100100 000000110111 000000111000 000000100111 000000101000 000001011000
000001011001 000000101011 000000101100 000001011010 000001100110 000001100111
""".split()
WHITE_MAKE_UPS = """
11011 10010 010111 0110111 00110110 00110111 01100100 01100101 01101000 01100111 011001100 011001101 011010010 011010011 011010100
011010101 011010110 011010111 011011000 011011001 011011010 011011011 010011000 010011001 010011010 011000 010011011
""".split()
BLACK_MAKE_UPS = """
0000001111 000011001000 000011001001 000001011011 000000110011 000000110100 000000110101 0000001101100 0000001101101 0000001001010
0000001001011 0000001001100 0000001001101 0000001110010 0000001110011 0000001110100 0000001110101 0000001110110 0000001110111
0000001010010 0000001010011 0000001010100 0000001010101 0000001011010 0000001011011 0000001100100 0000001100101
""".split()
LONG_MAKE_UPS = """
00000001000 00000001100 00000001101 000000010010 000000010011 000000010100 000000010101 000000010110 000000010111 000000011100
000000011101 000000011110 000000011111
""".split()
# The vertical modes by how far a1 is to the right of b1, and the other two (ITU-T T.6, table 1).
VERTICAL = {0: "1", 1: "011", 2: "000011", 3: "0000011", -1: "010", -2: "000010", -3: "0000010"}
PASS, HORIZONTAL = "0001", "001"
EOFB = 2 * "000000000001"
EOL = re.compile("0{11,}1")
MOST_ROWS = 20000


def runs_by_word(ends, make_ups):
    """The run of each code word of a color."""
    longer = make_ups + LONG_MAKE_UPS
    return {word: run for run, word in enumerate(ends)} | {word: 64 * (at + 1) for at, word in enumerate(longer)}


RUNS = [runs_by_word(WHITE_ENDS, WHITE_MAKE_UPS), runs_by_word(BLACK_ENDS, BLACK_MAKE_UPS)]
WORDS = [{run: word for word, run in runs.items()} for runs in RUNS]
MODES = {word: shift for shift, word in VERTICAL.items()} | {PASS: "pass", HORIZONTAL: "horizontal"}


class Refused(Exception):
    pass


class Bits:
    def __init__(self, bits):
        self.bits, self.place = bits, 0

    def one_of(self, words, longest):
        """What the code word says that is next."""
        for size in range(1, longest + 1):
            word = self.bits[self.place : self.place + size]
            if len(word) == size and word in words:
                self.place += size
                return words[word]
        raise Refused

    def run(self, color):
        run = self.one_of(RUNS[color], 13)
        if run < 64:
            return run
        rest = self.one_of(RUNS[color], 13)
        if rest > 63:
            raise Refused
        return run + rest

    def has_left(self):
        return self.bits.find("1", self.place) >= 0


def one_dimensional_row(bits, width):
    row, color, place = [], 0, 0
    while place < width:
        run = bits.run(color)
        place += run
        if place > width:
            raise Refused
        # a first white run of 0 begins the row with black
        row += [place] if place < width else []
        color = 1 - color
    return row


def one_dimensional(text, width, rows):
    """No EOL or one, rows with one EOL between two, and an end: none or one with only 0 bits after it, or two and more. The rows go into
    the list, also those before a refusal."""
    bits = Bits(text)
    eol = EOL.match(text)
    if eol:
        bits.place = eol.end()
    while True:
        if not bits.has_left() or len(rows) == MOST_ROWS:
            raise Refused
        rows.append(one_dimensional_row(bits, width))
        if not bits.has_left():
            return rows
        eol = EOL.match(text, bits.place)
        if not eol:
            raise Refused
        bits.place = eol.end()
        if not bits.has_left() or EOL.match(text, bits.place):
            return rows


def color_at(row, place):
    """0 for white, 1 for black: how many changing positions are at or before the place."""
    return sum(at <= place for at in row) % 2


def b1_and_b2(reference, width, a0, color):
    """The first changing position to the right of a0 whose pixel is of the other color than a0's, and the next one."""
    number = bisect_right(reference, a0)
    number += number % 2 != color
    b1, b2 = (reference[number : number + 2] + [width, width])[:2]
    return b1, b2


def turned(row, width):
    """The row's places, each of which turns the color, without those that turn it twice or at its end."""
    places = []
    for place in row:
        if places and places[-1] == place:
            places.pop()
        elif place < width:
            places.append(place)
    return places


def two_dimensional_row(bits, reference, width):
    row, a0, color = [], -1, 0
    while a0 < width:
        mode = bits.one_of(MODES, 7)
        b1, b2 = b1_and_b2(reference, width, a0, color)
        if mode == "pass":
            a0 = b2
        elif mode == "horizontal":
            first, second = bits.run(color), bits.run(1 - color)
            a1 = max(a0, 0) + first
            if first + second == 0 or a1 + second > width:
                raise Refused
            row += [a1, a1 + second]
            a0 = a1 + second
        else:
            if not a0 < b1 + mode <= width:
                raise Refused
            a0 = b1 + mode
            row.append(a0)
            color = 1 - color
    return turned(row, width)


def two_dimensional(text, width, rows):
    """Rows, each by the one above it, and EOFB. They go into the list, also those before a refusal."""
    bits, reference = Bits(text), []
    while not text.startswith(EOFB, bits.place):
        if not bits.has_left() or len(rows) == MOST_ROWS:
            raise Refused
        reference = two_dimensional_row(bits, reference, width)
        rows.append(reference)
    if not rows:
        raise Refused
    return rows


def read_rows(text, width, is_t6):
    """The rows that bits begin with, and whether they are a page."""
    rows = []
    try:
        two_dimensional(text, width, rows) if is_t6 else one_dimensional(text, width, rows)
    except Refused:
        return rows, False
    return rows, True


def read_page(text, width, is_t6):
    """The rows that bits begin with, or None."""
    rows, is_page = read_rows(text, width, is_t6)
    return rows if is_page else None


def digest(rows, width):
    """A number of 32 bits of the rows' octets, eight pixels an octet, the leftmost the highest bit, as crates/stream_tool prints it."""
    number = 0
    for row in rows:
        ones = 0
        for place in row:
            ones ^= (1 << (width - place)) - 1
        size = -(-width // 8)
        for octet in (ones << (8 * size - width)).to_bytes(size, "big"):
            number = (31 * number + octet + 1) % 2**32
    return number


# Writing: any code that reads as the rows, not only the prescribed one.


def run_words(color, run):
    return WORDS[color][run] if run < 64 else WORDS[color][run // 64 * 64] + WORDS[color][run % 64]


def row_words(row, width):
    places = [0, *row, width]
    return "".join(run_words(at % 2, places[at + 1] - places[at]) for at in range(len(places) - 1))


def mode_of(rand, reference, row, width, a0, color):
    """A mode that may come at a0, with its bits, the new a0 and the new color."""
    after = [at for at in row if at > a0 and color_at(row, at) != color] + [width]
    a1 = after[0]
    a2 = ([at for at in row if at > a1] + [width])[0]
    b1, b2 = b1_and_b2(reference, width, a0, color)
    ways = []
    if b2 < a1 or (b2 == a1 == width):
        ways.append((PASS, b2, color))
    if -3 <= a1 - b1 <= 3:
        ways.append((VERTICAL[a1 - b1], a1, 1 - color))
    runs = run_words(color, a1 - max(a0, 0)) + run_words(1 - color, a2 - a1)
    ways.append((HORIZONTAL + runs, a2, color))
    return rand.choice(ways)


def two_dimensional_words(rand, reference, row, width):
    bits, a0, color = "", -1, 0
    while a0 < width:
        word, a0, color = mode_of(rand, reference, row, width, a0, color)
        bits += word
    return bits


def code_of(rand, rows, width, is_t6):
    """The bits of rows, without what is before and after them."""
    if not is_t6:
        return "000000000001".join(row_words(row, width) for row in rows)
    references = [[], *rows]
    return "".join(two_dimensional_words(rand, references[at], row, width) for at, row in enumerate(rows))


def prescribed_row(reference, row, width):
    """A row by the modes that T.6 prescribes."""
    bits, a0, color, place, ends = [], -1, 0, 0, row + [width, width]
    while a0 < width:
        a1, a2 = ends[place : place + 2]
        b1, b2 = b1_and_b2(reference, width, a0, color)
        if b2 < a1:
            bits.append(PASS)
            a0 = b2
        elif -3 <= a1 - b1 <= 3:
            bits.append(VERTICAL[a1 - b1])
            a0, color, place = a1, 1 - color, place + 1
        else:
            bits.append(HORIZONTAL + run_words(color, a1 - max(a0, 0)) + run_words(1 - color, a2 - a1))
            a0, place = a2, place + 2
    return "".join(bits)


def prescribed(rows, width, is_t6):
    """The bits of a page: in T.6 with EOFB, else with an EOL before each row and six after the last."""
    if not is_t6:
        eol = "000000000001"
        return "".join(eol + row_words(row, width) for row in rows) + 6 * eol
    return "".join(prescribed_row(above, row, width) for above, row in zip([[], *rows], rows)) + EOFB


def random_rows(rand, width, count):
    """Rows of few and of many changing positions, some near those of the row before."""
    rows, row = [], []
    for _ in range(count):
        way = rand.random()
        if way < 0.3:
            row = sorted({min(max(at + rand.randint(-4, 4), 0), width - 1) for at in row})
        elif way < 0.8:
            row = sorted(rand.sample(range(width), rand.choice([0, 1, 2, 9, 100])))
        rows.append(row)
    return rows


# Pages worked by hand: the width, whether in T.6, the bits, and the rows or None.
WORKED = [
    (1728, True, "1" + EOFB, [[]]),
    (1728, True, EOFB, None),
    (1728, True, "1", None),
    (8, True, "0010111" + "11" + "111" + "1" + "0001" + "1" + EOFB, [[2, 4], [2, 4], []]),
    (8, False, "0111" + "11" + "1011", [[2, 4]]),
    (8, False, "000000000001" + "0111" + "11" + "1011" + "000000000001", [[2, 4]]),
    (8, False, 2 * "000000000001", None),
    (8, False, "0111" + "11" + "1011" + "1", None),
]


def dry():
    for width, is_t6, bits, rows in WORKED:
        if read_page(bits, width, is_t6) != rows:
            print(f"{bits} at width {width} is read as {read_page(bits, width, is_t6)}")
            return 1
    rand = random.Random(1)
    for number in range(400):
        width, is_t6 = rand.choice([8, 13, 1728, 2432]), number % 2 == 0
        rows = random_rows(rand, width, rand.randint(1, 6)) if width > 100 else [sorted(rand.sample(range(width), 3)) for _ in range(5)]
        ends = EOFB if is_t6 else rand.choice(["", "000000000001", 6 * "000000000001"])
        if read_page(code_of(rand, rows, width, is_t6) + ends, width, is_t6) != rows:
            print(f"page {number} isn't read as it was written")
            return 1
        if read_page(prescribed(rows, width, is_t6), width, is_t6) != rows:
            print(f"page {number} isn't read as it is prescribed")
            return 1
    print(f"{len(WORKED)} worked pages and 400 random ones are read")
    return 0


if __name__ == "__main__":
    if sys.argv[1:] != ["--dry"]:
        print(__doc__, file=sys.stderr)
        sys.exit(2)
    sys.exit(dry())
