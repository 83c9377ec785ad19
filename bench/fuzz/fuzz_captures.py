#!/usr/bin/env python3
"""Finds the pages in random captures by `faxtool frames --pages`, and compares what it says with a second reading:

    bench/fuzz/fuzz_captures.py --times N [--seed S]      so many captures
    bench/fuzz/fuzz_captures.py --dry                     reads worked captures, with no program

The program is crates/faxtool/out/faxtool, or the one that FAXTOOL names. A capture is what callers send in one to three calls, of which
some contents are lost, doubled or others: frames, PPSs, DCSs, DCNs. What is said of each page that is stored, the images, what is said of
what is missing, and the status have to be the same, with `--salvage` and without. At the first that differs its files stay in the folder
that is printed, and the status is 1."""

import argparse
import os
import random
import shutil
import subprocess
import sys
import tempfile
from collections import Counter
from pathlib import Path

sys.dont_write_bytecode = True
sys.path.insert(0, str(Path(__file__).resolve().parent))
from fuzz_calls import PROGRAM  # noqa: E402
from fuzz_stream import bits_of, line_of, octets_of  # noqa: E402
from reference_pages import prescribed, random_rows, read_rows  # noqa: E402

NULL, MPS, EOM, EOP = 0x00, 0x4F, 0x8F, 0x2F
NAMES = {EOM: "EOM", EOP: "EOP"}
WIDTHS = [1728, 2048, 2432]
DCN = bytes.fromhex("ff13fb")
# Signals of no page: DIS, CFR, RCP, MCF, RR, a PPR and a content that is none.
ASIDES = [bytes.fromhex(text) for text in ["ff13800062f844", "ff1384", "ff0386", "ff138c", "ff136f", "ff13bc" + 64 * "0", "fe138c"]]


def dcs(width, small):
    """A DCS for standard lines in T.6, in frames of 64 octets or 256."""
    return bytes([0xFF, 0x13, 0x83, 0x00, 0x22, 0x80 | WIDTHS.index(width), 0x44 | (0x08 if small else 0)])


def fcd(number, octets):
    return bytes([0xFF, 0x03, 0x06, number]) + octets


def pps(ends, page, block, last):
    return bytes([0xFF, 0x13, 0xBF, ends, page, block, last])


# What is in a capture.


class Reading:
    """Contents, one after the other: `stored` has each page by its number, its width, its rows and whether they are those before a gap;
    `told` what is said of what is missing."""

    def __init__(self, salvage):
        self.salvage, self.stored, self.told = salvage, [], []
        self.begin_call()

    def begin_call(self):
        self.due, self.said = 0, None
        self.taken, self.held = None, {}
        self.begin_group(None, None)

    def begin_group(self, agreed, ended):
        """`agreed` is the width and the most octets of a frame, by a DCS; `ended` what the page before ended with, while a DCS is due."""
        self.last_agreed, self.ended = agreed, ended
        self.asked, self.kept = None, {}
        self.forget_coming()
        self.begin_page()

    def begin_page(self):
        self.code, self.next, self.is_readable = b"", 0, True

    def forget_coming(self):
        self.coming, self.has_begun = {}, False

    @property
    def agreed(self):
        return None if self.ended else self.last_agreed

    def hear(self, content):
        kind = content[:3]
        if kind == b"\xff\x13\x83":
            self.leave(is_dcs=True)
            self.due = 0 if self.said == EOP else self.due
            if self.said not in (MPS, EOM):
                self.said, self.taken = None, None
            agreed = WIDTHS[content[5] & 3], 64 if content[6] & 8 else 256
            if not self.last_agreed or self.last_agreed[1] != agreed[1]:
                self.held = {}
            self.begin_group(agreed, None)
        elif kind == b"\xff\x03\x06":
            self.has_begun = self.has_begun or self.agreed is None or len(content) - 4 <= self.agreed[1]
            if self.last_agreed and len(content) - 4 <= self.last_agreed[1]:
                self.coming[content[3]] = content[4:]
        elif kind == b"\xff\x13\xbf":
            self.hear_pps(*content[3:])
        elif kind == b"\xff\x13\xfb":
            self.leave()
            self.begin_call()

    def hear_pps(self, ends, page, block, last):
        is_again = self.asked and self.asked[1:3] == (page, block)
        is_same = all(self.held.get(number) == octets for number, octets in self.coming.items())
        if self.taken == (page, block) and is_same and not is_again:
            self.forget_coming()
            if ends != NULL and self.said != NULL:
                self.said, self.ended = ends, ends if ends in NAMES else None
            return
        is_turn = (page, block) == (self.due, self.next) or self.is_used(page, block)
        if not is_again and (self.asked or not is_turn):
            self.give_front(self.kept if self.asked else {})
        if not is_again:
            self.give_up()
        if self.is_used(page, block):
            self.name_used_number(page, block)
        if page != self.due:
            # a page that is far ahead is one of another call
            first = self.due
            if (page - self.due) % 256 >= 128:
                first = 0
                self.name_due()
            self.told += [f"page {(first + number) % 256 + 1} is missing" for number in range((page - first) % 256)]
            self.begin_page()
            self.due = page
        if block != self.next:
            self.told.append(f"page {page + 1} block {block}: the blocks before it are missing")
            self.code, self.next, self.is_readable = b"", block, False
        if self.agreed:
            self.judge(ends, page, block, max(last, self.asked[3]) if is_again else last)
            return
        why = f"no DCS after {NAMES[self.ended]}, so it isn't stored" if self.ended else "no DCS before it"
        self.told.append(f"page {page + 1} block {block}: {why}")
        self.forget_coming()
        self.last_agreed, self.taken, self.held = None, (page, block), {}
        self.lose(ends, page, block)

    def judge(self, ends, page, block, last):
        """The frames of a block: it is whole, or waits for those that are missing."""
        self.kept |= self.coming
        self.forget_coming()
        self.asked = (ends, page, block, last)
        if any(number not in self.kept for number in range(last + 1)):
            return
        whole = b"".join(self.kept[number] for number in range(last + 1))
        self.asked, self.held, self.kept, self.taken = None, self.kept, {}, (page, block)
        if self.is_readable:
            self.code += whole
        if ends == NULL:
            self.said, self.next = NULL, (block + 1) % 256
            return
        if self.is_readable:
            rows, is_page = read_rows(bits_of(self.code), self.agreed[0], True)
            if is_page:
                self.stored.append((page + 1, self.agreed[0], rows, False))
            else:
                self.told.append(f"page {page + 1}: can't be read")
        self.end_page(ends, page)

    def end_page(self, ends, page):
        self.begin_page()
        self.due, self.said = (page + 1) % 256, ends
        if ends in NAMES:
            self.ended = ends

    def lose(self, ends, page, block):
        """A block isn't there."""
        if ends != NULL:
            self.end_page(ends, page)
            return
        self.said = NULL
        self.code, self.next, self.is_readable = b"", (block + 1) % 256, False

    def give_up(self):
        """The frames that the block lacks which waits never come."""
        if not self.asked:
            return
        ends, page, block, last = self.asked
        missing = [number for number in range(last + 1) if number not in self.kept]
        self.told += [f"page {page + 1} block {block}: frame {number} is missing" for number in missing]
        self.asked, self.kept = None, {}
        self.lose(ends, page, block)

    def leave(self, is_dcs=False):
        """Nothing more comes of what is open; after a DCS a page can still come."""
        self.give_front(self.kept if self.asked else self.coming)
        self.give_up()
        if self.has_begun:
            self.told.append("a page has no end")
        elif not is_dcs or self.said == NULL:
            self.name_due()

    def is_used(self, page, block):
        """Whether what had to follow comes under the number of what was before."""
        if self.said == NULL:
            return self.taken == (page, block) and block != self.next
        return self.said in (MPS, EOM) and (page + 1) % 256 == self.due

    def name_used_number(self, page, block):
        """It counts as what had to follow."""
        if self.said == NULL:
            self.next = block
        else:
            self.due = page
        said = {NULL: "NULL", MPS: "MPS", EOM: "EOM"}[self.said]
        self.told.append(f"page {page + 1} block {block}: its number was used already, so it counts as what follows {said}")

    def name_due(self):
        """What must follow the last PPS didn't come."""
        if self.said == NULL:
            self.told.append("a page has no end")
        elif self.said in (MPS, EOM):
            ends = "MPS" if self.said == MPS else "EOM"
            self.told.append(f"page {self.due + 1} is missing: the page before it ended with {ends}")

    def give_front(self, frames):
        """The rows of the open page, with those of an open block's frames before the first one that is missing."""
        if not (self.salvage and self.agreed and self.is_readable):
            return
        code = self.code
        for number in range(256):
            if number not in frames:
                break
            code += frames[number]
        rows, _is_page = read_rows(bits_of(code), self.agreed[0], True)
        if rows:
            self.stored.append((self.due + 1, self.agreed[0], rows, True))


def image_of(rows, width):
    """A page as PBM."""
    size = -(-width // 8)
    octets = b""
    for row in rows:
        ones = 0
        for place in row:
            ones ^= (1 << (width - place)) - 1
        octets += (ones << (8 * size - width)).to_bytes(size, "big")
    return b"P4\n%d %d\n" % (width, len(rows)) + octets


def read(contents, salvage):
    """The lines of the pages stored, their images by the names of their files, and what is said of what is missing."""
    reading = Reading(salvage)
    for content in contents:
        reading.hear(content)
    reading.leave()
    lines, images, last = [], {}, 0
    for number, width, rows, is_front in reading.stored:
        last = max(number, last + 1)
        text = f"page {number}: page-{last}.pbm, {width} x {len(rows)} pixels, standard lines"
        lines.append(text + ", rows before a gap" * is_front)
        images[f"page-{last}.pbm"] = image_of(rows, width)
    return lines, images, reading.told


# What callers send.


def blocks_of(rand, octets, most):
    """A page's code in one to three blocks of one to four frames."""
    size = rand.choice([1, 2, 5, 20, most])
    frames = [octets[at : at + size] for at in range(0, len(octets), size)]
    if len(frames) > 12:
        frames = [octets[at : at + most] for at in range(0, len(octets), most)]
    each = rand.choice([1, 2, 4])
    return [frames[at : at + each] for at in range(0, len(frames), each)]


def call(rand, first):
    """What a caller sends of one to four pages, of which the first one has this number. Few callers number all pages, or all blocks, alike."""
    count = rand.randint(1, 4)
    same_page, same_block = rand.random() < 0.1, rand.random() < 0.1
    width, small = rand.choice(WIDTHS), rand.random() < 0.3
    sent = [dcs(width, small)]
    for number in range(first, first + count):
        ends = EOP if number + 1 == first + count else rand.choice([MPS, MPS, EOM])
        rows = random_rows(rand, width, rand.randint(1, 3))
        blocks = blocks_of(rand, octets_of(prescribed(rows, width, True)), 64 if small else 256)
        for place, block in enumerate(blocks):
            last = len(block) - 1
            numbers = first if same_page else number, 0 if same_block else place
            end = pps(ends if place + 1 == len(blocks) else NULL, numbers[0] % 256, numbers[1] % 256, last)
            frames = [fcd(at, octets) for at, octets in enumerate(block)]
            sent += frames + [end]
            if rand.random() < 0.2:
                sent += rand.sample(frames, rand.randint(0, len(frames))) + [end]
        if ends == EOM:
            width, small = rand.choice(WIDTHS), rand.random() < 0.3
            sent.append(dcs(width, small))
    return sent + [DCN]


def capture(rand):
    """What is left of one to three calls."""
    loss = rand.choice([0, 0.02, 0.1, 0.3])
    contents = []
    for _call in range(rand.randint(1, 3)):
        for content in call(rand, rand.choice([0, 0, 0, 0, 1, 3, 127, 250, 254])):
            way = rand.random()
            if way >= loss:
                contents.append(content)
            if way > 1 - loss / 8:
                strange = pps(rand.choice([NULL, MPS, EOM, EOP]), 0, rand.randrange(2), 0)
                contents.append(rand.choice([content, rand.choice(ASIDES), strange]))
    return contents


# Captures worked by hand, of pages of one white row: the contents, the numbers of the pages stored, what is said.
WHITE = fcd(0, octets_of("1" + 2 * "000000000001"))
AGREED = dcs(1728, False)
TWO_ROWS = fcd(0, octets_of("11" + 2 * "000000000001"))
# The bits of a white row and its end, in two blocks of one frame.
HALF, OTHER_HALF = fcd(0, b"\x01"), fcd(0, b"\x10\x00\x01")
USED = "page 1 block 0: its number was used already, so it counts as what follows {}"
AFTER_MPS = "page {} is missing: the page before it ended with MPS"
WORKED = [
    ([AGREED, WHITE, pps(EOP, 0, 0, 0), DCN], [1], []),
    ([AGREED, WHITE, pps(MPS, 0, 0, 0), WHITE, pps(EOP, 2, 0, 0), DCN], [1, 3], ["page 2 is missing"]),
    ([AGREED, WHITE, pps(MPS, 0, 0, 0), WHITE, WHITE, pps(EOP, 2, 0, 0), DCN], [1, 3], ["page 2 is missing"]),
    (
        [AGREED, WHITE, pps(EOM, 0, 0, 0), WHITE, pps(EOM, 0, 0, 0), WHITE, pps(EOP, 1, 0, 0), DCN],
        [1],
        ["page 2 block 0: no DCS after EOM, so it isn't stored"],
    ),
    ([AGREED, WHITE, pps(EOM, 0, 0, 0), dcs(2048, False), WHITE, pps(EOP, 1, 0, 0)], [1, 2], []),
    ([AGREED, WHITE, pps(EOP, 2, 0, 0)], [3], ["page 1 is missing", "page 2 is missing"]),
    (2 * [AGREED, WHITE, pps(MPS, 0, 0, 0), WHITE, pps(EOP, 1, 0, 0), DCN], [1, 2, 1, 2], []),
    (2 * [AGREED, WHITE, pps(MPS, 0, 0, 0), WHITE, pps(MPS, 1, 0, 0)], [1, 2, 1, 2], 2 * [AFTER_MPS.format(3)]),
    (
        [AGREED] + [content for page in range(255, 259) for content in (WHITE, pps(MPS, page % 256, 0, 0))],
        [256, 1, 2, 3],
        [f"page {number} is missing" for number in range(1, 256)] + [AFTER_MPS.format(4)],
    ),
    ([AGREED, WHITE, pps(MPS, 0, 0, 0), DCN], [1], [AFTER_MPS.format(2)]),
    ([AGREED, WHITE, pps(EOM, 0, 0, 0), AGREED], [1], ["page 2 is missing: the page before it ended with EOM"]),
    ([AGREED, fcd(0, b"\0"), pps(NULL, 0, 0, 0), DCN], [], ["a page has no end"]),
    ([AGREED, WHITE, pps(MPS, 0, 0, 0), AGREED, WHITE, pps(EOP, 1, 0, 0), DCN], [1, 2], []),
    ([AGREED, WHITE, pps(MPS, 0, 0, 0), WHITE, pps(MPS, 0, 0, 0), DCN], [1], [AFTER_MPS.format(2)]),
    ([AGREED, WHITE, pps(MPS, 0, 0, 0), pps(EOP, 0, 0, 0), DCN], [1], []),
    ([AGREED, WHITE, pps(MPS, 0, 0, 0), TWO_ROWS, pps(EOP, 0, 0, 0), DCN], [1, 1], [USED.format("MPS")]),
    ([AGREED, WHITE, pps(EOM, 0, 0, 0), AGREED, TWO_ROWS, pps(EOP, 0, 0, 0), DCN], [1, 1], [USED.format("EOM")]),
    ([AGREED, WHITE, pps(MPS, 0, 0, 0), AGREED, WHITE, pps(EOP, 0, 0, 0), DCN], [1], []),
    ([AGREED, HALF, pps(NULL, 0, 0, 0), OTHER_HALF, pps(EOP, 0, 0, 0), DCN], [1], [USED.format("NULL")]),
    ([AGREED, WHITE, pps(EOP, 0, 0, 0), TWO_ROWS, pps(EOP, 0, 0, 0)], [1], ["page 1 block 0: no DCS after EOP, so it isn't stored"]),
    ([AGREED, WHITE, pps(EOP, 0, 0, 0), pps(MPS, 0, 0, 0), WHITE, pps(EOP, 1, 0, 0)], [1, 2], []),
    ([WHITE, pps(EOP, 0, 0, 0), WHITE, pps(EOP, 0, 0, 0)], [], ["page 1 block 0: no DCS before it"]),
]


def dry():
    for contents, numbers, said in WORKED:
        for salvage in False, True:
            lines, _images, told = read(contents, salvage)
            if [int(line.split()[1][:-1]) for line in lines] != numbers or told != said:
                print(f"{[content.hex() for content in contents]} has {lines}, and it says {told}")
                return 1
    print(f"{len(WORKED)} worked captures are read")
    return 0


def differs(folder, contents, salvage, kinds):
    """How the program's answer differs from the reading, if it does."""
    pages, bits = os.path.join(folder, "pages"), os.path.join(folder, "bits")
    shutil.rmtree(pages, ignore_errors=True)
    os.mkdir(pages)
    with open(bits, "wb") as file:
        file.write(line_of(contents))
    words = ["--salvage"] * salvage + ["--pages", pages, bits]
    ran = subprocess.run([PROGRAM, "frames", "--data", "0", *words], capture_output=True, text=True, timeout=60)
    lines, images, said = read(contents, salvage)
    told = [line for line in ran.stdout.splitlines() if line.startswith("page ")]
    # why a page can't be read is tried by fuzz_calls.py
    named = [line.split(", fault")[0] for line in ran.stderr.splitlines()]
    kinds.update("page" if line.endswith("lines") else "front" for line in lines)
    kinds.update(" ".join(word for word in line.split() if not word.rstrip(":").isdigit()) for line in said)
    found = {name: Path(pages, name).read_bytes() for name in os.listdir(pages)}
    if named in (["no error correction: no pages"], ["no frame: no pages"]) and not lines and not said:
        return "" if ran.returncode == 1 else "the status of no pages"
    for what, got, wanted in ("pages", told, lines), ("what is missing", named, said):
        if got != wanted:
            return f"{what}: it says {got} and not {wanted}"
    if found != images:
        return f"images: {sorted(found)} and {sorted(images)}, or other pixels"
    return "" if ran.returncode == (1 if said else 0) else f"status {ran.returncode}"


def main():
    parser = argparse.ArgumentParser()
    parser.add_argument("--times", type=int, default=1000)
    parser.add_argument("--seed", type=int, default=57)
    parser.add_argument("--dry", action="store_true")
    given = parser.parse_args()
    if given.dry:
        return dry()
    rand, kinds, folder = random.Random(given.seed), Counter(), tempfile.mkdtemp()
    cases = [contents for contents, _numbers, _said in WORKED]
    cases += [capture(rand) for _ in range(given.times)]
    for number, contents in enumerate(cases):
        for salvage in False, True:
            why = differs(folder, contents, salvage, kinds)
            if why:
                print(f"capture {number}{', --salvage' * salvage}, in {folder}: {why}")
                return 1
    shutil.rmtree(folder)
    print(f"{len(cases)} captures: " + ", ".join(f"{count} {kind}" for kind, count in sorted(kinds.items())))
    return 0


if __name__ == "__main__":
    sys.exit(main())
