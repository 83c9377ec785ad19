#!/usr/bin/env python3
"""Calls with a line at the head of each page, whose stored pages have to be those that this script paints by the same font:

    header.py HEADER-TEST FOLDER             on ptys, by header-test; and texts and fonts that are refused
    header.py --softfax SOFTFAX FOLDER       of two processes over two pipes

The font is one of random dots; then that of Debian's package unifont, if it is installed. FOLDER is for the files, and empty."""

import os
import random
import subprocess
import sys
import time
from pathlib import Path

UNIFONT = Path("/usr/share/unifont/unifont.hex")
TEXT = "Müller & Жук 漢字 ½€ +49 30 1234"
LONGEST = "The longest text that there is room for has sixty characters"
ZONE, HOURS_EAST = "XYZ-5:30", 5.5
CLOCK = 1798700461
WIDTHS = (1728, 2048, 2432)
FAULTS = ((2, "the header: it is empty", [""]),
          (2, "the header: it is longer than 60 characters", [LONGEST + "!"]),
          (2, "the header: it is not UTF-8", [b"M\xfcller"]),
          (2, "the header: it is not UTF-8", [b"\xc0\xaf"]),
          (2, "the header: it is not UTF-8", [b"\xed\xa0\x80"]),
          (2, "the header: it is not UTF-8", ["ü".encode()[:1]]),
          (2, "the header: U+000A isn't written by itself", ["two\nlines"]),
          (2, "the header: U+0301 isn't written by itself", ["e\u0301"]),
          (2, "the header: U+05D0 isn't written by itself", ["\u05d0"]),
          (2, "the header: U+1F600 isn't written by itself", ["\U0001f600"]),
          (1, "the header: it is wider than 60 columns", ["漢" * 30 + "!"]),
          (1, "font.hex: the font has no U+0416 of 16 rows of dots", ["\u0416\u0416"]),
          (0, "", [LONGEST]),
          (0, "", ["漢" * 30]))


def write_font(path):
    """A font of random dots; a second line of a code isn't heeded."""
    dots = random.Random(1)
    lines = [(code, 64 if code > 0x3000 else 32) for code in {*range(0x20, 0x7f), *map(ord, TEXT)} - {0x416}]
    path.write_text("".join(f"{code:04X}:{dots.randbytes(digits // 2).hex().upper()}\n" for code, digits in [*lines, *lines]))


def read_font(path):
    glyphs = {}
    for line in path.read_text().splitlines():
        code, _, dots = line.partition(":")
        each = len(dots) // 16
        glyphs.setdefault(chr(int(code, 16)), [f"{int(dots[at:at + each], 16):0{each * 4}b}" for at in range(0, len(dots), each)])
    return glyphs


def painted(rows, width, fine, glyphs, left, right):
    """The rows of a page, texts of 0 and 1, with the line at their head: dots of 2 by 1 pixels, by 2 by 2 on a fine page."""
    margin = "0" * 48
    lines = []
    for dots in range(16):
        texts = ["".join(glyphs[letter][dots] for letter in text) for text in (left, right)]
        words = ["".join(dot * 2 for dot in text) for text in texts]
        lines += [margin + words[0] + "0" * (width - 96 - len(words[0]) - len(words[1])) + words[1] + margin] * (2 if fine else 1)
    return lines + rows[len(lines):]


def write_page(path, width, rows):
    octets = b"".join(int(row, 2).to_bytes(width // 8, "big") for row in rows)
    path.write_bytes(b"P4\n%d %d\n" % (width, len(rows)) + octets)


def random_rows(width, count, seed):
    """Rows of wide runs, the first ones black, so that what the line covers is seen."""
    dots = random.Random(seed)
    return ["1" * width if y < 40 else "".join(str(dots.getrandbits(1)) * 32 for _ in range(width // 32)) for y in range(count)]


def at_minute(seconds):
    return time.strftime("%Y-%m-%d %H:%M", time.gmtime(seconds + HOURS_EAST * 3600))


def write_call(folder, text, font, fine, lengths):
    folder.mkdir()
    glyphs = read_font(font)
    for number, (width, length) in enumerate(zip(WIDTHS, lengths), 1):
        rows = random_rows(width, length, number)
        right = f"{at_minute(CLOCK)}  page {number} of {len(lengths)}"
        write_page(folder / f"paper-{number}.pbm", width, rows)
        write_page(folder / f"stored-{number}.pbm", width, painted(rows, width, fine, glyphs, text, right))


def try_ptys(program, folder, font):
    """Calls of one to three pages, standard and fine, some with fewer rows than the line."""
    name, tried = font.parent.name, 0
    for resolution, coding, text, lengths in (("standard", "mmr", TEXT, (60, 48, 7)), ("fine", "mmr", TEXT, (60, 48, 31)),
                                              ("fine", "mh", LONGEST, (33, 32)), ("standard", "mh", "A", (1,)),
                                              ("standard", "mmr", "漢" * 30, (17, 16))):
        work = folder / f"{name}-{tried}"
        if font != UNIFONT:
            text = text.replace("Ж", "Z")
        write_call(work, text, font, resolution == "fine", lengths)
        words = [program, work, str(CLOCK), text, font, resolution, coding, str(len(lengths))]
        ran = subprocess.run(words, capture_output=True, text=True, timeout=300, env={**os.environ, "TZ": ZONE})
        if ran.returncode:
            sys.exit(f"header-test {work} {resolution} {coding} ended with status {ran.returncode}: {ran.stderr}")
        tried += 1
    return tried


def try_faults(program, folder, font):
    """What is refused, and with which words, before a tty is opened."""
    write_page(folder / "page.pbm", 1728, ["0" * 1728])
    begins = [program, "--words", "--tty", folder / "none", "--call", "1", folder / "page.pbm"]
    cases = [(status, text, ["--header", *words, "--header-font", font]) for status, text, words in FAULTS]
    cases += [(1, "none.hex: No such file or directory; --header wants a font: Debian's package unifont",
               ["--header", "A", "--header-font", folder / "none.hex"]),
              (1, "/dev/zero: it is too long for a font", ["--header", "A", "--header-font", "/dev/zero"]),
              (1, "page.pbm: the font has no U+0041", ["--header", "A", "--header-font", folder / "page.pbm"]),
              (2, "", ["--header-font", font])]
    if not UNIFONT.exists():
        cases.append((1, f"{UNIFONT}: No such file or directory; --header wants a font", ["--header", "A"]))
    for status, text, words in cases:
        ran = subprocess.run([*begins, *words], capture_output=True, timeout=60)
        said = ran.stderr.decode()
        if ran.returncode != status or text not in said or (text == "") != (said == ""):
            sys.exit(f"header-test {words} ended with status {ran.returncode}, not {status}, and said: {said!r}, not {text!r}")
    answers = subprocess.run([program, "--words", "--tty", "none", "--answer", folder, "--header", "A"], capture_output=True, timeout=60)
    if answers.returncode != 2:
        sys.exit(f"an answerer with --header ended with status {answers.returncode}")
    return len(cases) + 1


def try_pipes(program, folder, font):
    """Two processes, by the machine's clock: the line has a minute of the call. Both pages are images of one file."""
    work = folder / f"pipes-{font.parent.name}"
    write_call(work, "A 1", font, True, (60, 60))
    (work / "pages").mkdir()
    for name in ("to", "from"):
        os.mkfifo(work / name)
    environment = {**os.environ, "TZ": ZONE}
    both = work / "both.pbm"
    both.write_bytes((work / "paper-1.pbm").read_bytes() + (work / "paper-2.pbm").read_bytes())
    began = int(time.time())
    answerer = subprocess.Popen([program, "--answer", work / "pages", "--rx", work / "to", "--tx", work / "from"], env=environment)
    caller = subprocess.Popen([program, "--call", both, "--rx", work / "from", "--tx", work / "to", "--fine", "--header", "A 1",
                               "--header-font", font], env=environment)
    if (caller.wait(120), answerer.wait(120)) != (0, 0):
        sys.exit("a call with a header failed")
    glyphs, wanted = read_font(font), set()
    for minute in range(began - 60, int(time.time()) + 61, 60):
        wanted.add(at_minute(minute))
    for number, width in enumerate(WIDTHS[:2], 1):
        stored = (work / "pages" / f"page-{number}.pbm").read_bytes()
        for when in wanted:
            rows = painted(random_rows(width, 60, number), width, True, glyphs, "A 1", f"{when}  page {number} of 2")
            write_page(work / "wanted.pbm", width, rows)
            if (work / "wanted.pbm").read_bytes() == stored:
                break
        else:
            sys.exit(f"page {number} isn't stored with its header of {min(wanted)} or so")


def main():
    over_pipes = sys.argv[1] == "--softfax"
    program, folder = os.path.abspath(sys.argv[1 + over_pipes]), Path(sys.argv[2 + over_pipes])
    own = folder / "own" / "font.hex"
    own.parent.mkdir()
    write_font(own)
    fonts = [own, *([UNIFONT] if UNIFONT.exists() else [])]
    if over_pipes:
        for font in fonts:
            try_pipes(program, folder, font)
        print(f"softfax: two processes send pages with a line at their heads, by {len(fonts)} fonts")
        return
    refused = try_faults(program, folder, own)
    calls = sum(try_ptys(program, folder, font) for font in fonts)
    print(f"softfax: {calls} calls on ptys store pages with a line at their heads as another program paints it; {refused} texts and fonts "
          "are judged before the tty is opened")


main()
