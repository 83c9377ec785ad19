"""Runs `decode --each` over an archive of files that other programs make, as docs/ARCHIVE.md does it:

    try_archive.py PROGRAM

Netpbm, tiffcp, gs and pbm2g3 make forty files of ten kinds, as far as they are installed; of each kind one is cut, and one has three bits
turned. Each whole file of a kind that is read must give the pages that were coded, pixel for pixel; a damaged one of these must give rows,
and must not be called a page of T.4 in two dimensions. A TIFF, and such a page, must be called that. The names have spaces, line ends and
dashes. Runs by wrong words, which leave damaged pages and second pages out, or take all for T.4, must be seen to be wrong. Prints the number
of files on the last line, or what is wrong with status 1. It needs Python's standard library alone."""

import json
import random
import re
import shutil
import subprocess
import sys
import tempfile
from pathlib import Path

WIDTH = 1728
# What makes a file of each kind of the image `page.pbm`; what it is called, if it isn't read; and whether its pages are those that were coded.
KINDS = {
    "mh": ("pbmtog3 page.pbm", None, 1),
    "mh-lsb": ("pbmtog3 -reversebits page.pbm", None, 1),
    "two pages": ("pbmtog3 page.pbm > one && cat one one", None, 2),
    "mmr": ("pamtotiff -g4 -rowsperstrip=20000 page.pbm > t.tif && {strips} t.tif mmr", None, 1),
    "mgetty": ("pbm2g3 page.pbm", None, 1),
    "gs faxg3": ("gs -q -dBATCH -dNOPAUSE -sDEVICE=faxg3 -r204x98 -g1728x300 -sOutputFile=- page.ps", None, 0),
    "gs faxg4": ("gs -q -dBATCH -dNOPAUSE -sDEVICE=faxg4 -r204x98 -g1728x300 -sOutputFile=- page.ps", None, 0),
    "gs faxg32d": ("gs -q -dBATCH -dNOPAUSE -sDEVICE=faxg32d -r204x98 -g1728x300 -sOutputFile=- page.ps", "MR", 0),
    "tiff": ("pamtotiff -g3 page.pbm", "TIFF", 0),
    "tiff strips": ("pamtotiff -g4 -rowsperstrip=32 page.pbm", "TIFF", 0),
}
# The octets of the one strip of a TIFF.
STRIP = """import sys
sys.path.insert(0, sys.argv[1])
import strips
from pathlib import Path
tiff = strips.Tiff(Path(sys.argv[2]).read_bytes())
sys.stdout.buffer.write(b"".join(tiff.strips(next(tiff.pages()))))
"""
RIGHT = "--repair", "--salvage"
# Words by which a run is wrong, and how the check must begin to say so of one file at least.
WRONG = {(): "no row of", (*RIGHT, "--most-pages", "1"): "other pages of", (*RIGHT, "--code", "mh", "--width", "1728"): "a TIFF is read"}
NAMES = "{}.fax", "with space {}.fax", "new\nline {}.fax", "-{}.fax"
PS = "%!PS\n/Courier findfont 60 scalefont setfont 60 40 moveto (a page of a fax) show showpage\n"


def fails(words):
    print(f"archive: {words}")
    sys.exit(1)


def image(rand, rows):
    """A page of text-like lines between white ones."""
    lines = []
    for row in range(rows):
        line = bytearray(WIDTH // 8)
        if row > 20 and row // 12 % 2 == 0:
            for octet in range(8, WIDTH // 8 - 8):
                line[octet] = rand.choice([0, 0, 0, 0x18, 0x7E, 0xFF])
        lines.append(bytes(line))
    return b"P4\n%d %d\n" % (WIDTH, rows) + b"".join(lines)


def damaged(rand, octets, how):
    """Octets, of which the last half is missing, or three bits in the second half are turned."""
    if how == "cut":
        return octets[: len(octets) * 3 // 5]
    turned = bytearray(octets)
    for _ in range(3 if how == "turned" else 0):
        turned[rand.randrange(len(octets) // 2, len(octets) * 9 // 10)] ^= 1 << rand.randrange(8)
    return bytes(turned)


def made(folder, command):
    """What a command of a kind makes; None if a program of it isn't installed."""
    if not all(shutil.which(program) for program in re.findall(r"(?:^|&& )(\w+)", command)):
        return None
    done = subprocess.run(["sh", "-c", command], cwd=folder, capture_output=True, check=False)
    if done.returncode or not done.stdout:
        fails(f"{command} ended with status {done.returncode}: {done.stderr.decode(errors='replace')}")
    return done.stdout


def wrong(record, kind, how, page, folder):
    """What is wrong with how a file is said and written, by its kind and damage; None if nothing is."""
    _command, is_not_read, count = KINDS[kind]
    outs = [(folder / one["out"]).read_bytes() for one in record["pages"] if one["out"]]
    rules = {
        "a TIFF is read": is_not_read == "TIFF" and how != "cut" and (record["not_read"] != "TIFF" or outs),
        "not called MR": is_not_read == "MR" and (record["not_read"] != "MR" or outs),
        "no row of": is_not_read is None and not outs,
        "called otherwise": is_not_read is None and "two dimensions" in record["is"],
        "other pages of": count and how == "whole" and outs != [page] * count,
        "wrongly whole or not": count and how != "turned" and record["whole"] != (how == "whole"),
    }
    return next((f"{rule}: {kind} {how}: {record}" for rule, is_broken in rules.items() if is_broken), None)


def faults(program, asked, wanted, folder):
    """What is wrong with a run over these files by these words, in a new folder of pages."""
    pages = Path(tempfile.mkdtemp(dir=folder)).name
    done = subprocess.run(
        [program, "decode", "--json", *asked, "--each", pages, "--null", "--from", "-"],
        cwd=folder, input="\0".join(wanted).encode(), capture_output=True, check=False,
    )  # fmt: skip
    records = [json.loads(line) for line in done.stdout.decode().splitlines()]
    if [record["file"] for record in records] != list(wanted) or done.stderr or done.returncode != (1 if wanted else 0):
        return [f"status {done.returncode}, {done.stderr.decode()}, or other files: {len(records)} of {len(wanted)}"]
    return list(filter(None, (wrong(record, *wanted[record["file"]], folder) for record in records)))


def main(words):
    if len(words) != 1:
        print(__doc__, file=sys.stderr)
        return 2
    program, rand = str(Path(words[0]).resolve()), random.Random(5)
    strips = Path(__file__).resolve().parent.parent.parent / "docs" / "examples"
    with tempfile.TemporaryDirectory() as name:
        folder = Path(name)
        (folder / "in").mkdir()
        (folder / "page.ps").write_text(PS)
        (folder / "strip.py").write_text(STRIP)
        wanted, lacking = {}, []
        for number in range(40):
            kind, how = list(KINDS)[number % len(KINDS)], ("whole", "cut", "turned", "whole")[number // len(KINDS)]
            page = image(rand, rand.randint(60, 200))
            (folder / "page.pbm").write_bytes(page)
            octets = made(folder, KINDS[kind][0].replace("{strips} t.tif mmr", f"python3 strip.py {strips} t.tif"))
            if octets is None:
                lacking.append(kind)
                continue
            file = f"in/{NAMES[number // 10].format(number)}"
            (folder / file).write_bytes(damaged(rand, octets, how))
            wanted[file] = kind, how, page
        for found in faults(program, RIGHT, wanted, folder):
            fails(found)
        for asked, rule in WRONG.items():
            if not lacking and not any(found.startswith(rule) for found in faults(program, asked, wanted, folder)):
                fails(f"a run by {' '.join(asked) or 'no words'} isn't seen to be wrong")
        if lacking:
            print(f"archive: what makes {', '.join(sorted(set(lacking)))} isn't installed")
        print(len(wanted))
    return 0


if __name__ == "__main__":
    sys.exit(main(sys.argv[1:]))
