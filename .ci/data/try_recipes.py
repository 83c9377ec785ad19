"""Runs the recipes of docs/USING.md for TIFF, PDF and PNG, and those of docs/ARCHIVE.md for PDFs, several processes and GNU parallel:

    try_recipes.py PROGRAM

The page is the A4 page of docs/examples, with fine lines, and each second row of it, a standard page. Each file that a recipe makes must be as
large as A4 by its resolution, or have its shape; and each recipe for a standard page, without its resolution, must be seen to be wrong. Two
runs of a recipe at once in one folder must store each page once. A recipe whose programs aren't installed is left out, and that is said.
Prints the number of runs on the last line, or what is wrong with status 1. It needs Python's standard library alone."""

import json
import os
import re
import shutil
import struct
import subprocess
import sys
import tempfile
from collections import Counter
from pathlib import Path

TOP = Path(__file__).resolve().parent.parent.parent
sys.path.insert(0, str(TOP / "docs" / "examples"))
import strips

A4 = 215.0, 297.0
# What a recipe for a standard page must not lack, and what stands for it in a wrong one.
RESOLUTIONS = {r" -[xy]resolution=\d+": "", r' -size="[^"]*"': "", "-yscale=2": "-yscale=1"}
POINT, INCH, METER = 25.4 / 72, 25.4, 1000.0
COPIES = 40
PROGRAMS = "pamtotiff", "img2pdf", "pnmtopng", "pamenlarge", "xargs", "parallel"
# What stands for ssh: a shell of this machine, which notes the machine that was meant. As a server of ssh does, it says the user's shell: GNU
# parallel runs that one, and without it runs nothing, and says that all went well.
SSH = """#!/bin/sh
export SHELL=/bin/sh
while [ "${1#-}" != "$1" ]; do shift 2; done
echo "$1" >> "$MACHINES"
shift
[ "$1" != -- ] || shift
exec sh -c "$*"
"""


def fails(words):
    print(f"recipes: {words}")
    sys.exit(1)


def tiff_size(octets):
    """Millimetres of each page of a TIFF, or pixels of one without resolution."""
    tiff, sizes = strips.Tiff(octets), []
    for tags in tiff.pages():
        pixels = [tiff.values(tags, tag)[0] for tag in (256, 257)]
        if 282 in tags:
            parts = [tiff.numbers("2I", *tiff.numbers("I", tags[tag][2])) for tag in (282, 283)]
            pixels = [INCH * number * below / above for number, (above, below) in zip(pixels, parts)]
        sizes.append((pixels, 282 in tags))
    return sizes


def pdf_size(octets):
    """Millimetres of each page of a PDF."""
    boxes = re.findall(rb"/MediaBox \[ *0 0 ([0-9.]+) ([0-9.]+) *\]", octets)
    return [([POINT * float(side) for side in box], True) for box in boxes] if octets.startswith(b"%PDF-") else []


def png_size(octets):
    """Millimetres of a PNG, or pixels of one without resolution."""
    pixels, at = struct.unpack_from(">2I", octets, 16), octets.find(b"pHYs")
    if at < 0:
        return [(pixels, False)]
    x, y, unit = struct.unpack_from(">2IB", octets, at + 4)
    return [([METER * pixels[0] / x, METER * pixels[1] / y], unit == 1)]


SIZES = {".tif": tiff_size, ".pdf": pdf_size, ".png": png_size}


def is_a4(sizes):
    """Whether each page has the size of A4 within 1 in 100, or without a resolution its shape within 1 in 20."""
    for (width, height), is_said in sizes:
        if is_said and not (abs(width / A4[0] - 1) < 0.01 and abs(height / A4[1] - 1) < 0.01):
            return False
        if abs(height / width * A4[0] / A4[1] - 1) > (0.01 if is_said else 0.05):
            return False
    return bool(sizes)


def lacks(command):
    """The programs of a command that aren't here."""
    return [program for program in PROGRAMS if re.search(rf"\b{program}\b", command) and not shutil.which(program)]


def wrong(command):
    """A recipe without its resolution."""
    for said, stands in RESOLUTIONS.items():
        command = re.sub(said, stands, command)
    return command


def table():
    """The commands of the table: those of standard pages, and those of fine pages."""
    section = (TOP / "docs" / "USING.md").read_text().split("## TIFF, PDF and PNG\n")[1].split("\n## ")[0]
    rows = [re.findall(r"`([^`]*)`", row.replace("\\|", "|")) for row in section.splitlines() if row.startswith("| ")]
    return [cells for cells in rows if len(cells) == 2]


def block(heading):
    """The first block of shell commands under a heading of docs/ARCHIVE.md."""
    section = (TOP / "docs" / "ARCHIVE.md").read_text().split(f"\n## {heading}\n")[1].split("\n## ")[0]
    return re.search(r"^```sh\n(.*?)^```$", section, re.M | re.S)[1]


class Recipes:
    """A folder with pages, where recipes run. `faxtool` is the program there."""

    def __init__(self, program, folder):
        self.folder, self.count = folder, 0
        (folder / "bin").mkdir()
        (folder / "bin" / "faxtool").symlink_to(program)
        self.environment = {**os.environ, "PATH": f"{folder}/bin:{os.environ['PATH']}", "LC_ALL": "C"}
        self.a4 = (TOP / "docs" / "examples" / "a4.mmr").read_bytes()
        (folder / "fine.mmr").write_bytes(self.a4)
        self.ends_well("faxtool decode --code mmr --width 1728 fine.mmr fine.pbm")
        magic, size, rows = (folder / "fine.pbm").read_bytes().split(b"\n", 2)
        row = int(size.split()[0]) // 8
        every = [rows[at : at + row] for at in range(0, len(rows), 2 * row)]
        (folder / "standard.pbm").write_bytes(magic + b"\n%d %d\n" % (8 * row, len(every)) + b"".join(every))
        self.ends_well("faxtool code --code mmr standard.pbm standard.mmr")

    def starts(self, command, within="."):
        return subprocess.Popen(
            ["sh", "-c", command], cwd=self.folder / within, env=self.environment, text=True, stdin=subprocess.DEVNULL,
            stdout=subprocess.PIPE, stderr=subprocess.STDOUT,
        )  # fmt: skip

    def ends(self, command, within="."):
        """The status of a command, and what it says."""
        started = self.starts(command, within)
        said, _ = started.communicate(timeout=120)
        return started.returncode, said

    def ends_well(self, command, within="."):
        status, said = self.ends(command, within)
        if status:
            fails(f"`{command}` ended with status {status}: {said}")
        self.count += 1

    def size(self, name):
        return SIZES[Path(name).suffix]((self.folder / name).read_bytes())

    def tries_table(self):
        """Each command of the table makes a page of A4; none for a standard page does without its resolution."""
        rows = table()
        if [len(row) for row in rows] != [2, 2, 2, 2]:
            fails(f"docs/USING.md has another table: {rows}")
        for command in (cell for row in rows for cell in row):
            if lacks(command):
                continue
            made = command.split()[-1]
            self.ends_well(command)
            if not is_a4(self.size(made)):
                fails(f"`{command}` makes {self.size(made)}, which is no A4 page")
        for command in (row[0] for row in rows if not lacks(row[0])):
            # of a PDF the TIFF is the wrong one
            self.ends_well(wrong(command))
            if is_a4(self.size(command.split()[-1])):
                fails(f"`{wrong(command)}` isn't seen to be wrong")
        if not lacks(rows[0][0] + "|" + rows[1][0]):
            self.is_same_code(rows)

    def is_same_code(self, rows):
        """A TIFF and a PDF have the octets that the program codes."""
        for command in (rows[0][0], rows[1][0]):
            self.ends_well(command)
            if (self.folder / "standard.mmr").read_bytes() not in (self.folder / command.split()[-1]).read_bytes():
                fails(f"`{command}` makes another code")

    def fills(self, within, files):
        """A folder `in` of coded files in a new folder."""
        (self.folder / within / "in").mkdir(parents=True)
        for name, octets in files.items():
            (self.folder / within / "in" / name).write_bytes(octets)

    def tries_pdfs(self):
        """Each whole file of a folder becomes a PDF of its pages, in their order; a damaged one none."""
        command = block("One PDF a file")
        if lacks(command):
            return
        pages = [self.blackened(number) for number in range(12)]
        self.ends_well("faxtool code --code mh standard.pbm standard.mh")
        open_end = (self.folder / "standard.mh").read_bytes()[:-2]
        self.fills("pdfs", {"one": pages[0], "a file": b"".join(pages), "a file-1": pages[0] * 2, "cut": pages[0][:999], "no RTC": open_end})
        status, said = self.ends(command, "pdfs")
        pdfs = {file.name: pdf_size(file.read_bytes()) for file in (self.folder / "pdfs" / "pdf").iterdir()}
        if {name: len(pages) for name, pages in pdfs.items()} != {"one.pdf": 1, "a file.pdf": 12, "a file-1.pdf": 2}:
            fails(f"the PDFs of a folder: status {status}, {said}, {pdfs}")
        if not all(is_a4(pages) for pages in pdfs.values()):
            fails(f"the PDFs of a folder have other sizes: {pdfs}")
        tiff = strips.Tiff((self.folder / "pdfs" / "tif" / "a file").read_bytes())
        if [b"".join(tiff.strips(tags)) for tags in tiff.pages()] != pages:
            fails("a PDF has its pages in another order")
        self.count += 1

    def blackened(self, rows):
        """The code of the standard page with its first rows black."""
        octets = bytearray((self.folder / "standard.pbm").read_bytes())
        begin = len(octets) - len(octets) // 216 * 216
        octets[begin : begin + 216 * rows] = b"\xff" * 216 * rows
        (self.folder / "black.pbm").write_bytes(octets)
        self.ends_well("faxtool code --code mmr black.pbm black.mmr")
        return (self.folder / "black.mmr").read_bytes()

    def tries_processes(self):
        """Two runs at once in one folder store each page once. Of each file one run says that it is whole, and the other that it has fault 8."""
        command = block("Many processes")
        if lacks(command):
            return
        names = [f"a file-{number}" for number in range(COPIES)]
        self.fills("processes", {name: self.a4 * 2 for name in names})
        make, run = command.splitlines()
        self.ends_well(make, "processes")
        runs = [self.starts(run.replace("> list", f"> list{number}").replace("-n 25", "-n 3"), "processes") for number in (1, 2)]
        said = [run.communicate(timeout=120)[0] for run in runs]
        lists = [self.lines(f"processes/list{number}") for number in (1, 2)]
        for name in names:
            told = sorted([lists[0][f"in/{name}"], lists[1][f"in/{name}"]], key=lambda record: record["whole"])
            if (told[0]["whole"], told[0].get("fault"), told[1]["whole"]) != (False, 8, True):
                fails(f"two runs say of {name}: {told}")
        if [run.returncode for run in runs] != [123 if any(not line["whole"] for line in each.values()) else 0 for each in lists] or any(said):
            fails(f"two runs ended with {[run.returncode for run in runs]}: {said}")
        self.has_pages("processes", 2 * COPIES)

    def lines(self, name):
        """The record of each file, which has one."""
        records = [json.loads(line) for line in (self.folder / name).read_text().splitlines()]
        counts = Counter(record["file"] for record in records)
        others = {file: counts[file] for file in {*counts, *self.listed(name)} if counts[file] != 1}
        if others:
            fails(f"{name} has not one record, but so many, of {others}")
        return {record["file"]: record for record in records}

    def listed(self, name):
        """The files that the records of a list are of."""
        within = Path(name).parent
        return [f"in/{file.name}" for file in (self.folder / within / "in").iterdir()]

    def has_pages(self, within, count):
        """There are so many pages, each whole, and nothing else."""
        pages = [file.read_bytes() for file in (self.folder / within / "pages").rglob("*") if file.is_file()]
        if len(pages) != count or set(pages) != {(self.folder / "fine.pbm").read_bytes()}:
            fails(f"{within} has {len(pages)} pages in place of {count}, or others")
        self.count += 1

    def tries_parallel(self):
        """GNU parallel over two machines, for which two shells stand, in an environment without a shell's name, as some have that run gates."""
        command = block("GNU parallel")
        if lacks(command):
            return
        stands, machines = self.folder / "bin" / "ssh", self.folder / "machines"
        stands.write_text(SSH)
        stands.chmod(0o755)
        self.fills("parallel", {f"a file-{number}": self.a4 for number in range(COPIES)})
        self.environment.update(MACHINES=str(machines), HOME=str(self.folder), PARALLEL_SSH=str(stands))
        self.environment.pop("SHELL", None)
        self.ends_well(command.replace("-n 25", "-n 3"), "parallel")
        if not all(record["whole"] for record in self.lines("parallel/list").values()):
            fails("a file isn't whole by GNU parallel")
        if set(machines.read_text().split()) != {"one", "two"}:
            fails(f"GNU parallel used the machines {machines.read_text()}")
        self.has_pages("parallel", COPIES)


def main(words):
    if len(words) != 1:
        print(__doc__)
        return 2
    missing = lacks(" ".join(PROGRAMS))
    if missing:
        print(f"end to end: no {', '.join(missing)}: the recipes of docs/USING.md and docs/ARCHIVE.md that need it weren't tried")
    with tempfile.TemporaryDirectory() as folder:
        recipes = Recipes(Path(words[0]).resolve(), Path(folder))
        recipes.tries_table()
        recipes.tries_pdfs()
        recipes.tries_processes()
        recipes.tries_parallel()
        print(recipes.count)
    return 0


if __name__ == "__main__":
    sys.exit(main(sys.argv[1:]))
