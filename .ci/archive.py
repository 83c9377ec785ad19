#!/usr/bin/env python3
"""Runs docs/examples/archive_dask.py over two workers, of which one is killed, with the library that bindings/build.sh left in a folder:

    .ci/archive.py FOLDER

The worker that reads the file `dies` ends by SIGKILL when it has stored the first of its three pages: the other one reads it again. Each file
stands in the manifest once, each page has the octets of its image, and nothing else is there. A second run stores no page anew; a file of
the user's under a page's name, and one under the manifest's, stay. A wrong program, which replaces what is there, is seen. What is missing of
python3-distributed and python3-pil is named, and nothing is run then. Ends with status 1 at the first difference."""

import json
import os
import subprocess
import sys
import tempfile
from pathlib import Path

TOP = Path(__file__).resolve().parent.parent
PROGRAM = TOP / "docs" / "examples" / "archive_dask.py"
PACKAGES = {"distributed": "python3-distributed", "PIL": "python3-pil"}
# In a worker: the first link to the first page of `dies` is its last one.
DIES = """import os
link = os.link
def dies(part, place):
    link(part, place)
    if place.endswith("dies-0001.pbm"):
        try:
            os.mkdir(os.environ["KILLED"])
        except FileExistsError:
            return
        os.kill(os.getpid(), 9)
os.link = dies
"""
# What makes the images of the pages: of those named wide, and of the one that ghostscript wrote.
IMAGES = """import sys, g3fax
for image, name, coding in ("page.pbm", "wide.mmr.msb", g3fax.Coding.MMR), ("open.pbm", "wide.faxg3", g3fax.Coding.MH):
    page = g3fax.Page.decode(open(f"{sys.argv[1]}/{name}", "rb").read(), coding=coding)
    open(image, "wb").write(page.pbm())
"""
# What makes TIFFs of two pages, by libtiff, which Pillow has.
TIFFS = """from PIL import Image
for code in ("group3", "group4"):
    Image.open("page.pbm").save(f"in/{code}.tif", compression=code, save_all=True, append_images=[Image.open("page.pbm")])
Image.open("page.pbm").save("in/lzw.tif", compression="tiff_lzw")
"""
# What ends well once there are a scheduler and two workers.
WAITS = """import os, time
from dask.distributed import Client
end = time.monotonic() + 60
while not os.path.exists("scheduler") and time.monotonic() < end:
    time.sleep(0.1)
with Client(scheduler_file="scheduler") as client:
    client.wait_for_workers(2, timeout=60)
"""
KILLED_FILE, COPIES = "dies", 60


def fails(words):
    print(f"archive: FAILED: {words}", file=sys.stderr)
    sys.exit(1)


def missing(python):
    """The packages that a Python lacks."""
    return [
        package for module, package in PACKAGES.items()
        if subprocess.run([python, "-c", f"import {module}"], stderr=subprocess.DEVNULL, check=False).returncode
    ]  # fmt: skip


def python_with_all():
    """A Python that has the packages, or None after a line that says what is missing."""
    lacks = {python: missing(python) for python in dict.fromkeys([sys.executable, "/usr/bin/python3"]) if os.path.exists(python)}
    whole = [python for python, packages in lacks.items() if not packages]
    if not whole:
        print(f"archive: archive_dask.py wasn't run: there is no {' and no '.join(min(lacks.values(), key=len))}")
    return whole[0] if whole else None


class Archive:
    """A folder with faxes, a scheduler and two workers."""

    def __init__(self, python, library, folder):
        self.python, self.folder = python, folder
        self.environment = {
            **os.environ, "G3FAX_LIBRARY": str(library / "libg3fax.so.0"), "PYTHONDONTWRITEBYTECODE": "1",
            "PYTHONPATH": f"{TOP}/bindings/python:{folder}/hook", "KILLED": f"{folder}/killed", "PYTHONWARNINGS": "ignore",
        }  # fmt: skip
        self.pages, self.workers = {}, []
        (folder / "hook").mkdir()
        (folder / "hook" / "sitecustomize.py").write_text(DIES)

    def runs(self, *words, **how):
        return subprocess.run([self.python, *words], cwd=self.folder, env=self.environment, text=True, timeout=300, check=False, **how)

    def starts(self, module, *words):
        """A process of Dask, by which no port is said, since the system gives one."""
        quiet = {"stdout": subprocess.DEVNULL, "stderr": subprocess.DEVNULL}
        return subprocess.Popen(
            [self.python, "-m", f"distributed.cli.{module}", "--no-dashboard", "--scheduler-file", "scheduler", *words],
            cwd=self.folder, env=self.environment, **quiet,
        )  # fmt: skip

    def fills(self):
        """The files to read, and how many pages each has."""
        data, examples = TOP / ".ci" / "data", TOP / "docs" / "examples"
        (self.folder / "in" / "sub folder").mkdir(parents=True)
        if self.runs("-c", IMAGES, str(data)).returncode or self.runs("-c", TIFFS).returncode:
            fails("no files are made")
        for name in ("mh.msb", "mh.lsb", "mmr.msb", "mmr.lsb"):
            octets = (data / f"wide.{name}").read_bytes()
            self.gives(f"sub folder/two\n{name}", octets * 2, 2)
            for copy in range(COPIES // 4):
                self.gives(f"{copy}.{name}", octets, 1)
        self.gives(KILLED_FILE, (data / "wide.mmr.msb").read_bytes() * 3, 3)
        self.pages.update({"group3.tif": 2, "group4.tif": 2, "lzw.tif": 0})
        for name, octets in {"empty": b"", "page": (examples / "page.pbm").read_bytes(), "tiff": b"II*\0", "taken": b""}.items():
            self.gives(name, octets, 0)
        self.gives(os.fsdecode(b"lat\351n"), (data / "wide.mmr.msb").read_bytes(), 1)
        # without RTC, cut in RTC, and cut in a row
        self.gives("open", (data / "wide.faxg3").read_bytes(), 1)
        self.gives("five EOLs", (data / "wide.mh.msb").read_bytes()[:-2], 1)
        self.gives("cut", (data / "wide.mmr.msb").read_bytes()[:200], 0)
        # another file has its page's name
        self.gives("taken", (data / "wide.mmr.msb").read_bytes(), 0)
        (self.folder / "out").mkdir()
        (self.folder / "out" / "taken-0001.pbm").write_text("the user's")

    def gives(self, name, octets, pages):
        (self.folder / "in" / name).write_bytes(octets)
        self.pages[name] = pages

    def reads(self, manifest, program=PROGRAM):
        """What a run over the workers says, with its status."""
        done = self.runs(str(program), "--scheduler", self.address, "in", "out", manifest, capture_output=True)
        return done.returncode, done.stdout, done.stderr

    def found(self):
        """Each file below out, and what it is: octets, number and time."""
        files = [file for file in (self.folder / "out").rglob("*") if file.is_file()]
        return {str(file.relative_to(self.folder / "out")): (file.read_bytes(), file.stat().st_ino, file.stat().st_mtime_ns) for file in files}

    def is_whole(self, manifest):
        """Each file is in the manifest once, with its pages, and out has these alone."""
        records = [json.loads(line) for line in (self.folder / manifest).read_text().splitlines()]
        stored = {os.path.relpath(record["file"], self.folder / "in"): record for record in records}
        if sorted(os.path.relpath(record["file"], self.folder / "in") for record in records) != sorted(self.pages):
            fails(f"{manifest} hasn't each file once")
        for name, pages in self.pages.items():
            if len(stored[name]["pages"]) != pages or stored[name]["whole"] != ("fault" not in stored[name]):
                fails(f"{manifest} says of {name}: {stored[name]}")
        if {name for name in stored if not stored[name]["whole"]} != {"lzw.tif", "empty", "page", "tiff", "open", "five EOLs", "cut", "taken"}:
            fails(f"{manifest} says of other files that they aren't whole")
        wanted = {f"{name}-{page:04}.pbm" for name, pages in self.pages.items() for page in range(1, pages + 1)} | {"taken-0001.pbm"}
        found = self.found()
        if set(found) != wanted:
            fails(f"out has other files: {set(found) ^ wanted}")
        images = {"open-0001.pbm": (self.folder / "open.pbm").read_bytes(), "taken-0001.pbm": b"the user's"}
        image = (self.folder / "page.pbm").read_bytes()
        other = [name for name, (octets, *_) in found.items() if octets != images.get(name, image)]
        if other:
            fails(f"other octets: {other}")

    def tries(self):
        """A run with a worker that dies, one more, and wrong ones."""
        status, said, errors = self.reads("first")
        if status != 1 or errors or not said.startswith(f"{len(self.pages)} files, "):
            fails(f"the first run ended with status {status}: {said}{errors}")
        self.is_whole("first")
        if sorted(worker.poll() is None for worker in self.workers) != [False, True] or not (self.folder / "killed").exists():
            fails("no worker was killed")
        before = self.found()
        status, said, errors = self.reads("second")
        self.is_whole("second")
        if (status, errors) != (1, "") or self.found() != before:
            fails(f"a second run stores pages anew: {said}{errors}")
        kept = (self.folder / "first").read_bytes()
        status, said, errors = self.reads("first")
        if status != 1 or not errors.endswith("/first: File exists\n") or (self.folder / "first").read_bytes() != kept:
            fails(f"a manifest that is there: {said}{errors}")
        # a program that replaces what is there is seen
        wrong = self.folder / "wrong.py"
        wrong.write_text(PROGRAM.read_text().replace("os.link(part, place)", "os.replace(part, place)").replace("os.remove(part)", "pass"))
        self.reads("third", wrong)
        if self.found()["taken-0001.pbm"] == before["taken-0001.pbm"]:
            fails("a program that replaces files isn't seen")

    def all(self):
        """All of it, over the processes of Dask, which end with it."""
        self.fills()
        scheduler = self.starts("dask_scheduler", "--host", "127.0.0.1", "--port", "0")
        try:
            self.workers = [self.starts("dask_worker", "--no-nanny", "--nthreads", "1") for _ in range(2)]
            if self.runs("-c", WAITS, stderr=subprocess.DEVNULL).returncode:
                fails("no scheduler with two workers comes up")
            self.address = json.loads((self.folder / "scheduler").read_text())["address"]
            self.tries()
        finally:
            for process in (*self.workers, scheduler):
                process.kill()
                process.wait()


def main(words):
    if len(words) != 1:
        print(__doc__)
        return 2
    python = python_with_all()
    if python:
        with tempfile.TemporaryDirectory() as folder:
            archive = Archive(python, Path(words[0]).resolve(), Path(folder))
            archive.all()
        print(f"archive: {len(archive.pages)} files over two workers, one of them killed: each once in the manifest, no page lost, none replaced")
    return 0


if __name__ == "__main__":
    sys.exit(main(sys.argv[1:]))
