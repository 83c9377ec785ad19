#!/usr/bin/env python3
"""Plants wrong code, and shows which row by octets or which test refuses it.

    bench/plant/wrong_code.py [WORD]        (at the top of the repository)

A contract refuses such code while the definition is right; where both are wrong alike, only what is said by octets refuses it. Each body of
`bench/plant/wrong_code.txt` (or of those whose name has the WORD) is planted in a copy of the repository, the programs are built without
proof, and `.ci/data/try_rows.py` is run, or the tests of a crate: they have to fail, and to say what the table says. A table's row is

    name: what is wrong
    file: PATH            the file
    old: TEXT             what stands in it exactly once
    new: TEXT             what takes its place
    run: rows             or a crate of tests and the full name of one
    says: TEXT            what the output of the failing run has

Without a WORD the right code is run first, and has to pass. Prints a line for each. Ends with status 1 where one isn't refused."""

import re
import shutil
import subprocess
import sys
import tempfile
from pathlib import Path

TOP = Path(__file__).resolve().parents[2]
ROW = re.compile(r"^(name|file|old|new|run|says): (.*)$", re.M)


def bodies():
    """The rows of the table."""
    texts = (TOP / "bench/plant/wrong_code.txt").read_text().split("\n\n")
    return [dict(ROW.findall(text)) for text in texts]


def copy_to(folder):
    """The repository's sources alone."""
    kept = shutil.ignore_patterns("out", ".git")
    for name in (".ci", "bench", "crates", "docs", "packaging"):
        shutil.copytree(TOP / name, folder / name, ignore=kept)
    for name in ("crates.txt", "HANDLES"):
        shutil.copy(TOP / name, folder)
    subprocess.run(["git", "init", "-q", folder], check=True)


def output_of(*words):
    """Whether a command ended well, and what it said."""
    ran = subprocess.run([str(word) for word in words], capture_output=True, text=True)
    return ran.returncode == 0, ran.stdout + ran.stderr


def tried(folder, what):
    """Whether the rows or a crate's test pass, and what they say; a program that isn't built ends all."""
    build, programs = folder / "packaging/build_unproved.sh", []
    crates = ["stream_tool", "faxtool"] if what == "rows" else what.split()[:1]
    for crate in crates:
        programs.append(folder / f"{crate}.program")
        built, said = output_of(build, folder / "crates" / crate, programs[-1], *([] if what == "rows" else ["--test"]))
        if not built:
            sys.exit(f"{crate} isn't built: {said[-2000:]}")
    if what == "rows":
        (folder / "work").mkdir(exist_ok=True)
        return output_of("python3", "-B", folder / ".ci/data/try_rows.py", *programs, folder / "work")
    return output_of(*programs, *what.split()[1:])


def refused(body):
    """Whether what is wrong is refused by what the table says."""
    with tempfile.TemporaryDirectory(prefix="wrong-code-") as name:
        folder = Path(name)
        copy_to(folder)
        path = folder / body["file"]
        text = path.read_text()
        if text.count(body["old"]) != 1:
            sys.exit(f"{body['name']}: stands {text.count(body['old'])} times in {body['file']}")
        path.write_text(text.replace(body["old"], body["new"]))
        passed, said = tried(folder, body["run"])
    is_refused = not passed and body["says"] in said
    print(f"{body['name']}: {'refused: ' + body['says'] if is_refused else 'NOT REFUSED: ' + said[-400:]}", flush=True)
    return is_refused


def right():
    """Whether the right code passes."""
    with tempfile.TemporaryDirectory(prefix="right-code-") as name:
        copy_to(Path(name))
        passed, said = tried(Path(name), "rows")
    print("the right code passes" if passed else f"THE RIGHT CODE IS REFUSED: {said[-400:]}", flush=True)
    return passed


def main():
    word = sys.argv[1] if len(sys.argv) > 1 else ""
    chosen = [body for body in bodies() if word in body["name"]]
    results = ([] if word else [right()]) + [refused(body) for body in chosen]
    return 0 if all(results) and chosen else 1


if __name__ == "__main__":
    sys.exit(main())
