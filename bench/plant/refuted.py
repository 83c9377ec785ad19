#!/usr/bin/env python3
"""Plants wrong definitions, each in a copy of its crate, and shows each refused by a law that is false of it.

    bench/plant/refuted.py [--right] [WORD]        (at the top of the repository, over what `rt ci` has built)

A row that stands in a definition alone can be wrong in code and definition alike, and then the code still meets it. The laws say the same
rows another way. For each wrong definition of `bench/plant/tables/` (or of those whose name has the WORD) the **negation of a law** is
proved over it, by the counterexample that the table gives: so no body, whatever it does, can meet both. A proof text that no longer fits
refuses nothing here.

A table is a text: the lines before the first `name:` are the beginning of each proof; then for each wrong definition

    name: what is wrong
    law: FILE.NAME        the law, by its file in the crate's specs/
    file: PATH            the file of the definition in the crate
    old: TEXT             what stands in it exactly once
    new: TEXT             what takes its place; there may be more pairs
    unfolding: NAMES      the definitions that the proof opens, where it needs any
    proof: TERM           of type `law → ⊥`

A text goes on in lines that begin with a blank, which is no part of an old or a new one.

`--right` plants nothing and tells whether a counterexample holds of the definitions as they are: none may.
JOBS in the environment is how many checks run side by side, 4 where it isn't set. Prints a line for each, and a count. Ends with
status 1 where one isn't refused, or under `--right` where one is.
"""
import concurrent.futures
import os
import queue
import re
import shutil
import subprocess
import sys
import tempfile

sys.dont_write_bytecode = True
sys.path.append(os.path.join(os.path.dirname(os.path.abspath(__file__)), "..", "..", ".ci"))
from edits import RATTLE
from must_fail import words_of
from refusals import are_proved

ROOT = os.path.dirname(os.path.dirname(os.path.dirname(os.path.abspath(__file__))))
TABLES = f"{ROOT}/bench/plant/tables"
JOBS = int(os.environ.get("JOBS", "4"))
PARTS = ["src", "specs", "proofs"]
CODE = """//! The negation of a law.

ghost use Rattle.{crate}.specs.{file}.{{{law}}};

/// The law is false.
pub fn refuted()
    ensures {{ {law} → ⊥ }}
{{}}
"""
ANSWER = """use Rattle.{crate}.proofs.refuted.refuted.Goals as goal
{begin}pub returns : goal.returns
{unfolding}returns c = {proof}
"""


def read(path):
    with open(path, encoding="utf-8") as file:
        return file.read()


def write(path, text):
    os.makedirs(os.path.dirname(path), exist_ok=True)
    with open(path, "w", encoding="utf-8") as file:
        file.write(text)


def table(path):
    """The wrong definitions of a table, each with its crate and the beginning of its proof."""
    begin, *texts = re.split(r"^name: ", read(path), flags=re.M)
    found = []
    for text in texts:
        name, rest = text.split("\n", 1)
        pairs = re.findall(r"^(law|file|old|new|unfolding|proof): (.*(?:\n[ \t].*)*)", rest, flags=re.M)
        row = {key: value for key, value in pairs if key in ("law", "unfolding", "proof")}
        row |= {"name": name, "crate": os.path.basename(path)[:-len(".txt")], "begin": begin, "edits": edits(pairs)}
        found.append(row)
    return found


def edits(pairs):
    """The file, the old text and the new one of each pair."""
    file, old, found = None, None, []
    for key, value in pairs:
        if key == "file":
            file = value
        elif key == "old":
            old = value.replace("\n ", "\n")
        elif key == "new":
            found.append((file, old, value.replace("\n ", "\n")))
    return found


def place(top, crate):
    """A copy of the crate's sources."""
    home = f"{top}/{crate}"
    shutil.rmtree(home, ignore_errors=True)
    for part in PARTS:
        shutil.copytree(f"{ROOT}/crates/{crate}/{part}", f"{home}/{part}")
    return home


def refused(top, row, right):
    """Whether the negation of the row's law is proved over its wrong definition, and what the check said."""
    folder, crate = place(top, row["crate"]), row["crate"]
    for path, old, new in row["edits"]:
        text = read(f"{folder}/{path}")
        if text.count(old) != 1:
            return False, f"stands {text.count(old)} times in {path}: {old}"
        if not right:
            write(f"{folder}/{path}", text.replace(old, new))
    file, law = row["law"].rsplit(".", 1)
    write(f"{folder}/src/lib.rt", read(f"{folder}/src/lib.rt") + "\npub mod refuted;\n")
    write(f"{folder}/src/refuted.rt", CODE.format(crate=crate, file=file, law=law))
    unfolding = f"unfolding {row['unfolding']}\n" if "unfolding" in row else ""
    answer = ANSWER.format(crate=crate, begin=row["begin"], unfolding=unfolding, proof=row["proof"])
    write(f"{folder}/proofs/refuted/refuted/Answers.antt", answer)
    words = words_of(f"{ROOT}/crates", crate) + ["--incremental", f"{top}/kept/{crate}", "--jobs", "1", "--only", f"{crate}::refuted::refuted"]
    os.makedirs(f"{top}/kept/{crate}", exist_ok=True)
    done = subprocess.run([RATTLE, "check", *words], cwd=folder, stdin=subprocess.DEVNULL, capture_output=True, text=True)
    lines = (done.stdout + done.stderr).split("\n")
    proved = done.returncode == 0 and are_proved(lines, 1)
    said = [line for line in lines if "error" in line or "no proof" in line] or lines[-6:]
    return proved, "\n      ".join(line[:400] for line in said[:4])


def side_by_side(rows, judged):
    """Each row with what is judged of it in a folder of its own, in the rows' order; JOBS of them at once."""
    places = queue.Queue()
    with tempfile.TemporaryDirectory(prefix="planted-") as top, concurrent.futures.ThreadPoolExecutor(JOBS) as pool:
        for number in range(JOBS):
            places.put(f"{top}/{number}")

        def judged_there(row):
            mine = places.get()
            try:
                return row, judged(mine, row)
            finally:
                places.put(mine)

        yield from pool.map(judged_there, rows)


def all_rows():
    """The wrong definitions of all tables."""
    return [row for name in sorted(os.listdir(TABLES)) for row in table(f"{TABLES}/{name}")]


def tried(rows, right=False):
    """Prints what each row comes to; each with the name of the law that refuses it, None if it doesn't."""
    for row, (proved, said) in side_by_side(rows, lambda mine, row: refused(mine, row, right)):
        verdict = f"refused by {row['law']}" if proved else f"not refused\n      {said}"
        print(f"{row['crate']}: {row['name']}: {verdict}", flush=True)
        yield row, row["law"].rpartition(".")[2] if proved else None


def main():
    words = sys.argv[1:]
    right = "--right" in words
    word = next((given for given in words if given != "--right"), "")
    rows = [row for row in all_rows() if word in row["name"] or word == row["crate"]]
    count = sum(law is not None for _row, law in tried(rows, right))
    print(f"{count} of {len(rows)} refused")
    return 0 if rows and count == (0 if right else len(rows)) else 1


if __name__ == "__main__":
    sys.exit(main())
