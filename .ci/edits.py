#!/usr/bin/env python3
"""Holds each planted bug against its crate, each source against the formatter and each module's name, before the gate spends an hour:

    .ci/edits.py

Each `old:` text of .ci/must-fail/*/*.edit, and of bench/plant/edits and said, which the gate doesn't try, stands exactly once in the file
that the edit names, after the pairs before it. The texts of bench/plant's wrong definitions, code and bodies that answer no memory stand in
their files too, and the laws of its tables in their crates. guilty.txt, there, names bugs that stand in one of these folders or in
bench/plant/said, and each rule of `faxtool judge`. docs/PLANTS.md names bugs that are there, the functions that they change and
clauses of these. Of each crate but those of tests there are five to ten in bench, and a record of these that isn't too old; so of bodies
that are wrong in code and definition alike. PROOF and CONTRIBUTING say of how many crates the gate's are. Each .rt and .antt file is as the
kit's formatter writes it; and no module has the name of a library that its crate uses.
Prints what is wrong and ends with status 1, or prints one line of counts. It needs Python's standard library and the kit's
`rattle`."""

import collections
import os
import re
import shutil
import subprocess
import sys
from pathlib import Path

sys.dont_write_bytecode = True
BENCH = Path(__file__).resolve().parent.parent / "bench"
sys.path += [str(BENCH), str(BENCH / "plant")]
import judge
import plants

TOP = Path(__file__).resolve().parent.parent
PARTS = ["src", "specs", "proofs"]
# Where the edits lie, in a folder of each crate.
PLACES = [TOP / ".ci" / "must-fail", BENCH / "plant" / "edits", BENCH / "plant" / "said"]
RATTLE = shutil.which("rattle", path=f"{os.environ.get('PATH', '')}:{os.environ.get('KIT', '/opt/rattle')}/bin")


def pairs_of(edit):
    """The file, the old text and the new one of each pair of an edit; a new text without an old one has None for it."""
    file, old, found = None, None, []
    for line in edit.read_text().split("\n"):
        word, _, text = line.partition(": ")
        if word == "file":
            file = text.strip()
        elif word == "old":
            old = text
        elif line.startswith("new:"):
            found.append((file, old, line.removeprefix("new:").removeprefix(" ")))
            old = None
    return found


def pair_faults(pairs, folder, once=True):
    """What is wrong with pairs of texts, each of which stands once in its file; or, where that isn't asked for, at all."""
    texts = {}
    for file, old, new in pairs:
        if file is None or old is None:
            return ["a new text without a file or an old one"]
        if not (folder / file).is_file():
            return [f"no file {file}"]
        text = texts.setdefault(file, (folder / file).read_text())
        if old not in text or once and text.count(old) != 1:
            return [f"stands {text.count(old)} times in {file}: {old}"]
        if old == new:
            return [f"its text in {file} stays as it is: {old}"]
        texts[file] = text.replace(old, new)
    return [] if texts else ["it changes nothing"]


def faults_of(edit, folder):
    """What is wrong with an edit."""
    return pair_faults(pairs_of(edit), folder)


def law_faults(row):
    """Whether the law of a wrong row is a definition of its crate."""
    file, _, law = row["law"].rpartition(".")
    path = TOP / "crates" / row["crate"] / "specs" / f"{file.replace('.', '/')}.antt"
    has = path.is_file() and re.search(rf"^(?:\w+ )*{re.escape(law)} ", path.read_text(), re.M)
    return [] if has else [f"no law {row['law']}"]


def texts_of_plants():
    """What is wrong with the texts of bench/plant that no edit has: of wrong definitions, of tables, of wrong code, of no memory."""
    import no_memory
    import refuted
    import wrong_code
    import wrong_definitions

    found = [(name, pair_faults(pairs, TOP / "crates", once=False)) for name, pairs in wrong_definitions.WRONG.items()]
    rows = refuted.all_rows()
    found += [(f"{row['crate']}: {row['name']}", pair_faults(row["edits"], TOP / "crates" / row["crate"]) + law_faults(row)) for row in rows]
    found += [(body["name"], pair_faults([(body["file"], body["old"], body["new"])], TOP)) for body in wrong_code.bodies()]
    calls = no_memory.CALLS.items()
    found += [(call, pair_faults([(f"{crate}/src/{file}", line, "")], TOP / "crates")) for call, (crate, file, line, *_) in calls]
    return len(found), [f"bench/plant: {name}: {fault}" for name, faults in found for fault in faults]


def clauses_of(folder, file, name, at):
    """The names of the clauses of a function that begins before a place of a source; of a trait's, those of the trait's function."""
    head = rf"^ *(?:pub(?:\(\w+\))? )?fn {name}\b.*?^ *(?:\{{|[^\n]*;)$"
    own = [found[0] for found in re.finditer(head, (folder / file).read_text(), re.M | re.S) if found.start() <= at][-1:]
    heads = own if own and "ensures" in own[0] else [
        found for source in folder.glob("src/**/*.rt") for found in re.findall(head, source.read_text(), re.M | re.S)]
    return {word or "ensures" for text in heads for word in re.findall(r"^ *ensures (\w*) ?\{", text, re.M)}


def body_faults(text):
    """The rows of the table of wrong bodies that name another function than their bug changes, or a clause that it hasn't."""
    from must_fail import Bug  # which imports this

    for bug, function, clause in plants.wrong_bodies(text)[1]:
        crate, edit = bug.split("/")[0], TOP / ".ci" / "must-fail" / f"{bug}.edit"
        folder, (owner, _, name) = TOP / "crates" / crate, function.rpartition("::")
        if not edit.is_file():
            continue  # said by `named_faults`
        planted = Bug(folder, crate, edit)
        file, old, _new = planted.pairs[0]
        its, _, called = (planted.function or "").rpartition("::")
        if called != name or not (f"::{its}".endswith(f"::{owner}") or its.startswith(owner)):
            yield f"docs/PLANTS.md: {bug} changes {planted.function}, and not {function}"
        elif clause not in clauses_of(folder, file, name, (folder / file).read_text().find(old)):
            yield f"docs/PLANTS.md: {function} has no clause {clause}"


def wrong_rows():
    """How many wrong rows of its tables each crate has."""
    import refuted

    return collections.Counter(row["crate"] for row in refuted.all_rows())


def record_faults():
    """What is wrong with the record of the planted bugs that the gate doesn't try."""
    import wrong_definitions

    return plants.faults_here(wrong_rows(), len(wrong_definitions.WRONG))


def count_faults():
    """What documents say of how many planted bugs there are, held against these."""
    import refuted

    texts = {name: (TOP / name).read_text() for name in ("docs/PROOF.md", "CONTRIBUTING.md")}
    return plants.count_faults(texts, len(list((TOP / ".ci" / "must-fail").iterdir())), len(refuted.all_rows()))


def guilty_faults(text):
    """The rows of the text of guilty.txt that name no station, a bug that isn't there, or no rule; and the rules that no row has."""
    rules, named = {name for name, _signals, _breaks in judge.RULES}, set()
    for line in text.splitlines():
        side, bug, rule = (line.split(" | ") + ["", ""])[:3]
        is_there = any((place / f"{bug}.edit").is_file() for place in PLACES)
        if not line.startswith("#") and not (side in ("caller", "answerer") and is_there and rule in rules | {"-"}):
            yield f"bench/plant/guilty.txt: no station, no planted bug or no rule: {line}"
        named.add(rule)
    yield from (f"bench/plant/guilty.txt: no row has the rule {rule}" for rule in sorted(rules - named))


def unformatted(crate):
    """The files of a crate that the formatter would write in another way, as it says."""
    files = sorted(str(file) for part in PARTS for file in (crate / part).rglob("*") if file.suffix in (".rt", ".antt"))
    ran = subprocess.run([RATTLE, "fmt", "--check", *files], capture_output=True, text=True)
    return [] if ran.returncode == 0 else [f"{crate.name}: run rt fmt in the crate's folder"]


def shadowed(line):
    """The modules of a crate of crates.txt that have the name of a library that it uses, which the gate refuses."""
    crate, _, libraries = line.partition(":")
    name = crate.split()[0]
    modules = {file.stem for file in (TOP / "crates" / name / "src").rglob("*.rt")}
    return [f"{name}: the module {it} has the name of a library" for it in libraries.split() if it in modules]


def main():
    crates = sorted(path for path in (TOP / "crates").iterdir() if path.is_dir())
    folders = [(place / crate.name, crate) for crate in crates for place in PLACES]
    edits = [(edit, crate) for folder, crate in folders for edit in sorted(folder.glob("*.edit"))]
    wrong = [f"{crate.name}/{edit.name}: {fault}" for edit, crate in edits for fault in faults_of(edit, crate)]
    for crate in crates:
        wrong += unformatted(crate)
    for line in (TOP / "crates.txt").read_text().splitlines():
        wrong += shadowed(line)
    wrong += record_faults()
    wrong += guilty_faults((BENCH / "plant" / "guilty.txt").read_text())
    wrong += body_faults(plants.PAGE.read_text())
    wrong += count_faults()
    others, lacking = texts_of_plants()
    wrong += lacking
    for fault in wrong:
        print(f"edits: {fault}")
    if not wrong:
        print(f"edits: {len(edits)} edits and {others} others of bench/plant can be made, and the sources of {len(crates)} crates are formatted")
    return 1 if wrong else 0


if __name__ == "__main__":
    if RATTLE is None:
        sys.exit("edits: the kit's rattle is missing: put its bin on your PATH")
    sys.exit(main())
