#!/usr/bin/env python3
"""Tries the planted bugs that the gate leaves out for their time, those of bench/plant/edits, as .ci/must_fail.py tries the gate's.

    bench/plant/try_edits.py [CRATE[/WORD]..]        (at the top of the repository, over what a gate or `rt check` left)
    bench/plant/try_edits.py --all [CRATE..] [alike] `make plants`: an hour on four processors

Without a word it tries those of every crate; with one, those whose name has it. Where a function is still proved with its bug, the whole
crate is checked: then what calls it has to refuse. With `--all` it also tries the laws' wrong rows of the same crates, as refuted.py does,
and without a crate, or with the word `alike`, the bodies of wrong_definitions.py; and it writes what came of it into docs/PLANTS.md, of
sources that are committed.
JOBS in the environment is how many checks run side by side, 4 where it isn't set. Prints what each comes to, and a count. Ends with
status 1 if one is still proved, or is refused for another reason alone than a goal that became false."""
import concurrent.futures
import datetime
import os
import sys
from pathlib import Path

TOP = Path(__file__).resolve().parent.parent.parent
sys.dont_write_bytecode = True
sys.path += [str(TOP / ".ci"), str(TOP / "bench" / "plant")]
import plants
import refuted
import wrong_definitions
from must_fail import try_edits

JOBS = int(os.environ.get("JOBS", "4"))
# The word for the bodies that are wrong in code and definition alike.
ALIKE = "alike"


def lacking(crates):
    """Whether a crate has no edits; it is told."""
    none = [crate for crate in crates if not (plants.EDITS / crate).is_dir()]
    if none:
        print(f"bench/plant/edits has no edits of {none[0]}", file=sys.stderr)
    return bool(none)


def edits_tried(edits):
    """The goals that refused the edits of each crate."""
    with concurrent.futures.ThreadPoolExecutor(JOBS) as pool:
        return dict(zip(edits, pool.map(lambda crate: try_edits(TOP / "crates", crate, edits[crate]), edits)))


def every_of(crates):
    """The edits of each crate."""
    return {crate: sorted((plants.EDITS / crate).glob("*.edit")) for crate in crates}


def counted(found, edits):
    """Prints how many edits were refused, and returns whether all were."""
    count, every = sum(map(len, found.values())), sum(map(len, edits.values()))
    print(f"{count} of {every} refused by a goal that became false")
    return bool(every) and count == every


def row_of(crate, commit, goals, edits, laws):
    """A row of the record, of the goals that refused edits of a crate and of the laws that refused its wrong rows."""
    told = goals + [law for law in laws if law]
    refused = sum(law is not None for law in laws)
    return plants.Row(crate, commit, f"{datetime.date.today()}", len(goals), edits, refused, len(laws), plants.goals_told(told))


def laws_tried(crates):
    """Of each crate the laws that refused its wrong rows, None for each that none refused."""
    laws = {crate: [] for crate in crates}
    for row, law in refuted.tried([row for row in refuted.all_rows() if row["crate"] in crates]):
        laws[row["crate"]].append(law)
    return laws


def try_all(words):
    """Tries all, writes the record, and returns whether all was refused."""
    crates = [word for word in words if word != ALIKE] if words else sorted(folder.name for folder in plants.EDITS.iterdir())
    is_alike = not words or ALIKE in words
    if lacking(crates):
        return False
    changed = [crate for crate in [*crates, *(plants.CALL if is_alike else [])] if plants.changed(crate)]
    if changed:
        print(f"the sources of {changed[0]} aren't committed, and a record is of a commit", file=sys.stderr)
        return False
    edits, commits, of_the_call = every_of(crates), {crate: plants.last_change(crate) for crate in crates}, plants.last_change(*plants.CALL)
    found, laws = edits_tried(edits), laws_tried(crates)
    alike = wrong_definitions.tried() if is_alike else None
    rows = [row_of(crate, commits[crate], found[crate], len(edits[crate]), laws[crate]) for crate in crates]
    told = alike and plants.alike_told(*alike, of_the_call, datetime.date.today())
    plants.PAGE.write_text(plants.written(plants.PAGE.read_text(), rows, told))
    print(f"docs/PLANTS.md has the record of {len(rows)} crates{' and of bodies that are wrong in both' if is_alike else ''}")
    are_all = (not crates or counted(found, edits)) and all(law for each in laws.values() for law in each)
    return are_all and (alike is None or alike[0] == alike[1])


def main(words):
    if words[:1] == ["--all"]:
        return 0 if try_all(words[1:]) else 1
    wanted = [word.partition("/") for word in words] or [(folder.name, "", "") for folder in sorted(plants.EDITS.iterdir())]
    if lacking([crate for crate, _slash, _word in wanted]):
        return 2
    edits = {crate: [edit for edit in every_of([crate])[crate] if word in edit.stem] for crate, _slash, word in wanted}
    return 0 if counted(edits_tried(edits), edits) else 1


if __name__ == "__main__":
    sys.exit(main(sys.argv[1:]))
