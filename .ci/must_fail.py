#!/usr/bin/env python3
"""Tries planted bugs, each of which the function that it changes must refuse:

    .ci/must_fail.py CRATES CRATE..

CRATES is the folder where the crates lie that `rt ci` has proved and built; the bugs of a crate are the edits of .ci/must-fail/CRATE, one a
file: for each text that it changes a line `file:`, one `old:` and one `new:`; and `by: FUNCTION` where another function than the one that
it changes refuses it. A proof of a function rests on what those that it calls promise, and not on their bodies. So the bugs of many
functions are put into one copy of the crate, and these functions are checked at once. A bug is refused if a goal of its function became
false; one that isn't is tried again without those that were, and at last alone, where what calls its function may refuse it too. Prints for
each what was refused, and a count. Ends with status 1 if one isn't refused."""
import os
import re
import shutil
import subprocess
import sys
import tempfile
from pathlib import Path

from edits import PARTS, RATTLE, TOP, faults_of, pairs_of
from prove import below, read_crates
from refusals import PLACE, goal_of, goals, is_read, places, shows_a_goal

KIT = Path(os.environ.get("KIT", "/opt/rattle"))
# How a function begins in a formatted source.
FUNCTION = re.compile(r'(?:    )?(?:pub(?:\(\w+\))? )?(?:const |extern "C" |unsafe )*fn (\w+)')


def function_at(text, at, module):
    """The function that stands at this place of a formatted source, by its type and its trait or by its module; None if none does."""
    owner, name = module, None
    for line in text[:at].split("\n"):
        kind = re.match(r"(?:pub(?:\(crate\))? )?(?:impl|trait)\b(?:<.*?>)? (.*?) \{$", line)
        if kind:
            trait, _, own = kind[1].rpartition(" for ")
            bare = [re.sub(r"<.*|&('\w+ )?", "", it).split("::")[-1] for it in (own, trait)]
            owner, name = "".join(bare), None
        elif line == "}":
            owner, name = module, None
        else:
            begun = FUNCTION.match(line)
            name = begun[1] if begun else name
    return name and f"{owner}::{name}"


def module_of(crate, file):
    """The module of a source of a crate, by its path in the crate."""
    parts = Path(file).with_suffix("").parts[1:]
    return "::".join([crate, *(part for part in parts if part not in ("lib", "main", "mod"))])


def changed_function(folder, crate, pairs):
    """The function that an edit changes first; None if it changes none."""
    for file, old, _new in pairs:
        if file.startswith("src/"):
            text = (folder / file).read_text()
            # an old text may begin at the end of the line before the function
            return function_at(text, text.find(old) + len(old), module_of(crate, file))
    return None


def words_of(built, crate):
    """The words by which `rattle check` reads a crate over those that are built in this folder."""
    crates = read_crates()
    root = "src/main.rt" if (TOP / "crates" / crate / "src" / "main.rt").is_file() else "src/lib.rt"
    words = ["--crate-name", crate, root, "-L", f"dependency={KIT}/rlibs"]
    for name in ["std", *crates[crate][0].split(":")[1].split()]:
        rlibs = f"{built}/{name}/out/rlib" if name in crates else f"{KIT}/rlibs"
        words += ["--extern", f"{name}={rlibs}/{name}.rlib"]
    for name in sorted(below(crates, crate) - {crate}):
        words += ["-L", f"dependency={built}/{name}/out/rlib"]
    return words + ["--antt-project", f"{KIT}/rattle/logic/antt-project.json", "--logic-built", f"{KIT}/logic_built", "--links", f"{crate}="]


def linked(source, target):
    """A second name of a file; or a copy, on another disk."""
    try:
        return os.link(source, target) if source.endswith(".oantt") else shutil.copy2(source, target)
    except OSError:
        return shutil.copy2(source, target)


class Bug:
    """A planted bug: its edit, the texts that it changes, and the function that is to refuse it."""

    def __init__(self, folder, crate, edit):
        self.edit, self.pairs = edit, pairs_of(edit)
        named = re.search(r"^by: (\S+)$", edit.read_text(), re.M)
        self.function = named[1] if named else changed_function(folder, crate, self.pairs)
        # what a definition says is read by more than one function
        self.is_of_one = all(file.startswith("src/") for file, _old, _new in self.pairs) and self.function is not None

    def plant(self, folder):
        """Whether it can be made in this copy of the crate; if so it is."""
        if faults_of(self.edit, folder):
            return False
        for file, old, new in self.pairs:
            path = folder / file
            path.write_text(path.read_text().replace(old, new))
        return True

    def reason(self, folder, crate, lines):
        """What a check said of its function that shows a goal which became false; None if nothing."""
        proofs = "/" + self.function.removeprefix(f"{crate}::").replace("::", "/") + "/"
        for line in lines:
            place = PLACE.match(line)
            if place and shows_a_goal(line) and (proofs in place[1] or self.is_at(folder, crate, place[1], int(place[2]))):
                return line
        return None

    def is_at(self, folder, crate, file, number):
        """Whether a line of a source is one of its function."""
        if not file.startswith("src/"):
            return False
        text = (folder / file).read_text()
        end = len("\n".join(text.split("\n")[:number]))
        return function_at(text, end, module_of(crate, file)) == self.function


class Tries:
    """Tries bugs of a crate over the crates that are built in a folder. What was proved with some bugs is kept for the others."""

    def __init__(self, crates, crate, room):
        self.sources, self.crate, self.room = TOP / "crates" / crate, crate, Path(room)
        self.words = words_of(Path(crates).resolve(), crate) + ["--incremental", str(self.room / "kept")]
        kept = Path(crates) / crate / "out" / "incremental"
        if kept.is_dir():
            # what `rt check` kept; a check replaces such a file, and writes into none
            shutil.copytree(kept, self.room / "kept", copy_function=linked)

    def check(self, bugs, only=True):
        """The bugs that could be planted together, where they were, and the lines of a check of their functions, or of the whole crate."""
        folder = self.room / "crate"
        shutil.rmtree(folder, ignore_errors=True)
        for part in PARTS:
            if (self.sources / part).is_dir():
                shutil.copytree(self.sources / part, folder / part)
        planted = [bug for bug in bugs if bug.plant(folder)]
        names = [word for bug in planted for word in ("--only", bug.function)] if only else []
        command = [RATTLE, "check", *self.words, "--jobs", "1", *names]
        done = subprocess.run(command, cwd=folder, stdin=subprocess.DEVNULL, capture_output=True, text=True)
        return planted, folder, done.returncode, (done.stdout + done.stderr).split("\n")

    def together(self, bugs):
        """Of bugs of different functions those that are refused, with what is said of each."""
        planted, folder, _status, lines = self.check(bugs)
        if len(bugs) > 1 and not is_read(lines):
            # one of them isn't read, or doesn't compile
            half = len(bugs) // 2
            return self.together(bugs[:half]) | self.together(bugs[half:])
        found = {bug: bug.reason(folder, self.crate, lines) for bug in planted}
        return {bug: reason for bug, reason in found.items() if reason}

    def alone(self, bug):
        """Whether a bug is refused, and what is said of it; the whole crate is checked if its function is still proved."""
        planted, folder, status, lines = self.check([bug], bug.function is not None)
        if not planted:
            return False, f"can't be made: {faults_of(bug.edit, self.sources)[0]}"
        if status == 0 and bug.function:
            _planted, folder, status, lines = self.check([bug], False)
        if status == 0:
            return False, "NOT REFUSED"
        reason = next(iter(goals(lines)), None)
        return (True, reason) if reason else (False, "for another reason: " + next(iter(places(lines)), lines[-2:][0]))

    def all(self, edits):
        """Each edit, whether it is refused, and what is said of it."""
        left = [Bug(self.sources, self.crate, edit) for edit in edits]
        while left:
            first = list({bug.function: bug for bug in reversed(left) if bug.is_of_one}.values())
            refused = self.together(first) if len(first) > 1 else {}
            for bug, reason in refused.items():
                yield bug.edit, True, reason
            left = [bug for bug in left if bug not in refused]
            if not refused:
                for bug in left:
                    yield bug.edit, *self.alone(bug)
                return


def try_edits(crates, crate, edits):
    """Prints what each edit of a crate comes to, and returns the name of the goal that refuses it, of each that is refused."""
    found = []
    with tempfile.TemporaryDirectory(prefix="must-fail-") as room:
        for edit, is_refused, said in Tries(crates, crate, room).all(edits):
            found += [goal_of(said)] if is_refused else []
            print(f"{crate}/{edit.stem}: {'refused: ' if is_refused else ''}{said[:200]}", flush=True)
    print(f"{crate}: {len(found)} of {len(edits)} planted bugs refused by a goal that became false", flush=True)
    return found


def main(crates, *names):
    edits = {name: sorted((TOP / ".ci" / "must-fail" / name).glob("*.edit")) for name in names}
    passed = [len(try_edits(crates, name, found)) == len(found) > 0 for name, found in edits.items()]
    return 0 if passed and all(passed) else 1


if __name__ == "__main__":
    sys.exit(main(*sys.argv[1:]))
