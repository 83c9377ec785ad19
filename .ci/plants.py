"""The record of the planted bugs that the gate doesn't try, in docs/PLANTS.md: what `make plants` writes there, and what the gate holds
against the sources."""
import collections
import re
import subprocess
from pathlib import Path

TOP = Path(__file__).resolve().parent.parent
PAGE = TOP / "docs" / "PLANTS.md"
EDITS = TOP / "bench" / "plant" / "edits"
OF_THE_GATE = TOP / ".ci" / "must-fail"
PARTS = ("src", "specs", "proofs")
RECORD = re.compile(r"(<!-- written: record -->\n).*?(\n<!-- end -->)", re.S)
# A line of the record, which has few words: the documents may have so many together.
FORM = "{:17}{:23}{:13}{}"
HEADER = FORM.format("crate", "commit/day", "bugs+rows", "goals that became false")
ROW = re.compile(r"^(\w+) +(\w+)/(\d{4}-\d\d-\d\d) +(\d+)/(\d+)\+(\d+)/(\d+) +(\S+)$", re.M)
# All bugs of bench/plant/edits take an hour on four processors; more would be tried less often. Of each crate those are there that tell most.
MOST_EDITS, OF_A_CRATE = 200, range(5, 11)
# Crates of tests, of proved examples, and of a program for the gate: no product calls them.
OF_TESTS = re.compile(r"\w+_tests|uses|stream_tool")
# The crate that changes most had 25 commits on its busiest day, others a third of that: a record is then some days old at most, and a
# bug that slipped through since is found while it is known who made the change.
MOST_COMMITS = 30
MOST_LINES = 60
# The crates whose sources wrong_definitions.py changes, or proves anew.
CALL = ("signals", "partial_page", "stations", "line_sim")
ALIKE = re.compile(r"^Wrong in code and definition alike: (\d+)/(\d+) (\w+)/[\d-]+$", re.M)
NUMBERS = {word: number for number, word in enumerate("one two three four five six seven eight nine ten".split(), 1)} | {"a": 1}

Row = collections.namedtuple("Row", "crate commit date refused edits rows_refused rows goals")


def rows_of(text):
    """The rows of a record, by their crate."""
    found = (Row(name, commit, date, *map(int, counts), goals) for name, commit, date, *counts, goals in ROW.findall(text))
    return {row.crate: row for row in found}


def line_of(row):
    """The line of a row."""
    counts = f"{row.refused}/{row.edits}+{row.rows_refused}/{row.rows}"
    return FORM.format(row.crate, f"{row.commit}/{row.date}", counts, row.goals)


def goals_told(goals):
    """The names of goals with how often each refused something, the most first; of more than six the others as one."""
    counts = sorted(collections.Counter(goals).items(), key=lambda pair: (-pair[1], pair[0]))
    others = sum(count for _name, count in counts[6:])
    told = counts[:6] + ([("others", others)] if others else [])
    return ",".join(f"{name.replace(' ', '_')}:{count}" for name, count in told) or "none"


def written(text, rows, alike=None):
    """A page with these rows in place of those of the same crates, and with what is told of bodies wrong in code and definition alike."""
    kept = {**rows_of(text), **{row.crate: row for row in rows}}
    told = ALIKE.search(text)
    last = alike or (told[0] if told else "")
    lines = ["```text", HEADER, *(line_of(kept[name]) for name in sorted(kept)), "```"] + (["", last] if last else [])
    return RECORD.sub(lambda found: found[1] + "\n" + "\n".join(lines) + "\n" + found[2], text)


def alike_told(refused, bodies, commit, date):
    """The line of the record of bodies that are wrong in code and definition alike."""
    return f"Wrong in code and definition alike: {refused}/{bodies} {commit}/{date}"


def git(*words):
    """What git says of the repository; None where it isn't one, or where it fails."""
    ran = subprocess.run(["git", "-c", f"safe.directory={TOP}", "-C", str(TOP), *words], capture_output=True, text=True, check=False)
    return ran.stdout.strip() if ran.returncode == 0 else None


def sources(crate):
    return [f"crates/{crate}/{part}" for part in PARTS]


def last_change(*crates):
    """The last commit that changed the sources of one of these crates. It stays in the history, whatever becomes of commits of a record."""
    return git("log", "-1", "--abbrev=10", "--format=%h", "--", *(part for crate in crates for part in sources(crate)))


def commits_since(commit, crate):
    """How many commits have changed a crate's sources since this one; None if the history hasn't it."""
    count = git("rev-list", "--count", f"{commit}..HEAD", "--", *sources(crate))
    return None if count is None else int(count)


def changed(crate):
    """Whether a crate's sources, or its planted bugs, are other than in the last commit."""
    return bool(git("status", "--porcelain", "--", *sources(crate), f"bench/plant/edits/{crate}"))


def faults(text, edits, wrong_rows, since):
    """What is wrong with a record: `edits` and `wrong_rows` say how many bugs of each crate are there, and how many wrong rows of its tables;
    `since` counts the commits since one."""
    if sum(edits.values()) > MOST_EDITS:
        yield f"bench/plant/edits has {sum(edits.values())} bugs, more than {MOST_EDITS}"
    lines = RECORD.search(text)
    if not lines or lines[0].count("\n") > MOST_LINES:
        yield f"docs/PLANTS.md has no record, or one of more than {MOST_LINES} lines"
    rows = rows_of(text)
    for crate, count in edits.items():
        row, wrong = rows.get(crate), wrong_rows.get(crate, 0)
        if count not in OF_A_CRATE:
            yield f"bench/plant/edits/{crate} has {count} bugs, and a crate has {OF_A_CRATE[0]} to {OF_A_CRATE[-1]}"
        if not row:
            yield f"docs/PLANTS.md has no row of {crate}"
        elif (row.refused, row.edits, row.rows_refused, row.rows) != (count, count, wrong, wrong):
            yield (f"docs/PLANTS.md: of {crate}'s {count} planted bugs {row.refused} of {row.edits} were refused, "
                   f"and of its {wrong} wrong rows {row.rows_refused} of {row.rows}")
        elif (commits := since(row.commit, crate)) is None:
            yield f"docs/PLANTS.md: the history has no commit {row.commit}, of {crate}"
        elif commits > MOST_COMMITS:
            yield f"docs/PLANTS.md: {commits} commits have changed {crate} since its planted bugs were tried, more than {MOST_COMMITS}"


def alike_faults(text, bodies, since):
    """What is wrong with the record of bodies that are wrong in code and definition alike, of which there are so many."""
    told = ALIKE.search(text)
    if not told or (int(told[1]), int(told[2])) != (bodies, bodies):
        yield f"docs/PLANTS.md: {told[1] if told else 0} of {bodies} bodies that are wrong in code and definition alike were refused"
        return
    for crate in CALL:
        if (commits := since(told[3], crate)) is None:
            yield f"docs/PLANTS.md: the history has no commit {told[3]}, of wrong definitions"
        elif commits > MOST_COMMITS:
            yield f"docs/PLANTS.md: {commits} commits have changed {crate} since wrong definitions were tried, more than {MOST_COMMITS}"


def wrong_bodies(text):
    """The rows of the table of wrong bodies, and of each that is one its bug, function and clause."""
    rows = re.search(r"^\| Wrong body \|.*\n\|[-|]+\n((?:\|.*\n)+)", text, re.M)
    lines = rows[1].splitlines() if rows else []
    return lines, [row for line in lines for row in re.findall(r"^\| .* \| `(\w+/\w+)` \| `([\w:]+)` \| `(\w+)` \|$", line)]


def named_faults(text, is_there):
    """The bugs of the gate that the table of wrong bodies names and that aren't there."""
    lines, named = wrong_bodies(text)
    if len(named) != len(lines) or not named:
        yield "docs/PLANTS.md: a wrong body without a bug, a function and a clause"
    yield from (f"docs/PLANTS.md names {bug}, which isn't in .ci/must-fail" for bug, _function, _clause in named if not is_there(bug))


def counts_told(text):
    """The numbers of crates that a document says the gate's planted bugs are of, and how many hundred wrong definitions it says there are."""
    crates = re.findall(r"plants\s+bugs\s+in\s+(\w+)\s+crates|must-fail/X`,\s+of\s+(\w+)\s+crates", text)
    hundreds = re.findall(r"over\s+(\w+)\s+hundred\s+wrong\s+definitions", text)
    return {NUMBERS.get("".join(word)) for word in crates}, {NUMBERS.get(word) for word in hundreds}


def count_faults(texts, crates, definitions):
    """The documents, by name, that say another number of crates, or of hundreds of wrong definitions, than there are."""
    for name, text in texts.items():
        told = counts_told(text)
        if told[0] - {crates} or told[1] - {definitions // 100}:
            yield f"{name}: the gate's planted bugs are of {crates} crates, and there are {definitions} wrong definitions"
    if not any(counts_told(text)[0] for text in texts.values()):
        yield "no document says of how many crates the gate's planted bugs are"


def edits_here():
    """How many planted bugs each crate has that the gate doesn't try, also one that has none; without crates of tests."""
    crates = re.findall(r"^(\w+).*:", (TOP / "crates.txt").read_text(), re.M)
    names = {*(name for name in crates if not OF_TESTS.fullmatch(name)), *(folder.name for folder in EDITS.iterdir())}
    return {name: len(list((EDITS / name).glob("*.edit"))) for name in sorted(names)}


def faults_here(wrong_rows, bodies):
    """What is wrong with the record of this repository; of a tree without history, nothing. `wrong_rows` is how many each crate has, and
    `bodies` how many there are that are wrong in code and definition alike."""
    named = list(named_faults(PAGE.read_text(), lambda bug: (OF_THE_GATE / f"{bug}.edit").is_file()))
    if git("rev-parse", "HEAD") is None:
        return named
    text = PAGE.read_text()
    found = list(faults(text, edits_here(), wrong_rows, commits_since))
    if ALIKE.search(text):
        found += alike_faults(text, bodies, commits_since)
    return named + [f"{fault}; make plants tries them" for fault in found]
