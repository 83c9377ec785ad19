#!/usr/bin/env python3
"""Holds what is said of the crates against the crates:

    .ci/definitions.py
    .ci/definitions.py --clauses   writes .ci/public_clauses.txt anew

.ci/public_clauses.txt has each public clause (docs/clauses.py says what that is) by crate, file, item and name, with its text, and each
definition that public clauses rest on: one that is added, deleted or changed shows there as a line. A public clause that names no
definition, or has a part that is `Unit`, says nothing, and is refused.
Each definition that a public clause names, or that such a definition rests on, has a comment of at least three words beside it. None of
them has a case that is `⊤`, which says nothing, but those that are listed below with the reason.
The book (docs/book.py) has no dead link, and each public item has its `///`.
Each crate has a README of at most 100 lines. Each committed document has at most the words of its kind by `wc -w`: README.md 1,300, a crate's
README 450, any other 2,200; and all together have at most 34,000.
The table of docs/STATION.md, under `## Timers`, has exactly the waits of each state that the definitions of
`crates/stations/specs/Waits.antt` have.
The table of docs/FAULTS.md has exactly the faults of the program: those of a whole file, of a bit and of a line by the kinds of
`FaultKind`, and those that the crates number beside them. The table in faxtool's help has the same but those that no command meets.
docs/TESTS.md, under `## Calls that take memory`, names a test for each of those calls, and the test makes it, itself or by what it calls.
Prints what is missing and ends with status 1, or prints one line of counts. .ci/test_checks.py sees each of these checks fail. It needs
Python's standard library alone."""

import collections
import hashlib
import re
import subprocess
import sys
from pathlib import Path

TOP = Path(__file__).resolve().parent.parent
sys.dont_write_bytecode = True
sys.path.insert(0, str(TOP / "docs"))
import book as books
from specs import WORD

KEPT_CLAUSES = TOP / ".ci" / "public_clauses.txt"
KEPT_HEADER = """\
# What is promised: each public clause, with its text, and each definition that these rest on. `.ci/definitions.py --clauses` writes it
# anew. A clause ends with the first digits of a SHA-256 of its text and of the full names of the definitions that it cites. A definition
# has those of its text, without comments, and of the full names that it rests on. Not here are definitions of the kit, signatures and types.
"""
LEAST_WORDS = 3
MOST_LINES = 100
MOST_WORDS = 34_000
# The most words of a document, by its path; of any other, those of a guide.
MOST_OF_A_PAGE = {r"README\.md": 1_300, r"crates/\w+/README\.md": 450}
MOST_OF_A_GUIDE = 2_200
# The definitions with cases that say nothing: how many, and why.
EMPTY_CASES = {
    ("page_code", "RowCoders", "HoldsBefore"): (1, "a one-dimensional row is coded without the row before it"),
    ("page_code", "RowReaders", "IsBefore"): (1, "a one-dimensional row is read without the row before it"),
}
STATION = TOP / "docs" / "STATION.md"
WAITS = TOP / "crates" / "stations" / "specs" / "Waits.antt"
WAIT_ROW = re.compile(r"^(caller|answerer)(?:_longer)?_wait (\w+) = (?:Some )?(T\d)$", re.M)
TIMERS = re.compile(r"^## Timers\n(.*?)(?=^## |\Z)", re.M | re.S)
FAULTS = TOP / "docs" / "FAULTS.md"
HELP = TOP / "crates" / "faxtool" / "src" / "args" / "fault_table.rt"
KINDS = TOP / "crates" / "faults" / "specs" / "FaultKinds.antt"
TESTS = TOP / "docs" / "TESTS.md"
AT_SIZE = re.compile(r"^## Calls that take memory\n(.*?)(?=^##|\Z)", re.M | re.S)
# The calls that take memory, by the crate that has them: what is public and can answer that memory was refused.
TAKE_MEMORY = {
    "raster": "Row::from_runs Row::runs RowRef::to_row Page::push_row Document::new Document::push read_pbm",
    "run_tables": "BitWriter::push BitWriter::write_run BitWriter::write_eol BitWriter::write_row_1d BitReader::read_row_1d",
    "page_code": "Coding::encode Coding::decode PageReader::read_on PageReader::finish",
    "hdlc": "write_frame Deframer::feed",
    "partial_page": "Blocks::cut BlockStore::put BlockStore::append_joined",
    "stations": "Caller::step Answerer::step",
    "line_sim": "World::new World::event World::polite run answer_stream",
    "page_files": "code_engine show_engine",
    "captures": "frames_engine",
    "calls": "call_engine",
}
# The line of what a station refuses, which is no `ToolFault`.
STATION_LINE = ("at a line", 31)


def named_clauses(crates):
    """Each public clause of the crates, and what it is called in the list."""
    for crate in crates.values():
        for file, clause in crate.clauses():
            yield clause, f"{crate.name} {file.relative_to(crate.folder / 'src')} {clause.owner}: {clause.kind} {clause.name}".rstrip()


def digits_of(text, keys):
    """The first digits of a sum of a text and of the full names that it cites."""
    return hashlib.sha256("\n".join([text, *sorted(".".join(key) for key in keys)]).encode()).hexdigest()[:12]


def promised(named, definitions):
    """The lines of the list, in order: of the public clauses, and of the definitions that they rest on."""
    clauses = ((name, " ".join(clause.text.split()), clause.cited) for clause, name in named)
    lines = [f"{name} {{ {text} }} {digits_of(text, cited)}" for name, text, cited in clauses]
    for each in definitions:
        place = each.file.relative_to(TOP / "crates" / each.crate)
        text = "\n".join(line.rstrip() for line in each.bare.splitlines() if line.strip())
        lines.append(f"{each.crate} {place} {each.name}: definition {digits_of(text, each.rests_on)}")
    return sorted(lines)


def promise_faults(promises, kept):
    """What is promised and not kept, and what is kept and not promised any more."""
    kept, now = collections.Counter(line for line in kept if not line.startswith("#")), collections.Counter(promises)
    yield from (f"{KEPT_CLAUSES.relative_to(TOP)} has, and the crates haven't: {line}" for line in sorted((kept - now).elements()))
    yield from (f"{KEPT_CLAUSES.relative_to(TOP)} hasn't, and the crates have: {line}" for line in sorted((now - kept).elements()))


def empty_clauses(named):
    """The public clauses that say nothing."""
    yield from (f"a public clause says nothing: {name}" for clause, name in named if clause.says_nothing)


def asked_of(crates, named):
    """The definitions that public clauses name."""
    asked = {key for clause, _ in named for key in clause.cited}
    return {(crate, module, name) for crate, module, name in asked if crate in crates and name in crates[crate].modules.get(module, ())}


def where(definition):
    """A definition by its file and line."""
    return f"{definition.file.relative_to(TOP)}:{definition.line}: `{definition.name}`"


def comment_faults(definitions):
    """The definitions without a comment of a few words."""
    for each in definitions:
        if len(re.findall(WORD, each.comment)) < LEAST_WORDS:
            yield f"{where(each)} has no comment of {LEAST_WORDS} words beside it, and a public clause rests on it"


def empty_faults(definitions):
    """The definitions with another number of empty cases than the list has."""
    for each in definitions:
        cases, (listed, _) = each.bare.count("⊤"), EMPTY_CASES.get(each.key, (0, ""))
        if cases != listed:
            yield f"{where(each)} has {cases} cases that are `⊤`, and {listed} in the list of .ci/definitions.py"


def documents():
    """The text of each committed document, by its path; of a source tarball, of each document that isn't built."""
    listed = subprocess.run(
        ["git", "-c", f"safe.directory={TOP}", "-C", str(TOP), "ls-files", "-z", "*.md"], capture_output=True, text=True, check=False
    )
    files = [TOP / name for name in listed.stdout.split("\0") if name]
    if listed.returncode:
        files = [file for file in TOP.rglob("*.md") if not {"out", "build", ".git"} & set(file.relative_to(TOP).parts)]
    return {str(file.relative_to(TOP)): file.read_text() for file in sorted(files) if file.is_file()}


def most_of(name):
    """The most words of the document of this path."""
    return next((most for pages, most in MOST_OF_A_PAGE.items() if re.fullmatch(pages, name)), MOST_OF_A_GUIDE)


def words_of(texts):
    """How many words documents have, split at white space as `wc -w` does; the bars of a table count too."""
    return sum(len(text.split()) for text in texts.values())


def document_faults(texts, crates):
    """The READMEs of crates that are missing or have too many lines, the documents with too many words, and too many words of all."""
    for name in crates:
        if f"crates/{name}/README.md" not in texts:
            yield f"crates/{name}/README.md is missing"
    for name, text in texts.items():
        lines = text.count("\n")
        if re.fullmatch(r"crates/\w+/README\.md", name) and lines > MOST_LINES:
            yield f"{name} has {lines} lines, more than {MOST_LINES}"
        if words_of({name: text}) > most_of(name):
            yield f"{name} has {words_of({name: text})} words, more than {most_of(name)}"
    if words_of(texts) > MOST_WORDS:
        yield f"the documents have {words_of(texts)} words, more than {MOST_WORDS}"


def timer_faults(waits, station):
    """The waits of a state that the table of timers and the definitions don't both have."""
    defined = {(who.capitalize(), state, wait) for who, state, wait in WAIT_ROW.findall(waits)}
    states = {state for _, state, _ in defined}
    section = TIMERS.search(station)
    told = set()
    for cells in (line.split("|") for line in (section[1] if section else "").splitlines() if re.match(r"\| (Caller|Answerer),", line)):
        named = [state for state in re.findall(r"`(\w+)`", cells[1]) if state in states]
        told.update((re.match(WORD, cells[1].strip())[0], state, cells[2].strip()) for state in named)
    for who, state, wait in sorted(defined ^ told):
        has, hasnt = (WAITS, STATION) if (who, state, wait) in defined else (STATION, WAITS)
        yield f"{has.relative_to(TOP)} has {wait} in {who}'s {state}, and {hasnt.relative_to(TOP)} hasn't"


def kinds_of_faults():
    """The kinds of faults that have a number, by what they are of: a whole file, a bit or a line."""
    text = KINDS.read_text()
    numbers = {kind: int(number) for kind, number in re.findall(r"^number_of (\w+) = (\d+)$", text, re.M)}
    lists = {name: re.findall(r"\w+", kinds) for name, kinds in re.findall(r"^(whole|page)_kinds = ((?:[\w∷]|\s)+?)∷ \[\]", text, re.M)}
    whole = {("", numbers.pop(kind)) for kind in lists["whole"]}
    page = {("at a bit", numbers.pop(kind)) for kind in lists["page"]}
    return whole | page | {("at a line", number) for number in numbers.values()}


def numbered_elsewhere():
    """The numbers that the crates below give to faults in a table of their specs."""
    tables = [file.read_text() for file in sorted(TOP.glob("crates/*/specs/Faults.antt"))]
    return {int(number) for text in tables for number in re.findall(r"^number_of \w+ = (\d+)$", text, re.M)}


def fault_faults(table, texts):
    """What the tables of faults, in docs/FAULTS.md and in faxtool's help, have that isn't of the kinds of faults, and what they haven't."""
    kinds = kinds_of_faults() | {STATION_LINE}
    rows = re.findall(r"^\| ([\d, ]+)(at a bit|at a line)? *\| ([^|]+) \|", table, re.M)
    written = {(place, int(number)): meets for numbers, place, meets in rows for number in numbers.split(",")}
    unmet = {fault for fault, meets in written.items() if meets == "no command"}
    beside = {("", number) for number in numbered_elsewhere()} & unmet
    parts = [(int(number), part) for number, text in re.findall(r"^ +(\d+)  (.*)$", texts, re.M) for part in text.split("; ")]
    helped = {(next((place for place in ("at a bit", "at a line") if part.startswith(f"{place}: ")), ""), number) for number, part in parts}
    found = [("docs/FAULTS.md", kinds | beside, set(written)), ("faxtool's help", kinds - unmet, helped)]
    return [
        f"{name}: the fault {' '.join([str(number), place]).rstrip()} is {'missing' if (place, number) in wanted else 'of no kind'}"
        for name, wanted, has in found
        for place, number in sorted(wanted ^ has)
    ]


def functions_of(source):
    """The text of each function of a formatted source, and the names of its tests."""
    found = dict(re.findall(r"^(?:pub )?fn (\w+)(.*?^\}$)", source, re.M | re.S))
    return found, set(re.findall(r"^#\[test\]\n(?:pub )?fn (\w+)", source, re.M))


def reached_in(functions, name):
    """The text of a function and of all of its source that it calls, directly or not."""
    names = [name]
    for each in names:
        names += [other for other in functions if other not in names and re.search(rf"\b{other}\(", functions[each])]
    return "\n".join(functions[each] for each in names)


def makes(text, call):
    """Whether a text has a call of a function or of a method of a type."""
    owner, _, name = call.rpartition("::")
    return bool(re.search(rf"(\.|\b{owner}::){name}\(" if owner else rf"(?<![\w.:]){name}\(", text))


def at_size_faults(proof, source_of):
    """The calls that take memory and have no test in the table, and the rows whose test isn't there or doesn't make its calls."""
    section = AT_SIZE.search(proof)
    rows = re.findall(r"^\| (`.*`) \| `(\w+) (\w+)::(\w+)` \|$", section[1] if section else "", re.M)
    told = [(call, *test) for calls, *test in rows for call in re.findall(r"`([\w:]+)`", calls)]
    for call in sorted({call for calls in TAKE_MEMORY.values() for call in calls.split()} - {row[0] for row in told}):
        yield f"docs/TESTS.md has no test of `{call}` under `Calls that take memory`"
    for call, crate, module, test in told:
        functions, tests = functions_of(source_of(crate, module))
        if test not in tests:
            yield f"docs/TESTS.md names the test `{crate} {module}::{test}`, which isn't there"
        elif not makes(reached_in(functions, test), call):
            yield f"docs/TESTS.md: the test `{crate} {module}::{test}` doesn't call `{call}`"


def test_source(crate, module):
    """The text of a module of a crate of tests; of none, nothing."""
    file = TOP / "crates" / crate / "src" / f"{module}.rt"
    return file.read_text() if file.is_file() else ""


def main(words):
    if words not in ([], ["--clauses"]):
        print(__doc__)
        return 2
    book = books.Book()
    named = list(named_clauses(book.crates))
    asked = asked_of(book.crates, named)
    reached = [book.specs.definitions[key] for key in sorted(book.specs.reached_from(asked))]
    promises = promised(named, reached)
    if words:
        KEPT_CLAUSES.write_text(KEPT_HEADER + "".join(f"{line}\n" for line in promises))
    texts = documents()
    pages, faults = books.faults_of(book)
    faults += promise_faults(promises, KEPT_CLAUSES.read_text().splitlines())
    faults += empty_clauses(named)
    faults += comment_faults(reached)
    faults += empty_faults(reached)
    faults += document_faults(texts, book.crates)
    faults += timer_faults(WAITS.read_text(), STATION.read_text())
    faults += fault_faults(FAULTS.read_text(), HELP.read_text())
    faults += at_size_faults(TESTS.read_text(), test_source)
    for fault in faults:
        print(f"definitions: {fault}")
    if faults:
        print("definitions: --clauses writes the list of what is promised anew")
        return 1
    print(
        f"definitions: {len(named)} public clauses name {len(asked)} definitions and rest on {len(reached)} of "
        f"{len(book.specs.definitions)}; the book has {len(pages)} pages; {len(texts)} documents have {words_of(texts)} words"
    )
    return 0


if __name__ == "__main__":
    sys.exit(main(sys.argv[1:]))
