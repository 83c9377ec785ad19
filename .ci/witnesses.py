#!/usr/bin/env python3
"""Sees that what the laws ask for is given somewhere, and that what a law speaks of in general is what runs:

    .ci/witnesses.py

A law whose premise never holds says nothing, and its proof stays as it is. So each record that a law of a `laws.rt` has as a premise, or
that such a premise rests on, is also given: by a clause of a function that runs, or by a law that doesn't have it as a premise. A premise
is what stands before an arrow; of what is given, that which the same clause asks for doesn't count.
A law of every type with a trait says nothing of a type without it. So each `impl` of a trait that a law quantifies over is of a type
that a law's definitions name.
A premise that nothing gives yet is listed below, with the reason; an entry that isn't needed any more is refused. Prints what is missing and
ends with status 1, or prints one line of counts. .ci/test_checks.py sees each check fail. It needs Python's standard library alone."""

import re
import sys
from pathlib import Path

TOP = Path(__file__).resolve().parent.parent
sys.dont_write_bytecode = True
sys.path.insert(0, str(TOP / "docs"))
import book as books
from specs import WORD

# Premises that no clause gives yet.
NOT_GIVEN = {
    ("joined_terminals", "Answered", "AnswererHasNoMemory"): "memory is refused while a line is taken: tests alone refuse it",
    ("joined_terminals", "Answered", "CallerHasNoMemory"): "the same, of a caller",
    ("line_sim", "Tolerance", "CanBear"): "what a call needs to bear losses: no function checks it before a call",
    ("line_sim", "Tolerance", "CanGoThrough"): "a part of that",
    ("signals", "BitNumbers", "IsOctetOf"): "a control field's octet by its bits as text: the rows of ControlRows are octets",
    ("stations", "Sizes", "IsPlaced"): "kept by each step: no clause says it of a new caller",
}
RECORD = re.compile(rf"(?:\w+ )*record ({WORD})(.*?): Type \d+ where", re.S)
FIELD = re.compile(rf"^\s*(?:pub )?(?:{WORD}\s+)+:(?=\s)", re.M)
IMPL = re.compile(r"^impl\b(?:<[^{]*?>)? (\w+)(?:<[^{]*?>)? for (\w+)", re.M)
VALUE = re.compile(r"\bimpl\b[^{]*\bModel for (\w+)[^{]*\{[^}]*?\bghost Value = \{ (\w+)")
BOUND = re.compile(r"\b[A-Z]\w*: (\w+)")


def segments(text):
    """The parts of a type between its arrows, outside of brackets."""
    parts, depth, last = [], 0, 0
    for found in re.finditer(r"[({\[]|[)}\]]|→", text):
        depth += {"(": 1, "{": 1, "[": 1, ")": -1, "}": -1, "]": -1}.get(found[0], 0)
        if found[0] == "→" and not depth:
            parts.append(text[last : found.start()])
            last = found.end()
    return [*parts, text[last:]]


def bodies(definition):
    """What a definition says: the types of a record's fields, or the right sides of its equations."""
    if RECORD.match(definition.bare):
        fields = definition.bare.partition(" where\n")[2]
        return [FIELD.sub("", field, count=1) for field in re.split(r"\n(?=  (?:pub )?\w[\w']* :)", fields) if field.strip()]
    return re.split(rf"^{re.escape(definition.name)}(?=[ \n]).*?=(?=\s)", definition.bare, flags=re.M)[1:]


def is_statement(definition):
    """A record of statements has parameters that are values; one without is a value itself."""
    found = RECORD.match(definition.bare)
    return bool(found) and any(": Type" not in bound for bound in re.findall(r"\(([^()]*)\)", found[2]))


class Promises:
    """The definitions with what each gives and asks for."""

    def __init__(self, specs):
        self.specs, self.reached, self.parts = specs, {}, {}

    def names_in(self, definition, text):
        names = self.specs.modules[(definition.crate, definition.module)].names
        return {self.specs.found(names[word]) for word in re.findall(rf"(?<![\w.'])({WORD})", text) if word in names} - {None}

    def reached_from(self, key):
        if key not in self.reached:
            self.reached[key] = self.specs.reached_from([key])
        return self.reached[key]

    def parts_of(self, key):
        """Of each body of a definition what it gives, and what it asks for."""
        if key not in self.parts:
            definition, self.parts[key] = self.specs.definitions[key], []
            for body in bodies(definition):
                *premises, conclusion = segments(body)
                asked = set().union(*(self.names_in(definition, premise) for premise in premises))
                self.parts[key].append((self.names_in(definition, conclusion), asked))
        return self.parts[key]

    def given_by(self, cited):
        """What clauses that cite these definitions give, and what they ask for."""
        given, asked = set(), set()
        for start in cited:
            seen, waiting = {}, [(start, frozenset())]
            while waiting:
                key, assumed = waiting.pop()
                if key in assumed or any(less <= assumed for less in seen.get(key, ())):
                    continue
                seen.setdefault(key, []).append(assumed)
                given.add(key)
                for gives, asks in self.parts_of(key):
                    asked |= asks
                    more = assumed.union(*map(self.reached_from, asks))
                    waiting += [(each, more) for each in gives]
        return given, asked


def is_law(crate, file):
    return "laws" in file.relative_to(crate.folder / "src").with_suffix("").parts


def cited_by(crates, specs):
    """The definitions that clauses of laws cite, and those that clauses of other functions promise."""
    laws, others = set(), set()
    for crate in crates.values():
        for file, clause in crate.clauses():
            cited = {specs.found(key) for key in clause.cited} - {None}
            if is_law(crate, file):
                laws |= cited
            elif clause.kind != "requires":
                others |= cited
    return laws, others


def premise_faults(specs, laws, others, listed):
    """The premises of laws that nothing gives, and the entries of the list that aren't needed."""
    promises = Promises(specs)
    given, asked = promises.given_by(laws)
    given |= promises.given_by(others)[0]
    lacking = {key for key in specs.reached_from(asked) if is_statement(specs.definitions[key])} - given
    yield from (f"{'.'.join(key)} is a premise of laws, and no clause gives it" for key in sorted(lacking - listed.keys()))
    yield from (f"{'.'.join(key)} is given, and is in the list of .ci/witnesses.py" for key in sorted(listed.keys() - lacking))


def trait_faults(crates, specs, laws):
    """The types with a trait that laws quantify over of which no law speaks, by the name of the type or of its value in definitions."""
    texts = {file: file.read_text() for crate in crates.values() for file in sorted((crate.folder / "src").rglob("*.rt"))}
    of_laws = [text for file, text in texts.items() if "laws" in (file.stem, file.parent.name)]
    traits = {bound for text in of_laws for header in re.findall(r"\bfn \w+<(.*?)>\(", text) for bound in BOUND.findall(header)}
    meant = {name for key in specs.reached_from(laws) for name in re.findall(WORD, specs.definitions[key].bare)}
    found = {pair for text in texts.values() for pair in IMPL.findall(text)}
    values = {of: value for text in texts.values() for of, value in VALUE.findall(re.sub(r"ghost use [^;]*;", "", text))}
    for trait, of in sorted(found):
        if trait in traits and not {of, values.get(of, of)} & meant:
            yield f"no law speaks of {of} as a {trait}, over which laws quantify"


def main():
    book = books.Book()
    laws, others = cited_by(book.crates, book.specs)
    faults = [*premise_faults(book.specs, laws, others, NOT_GIVEN), *trait_faults(book.crates, book.specs, laws)]
    for fault in faults:
        print(f"witnesses: {fault}")
    if not faults:
        print(f"witnesses: {len(laws)} definitions of laws; {len(NOT_GIVEN)} premises that no clause gives yet")
    return 1 if faults else 0


if __name__ == "__main__":
    sys.exit(main())
