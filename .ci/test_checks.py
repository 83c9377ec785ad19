#!/usr/bin/env python3
"""Sees each check of .ci/definitions.py, .ci/witnesses.py, .ci/house.py, .ci/cited.py, .ci/told.py, docs/book.py and docs/man/make_library.py
refuse what it is there for, by a change of what it reads:

    .ci/test_checks.py

Nothing is written. Ends with status 1 at the first change that isn't refused. It needs Python's standard library alone."""

import copy
import sys
from pathlib import Path

sys.dont_write_bytecode = True
sys.path.append(str(Path(__file__).resolve().parent.parent / "docs" / "man"))
import cited
import definitions as checks
import edits
import house
import make_library
import told
import witnesses as given

import no_memory
import refuted
import wrong_definitions

books = checks.books
BOOK = books.Book()
NAMED = list(checks.named_clauses(BOOK.crates))
REACHED = BOOK.specs.reached_from(checks.asked_of(BOOK.crates, NAMED))
BORNE = BOOK.specs.definitions[("line_sim", "Tolerance", "AnyTwoLossesAreBorne")]


def refuses(name, check, sound, wrong, text):
    """The check has more to say of what is wrong than of what is sound, and it names the text."""
    before, after = set(check(sound)), set(check(wrong))
    if not any(text in fault for fault in after - before):
        sys.exit(f"test_checks: {name} isn't refused")
    return name


def changed(value, **fields):
    """A copy with other fields."""
    other = copy.copy(value)
    for name, field in fields.items():
        setattr(other, name, field)
    return other


def comments():
    """A comment that is taken out, one of two words, and an empty case."""
    check = checks.comment_faults
    assert BORNE.key in REACHED
    yield refuses("a definition without a comment", check, [BORNE], [changed(BORNE, comment="")], BORNE.name)
    yield refuses("a comment of two words", check, [BORNE], [changed(BORNE, comment="is borne")], BORNE.name)
    case = changed(BORNE, lines=["AnyTwoLossesAreBorne = ⊤"])
    yield refuses("an empty case", checks.empty_faults, [BORNE], [case], BORNE.name)
    stops = BOOK.specs.definitions[("conversations", "Conversing", "StopsSo")]
    more = changed(stops, lines=[*stops.lines, "StopsSo t old new other = ⊤"])
    yield refuses("one empty case more than is listed", checks.empty_faults, [stops], [more], "StopsSo")


def is_one_line(name, kept, anew):
    """Once the list is written anew nothing is refused, and one line of it has changed, that of this name."""
    assert not list(checks.promise_faults(anew, anew))
    changes = sorted({*kept} ^ {*anew})
    assert len(kept) == len(anew) and len(changes) == 2 and all(line.startswith(f"{name} ") for line in changes), changes


def clauses():
    """A clause that is added, one that is taken away, one that is weaker under its name, or cites another definition under the same name,
    and one that says nothing; and a definition that is weaker, or rests on another one."""
    definitions = [BOOK.specs.definitions[key] for key in sorted(REACHED)]
    kept = checks.promised(NAMED, definitions)

    def check(named):
        return checks.promise_faults(checks.promised(named, definitions), kept)

    def check_definitions(others):
        return checks.promise_faults(checks.promised(NAMED, others), kept)

    clause, name = next(pair for pair in NAMED if pair[1].endswith("calls_bear: ensures two"))
    without = [pair for pair in NAMED if pair[0] is not clause]
    yield refuses("a clause that is gone", check, NAMED, without, name)
    older = [line for line in kept if not line.startswith(f"{name} ")]
    yield refuses("a clause that is new", lambda lines: checks.promise_faults(kept, lines), kept, older, name)
    for title, other in [
        ("a weaker clause", changed(clause, text=f"{clause.text} ⊎ (two ≡ two)")),
        ("a clause that cites another definition", changed(clause, cited=[("line_sim", "Elsewhere", key[2]) for key in clause.cited])),
    ]:
        named = [*without, (other, name)]
        yield refuses(title, check, NAMED, named, f"hasn't, and the crates have: {name}")
        is_one_line(name, kept, checks.promised(named, definitions))
    empty = [*without, (changed(clause, text="Unit"), name)]
    yield refuses("a clause that is Unit", checks.empty_clauses, NAMED, empty, "says nothing")
    rest = [each for each in definitions if each.key != BORNE.key]
    line = "line_sim specs/Tolerance.antt AnyTwoLossesAreBorne: definition"
    for title, other in [
        ("a weaker definition", changed(BORNE, lines=[*BORNE.lines, "    ⊎ ⊤"])),
        ("a definition that rests on another one", changed(BORNE, rests_on={*BORNE.rests_on, ("line_sim", "Elsewhere", "IsBorne")})),
    ]:
        yield refuses(title, check_definitions, definitions, [*rest, other], f"hasn't, and the crates have: {line}")
        is_one_line(line, kept, checks.promised(NAMED, [*rest, other]))
    comment = changed(BORNE, lines=["-- Another comment.", *BORNE.lines])
    assert not list(check_definitions([*rest, comment]))


def documents():
    """A README of 101 lines, one that is missing, a page of each kind and all of them with a word too many, and a bar of a table too many."""
    def check(texts):
        return checks.document_faults(texts, ["hdlc"])

    short = {"crates/hdlc/README.md": 100 * "\n"}
    yield refuses("a README of 101 lines", check, short, {"crates/hdlc/README.md": 101 * "\n"}, "101 lines")
    yield refuses("a crate without a README", check, short, {}, "is missing")
    guides = ["docs/USING.md", "docs/examples/README.md", "bindings/README.md", "packaging/README.md", "CONTRIBUTING.md", "CHANGELOG.md"]
    for name, most in [("README.md", 1300), ("crates/hdlc/README.md", 450), *((guide, 2200) for guide in guides)]:
        full = {**short, name: most * "word "}
        assert not list(check(full))
        yield refuses(f"a word too many in {name}", check, full, {**full, name: (most + 1) * "word "}, f"{name} has {most + 1} words")
        yield refuses(f"a bar of a table too many in {name}", check, full, {**full, name: most * "word " + "|"}, f"{name} has {most + 1} words")
    words = {f"docs/{number}.md": 1000 * "word " for number in range(34)}
    yield refuses("a word too many in all", check, words, {**words, "docs/USING.md": "word\n"}, "the documents have 34001 words")


def tables():
    """A row of the timers and one of the faults that are taken out."""
    waits = checks.WAITS.read_text()
    rows = [f"| {who.capitalize()}, (`{state}`) | {wait} |" for who, state, wait in checks.WAIT_ROW.findall(waits)]

    def table(lines):
        return "# Lines\n\n## Timers\n\n" + "\n".join(lines) + "\n"

    yield refuses("a timer that is missing", lambda text: checks.timer_faults(waits, text), table(rows), table(rows[1:]), "hasn't")
    yield refuses("timers of another section", lambda text: checks.timer_faults(waits, text), table(rows), "\n".join(rows), "hasn't")
    faults, helped = checks.FAULTS.read_text(), checks.HELP.read_text()
    row = next(line for line in faults.splitlines() if line.startswith("| 12 "))
    yield refuses("a fault that is missing", lambda text: checks.fault_faults(text, helped), faults, faults.replace(row + "\n", ""), "12")


def at_size():
    """A call without a row, a test that isn't there, one that doesn't call what its row says, and one in which a function does no more."""
    proof, source_of = checks.TESTS.read_text(), checks.test_source
    assert not list(checks.at_size_faults(proof, source_of))

    def check(text):
        return checks.at_size_faults(text, source_of)

    def check_sources(old, new):
        return checks.at_size_faults(proof, lambda crate, module: source_of(crate, module).replace(old, new))

    yield refuses("a call without a test", check, proof, proof.replace("`World::new`, `World::polite`", "`World::new`"), "no test of `World::polite`")
    yield refuses("calls that no table has", check, proof, proof.replace("## Calls that take memory", "## Calls"), "no test of `run`")
    yield refuses("a test that isn't there", check, proof, proof.replace("sizes::runs_over", "sizes::run_over"), "isn't there")
    yield refuses("a function that is no test", check, proof, proof.replace("runs_over_257_blocks", "run_over"), "isn't there")
    other = proof.replace("rows::a_row_of_single_pixels_has_2432_runs", "rows::changes_come_back")
    yield refuses("a test that makes another call", check, proof, other, "doesn't call `Row::runs`")
    change = "world.polite(100_000)?", "100_000"
    yield refuses("a call that a test makes no more", lambda pair: check_sources(*pair), ("", ""), change, "doesn't call `World::polite`")
    change = "told(&run(alloc, document, WISH, CAPS, events)?)", "told(&rerun(alloc, document, WISH, CAPS, events)?)"
    yield refuses("a call of another name", lambda pair: check_sources(*pair), ("", ""), change, "doesn't call `run`")


def links():
    """A dead link, a missing `///`, and a guarantee that names what isn't there."""
    pages = BOOK.pages()
    anchor = f' id="{books.definition_id(BORNE.key)}"'
    lost = {**pages, "line_sim.html": pages["line_sim.html"].replace(anchor, "")}
    yield refuses("a dead link", lambda own: books.dead_links(own, BOOK.top, BOOK.sources), pages, lost, BORNE.name)
    away = {**pages, "index.html": pages["index.html"] + '<a href="../../crates/no_crate/src/lib.rt#L1">'}
    yield refuses("a link to no file", lambda own: books.dead_links(own, BOOK.top, BOOK.sources), pages, away, "no_crate")
    item = next(item for item in BOOK.items["line_sim"] if item.path == "World::report")
    bare = changed(BOOK, items={"line_sim": [changed(item, doc="")]})
    yield refuses("a public item without a ///", books.item_faults, BOOK, bare, "World::report")

    def check(cell):
        book = changed(BOOK, faults=[])
        book.guarantee_cell(cell)
        return book.faults

    there = "[`calls_bear`](crates/line_sim/src/laws.rt): `two`"
    yield refuses("a guarantee of no item", check, there, there.replace("calls_bear", "calls_lose"), "calls_lose")
    yield refuses("a guarantee of no clause", check, there, there.replace("two", "three"), "three")


def witnesses():
    """A premise that nothing gives any more, an entry of the list that isn't needed, and a type of which no law speaks."""
    laws, others = given.cited_by(BOOK.crates, BOOK.specs)
    coming = {key for key in laws | others if key[1] in ("Coming", "WholeCall")}

    def premises(without, listed=given.NOT_GIVEN):
        return given.premise_faults(BOOK.specs, laws - without, others - without, listed)

    yield refuses("a premise that nothing gives", premises, set(), coming, "PieceComes")
    entry = {**given.NOT_GIVEN, ("joined_terminals", "Octets", "PieceComes"): "it is given"}
    yield refuses("a premise that is given", lambda listed: premises(set(), listed), given.NOT_GIVEN, entry, "PieceComes")
    dialled = {key for key in laws if key[2] in ("DialledAnswer", "NoneIsWithheld")}
    yield refuses("a keeper of no law", lambda own: given.trait_faults(BOOK.crates, BOOK.specs, own), laws, laws - dialled, "Confirmed")


# A function that is as it should be, and texts that break one rule of the house each: the path, the text and what is named. `BODY` are 41
# lines, `WIDE` are 101 columns, `LONG` 201 characters.
FINE = "/// Returns one.\nfn one(a: u8) -> u8\n    ensures { result ≡ 1 }\n{\n    1\n}\n"
BODY, WIDE, LONG = 41 * "    1;\n", "x" * 79, "x " * 101
OF_HOUSE = {
    "long-functions": [("crates/hdlc/src/a.rt", f"fn one() {{\n{BODY}}}\n", "one"), ("docs/a.py", f"def one():\n{BODY}", "one")],
    "long-files": [("crates/hdlc/specs/A.antt", 801 * "\n", "A.antt"), ("docs/a.sh", 801 * "\n", "a.sh")],
    "many-parameters": [("crates/hdlc/src/a.rt", "fn one(&self, a: (u8, u8), b: T<u8, u8>, c: fn(u8, u8) -> u8, d: u8, e: u8) {\n}\n", "one")],
    "wide-clauses": [("crates/hdlc/src/a.rt", f"fn one()\n    ensures given {{ {WIDE} }}\n{{\n}}\n", "one: ensures given")],
    "long-clauses": [("crates/hdlc/src/a.rt", f"fn one()\n    ensures given {{\n{LONG.replace(' ', chr(10))} }}\n{{\n}}\n", "one: ensures given")],
    "participle-modules": [("crates/hdlc/src/giving.rt", FINE, "giving.rt"), ("crates/hdlc/src/told.rt", FINE, "told.rt")],
    "double-types": [("crates/hdlc/src/a.rt", "struct Kind;\n", "Kind: hdlc raster")],
    "lone-pubs": [("crates/hdlc/src/a.rt", "impl Line {\n    pub fn two() {\n    }\n}\n", "Line::two")],
    "verbless-comments": [
        ("crates/hdlc/src/a.rt", "/// The one after `is`.\nfn two() {\n}\n", "two"),
        ("crates/hdlc/src/a.rt", "/// Whether it is one.\nfn two() {\n}\n", "two"),
        ("crates/hdlc/src/a.rt", "/// What is told of one.\nfn two() {\n}\n", "two"),
    ],
    "fault-wordings": [
        ("docs/FAULTS.md", "| 10 at a bit | `show` | Nothing begins. |\n", "10: Nothing begins."),
        ("crates/hdlc/src/fault.rt", '#[error("none")]\n    A,\n        F::A => 10,\n', "10: none"),
        ("crates/faxtool/src/args/fault_table.rt", "  10  at a bit: nothing\n", "10: at a bit: nothing"),
        ("crates/faults/specs/FaultKinds.antt", 'number_of A = 10\nwords_of A = codes "nothing"\n', "10: nothing"),
    ],
    "speed-tables": [
        ("crates/hdlc/src/a.rt", 'fn two() {\n    ["v27-2400", "v27-4800", "V.29 7200", "v17-14400"]\n}\n', "two"),
        ("bindings/a.c", 'const char *two(int a)\n{\n    return "v27-2400" "v27-4800" "V.29 7200" "v17-14400";\n}\n', "two"),
    ],
    "idle-derives": [("crates/hdlc/src/a.rt", "#[derive(Debug, PartialEq)]\nstruct Line;\n", f"Line: {kind}") for kind in ("Debug", "PartialEq")],
    "spelled-octets": [("crates/hdlc/specs/A.antt", "  pub one : x ≡\n" + " ∷ ".join(f"0x{ord(it):X}" for it in "nothing is") + "\n", "A.antt one")],
}


def of_house():
    """Each rule of the house broken once; a definition that loses who names it; a list with a count that grew, or fell; and a script."""
    sound = {"crates/hdlc/src/one.rt": FINE, "crates/raster/src/kind.rt": "enum Kind {\n}\n"}
    for rule, texts in OF_HOUSE.items():
        assert not list(house.RULES[rule](house.House(sound))), rule
        for path, text, name in texts:
            yield refuses(f"{rule}: {path}", house.RULES[rule], house.House(sound), house.House({**sound, path: text}), name)
    here = house.house_here()
    tables = {path: text for path, text in here.texts.items() if path.startswith("crates/run_tables/")}
    less = house.House({path: text for path, text in tables.items() if not path.endswith("/laws.rt")})
    yield refuses("a definition that proofs alone name", house.definitions_of_proofs, house.House(tables), less, "run_tables")
    least = house.House({path: text for path, text in less.texts.items() if "/proofs/" not in path})
    yield refuses("a definition that nothing names", house.unnamed_definitions, house.House(tables), least, "run_tables")
    assert set(OF_HOUSE) | {"unnamed-definitions", "definitions-of-proofs"} == set(house.RULES)
    names = {"long-files": ["a.rt", "b.rt"]}
    kept = house.written(names, {"long-files": 2})
    assert not list(house.count_faults(names, kept))

    def counted(names):
        return house.count_faults({"long-files": names}, kept)

    yield refuses("a count that grew", counted, ["a.rt", "b.rt"], ["a.rt", "b.rt", "c.rt"], "long-files: c.rt")
    yield refuses("a count that fell", counted, ["a.rt", "b.rt"], ["a.rt"], "--write")
    yield refuses("another name", counted, ["a.rt", "b.rt"], ["a.rt", "c.rt"], "--write")
    makefile = "all:\n\ttrue\n"
    for marker in ("<<<<<<< HEAD", "=======", ">>>>>>> theirs"):
        yield refuses(marker, house.merge_faults, [("Makefile", makefile)], [("Makefile", f"{makefile}{marker}\n")], "Makefile:3")
    assert house.grown({"long-files": ["a", "b", "c"]}, {"long-files": 2}, []) == ["long-files"]
    assert not house.grown({"long-files": ["a", "b", "c"]}, {"long-files": 2}, ["long-files"])


#: what a version that is out holds: a change of a struct or of a function's types, and what is said of it
RECORDED = [
    ("two members that changed places", "uint32_t width; /* pixels */\n    uint32_t rows;", "uint32_t rows;\n    uint32_t width;",
     "width of g3_size"),
    ("a member of another type", "uint64_t bits;\n", "uint32_t bits, more;\n", "bits of g3_burst"),
    ("a member that went", "uint32_t wait;    /*", "uint32_t waits;   /*", "wait of g3_state"),
    ("a member in the middle", "uint32_t order;  /* G3_MSB_FIRST or G3_LSB_FIRST; of", "uint32_t why, order;  /* of", "order of g3_found"),
    ("a longer struct without a size", "uint32_t spare[4];\n} g3_code", "uint32_t spare[5];\n} g3_code", "the size of g3_code"),
    ("a shorter struct", "uint32_t spare[5];\n} g3_wish", "uint32_t spare[3];\n} g3_wish", "the size of g3_wish"),
    ("a longer struct in another", "uint32_t spare[4];\n} g3_block", "uint32_t spare[6];\n} g3_block", "octets of g3_signal"),
    ("a shorter array", "octets[296];", "octets[288];", "octets of g3_signal"),
    ("a struct that went", "g3_params", "g3_agreed", "the size of g3_params"),
    ("a parameter of another type", "g3_wait_millis(uint32_t wait)", "g3_wait_millis(uint64_t wait)", "g3_wait_millis has other types"),
    ("two parameters that changed places", "uint32_t side, uint32_t last, uint8_t *buffer", "uint32_t side, uint8_t *buffer, uint32_t last",
     "g3_signal_write has other types"),
    ("a status of another type", "typedef uint32_t g3_status;", "typedef int32_t g3_status;", "g3_status has other types"),
    ("a handle that is changed", "g3_page_size(const g3_page *page", "g3_page_size(g3_page *page", "g3_page_size has other types"),
]
#: what may change: a spare word gets a name, and a struct that begins with its size grows
GROWN = [
    ("uint32_t spare[3];\n} g3_raster", "uint32_t later;\n    uint32_t spare[2];\n} g3_raster"),
    ("    uint32_t spare;\n} g3_state", "    uint32_t later;\n    uint64_t more;\n} g3_state"),
    ("g3_wait_millis(uint32_t wait)", "g3_wait_millis(uint32_t which)"),
]
#: a struct that can't grow, and what is said of it
SHAPES = [
    ("octets of padding at the end", "    uint32_t spare;\n} g3_state", "} g3_state", "g3_state has octets of padding"),
    ("octets of padding in the middle", "uint64_t bits;\n    uint32_t carrier;", "uint32_t carrier;\n    uint64_t bits;",
     "g3_burst has octets of padding"),
    ("a struct without size and spare words", "    uint32_t spare[5];\n} g3_wish", "} g3_wish", "g3_wish can't grow"),
]


def of_header():
    """A status that a page doesn't list, by a test; and of a version that is out a number, a struct or a function that changed, a function
    that came after it, and no record."""
    header = (make_library.TOP / "bindings/g3fax.h").read_text()
    found = make_library.items(header)
    for status, name in ("G3_NO_IMAGE", "g3_row_coder_take"), ("G3_FRAME_LOST", "g3_page_size"), ("G3_EMPTY_HANDLE", "g3_agree"):
        yield refuses(status, lambda tests: make_library.untold(found, tests), "", f"    IS({status}, {name}(&it));", f"list {status}")
    for what, comment, said in (("a function without a comment", "/* How many pages it has. */\n", "g3_document_pages has the comment of"),
                                ("a struct without a comment", "/* how a burst is sent */\n", "g3_burst has no comment")):
        assert comment in header
        yield refuses(what, lambda text: make_library.bare(make_library.items(text)), header, header.replace(comment, ""), said)
    sizes = "    SIZES(it, g3_row_coder_take(&it, &o));"
    yield refuses("a struct of another size", lambda tests: make_library.untold(found, tests), "", sizes, "list G3_BAD_SIZE")
    made = make_library.from_header
    old, out = made.plain(header), "## 0.1.1, unreleased\n\n## 0.1.0, 2026-01-01\n"

    def recorded(texts):
        return made.record_faults(texts[0], texts[1], out)

    later = header.replace("G3_VERSION_NUMBER 100\n", "G3_VERSION_NUMBER 101\n")
    assert not [*made.record_faults([], header, "## 0.1.0, unreleased\n"), *recorded(([old], header)), *recorded(([old], later))]
    swapped = header.replace("G3_END_TRAINING = 4", "G3_END_TRAINING = 5").replace("G3_END_NO_REPLY = 5", "G3_END_NO_REPLY = 4")
    yield refuses("a number that changed", recorded, ([old], header), ([old], swapped), "G3_END_TRAINING was 4")
    yield refuses("a function that went", recorded, ([old], header), ([old], header.replace("g3_agree(", "g3_agrees(")), "g3_agree has other types")
    for what, before, after, said in RECORDED:
        assert before in header
        yield refuses(what, recorded, ([old], header), ([old], header.replace(before, after)), said)
    for before, after in GROWN:
        assert before in header and not [*recorded(([old], header.replace(before, after)))], after
    for what, before, after, said in SHAPES:
        assert before in header
        yield refuses(what, made.shape_faults, header, header.replace(before, after), said)
    last = "uint64_t *count);\n"
    more = later.replace(last, f"{last}void g3_later(g3_page *page);\n", 1)
    yield refuses("a function of a version that is out", recorded, ([old], more), ([old], more.replace("NUMBER 101", "NUMBER 100")),
                  "g3_later came after 0.1.0")
    yield refuses("no record", recorded, ([old], header), ([], header), "is it out?")
    assert made.nodes([old, more]) == {"G3FAX_0.1.0": {name for _, name, _ in made.Header(old).functions}, "G3FAX_0.1.1": {"g3_later"}}


def guarantees():
    """Rows that cite what no product calls, a law that does something, a clause of another function, and a definition of another row."""
    texts = house.house_here().texts
    made, reached = cited.read(texts)
    readme = texts["README.md"]

    def check(text):
        return cited.cited_faults(text, BOOK, made, reached)

    assert not list(check(readme))
    for row, name, place, other in [
        ("G10", "answer", "conversations/src/talking.rt", "[`answer_line`](crates/conversations/src/answering.rt)"),
        ("G9", "run_request", "faxtool/src/dispatch.rt", "[`answer_stream`](crates/line_sim/src/stream.rt)"),
        ("G3", "LiveCall::event", "line_sim/src/live.rt", "[`World::event`](crates/line_sim/src/world.rt)"),
    ]:
        line = next(line for line in readme.splitlines() if line.startswith(f"| {row} "))
        wrong = readme.replace(line, line.replace(f"[`{name}`](crates/{place})", other, 1))
        yield refuses(f"a guarantee of {row} by what nothing calls", check, readme, wrong, f"{row}: neither")
    called = readme.replace("[`driven_calls_end`](crates/line_sim/src/laws.rt): `driven`", "[`World::polite`](crates/line_sim/src/polite.rt)")
    yield refuses("a guarantee by what tests alone call", check, readme, called, "`World::polite` of line_sim")
    yield refuses("a clause of another function", check, readme, readme.replace("): `driven` |", "): `two` |"), "`two` is no clause")
    other = readme.replace("[`IsLimited`](crates/stations/specs/Limits.antt)", "[`HoldsLive`](crates/line_sim/specs/Live.antt)")
    yield refuses("a definition of another row", check, readme, other, "G8: no contract of the row rests on `HoldsLive`")
    yield refuses("a README without the table", check, readme, readme.replace("| Guarantee |", "| Promise |"), "no table")
    dropped = {**texts, "crates/faxtool/src/main.rt": texts["crates/faxtool/src/main.rt"].replace("run_request", "run_other")}
    yield refuses("a program that calls it no more", lambda own: cited.cited_faults(readme, BOOK, *cited.read(own)), texts, dropped, "run_request")


# What the table of files to touch is seen to refuse: the change, its file, the old and the new text, and what is said.
TOUCHED = [
    ("a file to touch that isn't there", "CONTRIBUTING.md", "`control.rt`", "`controls.rt`", "there is no crates/signals/src/controls.rt"),
    ("no row for an option", "CONTRIBUTING.md", "| an option |", "| one more |", "no row for an option"),
    ("a signal that a file hasn't", "crates/signals/src/control.rt", "Rnr", "Busy", "Rnr isn't in crates/signals/src/control.rt"),
    ("a kind of fault that a file hasn't", told.FAULT_KINDS, "Backwards", "Wayward", "Backwards isn't in crates/faults/src/fault_kind.rt"),
    ("a fault that the man page hasn't", told.PAGE, "\n16\n", "\n160\n", "16 isn't in docs/man/faxtool.1"),
    ("a fault that no case has", told.HELP, "\n  32  ", "\n  33  ", "33 isn't in .ci/end_to_end"),
    ("a status without a text", told.C_TEXTS, "Text(11, b\"the bits", "Text(93, b\"the bits", "11 isn't in crates/g3fax/src/texts.rt"),
    ("a command that doesn't run", "crates/faxtool/src/dispatch.rt", "Several", "Severed", "Several isn't in crates/faxtool/src/dispatch.rt"),
    ("a command without a case", "crates/faxtool/src/args/table.rt", 'name: "show"', 'name: "exhibit"', "exhibit isn't in .ci/end_to_end"),
    ("an option without a case", "crates/faxtool/src/args/table.rt", '"no-refuse"', '"no-refusing"', "no-refusing isn't in .ci/end_to_end"),
    ("an option without a completion", "docs/completion/faxtool.fish", "-l whole", "-l entire", "whole isn't in docs/completion/faxtool.fish"),
    ("a code that a file hasn't", "crates/page_code/specs/Codings.antt", "OneDim", "OneWay", "OneDim isn't in crates/page_code/specs"),
]


def words():
    """A word of a fault changed in each place that tells it, in code and definition both, and in what quotes it; and the files to touch."""
    texts, here = told.read()
    assert not [*told.wording_faults(texts), *told.quote_faults(texts), *told.touch_faults(texts, here)]

    # nothing is wrong with the texts as they are, so they aren't looked at again
    def wordings(own):
        return [] if own is texts else [*told.wording_faults(own), *told.quote_faults(own)]

    def touched(own):
        return [] if own is texts else told.touch_faults(own, here)

    def changed_in(*paths, old="past the row's width", new="past its width"):
        assert all(old in texts[path] for path in paths)
        return {**texts, **{path: texts[path].replace(old, new) for path in paths}}

    for path in (told.FAULT_KINDS, told.FAULT_SPECS, told.HELP, told.PAGE, told.TABLE, "README.md", ".ci/end_to_end/words.sh"):
        yield refuses(f"a changed word of a fault in {path}", wordings, texts, changed_in(path), "past its width")
    both = changed_in(told.FAULT_KINDS, told.FAULT_SPECS)
    yield refuses("a changed word of a fault in code and definition", wordings, texts, both, ".ci/end_to_end/decode.sh quotes")
    for path in ("crates/run_tables/src/fault.rt", told.C_TEXTS):
        yield refuses(f"a changed word of a fault in {path}", wordings, texts, changed_in(path, old="the run passes", new="a run passes"), "fault 12")
    for paths in ((told.EXPLAIN,), (told.EXPLAIN_SPECS,), (told.EXPLAIN, told.EXPLAIN_SPECS)):
        other = changed_in(*paths, old="no such file or folder", new="no such file")
        yield refuses(f"a changed reason in {' and '.join(paths)}", wordings, texts, other, "no such file")
    other = changed_in("crates/commands/src/words/told.rt", old="and a call carries", new="and calls carry")
    yield refuses("changed words of a page", wordings, texts, other, "fault 26")
    same = changed_in(told.HELP, old="an image's file is empty", new="the file is empty")
    yield refuses("words that are listed as others, and are the same", wordings, texts, same, "fault 7")
    assert not list(told.name_faults(texts))
    for path, old, new in ((told.NAMES, '(18, codes "CTC")', '(18, codes "CTR")'), (told.C_NAMES, '{0xce, "EOR"}', '{0xcf, "EOR"}'),
                           (told.NAMES, ' ∷ (75, codes "TK")', "")):
        yield refuses(f"a frame that {path} names otherwise", told.name_faults, texts, changed_in(path, old=old, new=new), told.C_NAMES)
    assert not list(told.end_faults(texts))
    for path, old, new in ((told.END_SPECS, 'put (codes "resent")', 'put (codes "sent_again")'), (told.END_C, 'put_count("retries"', 'put_count("repeats"'),
                           (told.END_C, "frames sent again", "frames again"), (told.ASKING_C, '"NSC", ', "")):
        yield refuses(f"what {path} alone tells of a call's end", told.end_faults, texts, changed_in(path, old=old, new=new), told.END_SPECS)
    for name, path, old, new, said in TOUCHED:
        yield refuses(name, touched, texts, changed_in(path, old=old, new=new), said)


def plants():
    """Texts of bench/plant that don't stand in their files any more or change nothing, a law that is gone, a wrong row of guilty.txt, a test
    that the page doesn't name, and a record that lacks something."""
    crates = checks.TOP / "crates"
    assert not edits.texts_of_plants()[1]
    pairs = wrong_definitions.WRONG["normal end after MPS"]
    gone = [(file, f"{old} gone", new) for file, old, new in pairs]
    yield refuses("a wrong definition of another text", lambda own: edits.pair_faults(own, crates, once=False), pairs, gone, "stands 0 times")
    same = [(file, old, old) for file, old, _ in pairs]
    yield refuses("a wrong definition that is the right one", lambda own: edits.pair_faults(own, crates, once=False), pairs, same, "stays as it is")
    row = refuted.all_rows()[0]
    moved = [("specs/Moved.antt", old, new) for _, old, new in row["edits"]]
    yield refuses("a wrong row of no file", lambda own: edits.pair_faults(own, crates / row["crate"]), row["edits"], moved, "no file")
    yield refuses("a wrong row of no law", edits.law_faults, row, {**row, "law": f"{row['law']}Gone"}, "no law")
    guilty = (edits.BENCH / "plant" / "guilty.txt").read_text()
    for old, new, said in ((" | ended | ", " | over | ", "no row has the rule ended"), ("caller | ", "calling | ", "no station"),
                           ("/two_rcps | ", "/three_rcps | ", "no planted bug"), ("| rcp-count |", "| - |", "no row has the rule rcp-count")):
        yield refuses("a wrong row of guilty.txt", edits.guilty_faults, guilty, guilty.replace(old, new), said)
    assert all(no_memory.test_of(call) for call in no_memory.CALLS)
    page, counts = edits.plants.PAGE.read_text(), (edits.plants.edits_here(), edits.wrong_rows())

    def record(text, bugs=counts[0], rows=counts[1]):
        return edits.plants.faults(text, bugs, rows, lambda _commit, _crate: 0)

    line = edits.plants.line_of(edits.plants.rows_of(page)["stations"])
    yield refuses("a crate without a record", record, page, page.replace(f"{line}\n", ""), "no row of stations")
    for count in (4, 11):
        bugs = {**counts[0], "stations": count}
        yield refuses(f"a crate of {count} planted bugs", lambda own: record(page, own), counts[0], bugs, f"stations has {count} bugs")
    more = {**counts[1], "stations": counts[1]["stations"] + 1}
    yield refuses("a wrong row that wasn't tried", lambda own: record(page, rows=own), counts[1], more, "of stations's")


def main():
    trials = (comments, clauses, documents, tables, at_size, links, witnesses, of_house, of_header, guarantees, words, plants)
    seen = [name for trial in trials for name in trial()]
    print(f"test_checks: {len(seen)} changes are refused: {', '.join(seen)}")


if __name__ == "__main__":
    main()
