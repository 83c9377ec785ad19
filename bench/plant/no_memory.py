#!/usr/bin/env python3
"""Plants bodies that answer that memory was refused, though none was, and shows the test that refuses each.

    bench/plant/no_memory.py [WORD]        (at the top of the repository)

No clause refuses them: a contract allows that memory is refused. Of each crate one call of docs/TESTS.md, under `Calls that take memory`, is
planted in a copy of the sources, once so that it always answers so, and once so that it does for large values alone; the crate of tests that
the page names is built without proof, and the test that it names is run and has to fail. With a WORD these are the calls whose crate or
name has it. Without one each test is first run over the right sources, and has to pass. Prints a line for each. Ends with status 1 where
one isn't refused. It takes some minutes, and isn't in the gate."""

import re
import sys
import tempfile
from pathlib import Path

sys.dont_write_bytecode = True
import wrong_code

TOP = Path(__file__).resolve().parents[2]
PAGE = TOP / "docs" / "TESTS.md"
# Of each call its crate, its file, a line of it that stands there once, what is answered, and when it is large: before that line, or of
# what a line that takes its place has made.
CALLS = {
    "Row::runs": ("raster", "row.rt", "        self.lent().runs(alloc, out)\n", "Err(RasterFault::NoMemory)",
                  "        self.lent().runs(alloc, out)?;\n        if out.len() > 2_000 {\n            return WRONG;\n        }\n        Ok(())\n"),
    "BitReader::read_row_1d": ("run_tables", "row_reader.rt", "        self.read_row_1d_in(alloc, width, &mut list)\n",
                               "Err(CodeFault { place: self.place(), kind: CodeFaultKind::NoMemory })",
                               "        let begun = self.place();\n        let row = self.read_row_1d_in(alloc, width, &mut list)?;\n"
                               "        if self.place() - begun > 10_000 {\n            return WRONG;\n        }\n        Ok(row)\n"),
    "Coding::encode": ("page_code", "coding.rt", "    let mut bits = BitWriter::after(alloc, out, order)?;\n", "Err(AllocError)",
                       "page.rows().len() > 15_000"),
    "Deframer::feed": ("hdlc", "deframer.rt", "        if self.take_in_place(piece) {\n", "Err(AllocError)", "piece.len() > 10_000"),
    "BlockStore::put": ("partial_page", "store.rt", "        self.make_ready()?;\n        self.keep(n, octets);\n", "Err(BlockFault::NoMemory)",
                        "n > 200"),
    "Answerer::step": ("stations", "answerer.rt", "        self.advance(input)\n", "Err(AllocError)", "self.pages.len() > 200"),
    "World::event": ("line_sim", "world.rt", "        self.apply(event)\n", "Err(AllocError)", "self.transcript.len() > 1_500"),
    # it makes events, and its test 66,834 of them
    "World::polite": ("line_sim", "world.rt", "        self.apply(event)\n", "Err(AllocError)", "self.transcript.len() > 5_000"),
    "code_engine": ("page_files", "pages.rt", "    let page = read_image(alloc, reader)?;\n    write_code(alloc, &page, coding, order, writer)\n",
                    "Err(ToolFault::No(9))",
                    "    let page = read_image(alloc, reader)?;\n    if page.rows().len() > 15_000 {\n        return WRONG;\n    }\n"
                    "    write_code(alloc, &page, coding, order, writer)\n"),
    "frames_engine": ("captures", "frames.rt", "        let more = contents.advance(reader)?;\n", "Err(ToolFault::No(9))", "number > 5_000"),
    "call_engine": ("calls", "call.rt", "        Ok(ending) => Ok(ending.pages),\n", "Err(ToolFault::No(9))",
                    "        Ok(ending) if ending.pages.len() > 200 => WRONG,\n        Ok(ending) => Ok(ending.pages),\n"),
}


def planted(text, line, answer, when):
    """The text with an answer that is always given, or when something is large."""
    if text.count(line) != 1:
        sys.exit(f"stands {text.count(line)} times: {line}")
    if "WRONG" in when:
        return text.replace(line, when.replace("WRONG", answer))
    if "=>" in line:
        return text.replace(line, line.partition("=>")[0].replace("(ending)", "(_ending)") + f"=> {answer},\n")
    blanks = re.match(" *", line)[0]
    return text.replace(line, f"{blanks}if {when} {{\n{blanks}    return {answer};\n{blanks}}}\n{line}")


def test_of(call):
    """The crate and the name of the test of a call."""
    row = next(line for line in PAGE.read_text().splitlines() if line.startswith("|") and f"`{call}`" in line)
    return re.search(r"`(\w+ [\w:]+)` \|$", row)[1]


def leave_only(folder, crate, modules):
    """Leaves of a crate of tests these modules, and of the crates that it is built on those that they name: the rest needn't be built."""
    root = folder / "crates" / crate / "src" / "lib.rt"
    named = re.sub(r"(?:#\[[^\n]*\]\n)*^(?:pub )?mod (\w+);\n", lambda it: it[0] if it[1] in modules else "", root.read_text(), flags=re.M)
    root.write_text(named)
    for part in ("src", "specs", "proofs"):
        for file in (folder / "crates" / crate / part).rglob("*.*"):
            if file != root and file.is_file() and not modules & set(file.relative_to(root.parent.parent / part).with_suffix("").parts):
                file.unlink()
    texts = "".join((root.parent / f"{module}.rt").read_text() for module in modules)
    rows = (folder / "crates.txt").read_text().splitlines()
    for number, row in enumerate(rows):
        if row.startswith(f"{crate}:"):
            rows[number] = f"{crate}: " + " ".join(name for name in row.split(":")[1].split() if re.search(rf"\b{name}::", texts))
    (folder / "crates.txt").write_text("".join(f"{row}\n" for row in rows))


def outcomes(tests, call=None, when=None):
    """Of tests of one crate whether each passes, and what it says, over the right sources or with a wrong body of a call."""
    with tempfile.TemporaryDirectory(prefix="no-memory-") as name:
        folder = Path(name)
        wrong_code.copy_to(folder)
        if call:
            crate, file, line, answer, _ = CALLS[call]
            path = folder / "crates" / crate / "src" / file
            path.write_text(planted(path.read_text(), line, answer, when))
        program, crate = folder / "tests.program", tests[0].split()[0]
        leave_only(folder, crate, {test.split()[1].partition("::")[0] for test in tests})
        built, said = wrong_code.output_of(folder / "packaging/build_unproved.sh", folder / "crates" / crate, program, "--test")
        if not built:
            sys.exit(f"{call or 'the right sources'}: {crate} isn't built: {said[-2000:]}")
        return {test: wrong_code.output_of(program, test.split()[1]) for test in tests}


def main():
    word = sys.argv[1] if len(sys.argv) > 1 else ""
    chosen = [call for call, (crate, *_) in CALLS.items() if word in call or word == crate]
    bad = not chosen
    tests = [] if word else sorted({test_of(call) for call in chosen})
    for crate in sorted({test.split()[0] for test in tests}):
        for test, (passed, said) in outcomes([test for test in tests if test.split()[0] == crate]).items():
            print(f"{test}: {'passes over the right sources' if passed else 'FAILS OVER THE RIGHT SOURCES: ' + said[-400:]}", flush=True)
            bad |= not passed
    for call in chosen:
        for how, when in [("always", "true"), ("at size", CALLS[call][4])]:
            passed, said = outcomes([test_of(call)], call, when)[test_of(call)]
            told = "NOT REFUSED" if passed else f"refused by {test_of(call)}: {' '.join(said.split())[-120:]}"
            print(f"{CALLS[call][0]} {call}, no memory {how}: {told}", flush=True)
            bad |= passed
    return 1 if bad else 0


if __name__ == "__main__":
    sys.exit(main())
