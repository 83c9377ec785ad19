#!/usr/bin/env python3
"""Sees what .ci/refusals.py makes of each kind of sentence of a check, and .ci/plants.py and edits.py of each fault of a record and
of what documents tell of planted bugs:

    .ci/test_refusals.py

Ends with status 1 at the first one that is taken for another. It needs Python's standard library alone."""
import sys

sys.dont_write_bytecode = True
import edits
import plants
import refusals

import wrong_definitions  # of bench/plant, which edits adds to the path

# Sentences of the kit, each with the name of the goal that it says became false, or None.
SENTENCES = [
    ("./proofs/page/Page/new/Answers.antt:7:20: error: `returns`: `omega`: the goal does not follow from what it read. All of that holds, and "
     "the goal fails, at `c.args.width` = 2433.", "returns"),
    ("note: src/page.rt:315:9: it is not proved that the `invariant` of the struct's `impl Model` holds of its fields where it is next used "
     "whole (`invariant_of-result`); the facts known there allow values at which this goal is false", "invariant_of-result"),
    ("src/world.rt:247:5: it is not proved that the `ensures runs` holds (`returns-clause-runs`); no proof was found", "runs"),
    ("./proofs/a/Answers.antt:7:20: error: `search`: no proof of x ≡ y was found", "a goal"),
    ("./proofs/a/Answers.antt:7:20: error: the two sides first differ at 1 and 2", "a goal"),
    ("./proofs/a/Answers.antt:7:20: error: the two types differ", "a goal"),
    ("./proofs/a/Answers.antt:7:20: error: `cc`: list the missing equation with its arguments", "a goal"),
    ("./proofs/a/Answers.antt:7:20: error: expected type `f 1 ◌≡◌ 2`, but this has type `f 1 ◌≡◌ 3`", "a goal"),
    # a proof that no longer fits
    ("./proofs/a/Answers.antt:7:20: error: expected type `f 1 ◌≡◌ 2`, but this has type `f 1 ◌≤◌ 3`", None),
    ("./proofs/a/Answers.antt:7:20: error: `returns-clause-ok` is not in scope", None),
    ("./proofs/a/Answers.antt:7:20: error: `search`: no proof of x; `h` is not in scope", None),
    ("./proofs/a/Answers.antt:7:20: error: the record has no field `ensures`", None),
    ("./proofs/a/Answers.antt:1:5: error: the module has no `Met`", None),
    ("./proofs/a/Answers.antt:1:5: error: `Met` is no name of this library", None),
    ("./proofs/a/Answers.antt:1:5: error: it rests on `b`, which was not admitted", None),
    # what doesn't compile, and what says nothing of a goal
    ("src/page.rt:315:9: error: the name `width` is not declared", None),
    ("fn raster::page::Page::new: not proved", None),
    ("only=1 proved=0", None),
]
PAGE = """# Planted bugs

<!-- written: record -->

```text
crate            commit/day             bugs+rows    goals that became false
hdlc             1234567/2026-01-31     9/9+6/6      ok:5,returns:10
```

<!-- end -->
"""


def tries_sentences():
    for line, goal in SENTENCES:
        if refusals.goal_of(line) != goal:
            sys.exit(f"test_refusals: {refusals.goal_of(line)} and not {goal}: {line}")
    lines = ["only=3 proved=2", "fn a: not proved", *(line for line, _goal in SENTENCES)]
    wanted = [line for line, goal in SENTENCES if goal]
    assert refusals.goals(lines) == wanted
    assert refusals.is_read(lines) and not refusals.is_read(lines[1:2])
    calls = ["fn a::laws::b: not proved", "fn a::c: no proof: it calls `b`, which is not proved", "fn a::d: not proved; it calls `c`, which .."]
    assert wrong_definitions.refusing(calls) == ["a::laws::b"]
    assert refusals.are_proved(["only=1 proved=1 x"], 1) and not refusals.are_proved(lines, 3) and not refusals.are_proved(["only=1 proved=10"], 1)
    return len(SENTENCES)


def tries_records():
    """A record of which all is right, and each fault of one."""
    def said(text=PAGE, edits=None, rows=6, since=plants.MOST_COMMITS):
        return list(plants.faults(text, edits or {"hdlc": 9}, {"hdlc": rows}, lambda _commit, _crate: since))

    assert said() == []
    wrong = {
        "201 bugs, more than 200": said(edits={"hdlc": 9, **{f"crate{number}": 8 for number in range(24)}}),
        "hdlc has 11 bugs, and a crate has 5 to 10": said(edits={"hdlc": 11}),
        "hdlc has 4 bugs, and a crate has 5 to 10": said(edits={"hdlc": 4}),
        "has no row of stations": said(edits={"hdlc": 9, "stations": 9}),
        "of hdlc's 10 planted bugs 9 of 9": said(edits={"hdlc": 10}),
        "9 planted bugs 8 of 9": said(PAGE.replace("9/9", "8/9")),
        "6 wrong rows 5 of 6": said(PAGE.replace("6/6", "5/6")),
        "7 wrong rows 6 of 6": said(rows=7),
        "no commit 1234567": said(since=None),
        "31 commits have changed hdlc": said(since=31),
        "has no record, or one": said(PAGE.replace("\n\n<!--", 60 * "\nline" + "\n\n<!--", 2)),
    }
    for part, found in wrong.items():
        if not any(part in fault for fault in found):
            sys.exit(f"test_refusals: a record isn't refused: {part}: {found}")
    table = "| Wrong body | Bug | Function | Clause |\n|---|---|---|---|\n| one | `hdlc/y` | `Z::z` | `ok` |\n| two | `hdlc/x` | `z` | `ok` |\n"

    def named(text):
        return list(plants.named_faults(text, lambda bug: bug == "hdlc/y"))

    assert named(table[:table.index("| two")]) == [] and len(named(table)) == 1 and len(named(table.replace("`hdlc/x`", ""))) == 1 and named("")
    row = plants.Row("calls", "89abcde", "2026-02-01", 2, 2, 3, 3, plants.goals_told(["ok", "ok", "returns"]))
    anew = plants.written(PAGE, [row], plants.alike_told(7, 7, "89abcde", "2026-02-01"))
    assert set(plants.rows_of(anew)) == {"hdlc", "calls"} and plants.rows_of(anew)["calls"] == row and "alike: 7/7" in anew
    assert plants.written(anew, [row]) == anew

    def said_alike(text=anew, bodies=7, since=plants.MOST_COMMITS):
        return list(plants.alike_faults(text, bodies, lambda _commit, _crate: since))

    assert said_alike() == []
    bad = [said_alike(PAGE), said_alike(bodies=8), said_alike(anew.replace("7/7", "6/7")), said_alike(since=None), said_alike(since=31)]
    assert all(bad), bad
    return len(wrong) + len(bad)


def tries_bodies():
    """A row of wrong bodies with another function or clause, and numbers of documents that aren't those that there are."""
    page = plants.PAGE.read_text()
    row = "| `stations/rnr_though_not_busy` | `Answerer::confirm` | `ensures` |"
    assert row in page and list(edits.body_faults(page)) == []
    bodies = {"and not Answerer::accept": ("Answerer::confirm", "Answerer::accept"), "has no clause next": ("ensures", "next")}
    for part, (old, new) in bodies.items():
        found = list(edits.body_faults(page.replace(row, row.replace(old, new))))
        assert len(found) == 1 and part in found[0], found
    texts = {"a": "plants bugs in\n  two crates", "b": "over two hundred wrong\ndefinitions"}
    assert list(plants.count_faults(texts, 2, 217)) == []
    assert [len(list(plants.count_faults(texts, *counts))) for counts in ((3, 217), (2, 199), (3, 300))] == [1, 1, 2]
    assert list(plants.count_faults({"b": texts["b"]}, 2, 217))
    return 2 + len(texts)


def main():
    print(f"test_refusals: {tries_sentences()} sentences are read right, and {tries_records()} faults of a record are seen, "
          f"and {tries_bodies()} of what is told of bugs")


if __name__ == "__main__":
    main()
