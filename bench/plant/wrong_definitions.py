#!/usr/bin/env python3
"""Plants wrong bodies into the stations and the line, in code and definition alike, and shows what refuses each.

    bench/plant/wrong_definitions.py [WORD]        (at the top of the repository, over what its checks kept)

Code and definition that are wrong alike meet their contracts, so only a theorem above them can refuse
such a body. Of each wrong body (or of those whose name has the WORD) this tells, from copies of the
repository, where all edits of the body are made:

  alike      whether the code still meets its contracts, by a check of the stations, or of the one function of the line; and
             which laws of the stations refuse it (what calls such a law isn't tried);
  headline   which proofs refuse it, by a check of the headline of `line_sim` alone, over the wrong station; and
             which clauses of the headline have no proof then. Over a station that its laws refuse nothing is proved;
  run        which run of `bench/plant/wrong/runs.txt` isn't safe any more, by running the wrong code: so not only
             the proof but the headline itself is false of it.

Ends with status 1 where a right body is refused, or a wrong one is still proved or all of its runs are safe.
"""
import os
import re
import shutil
import subprocess
import sys
import tempfile

sys.dont_write_bytecode = True
sys.path.append(os.path.join(os.path.dirname(os.path.abspath(__file__)), "..", "..", ".ci"))
from refusals import are_proved, goals, places

LOWER = ["raster", "run_tables", "page_code", "hdlc", "signals", "partial_page"]
RUNS = """//! The runs.
#![tactic(auto)]

#[cfg(test)]
mod tests;
"""
RUNS_USE = "runs: raster page_code signals stations line_sim"
STEP, ANSWERER = "stations/specs/AnswererStep.antt", "stations/src/answerer.rt"
MARK, ASSEMBLER = "signals/src/mark.rt", "partial_page/src/assembler.rt"
SAME_MARK, COUNTED = "signals/specs/Marks.antt", "partial_page/specs/Assembling.antt"
CALLER_STEP, CALLER = "stations/specs/CallerStep.antt", "stations/src/caller.rt"
ROWS, SPENDING = "stations/proofs/CallerRows.antt", "stations/proofs/Spending.antt"
LIMITS, RUN_LAWS = "stations/proofs/OpenLimits.antt", "stations/proofs/RunLaws.antt"
LINE, CALL, SENT = "line_sim/specs/Line.antt", "line_sim/src/call.rt", "line_sim/proofs/Sent.antt"
SENDS, MARKS = "line_sim/proofs/call/Call/caller_sends/Answers.antt", "line_sim/proofs/Marks.antt"
TAKING, ENDS = "stations/proofs/AnswererTaking.antt", "stations/proofs/AnswerersEnds.antt"
HOW_FAR, KEEPS, MOVES = "stations/specs/HowFar.antt", "line_sim/proofs/CallerKeeps", "line_sim/proofs/MovesOf.antt"
# What names the page due by the number of confirmed pages, and its caller.
DUE = [("stations/proofs/BlocksDue", "t"), ("stations/specs/EndsMean", "c"), ("stations/specs/Keeping", "c"), ("stations/proofs/Lasting", "c"),
       ("stations/proofs/Sizes", "c"), ("stations/proofs/CallersEnds", "c"), (KEEPS, "c"), ("line_sim/proofs/CallerCounts", "c")]
# Of each wrong body its edits: the file, its text and what takes its place. Those of a proof keep what is true of
# the wrong body too, so that the first refusal is that of a false goal.
WRONG = {
    "repeat stored twice": [
        (STEP, "is_repeated (Some accepted) mark = same_mark accepted.mark mark", "is_repeated (Some accepted) mark = false"),
        (ANSWERER, "Some(accepted) => accepted.mark.is_same(mark),", "Some(_) => false,"),
        # what is still true of it
        (MARKS, "k (Some before) block e f same = neighbours_differ groups document readable k before block e f same",
         "k (Some before) block e f same = cc"),
    ],
    "repeat known by the block count alone": [
        (SAME_MARK, "same_mark m n = nat_eq m.page n.page && nat_eq m.block n.block", "same_mark m n = nat_eq m.block n.block"),
        (MARK, "self.page == other.page && self.block == other.block", "self.block == other.block"),
        # what is still true of it
        (MARKS, "rw (eq-eqb m.page m.page refl, eq-eqb m.block m.block refl)", "eq-eqb m.block m.block refl"),
        (TAKING, "same_itself mark =\n    and_from (nat_eq mark.page mark.page) (nat_eq mark.block mark.block) (eq-eqb mark.page mark.page refl)\n"
         "    (eq-eqb mark.block mark.block refl)", "same_itself mark = eq-eqb mark.block mark.block refl"),
        (ENDS, "    ∙ and_from (nat_eq h.0.mark.page page) (nat_eq h.0.mark.block block) (eq-eqb h.0.mark.page page h.2) "
         "(eq-eqb h.0.mark.block block h.3)",
         "    ∙ eq-eqb h.0.mark.block block h.3"),
        (TAKING, "      let parts = and_parts (nat_eq asked.mark.page mark.page) (nat_eq asked.mark.block mark.block) same in\n"
         "      let page = eqb-true asked.mark.page mark.page parts.0 in\n      let block = eqb-true asked.mark.block mark.block parts.1 in\n"
         "      differs (rw (page, block) refl)) in",
         "      let block = eqb-true asked.mark.block mark.block same in\n      differs (rw block refl)) in"),
    ],
    "old frames fill the next block": [
        (STEP, "-- a block is accepted: its frames are cleared\n",
         "-- the frames that stay: those of all blocks but a group's last\n"
         "abbrev pub kept : PageEnd → Frames → Frames\nkept Eom frames = no_frames\nkept _ frames = frames\n\n"
         "-- a block is accepted: its frames are cleared\n"),
        (STEP, "        octets = octets;\n        frames = no_frames;", "        octets = octets;\n        frames = kept ends s.frames;"),
        (ANSWERER, "{state_after, stores};", "{state_after, stores, kept};"),
        (ANSWERER, "          frames = no_frames;\n        } }", "          frames = kept ends self.old.frames;\n        } }"),
        (ANSWERER, "        self.block.clear();\n        self.state = match ends {\n            PageEnd::Eom => AnswererState::PhaseB,",
         "        self.block.asked = None;\n        self.state = match ends {\n            PageEnd::Eom => {\n"
         "                self.block.clear();\n"
         "                AnswererState::PhaseB\n            }"),
        # the station's own laws
        (LIMITS, "(pages : List PagePixels) → length octets ≤ 8388608 →",
         "(pages : List PagePixels) → IsLimited s → length octets ≤ 8388608 →"),
        (LIMITS, "accepts_limited s ends mark octets pages few = record { places = none_open.0; short = none_open.1; page = few }",
         "".join(f"accepts_limited s {ends} mark octets pages h few = record {{ places = h.places; short = h.short; page = few }}\n"
                 for ends in ["Null", "Mps", "Eop"]) +
         "accepts_limited s Eom mark octets pages h few = record { places = none_open.0; short = none_open.1; page = few }"),
        (LIMITS, "(s.pages ++ page ∷ []) (omega arith)", "(s.pages ++ page ∷ []) h (omega arith)"),
        (LIMITS, "octets s.pages (page_few octets few)", "octets s.pages h (page_few octets few)"),
        (RUN_LAWS, "accepts_from :\n",
         "kept_heard : (all : List AnswererInput) (ends : PageEnd) (frames : Frames) → Each (OpenHeard all) frames →\n"
         "    Each (OpenHeard all) (kept ends frames)\n" +
         "".join(f"kept_heard all {ends} frames h = h\n" for ends in ["Null", "Mps", "Eop"]) +
         "kept_heard all Eom frames h = none_heard all\n\naccepts_from :\n"),
        (RUN_LAWS, "frames = none_heard all; octets = joined; pages = read }",
         "frames = kept_heard all ends s.frames h.frames; octets = joined; pages = read }"),
        (RUN_LAWS, "is_clear, confirms, new_answerer}", "is_clear, confirms, new_answerer, kept}"),
    ],
    "last frame not awaited": [
        (COUNTED, "last_counted None mark last = last\n", "last_counted None mark last = last - 1\n"),
        (COUNTED, "cond (same_mark asked.mark mark) (max asked.last last) last",
         "cond (same_mark asked.mark mark) (max asked.last (last - 1)) (last - 1)"),
        (COUNTED, "zero, suc, Bool", "zero, suc, ◌-◌, Bool"),
        (ASSEMBLER,
         "    pub fn counted(&self, pps: Pps) -> Pps\n"
         "        ensures { result ≡ record pps { last = last_counted (option_map asked_by self.now.asked) pps.mark pps.last } }\n    {\n",
         "    pub fn counted(&self, pps: Pps) -> Pps\n"
         "        ensures { result ≡ record pps { last = last_counted (option_map asked_by self.now.asked) pps.mark pps.last } }\n    {\n"
         "        let pps = Pps {\n            ends: pps.ends,\n            mark: pps.mark,\n"
         "            last: pps.last.saturating_sub(1),\n        };\n"),
    ],
    "confirmed when sent": [
        (CALLER_STEP, "-- the number of confirmed pages: those whose last block comes before the present one\nabbrev pub confirmed :",
         "-- a page that is under way counts too\n"
         "abbrev pub with_sent : CallerState → Option End → ℕ → ℕ → ℕ\n"
         "with_sent WaitBlock None pages count = cond (nat_lt pages count) (pages + 1) pages\n"
         "with_sent WaitBlock (Some why) pages count = pages\nwith_sent WaitReady ending pages count = pages\n"
         "with_sent WaitDis ending pages count = pages\nwith_sent WaitCfr ending pages count = pages\n\n"
         "-- the number of confirmed pages\nabbrev pub confirmed : Caller → ℕ\n"
         "confirmed c = with_sent c.state c.ending (pages_before (blocks_of c) c.place) (length c.document)\n\n"
         "-- the number of the page due\nabbrev pub due_page :"),
        (CALLER_STEP, "\nconfirmed c = pages_before (blocks_of c) c.place", "\ndue_page c = pages_before (blocks_of c) c.place"),
        (CALLER_STEP, "{ℕ, suc, false,", "{ℕ, suc, ◌+◌, length, false,"),
        (CALLER_STEP, "slice_get c.document (confirmed c)", "slice_get c.document (due_page c)"),
        (ROWS, "(confirmed t)", "(due_page t)"),
        (ROWS, "blocks_of, confirmed,", "blocks_of, due_page,"),
        (SPENDING, "(confirmed c)", "(due_page c)"),
        (SPENDING, "blocks_of, confirmed,", "blocks_of, due_page,"),
        # what is still true of it
        *[(f"{name}.antt", f"(confirmed {of})", f"(due_page {of})") for name, of in DUE],
        *[(f"{name}.antt", known, known.replace("confirmed", "due_page"))
          for (name, _), known in zip(DUE, ["Caller, confirmed,", *["blocks_of, confirmed"] * 7])],
        (HOW_FAR, "(slice_get t.document (confirmed t))", "(slice_get t.document (due_page t))"),
        (HOW_FAR, "{Caller, confirmed,", "{Caller, confirmed, due_page,"),
        (f"{KEEPS}.antt", "page_due : confirmed c", "page_due : due_page c"),
        (MOVES, "ap (λ b. pages_past b (confirmed c)) is ∙", "ap (λ b. pages_past b (due_page c)) is ∙"),
        (MOVES, "blocks_of, confirmed}", "blocks_of, confirmed, due_page}"),
        (CALLER, "slice_get t.document (confirmed t)", "slice_get t.document (due_page t)"),
        (CALLER, "0 < confirmed t", "0 < due_page t"),
        (CALLER, "answers_mcf, goes_on, caller_step", "answers_mcf, goes_on, due_page, caller_step"),
        (CALLER, "        self.page as u64\n",
         "        if !matches!(self.state, CallerState::WaitBlock) {\n            return self.page as u64;\n        }\n"
         "        if self.end.is_some() {\n            return self.page as u64;\n        }\n"
         "        if self.page < self.document.pages().len() {\n            self.page as u64 + 1\n        } else {\n"
         "            self.page as u64\n        }\n"),
    ],
    "normal end after MPS": [
        (STEP, "end_after Eop = Normal", "end_after Eop = Normal\nend_after Mps = Normal"),
        (ANSWERER, "PageEnd::Eop => End::Normal,", "PageEnd::Eop | PageEnd::Mps => End::Normal,"),
    ],
    "the line keeps what crosses a transmission": [
        (LINE, "to_answerer = w.to_answerer ++ items; to_caller = [] }", "to_answerer = w.to_answerer ++ items; to_caller = w.to_caller }"),
        (CALL, "        self.to_caller.clear();\n", ""),
        # the lemmas that join the two
        (SENT, "to_answerer = w.to_answerer ++ items; to_caller = [] }", "to_answerer = w.to_answerer ++ items; to_caller = w.to_caller }"),
        (SENT, "(new ≡ v.to_answerer ++ take made items)) → cleared ≡ [] →",
         "(new ≡ v.to_answerer ++ take made items)) → cleared ≡ v.to_caller →"),
        (SENT, "to_answerer = sym e; to_caller = sym gone }", "to_answerer = sym e; to_caller = shows.to_caller ∙ sym gone }"),
        (SENDS, "c.clear.new.self", "c.args.self.now.to_caller"),
        (SENDS, "c.clear.ensures", "refl"),
        (SENDS, "use Rattle.std.proofs.lemmas.Bool", "use Rattle.std.proofs.Common.{refl}\nuse Rattle.std.proofs.lemmas.Bool"),
    ],
}


def read(path):
    with open(path, encoding="utf-8") as file:
        return file.read()


def write(path, text):
    os.makedirs(os.path.dirname(path), exist_ok=True)
    with open(path, "w", encoding="utf-8") as file:
        file.write(text)


def copied(root, crates, kept):
    """A copy of the crates up to `line_sim`, with what their checks kept where it is asked for."""
    os.makedirs(crates)
    for name in LOWER + ["stations", "line_sim"]:
        leave = None if kept else shutil.ignore_patterns("out")
        shutil.copytree(f"{root}/crates/{name}", f"{crates}/{name}", symlinks=True, ignore=leave)
    top = os.path.dirname(crates)
    shutil.copy(f"{root}/HANDLES", top)
    rows = [row for row in read(f"{root}/crates.txt").split("\n") if row.split(":")[0] in LOWER + ["stations", "line_sim"]]
    write(f"{top}/crates.txt", "\n".join(rows + ([] if kept else [RUNS_USE])) + "\n")
    subprocess.run(["git", "init", "-q", top], check=True)


def renewed(root, crates, name):
    """The files of a crate as they are, but for what checks kept of the copy."""
    for entry in os.listdir(f"{crates}/{name}"):
        if entry != "out":
            path = f"{crates}/{name}/{entry}"
            shutil.rmtree(path) if os.path.isdir(path) else os.remove(path)
    shutil.copytree(f"{root}/crates/{name}", f"{crates}/{name}", dirs_exist_ok=True, ignore=shutil.ignore_patterns("out"))


# The crates that some body changes.
CHANGED = sorted({path.split("/")[0] for edits in WRONG.values() for path, _, _ in edits} | {"line_sim"})


def planted(root, crates, edits):
    """The crates with these edits, and no others."""
    for name in CHANGED:
        renewed(root, crates, name)
    for path, old, new in edits:
        text = read(f"{crates}/{path}")
        if old not in text:
            sys.exit(f"the text isn't in {path}: {old}")
        write(f"{crates}/{path}", text.replace(old, new))


def ran(words, folder):
    """Whether a command ends well, and its lines."""
    done = subprocess.run(QUEUE + words, cwd=folder, capture_output=True, text=True)
    return done.returncode == 0, (done.stdout + done.stderr).split("\n")


def told(lines):
    """What a check refused, shortly: the first three goals that became false, or if none did what it says of places in files."""
    found = goals(lines) or [line for line in places(lines) if "depend" not in line]
    return "\n    ".join(line[:240] for line in (found or lines)[:3])


def fallen(lines):
    """The clauses of the headline that have no proof then."""
    return ", ".join(sorted(set(re.findall(r"returns-clause-(\w+)", "\n".join(lines)))))


def refusing(lines):
    """The functions that a check has no proof of though all that they call is proved."""
    return re.findall(r"^fn (\S+): not proved$", "\n".join(lines), re.M)


def checked(edits, proofs):
    """Whether code meets its contracts with these edits, and which laws of the stations refuse it; it is told."""
    line_alone = any(path == CALL for path, _, _ in edits)
    command = ["rt", "check", "--only", "caller_sends"] if line_alone else ["rt", "check"]
    ended, lines = ran(command, f"{proofs}/{'line_sim' if line_alone else 'stations'}")
    laws = refusing(lines)
    alike = ended or bool(laws and goals(lines)) and all("::laws::" in name for name in laws)
    print(f"  alike: {'proved' if alike else told(lines)}", flush=True)
    if alike and laws:
        print(f"  laws: {', '.join(name.rpartition('::')[2] for name in laws)}\n    {told(lines)}", flush=True)
    return alike, laws


def stands(proofs):
    """Whether the headline is proved; None where no goal became false, so that only a text of a proof no longer fits. It is told."""
    ended, lines = ran(["rt", "check", "--only", "line_sim::laws::headline"], f"{proofs}/line_sim")
    safe = ended and are_proved(lines, 1)
    print(f"  headline: {'proved' if safe else told(lines)}", flush=True)
    print(f"  clauses: {'none falls' if safe else fallen(lines)}", flush=True)
    return safe if safe or goals(lines) else None


def judged(root, top, edits):
    """What is told of a body: whether its code meets its contracts, whether the headline stands, and whether some run isn't safe."""
    proofs, runs = f"{top}/proofs/crates", f"{top}/runs/crates"
    planted(root, proofs, edits)
    alike, laws = checked(edits, proofs)
    safe = False if laws else stands(proofs)
    planted(root, runs, edits)
    write(f"{runs}/runs/src/lib.rt", RUNS)
    write(f"{runs}/runs/src/tests.rt", read(f"{root}/bench/plant/wrong/runs.txt"))
    _, lines = ran(["rt", "try", "--test", "--seconds", "300"], f"{runs}/runs")
    # one that gives no answer in time isn't shown to be unsafe
    broken = re.findall(r"test tests::(\S+) \.\.\. FAILED(?!\n +checked: no-answer)", "\n".join(lines))
    ended = any(line.startswith("test result: ") for line in lines)
    print(f"  run: {', '.join(broken) if broken else 'all are safe' if ended else told(lines)}", flush=True)
    return alike, safe, bool(broken)


def tried(word=""):
    """Tries the bodies whose name has the word, and the right ones first: how many are refused, and how many there are."""
    root = os.path.dirname(os.path.dirname(os.path.dirname(os.path.abspath(__file__))))
    chosen = [("as it is", [])] + [body for body in WRONG.items() if word in body[0]]
    count = 0
    with tempfile.TemporaryDirectory(prefix="wrong-") as top:
        copied(root, f"{top}/proofs/crates", True)
        copied(root, f"{top}/runs/crates", False)
        for name, edits in chosen:
            print(name, flush=True)
            alike, safe, broken = judged(root, top, edits)
            if not edits and not (alike and safe and not broken):
                print("the right bodies are refused", flush=True)
                return 0, len(chosen) - 1
            count += bool(edits) and alike and safe is False and broken
    print(f"{count} of {len(chosen) - 1} bodies that are wrong in code and definition alike are refused by a law or the headline, and by a run")
    return count, len(chosen) - 1


def main():
    count, every = tried(sys.argv[1] if len(sys.argv) > 1 else "")
    return 0 if every and count == every else 1


# A command that the checks are run by, if there is one.
QUEUE = os.environ.get("QUEUE", "").split()
if __name__ == "__main__":
    sys.exit(main())
