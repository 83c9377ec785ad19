#!/usr/bin/env python3
"""Shows which rule of T.30 each wrong station breaks on some call, as `faxtool judge` says.

    bench/plant/guilty.py [--faxtool PROGRAM] [--station FILE] [--only TEXT] [--seeds N]

guilty.txt names the planted bugs. station.txt is built with all of them, without proof, each of which acts only in a process that chooses it:
that takes half a minute of processor. Then each plays calls with an unchanged station of PROGRAM, build/faxtool if not said: over a line
that loses, with pages of two widths, before a busy answerer; each of `deviations` in docs/examples, in which the unchanged station
misbehaves; with stations that can do less; with a page of two blocks. The first call counts in which the wrong station breaks a rule.
Prints the rows of guilty.txt as they come out. The station without a bug comes first, as both: a call in which it breaks a rule, since the
other one misbehaves, is left out. The calls of all bugs take some minutes.

With --station what is built stays in FILE, and isn't built again. Ends with status 1 if a row is otherwise than guilty.txt says. It needs the
kit, KIT if not /opt/rattle, and Python's standard library."""

import argparse
import json
import random
import re
import shutil
import subprocess
import sys
import tempfile
from pathlib import Path

sys.dont_write_bytecode = True
TOP = Path(__file__).resolve().parent.parent.parent
EXAMPLES = TOP / "docs" / "examples"
sys.path += [str(EXAMPLES), str(TOP / ".ci")]
import bench
import misbehave
from edits import pairs_of
from join import Side, Station

HERE = Path(__file__).resolve().parent
PLACES = [TOP / ".ci" / "must-fail", HERE / "edits", HERE / "said"]
SIDES = ["caller", "answerer"]
# The crates that the station is built of, as crates.txt has it.
LIBRARIES = "raster run_tables page_code signals partial_page stations hdlc terminals conversations hex"
# Whether the bug of a number was chosen, and the switch of the bugs, which the lowest crate gets.
IS_CHOSEN = "raster::bug::is({})"
BUG = """//! Which planted bug was chosen.

/// Whether the bug of this number was chosen.
pub fn is(number: i64) -> bool {
    libc::lseek(9, 0, libc::SEEK_CUR) == number
}
"""


def bugs():
    """The rows of guilty.txt: the station that errs, the bug, the rule and the call."""
    for line in (HERE / "guilty.txt").read_text().splitlines():
        if line and not line.startswith("#"):
            side, bug, rule, *call = line.split(" | ")
            yield side, bug, rule, call[0] if call else ""


def edit_of(bug):
    """The file of a bug."""
    return next(path for path in (place / f"{bug}.edit" for place in PLACES) if path.is_file())


# Options of the other station, and more scripts for an answerer: its caller has said 19 frames when the first page is confirmed.
OPTIONS = {
    "caller": ["--code mh", "--standard", "--widest 1728", "--modems fallback", "--modems v29"],
    "answerer": ["--frame 64", "--code mh", "--modems v27"],
}
SCRIPTS = [
    ["after 19", "no-fcd 1"],
    ["after 19", "no-fcd 1", "after 37", "no-fcd 1", "rr 1"],
    ["one-less 99", "some-lost 10"],
    ["one-less 99", "lose-heard 3"],
]
# What an edit can change, between what stays: a condition, a guard, the value of a `let`, of an arm, of a field, statements, an expression.
SHAPES = [r"(if )(.*)( \{)", r"(if )([^{]*)()", r"(let (?:mut )?\w+ = )(.*)(;)", r"(.* => )(.*)(,)", r"(\w+: )(.*)(,)", r"()(.*;)()", r"()(.*)()"]


def instead(old, news):
    """A text that does what one of the texts in `news` does if its bug was chosen, else what `old` does."""
    for shape in SHAPES:
        was, now = re.fullmatch(rf"\s*{shape}", old), [(re.fullmatch(rf"\s*{shape}", new), number) for number, new in news]
        if was and all(each and (each[1], each[3]) == (was[1], was[3]) for each, _number in now):
            break
    chosen = "".join(f"if {IS_CHOSEN.format(number)} {{ {each[2]} }} else " for each, number in now)
    if not now:
        return old
    # a condition, and an expression inside of another one
    begin, end = ("(", ")") if was[1] == "if " or not old.endswith((";", ",")) and not old.lstrip().startswith("if ") else ("", "")
    return f"{was[1]}{begin}{chosen}{{ {was[2]} }}{end}{was[3]}"


def switched(old, news):
    """The same; a text that begins or ends with the old one puts statements beside it."""
    before = [(number, new.removesuffix(old)) for number, new in news if new.endswith(old)]
    after = [(number, new.removeprefix(old)) for number, new in news if new.startswith(old) and old.endswith(";")]
    others = [(number, new) for number, new in news if not new.endswith(old) and not (new.startswith(old) and old.endswith(";"))]
    return "".join(aside(*each) for each in before) + instead(old, others) + "".join(aside(*each) for each in after)


def aside(number, statements):
    """Statements that run if the bug of this number was chosen; one alone can bind a name anew."""
    bound = re.fullmatch(r"\s*let (\w+) = ([^;]*);\s*", statements)
    if bound:
        return f" let {bound[1]} = if {IS_CHOSEN.format(number)} {{ {bound[2]} }} else {{ {bound[1]} }};"
    return f" if {IS_CHOSEN.format(number)} {{ {statements} }} "


def planted(crates, chosen):
    """Puts all bugs into copies of the crates, each of which acts if it is chosen."""
    texts = {}
    for number, bug in enumerate(chosen, 1):
        for file, old, new in pairs_of(edit_of(bug)):
            if file.startswith("src/"):
                texts.setdefault((crates / bug.split("/")[0] / file, old), []).append((number, new))
    for path in {path for path, _old in texts}:
        text = path.read_text()
        parts = [(text.find(old), old, news) for (where, old), news in texts.items() if where == path]
        # from the last one to the first one, so that no text that is put in is changed
        for at, old, news in sorted(parts, reverse=True):
            if at < 0 or text.count(old, 0, at + len(old)) != 1:
                sys.exit(f"guilty.py: {chosen[news[0][0] - 1]}: its text stands in {path.name} not at all, or more than once: {old}")
            text = text[:at] + switched(old, news) + text[at + len(old) :]
        path.write_text(text)


def build(chosen, out):
    """Builds the station with all bugs, none of which acts unless file 9 of the process is at the place of its number."""
    with tempfile.TemporaryDirectory() as folder:
        copy = Path(folder)
        shutil.copytree(TOP / "crates", copy / "crates", symlinks=True, ignore=shutil.ignore_patterns("out"))
        shutil.copytree(TOP / "packaging", copy / "packaging")
        shutil.copy(TOP / "HANDLES", copy)
        planted(copy / "crates", chosen)
        (copy / "crates" / "raster" / "src" / "bug.rt").write_text(BUG)
        library = copy / "crates" / "raster" / "src" / "lib.rt"
        library.write_text(re.sub(r"^mod ", "pub mod bug;\nmod ", library.read_text(), count=1, flags=re.M))
        (copy / "crates" / "bench_station" / "src").mkdir(parents=True)
        shutil.copy(HERE / "station.txt", copy / "crates" / "bench_station" / "src" / "main.rt")
        rows = (TOP / "crates.txt").read_text().replace("raster: ", "raster: libc ", 1)
        (copy / "crates.txt").write_text(f"{rows}bench_station: {LIBRARIES} libc\n")
        done = subprocess.run([copy / "packaging" / "build_unproved.sh", copy / "crates" / "bench_station", out], capture_output=True, text=True)
        if done.returncode:
            sys.exit(f"guilty.py: the station isn't built:\n{done.stderr}")


def images(chance, width, rows):
    """A page of random patterns."""
    octets = bytes(chance.choice((0, 0, 0, 255, 15, 60)) for _octet in range(width // 8 * rows))
    return b"P4\n%d %d\n" % (width, rows) + octets


def documents(folder):
    """The documents, by their names: two pages; two that are the same; two of different widths; one of more than 256 frames."""
    chance, made = random.Random(86), {}
    page = images(chance, 1728, 24)
    texts = {
        "two": page + images(chance, 1728, 24),
        "same": page + page,
        "widths": images(chance, 1728, 4) + images(chance, 2432, 4),
        "blocks": images(chance, 1728, 240),
    }
    for name, text in texts.items():
        made[name] = folder / f"{name}.pbm"
        made[name].write_bytes(text)
    return made


def calls(side, seeds):
    """The calls of a wrong station: the document, the other station's options, the script, whether the answerer is busy at times, a seed."""
    yield "two", [], [], False, 1
    for seed in range(1, seeds + 1):
        for document in ("two", "widths"):
            yield document, [], ["some-lost 10"], False, seed
        yield "two", [], ["some-lost 10"], True, seed
    for tested, script, _wanted in bench.deviations(EXAMPLES / "deviations"):
        if tested == side:
            yield "two", [], script, False, 1
    for script in SCRIPTS if side == "answerer" else []:
        yield "same", [], script, False, 1
    for options in OPTIONS[side]:
        yield "two", options.split(), [], False, 1
    for seed in range(1, 3):
        yield "blocks", [], ["some-lost 3"], False, seed


class Busied(misbehave.Tampered):
    """A line on which the answerer is busy at times."""

    def carry(self, sender, receiver):
        if receiver.station.name == "answerer" and sender.bursts[0].startswith("v21 "):
            word = "not-ready" if self.chance.random() < 0.4 else "ready"
            receiver.lines.append((self.clock, f"{word} {self.clock}"))
        super().carry(sender, receiver)


def play(station, side, faxtool, given, path, pages):
    """Plays a call of a wrong station with one of PROGRAM, whose log goes to a path."""
    document, options, script, is_busy, seed = given
    wrong = {"caller": [*station, "--call", document], "answerer": [*station, "--answer"]}
    right = {
        "caller": [faxtool, "station", "--call", "--frames", "--hear", *options, document],
        "answerer": [faxtool, "station", "--answer", "--frames", "--hear", *options, "--out", pages],
    }
    sides = [Side(Station(name, (wrong if name == side else right)[name])) for name in SIDES]
    with open(path, "w", encoding="ascii") as log:
        kind = Busied if is_busy else misbehave.Tampered
        # on a line that only loses nobody misbehaves: what is lost was said
        ours = sides[side == "caller"] if any(not each.startswith("some-lost ") for each in script) else None
        line = kind(sides, ours, misbehave.rules_of(script), seed, lambda text: print(text, file=log), 900)
        line.step = 100
        line.play()
    ends = [each.station.end() for each in sides]
    said, status = ends[side == "answerer"]
    if status < 0 or not said or not said[-1].startswith("end "):
        return f"the {side} failed, status {status}: {'; '.join(said)}"
    return ""


def broken_by(side, faxtool, path):
    """The first rule that a station broke, as `judge` says; None if it broke none."""
    judged = subprocess.run([faxtool, "judge", "--json", path], stdout=subprocess.PIPE, text=True, check=False)
    records = map(json.loads, judged.stdout.splitlines())
    return next((record["rule"] for record in records if record.get("by") == side), None)


def named(given):
    """A call in words."""
    document, options, script, is_busy, seed = given
    words = [document, " ".join(options), "; ".join(script), "busy" if is_busy else "", f"seed {seed}" if "some-lost" in " ".join(script) else ""]
    return ", ".join(word for word in words if word)


def found(command, side, faxtool, given, folder):
    """What a station broke in each of these calls: the call, and the rule or how it failed, or None."""
    made = documents(folder)
    for document, *rest in given:
        pages = folder / "pages"
        shutil.rmtree(pages, ignore_errors=True)
        pages.mkdir()
        failed = play(command, side, faxtool, (str(made[document]), *rest), folder / "log", str(pages))
        yield (document, *rest), failed or broken_by(side, faxtool, folder / "log")


def numbers_in(station, names):
    """The numbers of the bugs in a station, which is built if it isn't there or lacks one."""
    listed = Path(f"{station}.bugs")
    if not station.is_file() or not listed.is_file() or not set(names) <= set(listed.read_text().splitlines()):
        build(names, station)
        listed.write_text("".join(f"{name}\n" for name in names))
    return {name: number for number, name in enumerate(listed.read_text().splitlines(), 1)}


def main():
    parser = argparse.ArgumentParser(description=__doc__, formatter_class=argparse.RawDescriptionHelpFormatter)
    parser.add_argument("--faxtool", default=str(TOP / "build" / "faxtool"))
    parser.add_argument("--station", help="a file in which the station is left")
    parser.add_argument("--only", default="")
    parser.add_argument("--seeds", type=int, default=6)
    asked = parser.parse_args()
    rows, wrong = list(bugs()), 0
    with tempfile.TemporaryDirectory() as folder:
        station = Path(asked.station or f"{folder}/station").resolve()
        numbers = numbers_in(station, [bug for _side, bug, *_rule in rows])
        folder, command = Path(folder), ["sh", "-c", 'exec "$0" "$@" 9< "$0"', str(station)]
        right = {}
        for side in SIDES:
            told = list(found([*command, "0"], side, asked.faxtool, calls(side, asked.seeds), folder))
            right[side] = [call for call, broken in told if not broken]
            print(f"without a bug: a {side} breaks no rule in {len(right[side])} of {len(told)} calls", flush=True)
            for call, broken in told:
                if broken:
                    print(f"    left out: {named(call)}: {broken}")
        for side, bug, rule, where in rows:
            if asked.only not in bug:
                continue
            told = found([*command, str(numbers[bug])], side, asked.faxtool, right[side], folder)
            call, broken = next(((call, broken) for call, broken in told if broken), (None, None))
            is_wanted = (rule, where) == ((broken, named(call)) if broken else ("-", ""))
            wrong += not is_wanted
            print(f"{side} | {bug} | {f'{broken} | {named(call)}' if broken else '-'}{'' if is_wanted else '      is another row'}", flush=True)
    return 1 if wrong else 0


if __name__ == "__main__":
    sys.exit(main())
