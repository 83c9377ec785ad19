#!/usr/bin/env python3
"""Tests a T.30 station: plays a call for each line of `deviations`, in which the other station misbehaves, and prints a table.

    bench.py [--caller-command COMMAND] [--answerer-command COMMAND] [--only TEXT] [--list FILE] [--rules] [--judge COMMAND] [--seed N]
        [--faxtool PROGRAM] DIR

Each call has a folder in DIR with the pages that are stored, and the `log` of misbehave.py, which says how a command has to behave. The document
has two pages of random patterns. Of the station that isn't named ours is tested. A row has the deviation, the end, and the pages: those that
a caller counts as confirmed, and how many of them were stored if that is fewer; or those that an answerer stored. With `*` the list has
other pages, or for ours another end: those of a station that follows docs/STATION.md.
With --rules a row also has the rules that the station broke by `faxtool judge`, up to the first one that the other station broke: what comes
after that may follow from it. With --judge it has how many lines COMMAND prints of the log that is put after it.

The exit status is 0 if no row has a `*`, and no station was ended by a signal."""

import argparse
import json
import os
import random
import shlex
import subprocess
import sys

import misbehave

ROWS = 24


def document():
    """Two pages of random patterns, of some frames each."""
    chance = random.Random(86)
    page = [bytes(chance.choice((0, 0, 0, 255, 15, 60)) for _octet in range(216 * ROWS)) for _page in range(2)]
    return b"".join(b"P4\n1728 %d\n" % ROWS + octets for octets in page)


def deviations(path):
    """What each line of the list has: which station is tested, the lines of the script, the end and the pages."""
    with open(path, encoding="utf-8") as file:
        for line in file:
            if not line.startswith("#"):
                tested, script, wanted = (part.strip() for part in line.split("|"))
                yield tested, [part.strip() for part in script.split(";") if part.strip()], wanted


def named(script):
    """A script in a cell of the table."""
    return "; ".join(script) or "nothing"


def rules_broken(asked, log):
    """The rules that the station under test broke before the other one broke any, each once, or nothing without --rules."""
    if not asked.rules:
        return ""
    done = subprocess.run([asked.faxtool, "judge", "--json", log], stdout=subprocess.PIPE, text=True, check=False)
    records = [record for record in map(json.loads, done.stdout.splitlines()) if "rule" in record]
    others = [place for place, record in enumerate(records) if record["by"] != asked.test and not record["reading"]]
    own = [record["rule"] for record in records[: others[0] if others else None] if record["by"] == asked.test]
    return f" {', '.join(dict.fromkeys(own)) or '-'} |"


def judged(command, log):
    """How many lines a judge prints of a log, or nothing without one."""
    if not command:
        return ""
    done = subprocess.run(shlex.split(command) + [log], stdout=subprocess.PIPE, check=False)
    return f" {len(done.stdout.splitlines())} |"


def row(asked, number, tested, script, wanted):
    """Plays a call; the row of the table, and whether it is as the list has it."""
    folder = os.path.join(asked.folder, f"call-{number}")
    os.mkdir(folder)
    path = os.path.join(folder, "log")
    asked.test, asked.document = tested, os.path.join(asked.folder, "document.pbm")
    asked.command = asked.caller_command if tested == "caller" else asked.answerer_command
    # the answerer's pages lie in a folder of their own
    asked.pages = os.path.join(folder, "pages")
    os.mkdir(asked.pages)
    with open(path, "w", encoding="utf-8") as log:
        said, status = misbehave.call(asked, script, lambda text: print(text, file=log))
    words = said.split(" ") if said.startswith("end ") else ["", said, "", "-"]
    end, pages = " ".join(words[1:-2]), words[-1]
    stored = len([name for name in os.listdir(asked.pages) if name.startswith("page-")])
    if tested == "caller" and pages.isdigit() and stored < int(pages):
        pages += f" ({stored} stored)"
    wanted_end, _space, wanted_pages = wanted.partition(" ")
    # another station's ends have other names
    ends = " *" if end != wanted_end and not asked.command or status < 0 else ""
    others = " *" if pages != wanted_pages else ""
    text = f"| {tested} | {named(script)} | {end}{ends} | {pages}{others} |{rules_broken(asked, path)}{judged(asked.judge, path)}"
    return text, not ends and not others


def main():
    parser = argparse.ArgumentParser(description=__doc__, formatter_class=argparse.RawDescriptionHelpFormatter)
    parser.add_argument("--caller-command")
    parser.add_argument("--answerer-command")
    parser.add_argument("--only", default="", help="tests only deviations with this text")
    parser.add_argument("--list", default=os.path.join(os.path.dirname(os.path.abspath(__file__)), "deviations"))
    parser.add_argument("--rules", action="store_true")
    parser.add_argument("--judge")
    parser.add_argument("--seed", type=int, default=1)
    parser.add_argument("--faxtool", default="faxtool")
    parser.add_argument("folder", metavar="DIR")
    asked = parser.parse_args()
    asked.most = 1800
    with open(os.path.join(asked.folder, "document.pbm"), "wb") as file:
        file.write(document())
    more = [name for name, is_asked in ((" Rules |", asked.rules), (" Lines |", asked.judge)) if is_asked]
    print(f"| Tested | Deviation | End | Pages |{''.join(more)}\n|---|---|---|---|{'---|' * len(more)}")
    wrong = count = 0
    for tested, script, wanted in deviations(asked.list):
        if asked.only in f"{tested} {named(script)}":
            count += 1
            text, is_wanted = row(asked, count, tested, script, wanted)
            print(text, flush=True)
            wrong += not is_wanted
    print(f"\n{count} calls, {wrong} of them end otherwise than the list says")
    return 1 if wrong else 0


if __name__ == "__main__":
    sys.exit(main())
