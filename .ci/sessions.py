#!/usr/bin/env python3
"""Runs the command lines of documents with a built program, and compares what they print with what the documents show:

    .ci/sessions.py PROGRAM DOCUMENT..

Each document's lines run in a copy of docs/examples of their own, where `faxtool` is the program. In a block that is fenced as `console`
a line that begins with `$ ` is a command, one that begins with `> ` goes on with it, and the lines up to the next command are all that it
prints, on standard output and standard error; a line `...` stands for any lines. In a table each cell that is a `faxtool` command is run:
it must end with status 0 and say nothing on standard error, but how a station's call ended. No command is ended by a signal. Blocks of
another name are not run.
A pipe whose second command ends before `faxtool` has written all, as `head` does, is refused: whether `faxtool` then says that its output
was closed is another thing in each run.
A command with `jq` is named and left out where there is none. Prints how many commands there are, or the first difference, and ends with
status 1 then. It needs Python's standard library alone."""

import os
import re
import shutil
import subprocess
import sys
import tempfile
from pathlib import Path

TOP = Path(__file__).resolve().parent.parent
BLOCK = re.compile(r"^```console\n(.*?)^```$", re.M | re.S)
CELL = re.compile(r"^\|.*?`(faxtool [^`]*)`", re.M)
ENDS_EARLY = re.compile(r"faxtool [^|;\n]*\| *(head|grep -\w*q|sed [^|]*q)\b")
# A station tells what happens, with the time, and how its call ended, after its figures, which is no error.
ENDED = re.compile(r"(\d+ (page|gap|heard) .*\n)*\d+ s; .*\nend normal (pages|confirmed) \d+\n")


def sessions(text):
    """Each command of the document in order, with the lines that it prints, or None where that is not shown."""
    found = [(block.start(), commands_of(block[1])) for block in BLOCK.finditer(text)]
    found += [(cell.start(), [(cell[1], None)]) for cell in CELL.finditer(text)]
    return [command for _, commands in sorted(found, key=lambda one: one[0]) for command in commands]


def commands_of(block):
    """The commands of a block, each with the lines that it prints."""
    commands = []
    for line in block.splitlines():
        if line.startswith("$ "):
            commands.append((line[2:], []))
        elif line.startswith("> ") and not commands[-1][1]:
            commands[-1] = (commands[-1][0] + "\n" + line[2:], [])
        else:
            commands[-1][1].append(line)
    return commands


def are_shown(printed, shown):
    """The lines are those shown, where `...` stands for any."""
    pattern = "".join(r"(?:.*\n)*?" if line == "..." else re.escape(line) + "\n" for line in shown)
    return re.fullmatch(pattern, printed) is not None


def run(command, folder, status, errors):
    """What a command prints, its errors, and its status. The status of the command before it is `$?` for it."""
    environment = dict(os.environ, PATH=f"{folder / 'bin'}:{os.environ['PATH']}", LC_ALL="C")
    done = subprocess.run(
        ["sh", "-c", f"cd '{folder / 'work'}' && (exit {status})\n{command}"],
        env=environment, stdin=subprocess.DEVNULL, stdout=subprocess.PIPE, stderr=errors, timeout=60,
    )  # fmt: skip
    return done.stdout.decode(), (done.stderr or b"").decode(), done.returncode


def try_document(program, document):
    """Runs all commands of a document, and answers how many they are."""
    commands = sessions(document.read_text())
    with tempfile.TemporaryDirectory() as name:
        folder = Path(name)
        (folder / "bin").mkdir()
        (folder / "bin" / "faxtool").symlink_to(program)
        shutil.copytree(TOP / "docs" / "examples", folder / "work")
        status = 0
        for command, shown in commands:
            if "| jq " in command and shutil.which("jq") is None:
                print(f"{document.name}: there is no jq, so this was not run: {command}", file=sys.stderr)
                continue
            if ENDS_EARLY.search(command):
                sys.exit(f"{document.name}: `{command}` doesn't read all that `faxtool` writes")
            printed, errors, status = run(command, folder, status, subprocess.PIPE if shown is None else subprocess.STDOUT)
            # of a signal, by the shell's count, or by Python's where the shell was the program
            if status > 128 or status < 0:
                sys.exit(f"{document.name}: `{command}` ended with status {status}")
            if shown is None and (status != 0 or errors and not ENDED.fullmatch(errors)):
                sys.exit(f"{document.name}: `{command}` ended with status {status}:\n{errors}")
            if shown is not None and not are_shown(printed, shown):
                sys.exit(f"{document.name}: `{command}` printed other lines than the document shows:\n{printed}")
    return len(commands)


def main(words):
    if len(words) < 2:
        print(__doc__)
        return 2
    program = Path(words[0]).resolve()
    counts = {document: try_document(program, Path(document).resolve()) for document in words[1:]}
    for document, count in counts.items():
        if count < 5:
            sys.exit(f"{document}: it has {count} commands, and not 5 or more")
    print(sum(counts.values()))
    return 0


sys.exit(main(sys.argv[1:]))
