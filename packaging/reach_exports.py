#!/usr/bin/env python3
"""Makes a library that exports functions to C a program that calls each of them, so that a build of the program has them:

    packaging/reach_exports.py CRATE > FILE.sed

CRATE is the folder of a copy of the crate: its src/lib.rt becomes src/main.rt. The program has no use but to be compiled, as
build_unproved.sh does: the values come from a loop without an end, and no call is made. Prints what sed is to do with the text of the
compiled module, so that it exports these functions by their names for C, and no main."""

import re
import sys
from pathlib import Path

NAME = re.compile(r'^pub extern "C" fn (\w+)\(', re.M)


def parameters(text, start):
    """How many parameters a function has, whose list begins at a place in the text."""
    depth, count, seen = 0, 0, False
    for letter in text[start:]:
        if letter in "([<":
            depth += 1
        elif letter in ")]>":
            if depth == 0:
                return count + seen
            depth -= 1
        elif letter == "," and depth == 0:
            count, seen = count + 1, False
            continue
        seen = seen or not letter.isspace()
    raise ValueError(f"a list of parameters has no end: {text[start:start + 80]}")


def main(folder):
    source = Path(folder) / "src"
    calls = []
    for file in sorted(source.rglob("*.rt")):
        text = file.read_text()
        for found in NAME.finditer(text):
            path = "::".join([*file.relative_to(source).with_suffix("").parts, found[1]])
            values = ", ".join(["any()"] * parameters(text, found.end()))
            calls.append(f"        crate::{path}({values});")
            inside = f'@"{Path(folder).name}::{path}"'
            print(f"s/^define internal \\(.*{inside}(\\)/define \\1/\ns/{inside}/@{found[1]}/g")
    print("s/^define \\([^@]*@main(\\)/define internal \\1/")
    root = (source / "lib.rt").read_text()
    never = "fn any<T>() -> T {\n    loop {}\n}\n\nfn reaches(now: bool) {\n    if now {\n" + "\n".join(calls) + "\n    }\n}\n"
    (source / "main.rt").write_text(f"{root}\n{never}\nfn main(_rt: HostRuntime) {{\n    reaches(false);\n}}\n")
    (source / "lib.rt").unlink()


if __name__ == "__main__":
    main(*sys.argv[1:]) if len(sys.argv) == 2 else sys.exit(__doc__)
