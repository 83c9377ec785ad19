#!/usr/bin/env python3
"""Holds the example in the README of each crate against the crate `uses`:

    .ci/examples.py

Each block that is fenced as `rust` in crates/*/README.md is a function of crates/uses/src, word for word, with its `///` lines; each that
is fenced as `c` there is one of bindings/c. Each library with definitions has such a block. The programs of bindings/README.md are whole:
`.ci/bindings.sh` runs them. Prints what is wrong and ends with status 1, or prints how many there are."""

import re
import sys
from pathlib import Path

TOP = Path(__file__).resolve().parent.parent
CRATES = TOP / "crates"
BINDINGS = TOP / "bindings"
BLOCK = re.compile(r"^```(rust|c)\n(.*?)^```$", re.M | re.S)
FILES = {"rust": (CRATES / "uses" / "src").glob("*.rt"), "c": (BINDINGS / "c").glob("*.c")}
sources = {language: "".join(file.read_text() for file in sorted(files)) for language, files in FILES.items()}
count = 0
faults = []
for folder in sorted(CRATES.iterdir()):
    readme = folder / "README.md"
    blocks = BLOCK.findall(readme.read_text()) if readme.exists() else []
    count += len(blocks)
    for language, block in blocks:
        if f"\n{block}" not in sources[language]:
            faults.append(f"{folder.name}: an example isn't in crates/uses or bindings/c: {block.splitlines()[0]}")
    if not blocks and (folder / "specs").is_dir() and (folder / "src" / "lib.rt").exists():
        faults.append(f"{folder.name}: its README has no example")
for fault in faults:
    print(f"examples: {fault}")
if faults:
    sys.exit(1)
print(f"examples: {count} are functions of crates/uses and bindings/c")
