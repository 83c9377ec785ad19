#!/usr/bin/env python3
"""Writes what docs/PROOF.md has of the kit and of the built files:

    packaging/trust.py --write           writes these parts of docs/PROOF.md anew; that of the kit by the kit's own files
    packaging/trust.py --check           compares them, names what is other, and ends with status 1 then; a kit of another name that
                                         has the same rules, sources and compiler is the same kit
    packaging/trust.py --sources         prints the sum of the sources that the built files depend on
    packaging/trust.py --package NAME=FILE..   prints the page for a package that has these files

The sum of the sources is the SHA-256 of the lines `SUM  FILE` of each file, as sha256sum prints them, in the order of the names: src/,
specs/ and proofs/ of each crate, crates.txt, HANDLES, VERSION and what bindings/build.sh reads. Files that were built from other sources
than those here are not compared. KIT is where the kit lies, if not /opt/rattle. It needs Python's standard library alone."""

import hashlib
import os
import re
import sys
from pathlib import Path

TOP = Path(__file__).resolve().parent.parent
PAGE = TOP / "docs" / "PROOF.md"
KIT = Path(os.environ.get("KIT", "/opt/rattle"))
BUILT = {
    "faxtool": "crates/faxtool/out/faxtool",
    "libg3fax.a": "bindings/build/libg3fax.a",
    "libg3fax.so.0": "bindings/build/libg3fax.so.0",
}
NONE_BUILT = "No sums are kept here of these sources. `packaging/trust.py --write` writes them after the gate."


def sum_of(file):
    """The SHA-256 of a file."""
    return hashlib.sha256(Path(file).read_bytes()).hexdigest()


def sources_sum():
    """The sum of the sources, as the first lines say it."""
    files = [file for part in ("src", "specs", "proofs") for file in TOP.glob(f"crates/*/{part}/**/*") if file.is_file()]
    scripts = ("build.sh", "own_names.py", "from_header.py", "python/g3fax/_header.py")
    files += [TOP / name for name in ("crates.txt", "HANDLES", "VERSION", *(f"bindings/{name}" for name in scripts))]
    shapes = ("bindings/*.[ch]", "bindings/*.in", "bindings/include/*", "bindings/tests/older/*/*")
    files += [file for shape in shapes for file in TOP.glob(shape) if file.is_file()]
    names = sorted(str(file.relative_to(TOP)) for file in files)
    lines = "".join(f"{sum_of(TOP / name)}  {name}\n" for name in names)
    return hashlib.sha256(lines.encode()).hexdigest()


def parts_of(text):
    """The generated parts of the page: each name with its text."""
    return dict(re.findall(r"<!-- written: (\w+) -->\n(.*?)<!-- end -->\n", text, re.S))


def with_parts(text, parts):
    """The page with other parts."""
    for name, part in parts.items():
        text = re.sub(rf"(<!-- written: {name} -->\n).*?(<!-- end -->\n)", lambda found: found[1] + part + found[2], text, flags=re.S)
    return text


def kit_part():
    """What the kit says of itself."""
    lines = "".join((KIT / name).read_text() for name in ("KIT-ID", "WHAT"))
    return f"\n```text\n{lines}```\n\n"


def kit_name(text):
    """What the kit is called, and the rest of what it says of itself: the rules that it proves by, its sources and its compiler."""
    name, rest = re.search(r"(rattle-kit-\w+)((?: .*)?(?:\n.*)*)", text).groups()
    return name, rest


def sums_part(files):
    """The sums of files, and that of their sources."""
    rows = "".join(f"| `{name}` | {Path(file).stat().st_size} | `{sum_of(file)}` |\n" for name, file in files.items())
    return f"\nSum of the sources: `{sources_sum()}`.\n\n| File | Octets | SHA-256 |\n|---|---|---|\n{rows}\n"


def built_part():
    """The sums of the built files, where each is built."""
    files = {name: TOP / file for name, file in BUILT.items()}
    return sums_part(files) if all(file.is_file() for file in files.values()) else f"\n{NONE_BUILT}\n\n"


def check():
    """What is other than the page says."""
    parts = parts_of(PAGE.read_text())
    wrong = []
    here, rules = kit_name(kit_part())
    named, stated = kit_name(parts["kit"])
    if stated != rules:
        wrong.append("the kit")
    elif named != here:
        print(f"trust: this kit is called {here}, and {named} in docs/PROOF.md; the rules, the sources and the compiler are the same")
    if f"{named}{stated.splitlines()[0]}" not in (TOP / "README.md").read_text():
        wrong.append("the kit that the README names")
    kept = f"Sum of the sources: `{sources_sum()}`." in parts["built"]
    built = built_part()
    if kept and NONE_BUILT not in built and parts["built"] != built:
        wrong.append("the sums of the built files, of the same sources")
    if wrong:
        sys.exit(f"docs/PROOF.md: other than it says: {'; '.join(wrong)}. packaging/trust.py --write writes it anew")
    said = "the built files" if kept else "no built files, since the sources are other"
    print(f"trust: docs/PROOF.md has this kit and {said}")


def package(words):
    """The page for a package."""
    files = dict(word.split("=", 1) for word in words)
    given = [name for name, built in BUILT.items() if name in files and (TOP / files[name]).resolve() != TOP / built]
    said = f"These were given to the install by hand, so it is not known here what proved them: {', '.join(given)}.\n\n" if given else ""
    part = sums_part({name: TOP / file for name, file in files.items()})
    text = PAGE.read_text().replace("](../.ci/public_clauses.txt)", "](../public_clauses.txt)")
    return with_parts(text, {"built": f"\n{said}{part.lstrip()}" if said else part})


def main(words):
    if words == ["--write"]:
        parts = {"kit": kit_part(), "built": built_part()}
        PAGE.write_text(with_parts(PAGE.read_text(), parts))
    elif words == ["--check"]:
        check()
    elif words == ["--sources"]:
        print(sources_sum())
    elif words[:1] == ["--package"] and all("=" in word for word in words[1:]):
        print(package(words[1:]), end="")
    else:
        sys.exit(__doc__)


if __name__ == "__main__":
    main(sys.argv[1:])
