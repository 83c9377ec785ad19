#!/usr/bin/env python3
"""Writes the man pages of the library for C, by group, from the comments of bindings/g3fax.h:

    docs/man/make_library.py            writes docs/man/g3fax_*.3; the examples of the pages are those of docs/man/examples
    docs/man/make_library.py --check    writes nothing; names each file that would be another, and ends with status 1 then

Each function, struct and list of numbers of the header stands in one page, with the comment before it. A name that no page takes ends the
script with status 1; so does a status that bindings/tests has of a function and its page hasn't, or what isn't as in a version that is out.
It needs Python's standard library alone."""

import re
import sys
import textwrap
from pathlib import Path

TOP = Path(__file__).resolve().parent.parent.parent
sys.path.insert(0, str(TOP / "bindings"))
import from_header  # noqa: E402

COMMENT = re.compile(r"/\*.*?\*/", re.S)
FUNCTION = re.compile(r"^(?:G3_CHECK )?[\w ]+?[ *](g3_\w+)\(.*\);$", re.S)
#: what a page is of, and which names it takes: the first that fits
GROUPS = [
    ("rows", "pages coded and read row by row", r"g3_row_"),
    ("frames", "frames of HDLC, found in bits and written", r"g3_deframer|g3_frame_|g3_counts"),
    ("signals", "what the contents of frames say, and what two stations agree on",
     r"g3_signal|g3_agree|g3_dis|g3_dcs|g3_params|g3_block|G3_DIS|G3_V29_ALONE|G3_BLOCK_ALONE|G3_CALLER|G3_NO_RECEIVER"),
    ("terminals", "documents, and the two stations of a call",
     r"g3_document|g3_terminal|g3_answerer|g3_caller|g3_caps|g3_wish|g3_wait|g3_burst|g3_state|g3_progress|g3_figures|g3_carrier|g3_end|"
     r"G3_V27TER|G3_T1|G3_QUIET|G3_NEXT|G3_V21|G3_HEARS|G3_END|G3_REFUSED"),
    ("pages", "pages, their codes and images, octets, statuses and the version",
     r"g3_page|g3_pixels|g3_octets|g3_size|g3_code|g3_raster|g3_found|g3_identify|g3_status|g3_version|G3_FOUND|G3_OK|G3_MH|G3_MSB_FIRST|G3_VERSION|"
     r"G3_EMPTY|G3_INIT|G3_CHECK"),
]
#: how the names of two functions end that have one comment
TOGETHER = [("_free", "_free"), ("_wrong", "_wrong"), ("_version", "_version_number"), ("_pack", "_unpack"), ("_read_pbm", "_write_pbm"),
            ("_carrier_name", "_carrier_rate")]


class Item:
    """A declaration of the header: its text, the names that it is found by, and the comment before it."""

    def __init__(self, text, comment):
        self.text, self.comment = text, comment
        function = FUNCTION.match(text)
        self.function = function and function[1]
        named = re.search(r"\} (\w+);$|^#define (\w+)|\b(G3_\w+) =", text)
        self.name = self.function or next(name for name in named.groups() if name)

    def group(self):
        """The page that takes it."""
        found = [name for name, _, names in GROUPS if re.match(names, self.name)]
        if not found:
            sys.exit(f"make_library.py: no page takes {self.name}")
        return found[0]


def words(comment):
    """A comment as lines of words, without its marks."""
    inside = re.sub(r"^ ?\* ?", "", comment[2:-2].strip(), flags=re.M)
    return " ".join(inside.split())


def items(header):
    """The declarations of the header, in order."""
    body = header[header.index("/* The version of this header"):header.rindex("#ifdef __cplusplus")]
    # the side of C: what C++ has in its place is after #else
    body = re.sub(r"^#ifndef __cplusplus\n(.*?)^#else\n.*?^#endif\n", r"\1", body, flags=re.M | re.S)
    comment, at, found = None, 0, []
    while at < len(body):
        rest = body[at:]
        if rest[0].isspace():
            # what comes after an empty line has no comment but its own
            comment = None if rest.startswith("\n\n") else comment
            at += 1
            continue
        block = COMMENT.match(rest)
        if block:
            comment, at = words(block[0]), at + block.end()
            continue
        if rest[0] == "#":
            line = re.match(r"#\w+(?:[^\n\\]|\\.|\\\n)*", rest)[0]
            at += len(line)
            if re.match(r"#define G3_(VERSION_NUMBER|EMPTY|INIT|EMPTY_OF)\b", line) and line.split("(")[0] not in [
                    item.text.split("(")[0] for item in found]:
                found.append(Item(line, comment))
            continue
        end = rest.index("};") + 2 if rest.startswith("enum") else None
        if rest.startswith("typedef struct"):
            end = re.match(r"typedef struct \w+ \{.*?\} \w+;", rest, re.S).end()
        end = end or rest.index(";") + 1
        if rest.startswith("typedef uint32_t g3_status"):
            at += end
            continue
        after = re.match(r"[ ]*(/\*.*?\*/)\n", rest[end:])
        found.append(Item(rest[:end], words(after[1]) if after else comment))
        at += end + (after.end() if after else 0)
    return found


def escaped(text):
    """Text as roff takes it."""
    text = text.replace("\\", "\\e").replace("-", "\\-")
    return "\n".join("\\&" + line if line[:1] in (".", "'") else line for line in text.split("\n"))


def broken(text, width):
    """A declaration in lines of a width: a long line breaks after a comma or a semicolon."""
    lines = []
    for line in text.split("\n"):
        margin = re.match(" *", line)[0]
        while len(line) > width:
            at = max(line.rfind(", ", 0, width), line.rfind("; ", 0, width))
            if at <= len(margin):
                sys.exit(f"make_library.py: a line of more than {width} columns: {line}")
            lines.append(line[:at + 1])
            line = f"{margin}    {line[at + 2:]}"
        lines.append(line)
    return "\n".join(lines)


def unbroken(text, width):
    """A text whose lines are to stay as they are, none of them longer than a width."""
    for line in text.split("\n"):
        if len(line) > width:
            sys.exit(f"make_library.py: a line of more than {width} columns: {line}")
    return text


def narrow(text, width):
    """A declaration in lines of a width: the comment of a long line stands before it."""
    lines = []
    for line in text.split("\n"):
        found = re.fullmatch(r"( *)(.*?) *(/\*.*\*/)", line)
        if len(line) > width and found:
            margin, line, comment = found[1], found[1] + found[2], words(found[3])
            told = textwrap.wrap(comment, width - len(margin) - 6, break_on_hyphens=False)
            last = len(told) - 1
            lines += [f"{margin}{' *' if row else '/*'} {part}{' */' if row == last else ''}" for row, part in enumerate(told)]
        lines += broken(line, width).split("\n") if line.strip() else []
    return "\n".join(lines)


def shaped(names):
    """The statuses that these functions have by their shape: by handles, addresses, room, sizes and spare words."""
    header = from_header.Header((TOP / "bindings/g3fax.h").read_text())
    found = {"G3_OK"}
    for kind, name, parameters in header.functions:
        for written, word in parameters if kind == "g3_status" and name in names else []:
            pointed = re.sub(r"const |[* ]", "", written) if "*" in written else ""
            if pointed in header.handles:
                found |= {"G3_EMPTY_HANDLE", "G3_OTHER_HANDLE", "G3_NO_MEMORY"} | ({"G3_FULL_HANDLE"} if word == "out" else set())
            elif pointed in header.structs:
                found |= {"G3_NO_ADDRESS", "G3_NEWER_STRUCT"} | ({"G3_BAD_SIZE"} if pointed in header.sized else set())
            elif pointed:
                found |= {"G3_NO_ADDRESS"}
            found |= {"room": {"G3_NO_ROOM"}, "length": {"G3_BAD_LENGTH"}}.get(word, set())
    return found


def statuses(chosen):
    """The numbers and texts of the statuses of the functions of a page: those that comments name, and those of their shape."""
    comments = " ".join(item.comment or "" for item in chosen if item.function)
    named = set(re.findall(r"\bG3_\w+", comments)) | shaped([item.function for item in chosen])
    table = (TOP / "crates/g3fax/src/texts.rt").read_text().split("const STATUSES")[1].split("\n];")[0]
    texts = {int(number): text for number, text in re.findall(r'Text\(\s*(\d+),\s*b"(.*)\\0"', table)}
    listed = re.search(r"enum g3_status_number \{.*?\};", (TOP / "bindings/g3fax.h").read_text(), re.S)[0]
    coded = "10 to 18" in comments
    return [(number, name, texts[number]) for name, number in from_header.numbers(listed).items()
            if name in named or coded and 10 <= number <= 18]


def untold(found, tests):
    """Each status that tests have of a function, and that the function's page doesn't list."""
    pages = {item.function: item.group() for item in found if item.function}
    listed = {group: [name for _, name, _ in statuses([item for item in found if item.group() == group])] for group, _, _ in GROUPS}
    shown = {(name, status) for status, name in re.findall(r"\bIS\((G3_\w+), (g3_\w+)\(", tests)}
    shown |= {(name, status) for name in re.findall(r"\bSPARES\([^,]*, (g3_\w+)\(", tests) for status in ("G3_NEWER_STRUCT",)}
    shown |= {(name, status) for name in re.findall(r"\bSIZES\([^,]*, (g3_\w+)\(", tests) for status in ("G3_BAD_SIZE", "G3_NEWER_STRUCT")}
    return [f"g3fax_{pages[name]} doesn't list {status}, which {name} answers" for name, status in sorted(shown)
            if name in pages and status not in listed[pages[name]]]


def bare(found):
    """Each function and struct without a comment; and each function that has that of another one, unless their names say that it is of both."""
    last = None
    for item in found:
        if not item.comment:
            yield f"{item.name} has no comment"
        shared = last and last.function and item.function and last.comment == item.comment
        if shared and not any(last.function.endswith(one) and item.function.endswith(other) for one, other in TOGETHER):
            yield f"{item.name} has the comment of {last.name}"
        last = item


def elsewhere(group, chosen, found, example):
    """The types, numbers and macros that a page names and another page has, a line for each such page."""
    text = "\n".join([*[f"{item.text} {item.comment}" for item in chosen], example])
    places = {}
    for item in found:
        tag = re.match(r"enum \w+", item.text)
        names = re.findall(r"\b(G3_\w+) =", item.text) if tag else [item.name]
        if not item.function and item.group() != group and "G3_OK" not in names and re.search(rf"\b({'|'.join(names)})\b", text):
            places.setdefault(item.group(), []).append(tag[0] if tag else item.name)
    return [f"\\fBg3fax_{place}\\fP(3) has \\fB" + "\\fP, \\fB".join(names) + "\\fP." for place, names in places.items()]


def page(group, about, found, version, date):
    """A man page."""
    chosen = [item for item in found if item.group() == group]
    functions = [item.function for item in chosen if item.function]
    others = [f"\\fBg3fax_{name}\\fP(3)" for name, _, _ in GROUPS if name != group]
    named = f"{', '.join([f'g3fax_{group}', *functions])} \\- {about}"
    lines = ['.\\" Written by docs/man/make_library.py from bindings/g3fax.h.', f'.TH G3FAX_{group.upper()} 3 {date} "libg3fax {version}"',
             ".nh", ".ad l", ".SH NAME", "\n".join(textwrap.wrap(named, 72, break_on_hyphens=False)),
             ".SH LIBRARY", ".nf", "cc program.c $(pkg\\-config \\-\\-cflags \\-\\-libs g3fax), or \\-lg3fax", ".fi",
             ".SH SYNOPSIS", ".nf", "\\fB#include <g3fax.h>\\fP", ""]
    lines += [escaped(broken(re.sub(r"^G3_CHECK ", "", item.text), 72)) for item in chosen if item.function]
    lines += [".fi", ".SH DESCRIPTION"]
    for comment, several in grouped(chosen):
        if comment:
            lines += [".PP", *textwrap.wrap(escaped(comment), 78, break_on_hyphens=False)]
        shown = [item for item in several if not item.function]
        names = [item.function for item in several if item.function]
        if names:
            lines += [".RS", *[f".br\n\\fB{name}\\fP()" for name in names], ".RE"]
        for item in shown:
            lines += [".RS", ".nf", escaped(narrow(item.text, 65)), ".fi", ".RE"]
    example = unbroken((TOP / f"docs/man/examples/{group}.c").read_text(), 73)
    types = elsewhere(group, chosen, found, example)
    if types:
        lines += [".SH TYPES", *[line for words in types for line in textwrap.wrap(words, 78, break_on_hyphens=False)]]
    lines += [".SH STATUSES", "README.md of the library says which comes when, what isn't defined, and who owns what."]
    for number, name, text in statuses(chosen):
        lines += [".TP", f"\\fB{name}\\fP, {number}", escaped(text)]
    lines += [".SH EXAMPLE", ".nf", escaped(example.rstrip("\n")), ".fi", ".SH SEE ALSO", ", ".join(others)]
    return "\n".join(lines) + "\n"


def grouped(chosen):
    """The declarations with one comment, in order."""
    told = []
    for item in chosen:
        if told and told[-1][0] == item.comment:
            told[-1][1].append(item)
        else:
            told.append((item.comment, [item]))
    return told


def faults():
    """What the header's readers would miss: a comment, a status in its page, room in a struct, or what the record of a version has."""
    tests = [*sorted((TOP / "bindings/tests").glob("*.c")), TOP / "bindings/c/misuse.c"]
    header = (TOP / "bindings/g3fax.h").read_text()
    return [*untold(items(header), "\n".join(file.read_text() for file in tests)), *bare(items(header)), *from_header.shape_faults(header),
            *from_header.record_faults(from_header.records(), header, (TOP / "CHANGELOG.md").read_text())]


def main():
    """Writes or compares the pages."""
    found = items((TOP / "bindings/g3fax.h").read_text())
    version = (TOP / "VERSION").read_text().strip()
    date = re.search(r"^## (?:.*, )?(\d{4}-\d\d-\d\d)$", (TOP / "CHANGELOG.md").read_text(), re.M)[1]
    files = {TOP / f"docs/man/g3fax_{group}.3": page(group, about, found, version, date)
             for group, about, _ in GROUPS}
    others = []
    for file, text in files.items():
        if sys.argv[1:] != ["--check"]:
            file.write_text(text)
        elif not file.is_file() or file.read_text() != text:
            others.append(f"{file.relative_to(TOP)} would be another")
    others += faults()
    for line in others:
        print(f"make_library.py: {line}")
    sys.exit(1 if others else 0)


if __name__ == "__main__":
    main() if sys.argv[1:] in ([], ["--check"]) else sys.exit(__doc__)
