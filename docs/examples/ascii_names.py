#!/usr/bin/env python3
"""Makes a link for each file whose name isn't UTF-8, which faxtool can't open, and gives the names that it can:

    find in -type f -print0 | ./ascii_names.py LINKS 2> renamed | faxtool decode --each pages --null --from -

Names are read from standard input, each before an octet of 0, and written so to standard output: one that isn't UTF-8 as that of a
symbolic link below the folder LINKS. Folders are made. The link has the file's name and folders, without the root, `.` and what is empty;
`%HH` stands for each octet of `..`, for `%` and for what isn't printable ASCII. So `urllib.parse.unquote_to_bytes` gives the name back. A
line of standard error has both names, with `\\xHH` for an octet of the old one. A link that is there and leads to the file is taken;
nothing is replaced. Status 1: a link can't be made, and its name is left out; or LINKS can't be made. Status 2: wrong words."""

import os
import sys

OCTETS = 65536


def names():
    """The names of standard input, as they come."""
    rest = b""
    while octets := sys.stdin.buffer.read1(OCTETS):
        *whole, rest = (rest + octets).split(b"\0")
        yield from whole
    yield rest


def is_text(name):
    try:
        name.decode()
    except UnicodeDecodeError:
        return False
    return True


def is_kept(octet, part):
    """Whether an octet of a part of a name stands for itself in the link's name: it is printable ASCII, no `%`, and not in `..`."""
    return 32 <= octet < 127 and octet != 37 and part != b".."


def ascii_name(name):
    """The name of a link, below LINKS."""
    parts = [part for part in name.split(b"/") if part not in (b"", b".")]
    return "/".join("".join(chr(octet) if is_kept(octet, part) else f"%{octet:02x}" for octet in part) for part in parts)


def shown(name):
    """A name on one line, as faxtool shows it."""
    return "".join("\\\\" if octet == 92 else chr(octet) if 32 <= octet < 127 else f"\\x{octet:02x}" for octet in name)


def linked(folder, name):
    """The name of the link to a file, which is made if it isn't there."""
    link, target = os.path.join(folder, ascii_name(name).encode()), os.path.join(os.getcwdb(), name)
    os.makedirs(os.path.dirname(link), exist_ok=True)
    try:
        os.symlink(target, link)
    except FileExistsError:
        if not os.path.islink(link) or os.readlink(link) != target:
            raise
    return link


def given(folder, name):
    """The name that faxtool can open: that of the file, or of its link. None if no link can be made; then a line says why."""
    if is_text(name):
        return name
    try:
        link = linked(folder, name)
    except OSError as error:
        print(f"{shown(name)}: no link: {error.strerror}", file=sys.stderr)
        return None
    print(f"{shown(name)}: {shown(link)}", file=sys.stderr)
    return link


def main(words):
    if len(words) != 1 or words[0].startswith("-"):
        print("usage: ascii_names.py LINKS < NAMES", file=sys.stderr)
        return 2
    folder, are_all = os.fsencode(words[0]), True
    try:
        if not is_text(folder):
            raise OSError(None, "its name isn't UTF-8")
        os.makedirs(folder, exist_ok=True)
        for name in filter(None, names()):
            opened = given(folder, name)
            if opened:
                sys.stdout.buffer.write(opened + b"\0")
            are_all = are_all and bool(opened)
        sys.stdout.flush()
    except OSError as error:
        print(f"ascii_names.py: {shown(folder)}: {error.strerror}", file=sys.stderr)
        # what is left to print goes nowhere, so that nothing is said of it at the end
        os.dup2(os.open(os.devnull, os.O_WRONLY), 1)
        return 1
    return 0 if are_all else 1


if __name__ == "__main__":
    sys.exit(main(sys.argv[1:]))
