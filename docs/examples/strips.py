#!/usr/bin/env python3
"""Writes each strip of a fax TIFF as it stands into a new file, and prints the command that decodes it:

    strips.py page.tif FOLDER

A strip of T.4 or T.6 is a coded page: nothing is decoded here, so no damage is hidden. No file that is there is written. Status 1: a page has
another code, the TIFF is damaged, or a file can't be read or written; the strips before it are there. Status 2: wrong words."""
import os
import shlex
import stat
import struct
import sys
from pathlib import Path

MOST_PAGES = 65_535
# A place in a TIFF has 32 bits.
MOST_OCTETS = 2**32
# Tags of a page.
WIDTH, COMPRESSION, PHOTOMETRIC, FILL_ORDER, PLACES, LENGTHS, T4_OPTIONS = 256, 259, 262, 266, 273, 279, 292


class Tiff:
    """The octets of a TIFF. What is read of them is counted, since parts that don't overlap have no more octets than the file."""

    def __init__(self, octets):
        self.end = {b"II*\0": "<", b"MM\0*": ">"}.get(octets[:4])
        if not self.end:
            raise ValueError("it is no TIFF")
        self.octets, self.left = octets, len(octets)

    def numbers(self, kinds, at):
        """The numbers at a place, of 16 bits (H) or 32 (I)."""
        length = struct.calcsize(self.end + kinds)
        if at + length > len(self.octets):
            raise ValueError("it is cut short")
        return struct.unpack_from(self.end + kinds, self.octets, at)

    def takes(self, length):
        """Counts octets of a part."""
        self.left -= length
        if self.left < 0:
            raise ValueError("its parts overlap")

    def pages(self):
        """The tags of each page, by number: the kind, how many values there are, and the place of the entry's last four octets."""
        (at,), seen = self.numbers("I", 4), set()
        if not at:
            raise ValueError("it has no page: what wrote it didn't end")
        while at:
            if at in seen or len(seen) == MOST_PAGES:
                raise ValueError("its pages lead back to an earlier one" if at in seen else f"it has more than {MOST_PAGES} pages")
            seen.add(at)
            (count,) = self.numbers("H", at)
            (follows,) = self.numbers("I", at + 2 + 12 * count)
            self.takes(2 + 12 * count + 4)
            entries = [(*self.numbers("HHI", at + 2 + 12 * entry), at + 10 + 12 * entry) for entry in range(count)]
            yield {tag: (kind, many, place) for tag, kind, many, place in entries}
            at = follows

    def values(self, tags, tag, default=None):
        """The values of a tag, of 16 or 32 bits."""
        kind, many, place = tags.get(tag, (3, 0, 0))
        if not many and default is not None:
            return default
        if kind not in (3, 4) or not many:
            raise ValueError(f"tag {tag} is missing or wrong")
        kinds = f"{many}{'HI'[kind - 3]}"
        length = struct.calcsize(self.end + kinds)
        if length <= 4:
            return self.numbers(kinds, place)
        found = self.numbers(kinds, *self.numbers("I", place))
        self.takes(length)
        return found

    def strips(self, tags):
        """The octets of a page's strips."""
        places, lengths = self.values(tags, PLACES), self.values(tags, LENGTHS)
        if len(places) != len(lengths):
            raise ValueError(f"it has {len(places)} places of strips and {len(lengths)} lengths")
        for place, length in zip(places, lengths):
            if not length or place + length > len(self.octets):
                raise ValueError("a strip is empty, or lies outside the file")
            self.takes(length)
            yield self.octets[place : place + length]


def says(words):
    if sys.stderr:
        print(words, file=sys.stderr)


def prints(line):
    """Prints a line at once. If that can't be done, nothing more is printed."""
    try:
        print(line, flush=True)
    except OSError as error:
        os.dup2(os.open(os.devnull, os.O_WRONLY), sys.stdout.fileno())
        raise ValueError(f"its commands can't be printed: {error.strerror}") from error


def write_new(name, octets):
    """Writes a file that isn't there yet; none stays that isn't whole."""
    with open(name, "xb") as file:
        try:
            file.write(octets)
            file.close()
        except BaseException:
            os.remove(name)
            raise


def write_page(tiff, tags, stem):
    """Writes the strips of a page, and prints their commands. Returns the name of its code if it is one that faxtool doesn't read."""
    (compression,), (options,) = tiff.values(tags, COMPRESSION)[:1], tiff.values(tags, T4_OPTIONS, (0,))[:1]
    code = {3: "mr" if options & 1 else "mh", 4: "mmr"}.get(compression, f"compression {compression}")
    if code not in ("mh", "mmr"):
        return code
    order = "lsb" if tiff.values(tags, FILL_ORDER, (1,)) == (2,) else "msb"
    words = f"--code {code} --order {order} --width {tiff.values(tags, WIDTH)[0]}"
    inverted = "  # 1 is white: pnminvert the image" * (tiff.values(tags, PHOTOMETRIC, (0,)) == (1,))
    for strip, octets in enumerate(tiff.strips(tags), 1):
        name = f"{stem}-{strip}.{code}"
        write_new(name, octets)
        prints(f"faxtool decode {words} {shlex.quote(name)} {shlex.quote(name)}.pbm{inverted}")
    return None


def write_pages(name, folder):
    """Writes all strips. Returns the status."""
    found = os.stat(name)
    if not stat.S_ISREG(found.st_mode) or found.st_size > MOST_OCTETS:
        raise ValueError("it is no TIFF")
    tiff, status = Tiff(Path(name).read_bytes()), 0
    stem = os.path.join(folder, Path(name).stem)
    for page, tags in enumerate(tiff.pages(), 1):
        # a name that begins with - would be an option
        code = write_page(tiff, tags, f"{'./' * stem.startswith('-')}{stem}-{page}")
        if code:
            says(f"page {page} is in a code that faxtool doesn't read: {code}")
            status = 1
    return status


def main(words):
    if len(words) != 2:
        says("usage: strips.py page.tif FOLDER")
        return 2
    name, folder = words
    if not sys.stdout:
        says("strips.py: standard output is closed")
        return 1
    sys.stdout.reconfigure(errors="surrogateescape")
    try:
        return write_pages(name, folder)
    except ValueError as error:
        says(f"strips.py: {name}: {error}")
    except OSError as error:
        says(f"strips.py: {error.filename or folder}: {error.strerror}")
    return 1


if __name__ == "__main__":
    sys.exit(main(sys.argv[1:]))
