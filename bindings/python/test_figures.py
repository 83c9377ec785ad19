#!/usr/bin/env python3
"""Tests what the library says that a call came to, over the kept conversations of `faxtool station`: a terminal hears their lines, with their
times, and bench/fuzz/figures.py, the second reading of a station's figures, counts the frames that it has heard and said. It needs Python's
standard library, and the shared library in G3FAX_LIBRARY."""

import sys
import unittest
from pathlib import Path

sys.dont_write_bytecode = True
HERE = Path(__file__).resolve().parent
TOP = HERE.parent.parent
sys.path[:0] = [str(HERE), str(TOP / "bench" / "fuzz")]
import g3fax  # noqa: E402
from figures import OTHERS, SIGNS, Count, figures_of, v21_octets  # noqa: E402
from reference_station import CARRIERS, FIRST_DIS, Ear  # noqa: E402

SPEEDS = {name: number for number, name in enumerate(CARRIERS.values(), 2)}
SAYS = {"stop": "stop", "lost": "lost", "missed": "missed"}


def terminal_of(path, words):
    """The terminal of a conversation's words."""
    if "--call" not in words:
        return g3fax.Answerer(limit=1000)
    pages = g3fax.Page.read_pbm((path.with_suffix(".pbm")).read_bytes())
    return g3fax.Caller(g3fax.Document([pages]))


def hear_line(terminal, word, at, rest):
    """What a line says, and its time. Returns the octets of frames, by whatever carrier: those of pages count as nothing."""
    octets = b""
    if word == "rx":
        carrier, kind, *bits = rest.split(" ")
        octets = v21_octets(" ".join(["v21", kind, *bits]))
        if kind == "raw":
            terminal.hear_training(bytes.fromhex(bits[1]))
        terminal.hear(octets)
    elif word in ("ready", "not-ready"):
        terminal.set_busy(word == "not-ready")
    elif word in SAYS:
        getattr(terminal, SAYS[word])()
    if word in ("rx", "quiet"):
        terminal.tick(at, ended=word == "rx")
    return octets


def contents_of(terminal, lines, hears):
    """The contents that the terminal heard and said, each with whether it was said. A line that is none, or whose time runs back, ends them."""
    ear, mouth, last = Ear(), Ear(), 0
    for line in lines:
        word, at, rest = [*line.split(" ", 2), "", ""][:3]
        if not at.isdigit() or int(at) < last:
            return
        last, hears = int(at), hears or (word == "quiet" and int(at) >= FIRST_DIS)
        if hears:
            yield from ((False, content) for content in ear.contents(hear_line(terminal, word, last, rest)))
            yield from ((True, content) for burst in terminal.bursts() if not burst.check for content in mouth.contents(burst.octets))


def told(figures):
    """The figures of the library, as the second reading has them."""
    peer = figures.peer and "".join(sign if sign in SIGNS else "?" for sign in figures.peer)
    counts = (figures.blocks, figures.pprs, figures.resent, figures.retries, figures.failed_checks)
    return (*counts, figures.first_speed, figures.last_speed, None if figures.other is None else OTHERS.get(figures.other), peer)


def wanted(count):
    """The figures of the second reading."""
    speeds = [SPEEDS[speed] for speed in (count.speeds[:1] + count.speeds[-1:])] or [None, None]
    return (count.blocks, count.pprs, count.resent, count.retries, count.failed_checks, *speeds, count.left_out, count.peer)


class Figures(unittest.TestCase):
    def test_names(self):
        with g3fax.Answerer() as answerer:
            self.assertEqual(answerer.progress.figures, g3fax.Figures())
            answerer.hear_frame(bytes.fromhex("ff0343") + b"\xe9 4321+".ljust(20))  # TSI
            self.assertEqual(answerer.progress.figures, g3fax.Figures(other=0x43, peer="+1234 \xe9"))

    def test_call(self):
        page = g3fax.Page.of_rows(bytes(216 * 9))
        with g3fax.Document([page]) as document, g3fax.Answerer(limit=2) as answerer, g3fax.Caller(document) as caller:
            for _ in range(9):
                for sender, hearer in ((answerer, caller), (caller, answerer)):
                    for burst in sender.bursts():
                        (hearer.hear_training if burst.check else hearer.hear)(burst.octets)
            came = g3fax.Figures(blocks=1, first_speed=g3fax.Carrier.V17_14400, last_speed=g3fax.Carrier.V17_14400)
            self.assertEqual((caller.progress.figures, answerer.progress.figures), (came, came))

    def test_conversations(self):
        alike, kept = 0, sorted((TOP / ".ci" / "conversations").glob("*.words"))
        for path in kept:
            words, (lines, answers) = path.read_text(), [path.with_suffix(end).read_text().splitlines() for end in (".lines", ".expected")]
            with self.subTest(path.stem), terminal_of(path, words) as terminal:
                count = Count()
                for is_said, content in contents_of(terminal, lines, "--call" in words):
                    (count.said if is_said else count.heard)(content)
                self.assertEqual(told(terminal.progress.figures), wanted(count))
                was = figures_of(lines, answers, "--call" in words)
                alike += all(getattr(count, name) == was[name] for name in "blocks pprs resent retries failed_checks peer left_out".split())
        self.assertGreater(alike, 38)  # the others are of stations with options, whose calls go another way


if __name__ == "__main__":
    unittest.main()
