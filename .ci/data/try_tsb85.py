#!/usr/bin/env python3
"""Plays ITU's test calls of error correction (TSB-85, annexes A and B) with a station, frame by frame:

    try_tsb85.py PROGRAM WORK [TEST ..]

The tests are those of tsb85.xml in the sources of spandsp 0.0.6, retold: OREN01 to 10 call the station, which answers; OTEN01 to 06 are called.
Pages have as many frames as there, by rows that are filled to as many bits; a PPS counts the frames that were sent, also where the file there
has fewer. What is sent and what must come back is put together here; reference_pages.py of bench codes the pages. Those in LEFT_OUT need a
signal that no station here says or reads. OREN09 fails: its second page has the number of the first one, and gets DCN.
Prints how many calls there are, or what is wrong, and ends with status 1 then. It needs Python's standard library alone."""

import os
import shutil
import sys
from pathlib import Path

sys.dont_write_bytecode = True
TOP = Path(__file__).resolve().parent.parent.parent
sys.path[:0] = [str(TOP / "docs" / "examples"), str(TOP / "bench" / "fuzz")]
from hdlc import FLAG, bits_of, content, frame, gaps, octets_of  # noqa: E402
from join import Station  # noqa: E402
from reference_pages import prescribed, row_words  # noqa: E402

LEFT_OUT = {"OREN03": "CTC", "OREN04": "EOR", "OREN05": "EOR", "OREN06": "EOR", "OREN07": "EOR", "OTEN04": "CTC, EOR", "OTEN05": "CTC"}
# A line is what the tester says (<) or must hear (>). `A 1 MPS 0 1` are the frames of block 1 of page A, three RCPs and PPS-MPS of page 0,
# block 1; `but 100`: frame 100 has a wrong check sequence; `only 7 8`: those frames alone. A PPR has the frames that it asks for.
TESTS = {
    "OREN01": """31k 15k|< DCS 000AF80C v27ter-4800 64|> CFR|< A 0 NULL 0 0|> MCF|< A 1 MPS 0 1|> MCF|< B 0 MPS 1 0|> MCF|< DCN|peer-left 2""",
    "OREN02": """31k 15k|< DCS 0022F00C v17-14400 64|> CFR|< A 0 NULL 0 0 but 0|> PPR 0|< A 0 NULL 0 0|> MCF|< A 1 MPS 0 1 but 100|> PPR 100
        |< A 1 MPS 0 1|> MCF|< B 0 MPS 1 0 but 214|> PPR 214|< B 0 MPS 1 0|> MCF|< DCN|peer-left 2""",
    "OREN08": """15k 15k|< DCS 000AF80C v27ter-4800 64|> CFR|< A 0 MPS 0 0|> MCF|< B 0 EOP 1 0|> MCF|< DCN|normal 2""",
    "OREN09": """64k 63k|< DCS 000AF004 v27ter-4800 256|> CFR|< A 0 MPS 0 0|> MCF|< B 0 EOP 0 0|> MCF|< DCN|normal 2""",
    "OREN10": """t6|< DCS 000AF044 v27ter-4800 256|> CFR|< A 0 EOP 0 0|> MCF|< DCN|normal 1""",
    "OTEN01": """328 16|< DIS 000AF804|> DCS 000AF80C v27ter-4800 64|< CFR|> A 0 NULL 0 0|< MCF|> A 1 MPS 0 1|< MCF|> B 0 EOP 1 0|< MCF
        |> DCN|normal 2""",
    "OTEN02": """328 16|< DIS 000AF804|> DCS 000AF80C v27ter-4800 64|< CFR|> A 0 NULL 0 0|< PPR 255|> A 0 NULL 0 0 only 255|< MCF|> A 1 MPS 0 1
        |< PPR 0 71|> A 1 MPS 0 1 only 0 71|< MCF|> B 0 EOP 1 0|< PPR 6 7 8 9 10|> B 0 EOP 1 0 only 6 7 8 9 10|< MCF|> DCN|normal 2""",
    "OTEN03": """16|< DIS 000A8804|> DCS 000AF80C v27ter-4800 64|< CFR|> A 0 EOP 0 0|< RNR ..|> DCN|still-busy 0""",
    "OTEN06": """t6|< DIS 000A8844|> DCS 000AF84C v27ter-4800 64|< CFR|> A 0 EOP 0 0|< MCF|> DCN|normal 1""",
}
FAILS = {"OREN09": "wanted > MCF, and heard DCN"}
WIDTH = 1728
ENDS = {"NULL": 0x00, "MPS": 0x4F, "EOP": 0x2F}
# The third octet of a signal that has no fields, as the caller and as the answerer says it.
PLAIN = {"CFR": (None, 0x84), "MCF": (None, 0x8C), "RNR": (None, 0xEC), "RR": (0x6F, None), "DCN": (0xFB, 0xFA)}


def stairs(count):
    """Rows with a black run of 27 pixels that goes a step to the right in each row."""
    return [[27 * (at % 63) + 1, 27 * (at % 63) + 28] for at in range(count)]


def page_of(name):
    """Rows, and the bits of their code: of 15k to 64k as the tester fills them; of a number so many frames of 64 octets in T.4; or T.6."""
    if name == "t6":
        return stairs(700), prescribed(stairs(700), WIDTH, True)
    if name.endswith("k"):
        rows, least = stairs(1728), {"15k": 63.5, "31k": 141, "63k": 293, "64k": 303}[name]
        words = ["000000000001" + row_words(row, WIDTH) for row in rows]
        return rows, "".join(word.ljust(int(least + at % 2 / 2), "0") for at, word in enumerate(words)) + 6 * "000000000001"
    rows, count = stairs(4000), 72
    for at, row in enumerate(rows):
        count += 12 + len(row_words(row, WIDTH))
        if count > (int(name) - 1) * 512 + 100:
            return rows[: at + 1], prescribed(rows[: at + 1], WIDTH, False)
    raise ValueError(name)


def image_of(rows):
    """The PBM image of rows."""
    octets = [((1 << WIDTH - start) - (1 << WIDTH - end)).to_bytes(WIDTH // 8, "big") for start, end in rows]
    return b"P4\n%d %d\n" % (WIDTH, len(rows)) + b"".join(octets)


class Wrong(Exception):
    """What a station said that it shouldn't have."""


class Tester:
    """One end of a call with a station, which is the caller or the answerer."""

    def __init__(self, station, calls, pages, octets=64):
        self.station, self.calls, self.pages, self.octets = station, calls, pages, octets
        self.clock, self.bursts, self.carrier = 0, [], None

    def tell(self, line):
        self.bursts += self.station.tell(line)

    def burst(self, carrier, kind, bits):
        """Says a burst."""
        self.tell(f"busy {self.clock}")
        self.clock += len(bits) * 1000 // int(carrier.split("-")[-1].replace("v21", "300"))
        self.tell(f"rx {self.clock} {carrier} {kind} {len(bits)} {octets_of(bits).hex()}")
        self.clock += 75

    def hear(self):
        """The carrier of the next burst that the station says, and its contents; of a check its octets."""
        while not self.bursts and self.station.runs:
            self.clock = max(self.clock + 20, self.station.due or 0)
            self.tell(f"quiet {self.clock}")
        if not self.bursts:
            raise Wrong("nothing more is said")
        carrier, kind, count, digits = self.bursts.pop(0).split(" ")
        bits = bits_of(bytes.fromhex(digits))[: int(count)]
        self.clock += len(bits) * 1000 // int(carrier.split("-")[-1].replace("v21", "300")) + 75
        return carrier, [content(bits[begin:end]) for begin, end in gaps(bits)] if kind == "hdlc" else octets_of(bits)

    def signal(self, words, is_calling):
        """The content of a frame of 300 bit/s."""
        name, x = words[0], int(is_calling)
        fields = {"DIS": b"\x80", "DCS": bytes([0x82 | x]), "PPS": bytes([0xBE | x]), "PPR": bytes([0xBC | x])}.get(name)
        if fields is None:
            fields = bytes([PLAIN[name][0 if is_calling else 1]])
        if name in ("DIS", "DCS"):
            fields += bytes.fromhex(words[1])
        if name == "PPS":
            fields += bytes([ENDS[words[1]], int(words[2]), int(words[3]), words[4]])
        if name == "PPR":
            asked = set(map(int, words[1:]))
            fields += octets_of("".join(str(int(at in asked or at > self.last)) for at in range(256)))
        return b"\xff\x13" + fields

    def block(self, words):
        """The frames of a block that a step names, and its PPS. Of `only` frames those alone."""
        _rows, bits = self.pages[words[0]]
        code = octets_of(bits)
        code += b"\0" * (-len(code) % self.octets)
        cut = [code[at : at + self.octets] for at in range(0, len(code), self.octets)][256 * int(words[1]) :][:256]
        asked = set(map(int, words[6:])) if words[5:6] == ["only"] else range(256)
        self.last = len(cut) - 1
        frames = [b"\xff\x03\x06" + bytes([at]) + data for at, data in enumerate(cut) if at in asked]
        return frames + [b"\xff\x03\x86"] * 3, self.signal(["PPS", *words[2:5], self.last], True)

    def say(self, words):
        """Says what a step says: a block's frames and its PPS, or a signal; after DCS a training check too."""
        if words[0] in self.pages:
            frames, _pps = self.block(words)
            bad = int(words[6]) if words[5:6] == ["but"] else None
            self.burst(self.carrier, "hdlc", FLAG * 100 + "".join(frame(one, at != bad) for at, one in enumerate(frames)) + FLAG * 2)
            words = ["PPS", *words[2:5], self.last]
        is_check = words[0] == "DCS"
        self.burst("v21", "hdlc", FLAG * 37 + frame(self.signal(words, self.calls)) + FLAG * 2)
        if is_check:
            self.carrier, self.octets = words[2], int(words[3])
            self.burst(self.carrier, "raw", "0" * (int(self.carrier.split("-")[1]) * 3 // 2))

    def wants(self, words):
        """Hears what a step says, or raises `Wrong`."""
        carrier, heard = self.hear()
        if words[0] in self.pages:
            frames, pps = self.block(words)
            # the control field of the last frames isn't said by all alike
            if carrier != self.carrier or [one and one[2:] for one in heard] != [one[2:] for one in frames]:
                raise Wrong(f"wanted the frames of {' '.join(words)}")
            carrier, heard = self.hear()
            wanted = pps
        else:
            wanted = self.signal(words, not self.calls)
        if (carrier, heard) != ("v21", [wanted]):
            names = {octet & 0xFE: name for name, octets in PLAIN.items() for octet in octets if octet}
            said = heard[0] and names.get(heard[0][2] & 0xFE)
            raise Wrong(f"wanted > {' '.join(map(str, words))}, and heard {said or [one and one.hex() for one in heard]}")
        if words[0] == "DCS":
            self.carrier = words[2]
            if self.hear() != (self.carrier, bytes(int(self.carrier.split("-")[1]) * 3 // 16)):
                raise Wrong("wanted a training check")

    def keeps_busy(self):
        """Says RNR half a second after each RR, until the station says DCN: T5, 60 s ± 5 s, after the first RNR."""
        began = None
        while True:
            self.burst("v21", "hdlc", FLAG * 37 + frame(self.signal(["RNR"], False)) + FLAG * 2)
            began = began or self.clock
            # who has said RR hears silence, until the next RNR
            carrier, heard = self.hear()
            if heard == [self.signal(["DCN"], True)]:
                if not 55000 <= self.clock - began <= 67000:
                    raise Wrong(f"T5 ended after {self.clock - began} ms")
                return
            if heard != [self.signal(["RR"], True)]:
                raise Wrong(f"wanted RR, and heard {heard}")
            for _silence in range(25):
                self.clock += 20
                self.tell(f"quiet {self.clock}")


def play(program, work, name):
    """Plays a test. What is wrong with the station, or None."""
    pages, *steps, end = (part.strip() for part in TESTS[name].split("|"))
    pages = {letter: page_of(page) for letter, page in zip("AB", pages.split())}
    folder, is_answerer = Path(work) / "tsb85", name.startswith("OREN")
    shutil.rmtree(folder, ignore_errors=True)
    folder.mkdir()
    image = b"".join(image_of(rows) for rows, _bits in pages.values())
    (folder / "in.pbm").write_bytes(image)
    words = ["--answer", "--out", str(folder)] if is_answerer else ["--call", "--frame", "64", str(folder / "in.pbm")]
    station = Station(name, [program, "station", words[0], "--hear", *words[1:]])
    tester = Tester(station, is_answerer, pages)
    try:
        if is_answerer and [one[:3] for one in tester.hear()[1]] != [b"\xff\x13\x80"]:
            raise Wrong("wanted a DIS")
        for step in steps:
            side, *words = step.split()
            if words == ["RNR", ".."]:
                tester.keeps_busy()
                # the DCN was heard
                break
            (tester.say if side == "<" else tester.wants)(words)
    except Wrong as wrong:
        station.process.kill()
        station.end()
        return str(wrong)
    if station.runs:
        tester.tell(f"end {tester.clock}")
    said = station.end()[0][-1]
    if said != f"end {end.replace(' ', ' pages ' if is_answerer else ' confirmed ')}":
        return f"wanted the end {end}, and it is {said}"
    stored = b"".join((folder / f"page-{at}.pbm").read_bytes() for at in range(1, int(end.split()[1]) + 1)) if is_answerer else image
    return None if stored == image else "other pages are stored"


def main():
    program, work = os.path.abspath(sys.argv[1]), sys.argv[2]
    wrong = []
    for name in sys.argv[3:] or TESTS:
        found = play(program, work, name)
        if found != FAILS.get(name):
            wrong.append(f"{name}: {found or 'it passes, and FAILS has it'}")
    for line in wrong:
        print(f"tsb85: {line}", file=sys.stderr)
    print(f"tsb85: {len(TESTS) - len(FAILS)} tests pass, {', '.join(FAILS)} fails; left out for CTC or EOR: {', '.join(LEFT_OUT)}")
    print(len(TESTS))
    return 1 if wrong else 0


if __name__ == "__main__":
    sys.exit(main())
