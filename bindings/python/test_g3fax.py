"""Tests the package g3fax on files that other programs wrote:

    G3FAX_LIBRARY=FOLDER/libg3fax.so.0 python3 bindings/python/test_g3fax.py"""

import array
import contextlib
import copy
import gc
import importlib.util
import io
import itertools
import multiprocessing
import os
import pickle
import shutil
import subprocess
import sys
import tempfile
import threading
import timeit
import unittest
from pathlib import Path

HERE = Path(__file__).resolve().parent
DATA = HERE.parent.parent / ".ci" / "data"
sys.path.insert(0, str(HERE))
import g3fax  # noqa: E402
from g3fax import Carrier, Coding, Dis, Kind, Listens, Modems, Order, Params, Pps, Side, Signal, Wait  # noqa: E402

WIDTH, ROWS, ROW = 315, 30, 40
PBM = (DATA / "page.pbm").read_bytes()
PACKED = PBM[-ROWS * ROW:]
FORMS = [(name, coding, order) for name, coding, order in [
    ("mh.msb", Coding.MH, Order.MSB_FIRST), ("mh.lsb", Coding.MH, Order.LSB_FIRST),
    ("mmr.msb", Coding.MMR, Order.MSB_FIRST), ("mmr.lsb", Coding.MMR, Order.LSB_FIRST)]]


def coded(name):
    return (DATA / f"page.{name}").read_bytes()


def to_pbm(octets: bytes, width: int) -> memoryview:
    """A page of T.6 as a raw PBM image; of one that can't be read, the rows that are whole."""
    try:
        rows = g3fax.decode(octets, width)
    except g3fax.CodeFault as fault:
        print(f"fault {fault.number}: {fault}")
        rows = g3fax.salvage(octets, width)
    with g3fax.Page.of_rows(rows, width) as page:
        return page.pbm()


class RowByRow(unittest.TestCase):
    def test_coder(self):
        for name, coding, order in FORMS:
            with self.subTest(name), g3fax.RowCoder(WIDTH, coding, order) as coder:
                octets = bytearray()
                for at in range(0, len(PACKED), ROW):
                    coder.append(PACKED[at:at + ROW])
                    octets += coder.take()
                octets += coder.finish()
                self.assertEqual(octets, coded(name))
                with self.assertRaises(g3fax.Fault) as raised:
                    coder.append(PACKED)
                self.assertEqual(raised.exception.number, 100)
        with g3fax.RowCoder(WIDTH) as coder:
            self.assertRaises(g3fax.CodeFault, coder.finish)

    def test_reader(self):
        for name, coding, order in FORMS:
            code = coded(name)
            for piece in 1, 7, len(code):
                with self.subTest((name, piece)), g3fax.RowReader(WIDTH, coding, order) as reader:
                    rows = []
                    for at in range(0, len(code), piece):
                        self.assertEqual(reader.feed(code[at:at + piece]), len(code[at:at + piece]))
                        rows += reader
                    self.assertEqual(b"".join(rows), PACKED)
                    with g3fax.Page.decode(code, WIDTH, coding, order) as page:
                        self.assertEqual(reader.finish(), page.bits)

    def test_refusal(self):
        with g3fax.RowReader(WIDTH) as reader:
            reader.feed(coded("mmr.msb")[:500])
            rows = b"".join(reader)
            self.assertEqual(rows, g3fax.salvage(coded("mmr.msb")[:500], WIDTH).tobytes())
            self.assertEqual((reader.fault.number, reader.fault.bit, reader.bits), (11, 3999, None))
            self.assertRaises(g3fax.CodeFault, reader.finish)
            reader.feed(coded("mmr.msb")[500:])
            self.assertEqual(rows + b"".join(reader), PACKED)
        with g3fax.RowReader(WIDTH) as reader:
            self.assertEqual((reader.feed(bytes(70000)), reader.feed(b"7")), (65536, 0))


class Pages(unittest.TestCase):
    def test_example(self):
        self.assertEqual(to_pbm(coded("mmr.msb"), WIDTH), PBM)
        with contextlib.redirect_stdout(io.StringIO()) as said:
            self.assertTrue(PBM.endswith(PACKED) and to_pbm(coded("mmr.msb")[:500], WIDTH)[:3] == b"P4\n")
        self.assertEqual(said.getvalue(), "fault 11: the bits end inside a code, at bit 3999\n")

    def test_codes(self):
        for name, coding, order in FORMS:
            with self.subTest(name):
                rows = g3fax.decode(coded(name), WIDTH, coding, order)
                self.assertEqual(rows.tobytes(), PACKED)
                self.assertEqual((rows.shape, rows.format, rows.readonly), ((ROWS, ROW), "B", False))
                self.assertEqual(g3fax.encode(rows, WIDTH, coding, order), coded(name))
                with g3fax.Page.read_pbm(PBM) as page:
                    self.assertEqual(page.encode(coding, order), coded(name))
                    self.assertEqual((page.pbm(), page.images), (PBM, 1))

    def test_any_buffer(self):
        code = coded("mmr.msb")
        read_only = memoryview(b"\0" + code)[1:]
        apart = memoryview(bytes(x for octet in code for x in (octet, 7)))[::2]
        for buffer in code, bytearray(code), read_only, memoryview(bytearray(code)), array.array("B", code), apart:
            with self.subTest(type(buffer)):
                self.assertEqual(g3fax.decode(buffer, WIDTH).tobytes(), PACKED)
        for buffer in "text", 7, None:
            self.assertRaises(TypeError, g3fax.decode, buffer)
        held = bytearray(code)
        g3fax.decode(held, WIDTH)
        held.append(0)  # no call keeps a buffer

    def test_rows(self):
        with g3fax.Page(WIDTH, fine=True) as page:
            for row in range(ROWS):
                page.append(PACKED[ROW * row:][:ROW])
            self.assertEqual((page.width, page.fine, len(page)), (WIDTH, True, ROWS))
            self.assertEqual(b"".join(page), PACKED)
            self.assertEqual(page[-1], PACKED[-ROW:])
            self.assertEqual(page[0], PACKED[:ROW])
            for number in ROWS, -ROWS - 1:
                self.assertRaises(IndexError, page.__getitem__, number)
            self.assertEqual(page.pbm(), PBM)

    def test_stride(self):
        with g3fax.Page.of_rows(PACKED, WIDTH) as page:
            apart = bytearray(b"\xa5" * (64 * ROWS))
            self.assertEqual(page.write_rows(apart, 64), 64 * (ROWS - 1) + ROW)
            for row in range(ROWS):
                self.assertEqual(apart[64 * row:][:64], PACKED[ROW * row:][:ROW] + b"\xa5" * 24)
            self.assertEqual(g3fax.encode(apart, WIDTH, stride=64), coded("mmr.msb"))
            self.assertEqual(g3fax.encode(apart[:64 * (ROWS - 1) + ROW], WIDTH, stride=64), coded("mmr.msb"))
            self.fault(103, page.write_rows, bytearray(100), 64)
            self.fault(105, page.write_rows, apart, 39)
            self.assertRaises(TypeError, page.write_rows, b"", 64)
            self.assertRaises(ValueError, page.write_rows, apart, -1)
        with g3fax.Page.of_rows(apart, WIDTH, rows=2, stride=64) as page:
            self.assertEqual(page.rows().tobytes(), PACKED[:2 * ROW])
        self.fault(105, g3fax.Page.of_rows, PACKED, WIDTH, rows=ROWS + 1)
        self.fault(3, g3fax.Page.of_rows, PACKED, WIDTH, rows=20001)
        self.assertRaises(ValueError, g3fax.Page.of_rows, PACKED[1:], WIDTH)

    def test_faults(self):
        cut = coded("mmr.msb")[:500]
        with self.assertRaises(g3fax.CodeFault) as caught:
            g3fax.decode(cut, WIDTH)
        fault = pickle.loads(pickle.dumps(caught.exception))
        self.assertEqual((fault.number, fault.bit, str(fault)), (11, 3999, "the bits end inside a code, at bit 3999"))
        rows = g3fax.salvage(cut, WIDTH)
        self.assertTrue(0 < len(rows) < ROWS)
        self.assertEqual(rows.tobytes(), PACKED[:len(rows) * ROW])
        self.assertEqual(g3fax.salvage(b"\xff", WIDTH, Coding.MH).tobytes(), b"")
        self.fault(1, g3fax.decode, cut, 2433)
        self.fault(104, g3fax.decode, cut, WIDTH, 3)
        self.fault(105, g3fax.Page(WIDTH).append, PACKED[:ROW - 1])
        self.fault(4, g3fax.Page(WIDTH).encode)
        self.fault(5, g3fax.Page.read_pbm, b"P5")
        self.fault(7, g3fax.Page.read_pbm, b"")
        for width in -1, 1 << 32:
            self.assertRaises(ValueError, g3fax.decode, cut, width)

    def test_repair(self):
        code = bytearray(coded("mh.msb"))
        self.assertEqual(g3fax.repair(code, WIDTH)[1], 0)
        self.assertEqual(g3fax.repair(code, WIDTH)[0].tobytes(), PACKED)
        code[len(code) // 2] ^= 0x10
        rows, count = g3fax.repair(code, WIDTH)
        self.assertTrue(1 <= count <= 2)
        found = [bytes(rows)[at:at + ROW] for at in range(0, rows.nbytes, ROW)]
        others = [row for row in range(ROWS) if found[row] != PACKED[ROW * row:][:ROW]]
        self.assertEqual((len(found), len(others)), (ROWS, 1))
        self.assertEqual(found[others[0]], found[others[0] - 1])

    def test_closed(self):
        page = g3fax.Page.of_rows(PACKED, WIDTH)
        with page:
            pass
        page.close()
        self.fault(100, len, page)
        self.fault(100, page.encode)
        for _ in range(1000):
            g3fax.Page.of_rows(PACKED, WIDTH)
        gc.collect()

        for call in page.encode, page.rows, page.pbm, lambda: page[0], lambda: page.width, lambda: bytes(page), lambda: page.append(b""):
            self.assertRaises(ValueError, call)
        with self.assertRaises(g3fax.Closed) as caught:
            page.encode()
        fault = pickle.loads(pickle.dumps(caught.exception))
        self.assertEqual((str(fault), fault.number), ("it was closed, or has moved into something else", 100))
        self.assertEqual((page.closed, repr(page)), (True, "<g3fax.Page: closed>"))
        for thing in g3fax.Deframer(), g3fax.RowCoder(), g3fax.RowReader(), g3fax.Document(), g3fax.Answerer():
            thing.close()
            self.assertEqual(repr(thing), f"<g3fax.{type(thing).__name__}: closed>")
            for name in "feed", "take", "finish", "encode", "__len__", "hear", "stop", "next_burst":
                words = [b"1"] if name in ("feed", "hear") else []
                if hasattr(thing, name):
                    self.assertRaises(ValueError, getattr(thing, name), *words)

    def test_two_dimensions(self):
        shaped = memoryview(bytearray(PACKED)).cast("B", (ROWS, ROW))
        self.assertEqual(g3fax.encode(shaped, WIDTH), coded("mmr.msb"))
        self.assertEqual(g3fax.encode(memoryview(PACKED).cast("c"), WIDTH), coded("mmr.msb"))
        self.assertRaises(ValueError, g3fax.encode, memoryview(bytes(27 * 40)).cast("B", (27, 40)))  # rows of 320 pixels, and not 1,728
        self.assertRaises(ValueError, g3fax.encode, memoryview(bytes(ROWS * WIDTH)).cast("B", (ROWS, WIDTH)), WIDTH)  # pixels
        self.assertRaises(ValueError, g3fax.encode, memoryview(bytes(80)).cast("I", (2, 10)), 80)
        self.assertRaises(ValueError, g3fax.encode, memoryview(bytes(2 * 3 * 4)).cast("B", (2, 3, 4)), 32)
        for form in "b", "c":
            self.assertRaises(ValueError, g3fax.encode, memoryview(PACKED).cast(form, (ROWS, ROW)), WIDTH)
        for row in memoryview(bytes(WIDTH)).cast("?"), memoryview(PACKED).cast("B", (ROWS, ROW)), array.array("d", [0] * ROW):
            for rows in g3fax.Page(WIDTH), g3fax.RowCoder(WIDTH):
                self.assertRaises(ValueError, rows.append, row)
        for form in "?", "H", "I", "d":
            self.assertRaises(ValueError, g3fax.encode, memoryview(bytes(ROW * 8)).cast(form), WIDTH)
        apart = memoryview(bytearray(64 * ROWS)).cast("B", (ROWS, 64))
        self.assertRaises(ValueError, g3fax.encode, apart, WIDTH)
        self.assertEqual(len(g3fax.Page.of_rows(apart, WIDTH, stride=64)), ROWS)
        self.assertRaises(ValueError, g3fax.Page.of_rows, apart, WIDTH, stride=63)

    def test_pixels(self):
        pixels = g3fax.to_pixels(PACKED, WIDTH)
        self.assertEqual((pixels.shape, pixels.format), ((ROWS, WIDTH), "B"))
        digits = [bin(int.from_bytes(PACKED[at:at + ROW], "big") | 1 << 8 * ROW)[3:][:WIDTH] for at in range(0, len(PACKED), ROW)]
        self.assertEqual(pixels.tobytes(), bytes(map(int, "".join(digits))))
        self.assertEqual(g3fax.encode_pixels(pixels), coded("mmr.msb"))
        self.assertEqual(g3fax.encode_pixels(pixels.cast("B"), WIDTH, Coding.MH, Order.LSB_FIRST), coded("mh.lsb"))
        self.assertEqual(g3fax.encode_pixels(memoryview(pixels.tobytes()).cast("?", (ROWS, WIDTH))), coded("mmr.msb"))
        with g3fax.Page.of_pixels(pixels, fine=True) as page:
            self.assertEqual((page.rows().tobytes(), page.fine), (PACKED, True))
            self.assertEqual(page.pixels(), pixels)
        self.assertEqual(g3fax.to_pixels(g3fax.decode(coded("mmr.msb"), WIDTH), WIDTH), pixels)
        self.assertEqual(g3fax.Page(8).pixels().tobytes(), b"")
        for width in 1, 7, 8, 9, 2432:
            given = bytes(at % 3 == 0 for at in range(width * 5))
            with g3fax.Page.of_pixels(given, width) as page:
                self.assertEqual((page.pixels().tobytes(), page.width, len(page)), (given, width, 5))
        for bad, width in [(b"\2" * 8, 8), (b"\0" * 9, 8), (b"\0" * 8, None), (pixels, WIDTH + 1), (array.array("I", [0, 1]), 2)]:
            self.assertRaises(ValueError, g3fax.encode_pixels, bad, width)
        self.assertRaises(ValueError, g3fax.to_pixels, PACKED[1:], WIDTH)
        self.assertRaises(ValueError, g3fax.to_pixels, PACKED, 0)
        self.fault(4, g3fax.encode_pixels, b"", 8)

    def test_floats(self):
        with g3fax.Page.of_rows(PACKED, WIDTH) as page:
            for call in [lambda: g3fax.decode(b"", 1728.0), lambda: g3fax.encode(PACKED, float(WIDTH)), lambda: g3fax.Page(8.0),
                         lambda: g3fax.encode(PACKED, WIDTH, stride=40.0), lambda: g3fax.Page.of_rows(PACKED, WIDTH, rows=2.0),
                         lambda: page[1.0], lambda: page.write_rows(bytearray(9), 1.0), lambda: page.encode(2.0),
                         lambda: g3fax.RowReader(9.0), lambda: g3fax.RowCoder(9.0), lambda: g3fax.Answerer(limit=1.0),
                         lambda: g3fax.encode_pixels(b"01", 1.0), lambda: g3fax.to_pixels(b"", 1.0), lambda: g3fax.agree(Dis(), 1728.0),
                         lambda: g3fax.Page(8, 1.0), lambda: g3fax.Answerer(t6=1.0), lambda: g3fax.Answerer().set_busy(0.0),
                         lambda: g3fax.write_signal(Signal(Kind.MCF), Side.ANSWERER, 1.0), lambda: g3fax.agree(Dis(), fine=1.0),
                         lambda: g3fax.RowReader(order=0.0), lambda: g3fax.Answerer().wait_over(2.0),
                         lambda: g3fax.agree(Dis(widest=2432.0)),
                         lambda: g3fax.write_signal(Signal(Kind.FCD, number=1.0, octets=b"1"), Side.CALLER)]:
                self.assertRaises(TypeError, call)

    def test_as_a_sequence(self):
        with g3fax.Page.of_rows(PACKED, WIDTH, fine=True) as page, g3fax.Page.read_pbm(PBM, fine=True) as same:
            self.assertEqual(repr(page), "<g3fax.Page: 30 rows of 315 pixels, fine>")
            self.assertTrue(page == same and not page != same)
            self.assertTrue(page != g3fax.Page.read_pbm(PBM) and page != PBM and page[1:] != page)
            self.assertRaises(TypeError, hash, page)
            for part in slice(2, 5), slice(None, None, -1), slice(-3, None), slice(4, 4), slice(0, 99, 7):
                with page[part] as some:
                    wanted = [PACKED[at:at + ROW] for at in range(0, len(PACKED), ROW)][part]
                    self.assertEqual((list(some), some.width, some.fine), (wanted, WIDTH, True))
            self.assertEqual(bytes(page), PBM)
            same.close()
            self.assertTrue(page != same and same == same)
        self.assertEqual(repr(g3fax.Document([g3fax.Page.of_rows(PACKED, WIDTH)])), "<g3fax.Document: 1 pages>")
        self.assertEqual(sorted(name for name, it in vars(g3fax).items() if name[0] != "_" and callable(it)), sorted(g3fax.__all__))
        self.assertEqual((repr(g3fax.Answerer()), repr(g3fax.Deframer())), ("<g3fax.Answerer: the call goes on>", "<g3fax.Deframer>"))

    def test_names(self):
        self.assertEqual(f"{Coding.MMR} {str(Order.LSB_FIRST)} {Coding.MMR:>4} {Coding.MMR:d}", "MMR LSB_FIRST  MMR 2")
        self.assertEqual((Coding.MMR, "%d" % Coding.MH, repr(Coding.MH)), (2, "1", "<Coding.MH: 1>"))
        self.assertEqual((Carrier.V21.word, Carrier.V21.rate, Carrier.V17_14400.rate), ("v21", 300, 14400))
        self.assertTrue(all(carrier.word.replace("-", "_").upper() == str(carrier) for carrier in Carrier))
        self.assertEqual((g3fax.End.NORMAL.text, len({end.text for end in g3fax.End})), ("all pages went over", len(g3fax.End)))

    def test_copies(self):
        """A page is copied by its rows, with what is said of it, also to another process; what has a handle alone isn't."""
        page = g3fax.Page.decode(coded("mmr.msb"), WIDTH, fine=True)
        copies = copy.copy(page), copy.deepcopy([page])[0], pickle.loads(pickle.dumps(page)), page[:]
        bits = page.bits
        page.close()
        for other in copies:
            self.assertEqual((other.rows().tobytes(), other.width, other.fine, type(other)), (PACKED, WIDTH, True, g3fax.Page))
        self.assertEqual([other.bits for other in copies], [bits, bits, bits, None])
        self.assertEqual(len(copy.copy(g3fax.Page(9, fine=True))), 0)
        self.fault(100, copy.copy, page)
        with multiprocessing.get_context("fork").Pool(1) as pool:
            self.assertEqual(pool.map(len, copies[:2]), [ROWS, ROWS])
        for thing in g3fax.Deframer(), g3fax.RowCoder(), g3fax.RowReader(), g3fax.Document(), g3fax.Answerer():
            for how in copy.copy, copy.deepcopy, pickle.dumps:
                with self.assertRaisesRegex(TypeError, f"a g3fax.{type(thing).__name__} can't be copied"):
                    how(thing)

    def test_wrong_kinds(self):
        page = g3fax.Page.of_rows(PACKED, WIDTH)
        for call in [lambda: g3fax.Document(page), lambda: g3fax.Document([PACKED]), lambda: g3fax.Document().append(None),
                     lambda: g3fax.Caller([page]), lambda: g3fax.Caller(page), lambda: g3fax.write_signal(Kind.MCF, Side.ANSWERER),
                     lambda: g3fax.agree(Kind.DIS)]:
            self.assertRaises(TypeError, call)
        self.assertEqual(len(page), ROWS)
        for width in 0, -1, 2433, 1 << 32, -1 << 70:
            for call in [lambda: g3fax.Page(width), lambda: g3fax.decode(b"", width), lambda: g3fax.RowReader(width)]:
                with self.assertRaises(g3fax.Invalid) as caught:
                    call()
                self.assertEqual((caught.exception.number, isinstance(caught.exception, ValueError)), (1, True))

    @unittest.skipUnless(importlib.util.find_spec("numpy"), "numpy isn't there")
    def test_numpy(self):
        import numpy
        with g3fax.Page.of_rows(PACKED, WIDTH) as page:
            rows = numpy.asarray(page)
            self.assertEqual((rows.shape, rows.dtype, rows.tobytes()), ((ROWS, ROW), numpy.uint8, PACKED))
            self.assertEqual(g3fax.encode(rows, WIDTH), coded("mmr.msb"))
            self.assertEqual(numpy.asarray(g3fax.Page(WIDTH)).shape, (0, ROW))
            pixels = numpy.unpackbits(rows, axis=1)[:, :WIDTH]
            self.assertTrue((numpy.asarray(page.pixels()) == pixels).all())
            for given in pixels, pixels == 1, numpy.asfortranarray(pixels):
                self.assertEqual(g3fax.encode_pixels(given), coded("mmr.msb"))
        high = g3fax.Page.of_rows(bytes(216 * 2200))

        def time(call):
            return min(timeit.repeat(call, number=1, repeat=9))
        self.assertLess(time(lambda: numpy.asarray(high)), 5 * time(lambda: numpy.asarray(high.rows())) + 2e-4)

    @unittest.skipUnless(importlib.util.find_spec("PIL"), "PIL isn't there")
    def test_pil(self):
        from PIL import Image
        wanted = Image.open(io.BytesIO(PBM))
        page, back = g3fax.Page.read_pbm(PBM), g3fax.Page.from_pil(wanted)
        gray, image = g3fax.Page.from_pil(wanted.convert("L"), fine=True), page.to_pil()
        self.assertEqual((image.mode, image.size, image.tobytes()), ("1", (WIDTH, ROWS), wanted.tobytes()))
        self.assertTrue(back == page and gray.fine and gray.rows() == page.rows())
        with self.assertRaisesRegex(ValueError, "no image"):
            g3fax.Page().to_pil()

    def test_threads(self):
        page, found = g3fax.Page.of_rows(PACKED, WIDTH), []
        threads = [threading.Thread(target=lambda: found.extend(page.encode() for _ in range(200))) for _ in range(4)]
        for thread in threads:
            thread.start()
        for thread in threads:
            thread.join()
        self.assertEqual(len(found), 800)
        self.assertTrue(all(code == coded("mmr.msb") for code in found))

    def test_version(self):
        version = (HERE.parent.parent / "VERSION").read_text().strip()
        self.assertEqual((g3fax.version().replace(", built without proof", ""), g3fax.__version__), (version, version))

    def test_import(self):
        program, folder = "try: import g3fax\nexcept ImportError as error: print(error)", tempfile.TemporaryDirectory()
        self.addCleanup(folder.cleanup)
        shutil.copy(HERE.parent / "g3fax.h", shutil.copytree(HERE / "g3fax", Path(folder.name) / "g3fax"))
        native, text = Path(folder.name) / "g3fax" / "_native.py", (HERE / "g3fax" / "_native.py").read_text()

        def said(library, version=g3fax.__version__):
            """What the import of the module says of a library, were it for a version."""
            native.write_text(text.replace(f'__version__ = "{g3fax.__version__}"', f'__version__ = "{version}"'))
            env = {**os.environ, "G3FAX_LIBRARY": library, "PYTHONPATH": folder.name, "PYTHONDONTWRITEBYTECODE": "1"}
            done = subprocess.run([sys.executable, "-c", program], text=True, capture_output=True, env=env)
            self.assertEqual((done.returncode, done.stderr), (0, ""))
            return done.stdout
        here = os.environ["G3FAX_LIBRARY"]
        self.assertEqual(said(here), "")
        self.assertIn("the library for C, /missing/libg3fax.so.0, can't be loaded: /missing/libg3fax.so.0: cannot open shared object file",
                      said("/missing/libg3fax.so.0"))
        self.assertIn("set G3FAX_LIBRARY to the file", said("/missing/libg3fax.so.0"))
        self.assertIn("libc.so.6 isn't libg3fax 0.1", said("libc.so.6"))
        for version in "0.1.1", "0.2.0", "1.0.0", "0.0.9":
            self.assertIn(f"is libg3fax {g3fax.__version__}, and this module of Python is for {version} and later versions of",
                          said(here, version))

    def fault(self, number, call, *words, **named):
        with self.assertRaises(g3fax.Fault) as caught:
            call(*words, **named)
        self.assertEqual(caught.exception.number, number)


class Files(unittest.TestCase):
    """What files are, and their pages, of which another program wrote the octets."""

    def wide(self, name):
        return (DATA / f"wide.{name}").read_bytes()

    def test_identify(self):
        for name, coding, order in FORMS:
            with self.subTest(name):
                octets = self.wide(name)
                page = g3fax.Page.decode(octets, coding=coding, order=order)
                self.assertEqual(g3fax.identify(octets), (g3fax.FileKind.PAGE, coding, order, 1728, len(page), page.bits, None, 0, ""))
                self.assertEqual(g3fax.identify(octets * 2), g3fax.identify(octets))
        self.assertEqual(g3fax.identify(coded("mmr.msb")), (g3fax.FileKind.SEVERAL, None, None, 0, 0, None, None, 0, ""))
        self.assertEqual(g3fax.identify(memoryview(PBM)).format, "PBM")
        self.assertEqual([g3fax.identify(octets).kind for octets in (b"", b"\2")], [g3fax.FileKind.NOTHING] * 2)
        found = g3fax.identify(self.wide("mh.lsb")[:300])
        self.assertEqual((found.kind, found.coding, found.order, found.width), (g3fax.FileKind.BEGUN, Coding.MH, Order.LSB_FIRST, 1728))
        self.assertEqual((found.rows > 9, found.bits, found.fault), (True, None, 11))
        # ghostscript writes no EOFB; and rows whose runs end by one of no pixels are read by repair alone
        found = g3fax.identify(self.wide("faxg4"))
        self.assertEqual((found.kind, found.coding, found.rows, found.bits, found.fault), (g3fax.FileKind.PAGE, Coding.MMR, 40, None, 17))

    def test_pages(self):
        for name, coding, order in FORMS:
            with self.subTest(name):
                octets = self.wide(name)
                one = g3fax.Page.decode(octets, coding=coding, order=order)
                for form in [(), (1728, coding, order)]:
                    found = list(g3fax.pages(octets * 3, *form))
                    self.assertEqual([page == one for page in found], [True] * 3)
                    self.assertEqual([(page.coding, page.order, page.bits, page.fault) for page in found],
                                     [(coding, order, one.bits, None)] * 3)
                    self.assertEqual([page.start for page in found], [0, 8 * len(octets), 16 * len(octets)])

    def test_begin_in_octet(self):
        """Pages of T.4 from any bit on, after fill and more EOLs."""
        for order in Order:
            turn = -1 if order == Order.LSB_FIRST else 1
            octets = self.wide("mh.lsb" if order == Order.LSB_FIRST else "mh.msb")
            one = g3fax.Page.decode(octets, coding=Coding.MH, order=order)
            code = "".join(f"{octet:08b}"[::turn] for octet in octets)[:one.bits]
            for fill in range(9):
                with self.subTest(f"{order} {fill}"):
                    bits = code + "0" * fill + code + "000000000001" + code
                    bits += "0" * (-len(bits) % 8)
                    file = bytearray(int(bits[at:at + 8][::turn], 2) for at in range(0, len(bits), 8))
                    kept = bytes(file)
                    found = list(g3fax.pages(file))
                    self.assertEqual([page == one for page in found], [True] * 3)
                    self.assertEqual([page.start for page in found], [0, one.bits + fill, 2 * one.bits + fill + 12])
                    self.assertEqual([page.bits for page in found], [one.bits] * 3)
                    self.assertEqual(file, kept)

    def test_last_pages(self):
        with next(g3fax.pages(self.wide("faxg4"))) as page:
            self.assertEqual((len(page), page.bits, page.fault.number), (40, None, 17))
        found = g3fax.pages((octets := self.wide("mmr.msb")) + octets[:200])
        self.assertEqual(len(next(found)), 28)
        with self.assertRaises(g3fax.CodeFault) as raised:
            next(found)
        self.assertEqual((raised.exception.number, raised.exception.bit), (11, 8 * len(octets) + 8 * 200 - 1))
        self.assertEqual(*(list(g3fax.pages(before + octets[:-3], 1728, Coding.MMR))[-1].fault.bit - 8 * len(before) for before in (b"", octets)))
        for other in b"", PBM, coded("mmr.msb"), octets[:200]:
            self.assertRaises(ValueError, next, g3fax.pages(other))
        self.assertRaises(ValueError, next, g3fax.pages(octets, 1728))
        self.assertRaises(g3fax.CodeFault, next, g3fax.pages(b"", 1728, Coding.MMR))

    def test_repaired(self):
        """Rows that end by a run of 0 pixels, as mgetty writes them."""
        row = "1100" + "10" + "00110101"  # 5 white pixels, 3 black ones and 0 white ones
        bits = ("000000000001" + row) * 3 + "000000000001" * 6
        bits += "0" * (-len(bits) % 8)
        octets = bytes(int(bits[at:at + 8], 2) for at in range(0, len(bits), 8))
        found = g3fax.identify(octets)
        self.assertEqual((found.width, found.rows, found.bits, found.fault, found.repaired), (8, 1, None, 10, 3))
        with g3fax.Page.of_rows(b"\x07" * 3, 8) as wanted:
            self.assertEqual([(page == wanted, page.repaired, page.fault.number, page.fault.bit) for page in g3fax.pages(octets)],
                             [(True, 0, 10, 18)])


class Frames(unittest.TestCase):
    BITS = (DATA / "line.bits").read_bytes()
    LINES = (DATA / "line.txt").read_text().splitlines()
    WANTED = [bytes.fromhex(line.split()[1]) for line in LINES if line[:1].isdigit()]

    def test_line(self):
        contents, counts = g3fax.frames(self.BITS)
        self.assertEqual(contents, self.WANTED)
        words = self.LINES[-1].split()
        self.assertEqual(list(counts), [int(word) for word in words[1::2]])

    def test_pieces(self):
        found = []
        with g3fax.Deframer() as deframer:
            for octet in self.BITS:
                deframer.feed(bytes([octet]))
                found.extend(deframer)
            self.assertIsNone(deframer.next())
        self.assertEqual(found, self.WANTED)

    def test_written(self):
        for content in self.WANTED:
            frame = g3fax.write_frame(content)
            self.assertEqual(len(frame.octets), (frame.bits + 7) // 8)
            self.assertEqual(g3fax.frames(frame.octets)[0], [content])
        for length in 0, 2, 301:
            with self.assertRaises(g3fax.Fault) as caught:
                g3fax.write_frame(bytes(length))
            self.assertEqual(caught.exception.number, 105)


class Signals(unittest.TestCase):
    LINES = [line.split() for line in Frames.LINES if line[:1].isdigit()]

    @staticmethod
    def words(content):
        """What a content says, in the words of line.txt, which another program wrote by the standard's tables."""
        try:
            signal = g3fax.read_signal(content)
        except g3fax.Fault as fault:
            return ["fault", str(fault.number)]
        names = {1: "v27", 2: "v27v29", 3: "v17", 4: "v29", 5: "fallback"}
        carriers = ["v27-2400", "v27-4800", "v29-7200", "v29-9600", "v17-7200", "v17-9600", "v17-12000", "v17-14400"]
        says = [signal.kind.name if signal.kind != Kind.OTHER else "other"]
        if signal.dis:
            dis = signal.dis
            says += ["receiver" if dis.receiver else "noreceiver", names[dis.modems], "fine" if dis.fine else "standard", dis.widest,
                     "t6" if dis.t6 else "mh", "ecm" if dis.ecm else "noecm"]
        if signal.dcs:
            dcs = signal.dcs
            says += [carriers[dcs.carrier - 2], "fine" if dcs.fine else "standard", dcs.width,
                     "t6" if dcs.coding == Coding.MMR else "mh", dcs.frame]
        if signal.pps:
            end = "NULL" if signal.pps.ends == g3fax.PageEnd.BLOCK_ALONE else signal.pps.ends.name
            says += [end, "page", signal.pps.page, "block", signal.pps.block, "last", signal.pps.last]
        says += {Kind.FCD: [signal.number, len(signal.octets)], Kind.PPR: [bin(int.from_bytes(signal.octets, "big")).count("1")],
                 Kind.OTHER: [f"{signal.control:02x}"]}.get(signal.kind, [])
        return [str(word) for word in says]

    def test_line(self):
        self.assertGreater(len(self.LINES), 40)
        for _, octets, *wanted in self.LINES:
            content = bytes.fromhex(octets)
            self.assertEqual(self.words(content), wanted)
            if wanted[0] in ("fault", "other"):
                continue
            signal = g3fax.read_signal(content)
            for side in Side:
                self.assertEqual(g3fax.read_signal(g3fax.write_signal(signal, side)), signal)

    def test_written(self):
        # by the octets of T.30, 5.3.6.1 and A.4
        for signal, side, last, octets in [
                (Signal(Kind.DIS, Dis()), Side.ANSWERER, True, "ff1380006efa44"),
                (Signal(Kind.DCS, dcs=Params(Carrier.V17_14400, False, 1728, Coding.MMR, 256)), Side.CALLER, True, "ff13830022f844"),
                (Signal(Kind.FCD, number=200, octets=b"\1\2\3"), Side.CALLER, False, "ff0306c8010203"),
                (Signal(Kind.PPS, pps=Pps(g3fax.PageEnd.EOP, 1, 20, 255)), Side.CALLER, True, "ff13bf2f0114ff"),
                (Signal(Kind.PPR, octets=b"\xff" * 32), Side.ANSWERER, True, "ff13bc" + "ff" * 32),
                (Signal(Kind.MCF), Side.ANSWERER, True, "ff138c"), (Signal(Kind.DCN), Side.CALLER, True, "ff13fb"),
                (Signal(Kind.DCN), Side.ANSWERER, True, "ff13fa")]:
            self.assertEqual(g3fax.write_signal(signal, side, last).hex(), octets)
        for number, signal in [(104, Signal(Kind.OTHER)), (104, Signal(Kind.FCD, number=256, octets=b"1")), (105, Signal(Kind.FCD)),
                               (105, Signal(Kind.FCD, octets=bytes(257))), (105, Signal(Kind.PPR, octets=bytes(31)))]:
            self.fault(number, g3fax.write_signal, signal, Side.CALLER)
        self.fault(104, g3fax.write_signal, Signal(Kind.MCF), 3)
        self.fault(20, g3fax.read_signal, b"\0")
        self.fault(22, g3fax.read_signal, b"")
        self.assertRaises(ValueError, g3fax.write_signal, Signal(Kind.FCD, number=-1, octets=b"1"), Side.CALLER)

    def test_agree(self):
        wanted = Params(Carrier.V17_14400, True, 1728, Coding.MMR, 256)
        self.assertEqual(g3fax.agree(Dis(), 1728, True), wanted)
        self.assertEqual(g3fax.agree(Dis(t6=False), modems=Modems.V29, frame=64), Params(Carrier.V29_9600, False, 1728, Coding.MH, 64))
        for dis, reason in [(Dis(receiver=False, ecm=False), "NO_RECEIVER"), (Dis(ecm=False), "NO_ECM"), (Dis(widest=1728), "TOO_WIDE"),
                            (Dis(fine=False), "NO_FINE"), (Dis(modems=Modems.V29_ALONE), "NO_COMMON_SPEED")]:
            with self.assertRaises(g3fax.NotCompatible) as caught:
                g3fax.agree(dis, 2432, True, Modems.V27TER)
            fault = pickle.loads(pickle.dumps(caught.exception))
            self.assertEqual((fault.number, fault.reason.name), (28, reason))
        self.fault(26, g3fax.agree, Dis(), 1727)
        self.fault(104, g3fax.agree, Dis(), modems=4)

    fault = Pages.fault


class Calls(unittest.TestCase):
    @staticmethod
    def say(speaker, hearer, lost):
        """One station says its turn, and the other one hears what its modem listens for. Answers how many bursts there were."""
        said = 0
        for said, burst in enumerate(speaker.bursts(), 1):
            state = hearer.state
            if next(lost):
                continue
            if burst.check and (state.listens, state.carrier) == (Listens.CHECK, burst.carrier):
                hearer.hear_training(burst.octets)
            elif burst.carrier == Carrier.V21:
                hearer.hear(burst.octets)
            elif not burst.check and state.listens in (Listens.PAGES, Listens.V21_THEN_PAGES) and state.carrier == burst.carrier:
                hearer.hear(burst.octets)
        return said

    def talk(self, caller, answerer, lost=()):
        """The call, to its end: where nothing is on the line, the shorter of the two waits is over."""
        lost, count = set(lost), itertools.count(1)
        losses = (number in lost for number in count)
        for _ in range(200):
            said = self.say(answerer, caller, losses) + self.say(caller, answerer, losses)
            here, there = caller.state, answerer.state
            if here.end and there.end:
                return here, there
            if said:
                continue
            if here.end:
                answerer.wait_over(there.longer or there.wait)
            elif not there.end and there.wait.millis < here.wait.millis:
                answerer.wait_over(there.wait)
            else:
                caller.wait_over(here.wait)
        self.fail("the call doesn't end")

    def test_clock(self):
        """T2 runs from the first quiet tick on, and DIS is sent again when it is over; on a carrier no wait ends."""
        with g3fax.Answerer() as answerer:
            answerer.next_burst()
            answerer.tick(1000)
            self.assertEqual(answerer.due, 8000)
            answerer.tick(5000, carrier=True)
            self.assertIsNone(answerer.due)
            answerer.tick(6000)
            answerer.tick(12999)
            self.assertIsNone(answerer.next_burst())
            answerer.tick(13000)
            self.assertEqual(answerer.next_burst().carrier, Carrier.V21)
            self.fault(104, answerer.tick, 12999)
            with self.assertRaises(ValueError):
                answerer.tick(1 << 64)
            answerer.lost()
            self.assertIsNone(answerer.due)

    def test_next(self):
        """The first DIS waits to be sent; then nothing is to be done until a tick, and then T2 runs. A check that is missed is a bad one."""
        with g3fax.Answerer() as answerer:
            self.assertEqual(answerer.next, (g3fax.Next.SEND, None))
            answerer.next_burst()
            self.assertEqual(answerer.next, (g3fax.Next.NOTHING, None))
            answerer.tick(1000)
            answerer.missed()
            self.assertEqual(answerer.next, (g3fax.Next.AT, 8000))
            answerer.tick(2000, ended=True)
            self.assertIsNone(answerer.due)  # as on a carrier
            answerer.hear_frame(bytes.fromhex("ff13830022f844"))  # DCS
            answerer.missed()
            self.assertEqual([g3fax.read_signal(frame).kind for frame in next(answerer.bursts()).frames()], [Kind.FTT])
            self.assertRaises(TypeError, answerer.tick, 1000, ended=1.0)

    def test_limit(self):
        with g3fax.Answerer() as answerer:
            answerer.most_seconds(5)
            self.assertEqual(answerer.due, 15000)  # no line was calm yet
            answerer.tick(1000)
            self.assertEqual(answerer.due, 5000)
            answerer.tick(6000, carrier=True)
            self.assertIsNone(answerer.state.end)
            answerer.tick(6500)
            self.assertEqual((answerer.state.end, answerer.due), (g3fax.End.STOPPED, None))
            with self.assertRaises(ValueError):
                answerer.most_seconds(-1)

    def test_watched(self):
        """A DCS without error correction, and page numbers that jump."""
        with g3fax.Answerer() as answerer:
            dcs = bytes.fromhex("ff1383002278")
            answerer.hear_frame(dcs)
            self.assertEqual(answerer.progress[9:12], (1, None, None))
            answerer.hear_frame(dcs)
            answerer.hear_frame(bytes.fromhex("ff13bf4f0700ff"))  # PPS-MPS of page 7
            self.assertEqual(answerer.progress[9:12], (2, g3fax.Refusal.NO_ECM, 7))

    def test_hold(self):
        page, rows = self.document()
        with g3fax.Document([page]) as document, g3fax.Answerer() as answerer, g3fax.Caller(document) as caller:
            stored = None
            for _ in range(6):
                for sender, hearer in ((answerer, caller), (caller, answerer)):
                    for burst in sender.bursts():
                        (hearer.hear_training if burst.check else hearer.hear)(burst.octets)
                stored = stored or answerer.hold()
                self.assertIn(caller.state.pages, [0] if stored else [0, 1])
            self.assertEqual((stored.rows().tobytes(), caller.state.longer), (rows, Wait.T5))
            self.assertIsNone(answerer.hold())
            answerer.set_busy(False)
            for sender, hearer in ((answerer, caller), (caller, answerer), (answerer, caller)):  # RNR, RR, MCF
                for burst in sender.bursts():
                    hearer.hear(burst.octets)
            self.assertEqual(caller.state.pages, 1)
            with g3fax.Answerer(limit=2) as many:
                self.fault(104, many.hold)

    @staticmethod
    def document():
        rows = [bytes((row * column) % 251 for column in range(216)) for row in range(40)]
        return g3fax.Page.of_rows(b"".join(rows), fine=True), b"".join(rows)

    def test_call(self):
        for coding, frame, modems, lost in [(Coding.MMR, 256, Modems.V17, ()), (Coding.MH, 64, Modems.V27TER, ()),
                                            (Coding.MMR, 256, Modems.V29, (1,)), (Coding.MMR, 64, Modems.V17, (5,))]:
            with self.subTest(coding=coding, lost=lost):
                page, rows = self.document()
                second = g3fax.Page.of_rows(rows[:216 * 3], fine=True)
                with g3fax.Document([page]) as document, g3fax.Answerer(limit=3) as answerer:
                    document.append(second)
                    self.assertEqual(len(document), 2)
                    self.fault(100, len, page)  # it has moved
                    with g3fax.Caller(document, modems, coding, frame) as caller:
                        self.fault(100, len, document)
                        here, there = self.talk(caller, answerer, lost)
                    self.assertEqual((here.end, there.end), (g3fax.End.NORMAL, g3fax.End.NORMAL))
                    self.assertEqual((here.pages, there.pages, here.wait, there.wait), (2, 2, None, None))
                    stored = list(answerer.pages())
                    self.assertEqual([page.rows().tobytes() for page in stored], [rows, rows[:216 * 3]])
                    self.assertEqual([page.fine for page in stored], [True, True])
                    self.assertIsNone(answerer.take_page())

    def test_frames(self):
        page, rows = self.document()
        with g3fax.Document([page]) as document, g3fax.Answerer(limit=2) as answerer, g3fax.Caller(document) as caller:
            self.assertEqual((caller.params, caller.peer, answerer.params, answerer.peer), (None, None, None, None))
            self.assertEqual(caller.progress, g3fax.Progress(1, 0, 0, 0, 0, 0, 0, 0, None))
            [dis] = next(answerer.bursts()).frames()
            caller.hear_frame(dis)
            params = Params(Carrier.V17_14400, True, 1728, Coding.MMR, 256)
            self.assertEqual(caller.params, params)
            self.assertEqual(caller.peer, g3fax.read_signal(dis).dis)
            self.assertEqual(caller.progress.tries, 1)
            dcs, check = caller.bursts()
            for content in dcs.frames():
                answerer.hear_frame(content)
            self.assertEqual((answerer.params, answerer.peer, check.frames()), (params, params, []))
            answerer.hear_training(check.octets)
            [cfr] = next(answerer.bursts()).frames()
            caller.hear_frame(cfr)
            self.assertEqual(caller.progress[:5], (1, 0, 1, 1, 0))
            block, pps = caller.bursts()
            data = [content for content in block.frames() if g3fax.read_signal(content).kind == Kind.FCD]
            for content in data[1:]:  # the first one is lost
                answerer.hear_frame(content)
            self.assertEqual(answerer.progress[:9], (0, 0, 0, 0, 0, 0, 0, len(data) - 1, None))
            for content in pps.frames():
                answerer.hear_frame(content)
            [ppr] = next(answerer.bursts()).frames()
            self.assertEqual(g3fax.read_signal(ppr).octets[0], 1)
            caller.hear_frame(ppr)
            self.assertEqual((caller.progress.resends, caller.progress.block), (1, 1))
            for burst in caller.bursts():
                for content in burst.frames():
                    answerer.hear_frame(content)
            self.assertEqual((answerer.progress.pages, answerer.progress.accepted), (1, (0, 0)))
            self.assertEqual(answerer.state.listens, Listens.V21_THEN_PAGES)  # DCN comes next
            [mcf] = next(answerer.bursts()).frames()
            caller.hear_frame(mcf)
            self.assertEqual((caller.progress.confirmed, caller.progress.block), (1, 0))
            self.assertEqual(answerer.take_page().rows().tobytes(), rows)
            self.fault(105, caller.hear_frame, b"12")

    def test_ends(self):
        answerer = g3fax.Answerer()
        self.assertEqual(answerer.state[2:], (Listens.V21, None, Wait.T2, Wait.T1, None))
        self.assertEqual([wait.millis for wait in Wait], [35000, 7000, 3000, 60000])
        bursts = list(answerer.bursts())
        self.assertEqual([(burst.carrier, burst.check, burst.last) for burst in bursts], [(Carrier.V21, False, True)])
        contents, _ = g3fax.frames(bursts[0].octets)
        self.assertEqual([content.hex() for content in contents], ["ff1380006efa44"])  # DIS, by T.30's table 2
        answerer.set_busy(True)
        answerer.stop()
        contents, _ = g3fax.frames(b"".join(burst.octets for burst in answerer.bursts()))
        self.assertEqual([content.hex() for content in contents], ["ff13fa"])  # DCN
        self.assertEqual(answerer.state.end, g3fax.End.STOPPED)
        answerer.hang_up()
        answerer.lost()
        self.assertIsNone(answerer.next_burst())
        self.fault(104, answerer.wait_over, 3)
        answerer.close()
        self.fault(100, answerer.hear, b"")
        self.fault(104, g3fax.Answerer, limit=0)
        with g3fax.Document() as empty:
            self.fault(106, g3fax.Caller, empty)
            self.fault(4, empty.append, g3fax.Page())
            empty.append(g3fax.Page.of_rows(PACKED, WIDTH))
            self.fault(26, g3fax.Caller, empty)

    fault = Pages.fault


if __name__ == "__main__":
    unittest.main()
