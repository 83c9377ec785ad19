"""Tests what the package g3fax hands back: the document of a call, why a page can't be read, and which number is no choice:

    G3FAX_LIBRARY=FOLDER/libg3fax.so.0 python3 bindings/python/test_returned.py"""

import pickle
import sys
import unittest
from pathlib import Path

HERE = Path(__file__).resolve().parent
DATA = HERE.parent.parent / ".ci" / "data"
sys.path.insert(0, str(HERE))
import g3fax  # noqa: E402
from g3fax import Coding, End, Order  # noqa: E402


def octets_of(*words):
    """Words of bits as octets, the most significant bit first; 0 bits fill the last one."""
    bits = "".join(words)
    bits += "0" * (-len(bits) % 8)
    return bytes(int(bits[at:at + 8], 2) for at in range(0, len(bits), 8))


def page(number):
    return g3fax.Page.of_rows(bytes((number * row) % 251 for row in range(216 * 3)), fine=True)


def talk(caller, answerer, most=None):
    """The call, to its end, or until the caller knows so many pages as confirmed: then its line is lost."""
    for _ in range(200):
        said = 0
        for speaker, hearer in (answerer, caller), (caller, answerer):
            for burst in speaker.bursts():
                said += 1
                (hearer.hear_training if burst.check else hearer.hear)(burst.octets)
            if caller.state.pages == most and not caller.state.end:
                caller.lost()
        if caller.state.end:
            return caller.state.end
        if not said:
            caller.wait_over(caller.state.wait)
    raise AssertionError("the call doesn't end")


class Names(unittest.TestCase):
    def test_wrong_choices(self):
        """A number that stands for no choice is named, also in a copy of what is raised."""
        answerer = g3fax.Answerer()
        answerer.tick(9)
        for name, call in [
                ("limit", lambda: g3fax.Answerer(limit=0)), ("widest", lambda: g3fax.Answerer(widest=9)), ("modems", lambda: g3fax.Answerer(4)),
                ("frame", lambda: g3fax.Caller(g3fax.Document([page(1)]), frame=9)), ("modems", lambda: g3fax.agree(g3fax.Dis(), modems=4)),
                ("order", lambda: g3fax.decode(b"", order=2)), ("coding", lambda: g3fax.salvage(b"", coding=0)),
                ("order", lambda: g3fax.repair(b"", order=2)), ("coding", lambda: g3fax.RowCoder(coding=3)),
                ("order", lambda: g3fax.RowCoder(order=2)), ("coding", lambda: g3fax.RowReader(coding=3)),
                ("order", lambda: g3fax.RowReader(order=2)), ("coding", lambda: page(1).encode(0)), ("order", lambda: page(1).encode(order=2)),
                ("coding", lambda: g3fax.Document([page(1)]).code(3)), ("wait", lambda: answerer.wait_over(3)), ("now", lambda: answerer.tick(8)),
                ("limit", lambda: g3fax.Answerer(limit=2).hold())]:
            with self.assertRaisesRegex(g3fax.Invalid, f"no choice: {name}$") as caught:
                call()
            again = pickle.loads(pickle.dumps(caught.exception))
            self.assertEqual((again.number, again.name, str(again)), (104, name, str(caught.exception)))


class Documents(unittest.TestCase):
    def test_again(self):
        """Four pages go over by three calls, each once: each call sends what the one before didn't confirm."""
        document, stored, first = g3fax.Document([page(number) for number in range(1, 5)]), [], 0
        for most, end, left in (1, End.LINE_LOST, 4), (2, End.LINE_LOST, 3), (None, End.NORMAL, 1):
            with g3fax.Answerer(limit=9) as answerer, g3fax.Caller(document, first=first) as caller:
                self.assertTrue(document.closed)
                self.fault(106, caller.take_document)
                self.assertEqual(talk(caller, answerer, most), end)
                document = caller.take_document()
                self.assertTrue(caller.closed)
                self.fault(100, caller.take_document)
                self.assertEqual((len(document), document.confirmed), (left, most or left))
                stored += list(answerer.pages())[:document.confirmed]
                first = document.confirmed
        self.assertEqual([at == page(number) for number, at in enumerate(stored, 1)], [True] * 4)

    def test_whole(self):
        """A document goes to one station after another."""
        document = g3fax.Document([page(1), page(2)])
        for coding in Coding.MMR, None, Coding.MH:
            if coding:
                document.code(coding)
            with g3fax.Answerer(limit=9) as answerer, g3fax.Caller(document) as caller:
                self.assertEqual(talk(caller, answerer), End.NORMAL)
                self.assertEqual([at == page(number) for number, at in enumerate(answerer.pages(), 1)], [True] * 2)
                document = caller.take_document()
                document.confirmed = None
        self.assertEqual(len(document), 2)

    def test_refused(self):
        self.fault(106, g3fax.Document().code, Coding.MH)
        self.assertRaises(TypeError, g3fax.Document().code, "mmr")
        document = g3fax.Document([g3fax.Page.of_rows(b"\0", 8), page(1)])
        self.assertRaises(ValueError, document.code, 3)
        self.assertIsNone(document.confirmed)
        for number, first in (26, 0), (106, 2), (106, (1 << 64) - 1):
            self.fault(number, g3fax.Caller, document, first=first)
            self.assertEqual(len(document), 2)
        self.assertRaises(ValueError, g3fax.Caller, document, first=-1)
        self.assertRaises(TypeError, g3fax.Caller, document, first=1.0)
        with g3fax.Caller(document, first=1) as caller:
            caller.stop()
            self.assertEqual(len(caller.take_document()), 1)

    def fault(self, number, call, *words, **named):
        with self.assertRaises(g3fax.Fault) as caught:
            call(*words, **named)
        self.assertEqual(caught.exception.number, number)


class Reasons(unittest.TestCase):
    EOL, WHITE_8 = "000000000001", "10011"

    def test_salvage(self):
        """Of octets cut anywhere: the fault and its bit are those of decode, with the rows before it."""
        octets = (DATA / "page.mmr.msb").read_bytes()
        for length in range(0, len(octets), 7):
            with g3fax.Page.salvage(octets[:length], 315) as found, self.assertRaises(g3fax.CodeFault) as refused:
                self.assertEqual(found.rows(), g3fax.salvage(octets[:length], 315))
                self.assertIsNone(found.bits)
                g3fax.Page.decode(octets[:length], 315)
            self.assertEqual((found.fault.number, found.fault.bit), (refused.exception.number, refused.exception.bit))
        with g3fax.Page.salvage(octets, 315) as found, g3fax.Page.decode(octets, 315) as whole:
            self.assertEqual((found == whole, found.fault, found.bits), (True, None, whole.bits))
        with self.assertRaises(g3fax.Invalid) as refused:
            g3fax.Page.salvage(octets, 315, 3)
        self.assertEqual(refused.exception.name, "coding")

    def test_two_dim(self):
        """T.4 in two dimensions: after each EOL a 1 begins a row of one dimension, a 0 one of two."""
        octets = octets_of(self.EOL, "1", self.WHITE_8, self.EOL, "0", "1", (self.EOL + "1") * 6)
        for order, code in (Order.MSB_FIRST, octets), (Order.LSB_FIRST, bytes(int(f"{octet:08b}"[::-1], 2) for octet in octets)):
            self.assertEqual(g3fax.identify(code), (g3fax.FileKind.TWO_DIM, None, order, 8, 0, None, None, 0, ""))
            with self.assertRaisesRegex(ValueError, "T.4 in two dimensions"):
                next(g3fax.pages(code))
        octets = octets_of((self.EOL + self.WHITE_8) * 2, self.EOL * 6)
        self.assertEqual((g3fax.identify(octets).kind, g3fax.identify(octets).coding), (g3fax.FileKind.PAGE, Coding.MH))


if __name__ == "__main__":
    unittest.main()
