"""Tests what help and dir show of the package g3fax, and its numbers:

    G3FAX_LIBRARY=FOLDER/libg3fax.so.0 python3 bindings/python/test_help.py"""

import abc
import copy
import inspect
import pickle
import pydoc
import re
import sys
import unittest
from enum import IntEnum
from pathlib import Path
from unittest.mock import MagicMock, Mock

sys.path.insert(0, str(Path(__file__).resolve().parent))
import g3fax  # noqa: E402

# lines, of Python 3.13, which writes a line for each argument
MOST_OF_ALL, MOST_OF_A_CLASS, MOST_OF_A_VALUE = 1900, 145, 70
# what the names of numbers begin with in g3fax.h, if not with G3_ alone
BEGIN = {"FileKind": "FOUND_", "Next": "NEXT_", "Listens": "HEARS_", "End": "END_", "Refusal": "REFUSED_"}
# what Python says of each tuple, number, exception and object
NOISE = ("builtins.int:", "builtins.tuple:", "Exception:", "builtins.object:", "enum.IntEnum:", "enum.EnumMeta:", "ForwardRef", "ctypes",
         "Alias for field", "Initialize self", "Helper for pickle", "Return repr(self)", "boundary=", "__weakref__")


def shown():
    return pydoc.render_doc(g3fax, renderer=pydoc.plaintext).splitlines()


def classes(lines):
    """The lines of each class, by its name."""
    found, name = {}, ""
    for line in lines[:lines.index("FUNCTIONS")]:
        header = re.match(r"    class (\w+)\(", line)
        name = header[1] if header else name
        if name:
            found.setdefault(name, []).append(line)
    return found


class Help(unittest.TestCase):
    def test_names(self):
        """Each public name has one heading."""
        lines = shown()
        functions = lines[lines.index("FUNCTIONS"):lines.index("DATA")]
        heads = [match[1] for line in lines for match in [re.match(r"    class (\w+)\(", line)] if match]
        heads += [match[1] for line in functions for match in [re.match(r"    (\w+)\(", line)] if match]
        self.assertEqual(sorted(heads), sorted(g3fax.__all__))

    def test_numbers(self):
        """Each number of g3fax.h has its name here, but for statuses, and for what the line is at a tick."""
        header = (Path(__file__).resolve().parent.parent / "g3fax.h").read_text()
        lists = re.findall(r"^enum (\w+) \{(.*?)\};", re.sub(r"/\*.*?\*/", "", header, flags=re.S), re.M | re.S)
        numbers = {name: int(number) for kind, inside in lists if kind not in ("g3_status_number", "g3_line")
                   for name, number in re.findall(r"(G3_\w+) = (\d+)", inside)}
        kinds = [kind for kind in (getattr(g3fax, name) for name in g3fax.__all__) if isinstance(kind, type) and issubclass(kind, IntEnum)]
        own = {f"G3_{BEGIN.get(kind.__name__, '')}{one.name}": one.value for kind in kinds for one in kind}
        self.assertEqual(own, numbers)

    def test_length(self):
        lines = shown()
        self.assertLess(len(lines), MOST_OF_ALL)
        for name, own in classes(lines).items():
            kind = getattr(g3fax, name)
            most = MOST_OF_A_VALUE if issubclass(kind, (tuple, int, Exception)) else MOST_OF_A_CLASS
            self.assertLess(len(own), most, name)

    def test_noise(self):
        for line in shown():
            for words in NOISE:
                self.assertNotIn(words, line)

    def test_words(self):
        """Each public name has words, and so has what it has. None goes on from other words, as "The same .." does."""
        lines = shown()
        for name in g3fax.__all__:
            it = getattr(g3fax, name)
            words = [inspect.getdoc(it)]
            if isinstance(it, type) and not issubclass(it, tuple):
                words += [inspect.getdoc(getattr(it, part)) for part in dir(it) if part not in getattr(it, "__members__", ())]
            for each in words:
                self.assertRegex(each or "", r"\A(?!The same|And |Also )[A-Z`].{9}", name)
        of_page = classes(lines)["Page"]
        for words in ("width", "to_pil(self)", "decode(", "__len__(self)", "close(self)"):
            self.assertEqual(sum(words in line[:len(words) + 8] for line in of_page), 1, words)

    def test_values(self):
        self.assertEqual(str(inspect.signature(g3fax.Coding)), "(value, /)")
        self.assertTrue({"MH", "MMR"} <= set(dir(g3fax.Coding)))
        self.assertTrue({"rate", "word", "V21"} <= set(dir(g3fax.Carrier)))
        self.assertEqual(g3fax.State.carrier.__doc__, "Optional[Carrier]")
        self.assertEqual(inspect.signature(g3fax.Frame).parameters["bits"].annotation, "int")

    def test_still(self):
        """Values are what they were: tuples and numbers that are copied and pickled, classes to inherit from and to mock."""
        frame = g3fax.write_frame(b"\xff\x13\xfa")
        pps = g3fax.Pps(g3fax.PageEnd.EOP, 0, 1, last=2)
        octets, bits = frame
        self.assertEqual((octets, bits), (frame.octets, frame.bits))
        for value in pps, g3fax.Dis(), g3fax.Signal(g3fax.Kind.PPS, pps=pps), g3fax.Coding.MH, g3fax.Found(g3fax.FileKind.NOTHING):
            self.assertEqual(copy.deepcopy(value), value)
            self.assertEqual(pickle.loads(pickle.dumps(value)), value)
            self.assertIs(type(pickle.loads(pickle.dumps(value))), type(value))
        self.assertEqual((pps._replace(last=3).last, pps._asdict()["block"], g3fax.Pps._make((4, 0, 1, 2))), (3, 1, pps))
        self.assertIsInstance(g3fax.Coding.MH, IntEnum)

        class Kept(g3fax.Answerer, abc.ABC):
            pass

        with Kept() as answerer:
            self.assertIn("hear", dir(answerer))
        self.assertTrue(callable(Mock(spec=g3fax.Answerer).hear_training))
        self.assertFalse(hasattr(Mock(spec=g3fax.Page), "nothing"))
        with MagicMock(spec=g3fax.Page):
            pass
        self.assertEqual(len(MagicMock(spec=g3fax.Page)), 0)
        self.assertTrue(hasattr(Mock(spec=g3fax.State), "longer"))


if __name__ == "__main__":
    unittest.main()
