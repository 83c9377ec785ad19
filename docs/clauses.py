"""What the code of the crates promises: the items that other crates can name, each with its `///`, its signature and its clauses.

`.ci/definitions.py` holds it against the definitions, and `docs/book.py` writes it as pages. It reads the text of the sources, in the
layout of `rt fmt`. A public clause is one of a contract of an item that other crates can name, or what a type or a trait says of itself by
`ghost`; in a program it is one of any item that is `pub`, or of main.rt; in a static library one of each function that it exports to C. A
type's `view` and `invariant` are left out: they say how its private fields hold its value, and are proved."""

import itertools
import re
from dataclasses import dataclass, field
from functools import cached_property
from pathlib import Path

from specs import WORD, defined_names, named_by, stands_in

BLANKED = re.compile(r"""//[^\n]*|b?"(?:\\.|[^"\\])*"|b?'(?:\\.|[^'\\\n])'""", re.S)
IMPORT = re.compile(r"\bghost use Rattle\.(\w+)\.specs\.([\w.]+)\.\{([^}]*)\}")
FUNCTION = re.compile(r"(\bpub\b(?:\([^)]*\))?\s+)?(?:const\s+|extern\s+)?\bfn\s+(\w+)")
CLAUSE = re.compile(r"\b(requires|ensures)\b\*?(?:\s+(\w+))?\s*\{|\bghost\s+(?!use\b|view\b|invariant\b)(\w+)\s*[=:]\s*\{")
HEADER = re.compile(r"\b(impl|trait)\b\s*(?:<[^{]*?>\s*)?(?:[^{]*\bfor\s+)?[&]?(?:\w+::)*(\w+)")
TYPE = re.compile(r"^(pub(?:\([^)]*\))? )?(struct|enum|trait|const|type|static) (\w+)", re.M)


@dataclass
class Clause:
    """A clause: whose it is, its kind and its name, its text, and the names of specs that it cites, by the names in its text."""

    owner: str
    kind: str
    name: str
    text: str
    names: dict
    cited: list
    # the `//` lines above it
    beside: str

    @property
    def says_nothing(self):
        return not self.cited or "Unit" in re.findall(WORD, self.text)


@dataclass
class Item:
    """An item of the code: its path in the crate, as `World::event` or `laws::calls_bear`, and what is written of it."""

    file: Path
    line: int
    kind: str
    path: str
    is_public: bool
    of_trait: bool
    doc: str
    text: str
    clauses: list = field(default_factory=list)
    anchor: str = ""


class Crate:
    """A crate: what other crates can name of it, and the names that its specs define, by module."""

    def __init__(self, folder):
        self.folder = folder
        self.name = folder.name
        self.modules = defined_names(folder)
        lib = folder / "src" / "lib.rt"
        self.is_program = not lib.exists()
        self.root = folder / "src" / ("main.rt" if self.is_program else "lib.rt")
        text = "" if self.is_program else blanked(lib.read_text())
        self.exports = {name for words in re.findall(r"\bpub use ([^;]*);", text) for name in re.findall(WORD, words)}
        self.open = set(re.findall(r"\bpub mod (\w+)", text))

    @cached_property
    def sources(self):
        """The files of its code but the tests."""
        source = self.folder / "src"
        files = [file for file in sorted(source.glob("**/*.rt")) if not re.search(r"\btests?(_|\.rt$)", str(file.relative_to(source)))]
        return [Source(self, file) for file in files]

    def module_of(self, file):
        """The path of a file's module, without that of the root."""
        parts = file.relative_to(self.folder / "src").with_suffix("").parts
        return [] if parts in (("lib",), ("main",)) else list(parts)

    def shows(self, file, name):
        """Other crates can name the item of this name in the file, if it is `pub`; in a program any file's."""
        module = file.relative_to(self.folder / "src").with_suffix("").parts[0]
        return self.is_program or file == self.root or name in self.exports or module in self.open

    def clauses(self):
        """Each public clause, with its file."""
        return [(source.file, clause) for source in self.sources for clause in source.clauses.values()]


def crates_of(top):
    """The crates with definitions of their own, by their names."""
    folders = sorted(folder for folder in (top / "crates").iterdir() if (folder / "specs").is_dir())
    return {folder.name: Crate(folder) for folder in folders}


def blanked(text):
    """A text without its comments and literals, each place as it was."""
    return BLANKED.sub(lambda found: re.sub(r"[^\n]", " ", found[0]), text)


def blocks_of(text):
    """The first and last place of each block in braces, and what is written before it."""
    blocks, opened = [], []
    for found in re.finditer(r"[{}]", text):
        if found[0] == "{":
            opened.append(found.start())
        else:
            first = opened.pop()
            before = max(text.rfind(mark, 0, first) for mark in ";{}")
            blocks.append((first, found.end(), text[before + 1 : first]))
    return sorted(blocks)


def imports_of(text, blocks):
    """What is imported, with the block where it is: the names there by the names here, with their crate and module."""
    imports = []
    for found in IMPORT.finditer(text):
        around = [block for block in blocks if block[0] < found.start() < block[1]]
        imports.append((around[-1][:2] if around else (-1, len(text)), named_by(found)))
    return imports


class Source:
    """A file of a crate's code."""

    def __init__(self, crate, file):
        self.crate = crate
        self.file = file
        self.text = file.read_text()
        self.bare = blanked(self.text)
        self.blocks = blocks_of(self.bare)
        self.functions = list(FUNCTION.finditer(self.bare))

    @property
    def says(self):
        """What the file says of itself, by `//!`."""
        return " ".join(line[3:].strip() for line in self.text.splitlines() if line.startswith("//!"))

    def headers(self, place):
        """The headers `impl` and `trait` around a place, the nearest one last."""
        found = (HEADER.search(block[2]) for block in self.blocks if block[0] < place < block[1])
        return [header for header in found if header]

    def function_before(self, place):
        """The last function that begins before a place."""
        return max((one for one in self.functions if one.start() < place), key=lambda one: one.start(), default=None)

    def owner_of(self, headers, function, said):
        """Whose clause it is, if it is public: one of a function, or what a type or a trait says."""
        if headers and not self.crate.shows(self.file, headers[-1][2]):
            return None
        if said:
            return " ".join(headers[-1][0].split()) if headers else None
        is_pub = (function[1] or "").strip() == "pub"
        if headers:
            is_trait = headers[-1][1] == "trait" or " for " in headers[-1][0]
            return f"{headers[-1][2]}::{function[2]}" if is_pub or is_trait else None
        is_main = self.crate.is_program and self.file.name == "main.rt"
        is_export = re.search(r"\bextern\b", function[0])
        return function[2] if is_main or is_export or is_pub and self.crate.shows(self.file, function[2]) else None

    @cached_property
    def clauses(self):
        """Each public clause of the file, by its place."""
        ends = {block[0]: block[1] for block in self.blocks}
        imports = imports_of(self.bare, self.blocks)
        found = {}
        for match in CLAUSE.finditer(self.bare):
            place = match.start()
            owner = self.owner_of(self.headers(place), self.function_before(place), match[3])
            if owner:
                names = {}
                for (first, last), imported in imports:
                    names.update(imported if first < place < last else {})
                span = slice(match.end(), ends[match.end() - 1] - 1)
                bare = self.bare[span]
                cited = [there for here, there in names.items() if stands_in(here, bare)]
                kind = "ghost" if match[3] else match[1]
                name = match[3] or match[2] or ""
                found[place] = Clause(owner, kind, name, self.text[span], names, cited, self.beside(place))
        return found

    @cached_property
    def items(self):
        """The types and the public functions of the file, in order; a type that isn't public too, since definitions may name it."""
        found = [(match.start(), self.type_item(match)) for match in TYPE.finditer(self.bare)]
        for function in self.functions:
            headers = self.headers(function.start())
            owner = self.owner_of(headers, function, None)
            if owner:
                found.append((function.start(), self.function_item(function, headers, owner)))
        found.sort(key=lambda pair: pair[0])
        for place, clause in self.clauses.items():
            if clause.kind == "ghost":
                self.type_said(found, place).clauses.append(clause)
            else:
                [item for start, item in found if start < place][-1].clauses.append(clause)
        return [item for _, item in found]

    def type_said(self, found, place):
        """The type or trait of which something is said at a place; where that is how it has a trait, the block that says it."""
        header = self.headers(place)[-1]
        words = " ".join(header[0].split())
        if " for " not in words or " Model for " in words:
            path = self.path_of(header[2])
            of = next((item for _, item in found if item.path == path and item.kind in ("struct", "enum", "trait")), None)
            if of:
                return of
        start = self.bare.rfind(header[0], 0, place)
        of = next((item for at, item in found if at == start), None)
        if not of:
            of = Item(self.file, self.line_of(start), "impl", words, True, True, self.doc_above(start), "")
            found.append((start, of))
            found.sort(key=lambda pair: pair[0])
        return of

    def path_of(self, name, is_export=False):
        """The path of an item in the crate, as other crates write it."""
        return "::".join([*([] if name in self.crate.exports or is_export else self.crate.module_of(self.file)), name])

    def line_of(self, place):
        """The number of the line of a place."""
        return self.text.count("\n", 0, place) + 1

    def doc_above(self, place):
        """What the `///` lines above an item say; attributes and `//` lines may stand between."""
        lines = self.text[: self.text.rfind("\n", 0, place) + 1].splitlines()
        said = []
        while lines:
            line = lines.pop().strip()
            if line.startswith("///"):
                said.append(line[3:].strip())
            elif line.endswith("]") and not line.startswith("#["):
                while lines and not line.startswith("#["):
                    line = lines.pop().strip()
            elif not line.startswith(("#[", "//")):
                break
        return " ".join(reversed(said))

    def beside(self, place):
        """What the `//` lines right above a clause say."""
        above = self.text[: self.text.rfind("\n", 0, place) + 1].splitlines()
        said = list(itertools.takewhile(lambda line: re.match(r"\s*//(?!/)", line), reversed(above)))
        return " ".join(line.strip()[2:].strip() for line in reversed(said))

    def function_item(self, function, headers, owner):
        """A function, with its signature."""
        start = function.start()
        depth, end = 0, start
        while depth or self.bare[end] not in "{;":
            depth += {"(": 1, "[": 1, ")": -1, "]": -1}.get(self.bare[end], 0)
            end += 1
        words = re.search(r"\s(?:requires|ensures)\b", self.bare[start:end])
        text = self.text[start : start + words.start()] if words else self.text[start:end]
        path = self.path_of(owner, "extern" in function[0]) if not headers else f"{self.path_of(headers[-1][2])}::{function[2]}"
        of_trait = bool(headers) and headers[-1][1] == "impl" and (" for " in headers[-1][0])
        doc = self.doc_above(start) or (self.says if path == "main" else "")
        return Item(self.file, self.line_of(start), "fn", path, True, of_trait, doc, unindented(text.rstrip()))

    def type_item(self, match):
        """A type, a trait or a constant; of a type its public fields or all its variants."""
        start, kind, name = match.start(), match[2], match[3]
        end = min(place for place in (self.bare.find(mark, start) for mark in "{;") if place >= 0)
        block = next((block for block in self.blocks if block[0] == end), None)
        text = self.text[start:end].rstrip()
        if block and kind in ("struct", "enum"):
            inside = self.text[block[0] + 1 : block[1] - 1]
            text += " {" + (public_fields(inside) if kind == "struct" else inside.rstrip()) + "\n}"
        is_public = (match[1] or "").strip() == "pub" and self.crate.shows(self.file, name)
        return Item(self.file, self.line_of(start), kind, self.path_of(name), is_public, False, self.doc_above(start), text)


def public_fields(inside):
    """Of the text of a structure's fields the public ones, and a note where there are others."""
    kept, above, others = [], [], False
    for line in inside.splitlines():
        if line.strip().startswith(("///", "#[")):
            above.append(line)
        elif line.strip():
            is_public = line.strip().startswith("pub ")
            kept += [*above, line] if is_public else []
            others, above = others or not is_public, []
    return "".join(f"\n{line}" for line in [*kept, *(["    // private fields"] if others else [])])


def unindented(text):
    """A text without the spaces that each of its lines but the first begins with."""
    lines = text.splitlines()
    least = min((len(line) - len(line.lstrip()) for line in lines[1:] if line.strip()), default=0)
    return "\n".join([lines[0], *(line[least:] for line in lines[1:])])
