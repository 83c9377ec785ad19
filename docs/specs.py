"""The definitions of the crates, as their files in `specs/` have them: each with the comment beside it, its text, and what it rests on.

`.ci/definitions.py` checks them, and `docs/book.py` writes them as pages."""

import re
from dataclasses import dataclass, field
from functools import cache
from pathlib import Path

# A name is a word, or an operator: its words and signs with a hole for each operand.
WORD = r"[^\W\d][\w']*"
NAME = rf"(?:[^\s(){{}},;]*◌[^\s(){{}},;]*|{WORD})"
SIGN_EDGE = r"[^\s(){}\[\],;]"
DEFINED = re.compile(rf"^(?:\w+ )*?pub (?:(?:record|data) )?(?!record |data |mod )({NAME})", re.M)
DECLARED = re.compile(rf"(?:(?:unfoldable|abbrev|pub|record|data) +)+({NAME})|({NAME}) +:(?= )")
EQUATION = re.compile(WORD)
IMPORT = re.compile(r"^use Rattle\.(\w+)\.specs\.([\w.]+)\.\{([^}]*)\}", re.M)
MADE = re.compile(rf"^\s+((?:{WORD}\s+)+):(?=\s)", re.M)
BOUND = re.compile(rf"[({{]((?:{WORD}\s+)+):(?=\s)|λ\s+\(?({WORD})")
PASSED = re.compile(r"(?:use |pub mod |mod |infix)")
# What stands in a definition's text: a comment, a text, a word with what it is a field of, or a run of signs.
TOKEN = re.compile(rf"--[^\n]*|\"(?:\\.|[^\"\\\n])*\"|\.?{WORD}|[^\s(){{}}\[\],;\w\"'.]+|\.", re.S)


@dataclass
class Definition:
    """A definition: where it stands, the comment beside it, and its text without that."""

    crate: str
    module: str
    name: str
    file: Path
    line: int
    comment: str
    lines: list = field(default_factory=list)
    # what it names: definitions by their crate, module and name
    rests_on: set = field(default_factory=set)

    @property
    def key(self):
        return self.crate, self.module, self.name

    @property
    def text(self):
        return "\n".join(self.lines).rstrip()

    @property
    def bare(self):
        """The text without its comments."""
        return re.sub(r"--.*", "", self.text)

    @property
    def made(self):
        """The names of the constructors, if it is a `data`."""
        if not re.match(r"(?:abbrev |pub )*data ", self.text):
            return []
        return [name for names in MADE.findall(self.bare) for name in names.split()]


@dataclass
class Module:
    """A file of definitions: what it says first, the names that it imports or defines, and its definitions in order."""

    crate: str
    name: str
    file: Path
    says: str
    names: dict
    definitions: dict


def defined_names(crate):
    """The names that each file of a crate's specs defines for others, by the file's module."""
    specs = crate / "specs"
    return {module_name(file, specs): set(DEFINED.findall(file.read_text())) for file in specs.glob("**/*.antt")}


def module_name(file, specs):
    """The name of a file's module."""
    return ".".join(file.relative_to(specs).with_suffix("").parts)


def definitions_of(text, crate, module, file):
    """The definitions of a file, by their names, in order. The comment of one is what stands on the lines right above it."""
    found, name, above, declared = {}, None, [], None
    for number, line in enumerate(text.splitlines(), 1):
        if line.startswith("--"):
            above.append(line[2:].strip())
            continue
        if PASSED.match(line) or not line.strip():
            above = above if line.startswith("infix") else []
            continue
        heading, equation = DECLARED.match(line), EQUATION.match(line)
        if heading:
            name = declared = heading[1] or heading[2]
        elif equation:
            name = equation[0] if equation[0] in found else declared
        elif not line[0].isspace():
            name = declared
        if name not in found:
            found[name] = Definition(crate, module, name, file, number, " ".join(above))
        elif above:
            found[name].lines += [f"-- {words}" for words in above]
        found[name].lines.append(line)
        above = []
    return found


def named_by(found):
    """What a `use` imports: the crate, module and name of each name, by the name here."""
    words = [word.strip().partition(" as ") for word in found[3].split(",")]
    return {here.strip() or there: (found[1], found[2], there) for there, _, here in words}


@cache
def signs_of(name):
    """What stands in a text that has a name: it, or of an operator all its signs."""
    if "◌" not in name:
        return [re.compile(rf"(?<![\w.']){re.escape(name)}(?![\w'])(?!\s*=(?!=))")]
    return [re.compile(rf"(?<!{SIGN_EDGE}){re.escape(sign)}(?!{SIGN_EDGE})") for sign in name.split("◌") if sign]


def stands_in(name, text):
    """A name stands in a text; an operator does where all its signs do."""
    return all(sign.search(text) for sign in signs_of(name))


def bound_in(text, name=""):
    """The words that a text binds: by `(x : ..)`, by `λ x.`, and those of an equation before its sign, if it is one of this name."""
    heads = re.findall(rf"^{re.escape(name)} (.*?)\s=(?:\s|$)", text, re.M) if name else []
    return {word for found in BOUND.findall(text) for word in (found[0] or found[1]).split()} | {
        word for head in heads for word in re.findall(rf"(?<![\w.'])({WORD})", head)
    }


def read_module(file, crate):
    """A file of a crate's specs."""
    text = file.read_text()
    name = module_name(file, crate / "specs")
    definitions = definitions_of(text, crate.name, name, file)
    names = {here: there for found in IMPORT.finditer(text) for here, there in named_by(found).items()}
    names.update({own: (crate.name, name, own) for own in definitions})
    names.update({made: (crate.name, name, of.name) for of in definitions.values() for made in of.made})
    operators = [operator for operator in names if "◌" in operator]
    for definition in definitions.values():
        cited = set(re.findall(rf"(?<![\w.'])({WORD})", definition.bare))
        cited.update(operator for operator in operators if stands_in(operator, definition.bare))
        definition.rests_on = {names[word] for word in cited if word in names}
    says = " ".join(line[2:].strip() for line in re.match(r"(?:--.*\n)*", text)[0].splitlines())
    return Module(crate.name, name, file, says, names, definitions)


class Specs:
    """All definitions of some crates."""

    def __init__(self, crates):
        self.modules = {}
        for crate in crates:
            for file in sorted((crate / "specs").glob("**/*.antt")):
                module = read_module(file, crate)
                self.modules[(crate.name, module.name)] = module
        self.definitions = {each.key: each for module in self.modules.values() for each in module.definitions.values()}
        self.types_of = {(*each.key[:2], made): each.key for each in self.definitions.values() for made in each.made}

    def found(self, key):
        """The definition that is meant by a crate, a module and a name, if it is one: a constructor means its type."""
        crate, module, name = key
        if key in self.definitions:
            return key
        if key in self.types_of:
            return self.types_of[key]
        of = (crate, *module.rpartition(".")[::2])
        return of if of in self.definitions else None

    def reached_from(self, asked):
        """All definitions that these stand on, with themselves."""
        reached, waiting = set(), [self.found(key) for key in asked]
        while waiting:
            key = waiting.pop()
            if key and key not in reached:
                reached.add(key)
                waiting.extend(self.found(each) for each in self.definitions[key].rests_on)
        return reached
