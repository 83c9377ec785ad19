#!/usr/bin/env python3
"""Sees that the guarantees of README.md are of what runs:

    .ci/cited.py

Each function that a row of the table cites is called by the products: it is reached from faxtool's `main`, or from a function of g3fax that
one of bindings/g3fax.h is made of. Or it is a law: a public function of a `laws.rt` that is empty, but for laws that it
calls. A clause that is named after a function is one of its
contract. Each definition of the row is one that the contracts of its functions name, or rest on.
What is reached is read from the sources. A method is reached if its type is, and something that is reached calls a method of that name;
so a method that nothing calls may be taken for one that is called, but never the other way round. Prints what is wrong and ends with status
1, or prints one line of counts. .ci/test_checks.py sees each check fail. It needs Python's standard library alone."""

import re
import sys
from pathlib import Path

TOP = Path(__file__).resolve().parent.parent
sys.dont_write_bytecode = True
sys.path.insert(0, str(TOP / "docs"))
import book as books
import house

USE = re.compile(r"^ *(pub )?use ((?:\w+::)*)(?:\{([^}]*)\}|(\w+)(?: as (\w+))?);", re.M)
PATH = re.compile(r"(?<![\w:.])((?:\w+::)*\w+)")
CALLED = re.compile(r"\.(\w+)(?:::<[^()]*>)?\(")
CITED = re.compile(r"\[`([^`]+)`\]\(crates/(\w+)/(src|specs)/([\w/]+)\.\w+\)|`(\w+)`")
LAW_CALL = r"(?:\w+::)*\w+(?:::<[^;()]*>)?\(\)"
GHOST = re.compile(r"\bghost use [^;]*;")


def products(rows):
    """The crates that the program and the library are made of, by the rows of crates.txt."""
    below = {row.split(":")[0].split()[0]: row.split(":")[1].split() for row in rows if ":" in row}
    found = ["faxtool", "g3fax"]
    for name in found:
        found += [each for each in below[name] if each in below and each not in found]
    return found


class Module:
    """A source: its path in its crate, what it imports, and the text of each of its items."""

    def __init__(self, code):
        self.code = code
        parts = Path(code.file).with_suffix("").parts
        self.path = () if parts in (("lib",), ("main",)) else parts
        self.imports, self.exports, self.items = {}, {}, {}
        for found in USE.finditer(GHOST.sub(lambda ghost: " " * len(ghost[0]), code.bare)):
            names = [word.strip().partition(" as ") for word in (found[3] or "").split(",") if word.strip()] or [(found[4], "", found[5] or "")]
            for there, _, here in names:
                path = (*found[2].split("::")[:-1], *(() if there == "self" else (there,)))
                self.imports[here or path[-1]] = path
                if found[1]:
                    self.exports[here or path[-1]] = path
        for place, name, _, body in code.functions:
            self.items[name] = code.bare[place : body[0]] + code.text_of(body) if body else ""
        for match in house.TYPE.finditer(code.bare):
            end = min(at for at in (code.bare.find(mark, match.start()) for mark in "{;") if at >= 0)
            last = code.bare.find(";", match.start()) if match[2] in ("const", "static") else code.ends.get(end, end)
            self.items.setdefault(match[3], code.bare[match.start() : last])


class Products:
    """The sources of the products, and what is reached from their beginnings."""

    def __init__(self, texts, names):
        self.modules = {}
        for path, text in texts.items():
            if re.match(r"crates/\w+/src/.*\.rt$", path) and path.split("/")[1] in names:
                module = Module(Bare(path, text))
                self.modules[(module.code.crate, module.path)] = module
        self.crates = {crate for crate, _ in self.modules}
        self.methods = {}
        for (crate, path), module in self.modules.items():
            for name in module.items:
                owner, _, method = name.partition("::")
                if method:
                    self.methods.setdefault(self.found(module, (owner,)), []).append((crate, path, name))

    def found(self, module, words):
        """The item that a path means in a module: its crate, its module and its name; nothing of the standard library's."""
        first = words[0]
        if first == "crate":
            return self.item(module.code.crate, words[1:])
        if first == "super":
            return self.item(module.code.crate, (*module.path[:-1], *words[1:]))
        if first in module.items:
            return self.item(module.code.crate, (*module.path, *words))
        path = module.imports.get(first)
        if path and path != words:
            return self.found(module, (*path, *words[1:])) if path[0] != first else self.item(path[0], (*path[1:], *words[1:]))
        if first in self.crates:
            return self.item(first, words[1:])
        return self.item(module.code.crate, (*module.path, *words))

    def item(self, crate, words):
        """The item of a crate at a path; what a crate or a module only gives on is looked for where it is from."""
        for end in range(len(words), -1, -1):
            module, rest = self.modules.get((crate, tuple(words[:end]))), tuple(words[end:])
            if module and rest:
                name = "::".join(rest[:2])
                if name in module.items or rest[0] in module.items:
                    return crate, module.path, name if name in module.items else rest[0]
                if rest[0] in module.exports:
                    return self.found(module, (*module.exports[rest[0]], *rest[1:]))
        return None

    def named_by(self, key):
        """The items that an item's text names, and the methods that it calls."""
        module = self.modules[key[:2]]
        text, owner = module.items[key[2]], key[2].partition("::")[0]
        paths = {tuple(path.split("::")) for path in PATH.findall(text)}
        found = {self.found(module, (owner, *path[1:]) if path[0] == "Self" else path) for path in paths}
        for crate, path, name in list(found - {None}):
            found.add((crate, path, name.partition("::")[0]) if name.partition("::")[0] in self.modules[(crate, path)].items else None)
        return found - {None}, set(CALLED.findall(text)) | {path[-1] for path in paths}

    def reached_from(self, keys):
        """All that is reached from these items, with themselves."""
        reached, called, waiting = set(), set(), list(keys)
        while waiting:
            while waiting:
                key = waiting.pop()
                if key not in reached:
                    reached.add(key)
                    names, methods = self.named_by(key)
                    waiting += names
                    called |= methods
            waiting = [each for of in reached for each in self.methods.get(of, ()) if each not in reached and self.is_called(each, called)]
        return reached

    def is_called(self, key, called):
        """Whether a method is one that is called by its name, or one of a trait's, which anything may call."""
        return key[2].partition("::")[2] in called or key[2] in self.modules[key[:2]].code.of_traits


class Bare(house.Code):
    """A source, whose clauses and ghost lines call nothing."""

    def text_of(self, span):
        text = re.sub(r"\b(?:invariant|decreases|assert|ghost)\b\s*\w*\s*\{[^{}]*\}", " ", self.bare[slice(*span)])
        return GHOST.sub(" ", text)

    @property
    def of_traits(self):
        """The methods of blocks `impl .. for ..`."""
        spans = [(block[0], block[1]) for block in self.blocks if re.search(r"\bimpl\b.* for ", block[2], re.S)]
        return {name for place, name, _, _ in self.functions if any(first < place < last for first, last in spans)}


def beginnings(made, glue):
    """Faxtool's `main`, and each function that the library exports: its C names it, or its header the function that is made of it alone."""
    found = [("faxtool", (), "main")]
    for (crate, path), module in made.modules.items():
        if crate == "g3fax":
            exported = re.findall(r'\bextern\s+"?\s*"?\s*fn (\w+)', re.sub(r'"C"', '"  "', module.code.text))
            found += [(crate, path, name) for name in exported if re.search(rf"\b(?:{name}|{name.replace('_core_', '_')})\(", glue)]
    return found


def is_law(code, name):
    """Whether a function of a source is a law: public, of a `laws.rt`, and empty but for other laws that it calls."""
    bodies = [code.bare[slice(*body)] for place, own, _, body in code.functions if own == name and body and code.bare.startswith("pub ", place)]
    return code.is_law and any(re.fullmatch(rf"\{{(?:\s*{LAW_CALL};)*\s*\}}", body) for body in bodies)


def rows_of(readme):
    """The rows of the table of guarantees."""
    found = books.GUARANTEES.search(readme)
    return [[cell.strip() for cell in line.strip().strip("|").split("|")] for line in found[1].splitlines()] if found else []


def cited_faults(readme, book, made, reached):
    """The functions of the table that the products don't reach, and clauses and definitions that aren't of a row's functions."""
    rows = rows_of(readme)
    if not rows:
        yield "README.md has no table of guarantees"
    for number, _, clauses, definitions in rows:
        items, item = [], None
        for name, crate, _, path, clause in CITED.findall(clauses):
            if clause:
                if item and clause not in [each.name for each in item.clauses]:
                    yield f"README.md, {number}: `{clause}` is no clause of `{item.path}`"
                continue
            file = TOP / "crates" / crate / "src" / f"{path}.rt"
            named = (one for one in book.items.get(crate, ()) if one.is_public and f"::{one.path}".endswith(f"::{name}"))
            item = next((one for one in named if one.file == file), None)
            key = (crate, tuple(path.split("/")), name)
            code = made.modules[key[:2]].code if key[:2] in made.modules else None
            if not (key in reached or code and is_law(code, name)):
                yield f"README.md, {number}: neither the program nor the library for C calls `{name}` of {crate}, and it is no law"
            items += [item] if item else []
        rests = book.specs.reached_from({key for one in items for clause in one.clauses for key in clause.cited})
        for name, crate, _, path, _ in CITED.findall(definitions):
            if name and (crate, path.replace("/", "."), name) not in rests and items:
                yield f"README.md, {number}: no contract of the row rests on `{name}`"


def read(texts):
    """The products by the texts of the sources, and what they reach."""
    made = Products(texts, products((TOP / "crates.txt").read_text().splitlines()))
    return made, made.reached_from(beginnings(made, texts["bindings/g3fax.c"] + texts["bindings/g3fax.h"]))


def main():
    book, readme = books.Book(), (TOP / "README.md").read_text()
    made, reached = read(house.house_here().texts)
    faults = list(cited_faults(readme, book, made, reached))
    for fault in faults:
        print(f"cited: {fault}")
    if not faults:
        functions = sum(len(module.code.functions) for module in made.modules.values())
        run = sum(key[2] in {name for _, name, _, _ in made.modules[key[:2]].code.functions} for key in reached)
        print(f"cited: {len(rows_of(readme))} guarantees are of laws, or of what runs: {run} of {functions} functions are reached")
    return 1 if faults else 0


if __name__ == "__main__":
    sys.exit(main())
