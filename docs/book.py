#!/usr/bin/env python3
"""Writes the book: what each crate promises, and the definitions that this rests on, as pages with links.

    docs/book.py                 writes it into out/book, with links to the sources
    docs/book.py --install TREE  writes it into TREE/book, without these; the documents in TREE, which has no sources, lead there instead
    docs/book.py --check         writes nothing; ends with status 1 for a link that leads nowhere and for a public item without a `///`

A page a crate has each public item with its `///`, its signature and its clauses, and each definition of the crate's `specs/` with the
comment beside it, its text, its file and its line. Each name of a definition is a link to it, in this crate or another. index.html has the
table of guarantees of README.md, with links to the clauses, and kit.html the definitions of the kit that are named, where KIT, or
/opt/rattle, has their text. The pages are HTML without script. It needs Python's standard library alone."""

import hashlib
import os
import re
import sys
from html import escape
from pathlib import Path
from urllib.parse import quote, unquote

sys.dont_write_bytecode = True
import kit
from clauses import crates_of
from specs import TOKEN, Specs, bound_in

TOP = Path(__file__).resolve().parent.parent
OUT = TOP / "out" / "book"
STYLE = (Path(__file__).parent / "book.css").read_text()
GUARANTEES = re.compile(r"^\|.*\| *Guarantee *\|.*\|\n\|[-| ]+\|\n((?:\|.*\|\n)+)", re.M)
LINK = re.compile(r"\[([^\]]*)\]\(([^)#:]*)[^)]*\)")
# A name in a cell of the guarantees: one that leads to a file, or the name of a clause.
CITED = re.compile(r"\[`([^`]+)`\]\(([^)]+)\)|`([^`]+)`")


def page(title, body):
    """A whole page."""
    return (
        '<!DOCTYPE html>\n<html lang="en">\n<head>\n<meta charset="utf-8">\n'
        '<meta name="viewport" content="width=device-width, initial-scale=1">\n'
        f"<title>{escape(title)}</title>\n<style>\n{STYLE}</style>\n</head>\n<body>\n{body}</body>\n</html>\n"
    )


def prose(text):
    """A line of prose, with what is between backticks as code."""
    return re.sub(r"`([^`]+)`", r"<code>\1</code>", escape(text, quote=False))


def link(href, words, kind=""):
    """A link; the words are HTML."""
    return f'<a{f" class={kind}" if kind else ""} href="{escape(href)}">{words}</a>'


class Book:
    """The pages, and where each name leads."""

    def __init__(self, top=TOP, sources="../../"):
        self.top = top
        self.sources = sources
        self.crates = crates_of(top)
        self.specs = Specs([crate.folder for crate in self.crates.values()])
        self.items = {name: [item for source in crate.sources for item in source.items] for name, crate in self.crates.items()}
        self.types = {}
        for name, crate in self.crates.items():
            for item in self.items[name]:
                if item.kind in ("struct", "enum"):
                    self.types[(name, ".".join([*crate.module_of(item.file), item.path.rpartition("::")[2]]))] = item
        asked = {key for crate in self.crates.values() for _, clause in crate.clauses() for key in clause.cited}
        self.reached = self.specs.reached_from(asked)
        self.of_kit = {}
        self.named_types = set()
        self.faults = []
        for items in self.items.values():
            give_anchors(items)
        imports = [module.names for module in self.specs.modules.values()]
        imports += [clause.names for items in self.items.values() for item in items for clause in item.clauses]
        for key in {key for names in imports for key in names.values()}:
            self.href_of(key)

    def pages(self):
        """Each page by its file's name."""
        pages = {f"{name}.html": self.crate_page(name) for name in self.crates}
        return {**pages, "index.html": self.index_page(), "kit.html": self.kit_page()}

    # Where names lead.

    def href_of(self, key):
        """Where a name leads: to a definition, to a type of the code, or to the kit."""
        crate, module, name = key
        if crate not in self.crates:
            self.of_kit.setdefault(f"{crate}.{name}", set()).add((f"Rattle.{crate}.specs.{module}", name))
            return f"kit.html#{quote(f'{crate}.{name}')}"
        found = self.specs.found(key)
        if found:
            return f"{crate}.html#{quote(definition_id(found))}"
        if module.startswith("declared."):
            parts = module.removeprefix("declared.").removesuffix(".TheVariants")
            item = self.types.get((crate, parts))
            if item:
                self.named_types.add(id(item))
                return f"{crate}.html#{quote(item.anchor)}"
        return None

    def linked(self, text, names, own=None):
        """A text of definitions as HTML: each name in it is a link, but that of the definition itself and what the text binds."""
        bound = bound_in(text, own[2] if own else "")
        bound = {word for word in bound if names.get(word) in self.specs.definitions and names[word][2] == word}
        signs = {sign: key for name, key in names.items() if "◌" in name and key[0] in self.crates for sign in name.split("◌") if sign}
        words = []
        last = 0
        for token in TOKEN.finditer(text):
            words.append(escape(text[last : token.start()], quote=False))
            word, last = token[0], token.end()
            key = None if word in bound else names.get(word, signs.get(word))
            is_field = re.match(r"\s*[:=](?=\s)", text[last:]) and re.search(r"(?:[{;(]|pub|\n) *$", text[: token.start()])
            href = self.href_of(key) if key and key != own and not is_field else None
            if word.startswith(("--", "//")):
                words.append(f"<i>{escape(word, quote=False)}</i>")
            elif href:
                words.append(link(href, escape(word, quote=False), "k" if href.startswith("kit") else ""))
            else:
                words.append(escape(word, quote=False))
        return "".join([*words, escape(text[last:], quote=False)])

    def place(self, file, line):
        """A file and a line, as a link where the sources are."""
        name = file.relative_to(self.top)
        words = f"{name}:{line}"
        return f'<p class="at">{link(f"{self.sources}{name}#L{line}", words) if self.sources else words}</p>\n'

    # The parts of a crate's page.

    def item_part(self, item):
        """An item, with its clauses."""
        kind = "" if item.kind in ("fn", "impl") else f"{item.kind} "
        words = f'<section class="item" id="{escape(item.anchor)}">\n<h4>{kind}{escape(item.path)}</h4>\n'
        words += "" if item.is_public else '<p class="note">Only this crate can name it.</p>\n'
        words += f"<p>{prose(item.doc)}</p>\n" if item.doc else ""
        words += f"<pre>{escape(item.text, quote=False)}</pre>\n" if item.text else ""
        for number, clause in enumerate(item.clauses, 1):
            text = " ".join(clause.text.split()) if "\n" not in clause.text.strip() else reindented(clause.text)
            words += (
                f'<div class="clause" id="{escape(clause_id(item, clause, number))}"><b>{clause.kind} {clause.name}</b>\n'
                f"{f'<p>{prose(clause.beside)}</p>' if clause.beside else ''}"
                f"<pre>{self.linked(text, clause.names)}</pre></div>\n"
            )
        return words + self.place(item.file, item.line) + "</section>\n"

    def definition_part(self, definition, names):
        """A definition, with the comment beside it."""
        beside = "" if definition.key in self.reached else '<p class="note">No public clause rests on it.</p>\n'
        return (
            f'<section class="def" id="{escape(definition_id(definition.key))}">\n<h4>{escape(definition.name)}</h4>\n{beside}'
            f"<p>{prose(definition.comment)}</p>\n<pre>{self.linked(definition.text, names, definition.key)}</pre>\n"
            f"{self.place(definition.file, definition.line)}</section>\n"
        )

    def shown_items(self, source):
        """The items of a file that have a place in the book."""
        return [
            item for item in source.items
            if (item.is_public and (item.clauses or not item.of_trait)) or id(item) in self.named_types
        ]

    def crate_page(self, name):
        """The page of a crate: its items by the file, and its definitions by the file."""
        crate = self.crates[name]
        root = next(source for source in crate.sources if source.file == crate.root)
        files = [(source, self.shown_items(source)) for source in crate.sources]
        files = [(source, items) for source, items in files if items]
        modules = [module for key, module in self.specs.modules.items() if key[0] == name and module.definitions]
        body = f'<nav>{link("index.html", "The book")}</nav>\n<h1>{name}</h1>\n<p>{prose(root.says)}</p>\n'
        body += '<nav class="list">\n<h2>Items</h2>\n'
        for source, items in files:
            inner = ", ".join(link(f"#{quote(item.anchor)}", escape(short(item))) for item in items)
            body += f"<p>{link('#' + file_id(source), escape(source.file.name))}: {inner}</p>\n"
        body += "<h2>Definitions</h2>\n<p>" + ", ".join(link(f"#m-{module.name}", module.name) for module in modules) + "</p>\n</nav>\n"
        for source, items in files:
            file = source.file.relative_to(crate.folder)
            body += f'<h2 id="{file_id(source)}">{escape(str(file))}</h2>\n<p>{prose(source.says)}</p>\n'
            body += "".join(self.item_part(item) for item in items)
        for module in modules:
            file = module.file.relative_to(crate.folder)
            body += f'<h2 id="m-{module.name}">{file}</h2>\n<p>{prose(module.says)}</p>\n'
            body += "".join(self.definition_part(definition, module.names) for definition in module.definitions.values())
        return page(f"{name}: what it promises", body)

    def kit_page(self):
        """The definitions of the kit that are named."""
        body = (
            f'<nav>{link("index.html", "The book")}</nav>\n<h1>The kit</h1>\n<p>What the definitions name of the Rattle kit and its '
            "libraries. A name without a text is a type of the code, one of its values, or built in.</p>\n"
        )
        for name, places in sorted(self.of_kit.items()):
            found = next((each for each in (kit.definition(*place) for place in sorted(places)) if each), None)
            words = f"<p>{prose(found.comment)}</p>\n<pre>{escape(found.text, quote=False)}</pre>\n" if found else ""
            where = ", ".join(sorted({module for module, _ in places}))
            heading = f"<h4>{escape(name.partition('.')[2])}</h4>"
            body += f'<section class="def" id="{escape(name)}">\n{heading}\n{words}<p class="at">{where}</p>\n</section>\n'
        return page("The kit: what the definitions name of it", body)

    # The index.

    def leads_to(self, name, target):
        """Where a link of the README to a file of a crate leads in the book: to an item or to a definition of the file."""
        parts = re.match(r"crates/(\w+)/(src|specs)/([\w/]+)\.\w+", target)
        if not parts or parts[1] not in self.crates:
            return None, None
        if parts[2] == "specs":
            key = (parts[1], parts[3].replace("/", "."), name)
            return None, f"{parts[1]}.html#{quote(definition_id(key))}" if key in self.specs.definitions else None
        for item in self.items[parts[1]]:
            if item.is_public and f"::{item.path}".endswith(f"::{name}") and item.file == self.top / target:
                return (parts[1], item), f"{parts[1]}.html#{quote(item.anchor)}"
        return None, None

    def guarantee_cell(self, cell):
        """A cell of the guarantees, in which what leads to a crate's sources leads into the book, and clauses of an item after it too."""
        words, last, items = [], 0, []
        for found in CITED.finditer(cell):
            words.append(escape(cell[last : found.start()], quote=False))
            last = found.end()
            name = found[1] or found[3]
            shown = f"<code>{escape(name).replace('::', '::<wbr>')}</code>"
            if found[1]:
                item, href = self.leads_to(name, found[2].partition("#")[0])
                items += [item] if item else []
            else:
                href = next((self.clause_href(item, name) for item in items if self.clause_href(item, name)), None)
            if not href and (found[1] or items and re.fullmatch(r"\w+", name)):
                self.faults.append(f"README.md: `{name}` of the guarantees leads nowhere")
            words.append(link(href, shown) if href else shown)
        return "".join([*words, escape(LINK.sub(r"\1", cell[last:]), quote=False)])

    def clause_href(self, pair, name):
        """Where a clause of an item is, by its name."""
        crate, item = pair
        for number, clause in enumerate(item.clauses, 1):
            if clause.name == name:
                return f"{crate}.html#{quote(clause_id(item, clause, number))}"
        return None

    def guarantees(self):
        """The table of guarantees of README.md."""
        found = GUARANTEES.search((self.top / "README.md").read_text())
        if not found:
            self.faults.append("README.md: there is no table of guarantees")
            return ""
        heads = found[0].splitlines()[0].strip().strip("|").split("|")
        rows = "".join(f"<th>{escape(head.strip())}</th>" for head in heads)
        for line in found[1].splitlines():
            cells = "".join(f"<td>{self.guarantee_cell(cell.strip())}</td>" for cell in line.strip().strip("|").split("|"))
            if ".html#" not in cells and "docs/PROOF.md" not in line:
                self.faults.append(f"README.md: this guarantee leads to no clause: {line}")
            rows += f"</tr>\n<tr>{cells}"
        return f"<table>\n<tr>{rows}</tr>\n</table>\n"

    def index_page(self):
        """The first page."""
        body = (
            "<h1>What is proved</h1>\n<p>Each promise of the crates is a clause, and each name in a clause is a link to its definition: a "
            "comment, its text, its file and its line. The names in that text lead further, down to those of the Rattle kit. A clause says "
            "<b>requires</b> for what a caller must see to, <b>ensures</b> for what holds after the call, and <b>ghost</b> for what a type "
            "or a trait means.</p>\n"
            f"<h2>The guarantees</h2>\n{self.guarantees()}<h2>The crates</h2>\n<table>\n"
            "<tr><th>Crate</th><th>What it is</th><th>Items</th><th>Clauses</th><th>Definitions</th></tr>\n"
        )
        for name, crate in self.crates.items():
            root = next(source for source in crate.sources if source.file == crate.root)
            numbers = (
                sum(item.is_public for item in self.items[name]),
                len(crate.clauses()),
                sum(len(module.definitions) for key, module in self.specs.modules.items() if key[0] == name),
            )
            cells = "".join(f'<td class="n">{number}</td>' for number in numbers)
            says = prose(root.says.partition(". ")[0].rstrip(".") + ".")
            body += f"<tr><td>{link(f'{name}.html', name)}</td><td>{says}</td>{cells}</tr>\n"
        clauses = (self.top / ".ci" / "public_clauses.txt").read_bytes()
        body += (
            f"</table>\n<p>{link('kit.html', 'The kit')}: what the definitions name of it.</p>\n<p>The list of all "
            f"{sum(len(crate.clauses()) for crate in self.crates.values())} public clauses and of the definitions that they rest on, "
            "<code>public_clauses.txt</code>, has the SHA-256 "
            f"<code>{hashlib.sha256(clauses).hexdigest()}</code>.</p>\n"
        )
        return page("What is proved", body)


def definition_id(key):
    """The anchor of a definition."""
    return f"d-{key[1]}.{key[2]}"


def give_anchors(items):
    """Gives each item of a crate an anchor of its own: its path, and where another one has it, its line."""
    given = set()
    for item in items:
        words = re.sub(r"\W+", ".", item.path).strip(".")
        item.anchor = f"{words}.{item.line}" if item.of_trait or words in given else words
        given.add(words)


def clause_id(item, clause, number):
    """The anchor of a clause."""
    return f"{item.anchor}-{clause.kind}-{clause.name or number}"


def file_id(source):
    """The anchor of a file of the code."""
    return "src-" + ".".join(source.file.relative_to(source.crate.folder / "src").with_suffix("").parts)


def short(item):
    """What an item is called in a list."""
    return item.path.removeprefix("laws::")


def reindented(text):
    """A clause's text without the spaces that its lines begin with, but for those within it."""
    lines = text.strip().splitlines()
    least = min((len(line) - len(line.lstrip()) for line in lines[1:] if line.strip()), default=0)
    return "\n".join([lines[0], *("  " + line[least:] for line in lines[1:])])


def item_faults(book):
    """The public items without a `///`, but those that a trait names and describes."""
    return [
        f"{item.file.relative_to(book.top)}:{item.line}: {item.path} has no `///`"
        for items in book.items.values()
        for item in items
        if item.is_public and not item.doc and not item.of_trait
    ]


def dead_links(pages, top, sources):
    """The links of pages that lead nowhere."""
    ids = {name: re.findall(r' id="([^"]*)"', text) for name, text in pages.items()}
    dead = []
    for name, own in ids.items():
        dead += [f"{name}: two parts have the name {one}" for one in sorted({one for one in own if own.count(one) > 1})]
    anchors = {name: set(own) for name, own in ids.items()}
    for name, text in pages.items():
        for href in sorted(set(re.findall(r' href="([^"]*)"', text))):
            if sources and href.startswith(sources):
                leads = (top / href.removeprefix(sources).partition("#")[0]).is_file()
            else:
                file, _, anchor = href.partition("#")
                leads = (file or name) in pages and (not anchor or escape(unquote(anchor)) in anchors[file or name])
            if not leads:
                dead.append(f"{name}: the link {unquote(href)} leads nowhere")
    return dead


def faults_of(book):
    """The pages of a book, and what is wrong with them."""
    pages = book.pages()
    return pages, book.faults + item_faults(book) + dead_links(pages, book.top, book.sources)


def lead(book, tree):
    """Makes the links of installed documents to sources lead into the book."""

    def instead(found):
        words, target = found[1], os.path.normpath(file.parent.relative_to(tree) / found[2])
        crate = re.match(r"crates/(\w+)/(?:src|specs)\b", target)
        if not crate:
            return found[0]
        page = f"{crate[1]}.html" if crate[1] in book.crates else "index.html"
        return f"[{words}]({os.path.relpath(tree / 'book', file.parent)}/{book.leads_to(words.strip('`'), target)[1] or page})"

    for file in sorted(tree.rglob("*.md")):
        file.write_text(LINK.sub(instead, file.read_text()))


def main(words):
    if words and words != ["--check"] and not (words[0] == "--install" and len(words) == 2):
        print(__doc__)
        return 2
    tree = Path(words[1]) if words[1:] else None
    book = Book(sources=None if tree else "../../")
    pages, faults = faults_of(book)
    for fault in faults:
        print(f"book: {fault}")
    if words != ["--check"]:
        out = tree / "book" if tree else OUT
        out.mkdir(parents=True, exist_ok=True)
        for name, text in pages.items():
            (out / name).write_text(text)
    if tree:
        lead(book, tree)
    links = sum(text.count(" href=") for text in pages.values())
    print(f"book: {len(pages)} pages with {links} links" + ("" if faults else ", none of them dead, and a /// at each public item"))
    return 1 if faults else 0


if __name__ == "__main__":
    sys.exit(main(sys.argv[1:]))
