#!/usr/bin/env python3
"""Counts what this repository has more of than it should, and sees that no count grows:

    .ci/house.py
    .ci/house.py --write [RULE ..]   writes .ci/house.txt anew; the count of a rule that is named may grow, no other

.ci/house.txt has each rule with its count and the names of what breaks it. A count that grew fails, and so does a list that isn't that of
today: it is written anew, so that a change shows there as a line. The rules are the functions below `RULES`; each says what it counts.
A line that a merge left, in any file, fails.
shellcheck and flake8 look at the scripts, each where it is installed; all that they say fails, but the kinds that are listed below with the
reason. Prints what is wrong and ends with status 1, or prints one line of counts. .ci/test_checks.py sees each rule fail. It needs Python's
standard library alone."""

import ast
import bisect
import collections
import functools
import re
import shutil
import subprocess
import sys
from functools import cached_property
from pathlib import Path

TOP = Path(__file__).resolve().parent.parent
sys.dont_write_bytecode = True
sys.path.insert(0, str(TOP / "docs"))
import specs
from clauses import CLAUSE, FUNCTION, HEADER, TYPE, blanked, blocks_of
from specs import WORD

KEPT = TOP / ".ci" / "house.txt"
HEADER_LINES = """\
# What breaks the rules of .ci/house.py, by name: the count of each rule, which may only fall, and below it what is counted.
# `.ci/house.py --write` writes it anew.
"""
MERGED = re.compile("(<{7}|>{7}) |={7}$")
MOST_OF_A_FUNCTION = 40
MOST_OF_A_FILE = 800
MOST_PARAMETERS = 5
MOST_COLUMNS = 100
MOST_CHARACTERS = 200
SPEEDS_OF_A_TABLE = 4
LETTERS_OF_A_LINE = 8
# Participles that don't end in -ed or -ing, and words that end so and are nouns of the field.
PARTICIPLES = "begun drawn found given heard held kept known lost made meant met said sent shown spoken stood taken told written".split()
NOUNS = "coding feed framing padding seed signalling speed string stuffing training".split()
# Verbs that aren't in the third person by an s.
VERBS = """are aren't can can't could did do doesn't does don't had has hasn't have haven't is isn't may might must was wasn't were weren't
will won't would""".split()
# Words that end in s, begin comments, and are no verbs.
NO_VERBS = "as bits frames its octets pages rows this".split()
ASKING = ("what", "how", "why", "where", "which", "when", "who")
# What shellcheck says that isn't a fault here, and why.
SHELL_KINDS = {
    "SC1090": "the parts of a script are read by a path that is made",
    "SC1091": "the same",
    "SC2034": "a script gives variables to its parts",
    "SC2154": "a part takes variables of its script",
    "SC2164": "each script, and each that reads such a part, has `set -e`",
    "SC3045": "each shell that is met has `ulimit -v` and `ulimit -c`",
}
# What flake8 says that isn't a fault here, and why.
PYTHON_KINDS = {
    "E203": "a slice has spaces around its colon, as formatters write it",
    "E731": "a short function has a name where it is used",
    "E402": "what a script imports of its neighbours comes after their folder is named",
}
PACKAGE_KINDS = "F401"  # of an `__init__.py`: what it imports it gives on
PYTHON_COLUMNS = 150


class Code:
    """A source of a crate: its functions, its clauses and its types, each with the name that a list has it by."""

    def __init__(self, path, text):
        self.path, self.text, self.bare = path, text, blanked(text)
        self.crate = path.split("/")[1]
        self.file = path.split("/", 3)[3] if path.count("/") > 2 else path
        self.blocks = blocks_of(self.bare)
        self.ends = {block[0]: block[1] for block in self.blocks}

    @property
    def is_law(self):
        return "laws" in Path(self.path).with_suffix("").parts

    @cached_property
    def headers(self):
        """The blocks of an `impl` or a `trait`: where each begins and ends, and of what it is."""
        found = ((block, HEADER.search(block[2])) for block in self.blocks if re.search(r"\b(?:impl|trait)\b", block[2]))
        return [(block[0], block[1], header[2]) for block, header in found if header]

    def owner(self, place):
        """The type whose block a place is in, with `::`; nothing outside of such a block."""
        around = [name for first, last, name in self.headers if first < place < last]
        return f"{around[-1]}::" if around else ""

    @cached_property
    def functions(self):
        """Each function: its place, its name, its parameters and the first and last place of its body, if it has one."""
        found = []
        for match in FUNCTION.finditer(self.bare):
            start = self.bare.index("(", match.end())
            end = start + 1
            for part in re.finditer(r"[()]", self.bare[start + 1 :]):
                end = start + 2 + part.start()
                inside = self.bare[start + 1 : end]
                if inside.count(")") > inside.count("("):
                    break
            found.append((match.start(), self.owner(match.start()) + match[2], self.bare[start + 1 : end - 1], self.body(end)))
        return found

    def body(self, place):
        """The first and last place of the body after a signature: the first block that is no clause."""
        while True:
            mark = re.compile(r"[{;]").search(self.bare, place)
            if not mark or mark[0] == ";":
                return None
            if not re.search(r"\b(?:requires|ensures|decreases)\b[^{}]*$", self.bare[place : mark.start()]):
                return mark.start(), self.ends[mark.start()]
            place = self.ends[mark.start()]

    @cached_property
    def clauses(self):
        """Each clause: the name of it, its text, and its first and last place."""
        places = [place for place, *_ in self.functions]
        found = []
        for match in CLAUSE.finditer(self.bare):
            last = self.ends[match.end() - 1]
            before = bisect.bisect(places, match.start()) - 1
            of = self.owner(match.start()).rstrip(":") if match[3] or before < 0 else self.functions[before][1]
            name = f"{of}: {'ghost' if match[3] else match[1]} {match[3] or match[2] or ''}".rstrip()
            found.append((name, self.text[match.end() : last - 1], match.start(), last))
        return found

    @cached_property
    def compares(self):
        """Whether the code compares anything, outside of its clauses."""
        text = list(self.bare)
        for _, _, first, last in self.clauses:
            text[first:last] = " " * (last - first)
        return bool(re.search(r"[^=!<>]==[^=]|!=|\bassert|\.contains\(|\.starts_with\(", "".join(text)))

    @cached_property
    def types(self):
        """Each type: its name, what is above it and its text."""
        found = []
        for match in TYPE.finditer(self.bare):
            if match[2] in ("struct", "enum", "trait", "type"):
                place = min(at for at in (self.bare.find(mark, match.start()) for mark in "{;") if at >= 0)
                above = re.search(r"(?:^[ \t]*(?:#\[[^\n]*|//[^\n]*)\n)*\Z", self.text[: match.start()], re.M)[0]
                found.append((match[3], match[1], above, self.bare[match.start() : self.ends.get(place, place)]))
        return found


class House:
    """The texts of the repository by their paths, and what is read of them."""

    def __init__(self, texts):
        self.texts = texts

    @cached_property
    def codes(self):
        return [Code(path, text) for path, text in self.texts.items() if re.match(r"crates/\w+/src/.*\.rt$", path)]

    @cached_property
    def words(self):
        """In which sources of the crates each word stands."""
        places = collections.defaultdict(set)
        for code in self.codes:
            for word in set(re.findall(r"\w+", code.bare)):
                places[word].add(code.path)
        return places

    def matching(self, pattern):
        """The texts whose path has this form."""
        return [(path, text) for path, text in self.texts.items() if re.fullmatch(pattern, path)]


def long_functions(house):
    """functions of more than 40 lines between their braces, in Rattle and Python"""
    for code in house.codes:
        for _, name, _, body in code.functions:
            if body and code.text.count("\n", *body) - 1 > MOST_OF_A_FUNCTION:
                yield f"{code.crate} {code.file} {name}"
    for path, text in house.matching(r".*\.py"):
        for node in ast.walk(ast.parse(text)):
            if isinstance(node, ast.FunctionDef) and node.end_lineno - node.body[0].lineno + 1 > MOST_OF_A_FUNCTION:
                yield f"{path} {node.name}"


def long_files(house):
    """files of more than 800 lines"""
    for path, text in house.matching(r".*\.(?:rt|antt|py|sh|c|h)"):
        if text.count("\n") > MOST_OF_A_FILE:
            yield path


def many_parameters(house):
    """functions of more than five parameters, `self` among them"""
    for code in house.codes:
        for _, name, parameters, _ in code.functions:
            flat = re.sub(r"->", "", parameters)
            while re.search(r"[(\[<{][^()\[\]<>{}]*[)\]>}]", flat):
                flat = re.sub(r"[(\[<{][^()\[\]<>{}]*[)\]>}]", "", flat)
            if len([part for part in flat.split(",") if part.strip()]) > MOST_PARAMETERS:
                yield f"{code.crate} {code.file} {name}"


def wide_clauses(house):
    """clauses with a line of more than 100 columns"""
    for code in house.codes:
        for name, _, first, last in code.clauses:
            begins = code.text.rfind("\n", 0, first) + 1
            ends = code.text.find("\n", last)
            if any(len(line) > MOST_COLUMNS for line in code.text[begins:ends].splitlines()):
                yield f"{code.crate} {code.file} {name}"


def long_clauses(house):
    """clauses of more than 200 characters, a run of blanks as one"""
    for code in house.codes:
        for name, text, _, _ in code.clauses:
            if len(" ".join(text.split())) > MOST_CHARACTERS:
                yield f"{code.crate} {code.file} {name}"


def participle_modules(house):
    """modules whose name is a participle alone"""
    for code in house.codes:
        name = Path(code.path).stem
        if name not in NOUNS and (name in PARTICIPLES or re.fullmatch(r"[a-z]{2,}(?:ing|ed)", name)):
            yield f"{code.crate} {code.file}"


def double_types(house):
    """names of types that stand in two crates or more"""
    crates = collections.defaultdict(set)
    for code in house.codes:
        for name, *_ in code.types:
            crates[name].add(code.crate)
    for name, of in crates.items():
        if len(of) > 1:
            yield f"{name}: {' '.join(sorted(of))}"


def lone_pubs(house):
    """items that are `pub` and that no other source names; laws and examples are for readers"""
    for code in house.codes:
        if code.is_law or code.crate == "uses":
            continue
        for match in re.finditer(r"^ *pub (?:const |extern )?(?:fn|struct|enum|trait|const|type|static) (\w+)", code.bare, re.M):
            if house.words[match[1]] == {code.path}:
                yield f"{code.crate} {code.file} {code.owner(match.start())}{match[1]}"


def first_sentence(doc):
    """The words of a comment's first sentence, small, what is between backticks as one."""
    sentence = re.split(r"(?<=[.;:])\s", re.sub(r"`[^`]*`", "X", doc))[0]
    return [word.lower() for word in re.findall(r"[A-Za-z']+", sentence)]


def verbless_comments(house):
    """comments of functions whose first sentence has no verb, or is a clause that only begins one (`Whether ..`, `What is told`)"""
    docs = [
        (f"{code.crate} {code.file} {name}", doc)
        for code in house.codes
        for doc, name in ((doc_above(code, place), name) for place, name, _, _ in code.functions)
        if doc
    ]
    begins = {first_sentence(doc)[0] for _, doc in docs if first_sentence(doc)}
    verbs = {word for word in begins if word.endswith("s") and word not in NO_VERBS} | set(VERBS)
    for name, doc in docs:
        words = first_sentence(doc)
        has = sum(word in verbs for word in words)
        if not has or words[0] == "whether" or words[0] in ASKING and has < 2:
            yield name


def doc_above(code, place):
    """What the `///` lines above a function say."""
    lines = code.text[: code.text.rfind("\n", 0, place) + 1].splitlines()
    said = []
    while lines and lines[-1].strip().startswith(("///", "#[", "//")):
        line = lines.pop().strip()
        said += [line[3:].strip()] if line.startswith("///") else []
    return " ".join(reversed(said))


def status_texts(text):
    """The text of each status of the library for C, by the source that has them."""
    return dict(re.findall(r'Text\(\s*(\d+),\s*b"([^"]*)\\0"', text.partition("const STATUSES")[2].partition("\n];")[0]))


def fault_wordings(house):
    """wordings of a fault: in how many ways each number is told by the crates, the help, FAULTS and the library for C"""
    wordings = collections.defaultdict(set)
    for path, text in house.matching(r"crates/\w+/src/(?:\w+/)*fault\.rt"):
        numbers = dict(re.findall(r"\w+::(\w+)(?:\([^)]*\)|\s*\{[^}]*\})? => (\d+),", text))
        for words, kind in re.findall(r'#\[error\("([^"]*)"[^\]]*\)\]\s*(\w+)', text):
            wordings[numbers.get(kind)].add(words)
    for _, text in house.matching(r"crates/faults/specs/FaultKinds\.antt"):
        numbers = dict(re.findall(r"^number_of (\w+) = (\d+)$", text, re.M))
        for kind, words in re.findall(r'^words_of (\w+) = codes "([^"]*)"', text, re.M):
            wordings[numbers.get(kind)].add(words)
    for _, text in house.matching(r"crates/faxtool/src/args/fault_table\.rt"):
        for number, words in re.findall(r"^ +(\d+)  (.*)$", text, re.M):
            wordings[number].update(words.split("; "))
    for _, text in house.matching(r"docs/FAULTS\.md"):
        for numbers, words in re.findall(r"^\| ([\d, ]+?)(?: at a \w+)? *\| [^|]+ \| (.*?) \|$", text, re.M):
            for number in numbers.split(", "):
                wordings[number].add(words.partition(". ")[0])
    for _, text in house.matching(r"crates/g3fax/src/texts\.rt"):
        for number, words in status_texts(text).items():
            wordings[number].add(words)
    for number, of in wordings.items():
        yield from (f"{number}: {words}" for words in of if number)


def speed_tables(house):
    """functions that spell four speeds of a modem or more"""
    for code in house.codes:
        for _, name, _, body in code.functions:
            if body and len(set(re.findall(r'"[vV]\.?(?:17|27|29)[^"]*\d{4}[^"]*"', code.text[slice(*body)]))) >= SPEEDS_OF_A_TABLE:
                yield f"{code.crate} {code.file} {name}"
    for path, text in house.matching(r"bindings/.*\.c"):
        for found in re.finditer(r"^\w[\w *]*?\b(\w+)\([^;{}]*\)\s*\{(?:[^\n]*\}$|.*?^\})", text, re.M | re.S):
            if len(set(re.findall(r'"[vV]\.?(?:17|27|29)[^"]*\d{4}[^"]*"', found[0]))) >= SPEEDS_OF_A_TABLE:
                yield f"{path} {found[1]}"


def idle_derives(house):
    """derived Debug and PartialEq of private types that nothing of their crate can use"""
    by_crate = collections.defaultdict(list)
    for code in house.codes:
        by_crate[code.crate].append(code)
    for crate, codes in sorted(by_crate.items()):
        types = [(code, *of) for code in codes for of in code.types]
        shows = any(re.search(r":[#\w]*\?\}|\b(?:assert_eq|assert_ne|dbg)!|\bunwrap_err\(|\bexpect_err\(", code.text) for code in codes)
        for code, name, is_pub, above, _ in types:
            derived = {word for words in re.findall(r"#\[derive\(([^)]*)\)\]", above) for word in re.findall(r"\w+", words)}
            if is_pub or not derived & {"Debug", "PartialEq"}:
                continue
            compares = any(other.compares and re.search(rf"\b{name}\b", other.bare) for other in codes)
            for trait, used in (("Debug", shows), ("PartialEq", compares)):
                held = any(other != name and trait in around and re.search(rf"\b{name}\b", text) for _, other, _, around, text in types)
                if trait in derived and not used and not held:
                    yield f"{crate} {code.file} {name}: {trait}"


@functools.lru_cache(None)
def named_in(house):
    """The definitions that sources name, those that definitions name, and those that proofs name, by crate, module and name."""
    crates = sorted({path.split("/")[1] for path, _ in house.matching(r"crates/\w+/specs/.*\.antt")})
    read = specs.Specs([TOP / "crates" / crate for crate in crates])
    sources, proofs = set(), set()
    for code in house.codes:
        for found in re.finditer(r"\bghost use Rattle\.(\w+)\.specs\.([\w.]+)\.\{([^}]*)\}", code.text):
            sources.update(read.found(key) for key in specs.named_by(found).values())
    for _, text in house.matching(r"crates/\w+/proofs/.*\.antt"):
        for found in specs.IMPORT.finditer(text):
            proofs.update(read.found(key) for key in specs.named_by(found).values())
    return read, sources, proofs


def unnamed_definitions(house):
    """definitions that no source, no other definition and no proof names"""
    read, sources, proofs = named_in(house)
    yield from (" ".join(key) for key in unreached(read, sources) - proofs)


def definitions_of_proofs(house):
    """definitions that proofs alone name: they belong into `proofs/`"""
    read, sources, proofs = named_in(house)
    yield from (" ".join(key) for key in unreached(read, sources) & proofs)


def unreached(read, sources):
    """The definitions that neither a source nor another definition names."""
    named = {read.found(key) for each in read.definitions.values() for key in each.rests_on if read.found(key) != each.key}
    return set(read.definitions) - named - sources


def spelled_octets(house):
    """lines of definitions that spell words as octets"""
    for path, text in house.matching(r"crates/\w+/specs/.*\.antt"):
        of = ""
        for line in text.splitlines():
            of = (re.match(rf"\s*(?:abbrev |pub |unfoldable )*({WORD}) :", line) or [None, of])[1]
            octets = [int(octet, 16) for octet in re.findall(r"\b0x([0-9A-F]{2})\b", line)]
            letters = [octet for octet in octets if octet == 32 or octet < 127 and chr(octet).isalpha()]
            if len(octets) >= LETTERS_OF_A_LINE and len(letters) > len(octets) * 3 / 4:
                yield f"{path.split('/')[1]} {path.rpartition('/')[2]} {of}"


RULES = {
    rule.__name__.replace("_", "-"): rule
    for rule in (
        long_functions,
        long_files,
        many_parameters,
        wide_clauses,
        long_clauses,
        participle_modules,
        double_types,
        lone_pubs,
        verbless_comments,
        fault_wordings,
        speed_tables,
        idle_derives,
        unnamed_definitions,
        definitions_of_proofs,
        spelled_octets,
    )
}


def files_here():
    """Each file that is committed, or will be; of a source tarball, each that isn't built."""
    words = ["git", "-c", f"safe.directory={TOP}", "-C", str(TOP), "ls-files", "-z", "-co", "--exclude-standard"]
    listed = subprocess.run(words, capture_output=True, text=True, check=False)
    files = [TOP / name for name in listed.stdout.split("\0") if name]
    if listed.returncode:
        files = [file for file in TOP.rglob("*") if not {"out", "build", ".git"} & set(file.relative_to(TOP).parts)]
    return [file for file in sorted(files) if file.is_file()]


def house_here():
    """The house as it lies here: each source, script and document."""
    kinds = (".rt", ".antt", ".py", ".sh", ".c", ".h", ".md")
    return House({str(file.relative_to(TOP)): file.read_text() for file in files_here() if file.suffix in kinds})


def merge_faults(texts):
    """Each line that a merge left in a file."""
    for path, text in texts:
        for number, line in enumerate(text.splitlines(), 1):
            if MERGED.match(line):
                yield f"{path}:{number}: a merge left this line: {line[:20]}"


def texts_here():
    """Each file by name, with its text; octets that are none are replaced."""
    return [(str(file.relative_to(TOP)), file.read_text(errors="replace")) for file in files_here()]


def kept_in(text):
    """The counts of a list, and the names below each."""
    counts, names = {}, collections.defaultdict(list)
    rule = None
    for line in text.splitlines():
        heading = re.match(r"([\w-]+) (\d+): ", line)
        if heading:
            rule, counts[heading[1]] = heading[1], int(heading[2])
        elif line.startswith("    ") and rule:
            names[rule].append(line[4:])
    return counts, names


def written(found, counts):
    """The list anew."""
    parts = []
    for rule, names in found.items():
        parts.append(f"\n{rule} {counts[rule]}: {RULES[rule].__doc__.splitlines()[0]}\n")
        parts += [f"    {name}\n" for name in names]
    return HEADER_LINES + "".join(parts)


def count_faults(found, text):
    """What is counted and isn't in the list, if a count grew; and the rules whose list isn't that of today."""
    counts, kept = kept_in(text)
    for rule, names in found.items():
        new = collections.Counter(names) - collections.Counter(kept[rule])
        gone = collections.Counter(kept[rule]) - collections.Counter(names)
        if len(names) > counts.get(rule, 0):
            yield f"{rule} grew from {counts.get(rule, 0)} to {len(names)}: {RULES[rule].__doc__}"
            yield from (f"{rule}: {name}" for name in sorted(new.elements()))
        elif new or gone or len(names) < counts[rule]:
            yield f"{rule} is now {len(names)}, and other names break it: .ci/house.py --write"


def script_notes(house):
    """What shellcheck and flake8 say of the scripts, and which of the two isn't installed."""
    shells = sorted(path for path, _ in house.matching(r".*\.sh")) + [".ci/run"]
    pythons = sorted(path for path, _ in house.matching(r".*\.py"))
    tools = [
        ("shellcheck", ["shellcheck", "-s", "sh", "-S", "warning", "-f", "gcc", "-e", ",".join(SHELL_KINDS)], shells),
        ("flake8", ["flake8", "--isolated", "--max-line-length", str(PYTHON_COLUMNS), "--extend-ignore", ",".join(PYTHON_KINDS),
                    "--per-file-ignores", f"__init__.py:{PACKAGE_KINDS}"], pythons),
    ]
    notes, missing = [], []
    for name, words, files in tools:
        if not shutil.which(name):
            missing.append(name)
            continue
        ran = subprocess.run([*words, *files], cwd=TOP, capture_output=True, text=True, check=False)
        said = (ran.stdout + ran.stderr).splitlines()
        notes += [f"{name}: {line}" for line in said] or ([f"{name} ended with status {ran.returncode}"] if ran.returncode else [])
    return notes, missing


def grown(found, counts, allowed):
    """The rules whose count grew, and may not."""
    return [rule for rule, names in found.items() if len(names) > counts.get(rule, 0) and rule not in allowed]


def main(words):
    if words and (words[0] != "--write" or set(words[1:]) - set(RULES)):
        print(__doc__)
        return 2
    house = house_here()
    found = {name: sorted(rule(house)) for name, rule in RULES.items()}
    text = KEPT.read_text() if KEPT.is_file() else ""
    if words:
        allowed = set(words[1:]) if text else set(RULES)
        if not grown(found, kept_in(text)[0], allowed):
            KEPT.write_text(written(found, {rule: len(names) for rule, names in found.items()}))
            text = KEPT.read_text()
    notes, missing = script_notes(house)
    faults = [*count_faults(found, text), *merge_faults(texts_here()), *notes]
    for fault in faults:
        print(f"house: {fault}")
    if not faults:
        print(f"house: {', '.join(f'{len(names)} {rule}' for rule, names in found.items())}")
        print(*(f"house: {name} isn't installed, and looks at no script\n" for name in missing), sep="", end="")
    return 1 if faults else 0


if __name__ == "__main__":
    sys.exit(main(sys.argv[1:]))
