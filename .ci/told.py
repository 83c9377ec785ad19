#!/usr/bin/env python3
"""Holds against each other the places that tell the same, which nothing else compares before the built program is tried:

    .ci/told.py

The words of a fault: the texts of the code and of the definitions are the same; those of the program's help and of its man page are; those
of `#[error(..)]` and of g3_status_text are; the help says what the first sentence of docs/FAULTS.md says, and what g3_status_text says; and
each fault line with words that a case of .ci/end_to_end or a document quotes has words that the program has. What differs today is listed
below.
The names of frames by their control fields: softfax has those of the program, and names none of these otherwise. The fields of the record
of a call's end, the words of its figures, and the frames that ask for no answer: softfax has those of the program.
The table "What to touch" of CONTRIBUTING.md: the files that it names are there, and each signal, fault, code, command and option stands in
each of those that its row names for it.
Prints what differs and ends with status 1, or prints one line of counts. .ci/test_checks.py sees each check fail. It needs Python's standard
library alone."""

import re
import sys
from pathlib import Path

TOP = Path(__file__).resolve().parent.parent
sys.dont_write_bytecode = True
import house

FAULT_KINDS, FAULT_SPECS = "crates/faults/src/fault_kind.rt", "crates/faults/specs/FaultKinds.antt"
EXPLAIN, EXPLAIN_SPECS = "crates/faults/src/explain.rt", "crates/faults/specs/Explanations.antt"
HELP, PAGE, TABLE = "crates/faxtool/src/args/fault_table.rt", "docs/man/faxtool.1", "docs/FAULTS.md"
C_TEXTS, C_SPECS, C_HEADER = "crates/g3fax/src/texts.rt", "crates/g3fax/specs/Texts.antt", "bindings/g3fax.h"
NAMES, C_NAMES = "crates/captures/specs/OtherWords.antt", "bindings/c/softfax/names.h"
END_SPECS, END_C, ASKING_C = "crates/station_commands/specs/EndRecords.antt", "bindings/c/softfax/record.c", "bindings/c/softfax/terminal.c"
# What softfax alone has: the folder of a call's pages.
C_FIELDS = {"folder"}
LITERAL = re.compile(r'"((?:\\.|[^"\\])*)"')
LEAST_WORDS = 4
# The faults of which the help says something else than docs/FAULTS.md, those of which the library for C does than the crates, and than the
# help.
HELP_DIFFERS = {"7", "10 at a bit", "17 at a bit", "31 at a line"}
C_DIFFERS = {"26"}
STATUS_DIFFERS = {"1", "3", "4", "5", "6", "7", "9", "10", "11", "12", "13", "14", "15", "17", "18", "26"}
# Faults that no case of .ci/end_to_end names by number: other cases and tests meet them.
UNTRIED = {"9", "18", "20", "21", "22"}
# A status of the library for C whose number is another fault's.
OF_C_ALONE = {"28"}


def literals(text):
    """The texts of a source or of definitions, and of its comments nothing."""
    return [re.sub(r"\\(.)", r"\1", found) for found in LITERAL.findall(re.sub(r"^\s*(?://|--).*", "", text, flags=re.M))]


def sentence(words):
    """Words without a place before them, a code in brackets after them, what they are of, links, a capital letter and a full stop."""
    words = re.sub(r"\[([^]]*)\]\([^)]*\)", r"\1", words.strip()).replace("`", "")
    words = re.sub(r"^(?:at a bit|at a line|in a list of frames|A frame is no signal): ", "", words)
    words = re.sub(r"^(?:a content whose|a content of which|its|the(?= address| control)) ", "", words)
    words = re.sub(r"(?<=\d),(?=\d{3})", "", re.sub(r" \((?:mh|mmr)\)$", "", words)).rstrip(".")
    return words[:1].lower() + words[1:]


def help_words(text):
    """What the help says of each fault."""
    found = {}
    for number, words in re.findall(r"^ +(\d+)  (.*)$", text, re.M):
        for part in words.split("; "):
            place = re.match(r"(at a bit|at a line): ", part)
            found[f"{number} {place[1]}" if place else number] = part
    return found


def table_words(text):
    """The first sentence of docs/FAULTS.md of each fault; where a row has several, one of them each."""
    found = {}
    for numbers, place, words in re.findall(r"^\| ([\d, ]+?)( at a \w+)? *\| [^|]+ \| (.*?) \|$", text, re.M):
        first, numbers = re.split(r"[.:](?: |$)", words)[0], numbers.split(", ")
        parts = re.split(r"\. |\.$", words)[0].split("; ") if len(numbers) > 1 else [re.sub(r", the most of a page$", "", first)]
        found.update({number + place: re.sub(r"^it ", "an image ", part) for number, part in zip(numbers, parts)})
    return found


def page_words(text):
    """What the man page says of each fault."""
    part = text.partition(".SH FAULTS")[2] or text
    words = {number: " ".join(lines.split()) for number, lines in re.findall(r"^\.TP\n(?:\\fB)?(\d+)(?:\\fP)?\n((?:[^.].*\n)+)", part, re.M)}
    return {number: re.sub(r"\\(?:\(aq|-|&)", lambda it: {"\\(aq": "'"}.get(it[0], ""), said) for number, said in words.items()}


def kind_words(specs):
    """The words of each kind of fault by its number, and the tables of what depends on the file."""
    numbers = dict(re.findall(r"^number_of (\w+) = (\d+)$", specs[FAULT_SPECS], re.M))
    found = {}
    for kind, words in re.findall(r'^words_of (\w+) = codes "([^"]*)"', specs[FAULT_SPECS], re.M):
        found.setdefault(numbers[kind], set()).add(words)
    for name, number in [("reason_words", "8"), ("netpbm_table", "5"), ("tiff_table", "5"), ("no_raw_pbm", "5"), ("missing_code", "10"),
                         ("line_words", "30")]:
        for text in re.findall(rf"^{name} .*?(?=^\S*\b(?!{name})\w+ |^--|\Z)", specs[EXPLAIN_SPECS], re.M | re.S):
            found[number].update(literals(text))
    return found


def error_words(texts):
    """What the `#[error]` of a crate's faults says, by number."""
    found = {}
    for path, text in texts.items():
        if re.match(r"crates/(?:raster|run_tables|signals|stations)/src/fault\.rt$", path):
            numbers = dict(re.findall(r"\w+::(\w+)(?:\([^)]*\)|\s*\{[^}]*\})? => (\d+),", text))
            for words, kind in re.findall(r'#\[error\("([^"]*)"\)\]\s*(\w+)', text):
                if kind in numbers:
                    found.setdefault(numbers[kind], set()).add(words)
    return found


def status_words(texts):
    """What g3_status_text says of each fault that the program has too."""
    told = house.status_texts(texts[C_TEXTS])
    return {number: words for number, words in told.items() if 0 < int(number) < 100 and number not in OF_C_ALONE}


def statuses(header):
    """The numbers of the library's statuses."""
    return dict(re.findall(r"\b(G3_[A-Z_]+) = (\d+)", re.search(r"G3_OK = 0.*?\};", header, re.S)[0]))


def differing(name, pairs, listed):
    """The faults of which two places say something else, but those that are listed; and the listed ones of which they say the same."""
    for number, (one, other) in sorted(pairs.items()):
        if (one != other) != (number in listed):
            yield f"fault {number}: {name}: {f'`{one}` and `{other}`' if one != other else 'they are the same, and are listed as others'}"


def wording_faults(texts):
    """The words of faults that differ between two places."""
    for code, defined in ((FAULT_KINDS, FAULT_SPECS), (EXPLAIN, EXPLAIN_SPECS)):
        one, other = ({it for it in literals(texts[path]) if len(it.split()) >= LEAST_WORDS and "{" not in it} for path in (code, defined))
        yield from (f"{code if it in one else defined} has, and the other one hasn't: `{it}`" for it in sorted(one ^ other))
    helped, told, paged = help_words(texts[HELP]), table_words(texts[TABLE]), page_words(texts[PAGE])
    yield from differing("the help and docs/FAULTS.md", {
        number: (sentence(helped[number]), sentence(told.get(number, ""))) for number in helped}, HELP_DIFFERS)
    lines = dict(re.findall(r"^ +(\d+)  (.*)$", texts[HELP], re.M))
    yield from differing("the help and the man page", {
        number: (words[:1].upper() + words[1:] + ".", paged.get(number, "")) for number, words in lines.items()}, ())
    errors = error_words(texts)
    yield from differing("#[error] and g3_status_text", {
        number: (" or ".join(sorted(errors.get(number, {"nothing"}) if words not in errors.get(number, ()) else {words})), words)
        for number, words in status_words(texts).items()}, C_DIFFERS)
    whole = {number: helped.get(number) or helped.get(f"{number} at a bit", "") for number in status_words(texts)}
    yield from differing("the help and g3_status_text", {
        number: (sentence(whole[number]), sentence(words)) for number, words in status_words(texts).items()}, STATUS_DIFFERS)


def quoted(texts):
    """The fault lines with words that cases and documents quote: the file, the number and the words, without the file's name."""
    for path, text in texts.items():
        if path.startswith(".ci/end_to_end/"):
            joined = re.sub(r'\\\n\s*', "", text)
            pairs = re.findall(r'explains "fault (\d+)[^"]*"\s+["\']([^"\']*: (?:[^"\']|\'(?=\w))*)["\']', joined)
            pairs += re.findall(r"fault (\d+)[^'\"\\]*\\r\\n([^'\"\\]*: [^'\"\\]*)\\r", joined)
            pairs += [(number, f": {words}") for number, words in re.findall(r"^m(?:h|mr) (\d+) \d+ \d+ [0-9A-F_]+ (.*)$", text, re.M)]
            pairs += [(number, f": {words}") for number, words in re.findall(r"^(\d+) [0-9A-F]+(?:_[0-9A-F]+)+ (.*)$", text, re.M)]
        elif path.endswith(".md"):
            pairs = re.findall(r"^fault (\d+)[^\n]*\n([^\n]*: [^\n]*)$", text, re.M)
        else:
            continue
        for number, words in pairs:
            words = re.sub(r"^.*?(?:\}|[\w.-]|^): (?:row \d+: |line \d+: )?", "", words, count=1)
            if words and not words.startswith("$") and len(words.split()) >= LEAST_WORDS:
                yield path, number, words


def program_texts(texts):
    """The texts of the crates of the program as forms: what stands in a hole is any words."""
    found = set()
    for path, text in texts.items():
        if re.match(r"crates/(?:faults|page_files|command_files|calls|commands|station_commands|faxtool)/src/", path) and path != HELP:
            whole = (re.sub(r"^\{\w*\}: ", "", it) for it in literals(text))
            found.update(it for it in whole if len(re.sub(r"\{[^}]*\}", "", it).split()) >= LEAST_WORDS)
    return [re.compile(re.sub(r"(?:\\\{.*?\\\})+", ".*", re.escape(it))) for it in found]


def name_faults(texts):
    """The control fields that softfax names otherwise than the program does, and the names that the program hasn't, if they are no signals
    of the stations. The first bit of a field that softfax hasn't is taken for 0."""
    names = {int(field): name for field, name in re.findall(r'\((\d+), codes "([A-Z-]+)"\)', texts[NAMES])}
    here = {int(field, 16): name for field, name in re.findall(r'\{(0x[0-9a-f]+), "([A-Z-]+)"\}', texts[C_NAMES])}
    if len(names) < 60:
        yield f"{NAMES} names {len(names)} control fields"
    for field, name in names.items():
        other = here.get(field, here.get(field & 0xFE))
        if other != name:
            yield f"{C_NAMES} names {field:02x} {other}, and {NAMES} {name}"
    own = {name.upper() for name in variants(texts["crates/signals/src/signal.rt"], "Signal")}
    yield from (f"{C_NAMES} names {name}, and {NAMES} doesn't" for name in sorted({*here.values()} - {*names.values()} - own))


def end_fields(texts):
    """The fields of the record of a call's end, as the program has them and as softfax has."""
    there = set(re.findall(r'put \(codes "(\w+)"\)', texts[END_SPECS]))
    body = texts[END_C].partition("void record_end_json")[2].partition("\n}\n")[0]
    here = set(re.findall(r'\\"(\w+)\\":', body)) | set(re.findall(r'put_(?:text|text_or_null|count)\("(\w+)"', body))
    return there, here - C_FIELDS


def figure_words(texts):
    """The words between the figures of a call, as the program has them and as softfax has."""
    there = re.findall(r'codes "([^"]*)"', "".join(re.findall(r"^(?:counts|failures)_part .*?\n\n", texts[END_SPECS], re.M | re.S)))
    body = texts[END_C].partition("void record_end_words")[2] + texts[END_C].partition("void put_figures")[2].partition(";\n")[0]
    return "".join(there), re.sub(r"%\w+", "", "".join(re.findall(r'told_add\("([^";%]*%\w+[^"%]*;? |blocks [^"]*)"', body)))


def asking_faults(texts):
    """The frames that ask for no answer, by names of the definitions' comments, that softfax hasn't, and its others."""
    lines = re.findall(r"^-- frames that go beside [^:]*: (.*)$", texts[END_SPECS], re.M)
    there = {name for words in lines for name in re.findall(r"\b[A-Z]{3}\b", words)}
    here = set(literals(texts[ASKING_C].partition("WANT_NONE[] =")[2].partition("};")[0])) - {"frame"}
    yield from (f"{ASKING_C} or {END_SPECS} alone says that {name} asks for no answer" for name in sorted(there ^ here))


def end_faults(texts):
    """What softfax tells otherwise of a call's end than the program does."""
    there, here = end_fields(texts)
    if len(there) < 10:
        yield f"{END_SPECS} has {len(there)} fields"
    yield from (f"{END_C} or {END_SPECS} alone has the field {name}" for name in sorted(there ^ here))
    words, own = figure_words(texts)
    if words != own:
        yield f"{END_C} tells the figures as '{own}', and {END_SPECS} as '{words}'"
    yield from asking_faults(texts)


def quote_faults(texts):
    """The quoted fault lines whose words aren't those of the program."""
    kinds, forms = kind_words(texts), program_texts(texts)
    for path, number, words in quoted(texts):
        own = kinds.get(number, set())
        said = {words, *(words[: found.start()] for found in re.finditer(r" \(|; ", words))}
        if not own & said and not any(form.fullmatch(it) for it in said for form in forms):
            yield f"{path} quotes words that fault {number} hasn't: `{words}`"


def rows_of(text):
    """The rows of the table "What to touch": what is added, and each part of it with the files that it names."""
    section = text.partition("\n## What to touch\n")[2].partition("\n## ")[0]
    return dict(re.findall(r"^\| (an? [\w ]+) \| (.*) \|$", section, re.M))


def files_of(row, here):
    """The files that a row names, as they are named: those of a crate by its name before them, in the folder that was named last."""
    found, crate, folder = [], None, ""
    for name in re.findall(r"`([^`]+)`", row):
        if name.endswith("/"):
            continue
        if "/" not in name and f"crates/{name}" in here:
            crate, folder = f"crates/{name}", ""
        elif name.partition("/")[0] in ("bindings", "docs", ".ci") and "/" in name or name in here:
            found.append(name)
        elif f"crates/{name.partition('/')[0]}" in here and "/" in name:
            crate, folder = f"crates/{name.partition('/')[0]}", name.rpartition("/")[0].partition("/")[2]
            found.append(f"crates/{name}")
        elif "/" in name or re.search(r"\.(?:rt|antt)$", name):
            part, _, last = name.rpartition("/")
            if crate == "bindings" or re.search(r"\.(?:[ch]|md)$", name) or name.startswith(("tests/", "python/")):
                found.append(f"bindings/{name}")
                continue
            folder = part or folder
            found.append(f"{crate}/{folder}/{last}")
    return found


def options_of(text):
    """The names of the options of the program's table."""
    entries = re.findall(r"(?:const (\w+): Argument<'static> = )?Argument \{(.*?)\n *\}", text, re.S)
    kinds = {name: ("is_option: false" not in body and base(body)) for name, body in entries if name}

    def is_option(body):
        while body:
            if "is_option" in body:
                return "is_option: true" in body
            body = next((other for name, other in entries if name == base(body)), "")
        return False

    assert kinds
    return sorted({found[1] for _, body in entries for found in [re.search(r'^ *id: "([\w-]+)"', body, re.M)] if found and is_option(body)})


def base(body):
    found = re.search(r"\.\.(\w+)", body)
    return found[1] if found else ""


def variants(text, name):
    """The variants of an enum."""
    body = re.search(rf"enum {name}\b[^{{]*\{{(.*?)^\}}", text, re.M | re.S)[1]
    return re.findall(r"^    ([A-Z]\w*)", body, re.M)


def of(names, form):
    """Each name with the pattern that it is found by."""
    return [(name, re.compile(form.format(name))) for name in names]


def signals_in(texts, path):
    """The signals that stand in a file; in what reads and writes their fields those that have some."""
    text = texts["crates/signals/src/signal.rt"]
    fields = re.findall(r"^    ([A-Z]\w*)[ (]", re.search(r"enum Signal\b.*?^\}", text, re.M | re.S)[0], re.M)
    less = path.endswith(("reading.rt", "writing.rt", "Reading.antt", "Writing.antt"))
    names = [name for name in variants(text, "Signal") if name != "Other" and (name in fields or not less)]
    return [(name, re.compile(rf"\b(?:{name}|{name.upper()})\b")) for name in names]


def faults_in(texts, path):
    """The faults that stand in a file: by their kind, their number or their status."""
    kinds = dict(re.findall(r"^number_of (\w+) = (\d+)$", texts[FAULT_SPECS], re.M))
    helped = {number.split()[0] for number in help_words(texts[HELP])}
    if path in (FAULT_KINDS, FAULT_SPECS):
        return of(kinds, r"\b{}\b")
    if path in (HELP, PAGE):
        return of(sorted(helped, key=int), r"(?m)^ *{}\b")
    if path == TABLE:
        return of(sorted(set(kinds.values()), key=int), r"(?m)^\| (?:\d+, )*{}\b")
    if path in (C_TEXTS, C_SPECS):
        numbers = [number for number in statuses(texts[C_HEADER]).values() if 0 < int(number) < 30]
        return of(numbers, r"(?:STATUSES: \[Text; \d+\] = \[|status_texts =\n)[^][]*\(\s*{},\s")
    if path == ".ci/end_to_end":
        return of(sorted(helped - UNTRIED, key=int), r"(?m)(?:fault|^m(?:h|mr)) {0}\b|^{0} [0-9A-F]{{2}}_")
    return []


def commands_in(texts, path):
    """The commands that stand in a file: as values, or as they are typed."""
    if path.endswith(("command.rt", "dispatch.rt", "Ran.antt", "Jobs.antt")):
        return of(variants(texts["crates/faxtool/src/command.rt"], "Command"), r"\b{}\b")
    typed = re.findall(r'^        name: "(\w+)"', texts["crates/faxtool/src/args/table.rt"], re.M)
    return of(typed, r"\b{}\b") if path.endswith(("table.rt", "words.rt")) or path == ".ci/end_to_end" else []


def options_in(texts, path):
    """The options that stand in a file, as names or as they are typed."""
    if path in ("docs/man/make.py", ".ci/conversations"):
        return []
    return of(options_of(texts["crates/faxtool/src/args/table.rt"]), r'"{}"' if path.startswith("crates/") else r"(?:--|-l |'){}(?![\w-])")


def codes_in(_, path):
    """The page codes that stand in a file."""
    return of(["OneDim", "T6"], r"\b{}\b") if path.endswith(("coding.rt", "Codings.antt")) else []


# Of each row what is looked for in a file that it names.
WANTED = {"a signal": signals_in, "a fault": faults_in, "a command": commands_in, "an option": options_in, "a page code": codes_in}


def touch_faults(texts, here):
    """The files of the table that aren't there, and the things that don't stand in a file that their row names."""
    rows = rows_of(texts["CONTRIBUTING.md"])
    yield from (f"CONTRIBUTING.md has no row for {what}" for what in sorted({*WANTED, "a function for C"} - rows.keys()))
    for what, row in rows.items():
        for path in files_of(row, here):
            if path not in here and not ("*" in path and any(Path(name).match(path) for name in here)):
                yield f"CONTRIBUTING.md, {what}: there is no {path}"
                continue
            folders = [".ci/end_to_end", ".ci/conversations"] if what == "an option" and path == ".ci/end_to_end" else [path]
            under = tuple(f"{folder}/" for folder in folders)
            own = [name for name in texts if name in folders or name.startswith(under) or "*" in path and Path(name).match(path)]
            text = "\n".join(texts[name] for name in own)
            looked = WANTED[what](texts, path) if what in WANTED else []
            yield from (f"CONTRIBUTING.md, {what}: {name} isn't in {path}" for name, form in looked if not form.search(text))


def read():
    """The texts by their paths, man pages and completions too, and the paths of all files and folders."""
    texts = dict(house.house_here().texts)
    for name in ("docs/man/*.1", "docs/completion/*", ".ci/conversations/*.words"):
        texts.update({str(file.relative_to(TOP)): file.read_text().replace("\\-", "-") for file in sorted(TOP.glob(name))})
    here = {*texts, *(str(parent) for path in texts for parent in Path(path).parents)}
    return texts, here


def main():
    texts, here = read()
    faults = [*wording_faults(texts), *name_faults(texts), *end_faults(texts), *quote_faults(texts), *touch_faults(texts, here)]
    for fault in faults:
        print(f"told: {fault}")
    if not faults:
        files = sum(len(files_of(row, here)) for row in rows_of(texts["CONTRIBUTING.md"]).values())
        print(f"told: {len(help_words(texts[HELP]))} faults and {len(list(quoted(texts)))} quotes of them, {files} files to touch")
    return 1 if faults else 0


if __name__ == "__main__":
    sys.exit(main())
