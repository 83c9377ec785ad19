#!/usr/bin/env python3
"""What follows from g3fax.h. Each word prints a part of it:

    bindings/from_header.py wrappers    the functions of one shape, in C: bindings/build.sh compiles them with g3fax.c. One that g3fax.c has
                                        stays as it is there
    bindings/from_header.py exports     the version script of the shared library: each function in the version that it came with
    bindings/from_header.py older       the same of the last version that is out, or if none is, of today's
    bindings/from_header.py record      the header as it is recorded once its version is out: without comments
    bindings/from_header.py calls       a random call of each function, for tests/random.c

tests/older/VERSION/g3fax.h is the record of a version that is out: packaging/README.md says when it is written. A function that no record
has came with the version of the file VERSION. It needs Python's standard library alone."""

import re
import sys
from pathlib import Path

HERE = Path(__file__).resolve().parent
sys.dont_write_bytecode = True
sys.path.insert(0, str(HERE / "python" / "g3fax"))
from _header import Header, plain  # noqa: E402

RECORDS = HERE / "tests" / "older"
#: the octets of each type of C that a struct of the header has
OCTETS = {"uint8_t": 1, "char": 1, "uint32_t": 4, "uint64_t": 8}


def numbers(text):
    """Each number that a header names."""
    return {name: int(number) for name, number in re.findall(r"\b(G3_\w+) = (\d+)", plain(text))}


def version_of(text):
    """The version of a header, in three numbers."""
    number = int(re.search(r"G3_VERSION_NUMBER (\d+)", text)[1])
    return number // 10000, number // 100 % 100, number % 100


def records():
    """The header of each version that is out, the first one first."""
    return sorted((file.read_text() for file in RECORDS.glob("*/g3fax.h")), key=version_of)


def nodes(texts):
    """The functions that came with each version, of headers in the order of their versions."""
    found, known = {}, set()
    for text in texts:
        names = {name for _, name, _ in Header(text).functions} - known
        if names:
            found.setdefault("G3FAX_" + ".".join(map(str, version_of(text))), set()).update(names)
        known |= names
    return found


def exports(texts):
    """The version script, by the headers of the versions that are out and that of today."""
    lines, before = [], ""
    for node, names in nodes(texts).items():
        lines += [f"{node} {{", "global:", *[f"    {name};" for name in sorted(names)], *([] if before else ["local:", "    *;"]), f"}}{before};"]
        before = f" {node}"
    return "\n".join(lines) + "\n"


def room(structs, kind, member, count):
    """How many octets a member of a struct has, and to how many it is aligned."""
    length, aligned = (8, 8) if member[0] == "*" else laid(structs, kind)[""] if kind in structs else (OCTETS[kind], OCTETS[kind])
    return length * int(count or 1), aligned


def laid(structs, name):
    """Where each member of a struct lies, but for its spare words: its first octet, its type and how many there are; and, without a name, the
    octets of the struct, and to how many they are aligned."""
    found, at, most = {}, 0, 1
    for kind, member, count in structs[name]:
        length, aligned = room(structs, kind, member, count)
        at += -at % aligned
        if member != "spare":
            found[member] = at, kind, count
        at, most = at + length, max(most, aligned)
    return {**found, "": (at + -at % most, most)}


def struct_faults(old, new):
    """What differs of the structs of a version that is out: a member that went or lies otherwise, or another size. One that begins with its size
    may be longer; else new members take the place of spare words."""
    for name in old.structs:
        was, now = laid(old.structs, name), laid(new.structs, name) if name in new.structs else {"": (0, 0)}
        yield from (f"{member} of {name}" for member in was if member and was[member] != now.get(member))
        if now[""] != was[""] and not (name in old.sized and now[""][0] > was[""][0] and now[""][1] == was[""][1]):
            yield f"the size of {name}"


def shape_faults(text):
    """The structs of a header that can't grow: they have neither a size of their own nor spare words at their end, and end no struct with a
    size, in which new members follow them; or octets of padding, in which a new member would change no size."""
    header = Header(text)
    last = {header.structs[name][-1][0] for name in header.sized}
    for name in [name for name in header.structs if name not in header.handles]:
        if sum(room(header.structs, *member)[0] for member in header.structs[name]) != laid(header.structs, name)[""][0]:
            yield f"{name} has octets of padding"
        if name not in {*header.sized, *last} and header.structs[name][-1][1] != "spare":
            yield f"{name} can't grow: it has no size and no spare words"


def types_of(text):
    """Each function of a header with the types of what it returns and takes; and each type that is a number, with that of C."""
    functions = {(name, kind, *(written.strip() for written, _ in parameters)) for kind, name, parameters in Header(text).functions}
    return functions | {(name, kind) for kind, name in re.findall(r"^typedef (\w+) (\w+);", text, re.M)}


def record_faults(olds, new, changes):
    """What differs of today's header from those of versions that are out, and from what the change log says is out: a number that changed or
    went; a function or a struct that changed or went; a function that came after a version, and has its node; and a version that is out and
    has no record, or one that isn't and has."""
    today = Header(new)
    for old in olds:
        version = ".".join(map(str, version_of(old)))
        for name, number in numbers(old).items():
            if numbers(new).get(name) != number:
                yield f"{name} was {number} in version {version}"
        yield from (f"{name} has other types than in version {version}, or went" for name, *_ in sorted(types_of(old) - types_of(new)))
        yield from (f"{what} isn't as in version {version}" for what in struct_faults(Header(old), today))
    if olds and version_of(olds[-1]) >= version_of(new):
        late = {name for _, name, _ in today.functions} - {name for old in olds for _, name, _ in Header(old).functions}
        yield from (f"{name} came after {'.'.join(map(str, version_of(olds[-1])))}, which is out: a later VERSION gives it a node"
                    for name in sorted(late))
    told = {tuple(map(int, version.split("."))) for version in re.findall(r"^## (\d+\.\d+\.\d+), \d", changes, re.M)}
    for version in sorted(told ^ {version_of(old) for old in olds}):
        yield f"CHANGELOG.md and bindings/tests/older don't say the same of version {'.'.join(map(str, version))}: is it out?"


def wrapper(header, kind, name, parameters):
    """A function of g3fax.h: it tests its addresses, and calls the proved one; and the prototype of that."""
    tests, words, types, handles, spared = [], [], [], [], ""
    for at, (written, word) in enumerate(parameters):
        pointed = written.replace("const ", "").replace("*", "").strip() if "*" in written else ""
        follows = parameters[at + 1][0].strip() if at + 1 < len(parameters) else ""
        if pointed in header.handles:
            tests.append(f"HANDLE({word});")
            words.append(f"READ({word})" if "const" in written else f"(handle *){word}")
            types.append("handle *")
            handles += [] if "const" in written else [word]
        elif pointed in header.sized:
            tests.append(f"SIZED({word});")
            words.append(f"REST({word})")
            types.append("void *")
            spared = f"&{word}->spare" if header.structs[pointed][-1] == ("uint32_t", "spare", None) else spared
        else:
            if pointed in header.structs:
                tests.append(f"SPARE({word});")
            elif pointed == "uint8_t" and follows == "size_t":
                tests.append(f"OCTETS({word}, {parameters[at + 1][1]});")
            elif pointed:
                tests.append(f"PLACE({word});")
            words.append(word)
            types.append(written.strip())
    if len(handles) > 1:
        tests.append(f"APART({', '.join(handles)}, {'G3_FULL_HANDLE' if 'out' in handles else 'G3_OTHER_HANDLE'});")
    core = name.replace("g3_", "g3_core_", 1)
    call = f"{core}({', '.join(words)})"
    result = f"spared({call}, {spared})" if spared else call
    given = ", ".join(written + word for written, word in parameters)
    tested = [f"    {' '.join(tests)}"] if tests else []
    return "\n".join([f"{kind} {core}({', '.join(types)});", f"{kind} {name}({given})", "{", *tested, f"    return {result};", "}"])


def text_wrapper(name, parameters):
    """A function of g3fax.h that returns a text, by a number; or by a struct, of which there may be none: the proved one returns 0 then."""
    given = ", ".join(written + word for written, word in parameters)
    (written, word), = parameters
    core, empty = name.replace("g3_", "g3_core_", 1), "text it = {none, 0};"
    if "*" not in written:
        return f"void {core}({written.strip()}, text *);\nconst char *{name}({given})\n{{\n    {empty}\n    {core}({word}, &it);\n" \
            "    return (const char *)it.at;\n}"
    return f"uint32_t {core}({written.strip()}, text *);\nconst char *{name}({given})\n{{\n    {empty}\n" \
        f"    return {word} == NULL || {core}({word}, &it) == 0 ? NULL : (const char *)it.at;\n}}"


def wrappers(header, source):
    """The functions that g3fax.c hasn't."""
    texts = []
    for kind, name, parameters in header.functions:
        if re.search(rf"^\w[\w* ]*\b{name}\(", source, re.M):
            continue
        if kind == "void":
            word = parameters[0][1]
            texts.append(f"void {name}({''.join(parameters[0])}) {{ if ({word} != NULL) g3_core_free((handle *){word}); }}")
        elif kind == "const char *":
            texts.append(text_wrapper(name, parameters))
        else:
            texts.append(wrapper(header, kind, name, parameters))
    return "\n".join(texts) + "\n"


def random_word(written, word):
    """A random argument of a parameter that is no address of a struct, as tests/random.c makes it."""
    if "**" in written:
        return "below(50) ? &address : NULL"
    if "uint8_t *" in written:
        return "octets" if "const" in written else "room"
    if "*" in written:
        return f"below(50) ? &{'why' if 'uint32_t' in written else 'place' if word == 'place' else 'told'} : NULL"
    return "length" if written.strip() == "size_t" else f'word("{word}")'


def random_call(header, kind, name, parameters):
    """A call of a function with random arguments."""
    words = []
    for written, word in parameters:
        pointed = re.sub(r"const |[* ]", "", written) if "*" in written else ""
        if pointed in header.handles:
            words.append(f"{'empty' if word == 'out' else 'full'}(A_{pointed[3:].upper()})")
        elif pointed in header.structs:
            words.append(f"below(50) ? a_{pointed[3:]}() : NULL")
        else:
            words.append(random_word(written, word))
    call = f"{name}({', '.join(words)})"
    return f"return {call};" if kind == "g3_status" else f"{call if kind == 'void' else f'(void){call}'}; return G3_OK;"


def random_calls(header):
    """A function of C that calls each function of the header, by its number; the kinds of handles have numbers too."""
    lines = [f"enum {{ {', '.join(f'A_{name[3:].upper()}' for name in header.handles)} }};", f"enum {{ FUNCTIONS = {len(header.functions)} }};",
             "static g3_status any(uint32_t which, const uint8_t *octets, uint8_t *room, size_t length)", "{", "    switch (which) {",
             *[f"    case {at}: {random_call(header, *function)}" for at, function in enumerate(header.functions)],
             "    default: return G3_OK;", "    }", "}"]
    return "\n".join(lines) + "\n"


def printed(word):
    """What a word prints."""
    text = (HERE / "g3fax.h").read_text()
    parts = {"wrappers": lambda: wrappers(Header(text), (HERE / "g3fax.c").read_text()), "exports": lambda: exports([*records(), text]),
             "older": lambda: exports(records() or [text]),
             "record": lambda: re.sub(r"\n{2,}", "\n", plain(text)).lstrip("\n"), "calls": lambda: random_calls(Header(text))}
    return parts[word]() if word in parts else sys.exit(__doc__)


if __name__ == "__main__":
    print(printed(" ".join(sys.argv[1:])), end="")
