#!/usr/bin/env python3
"""Makes the names of a relocatable object its own, as objcopy --keep-global-symbols does, which the kit hasn't:

    bindings/own_names.py FILE NAMES

Of what FILE (ELF, x86-64) defines, the functions of NAMES, a version script, stay global; each other name becomes local, and can't clash with
that of another library in one program. FILE is written anew. It needs Python's standard library alone."""

import re
import struct
import sys
from pathlib import Path

SYMTAB, RELA, REL, GROUP, INDICES, ADDRESSED = 2, 4, 9, 17, 18, 0x6FFF4C03
#: a section's name, type, flags, address, place, size, link, info, alignment and the size of its entries; and a symbol
SECTION, SYMBOL = struct.Struct("<IIQQQQIIQQ"), struct.Struct("<IBBHQQ")


def own(octets, kept):
    """Makes all names but those kept local. Answers which of these the object defines."""
    at, = struct.unpack_from("<Q", octets, 40)
    count, = struct.unpack_from("<H", octets, 60)
    sections = [SECTION.unpack_from(octets, at + number * SECTION.size) for number in range(count)]
    if octets[:6] != b"\x7fELF\2\1" or any(section[1] == INDICES for section in sections):
        sys.exit("own_names.py: the object isn't of the kind that ld.lld -r makes")
    (number, table), = ((number, section) for number, section in enumerate(sections) if section[1] == SYMTAB)
    names = octets[sections[table[6]][4]:][:sections[table[6]][5]]
    symbols, found = [], set()
    for place in range(table[4], table[4] + table[5], SYMBOL.size):
        name, info, other, section, value, size = SYMBOL.unpack_from(octets, place)
        text = names[name:names.index(0, name)].decode()
        if info >> 4 and section:
            if text in kept:
                found.add(text)
            else:
                info, other = info & 15, 0
        symbols.append((name, info, other, section, value, size))
    # local ones come first
    order = sorted(range(len(symbols)), key=lambda old: symbols[old][1] >> 4 != 0)
    new = {old: now for now, old in enumerate(order)}
    for now, old in enumerate(order):
        SYMBOL.pack_into(octets, table[4] + now * SYMBOL.size, *symbols[old])
    local = sum(symbol[1] >> 4 == 0 for symbol in symbols)
    struct.pack_into("<I", octets, at + number * SECTION.size + 44, local)
    for place, section in enumerate(sections):
        if section[6] == number and section[1] in (RELA, REL):
            for entry in range(section[4], section[4] + section[5], section[9]):
                kind, symbol = struct.unpack_from("<II", octets, entry + 8)
                struct.pack_into("<II", octets, entry + 8, kind, new[symbol])
        elif section[6] == number and section[1] == GROUP:
            struct.pack_into("<I", octets, at + place * SECTION.size + 44, new[section[7]])
        elif section[1] == ADDRESSED:  # names by their old places; a hint that the linker can do without
            SECTION.pack_into(octets, at + place * SECTION.size, *[0] * len(section))
    return found


def main(file, names):
    """Writes the object anew."""
    kept = set(re.findall(r"\bg3_\w+(?=;)", Path(names).read_text()))
    octets = bytearray(Path(file).read_bytes())
    lost = kept - own(octets, kept)
    if lost:
        sys.exit(f"own_names.py: {file} doesn't define {' '.join(sorted(lost))}")
    Path(file).write_bytes(octets)


if __name__ == "__main__":
    main(*sys.argv[1:]) if len(sys.argv) == 3 else sys.exit(__doc__)
