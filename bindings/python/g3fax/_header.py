"""What g3fax.h declares. bindings/from_header.py reads it by this module too, so that it needs no library."""

from __future__ import annotations

import re
from typing import Dict, List, Optional, Tuple

_FUNCTION = re.compile(r"^(?:G3_CHECK )?(g3_status|uint32_t|void|const char \*) ?(g3_\w+)\(([^;]*)\);$", re.M)
_STRUCT = re.compile(r"^typedef struct (g3_\w+) \{(.*?)\} \1;$", re.M | re.S)
_MEMBERS = re.compile(r"([\w ]+?) (\*?\w+(?:\[\d+\])?(?:, \w+(?:\[\d+\])?)*);")


def plain(text: str) -> str:
    """A header without its comments."""
    return re.sub(r"[ \t]+$", "", re.sub(r"/\*.*?\*/", "", text, flags=re.S), flags=re.M)


def _members(inside: str) -> List[Tuple[str, str, Optional[str]]]:
    """The members of a struct: a type, a name, and of an array how many there are."""
    found = []
    for kind, names in _MEMBERS.findall(inside):
        for one in names.split(", "):
            name, _bracket, count = one.rstrip("]").partition("[")
            found.append((kind.strip(), name, count or None))
    return found


def _parameters(words: str) -> List[Tuple[str, str]]:
    """The parameters of a function: a type and a name each."""
    told = [one.rstrip() for one in words.split(", ") if one != "void"]
    names = [re.split(r"\W", one)[-1] for one in told]
    return [(one[:len(one) - len(name)], name) for one, name in zip(told, names)]


class Header:
    """The structs and functions of a header, in order."""

    def __init__(self, text: str) -> None:
        bare = plain(text)
        #: the members of each struct
        self.structs: Dict[str, List[Tuple[str, str, Optional[str]]]] = {name: _members(inside) for name, inside in _STRUCT.findall(bare)}
        self.handles = [name for name, members in self.structs.items() if members == [("void", "*at", None)]]
        self.sized = [name for name, members in self.structs.items() if members[0] == ("uint64_t", "size", None)]
        #: each function: what it returns, its name, and its parameters
        self.functions: List[Tuple[str, str, List[Tuple[str, str]]]] = [(kind, name, _parameters(words))
                                                                        for kind, name, words in _FUNCTION.findall(bare)]
