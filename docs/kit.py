"""The definitions of the Rattle kit that those of the crates name: their text, where the kit lies here. The book ends with them."""

import os
import re
from pathlib import Path

from specs import definitions_of

KIT = Path(os.environ.get("KIT", "/opt/rattle")) / "rattle"
PASSED_ON = re.compile(r"^(?:pub )?use ([\w.]+)\.\{([^}]*)\}", re.M)
MOST_LINES = 24
FOLDERS = {"mathlib": KIT / "antt/port/mathlib/src", "lib": KIT / "antt/lib/src"}


def file_of(module):
    """The file of a module of the kit, and the part of the name that is within the file."""
    parts = module.split(".")
    if parts[0] == "Rattle" and parts[2:3] == ["specs"]:
        folder, parts = KIT / parts[1] / "specs", parts[3:]
    elif parts[0] in FOLDERS:
        folder, parts = FOLDERS[parts[0]], parts[1:]
    else:
        return None
    for end in range(len(parts), 0, -1):
        file = folder / ("/".join(parts[:end]) + ".antt")
        if file.is_file():
            return file
    return None


def passed_on(text, name):
    """Where a file has a name from: the module there, and the name there."""
    for found in PASSED_ON.finditer(text):
        for word in found[2].split(","):
            there, _, here = word.strip().partition(" as ")
            if (here.strip() or there) == name:
                return found[1], there
    return None


def definition(module, name, most=8):
    """The definition of a name of the kit, or none where it is no text of the kit: a type of the code, or built in."""
    file = file_of(module)
    if not file or not most:
        return None
    text = file.read_text()
    from_there = passed_on(text, name)
    if from_there:
        return definition(*from_there, most - 1)
    found = definitions_of(text, "", module, file)
    meant = found.get(name) or next((each for each in found.values() if name in each.made), None)
    if not meant or not re.search(rf"(?:^|[\s]){re.escape(meant.name)}[\s]", meant.lines[0]):
        return None
    inner = next((at for at, line in enumerate(meant.lines) if line.startswith("module ")), len(meant.lines))
    meant.lines = meant.lines[: min(inner, MOST_LINES)]
    return meant
