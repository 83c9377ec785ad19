#!/usr/bin/env python3
"""Packs the module for Python with the library for C as a wheel; `make wheel` calls it, and pip by pyproject.toml:

    bindings/python/make_wheel.py FOLDER

The wheel, g3fax-VERSION-py3-none-manylinux_2_N_x86_64.whl, is left in the folder, and its name printed. It has the package
g3fax, libg3fax.so.0 in it, and the licences. The library is that in the folder that G3FAX names, else in bindings/build; N is
the least glibc that has its symbols. Files have the time of SOURCE_DATE_EPOCH, or of the commit, else of 1980: the same sources and library
give the same octets. It needs Python's standard library alone, and x86-64."""

import base64
import hashlib
import os
import re
import struct
import subprocess
import sys
import time
import zipfile
from pathlib import Path

HERE = Path(__file__).resolve().parent
TOP = HERE.parent.parent
LIBRARY = "libg3fax.so.0"
UNPROVED = "+unproved"  # what follows the version of a library that says that it was built without proof


def words():
    """The words of pyproject.toml that are texts."""
    return dict(re.findall(r'^([\w-]+) = (?:{text = )?"(.*?)"}?$', (HERE / "pyproject.toml").read_text(), re.M))


def needed(octets):
    """The libraries that a shared library of x86-64 asks for, by its dynamic section."""
    if octets[:6] != b"\x7fELF\2\1" or octets[18:20] != b"\x3e\0":
        sys.exit(f"{LIBRARY} is no library of x86-64")
    start, size, count = struct.unpack_from("<Q", octets, 32)[0], *struct.unpack_from("<HH", octets, 54)
    heads = [struct.unpack_from("<IIQQQQQQ", octets, start + size * at) for at in range(count)]
    at = next(head[2] for head in heads if head[0] == 2)
    tags = []
    while struct.unpack_from("<Q", octets, at)[0] != 0:
        tags.append(struct.unpack_from("<QQ", octets, at))
        at += 16
    names = dict(tags)[5]  # DT_STRTAB, an address
    names = next(names - head[3] + head[2] for head in heads if head[0] == 1 and head[3] <= names < head[3] + head[5])
    return [octets[names + place:octets.index(0, names + place)].decode() for tag, place in tags if tag == 1]


def platform(octets):
    """The platforms that have what the library asks for: the tag of manylinux with the least glibc."""
    others = [name for name in needed(octets) if name != "libc.so.6"]
    if others:
        sys.exit(f"{LIBRARY} asks for a library that not each Linux has: {' '.join(others)}")
    versions = [(int(major), int(minor)) for major, minor in re.findall(rb"\0GLIBC_(\d+)\.(\d+)[.\d]*(?=\0)", octets)]
    return "manylinux_%d_%d_x86_64" % max(versions + [(2, 5)])


def moment():
    """The time of the files, which a zip file can't have before 1980."""
    told = os.environ.get("SOURCE_DATE_EPOCH")
    if not told:
        git = ["git", "-c", f"safe.directory={TOP}", "-C", str(TOP), "log", "-1", "--format=%ct"]
        try:
            told = subprocess.run(git, stdout=subprocess.PIPE, stderr=subprocess.DEVNULL, check=True).stdout.decode().strip()
        except (OSError, subprocess.CalledProcessError):
            told = "0"
    return max(time.gmtime(int(told))[:6], (1980, 1, 1, 0, 0, 0))


def metadata(version):
    """What an installer shows of the package."""
    about = words()
    said = re.match('"""(.*?)"""', (HERE / "g3fax" / "__init__.py").read_text(), re.S)
    summary = about["description"]
    if version.endswith(UNPROVED):
        summary = summary.replace("the proved library for C, libg3fax", "the library for C, libg3fax, built without proof")
    lines = ["Metadata-Version: 2.1", f"Name: {about['name']}", f"Version: {version}", f"Summary: {summary}",
             f"License: {about['license']}", f"Requires-Python: {about['requires-python']}", "Description-Content-Type: text/plain", ""]
    return "\n".join([*lines, said[1], ""])


def build_wheel(wheel_directory, config_settings=None, metadata_directory=None):
    """Makes the wheel in a folder, and returns its name, as PEP 517 wants it."""
    folder = TOP / os.environ.get("G3FAX", "bindings/build")
    if not (folder / LIBRARY).is_file():
        sys.exit(f"no wheel was made, since {folder / LIBRARY} isn't built yet: make proves and builds it, and G3FAX names another folder")
    library, version = (folder / LIBRARY).read_bytes(), (TOP / "VERSION").read_text().strip()
    if b"built without proof" in library:
        version += UNPROVED
    tag, info = f"py3-none-{platform(library)}", f"g3fax-{version}.dist-info"
    files = {
        **{f"g3fax/{file.name}": file.read_bytes() for file in [*sorted(HERE.glob("g3fax/*.py")), HERE / "g3fax/py.typed"]},
        "g3fax/g3fax.h": (HERE.parent / "g3fax.h").read_bytes(),
        f"g3fax/{LIBRARY}": library,
        f"{info}/METADATA": metadata(version).encode(),
        f"{info}/WHEEL": f"Wheel-Version: 1.0\nGenerator: make_wheel.py\nRoot-Is-Purelib: false\nTag: {tag}\n".encode(),
        f"{info}/licenses/LICENSE-APACHE": (TOP / "LICENSE-APACHE").read_bytes(),
        f"{info}/licenses/LICENSE-MIT": (TOP / "LICENSE-MIT").read_bytes(),
    }
    sums = {file: base64.urlsafe_b64encode(hashlib.sha256(octets).digest()).rstrip(b"=").decode() for file, octets in files.items()}
    record = [f"{file},sha256={sums[file]},{len(octets)}" for file, octets in files.items()] + [f"{info}/RECORD,,"]
    files[f"{info}/RECORD"] = "".join(line + "\n" for line in record).encode()
    name, when = f"g3fax-{version}-{tag}.whl", moment()
    with zipfile.ZipFile(Path(wheel_directory) / name, "w") as wheel:
        for file, octets in files.items():
            entry = zipfile.ZipInfo(file, when)
            entry.create_system, entry.compress_type = 3, zipfile.ZIP_DEFLATED
            entry.external_attr = (0o100755 if file.endswith(LIBRARY) else 0o100644) << 16
            wheel.writestr(entry, octets)
    return name


def build_sdist(sdist_directory, config_settings=None):
    """There is none: the library is built by the Rattle kit, of the whole repository."""
    sys.exit("no source package is made here: packaging/tarball.sh packs the sources of the whole repository")


if __name__ == "__main__":
    if len(sys.argv) != 2 or sys.argv[1].startswith("-"):
        sys.exit(__doc__)
    os.makedirs(sys.argv[1], exist_ok=True)
    print(os.path.join(sys.argv[1], build_wheel(sys.argv[1])))
