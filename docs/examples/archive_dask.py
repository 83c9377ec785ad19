#!/usr/bin/env python3
"""Decodes a folder of faxes by Dask, on one machine or many:

    archive_dask.py [--scheduler ADDRESS | --workers N] [--code CODE --width N --order ORDER] IN DIR MANIFEST

A worker reads a file below IN: the strips of a TIFF, which Pillow finds, go through the codec as they stand; any other file is read as
g3fax.identify finds it, if --code doesn't say what it is. Each page is a new PBM file
below DIR, under the name that its file has below IN. No file is replaced: a page that is there already counts as stored if its octets are
the same, so a file is read again if its worker is lost, and a run that was stopped can be repeated. MANIFEST is a new file with one line of
JSON for each file.

IN and DIR have the same names on all machines. Each worker needs g3fax and Pillow. The status is 0 if all files are whole, 1 if something is
missing, 2 if the words are wrong."""
import argparse
import io
import itertools
import json
import logging
import os
import shutil
import signal
import sys
import time
import uuid

if __name__ == "__mp_main__":
    # a worker of this machine: Ctrl-C ends it with the program, and not by a traceback
    signal.signal(signal.SIGINT, signal.SIG_IGN)
try:
    import g3fax
    from dask.distributed import Client, LocalCluster, as_completed
    from PIL import Image, ImageSequence
except ImportError as missing:
    sys.exit(f"archive_dask.py: {missing}; it needs g3fax, python3-distributed and python3-pil")

# Dask logs tracebacks, here and in this machine's workers; the manifest has what went wrong
logging.disable()
ORDERS = {"msb": g3fax.Order.MSB_FIRST, "lsb": g3fax.Order.LSB_FIRST}
CODES = {"mh": g3fax.Coding.MH, "mmr": g3fax.Coding.MMR}
MOST_OCTETS, MOST_PAGES = 2**27, 9_999
# files that are given to the scheduler at once
WINDOW = 1_000
INVERTED = bytes(range(255, -1, -1))


def has_end(octets, page):
    """Whether a page's code ends with RTC, six EOLs with nothing between them. A page in T.6 can't be read without its end."""
    if page.coding == g3fax.Coding.MMR:
        return True
    first, end = page.start // 8, page.start + page.bits
    code = octets[first : (end + 7) // 8]
    text = f"{int.from_bytes(code, 'big' if page.order == g3fax.Order.MSB_FIRST else 'little'):0{8 * len(code)}b}"
    text = text if page.order == g3fax.Order.MSB_FIRST else text[::-1]
    *zeros, after = text[: end - 8 * first].rsplit("1", 6)
    return len(zeros) == 6 and all(gap.endswith(11 * "0") for gap in zeros) and "1" not in after


def coded_pages(octets, way):
    """The pages that follow one another, with their way."""
    code, order, width = way or (None, None, None)
    lacking = None
    for number, page in enumerate(g3fax.pages(octets, width, CODES.get(code), ORDERS.get(order)), 1):
        if not lacking and (page.fault or not has_end(octets, page)):
            lacking = f"page {number} has no end: {page.fault or 'RTC is missing'}"
        yield page, (page.coding.name.lower(), page.order.name[:3].lower(), page.width)
    if lacking:
        raise ValueError(lacking)


def strip_rows(octets, way):
    """The rows of a strip, which may lack its EOFB."""
    code, order, width = way
    with next(g3fax.pages(octets, width, CODES[code], ORDERS[order])) as page:
        return page.rows().tobytes()


def tags_of(octets):
    """The tags of each page of a TIFF."""
    try:
        found = [dict(image.tag_v2) for image in ImageSequence.Iterator(Image.open(io.BytesIO(octets), formats=["TIFF"]))]
    # Pillow has many errors for a damaged file
    except Exception as error:
        raise ValueError(f"Pillow can't read it as TIFF: {type(error).__name__}") from error
    if not all({256, 257, 259, 273, 279} <= tags.keys() for tags in found):
        raise ValueError("a page of it lacks a tag")
    return found


def tiff_pages(octets, _way):
    """The pages of a TIFF, with their ways."""
    for number, tags in enumerate(tags_of(octets), 1):
        code = {3: "mr" if tags.get(292, 0) & 1 else "mh", 4: "mmr"}.get(tags[259], f"compression {tags[259]}")
        if code not in CODES:
            raise ValueError(f"page {number} is in a code that isn't read: {code}")
        way = code, "lsb" if tags.get(266) == 2 else "msb", tags[256]
        strips = (octets[at : at + length] for at, length in zip(tags[273], tags[279]))
        rows = b"".join(strip_rows(strip, way) for strip in strips)
        page = g3fax.Page.of_rows(rows.translate(INVERTED) if tags.get(262) == 1 else rows, way[2])
        if len(page) != tags[257]:
            raise ValueError(f"page {number} has {len(page)} rows in place of {tags[257]}")
        yield page, way


def octets_of(name):
    """The octets of a file that isn't too long, and no pipe or device."""
    if not os.path.isfile(name):
        raise ValueError("it is no file, or a folder that can't be read")
    with open(name, "rb") as file:
        octets = file.read(MOST_OCTETS + 1)
    if not octets or len(octets) > MOST_OCTETS:
        raise ValueError("it is too long" if octets else "it is empty")
    return octets


def store(octets, place, parts):
    """Makes a new file, whole or not at all. A file that is there with the same octets is this one: a lost worker made it."""
    part = os.path.join(parts, uuid.uuid4().hex)
    os.makedirs(os.path.dirname(place), exist_ok=True)
    with open(part, "xb") as file:
        file.write(octets)
        file.flush()
        os.fsync(file.fileno())
    try:
        os.link(part, place)
    except FileExistsError:
        with open(place, "rb") as file:
            if file.read() != octets:
                raise ValueError(f"another file has the name {place}") from None
    finally:
        os.remove(part)


def read_file(name, stem, parts, way):
    """Reads a file in a worker, and stores its pages as STEM-0001.pbm and so on. Returns its line of the manifest."""
    stored, fault = [], {}
    try:
        octets = octets_of(name)
        pages = tiff_pages if octets[:4] in (b"II*\0", b"MM\0*") else coded_pages
        for number, (page, (code, order, width)) in enumerate(pages(octets, way), 1):
            with page:
                if number > MOST_PAGES:
                    raise ValueError(f"it has more than {MOST_PAGES} pages")
                place = f"{stem}-{number:04}.pbm"
                store(page.pbm(), place, parts)
                stored.append({"out": place, "code": code, "order": order, "width": width, "rows": len(page)})
        if not stored:
            raise ValueError("it has no page")
    # a tag's value may have any type
    except Exception as error:
        fault = {"fault": str(error) if isinstance(error, (ValueError, OSError)) else f"{type(error).__name__}: {error}"}
    return {"file": name, "pages": stored, "whole": not fault, **fault}


def words(error):
    """What a worker failed by, without the advice that follows."""
    return f"a worker failed: {str(error).split('. ')[0]}"


def files_below(folder, short=""):
    """The name of each file below a folder, and the same without the folder. A folder that can't be read stands for its files."""
    try:
        entries = sorted(os.scandir(os.path.join(folder, short)), key=lambda entry: entry.name)
    except OSError:
        yield os.path.join(folder, short), short
        return
    for entry in entries:
        name = os.path.join(short, entry.name)
        if entry.is_dir(follow_symlinks=False):
            yield from files_below(folder, name)
        else:
            yield os.path.join(folder, name), name


def records(client, asked, parts, way):
    """The record of each file, as the workers end. Only a window of files is under way, however many there are."""
    names = {}

    def given(files):
        for name, short in files:
            future = client.submit(read_file, name, os.path.join(asked.to, short), parts, way, pure=False)
            names[future.key] = name
            yield future

    files = files_below(asked.folder)
    under_way = as_completed(given(itertools.islice(files, WINDOW)), with_results=True, raise_errors=False)
    for future, record in under_way:
        name = names.pop(future.key)
        if future.cancelled():
            raise ConnectionAbortedError(103, "the scheduler is lost; what was done is in the manifest", asked.scheduler)
        if future.status == "error":
            record = {"file": name, "pages": [], "whole": False, "fault": words(future.exception())}
        yield record
        under_way.update(given(itertools.islice(files, 1)))


def run(client, asked):
    """Writes the manifest, and prints how many files there are. Returns the status."""
    way = (asked.code, asked.order or "msb", asked.width or 1728) if asked.code else None
    parts = os.path.join(asked.to, f".archive-{uuid.uuid4().hex}")
    files = whole = pages = 0
    begun = time.monotonic()
    os.makedirs(parts)
    try:
        with open(asked.manifest, "x") as manifest:
            for record in records(client, asked, parts, way):
                print(json.dumps(record), file=manifest, flush=True)
                files, whole, pages = files + 1, whole + record["whole"], pages + len(record["pages"])
    finally:
        # and what lost workers left there
        shutil.rmtree(parts, ignore_errors=True)
    spent = time.monotonic() - begun
    print(f"{files} files, {whole} whole, {pages} pages, {files / spent:.0f} files a second")
    return 0 if files == whole else 1


def main():
    parser = argparse.ArgumentParser(description=__doc__, formatter_class=argparse.RawDescriptionHelpFormatter)
    parser.add_argument("--scheduler", help="where a scheduler listens, as tcp://host:8786")
    parser.add_argument("--workers", type=int, default=os.cpu_count(), help="how many processes this machine runs without --scheduler")
    parser.add_argument("--code", choices=CODES)
    parser.add_argument("--width", type=int, help="1728 if it isn't said")
    parser.add_argument("--order", choices=ORDERS, help="msb if it isn't said")
    parser.add_argument("folder", metavar="IN")
    parser.add_argument("to", metavar="DIR")
    parser.add_argument("manifest", metavar="MANIFEST")
    asked = parser.parse_args()
    if asked.workers < 1 or (asked.width or asked.order) and not asked.code:
        parser.error("there is one worker or more, and --width and --order need --code")
    asked.folder, asked.to, asked.manifest = map(os.path.abspath, (asked.folder, asked.to, asked.manifest))
    try:
        if not os.path.isdir(asked.folder):
            raise NotADirectoryError(20, "it is no folder", asked.folder)
        for new in (asked.to, asked.manifest):
            if os.path.commonpath([asked.folder, new]) == asked.folder:
                raise FileExistsError(17, "it lies in the folder that is read", new)
        where = asked.scheduler or LocalCluster(n_workers=asked.workers, threads_per_worker=1, dashboard_address="127.0.0.1:0")
        with Client(where) as client:
            client.wait_for_workers(1, timeout=60)
            return run(client, asked)
    except OSError as error:
        print(f"archive_dask.py: {error.filename or asked.scheduler or 'Dask'}: {error.strerror or error}", file=sys.stderr)
    except KeyboardInterrupt:
        print("archive_dask.py: stopped; the manifest has the files that were done", file=sys.stderr)
    return 1


if __name__ == "__main__":
    sys.exit(main())
