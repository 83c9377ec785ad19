"""Runs `frames --pages` on the frames of calls that carry the large page and a page of white rows: try_captured.py PROGRAM FOLDER

FOLDER has large.pbm, 2,432 pixels wide. The frames are those of ITU-T T.30 Annex A, with the check sequence of T.30, 5.3.7. Each
call is tried whole, with blocks sent again, twice on one line, with a frame, a page, a DCS or a PPS lost, and with a page's code
cut short; and with `--salvage` the rows before each gap are those that `decode --salvage` gives of the code before it. Ends with status 1
at the first that differs."""

import json
import os
import re
import resource
import shutil
import subprocess
import sys

program, folder = sys.argv[1:]
WIDTHS = {1728: 0, 2048: 1, 2432: 2}
NULL, MPS, EOM, EOP = 0x00, 0x4F, 0x8F, 0x2F


def check(octets):
    """The two octets of the check sequence, in order of sending."""
    register = 0xFFFF
    for octet in octets:
        register ^= octet
        for _ in range(8):
            register = register >> 1 ^ (0x8408 if register & 1 else 0)
    return bytes([~register & 0xFF, ~register >> 8 & 0xFF])


def line(contents):
    """The octets of a line on which contents are sent as frames."""
    bits = []
    for content in contents:
        bits += [0, 1, 1, 1, 1, 1, 1, 0]
        ones = 0
        for octet in content + check(content):
            for place in range(8):
                bit = octet >> place & 1
                bits.append(bit)
                ones = ones + 1 if bit else 0
                if ones == 5:
                    bits.append(0)
                    ones = 0
    bits += [0, 1, 1, 1, 1, 1, 1, 0]
    bits += [0] * (-len(bits) % 8)
    return bytes(sum(bits[at + place] << place for place in range(8)) for at in range(0, len(bits), 8))


def dcs(width, mmr, small):
    """A DCS at 14,400 bits a second, of standard lines."""
    third = 0x80 | WIDTHS[width]
    return bytes([0xFF, 0x13, 0x83, 0x00, 0x22, third, 0x04 | (0x08 if small else 0) | (0x40 if mmr else 0)])


def burst(block, numbers, ends, page, count):
    """The FCDs of numbers in a block, three RCP and PPS."""
    sent = [bytes([0xFF, 0x03, 0x06, number]) + block[number] for number in numbers]
    return sent + [bytes([0xFF, 0x03, 0x86])] * 3 + [bytes([0xFF, 0x13, 0xBF, ends, page, count, len(block) - 1])]


def ran(*words):
    """A run of the program, which ends with status 0 or 1."""
    done = subprocess.run([program, *words], capture_output=True)
    if done.returncode not in (0, 1):
        sys.exit(f"{words}: status {done.returncode}")
    return done


def blocks_of(code, small):
    """A page's code as blocks of frames."""
    size = 64 if small else 256
    frames = [code[at : at + size].ljust(size, b"\0") for at in range(0, len(code), size)]
    return [frames[at : at + 256] for at in range(0, len(frames), 256)]


def coded(image, mmr):
    """A page's code, the least significant bit of an octet first."""
    out = f"{folder}/captured.code"
    words = [program, "code", "--code", "mmr" if mmr else "mh", "--order", "lsb", image, out]
    subprocess.run(words, check=True)
    return open(out, "rb").read()


def tried(name, contents, wanted, said, status, numbers=None):
    """The pages that are written of contents, their numbers where these aren't those of their files, what is said of others, and the
    status."""
    bits, pages = f"{folder}/captured.bits", f"{folder}/captured"
    with open(bits, "wb") as file:
        file.write(line(contents))
    shutil.rmtree(pages, ignore_errors=True)
    os.mkdir(pages)
    done, plain = ran("frames", "--pages", pages, bits), ran("frames", bits)
    # a page has the number that it has in what is said, where one before it is missing
    got = [open(f"{pages}/page-{number}.pbm", "rb").read() for number in range(1, 9) if os.path.exists(f"{pages}/page-{number}.pbm")]
    said_of = [text for text in done.stdout.splitlines() if text.startswith(b"page ")]
    if [text for text in done.stdout.splitlines() if not text.startswith(b"page ")] != plain.stdout.splitlines():
        sys.exit(f"{name}: another list")
    if len(said_of) != len(wanted):
        sys.exit(f"{name}: {len(said_of)} pages are said")
    for place, (text, octets) in enumerate(zip(said_of, wanted)):
        width, height = octets.split(b"\n", 2)[1].split()
        file = rb"\1" if numbers is None else b"%d" % (place + 1)
        told = re.fullmatch(rb"page (\d): page-%s.pbm, %s x %s pixels, standard lines" % (file, width, height), text)
        if not told or numbers and int(told[1]) != numbers[place]:
            sys.exit(f"{name}: it said {text}")
    if done.stderr.decode().splitlines() != said:
        sys.exit(f"{name}: it said {done.stderr.decode()[:200]}")
    if got != wanted or done.returncode != status:
        sys.exit(f"{name}: {len(got)} pages, status {done.returncode}")


def call(pages, mmr, small, lost=None):
    """The contents that a caller sends of pages in one group; each block without a lost frame, which goes out again."""
    sent = [dcs(2432, mmr, small)]
    for number, code in enumerate(pages):
        blocks = blocks_of(code, small)
        for count, block in enumerate(blocks):
            ends = NULL if count + 1 < len(blocks) else EOP if number + 1 == len(pages) else MPS
            numbers = range(len(block))
            if lost is None:
                sent += burst(block, numbers, ends, number, count)
            else:
                missed = lost % len(block)
                sent += burst(block, [n for n in numbers if n != missed], ends, number, count)
                sent += burst(block, [missed], ends, number, count) * 2
    return sent


def front(code, mmr):
    """The whole rows at the beginning of a code, as `decode --salvage` writes them; nothing where there is none."""
    with open(f"{folder}/captured.code", "wb") as file:
        file.write(code)
    out = f"{folder}/captured.front"
    if os.path.exists(out):
        os.remove(out)
    words = ["--salvage", "--code", "mmr" if mmr else "mh", "--order", "lsb", "--width", "2432", f"{folder}/captured.code", out]
    ran("decode", *words)
    return open(out, "rb").read() if os.path.exists(out) else b""


def salvaged(name, contents, fronts, wanted, said, first=1, pages_of_calls=9):
    """The pages that `--salvage` writes of contents, in files numbered from the first one, of which those of the numbers in `fronts` are
    rows before a gap, and what is said. Each call has so many pages, after which their numbers begin again."""
    bits, pages = f"{folder}/captured.bits", f"{folder}/captured"
    with open(bits, "wb") as file:
        file.write(line(contents))
    for words in [], ["--json"]:
        shutil.rmtree(pages, ignore_errors=True)
        os.mkdir(pages)
        done = ran("frames", *words, "--pages", pages, "--salvage", bits)
        told = [text for text in done.stdout.decode().splitlines() if text.startswith(("page ", '{"file"'))]
        sizes = [octets.split(b"\n", 2)[1].decode().split() for octets in wanted]
        lines = [
            f"page {(number - 1) % pages_of_calls + 1}: page-{number}.pbm, {width} x {height} pixels, standard lines"
            + ", rows before a gap" * (number in fronts)
            for number, (width, height) in enumerate(sizes, first)
        ]
        if words:
            told = [json.loads(text) for text in told]
            lines = [
                {"file": f"page-{number}.pbm", "height": int(height), "lines": "standard", "width": int(width)}
                | {"page": (number - 1) % pages_of_calls + 1}
                | ({"salvaged": True} if number in fronts else {})
                for number, (width, height) in enumerate(sizes, first)
            ]
        if told != lines:
            sys.exit(f"{name}, --salvage {words}: it said {told} and not {lines}")
        if not words and done.stderr.decode().splitlines() != said:
            sys.exit(f"{name}, --salvage: it said {done.stderr.decode()[:200]}")
        got = [open(f"{pages}/page-{number}.pbm", "rb").read() for number in range(first, len(wanted) + first)]
        if got != wanted or len(os.listdir(pages)) != len(wanted) or done.returncode != (1 if said else 0):
            sys.exit(f"{name}, --salvage: {len(os.listdir(pages))} pages, status {done.returncode}")


def try_salvage(name, codes, mmr, small):
    """A page with a gap in its first block, in its second one, a block that never comes, and no end; before another page, a DCS and the end."""
    size = 64 if small else 256
    blocks = blocks_of(codes[0], small)
    both = call(codes, mmr, small)
    salvaged(name, both, [], [large, few], [])
    salvaged(f"{name}, sent again", call(codes, mmr, small, 7), [], [large, few], [])
    salvaged(f"{name}, frame 0 lost", both[:1] + both[2:], [], [few], ["page 1 block 0: frame 0 is missing"], 2)
    lost = min(9, len(blocks[0]) - 2)
    rows = front(codes[0][: lost * size], mmr)
    gap = both[: 1 + lost] + both[2 + lost :]
    missing = f"page 1 block 0: frame {lost} is missing"
    salvaged(f"{name}, a frame lost", gap, [1], [rows, few], [missing])
    salvaged(f"{name}, a frame lost before a DCS", gap + both, [1], [rows, few, large, few], [missing], 1, 2)
    alone = [dcs(2432, mmr, small)] + burst(blocks[0], [n for n in range(len(blocks[0])) if n != lost], NULL, 0, 0)
    salvaged(f"{name}, a frame lost at the end", alone, [1], [rows], [missing, "a page has no end"])
    # no PPS comes after the last frames, of which one is missing
    salvaged(f"{name}, no PPS", alone[:-4], [1], [rows], ["a page has no end"])
    salvaged(f"{name}, no last PPS", both[:-4], [2], [large, few], ["a page has no end"])
    if len(blocks) < 3:
        return
    whole = len(blocks[0])
    second = both[: 1 + whole + 4 + lost] + both[2 + whole + 4 + lost :]
    rows = front(codes[0][: (whole + lost) * size], mmr)
    salvaged(f"{name}, a frame of the second block lost", second, [1], [rows, few], [f"page 1 block 1: frame {lost} is missing"])
    at = 1 + whole + 4
    rows = front(codes[0][: whole * size], mmr)
    never = both[:at] + both[at + len(blocks[1]) + 4 :]
    salvaged(f"{name}, a block lost", never, [1], [rows, few], ["page 1 block 2: the blocks before it are missing"])


large = open(f"{folder}/large.pbm", "rb").read()
white = f"{folder}/white.pbm"
with open(white, "wb") as file:
    file.write(b"P4\n2432 3\n" + bytes(3 * 304))
few = open(white, "rb").read()
for mmr in False, True:
    codes = [coded(f"{folder}/large.pbm", mmr), coded(white, mmr)]
    for small in False, True:
        name = f"{'mmr' if mmr else 'mh'}, frames of {64 if small else 256}"
        both = call(codes, mmr, small)
        tried(name, both, [large, few], [], 0)
        tried(f"{name}, sent again", call(codes, mmr, small, 7), [large, few], [], 0)
        tried(f"{name}, two calls", both + both, [large, few, large, few], [], 0, [1, 2, 1, 2])
        first = both[:1] + both[2:]
        tried(f"{name}, frame 0 lost", first, [few], ["page 1 block 0: frame 0 is missing"], 1)
        if not os.path.exists(f"{folder}/captured/page-2.pbm"):
            sys.exit(f"{name}: the second page isn't page-2.pbm where the first one lacks")
        try_salvage(name, codes, mmr, small)
        # the second of three pages, or its PPS alone: the frames of the third one count, which are as many
        three = call([codes[1]] * 3, mmr, small)
        size = (len(three) - 1) // 3
        lost_page = three[: 1 + size] + three[1 + 2 * size :]
        lost_pps = three[: 2 * size] + three[1 + 2 * size :]
        for lost in lost_page, lost_pps:
            tried(f"{name}, a page lost", lost, [few, few], ["page 2 is missing"], 1)
            if sorted(os.listdir(f"{folder}/captured")) != ["page-1.pbm", "page-3.pbm"]:
                sys.exit(f"{name}: the third page isn't page-3.pbm where the second one lacks")
        # after EOM the next page isn't read by the old DCS
        no_dcs = [content[:3] + bytes([EOM]) + content[4:] if content[3:6] == bytes([MPS, 0, 0]) else content for content in three]
        said = [f"page {number} block 0: no DCS after EOM, so it isn't stored" for number in (2, 3)]
        tried(f"{name}, no DCS after EOM", no_dcs, [few], said, 1)
        salvaged(f"{name}, no DCS after EOM", no_dcs, [], [few], said)
        tried(f"{name}, no DCS", call([codes[1]], mmr, small)[1:], [], ["page 1 block 0: no DCS before it"], 1)
        tried(f"{name}, no end", call([codes[1]], mmr, small)[:-1], [], ["a page has no end"], 1)
        if mmr:
            piece = codes[0][:200]
            with open(f"{folder}/captured.code", "wb") as file:
                file.write(b"".join(blocks_of(piece, small)[0]))
            fault = ran("show", "--code", "mmr", "--order", "lsb", "--width", "2432", f"{folder}/captured.code").stderr.decode().strip()
            tried(f"{name}, cut", call([piece], mmr, small), [], [f"page 1: can't be read, {fault}"], 1)

# a long capture takes no more memory than its longest page: forty pages of 20,000 white rows in 24 MiB of address space
tall = f"{folder}/tall.pbm"
with open(tall, "wb") as file:
    file.write(b"P4\n1728 20000\n" + bytes(20000 * 216))
many = [dcs(1728, True, False)] + call([coded(tall, True)] * 40, True, False)[1:]
with open(f"{folder}/captured.bits", "wb") as file:
    file.write(line(many))
shutil.rmtree(f"{folder}/captured")
os.mkdir(f"{folder}/captured")


def limit():
    resource.setrlimit(resource.RLIMIT_AS, (24 << 20, 24 << 20))


words = [program, "frames", "--pages", f"{folder}/captured", f"{folder}/captured.bits"]
done = subprocess.run(words, stdout=subprocess.DEVNULL, stderr=subprocess.PIPE, preexec_fn=limit)
if done.returncode or done.stderr:
    sys.exit(f"forty pages: status {done.returncode}, it said {done.stderr[:200]}")
for number in range(1, 41):
    if open(f"{folder}/captured/page-{number}.pbm", "rb").read() != open(tall, "rb").read():
        sys.exit(f"forty pages: page {number} is another")
shutil.rmtree(f"{folder}/captured")
