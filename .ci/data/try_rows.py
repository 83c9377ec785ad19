"""Worked rows by octets: try_rows.py PROGRAM FAXTOOL FOLDER

What the stations send and answer, run by the program of crates/stream_tool, is compared with octets that are worked by hand from the
tables of T.30 and its Annex A: the frames of whole calls, of a second block and a second page, of page 256, around an EOM and of a
resend; each training check; a caller before stations that can do less; each end of a caller and of an answerer; and the pages that
FAXTOOL finds in captures whose blocks were sent again or are out of order. Ends with status 1 at the first that differs."""

import os
import subprocess
import sys

sys.dont_write_bytecode = True
sys.path.insert(0, os.path.join(os.path.dirname(os.path.abspath(__file__)), "..", "..", "bench", "fuzz"))
from fuzz_stream import EOL, WHITE_PAGE, line_of, octets_of

program, faxtool, folder = sys.argv[1:]
# The events and the modems by their numbers in crates/stream_tool/src/call.rt.
TO_ANSWERER, TO_CALLER, LOSE_TO_ANSWERER, SPOIL, T2, BUSY, READY = 0, 1, 2, 4, 8, 9, 10
V17, V27V29, V29, V27, FALLBACK = range(5)

WHITE = b"P4\n1728 1\n" + bytes(216)
WHITE_2048 = b"P4\n2048 1\n" + bytes(256)
# A white row's code in T.6: V0 and EOFB.
WHITE_CODE = "01 10 00 01"
# 40 white rows in one dimension: an EOL of 12 bits, 9 and 8 bits, and 72 bits of RTC: 154 octets, three frames of 64.
WHITE_40 = b"P4\n1728 40\n" + 40 * bytes(216)
# 12 rows of a white and a black pixel in turn: 16,443 octets in one dimension, 257 frames of 64, and what the last one has.
COMBS = b"P4\n2432 12\n" + 12 * 304 * b"\x55"

DIS, DCS, CFR, FTT = "FF1380006EFA44", "FF13830022F844", "FF1384", "FF1344"
RCP, MCF, DCN, RNR, RR = "FF0386", "FF138C", "FF13FB", "FF13EC", "FF136F"
# The PPS of a page's end, EOP: page 0, block 0, last frame 0.
LAST = "FF13BF2F000000"


def cut_64(bits):
    """The data of frames of 64 octets that carry a code."""
    octets = octets_of(bits.ljust(-(-len(bits) // 8) * 8, "0"))
    return [octets[at : at + 64].hex() for at in range(0, len(octets), 64)]


def fcd(number, data, size):
    return f"FF0306{number:02X}" + data.replace(" ", "").ljust(2 * size, "0")


def frames(numbers, codes, size, pps):
    """The deliveries of a block's frames, three RCP, PPS and MCF."""
    sent = [(TO_ANSWERER, fcd(number, code, size)) for number, code in zip(numbers, codes)]
    return sent + 3 * [(TO_ANSWERER, RCP)] + [(TO_ANSWERER, pps), (TO_CALLER, MCF)]


def white_page(pps):
    return frames([0], [WHITE_CODE], 256, pps)


def start(dcs=DCS):
    """The deliveries of a group's start at 14,400 bits a second."""
    return [(TO_CALLER, DIS), (TO_ANSWERER, dcs), (TO_ANSWERER, 2700), (TO_CALLER, CFR)]


COMBS_FRAMES = cut_64(12 * (EOL + 1216 * ("000111" + "010")) + 6 * EOL)
COMBS_DCS = "FF13830022FA0C"
END = [(TO_ANSWERER, DCN)]
SECOND_BLOCK = frames([0], COMBS_FRAMES[256:], 64, "FF13BF2F000100") + END
NULL_OF_256 = "FF13BF000000FF"
LOST_1_AND_255 = "FF13BC02" + 30 * "00" + "80"

# Each call: its name, the modems, whether the code is one-dimensional, the frames small and the lines fine, its images, and what
# happens: a delivery or a loss with the frame's content, or with the number of octets 00 of a check; or another event alone.
CALLS = [
    ("a white page", (V17, 0, 0, 0), WHITE, start() + white_page(LAST) + END),
    ("fine lines", (V17, 0, 0, 1), WHITE, start("FF13830062F844") + white_page(LAST) + END),
    (
        "two widths, an EOM between them",
        (V17, 0, 0, 0),
        WHITE + WHITE_2048,
        start() + white_page("FF13BF8F000000") + [T2] + start("FF13830022F944") + white_page("FF13BF2F010000") + END,
    ),
    (
        "257 pages: their numbers begin again",
        (V17, 0, 0, 0),
        257 * WHITE,
        start() + sum((white_page(f"FF13BF4F{page:02X}0000") for page in range(256)), []) + white_page(LAST) + END,
    ),
    (
        "three frames at a page's end",
        (V17, 1, 1, 0),
        WHITE_40,
        start("FF13830022F80C")
        + frames(range(3), cut_64(40 * (EOL + "010011011" + "00110101") + 6 * EOL), 64, "FF13BF2F000002")
        + END,
    ),
    (
        "a second block",
        (V17, 1, 1, 0),
        COMBS,
        start(COMBS_DCS) + frames(range(256), COMBS_FRAMES, 64, NULL_OF_256) + SECOND_BLOCK,
    ),
    (
        "frames 1 and 255 of a block sent again",
        (V17, 1, 1, 0),
        COMBS,
        start(COMBS_DCS)
        + [(LOSE_TO_ANSWERER if number in (1, 255) else TO_ANSWERER, fcd(number, COMBS_FRAMES[number], 64)) for number in range(256)]
        + 3 * [(TO_ANSWERER, RCP)]
        + [(TO_ANSWERER, NULL_OF_256), (TO_CALLER, LOST_1_AND_255)]
        + frames([1, 255], [COMBS_FRAMES[1], COMBS_FRAMES[255]], 64, NULL_OF_256)
        + SECOND_BLOCK,
    ),
    (
        "a busy answerer",
        (V17, 0, 0, 0),
        WHITE,
        start()
        + white_page(LAST)[:-2]
        + [BUSY, (TO_ANSWERER, LAST), (TO_CALLER, RNR), READY, (TO_ANSWERER, RR), (TO_CALLER, MCF)]
        + END,
    ),
]
# The speeds that are tried, from the first: the modems of both, the second octet of the DCS, and the octets of the check.
SPEEDS = [
    (V17, [("22", 2700), ("2A", 2250), ("26", 1800), ("2E", 1350), ("0A", 900), ("02", 450)], "6E"),
    (V27V29, [("06", 1800), ("0E", 1350), ("0A", 900), ("02", 450)], "4E"),
    (V29, [("06", 1800), ("0E", 1350)], "46"),
    (V27, [("0A", 900), ("02", 450)], "4A"),
    (FALLBACK, [("02", 450)], "42"),
]
for modems, speeds, offered in SPEEDS:
    tries = [(f"FF138000{offered}FA44" if at == 0 else FTT, *speed) for at, speed in enumerate(speeds)]
    spoiled = []
    for answer, speed, length in tries:
        spoiled += [(TO_CALLER, answer), (TO_ANSWERER, f"FF138300{speed}F844"), SPOIL, (TO_ANSWERER, -length)]
    CALLS.append((f"each speed of modems {modems}", (modems, 0, 0, 0), WHITE, spoiled + [(TO_CALLER, FTT)] + END))
    good = spoiled[:-2] + [(TO_ANSWERER, tries[-1][2]), (TO_CALLER, CFR)] + white_page(LAST) + END
    CALLS.append((f"the lowest speed of modems {modems}", (modems, 0, 0, 0), WHITE, good))


def octets_on_the_line(content):
    """A frame's octets, or those of a training check: 00, or FF where it is spoiled."""
    if isinstance(content, str):
        return line_of([bytes.fromhex(content)]).hex()
    return max(content, 0) * "00" + max(-content, 0) * "ff"


def run(head, rest, word):
    name = os.path.join(folder, "row")
    with open(name, "wb") as file:
        file.write(head + rest)
    ran = subprocess.run([program, name] + word, capture_output=True, text=True, timeout=60)
    if ran.returncode or ran.stderr:
        sys.exit(f"status {ran.returncode}: {ran.stderr}: {name}")
    return ran.stdout.splitlines()


def compare(name, printed, wanted):
    for number, (line, other) in enumerate(zip(printed, wanted)):
        if line != other:
            sys.exit(f"{name}: line {number + 1} is {line[:120]}, and not {other[:120]}")
    if len(printed) != len(wanted):
        sys.exit(f"{name}: {len(printed)} lines, and not {len(wanted)}")


def try_call(name, options, images, happens):
    events = bytes(one if isinstance(one, int) else one[0] for one in happens)
    wanted = [octets_on_the_line(one[1]) for one in happens if not isinstance(one, int)]
    compare(name, run(bytes(options) + len(events).to_bytes(2, "big"), events + images, ["call"]), wanted)


# A caller that has pages of 2,432 pixels and fine lines: what it hears, and what it does, a DCS with its octets.
WIDE = b"P4\n2432 1\n" + bytes(304)


def dcs(content, check):
    return ["Training", content.lower(), str(check)]


BURST = f"Burst([{', '.join(32 * ['255'])}])"
GONE = ["Dcn", "end Some(NotCompatible)"]
T6_WIDE = dcs("FF13830062FA44", 2700)
V29_DCS = dcs("FF13830046FA44", 1800)
PPR_OF_ALL = "FF13BC" + 32 * "FF"
TIMEOUT, T5 = "T", "5"
CALLERS = [
    ("a station that can do everything", V17, WIDE, [DIS], T6_WIDE + ["end None"]),
    ("a station without a receiver", V17, WIDE, ["FF1380006CFA44"], GONE),
    ("a station without error correction", V17, WIDE, ["FF1380006EFA40"], GONE),
    ("a station without fine lines", V17, WIDE, ["FF1380002EFA44"], GONE),
    ("a station of 1,728 pixels", V17, WIDE, ["FF1380006EF844"], GONE),
    ("a station of 2,048 pixels", V17, WIDE, ["FF1380006EF944"], GONE),
    ("a station whose bits 17 and 18 are both 1", V17, WIDE, ["FF1380006EFB44"], T6_WIDE + ["end None"]),
    ("a station without T.6", V17, WIDE, ["FF1380006EFA04"], dcs("FF13830062FA04", 2700) + ["end None"]),
    ("a station of V.29", V17, WIDE, ["FF13800046FA44"], V29_DCS + ["end None"]),
    ("a station of V.29 and V.27 ter", V17, WIDE, ["FF1380004EFA44"], V29_DCS + ["end None"]),
    ("a station of V.27 ter", V17, WIDE, ["FF1380004AFA44"], dcs("FF1383004AFA44", 900) + ["end None"]),
    ("a station of 2,400 bits a second alone", V17, WIDE, ["FF13800042FA44"], dcs("FF13830042FA44", 450) + ["end None"]),
    ("a station with no common speed", V29, WIDE, ["FF1380004AFA44"], GONE),
    ("no DIS", V17, WIDE, [TIMEOUT], ["Dcn", "end Some(NoAnswer)"]),
    ("no answer to a DCS", V17, WIDE, [DIS] + 3 * [TIMEOUT], 3 * T6_WIDE + ["Dcn", "end Some(NoReply)"]),
    ("no check is good", V29, WIDE, [DIS, FTT, FTT], V29_DCS + dcs("FF1383004EFA44", 1350) + ["Dcn", "end Some(Training)"]),
    ("a page counted", V17, WIDE, [DIS, CFR, MCF], T6_WIDE + [BURST, "Dcn", "end Some(Normal)"]),
    ("no answer to a block", V17, WIDE, [DIS, CFR] + 3 * [TIMEOUT], T6_WIDE + [BURST, "Pps", "Pps", "Dcn", "end Some(NoReply)"]),
    ("a block asked for a fourth time", V17, WIDE, [DIS, CFR] + 4 * [PPR_OF_ALL], T6_WIDE + 4 * [BURST] + ["Dcn", "end Some(Unreadable)"]),
    ("busy for too long", V17, WIDE, [DIS, CFR, RNR, T5], T6_WIDE + [BURST, "Rr", "Dcn", "end Some(StillBusy)"]),
    ("T5 where nobody is busy", V17, WIDE, [DIS, CFR, T5], T6_WIDE + [BURST, "Silent", "end None"]),
    ("the other station left", V17, WIDE, [DIS, "FF13FA"], T6_WIDE + ["Silent", "end Some(PeerLeft)"]),
]


def try_caller(name, modems, images, hears, wanted):
    kinds = {TIMEOUT: b"T\0\0", T5: b"5\0\0"}
    heard = b"".join(kinds.get(one) or b"H" + (len(one) // 2).to_bytes(2, "big") + bytes.fromhex(one) for one in hears)
    head = bytes([modems, 0, 0, 1]) + len(heard).to_bytes(2, "big")
    compare(name, run(head, heard + images, ["caller"]), wanted)


# An answerer that can do everything, and streams of octets that end it.
TRAINED = [("O", DCS), ("C", 2700)]
STREAMS = [
    ("nobody calls", [("1", None)], ["Dis", "Silent", "end Some(NoAnswer)"]),
    ("DIS again at T2", [("2", None), ("2", None)], ["Dis", "Dis", "Dis", "end None"]),
    ("the caller leaves", TRAINED + [("O", DCN)], ["Dis", "Silent", "Cfr", "Silent", "end Some(PeerLeft)"]),
    (
        "a page that can't be read",
        TRAINED + [("O", fcd(0, "FF", 1)), ("O", LAST)],
        ["Dis", "Silent", "Cfr", "Silent", "Dcn", "end Some(BadPage)"],
    ),
    (
        "a busy answerer",
        TRAINED + [("O", fcd(0, "01100001", 4)), ("B", None), ("O", LAST), ("R", None), ("O", "FF136F"), ("O", DCN)],
        ["Dis", "Silent", "Cfr", "Silent", "Silent", "Rnr", "Silent", "Mcf", "Silent", WHITE_PAGE, "end Some(Normal)"],
    ),
]


def try_stream(name, feeds, wanted):
    octets = b""
    for kind, what in feeds:
        data = b"" if what is None else bytes(what) if kind == "C" else line_of([bytes.fromhex(what)])
        octets += kind.encode() + len(data).to_bytes(2, "big") + data
    compare(name, run(b"", octets, []), wanted)


FIRST_OF_TWO, EOP_LAST_1, NULL = fcd(0, "01", 1), "FF13BF2F000001", "FF13BF00000000"
SECOND_OF_TWO, EOP_BLOCK_1 = fcd(1, "100001", 3), "FF13BF2F000100"
# What a capture carries after a DCS, and how many pages of one white row it has.
CAPTURES = [
    ("a frame sent again with other octets", [fcd(0, "FF", 1), EOP_LAST_1, FIRST_OF_TWO, SECOND_OF_TWO, EOP_LAST_1], 1),
    ("a resend whose last frame is a smaller one", [FIRST_OF_TWO, EOP_LAST_1, SECOND_OF_TWO, LAST], 1),
    ("block 1 before block 0", [fcd(0, WHITE_CODE, 4), EOP_BLOCK_1, fcd(0, WHITE_CODE, 4), NULL], 0),
    ("block 0 after a NULL of block 1", [SECOND_OF_TWO, "FF13BF00000100", FIRST_OF_TWO, NULL, SECOND_OF_TWO, EOP_BLOCK_1], 0),
    ("two blocks in order", [FIRST_OF_TWO, NULL, fcd(0, "100001", 3), EOP_BLOCK_1], 1),
]


def try_capture(name, contents, count):
    line, pages = os.path.join(folder, "line"), os.path.join(folder, "captured")
    os.mkdir(pages)
    with open(line, "wb") as file:
        file.write(line_of([bytes.fromhex(content) for content in [DCS] + contents]))
    ran = subprocess.run([faxtool, "frames", "--pages", pages, line], capture_output=True, text=True, timeout=60)
    found = []
    for page in sorted(os.listdir(pages)):
        with open(os.path.join(pages, page), "rb") as file:
            found.append(file.read())
        os.remove(os.path.join(pages, page))
    os.rmdir(pages)
    if found != count * [WHITE]:
        sys.exit(f"{name}: {len(found)} pages, or other ones, and not {count}")
    if (ran.returncode == 0) != (count > 0) or bool(ran.stderr) != (count == 0):
        sys.exit(f"{name}: status {ran.returncode}: {ran.stderr}")


for row in CALLS:
    try_call(*row)
for row in CALLERS:
    try_caller(*row)
for row in STREAMS:
    try_stream(*row)
for row in CAPTURES:
    try_capture(*row)
print(f"end to end: {len(CALLS) + len(CALLERS) + len(STREAMS) + len(CAPTURES)} rows by octets")
