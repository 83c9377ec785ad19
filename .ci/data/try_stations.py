"""What a program can ask of a station, on its happy paths: try_stations.py PROGRAM FOLDER STATION

The program of crates/stream_tool passes a station of each type what it hears, and prints after each input its turn in bursts, with the
frames' contents, the waits that run with their milliseconds, what it listens for, its parameters, what the other station said of itself,
how far it is, the page that it couldn't read, its end, and the pages taken. All of this is compared with rows that are worked by hand
from the tables of T.30 and its Annex A; a row names what its input changes, and all else is as before. Then the table of docs/STATION,
which STATION names, is held against the waits of a station in each state, and against what the station does when one is over. Nothing
is taken from the program. Ends with status 1 at the first that differs."""

import os
import re
import subprocess
import sys

sys.dont_write_bytecode = True
sys.path.insert(0, os.path.join(os.path.dirname(os.path.abspath(__file__)), "..", "..", "bench", "fuzz"))
from fuzz_stream import EOL, octets_of
from reference_pages import digest

program, folder, timers = sys.argv[1:]

# The contents of frames: T.30, 5.3.6, and A.4. A caller's have X = 1.
DIS, DCS, CFR, FTT, RCP, MCF = "FF1380006EFA44", "FF13830022F844", "FF1384", "FF1344", "FF0386", "FF138C"
RNR, RR, DCN, DCN_OF_THE_ANSWERER = "FF13EC", "FF136F", "FF13FB", "FF13FA"
# PPS: EOP, MPS or NULL, then the page, the block and the last frame.
EOP, NULL_LAST_255, EOP_BLOCK_1 = "FF13BF2F000000", "FF13BF000000FF", "FF13BF2F000100"
EOM, EOP_PAGE_1, NULL = "FF13BF8F000000", "FF13BF2F010000", "FF13BF00000000"
PPR_OF_ALL, PPR_OF_0 = "FF13BC" + 32 * "FF", "FF13BC01" + 31 * "00"
WHITE = b"P4\n1728 1\n" + bytes(216)
WHITE_2048 = b"P4\n2048 1\n" + bytes(256)
# A white row's code in T.6: V0 and EOFB.
WHITE_CODE = "01100001"
WHITE_PAGE = f"page 1728 false 1 {digest([[]], 1728)}"
# 12 rows of a black and a white pixel in turn: 16,443 octets in one dimension, 257 frames of 64.
COMBS = b"P4\n2432 12\n" + 12 * 304 * b"\x55"
# So many such rows that their code is longer than a call carries for a page, 8,388,608 octets.
LONG = b"P4\n2432 6200\n" + 6200 * 304 * b"\x55"
COMBS_BITS = 12 * (EOL + 1216 * ("000111" + "010")) + 6 * EOL
COMBS_CODE = octets_of(COMBS_BITS.ljust(-(-len(COMBS_BITS) // 8) * 8, "0")).hex()

CAPS = "Caps { receiver: true, modems: V17, fine: true, widest: W2432, t6: true, ecm: true }"
T1, T2, T4, T5 = "wait T1 35000", "wait T2 7000", "wait T4 3000", "wait T5 60000"
ALL = f"Burst([{', '.join(32 * ['255'])}])"


def fcd(number, data, size=256):
    """The frame of a page's code, filled with 00 to the size of frames."""
    return f"FF0306{number:02X}" + data.ljust(2 * size, "0")


def params(speed="V17At14400", width=1728, coding="T6", small="false"):
    return f"Some(Params {{ speed: {speed}, fine: false, width: W{width}, coding: {coding}, small: {small} }})"


def v21(content, last=True):
    """A frame by V.21."""
    return [f"V21 last {str(last).lower()}", content.lower()]


def check(octets, speed="V17At14400"):
    """A training check, after which the turn is through."""
    return [f"Training({speed}) last true", f"check {octets}"]


def block(fcds, pps, speed="V17At14400"):
    """FCDs and three RCP at the message speed, then PPS by V.21."""
    return [f"Page({speed}) last false"] + [content.lower() for content in fcds + 3 * [RCP]] + v21(pps)


def calling(confirmed, pages, place, tries):
    """How far a caller is; the place is that of its block, how many the page has, and how often frames were asked for again."""
    at = "None" if place is None else "Some(BlockProgress {{ number: {}, blocks: {}, resends: {} }})".format(*place)
    return f"CallerProgress {{ confirmed: {confirmed}, pages: {pages}, block: {at}, tries: {tries} }}"


def answering(pages, accepted, octets, frames):
    """How far an answerer is; what is accepted is a page and a block."""
    mark = "None" if accepted is None else "Some(Mark {{ page: {}, block: {} }})".format(*accepted)
    return f"AnswererProgress {{ pages: {pages}, accepted: {mark}, octets: {octets}, frames: {frames} }}"


def training(dcs=DCS, octets=2700, speed="V17At14400"):
    return dict(turn="Training", bursts=v21(dcs, False) + check(octets, speed))


SEND_DCN = dict(turn="Dcn", bursts=v21(DCN))
OVER = dict(wait="no wait", longer="no wait")
# A caller of one white page, up to each input of its call.
NEW_CALLER = dict(wait=T1, longer="no wait", listens="V21", params="None", peer="None", end="None")
ONE = dict(NEW_CALLER, progress=calling(0, 1, None, 0))
AGREED = dict(training(), wait=T4, params=params(), peer=f"Some({CAPS})", progress=calling(0, 1, None, 1))
AGREED_WIDE = dict(AGREED, **training("FF13830022FA0C"), params=params(width=2432, coding="OneDim", small="true"))
FIRST_BLOCK = dict(turn=ALL, bursts=block([fcd(0, WHITE_CODE)], EOP), progress=calling(0, 1, (1, 1, 0), 1))
BEGUN = [("H", DIS, AGREED), ("H", CFR, FIRST_BLOCK)]
BUSY = dict(turn="Rr", bursts=v21(RR), longer=T5)
GONE = dict(OVER, end="Some(PeerLeft)")


def gives_up(why, **others):
    return dict(SEND_DCN, **OVER, end=f"Some({why})", **others)


CALLERS = [
    (
        "a call of one page",
        "c",
        [WHITE],
        ONE,
        [
            ("H", DIS, AGREED),
            ("T", "", dict(training(), progress=calling(0, 1, None, 2))),
            ("H", CFR, FIRST_BLOCK),
            ("H", PPR_OF_ALL, dict(turn=ALL, bursts=FIRST_BLOCK["bursts"], progress=calling(0, 1, (1, 1, 1), 1))),
            ("T", "", dict(turn="Pps", bursts=v21(EOP), progress=calling(0, 1, (1, 1, 1), 2))),
            ("H", RNR, dict(BUSY, progress=calling(0, 1, (1, 1, 1), 1))),
            ("T", "", dict(turn="Rr", bursts=v21(RR), progress=calling(0, 1, (1, 1, 1), 2))),
            ("H", MCF, gives_up("Normal", progress=calling(1, 1, None, 2))),
            ("H", DIS, {}),
        ],
        ["document 1 confirmed 1"],
    ),
    (
        "two groups, and no DIS for the second: its page can be sent again",
        "c",
        [WHITE, WHITE_2048],
        dict(NEW_CALLER, progress=calling(0, 2, None, 0)),
        [
            ("H", DIS, dict(AGREED, progress=calling(0, 2, None, 1))),
            ("H", CFR, dict(turn=ALL, bursts=block([fcd(0, WHITE_CODE)], EOM), progress=calling(0, 2, (1, 1, 0), 1))),
            ("H", MCF, dict(wait=T1, params="None", progress=calling(1, 2, None, 1))),
            ("T", "", gives_up("NoAnswer")),
        ],
        ["document 2 confirmed 1"],
    ),
    (
        "two groups, each under its own parameters",
        "c",
        [WHITE, WHITE_2048],
        dict(NEW_CALLER, progress=calling(0, 2, None, 0)),
        [
            ("H", DIS, dict(AGREED, progress=calling(0, 2, None, 1))),
            ("H", CFR, dict(turn=ALL, bursts=block([fcd(0, WHITE_CODE)], EOM), progress=calling(0, 2, (1, 1, 0), 1))),
            ("H", MCF, dict(wait=T1, params="None", progress=calling(1, 2, None, 1))),
            ("H", DIS, dict(training("FF13830022F944"), wait=T4, params=params(width=2048))),
            ("H", CFR, dict(turn=ALL, bursts=block([fcd(0, WHITE_CODE)], EOP_PAGE_1), progress=calling(1, 2, (1, 1, 0), 1))),
            ("H", MCF, gives_up("Normal", progress=calling(2, 2, None, 1))),
        ],
        ["document 2 confirmed 2"],
    ),
    (
        "a page of two blocks",
        "c",
        [COMBS],
        ONE,
        [
            ("H", DIS, AGREED_WIDE),
            (
                "H",
                CFR,
                dict(
                    turn=ALL,
                    bursts=block([fcd(at, COMBS_CODE[128 * at : 128 * at + 128], 64) for at in range(256)], NULL_LAST_255),
                    progress=calling(0, 1, (1, 2, 0), 1),
                ),
            ),
            (
                "H",
                MCF,
                dict(
                    turn=ALL,
                    bursts=block([fcd(0, COMBS_CODE[128 * 256 :], 64)], EOP_BLOCK_1),
                    progress=calling(0, 1, (2, 2, 0), 1),
                ),
            ),
            ("H", MCF, gives_up("Normal", progress=calling(1, 1, None, 1))),
        ],
        ["document 1 confirmed 1"],
    ),
    (
        "not compatible",
        "c",
        [WHITE],
        ONE,
        [("H", "FF1380006CFA44", gives_up("NotCompatible"))],
        ["document 1 confirmed 0"],
    ),
    (
        "no speed is left",
        "c",
        [WHITE],
        ONE,
        [
            (
                "H",
                "FF13800042FA44",
                dict(
                    training("FF13830002F844", 450, "V27At2400"),
                    wait=T4,
                    params=params("V27At2400"),
                    peer=f"Some({CAPS.replace('V17', 'Fallback')})",
                    progress=calling(0, 1, None, 1),
                ),
            ),
            ("H", FTT, gives_up("Training")),
        ],
        ["document 1 confirmed 0"],
    ),
    (
        "a lower speed after FTT",
        "c",
        [WHITE],
        ONE,
        [("H", DIS, AGREED), ("H", FTT, dict(training("FF1383002AF844", 2250, "V17At12000"), params=params("V17At12000")))],
        ["document 1 confirmed 0"],
    ),
    (
        "no reply",
        "c",
        [WHITE],
        ONE,
        [("H", DIS, AGREED)]
        + [("T", "", dict(training(), progress=calling(0, 1, None, tries))) for tries in (2, 3)]
        + [("T", "", gives_up("NoReply"))],
        ["document 1 confirmed 0"],
    ),
    (
        "a block asked for a fourth time",
        "c",
        [WHITE],
        ONE,
        BEGUN
        + [
            ("H", PPR_OF_0, dict(turn=f"Burst([1{31 * ', 0'}])", bursts=FIRST_BLOCK["bursts"], progress=calling(0, 1, (1, 1, resends), 1)))
            for resends in (1, 2, 3)
        ]
        + [("H", PPR_OF_0, gives_up("Unreadable", progress=calling(0, 1, None, 1)))],
        ["document 1 confirmed 0"],
    ),
    (
        "busy for too long",
        "c",
        [WHITE],
        ONE,
        BEGUN + [("H", RNR, BUSY), ("5", "", gives_up("StillBusy", progress=calling(0, 1, None, 1)))],
        ["document 1 confirmed 0"],
    ),
    (
        "a page whose code is too long",
        "c",
        [LONG],
        ONE,
        [("H", DIS, AGREED_WIDE), ("H", CFR, gives_up("PageTooLong"))],
        ["document 1 confirmed 0"],
    ),
    ("the answerer leaves", "c", [WHITE], ONE, [("H", DIS, AGREED), ("H", DCN_OF_THE_ANSWERER, GONE)], ["document 1 confirmed 0"]),
    (
        "the program stops the call while a block is answered",
        "s",
        [WHITE],
        ONE,
        BEGUN + [("S", "", dict(SEND_DCN, end="Some(Stopped)")), ("H", MCF, {}), ("S", "", {}), ("L", "", {})],
        [],
    ),
    ("the line of a caller goes", "s", [WHITE], ONE, BEGUN + [("L", "", dict(end="Some(LineLost)")), ("S", "", {}), ("T", "", {})], []),
    (
        "a call that has ended stays as it ended",
        "s",
        [WHITE],
        ONE,
        [("T", "", gives_up("By(NoAnswer)")), ("S", "", {}), ("L", "", {})],
        [],
    ),
]

# An answerer, up to the answer to a good training check.
SEND_DIS = dict(turn="Dis", bursts=v21(DIS), wait=T2, longer=T1, listens="V21", params="None")
NEW = dict(SEND_DIS, peer="None", progress=answering(0, None, 0, 0), end="None")
HEARD_DCS = dict(listens="Training(V17At14400)", params=params(), peer=params())
TRAINED = dict(turn="Cfr", bursts=v21(CFR), wait=T1, longer="no wait", listens="V21OrPage(V17At14400)")
READY = [("H", DCS, HEARD_DCS), ("C", 2700 * "00", TRAINED)]
FRAME_0 = ("H", fcd(0, WHITE_CODE), dict(progress=answering(0, None, 0, 1)))
SEND_MCF, SEND_RNR = dict(turn="Mcf", bursts=v21(MCF)), dict(turn="Rnr", bursts=v21(RNR))
STORED = dict(SEND_MCF, progress=answering(1, (0, 0), 0, 0))
TAKEN = dict(pages=1, progress=answering(0, (0, 0), 0, 0))
ENDED = dict(OVER, listens="V21")


def mps(page):
    return f"FF13BF4F{page:02X}0000"


def flood(letter):
    """Pages to an answerer that has room for two: the one that reaches the limit is stored and answered by RNR, and no other until they
    are taken."""
    first, second = dict(progress=answering(1, (0, 0), 0, 1)), dict(SEND_RNR, progress=answering(2, (1, 0), 0, 0))
    return (
        f"room for two pages, by {'their number' if letter == 'l' else 'their octets'}",
        letter,
        [],
        NEW,
        READY
        + [
            FRAME_0,
            ("H", mps(0), STORED),
            ("H", fcd(0, WHITE_CODE), first),
            ("H", mps(1), second),
            ("H", fcd(0, WHITE_CODE), {}),
            ("H", mps(2), {}),
            ("H", mps(1), SEND_RNR),
            ("R", "", {}),
            ("H", RR, SEND_RNR),
            ("K", "", dict(pages=2, progress=answering(0, (1, 0), 0, 0))),
            ("H", RR, SEND_MCF),
            ("H", fcd(0, WHITE_CODE), dict(progress=answering(0, (1, 0), 0, 1))),
            ("H", "FF13BF2F020000", dict(SEND_MCF, progress=answering(1, (2, 0), 0, 0))),
            ("H", DCN, dict(ENDED, end="Some(By(Normal))")),
            ("K", "", dict(pages=1, progress=answering(0, (2, 0), 0, 0))),
        ],
        [],
    )


ANSWERERS = [
    (
        "a page, taken while the call runs",
        "a",
        [],
        NEW,
        [
            ("H", DCS, HEARD_DCS),
            ("C", 2700 * "FF", dict(turn="Ftt", bursts=v21(FTT), listens="V21", params="None", peer="None")),
            ("H", DCS, HEARD_DCS),
            ("2", "", dict(SEND_DIS, peer="None")),
            *READY,
            ("H", fcd(1, "100001", 3), dict(progress=answering(0, None, 0, 1))),
            ("H", "FF13BF2F000001", dict(turn=f"Ppr([253{31 * ', 255'}])", bursts=v21("FF13BCFD" + 31 * "FF"))),
            ("H", fcd(0, "01", 1), dict(progress=answering(0, None, 0, 2))),
            ("H", "FF13BF2F000001", STORED),
            ("K", "", TAKEN),
            ("H", "FF13BF2F000001", SEND_MCF),
            ("H", DCN, dict(ENDED, end="Some(Normal)")),
        ],
        ["pages 0"],
    ),
    (
        "the end of a group, and the next one",
        "a",
        [],
        NEW,
        READY
        + [
            FRAME_0,
            ("H", EOM, dict(STORED, wait=T2, longer=T1, listens="V21", params="None")),
            ("2", "", SEND_DIS),
            ("H", "FF13830022F944", dict(listens="Training(V17At14400)", params=params(width=2048), peer=params(width=2048))),
            ("H", DCN, dict(ENDED, end="Some(PeerLeft)")),
        ],
        ["pages 1", WHITE_PAGE],
    ),
    (
        "a page of two blocks",
        "a",
        [],
        NEW,
        READY
        + [
            ("H", fcd(0, "01", 1), dict(progress=answering(0, None, 0, 1))),
            ("H", NULL, dict(SEND_MCF, progress=answering(0, (0, 0), 1, 0))),
            ("H", fcd(0, "100001", 3), dict(progress=answering(0, (0, 0), 1, 1))),
            ("H", EOP_BLOCK_1, dict(SEND_MCF, progress=answering(1, (0, 1), 0, 0))),
        ],
        ["pages 1", WHITE_PAGE],
    ),
    (
        "a busy answerer",
        "a",
        [],
        NEW,
        READY + [FRAME_0, ("B", "", {}), ("H", EOP, dict(STORED, **SEND_RNR)), ("H", RR, SEND_RNR), ("R", "", {}), ("H", RR, SEND_MCF)],
        ["pages 1", WHITE_PAGE],
    ),
    (
        "a page that can't be read: three white rows, and then eight 0 bits and a 1, which begin no code",
        "a",
        [],
        NEW,
        READY
        + [
            ("H", fcd(0, "0708", 2), dict(progress=answering(0, None, 0, 1))),
            ("H", fcd(1, "00", 1), dict(progress=answering(0, None, 0, 2))),
            (
                "H",
                "FF13BF2F000001",
                dict(
                    ENDED,
                    turn="Dcn",
                    bursts=v21(DCN_OF_THE_ANSWERER),
                    bad=f"070800 {params()[5:-1]} Some(CodeFault {{ place: 3, kind: BadCode }})",
                    end="Some(BadPage)",
                ),
            ),
        ],
        ["pages 0"],
    ),
    ("nobody calls", "a", [], NEW, [("1", "", dict(OVER, end="Some(NoAnswer)"))], ["pages 0"]),
    (
        "the program stops an answerer",
        "t",
        [],
        NEW,
        READY
        + [
            FRAME_0,
            ("S", "", dict(turn="Dcn", bursts=v21(DCN_OF_THE_ANSWERER), end="Some(Stopped)")),
            ("H", EOP, {}),
            ("L", "", {}),
            ("K", "", dict(pages=0)),
        ],
        [],
    ),
    (
        "the line of an answerer goes, and its page is taken",
        "t",
        [],
        NEW,
        READY + [FRAME_0, ("H", EOP, STORED), ("L", "", dict(end="Some(LineLost)")), ("S", "", {}), ("K", "", TAKEN)],
        [],
    ),
    ("an answerer that has ended stays as it ended", "t", [], NEW, [("1", "", dict(OVER, end="Some(By(NoAnswer))")), ("S", "", {})], []),
    flood("l"),
    flood("o"),
    (
        "the program stops an answerer with a limit",
        "l",
        [],
        NEW,
        READY + [("S", "", dict(turn="Dcn", bursts=v21(DCN_OF_THE_ANSWERER), end="Some(Stopped)")), ("H", fcd(0, WHITE_CODE), {})],
        [],
    ),
    ("the line of an answerer with a limit goes", "l", [], NEW, [("L", "", dict(end="Some(LineLost)")), ("2", "", {})], []),
]

# The DIS of stations to which a caller of a fine page of 2,432 pixels can't send, and the first reason.
FINE_2432 = b"P4\n2432 1\n" + bytes(304)
REASONS = [
    (DIS, "None"),
    ("FF1380006CFA44", "Some(NoReceiver)"),
    ("FF1380006EFA40", "Some(NoErrorCorrection)"),
    ("FF1380006EF944", "Some(TooWide)"),
    ("FF1380002EFA44", "Some(NoFineLines)"),
    ("FF1380004AFA44", "Some(NoCommonSpeed)"),
    ("FF1380006CF800", "Some(NoReceiver)"),
]


def run(letter, options, heard, images):
    name = os.path.join(folder, "station")
    with open(name, "wb") as file:
        file.write(letter.encode() + bytes(options) + len(heard).to_bytes(2, "big") + heard + b"".join(images))
    ran = subprocess.run([program, name, "station"], capture_output=True, text=True, timeout=60)
    if ran.returncode or ran.stderr:
        sys.exit(f"status {ran.returncode}: {ran.stderr}: {name}")
    return ran.stdout.splitlines()


def piece(kind, content):
    return kind.encode() + (len(content) // 2).to_bytes(2, "big") + bytes.fromhex(content)


def printed(state):
    """The lines of a station in a state."""
    lines = [f"pages {state['pages']}"] + state["pages"] * [WHITE_PAGE] if "pages" in state else []
    lines += [f"turn {state.get('turn', 'Silent')}"] + state.get("bursts", []) + [state["wait"], state["longer"]]
    lines += [f"listens {state['listens']}", f"params {state['params']}", f"peer {state['peer']}", state["progress"]]
    if "bad" in state:
        lines.append(f"bad page {state['bad']}")
    return lines + [f"end {state['end']}"]


def lasting(state):
    """What of a state holds until something changes it."""
    return {key: value for key, value in state.items() if key not in ("turn", "bursts", "pages")}


def compare(name, lines, wanted):
    for number, (line, other) in enumerate(zip(lines, wanted)):
        if line != other:
            sys.exit(f"{name}: line {number + 1} is {line[:160]}, and not {other[:160]}")
    if len(lines) != len(wanted):
        sys.exit(f"{name}: {len(lines)} lines, and not {len(wanted)}")


def try_station(name, letter, images, state, inputs, last):
    is_wide = images in ([COMBS], [LONG])
    wanted, options = printed(state), (0, is_wide, is_wide, 0)
    for _, _, changes in inputs:
        state = dict(lasting(state), **changes)
        wanted += printed(state)
    heard = b"".join(piece(kind, content) for kind, content, _ in inputs)
    compare(name, run(letter, options, heard, images), wanted + last)


# How a station comes to each state of docs/STATION: its letter, and what it hears before.
STATES = {
    "WaitDis": ("c", []),
    "WaitCfr": ("c", [("H", DIS)]),
    "WaitBlock": ("c", [("H", DIS), ("H", CFR)]),
    "WaitReady": ("c", [("H", DIS), ("H", CFR), ("H", RNR)]),
    "PhaseB": ("a", []),
    "WaitTraining": ("a", [("H", DCS)]),
    "Message": ("a", [("H", DCS), ("C", 2700 * "00")]),
}
# What a station of the program for streams hears once a wait is over.
INPUTS = {("Caller", "T1"): "T", ("Caller", "T4"): "T", ("Caller", "T5"): "5", ("Answerer", "T1"): "1", ("Answerer", "T2"): "2"}
TURNS = {"DCS and training": "Training", "PPS": "Pps", "RR": "Rr", "DCN": "Dcn", "DIS": "Dis"}
ROW = re.compile(r"\| (Caller|Answerer), (.*?) \| (T\d) \| (\d+) s(?: ± .*?)? \| (.*) \|")


def told(state, kind, times):
    """What is printed of a station in a state after so many ends of a wait, from its last turn on."""
    letter, before = STATES[state]
    heard = b"".join(piece(*one) for one in before + times * [(kind, "")])
    lines = run(letter, (0, 0, 0, 0), heard, [WHITE] if letter == "c" else [])
    return lines[max(number for number, line in enumerate(lines) if line.startswith("turn")) :]


def end_of(lines):
    return [line for line in lines if line.startswith("end")][0]


def try_row(who, states, wait, seconds, does):
    """A row of the table: the wait runs in each of its states; once it is over the station sends what the row says and ends, if it says
    so; where there are tries, after the third."""
    for state in states:
        lines, kind = told(state, "", 0), INPUTS[who, wait]
        if f"wait {wait} {seconds}000" not in lines:
            sys.exit(f"docs/STATION: {wait} of {seconds} s doesn't run in {state}: {lines}")
        first, _, third = does.partition("; after the third try ")
        after = told(state, kind, 1)
        sends = [turn for word, turn in TURNS.items() if f"sends {word}" in first]
        if after[0] != f"turn {(sends + ['Silent'])[0]}":
            sys.exit(f"docs/STATION: {wait} in {state}: {after[0]}, and not {does}")
        if third:
            after = told(state, kind, 3)
        ends = re.search(r"`(\w+)`", does)
        if end_of(after) != (f"end Some({ends[1]})" if ends else "end None"):
            sys.exit(f"docs/STATION: {wait} in {state}: {end_of(after)}, and not {does}")


def try_timers():
    """The rows of the table, and that no other wait runs in any state."""
    with open(timers, encoding="utf-8") as file:
        rows = [ROW.fullmatch(line).groups() for line in file.read().splitlines() if re.match(r"\| (Caller|Answerer), ", line)]
    runs = {state: set() for state in STATES}
    for who, where, wait, seconds, does in rows:
        states = re.findall(r"`(\w+)`", where)
        try_row(who, states, wait, seconds, does)
        for state in states:
            runs[state].add(f"wait {wait} {seconds}000")
    for state, waits in runs.items():
        lines = told(state, "", 0)
        if {line for line in lines if line.startswith("wait")} != waits:
            sys.exit(f"docs/STATION: in {state} run {lines}, and not {sorted(waits)}")
    return len(rows)


for row in CALLERS + ANSWERERS:
    try_station(*row)
for dis, reason in REASONS:
    compare(f"why not, {dis}", run("w", (2, 0, 0, 1), bytes.fromhex(dis), [FINE_2432]), [f"why not {reason}"])
print(f"end to end: {len(CALLERS) + len(ANSWERERS)} stations, {len(REASONS)} reasons and {try_timers()} waits by hand")
