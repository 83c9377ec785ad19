"""Writes the conversations of .ci/conversations: make_conversations.py FOLDER

Of those named worked_ the frames are worked by hand from T.30's tables, in bench/fuzz/reference_station.py; only flags, stuffed bits and
check sequences are added here. Of those named reference_ the answers are the ones of that reading. A conversation is the words of its
station, with IN and DIR; the lines in; the lines out; and the last lines on standard error. A caller has its document, an answerer the
pages that it stores; of some the records of `--json` are worked too. The figures at the end are those of bench/fuzz/figures.py, with which
those that are worked by hand are compared."""

import json
import os
import sys
from pathlib import Path

sys.dont_write_bytecode = True
TOP = Path(__file__).resolve().parent.parent.parent
sys.path.insert(0, str(TOP / "bench" / "fuzz"))
import reference_station as reference  # noqa: E402
from figures import figures_of, left_out_of, record_of, told_of, words_of  # noqa: E402
from reference_station import ANSWERED, CALLED, SENT_WELL, UNANSWERED, written  # noqa: E402
from reference_station import CFR, CHECK, DCN, DCS, DIS, LAST, MCF, PAGE, RCP, RNR, RR, WHITE_BURST  # noqa: E402

folder = Path(sys.argv[1])
WHITE = (TOP / "docs" / "examples" / "row.pbm").read_bytes()
TWO_WIDTHS = WHITE + b"P4\n2048 1\n" + bytes(256)
# The figures of these, by hand from the tables below: a second DIS that nothing was heard before, with a name; a second DCS after T4, and
# two RR that each answer a RNR; a check that fails; a PPR for all 256 frames of a block that has one; four of them and a slower speed; and
# what comes before the first DIS, which isn't heard.
BY_HAND = {
    "worked_answerer_of_a_caller_with_a_name": "16 s; blocks 1, PPRs 0, frames sent again 0, failed checks 0, retries 1"
    "; v17-14400 to v17-14400; peer +49 30 123",
    "worked_caller_before_a_busy_answerer": "110 s; blocks 0, PPRs 0, frames sent again 0, failed checks 0, retries 1"
    "; v17-14400 to v17-14400",
    "worked_answerer_says_what_it_hears": "16 s; blocks 1, PPRs 0, frames sent again 0, failed checks 1, retries 0; v17-14400 to v17-14400",
    "worked_frame_that_is_lost": "11 s; blocks 1, PPRs 1, frames sent again 1, failed checks 0, retries 0; v17-14400 to v17-14400",
    "worked_name_before_the_first_dis": "3 s; blocks 0, PPRs 0, frames sent again 0, failed checks 0, retries 0",
    "worked_caller_that_says_ctc": "53 s; blocks 0, PPRs 4, frames sent again 4, failed checks 1, retries 0; v17-14400 to v17-12000",
}


def happened(record):
    """The line of a record of what happens during a call, without `--json`."""
    told = json.loads(record)
    if "file" in told:
        size = f"{told['width']} x {told['height']}, {told['lines']}, {told['code']}, {told['speed']}"
        return f"{told['at']} page {told['page']} in {told['file']}: {size}"
    if "gap" in told:
        return f"{told['at']} gap before page {told['gap']}: one may be missing"
    if "heard" in told:
        return f"{told['at']} heard {told.get('words') or 'other ' + told['heard']['control_field']}"
    return f"{told['at']} page {told['confirmed']} confirmed"


def ended(name, words, lines, answers, told, records):
    """What is told at the end, and the records, with the figures."""
    calls = "--call" in words.split()
    figures = figures_of(lines, answers, calls)
    if BY_HAND.pop(name, words_of(figures)) != words_of(figures):
        sys.exit(f"{name}: by hand the figures are others than {words_of(figures)}")
    end = told[-1].split(" ")
    if end[0] == "end" and records:
        why = json.loads(records[-1]).get("why")
        if left_out_of(figures, end[1]) not in (None, why):
            sys.exit(f"{name}: it ends after a frame that isn't answered: {left_out_of(figures, end[1])}")
        records = [*records, record_of(figures, end[1], calls, int(end[3]), why)]
    return told_of(told, figures), records


def write(name, words, lines, answers, errors, document=b"", pages=(), records=()):
    told, records = ended(name, words, lines, answers, "\n".join(errors).split("\n"), records)
    errors = [*(happened(record) for record in records if '"at"' in record), *told]
    texts = {"words": words, "lines": "\n".join(lines), "expected": "\n".join(answers), "error": "\n".join(errors)}
    texts |= {"records": "\n".join(records)} if records else {}
    for kind, text in texts.items():
        (folder / f"{name}.{kind}").write_text(text + "\n" * bool(text), encoding="ascii", newline="")
    for kind, octets in (("pbm", document), ("pages", b"".join(pages))):
        if octets:
            (folder / f"{name}.{kind}").write_bytes(octets)


def text_of(line):
    """A line in, as it is or from the contents of its frames or the bits of its check."""
    return line if isinstance(line, str) else f"{line[0]} {written(line[1:])}"


def worked(name, words, table, **files):
    answers = []
    for line, bursts in table[:-1]:
        answers += [burst if isinstance(burst, str) else "tx " + written(burst) for burst in bursts]
        answers.append("done" if (line, bursts) == table[-2] else "wait")
    write("worked_" + name, words, [text_of(line) for line, _ in table[:-1]], answers, table[-1:], **files)


def worked_whole(name, words, table, **files):
    """As `worked`, with every line out in the table."""
    answers = [burst if isinstance(burst, str) else "tx " + written(burst) for _, bursts in table[:-1] for burst in bursts]
    write("worked_" + name, words, [text_of(line) for line, _ in table[:-1]], answers, table[-1:], **files)


def referred(name, words, lines, document=b"", errors=None):
    """The answers, and the last line on standard error, are those of the reference."""
    source, pages, answers = folder / f"reference_{name}.pbm", [], []
    if document:
        source.write_bytes(document)
    asked = words.replace("IN", str(source)).split()
    texts = [text_of(line) for line in lines]
    end = reference.end_of(reference.arguments(asked), pages.append)
    told, status = reference.serve(end, [text.encode() for text in texts], answers.extend)
    write("reference_" + name, words, texts, answers, errors or told, document, pages)
    if not status and not told[-1].startswith("end normal "):
        (folder / f"reference_{name}.done").touch()


FTT = "FF1344"  # X010 0010, where a CFR is X010 0001 (T.30, 5.3.6.1.4)
# What an answerer hears, what comes first in front, and when a wait is over: T1 35 s after the last frame or check, T2 7 s after the first
# quiet line. A check that doesn't come gets FTT, and is no check that was heard.
V21, A_CHECK, A_PAGE = "hear v21 hdlc", f"hear {PAGE} raw", f"hear {PAGE} hdlc"
HEARING = [
    ("quiet 500", ["wait 1000"]),
    ("quiet 1000", [("v21", [DIS]), V21, "wait 35000"]),
    ("quiet 2000", [V21, "wait 9000"]),
    ("missed 2500", [V21, "wait 9000"]),
    (("rx 3000", "v21", [DCS]), [A_CHECK, V21, "wait 38000"]),
    ("quiet 3020", [A_CHECK, V21, "wait 10020"]),
    ("missed 6000", [("v21", [FTT]), V21, "wait 38000"]),
    (("rx 10000", "v21", [DCS]), [A_CHECK, V21, "wait 45000"]),
    (("rx 12000", PAGE, CHECK), [("v21", [CFR]), A_PAGE, V21, "wait"]),
    ("quiet 12500", [A_PAGE, V21, "wait 47500"]),
    (("rx 13000", PAGE, WHITE_BURST), [A_PAGE, V21, "wait"]),
    ("not-ready 13001", [A_PAGE, V21, "wait"]),
    (("rx 14000", "v21", [LAST]), [("v21", [RNR]), V21, A_PAGE, "wait"]),
    ("ready 14001", [V21, A_PAGE, "wait"]),
    (("rx 15000", "v21", [RR]), [("v21", [MCF]), V21, A_PAGE, "wait"]),
    (("rx 16000", "v21", [DCN]), ["done"]),
    "end normal pages 1",
]
# After a carrier of a minute a line is answered; a quiet line that is later than a quiet one by more than 35 s isn't.
JUMPING = [
    ("quiet 1000", [("v21", [DIS]), "wait"]),
    ("quiet 1100", ["wait"]),
    ("busy 1200", ["wait"]),
    (("rx 61200", "v21", [DCS]), ["wait"]),
    ("quiet 61300", ["wait"]),
    ("quiet 96301", []),
    "fault 31 at line 6",
]
# Frames by V.21 as contents, said and heard; a burst in bits is heard too. A content of two octets is none.
FRAMED = [
    ("quiet 1000", [f"tx v21 frames {DIS}", "wait"]),
    (f"rx 2000 v21 frames {DCS}", ["wait"]),
    (("rx 4000", PAGE, CHECK), [f"tx v21 frames {CFR}", "wait"]),
    (("rx 6000", PAGE, WHITE_BURST), ["wait"]),
    ("rx 6500 v21 frames", ["wait"]),
    (f"rx 7000 v21 frames FF132000 {LAST.lower()}", [f"tx v21 frames {MCF}", "wait"]),
    (("rx 8000", "v21", [DCN]), ["done"]),
    "end normal pages 1",
]
TWO_OCTETS = [("quiet 1000", [f"tx v21 frames {DIS}", "wait"]), (f"rx 2000 v21 frames {DCS} FF13", []), "fault 31 at line 2"]
BEGUN = ["quiet 1000", ("rx 2000", "v21", [DCS]), ("rx 4000", PAGE, CHECK)]
FIRST_OF_TWO, SECOND = "FF13BF4F000000", "FF13BF2F010000"
SENT = [("rx 6000", PAGE, WHITE_BURST), ("rx 7000", "v21", [FIRST_OF_TWO])]
# A caller without error correction: DCS without bit 27, as HylaFAX and as an old machine with three octets send it. The second one gets DCN
# (X111 1010, where X is 0 of an answerer), and with --no-refuse nothing, as the first one.
WITHOUT, OF_THREE = "FF13830022F840", "FF1383002278"
REFUSED_TWICE = [
    ("quiet 1000", [("v21", [DIS]), "wait"]),
    (("rx 2000", "v21", [WITHOUT]), ["wait"]),
    (("rx 4000", PAGE, CHECK), ["wait"]),
    (("rx 7000", "v21", [OF_THREE]), [("v21", ["FF13FA"]), "done"]),
    "the call is refused: the caller sends without error correction\nend refused pages 0",
]
NOT_REFUSED = [*REFUSED_TWICE[:3], (REFUSED_TWICE[3][0], ["wait"]), ("stop 8000", [("v21", ["FF13FA"]), "done"]), "end stopped pages 0"]
STORED = '{"at":14000,"code":"mmr","file":"page-1.pbm","height":1,"lines":"standard","page":1,"speed":"v17-14400","width":1728}'
NORMAL = ['{"pages":1,"whole":true}']
UNKNOWN = [f'{{"at":{at},"heard":{{"control_field":"83","name":"DCS","signal":"other"}},"words":"DCS"}}' for at in (2000, 7000)]
WHY = '{"pages":0,"whole":false,"why":"the caller sends without error correction"}'
worked("answerer", "--answer --out DIR", ANSWERED, pages=[WHITE], records=[STORED, *NORMAL])
# The same call, with TSI (X100 0010, its 20 signs from the last to the first) and a NSS (X010 0010) before the DCS.
TSI, NSS = "FF0343" + b"321 03 94+".ljust(20).hex(), "FF0323AD00"
NAMED = [*ANSWERED[:7], (("rx 10200", "v21", [TSI, NSS, DCS]), []), *ANSWERED[8:]]
OTHERS = [
    '{"at":10200,"heard":{"control_field":"43","name":"TSI","signal":"other"},"words":"TSI: +49 30 123"}',
    '{"at":10200,"heard":{"control_field":"23","name":"NSS","signal":"other"},"words":"NSS"}',
]
worked("answerer_of_a_caller_with_a_name", "--answer --out DIR", NAMED, pages=[WHITE], records=[*OTHERS, STORED, *NORMAL])
# Before its first DIS an answerer hears nothing. That it is stopped is why its call ends, not the NSS before.
EARLY = [
    (("rx 900", "v21", [TSI, DCS]), ["wait"]),
    ("quiet 1000", [("v21", [DIS]), "wait"]),
    (("rx 2000", "v21", [NSS]), ["wait"]),
    ("stop 3000", [("v21", ["FF13FA"]), "done"]),
    "end stopped pages 0",
]
EARLY_RECORDS = [OTHERS[1].replace("10200", "2000"), '{"pages":0,"whole":false}']
worked_whole("name_before_the_first_dis", "--answer --out DIR", EARLY, records=EARLY_RECORDS)
# A DIS without bit 27: no error correction.
LACKED = "not compatible: the answerer has no error correction\nend not-compatible confirmed 0"
NO_CORRECTION = [(("rx 1000", "v21", ["FF1380006EFA40"]), [("v21", [DCN])]), LACKED]
LACKS = ['{"confirmed":0,"whole":false,"why":"the answerer has no error correction"}']
worked("caller_that_is_not_compatible", "--call IN", NO_CORRECTION, document=WHITE, records=LACKS)
worked_whole("no_error_correction", "--answer --out DIR", REFUSED_TWICE, records=[*UNKNOWN, WHY])
worked_whole("no_error_correction_waited_for", "--answer --no-refuse --out DIR", NOT_REFUSED)
worked_whole("answerer_says_what_it_hears", "--answer --hear --out DIR", HEARING, pages=[WHITE])
worked_whole("clock_that_jumps", "--answer --out DIR", JUMPING)
# A page that is handed over: RNR until it is kept, and DCN once it is lost. What is said of another page, or of none, is no line.
HELD = [
    ("quiet 1000", [("v21", [DIS]), "wait"]),
    (("rx 2000", "v21", [DCS]), ["wait"]),
    (("rx 4000", PAGE, CHECK), [("v21", [CFR]), "wait"]),
    (("rx 6000", PAGE, WHITE_BURST), ["wait"]),
    (("rx 7000", "v21", [LAST]), ["page page-1.pbm", ("v21", [RNR]), "wait"]),
    ("quiet 7100", ["wait"]),
    (("rx 8000", "v21", [RR]), [("v21", [RNR]), "wait"]),
]
KEPT = [*HELD, ("kept 9000 page-1.pbm", ["wait"]), (("rx 9500", "v21", [RR]), [("v21", [MCF]), "wait"]), (("rx 10000", "v21", [DCN]), ["done"])]
KEPT_RECORD = STORED.replace("14000", "9000")
worked_whole("held_page", "--answer --hold --out DIR", [*KEPT, "end normal pages 1"], pages=[WHITE], records=[KEPT_RECORD, *NORMAL])
LOST = [*HELD, ("lost 9000 page-1.pbm", [("v21", ["FF13FA"]), "done"])]
IS_LOST = "the call is stopped: a page that was handed over is lost"
NOTICE, LOST_END = f'{{"notice":"{IS_LOST}"}}', ['{"pages":0,"whole":false,"why":"' + IS_LOST + '"}']
worked_whole(
    "held_page_lost", "--answer --hold --out DIR", [*LOST, f"{IS_LOST}\nend stopped pages 0"], pages=[WHITE], records=[NOTICE, *LOST_END]
)
worked_whole("held_page_of_another_name", "--answer --hold --out DIR", [*HELD, ("kept 9000 page-2.pbm", []), "fault 31 at line 8"], pages=[WHITE])
worked_whole("page_kept_twice", "--answer --hold --out DIR", [*KEPT[:8], ("kept 9001 page-1.pbm", []), "fault 31 at line 9"], pages=[WHITE])
worked_whole("page_kept_that_is_not_held", "--answer --out DIR", [HELD[0], ("kept 2000 page-1.pbm", []), "fault 31 at line 2"])
# A PPS of page 7 after one of page 0: it is confirmed, and the jump is told once.
SEVENTH = "FF13BF2F070000"
JUMPED = [
    *HELD[:4],
    (("rx 7000", "v21", [FIRST_OF_TWO]), [("v21", [MCF]), "wait"]),
    (("rx 9000", PAGE, WHITE_BURST), ["wait"]),
    (("rx 10000", "v21", [SEVENTH]), [("v21", [MCF]), "wait"]),
    (("rx 11000", "v21", [DCN]), ["done"]),
    "end normal pages 2",
]
STORED_TWO = [STORED.replace("14000", "7000"), STORED.replace("14000", "10000").replace('page-1', 'page-2').replace('"page":1', '"page":2')]
GAP = ['{"at":10000,"gap":8}', '{"pages":2,"whole":false}']
worked_whole("page_number_that_jumps", "--answer --out DIR", JUMPED, pages=[WHITE, WHITE], records=[STORED_TWO[0], GAP[0], STORED_TWO[1], *GAP[1:]])
# A second page under the number of the first: its PPS can't be told from a repeated one, so DCN is answered in place of MCF. So it is where the
# first page ends a group (X111 0001), and a DCS and a check come between.
USED = [*JUMPED[:6], (("rx 10000", "v21", [LAST]), [("v21", ["FF13FA"]), "done"])]
GROUP = "FF13BF8F000000"
USED_IN_A_GROUP = [
    *HELD[:4],
    (("rx 7000", "v21", [GROUP]), [("v21", [MCF]), "wait"]),
    (("rx 9000", "v21", [DCS]), ["wait"]),
    (("rx 11000", PAGE, CHECK), [("v21", [CFR]), "wait"]),
    (("rx 13000", PAGE, WHITE_BURST), ["wait"]),
    (("rx 14000", "v21", [LAST]), [("v21", ["FF13FA"]), "done"]),
]
IS_USED = "a page came under the number of the last one"
USED_END = [f'{{"pages":1,"whole":false,"why":"{IS_USED}"}}']
for name, table in (("page_under_a_used_number", USED), ("page_under_a_used_number_in_a_new_group", USED_IN_A_GROUP)):
    end = f"the call is refused: {IS_USED}\nend refused pages 1"
    worked_whole(name, "--answer --out DIR", [*table, end], pages=[WHITE], records=[STORED_TWO[0], *USED_END])
# The frame of a block is lost: the PPR asks for all 256 frames, of which the block has the first alone.
LOST_FRAME, ALL_FRAMES = [RCP, RCP, RCP], "FF13BC" + 32 * "FF"
AGAIN = [
    *HELD[:3],
    (("rx 6000", PAGE, LOST_FRAME), ["wait"]),
    (("rx 7000", "v21", [LAST]), [("v21", [ALL_FRAMES]), "wait"]),
    (("rx 9000", PAGE, WHITE_BURST), ["wait"]),
    (("rx 10000", "v21", [LAST]), [("v21", [MCF]), "wait"]),
    (("rx 11000", "v21", [DCN]), ["done"]),
    "end normal pages 1",
]
AGAIN_RECORD = STORED.replace("14000", "10000")
worked_whole("frame_that_is_lost", "--answer --out DIR", AGAIN, pages=[WHITE], records=[AGAIN_RECORD, *NORMAL])
# A check of 1 bits fails, and at the slower speed each frame is lost: after the fourth PPR the caller says CTC (X100 1000, with bits 1 to 16
# of a DCS), which the answerer leaves out, and nothing more.
SLOWER, CTC, SLOW_PAGE = "FF1383002AF844", "FF1313002A", "v17-12000"
ASKED = [
    pair
    for at in (10000, 12000, 14000, 16000)
    for pair in (
        ((f"rx {at}", SLOW_PAGE, LOST_FRAME), ["wait"]),
        ((f"rx {at + 1000}", "v21", [LAST]), [("v21", [ALL_FRAMES]), "wait"]),
    )
]
GIVEN_UP = [
    *HELD[:2],
    (("rx 4000", PAGE, "1" * 21600), [("v21", [FTT]), "wait"]),
    (("rx 6000", "v21", [SLOWER]), ["wait"]),
    (("rx 8000", SLOW_PAGE, CHECK), [("v21", [CFR]), "wait"]),
    *ASKED,
    (("rx 18000", "v21", [CTC]), ["wait"]),
    ("quiet 18100", ["wait"]),
    ("quiet 53100", ["done"]),
    "CTC, which isn't answered\nend no-answer pages 0",
]
GIVEN_UP_RECORDS = [
    '{"at":18000,"heard":{"control_field":"13","name":"CTC","signal":"other"},"words":"CTC"}',
    '{"pages":0,"whole":false,"why":"CTC, which isn\'t answered"}',
]
worked_whole("caller_that_says_ctc", "--answer --out DIR", GIVEN_UP, records=GIVEN_UP_RECORDS)
# The same PPS once more, and once more with another end, brings no frame: it is confirmed again.
REPEATED = [
    *JUMPED[:5],
    (("rx 10000", "v21", [FIRST_OF_TWO]), [("v21", [MCF]), "wait"]),
    (("rx 12000", "v21", [LAST]), [("v21", [MCF]), "wait"]),
    (("rx 14000", "v21", [DCN]), ["done"]),
    "end peer-left pages 1",
]
REPEATED_END = ['{"pages":1,"whole":false}']
worked_whole("page_confirmed_again", "--answer --out DIR", REPEATED, pages=[WHITE], records=[STORED_TWO[0], *REPEATED_END])
worked_whole("answerer_in_frames", "--answer --frames --out DIR", FRAMED, pages=[WHITE])
worked_whole("content_of_two_octets", "--answer --frames --out DIR", TWO_OCTETS)
worked("caller_before_a_busy_answerer", "--call IN", CALLED, document=WHITE)
CONFIRMED = ['{"at":50000,"confirmed":1}', '{"confirmed":1,"whole":true}']
worked("caller", "--call IN", SENT_WELL, document=WHITE, records=CONFIRMED)
worked("caller_alone", "--call IN", UNANSWERED, document=WHITE)
# MCF said twice after CFR, in one burst: they answer nothing, since the page wasn't sent yet.
DOUBLED = [
    (("rx 1000", "v21", [DIS]), [("v21", [DCS]), (PAGE, CHECK)]),
    (("rx 4000", "v21", [CFR, MCF, MCF]), [(PAGE, WHITE_BURST), ("v21", [LAST])]),
    ("end 9000", []),
    "end line-lost confirmed 0",
]
worked("mcf_after_cfr_in_one_burst", "--call IN", DOUBLED, document=WHITE)
referred("no_lines", "--answer --out DIR", [])
referred("line_drops_after_a_page", "--answer --out DIR", BEGUN + SENT + ["end 7500", "quiet 7600"])
referred("input_ends_after_a_page", "--answer --out DIR", BEGUN + SENT)
referred("stopped_after_a_page", "--answer --out DIR", BEGUN + SENT + ["stop 7500"])
referred("wrong_line_after_a_page", "--answer --out DIR", BEGUN + SENT + ["quiet 6999", "quiet 8000"])
referred("no_line_at_all", "--call IN", ["hello"], WHITE)
# With room for one page each is answered by RNR, and taken before the RR comes.
asked_again = [("rx 8000", "v21", [RR]), ("rx 9000", PAGE, WHITE_BURST), ("rx 10000", "v21", [SECOND]), ("rx 11000", "v21", [RR])]
referred("room_for_one_page", "--answer --limit 1 --out DIR", BEGUN + SENT + asked_again + [("rx 12000", "v21", [DCN])])
# The second of two pages in one burst is kept out, and the caller has to send it again.
two_pages = ("rx 6000", PAGE, [WHITE_BURST[0], FIRST_OF_TWO, WHITE_BURST[0], SECOND])
referred("two_pages_at_once", "--answer --limit 1 --out DIR", BEGUN + [two_pages])
referred("few_capabilities", "--answer --code mh --standard --widest 1728 --modems v29 --out DIR", BEGUN + [("rx 6000", PAGE, WHITE_BURST)])
referred("own_waits", "--answer --t1 20000 --t2 500 --out DIR", [f"quiet {at}" for at in range(500, 21500, 250)])
second_group = [("rx 9000", "v21", [MCF]), "quiet 9100", ("rx 15000", "v21", [DIS]), ("rx 17000", "v21", [CFR]), ("rx 20000", "v21", [MCF])]
referred("two_widths", "--call IN", [("rx 1000", "v21", [DIS]), ("rx 4000", "v21", [CFR])] + second_group, TWO_WIDTHS)
# What is over of the frame of a DIS comes with the next burst, and the frame is heard then.
whole = written(("v21", [DIS])).split(" ")
referred(
    "frame_in_two_bursts",
    "--call --modems fallback --frame 64 --code mh --fine IN",
    [f"rx 1000 v21 hdlc 320 {whole[3][:80]}", f"rx 2000 v21 hdlc 83 {whole[3][80:]}", ("rx 4000", "v21", [CFR])],
    WHITE,
)
# A DCS that the answerer doesn't allow isn't answered, nor is the check after it.
TOO_WIDE, FINE = "FF13830022F944", "FF13830062F844"
REFUSED = [("--widest 1728", TOO_WIDE), ("--standard", FINE), ("--code mh", DCS), ("--modems v29", DCS)]
for words, dcs in REFUSED:
    name = "refused_by_" + words[2:].partition(" ")[0]
    referred(name, f"--answer {words} --out DIR", ["quiet 1000", ("rx 2000", "v21", [dcs]), ("rx 4000", PAGE, CHECK)])
dcs_again = [("rx 6000", PAGE, WHITE_BURST), ("rx 7000", "v21", [DCS]), ("rx 9000", PAGE, CHECK), ("rx 10000", "v21", [LAST])]
referred("second_dcs", "--answer --out DIR", BEGUN + dcs_again)
referred("page_carrier_before_the_check", "--answer --out DIR", BEGUN[:2] + [("rx 3000", PAGE, [DCN]), ("rx 4000", PAGE, CHECK)])
# Both waits are over at 50,000 ms after the DCS, T2 and T1.
referred("two_waits_at_once", "--answer --out DIR", BEGUN[:2] + ["quiet 2100", "quiet 37100", "quiet 37120"])
referred("cfr_and_dcn_in_one_burst", "--call IN", [("rx 1000", "v21", [DIS]), ("rx 4000", "v21", [CFR, DCN])], WHITE)
# A PPR between two RNRs of a block: T5 runs from the first RNR.
asked = [("rx 6000", "v21", [RNR]), ("rx 8000", "v21", ["FF13BC" + 32 * "FF"]), ("rx 10000", "v21", [RNR]), ("rx 12500", "v21", [RNR])]
waited = ["quiet 15999", "quiet 16000", "quiet 20000"]
referred("busy_around_a_ppr", "--call --t5 10000 IN", [("rx 1000", "v21", [DIS]), ("rx 4000", "v21", [CFR])] + asked + waited, WHITE)
# A page of ten rows, whose file has more than a kibioctet; and what is answered where the file can't be written: DCN.
TEN_ROWS = "FF030600" + "FF03200002".ljust(512, "0")
referred("page_of_many_rows", "--answer --out DIR", BEGUN + [("rx 6000", PAGE, [TEN_ROWS]), ("rx 7000", "v21", [LAST])])
answers = (folder / "reference_page_of_many_rows.expected").read_text().split("\n")[:-3]
unwritten = [*answers, "tx " + written(("v21", ["FF13FA"])), "done", ""]
(folder / "reference_page_of_many_rows.unwritten").write_text("\n".join(unwritten), encoding="ascii", newline="")
if BY_HAND:
    sys.exit(f"there are no conversations {', '.join(BY_HAND)}")
print(f"{len(os.listdir(folder))} files")
