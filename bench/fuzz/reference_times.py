#!/usr/bin/env python3
"""What many calls over a bad line must print: a line for each, and a table, from calls driven as by reference_drive.py.

    bench/fuzz/reference_times.py --lose 5% [--spoil 1/20] [--busy 10%] --seed N --times M [--calls K] [--frame 64]
        [--modems NAME] WIDTH:OCTETS..
    bench/fuzz/reference_times.py --dry        tries it on calls worked by hand

The calls have the numbers from 0. A call's deliveries are the events that begin with to-, its lost items those that begin with lose-, and
its spoiled training checks the events spoil. The frames that it sends again are those of the bursts that answer a PPR. Its seconds are
what both stations send, as call_octets.py has it, and the waits that are over, by the state of the caller. The octets of a page's code
are all 0 here: they matter to the seconds alone."""

import sys
from collections import Counter
from pathlib import Path

sys.dont_write_bytecode = True
sys.path.insert(0, str(Path(__file__).resolve().parent))
from call_octets import OctetLine  # noqa: E402
from reference_drive import RNRS, Drawn, Listed, Pcg32, drive, rate_of  # noqa: E402

ENDS = ["normal", "no-answer", "not-compatible", "training", "no-reply", "unreadable", "still-busy", "peer-left", "bad-page",
        "page-too-long"]
# A longer call counts as one of so many seconds.
DAY = 86400


def counted(lines):
    """What is counted of the events of a call: deliveries, losses, spoiled checks and frames sent again."""
    deliveries = lost = spoiled = again = 0
    for line in lines:
        _, event, item, turn = line.split()[:4]
        deliveries += event.startswith("to-")
        lost += event.startswith("lose-")
        spoiled += event == "spoil"
        if item == "PPR" and turn.startswith("BURST:"):
            again += int(turn[len("BURST:"):])
    return deliveries, lost, spoiled, again


def worst_phase(lines):
    """Of the events of a call, by its phases: the most tries of a phase that were bad, and the most training checks of one that were
    spoiled. A phase is a group's negotiation, up to the CFR that a burst answers, or a block, up to its MCF. A try is one transmission of
    the caller, or one DIS, with what answers it; it is bad if any item of it is lost or spoiled, and counts once."""
    phases, is_bad = [[0, 0]], False
    for line in lines:
        _, event, item, turn = line.split()[:4]
        if event.startswith("lose-") or event == "spoil":
            phases[-1][0] += not is_bad
            phases[-1][1] += event == "spoil"
            is_bad = True
        if event == "to-caller" and (item == "MCF" or item == "CFR" and turn.startswith("BURST")):
            phases.append([0, 0])
            is_bad = False
        elif turn != "-" and event in ("to-caller", "caller-timeout", "caller-t5", "answerer-t2"):
            is_bad = False
    return max(bad for bad, _ in phases), max(checks for _, checks in phases)


class TimedLine(OctetLine):
    """A line that knows how long the waits were that are over, in seconds: T1 35 s, T2 7 s, T4 3 s and T5 60 s."""

    waited = 0

    def event(self, word):
        waits_for_dis = self.caller.state == "WaitDis"
        self.waited += {"caller-timeout": 35 if waits_for_dis else 3, "caller-t5": 60, "answerer-t1": 35, "answerer-t2": 7}.get(word, 0)
        return super().event(word)

    def seconds(self):
        """For how many whole seconds the call has the line."""
        return int(self.caller.lasts + self.answerer.lasts + self.waited)


def share(seconds, hundredths):
    """The least number of seconds within which so many of a hundred calls were over, of those of each; a day at most."""
    counted = sorted(min(one, DAY) for one in seconds)
    return counted[max(-(-hundredths * len(counted) // 100), 1) - 1]


def times(line_for, drawn_for, count, calls=3):
    """The lines that so many calls print, each on a new line, with what is drawn for each number."""
    ends, mild, borne, few, through, deliveries, again, seconds = Counter(), 0, 0, 0, 0, 0, 0, []
    for number in range(count):
        line = line_for()
        drawn = drawn_for(number)
        drive(line, drawn, calls, RNRS)
        caller, answerer = line.ends()
        counts = counted(line.entries)
        yield f"call {number} {caller} {answerer} deliveries {counts[0]} lost {counts[1]} spoiled {counts[2]} again {counts[3]}"
        end = caller.split()[1]
        ends[end] += 1
        if counts[1] + counts[2] <= 2:
            mild += 1
            borne += end == "normal"
        bad, checks = worst_phase(line.entries)
        if bad <= 2 and checks < line.caller.speeds and calls >= 3 and not drawn.busy:
            few += 1
            through += end == "normal"
        deliveries += counts[0]
        again += counts[3]
        seconds.append(line.seconds())
    yield f"calls {count}"
    yield from (f"caller {end} {ends[end]}" for end in ENDS if ends[end])
    yield f"at-most-two-bad {mild} normal {borne}"
    yield f"few-bad-tries {few} normal {through}"
    yield f"deliveries {deliveries}"
    yield f"again {again}"
    yield f"seconds median {share(seconds, 50)} 95% {share(seconds, 95)} greatest {share(seconds, 100)}"


def timed_line(pages, size, modems):
    """A line of pages, each its width and the octets of its code in T.6."""
    return TimedLine(pages, size, (modems, False, True))


# A call of a page of four frames, which are numbered from 0, where the frames 1 and 3 of the first burst are lost: two are sent again.
# There come DIS, DCS, the training check and CFR; two FCDs, three RCPs and PPS; PPR; two FCDs, three RCPs and PPS; MCF and DCN. Eight
# frames at 300 bit/s take 1.075 s each and their octets, some 105 with a PPR of 39; the check 1.575 s; two bursts 0.275 s each and their
# octets, some 1,600 at 14,400 bit/s: 8.6 + 2.8 + 1.6 + 0.6 + 0.9, some 14.4 s.
WORKED = [
    "call 0 caller normal confirmed 1 answerer normal pages 1 deliveries 19 lost 2 spoiled 0 again 2",
    "calls 1",
    "caller normal 1",
    "at-most-two-bad 1 normal 1",
    "few-bad-tries 1 normal 1",
    "deliveries 19",
    "again 2",
    "seconds median 14 95% 14 greatest 14",
]
# A call whose only DIS is lost: DIS, T1 of the caller, DCN, which is lost too, and T1 of the answerer: 1.4 + 35 + 1.3 + 35 s.
UNHEARD = "seconds median 72 95% 72 greatest 72"
# Seconds of 20 calls, and the shares of 50, 95 and 100 of a hundred.
SHARES = [([*range(1, 21)], [10, 19, 20]), ([5, 1, 3], [3, 5, 5]), ([7, DAY + 5], [7, DAY, DAY])]


def dry():
    page = [(1728, bytes(1000))]
    printed = list(times(lambda: timed_line(page, 256, "v17"), lambda number: Listed("cccc" + "clcl"), 1))
    if printed != WORKED:
        print(f"the worked call is {printed}")
        return 1
    *_, last = times(lambda: timed_line(page, 256, "v17"), lambda number: Listed("ll"), 1, 1)
    if last != UNHEARD:
        print(f"the call that nobody hears has {last}")
        return 1
    for seconds, wanted in SHARES:
        if [share(seconds, hundredths) for hundredths in (50, 95, 100)] != wanted:
            print(f"the shares of {seconds} are not {wanted}")
            return 1
    print("the worked calls are counted as they should")
    return 0


def main():
    words = sys.argv[1:]
    if words == ["--dry"]:
        return dry()
    options = {"--lose": "0%", "--spoil": "0%", "--busy": "0%", "--seed": "0", "--times": "1", "--calls": "3", "--frame": "256"}
    options["--modems"] = "v17"
    while len(words) > 2 and words[0] in options:
        options[words[0]] = words[1]
        del words[:2]
    if not words or words[0].startswith("-"):
        print(__doc__, file=sys.stderr)
        return 2
    pages = [(int(width), bytes(int(octets))) for width, octets in (page.split(":") for page in words)]
    seed, rates = int(options["--seed"]), [rate_of(options[name]) for name in ("--lose", "--spoil", "--busy")]
    size, modems = int(options["--frame"]), options["--modems"]
    lines = times(lambda: timed_line(pages, size, modems), lambda number: Drawn(Pcg32(seed, number), *rates), int(options["--times"]),
                  int(options["--calls"]))
    print("\n".join(lines))
    return 0


if __name__ == "__main__":
    sys.exit(main())
