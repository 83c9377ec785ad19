#!/usr/bin/env python3
"""Holds a picture of a call against its transcript, as docs/SCRIPTS.md says what is drawn:

    try_diagram.py TRANSCRIPT PICTURE EXPLAINED

EXPLAINED is the transcript with what its signals say in words, as `call --explain` prints it, which the words of a DCS and a PPS are held
against.
The picture is read by Python's XML parser. Its rows and rounds, each as often as it says, have to be the lines of the transcript, each once
and in order; the transcript of two captures has no lines of how the call ended, and their picture no feet. Ends with status 1 at the first
difference.
"""

import re
import sys
import xml.etree.ElementTree as tree

SVG = "{http://www.w3.org/2000/svg}"
CALLER, ANSWERER, ROW = 250, 530, 26
WAITS = {"caller-timeout": "time-out", "caller-t5": "T5 is over", "answerer-t1": "T1 is over", "answerer-t2": "T2 is over"}
ENDS = {"the page goes on": "-NULL", "the page ends, and another one follows": "-MPS",
        "the page ends, and another one follows after a new DIS": "-EOM", "the last page ends": "-EOP"}
NOTHING = {"to-c": "nothing under way", "to-a": "nothing under way", "lose": "nothing to lose", "spoi": "no check to spoil"}
AT_CALLER = ("to-caller", "lose-to-caller", "caller-timeout", "caller-t5")


def needs(holds, words):
    if not holds:
        sys.exit(f"{sys.argv[2]}: {words}")


def later(line, places):
    """The line so many places after another one that is drawn in the same row."""
    number, word, item, turn = line.split(" ", 3)
    kind = re.fullmatch(r"FCD:(\d+)", item)
    item = f"FCD:{int(kind[1]) + places}" if kind else item
    return f"{int(number) + places} {word} {item} {turn}"


def shifted(line, places):
    number, words = line.split(" ", 1)
    return f"{int(number) + places} {words}"


def span(path):
    """Where a path begins, and the least and the greatest x that it comes to, by its relative lines."""
    x = y = least = most = begin = None
    for letter, numbers in re.findall(r"([MmlhvzZ])([^MmlhvzZ]*)", path):
        values = [int(n) for n in re.findall(r"-?\d+", numbers)]
        if letter == "M":
            x, y = values
            begin, start = (x, y), (x, y)
        elif letter == "m":
            x, y = x + values[0], y + values[1]
        elif letter == "h":
            x += values[0]
        elif letter == "v":
            y += values[0]
        elif letter == "z":
            x, y = start
        first = {"l": 0, "m": 2}.get(letter, len(values))
        pairs = [(values[at], values[at + 1]) for at in range(first, len(values) - 1, 2)]
        seen = [x]
        for right, down in pairs:
            x, y = x + right, y + down
            seen.append(x)
        if letter == "m":
            start = (x, y)
        least = min(seen + ([least] if least is not None else []))
        most = max(seen + ([most] if most is not None else []))
    return begin, least, most


def looks_at(word, item, path):
    """The lines of a row: an arrow over the whole way, a cut one, or a mark at a station."""
    if item == "-":
        place = CALLER if word.startswith("caller") else ANSWERER
        if word in WAITS or word in ("busy", "ready"):
            begin, least, most = span(path)
            needs((least, most) == (place - 6, place + 6), f"the mark of {word} isn't at its station")
        else:
            needs(path == "", f"{word} with no item has lines")
        return
    begin, least, most = span(path)
    to_answerer = not word.endswith("caller")
    needs(begin[0] == (CALLER if to_answerer else ANSWERER), f"the arrow of {word} {item} begins elsewhere")
    whole = (least, most) == (CALLER, ANSWERER)
    needs(CALLER <= least and most <= ANSWERER, f"the arrow of {word} {item} leaves the way")
    needs(whole == word.startswith("to-"), f"the arrow of {word} {item} is not as long as its way")


def set_by(item, words):
    """What is drawn of what an item says: how a DCS sets that pages are sent, and what ends with the block of a PPS."""
    if item == "DCS":
        speed, lines, width, code, frames = words.split("; ")
        speed = speed.replace(" at ", " ").removesuffix(" bit/s")
        return f" {speed} {code.split()[0]} {width.split()[0]}" + (" fine" if lines == "fine lines" else "")
    return ENDS[words.split("; ", 2)[2]] if item == "PPS" else ""


def sets(lines, explained):
    """What is drawn of what the item of each line says."""
    said, at = [], 0
    for line in lines:
        needs(explained[at] == line, f"with words the line {line} is {explained[at]}")
        words = explained[at + 1].strip() if explained[at + 1].startswith("    ") else None
        at += 1 if words is None else 2
        said.append(set_by(line.split(" ")[2], words))
    return said


def words_of(line, times, said):
    """What stands over the arrow, and beside the station."""
    number, word, item, turn = line.split(" ", 3)
    turn, refused = turn.removesuffix(" !"), turn.endswith(" !")
    many = "" if times == 1 else f"{times} frames from " if item.startswith("FCD") else f"{times} times "
    if item != "-":
        label = item + said + {"lose": " lost", "spoi": " spoiled"}.get(word[:4], "")
    else:
        label = NOTHING.get(word[:4], "")
    own = WAITS.get(word, word if word in ("busy", "ready") else "")
    sends = [] if turn == "-" else [f"sends {turn}"]
    beside = ", ".join(([own] if own else []) + sends) + (" (memory refused)" if refused else "")
    return many + label, beside


def main():
    lines = open(sys.argv[1]).read().splitlines()
    ended = bool(lines) and lines[-1].startswith("answerer ")
    said = sets(lines[:-2] if ended else lines, open(sys.argv[3]).read().splitlines() + [""])
    text = open(sys.argv[2]).read()
    strange = re.search(r"<script|href|url\(|@font|<!|fill=\"(?!white)|stroke:(?!black)", text)
    needs(not strange, "it has a script, a link, a font or a color")
    root = tree.fromstring(text)
    needs(root.tag == SVG + "svg", "it is no SVG")
    needs(root.get("viewBox") == f"0 0 {root.get('width')} {root.get('height')}", "its view is not its size")
    at, top, rows = 0, None, []
    groups = [node for node in root if node.tag == SVG + "g"]
    for group in groups[:-1] if ended else groups:
        y = int(re.fullmatch(r"translate\(0 (\d+)\)", group.get("transform"))[1])
        title, path = group.find(SVG + "title"), group.find(SVG + "path").get("d")
        texts = [node.text or "" for node in group.findall(SVG + "text")]
        if title is not None:
            numbers, label, beside = texts
            first, _, last = numbers.partition(" to ")
            times = int(last or first) - int(first) + 1
            line = title.text.removesuffix("\n")
            needs(line == lines[at], f"the row of {numbers} has the title {line}, and not {lines[at]}")
            looks_at(*line.split(" ")[1:3], path)
            needs((label, beside) == words_of(line, times, said[at]), f"the row of {line} says: {label}, {beside}")
            side = group.findall(SVG + "text")[2]
            needs((side.get("class") == "e") == (line.split(" ")[1] in AT_CALLER), f"the words of {line} are at the other station")
            for place in range(times):
                needs(lines[at + place] == later(line, place), f"line {at + place + 1} isn't drawn in its row")
                needs(said[at + place] == said[at], f"line {at + place + 1} says another thing than its row")
            rows.append(y)
            at += times
            continue
        # the end of a round: a bracket along its rows
        needs(y == rows[0] and path == f"M708-16h6v{ROW * len(rows)}h-6", f"the bracket at {y} isn't along its rows")
        needs(rows == [y + ROW * place for place in range(len(rows))], f"the rows of the bracket at {y} are elsewhere")
        needs(top is None or y > top, f"the bracket at {y} is above another one")
        top = rows[-1]
        often = 1 if texts == [""] else int(re.fullmatch(r"(\d+) rounds like this", texts[0])[1])
        first = int(next(g for g in groups if g.find(SVG + "title") is not None and g.get("transform") == f"translate(0 {rows[0]})")
                    .find(SVG + "title").text.split(" ")[0]) - 1
        one = lines[first:at]
        for time in range(1, often):
            for line, wanted in zip(lines[at:at + len(one)], one):
                needs(line == shifted(wanted, len(one) * time), f"line {line} isn't drawn in its round")
            needs(said[at:at + len(one)] == said[first:first + len(one)], "a round says another thing than the one that is drawn")
            needs(len(lines) >= at + len(one), "a round has more lines than there are")
            at += len(one)
        rows = []
    needs(not rows, "rows have no bracket")
    if not ended:
        needs(at == len(lines), f"line {at + 1} isn't drawn")
        return
    feet = [node.text or "" for node in groups[-1].findall(SVG + "text")]
    caller, answerer = [line.split(" ") for line in lines[at:]]
    needs(feet == [caller[1], f"pages confirmed: {caller[3]}", answerer[1], f"pages stored: {answerer[3]}"], f"it ends with {feet}")
    needs((groups[-1].find(SVG + "path") is not None) == (answerer[3] != "0"), "the mark of stored pages is wrong")


main()
