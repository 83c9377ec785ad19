"""Runs `decode --salvage` on the large page's code cut short at 60 places: try_salvage.py PROGRAM FOLDER

FOLDER has large.pbm, and large.mh and large.mmr, its code with the most significant bit first. What is written are the first rows
of the page, no fewer than of a shorter piece; all of them where the page can be read. Ends with status 1 at the first that differs."""

import os
import subprocess
import sys

program, folder = sys.argv[1:]
image = open(f"{folder}/large.pbm", "rb").read()
header = b"P4\n2432 "
start = image.index(b"\n", len(header)) + 1
rows = int(image[len(header) : start])
for code in "mh", "mmr":
    octets = open(f"{folder}/large.{code}", "rb").read()
    before = 0
    for k in range(61):
        piece = octets[: len(octets) * k // 60]
        with open(f"{folder}/piece", "wb") as file:
            file.write(piece)
        out = f"{folder}/piece.pbm"
        if os.path.exists(out):
            os.remove(out)
        words = [program, "decode", "--salvage", "--code", code, "--width", "2432", f"{folder}/piece", out]
        status = subprocess.run(words, stderr=subprocess.DEVNULL).returncode
        got = open(out, "rb").read() if os.path.exists(out) else b""
        count = 0
        if got:
            end = got.index(b"\n", len(header)) + 1
            count = int(got[len(header) : end])
            if got[:end] != header + b"%d\n" % count or got[end:] != image[start : start + 304 * count]:
                sys.exit(f"{code} cut to {len(piece)} octets: other rows")
        # no row has more than 2,000 octets of code: of 2,432 pixels two have at most 12 bits
        least = min(rows, max(len(piece) - 2000, 0) // 2000)
        if status not in (0, 1) or count < max(before, least) or (status == 0) != (count == rows and k == 60) and code == "mmr":
            sys.exit(f"{code} cut to {len(piece)} octets: {count} rows, status {status}")
        before = count
    if before != rows:
        sys.exit(f"{code}: {before} rows of {rows}")
