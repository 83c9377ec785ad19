"""Writes the first images of a PBM file on standard input: first_images.py NUMBER. Ends with status 1 where it has fewer."""

import sys

octets, end = sys.stdin.buffer.read(), 0
for _ in range(int(sys.argv[1])):
    if not octets.startswith(b"P4\n", end):
        sys.exit(1)
    start = octets.index(b"\n", end + 3) + 1
    width, height = map(int, octets[end + 3 : start].split())
    end = start + -(-width // 8) * height
    if end > len(octets):
        sys.exit(1)
sys.stdout.buffer.write(octets[:end])
