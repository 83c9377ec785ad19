"""How far a file is read as a page, by the second reading of the codes in bench/fuzz: how_far.py FILE

For each code, order of bits and width that `identify` tries, in its order, a line `CODE ORDER WIDTH ROWS` where the file begins with a row
but is no page there. Ends with status 1 where it is a page."""

import os
import sys

sys.dont_write_bytecode = True
sys.path.insert(0, os.path.join(os.path.dirname(os.path.abspath(__file__)), "..", "..", "bench", "fuzz"))
from reference_pages import read_rows

with open(sys.argv[1], "rb") as file:
    octets = file.read()


def tell(code, order, width):
    """Says how far the file is read in one way."""
    bits = "".join(f"{octet:08b}"[:: 1 if order == "msb" else -1] for octet in octets)
    rows, is_page = read_rows(bits, width, code == "mmr")
    if is_page:
        sys.exit(f"how_far.py: it is a page by {code}, {order}, of width {width}")
    if rows:
        print(code, order, width, len(rows))


widths = (1728, 2048, 2432, 1216, 864, 1700, 1654)
# T.4 after an EOL in every width: another one ends the first row, so one at most has it
for order in ("msb", "lsb"):
    first = octets[:2] if order == "msb" else bytes(int(f"{octet:08b}"[::-1], 2) for octet in octets[:2])
    for width in range(1, 2433) if int.from_bytes(first, "big") < 32 else widths:
        tell("mh", order, width)
for order in ("msb", "lsb"):
    for width in widths:
        tell("mmr", order, width)
