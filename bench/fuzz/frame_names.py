"""The names of frames that are no signals of the stations, by their facsimile control fields as T.30, 5.3.6.1 and A.4, has them."""

# The first bit first; X is that of the station.
NAMES = {
    "0000 0100": "NSF", "1000 0100": "NSC", "X100 0100": "NSS", "0000 0010": "CSI", "1000 0010": "CIG", "X100 0010": "TSI",
    "1000 0001": "DTC", "1000 0101": "SEP", "X100 0101": "SID", "1000 0011": "PWD", "X100 0011": "SUB",
    "1000 0110": "PSA", "1000 0111": "CIA", "1000 1000": "ISP", "X100 0110": "TSA", "X100 0111": "IRA", "X100 1000": "CTC",
    "X100 0001": "DCS", "X010 0011": "CTR", "X010 0100": "CSA",
    "X111 0001": "EOM", "X111 0010": "MPS", "X111 0100": "EOP", "X111 1001": "PRI-EOM", "X111 1010": "PRI-MPS", "X111 1100": "PRI-EOP",
    "X111 0011": "EOR", "X111 1000": "EOS", "X111 1101": "PPS",
    "X011 0011": "RTP", "X011 0010": "RTN", "X011 0101": "PIP", "X011 0100": "PIN", "X011 0110": "PID", "X011 1000": "ERR",
    "X011 1111": "FDM",
    "X101 1000": "CRP", "X101 0111": "TNR", "X101 0110": "TR", "X101 0011": "FNV",
    "0000 0101": "DES", "1100 1001": "DEC", "1100 1010": "DER", "X101 1001": "DNK", "0101 0010": "RK", "1101 0010": "TK",
}


def octet_of(bits, x):
    """A control field as an octet, the first bit that is sent the least significant."""
    return int(bits.replace(" ", "").replace("X", x)[::-1], 2)


OTHERS = {octet_of(bits, x): name for bits, name in NAMES.items() for x in "01"}
