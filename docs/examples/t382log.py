#!/usr/bin/env python3
"""Makes the log of a call, as misbehave.py writes it, from a capture of T.38 over UDP:

    tshark -r call.pcap -T json | t382log.py > log

Where the capture has no SIP, `-d udp.port==4000,t38` names the port. A frame's time is that of the packet that ends it, in milliseconds from the
capture's begin. Frames with a wrong check sequence, packets that come again, and the copies in later packets are passed over."""

import json
import sys

from hdlc import octets_of

DATA, GOOD, ENDS = 0, (2, 4), (1, 2, 3, 4, 5)
DIS, DCS = 0x80, 0x82


def frames(packets):
    """The time, the side and the content of each good frame."""
    opened, last = {}, {}
    for layers in (packet["_source"]["layers"] for packet in packets if "t38" in packet["_source"]["layers"]):
        side, of = (layers["ip"]["ip.src"], layers["udp"]["udp.srcport"]), layers["t38"].get("t38.UDPTLPacket_element", {})
        number, items = int(of.get("t38.seq_number", 0)), of.get("t38.primary_ifp_packet_element", {}).get("t38.data_field_tree", {})
        is_new = 0 < (number - last.get(side, -1)) % 65536 < 32768
        last[side] = number if is_new else last[side]
        for item in (one["t38.Data_Field_item_element"] for one in items.values() if is_new):
            kind = int(item["t38.field_type"])
            if kind == DATA:
                opened.setdefault(side, []).extend(int(octet, 16) for octet in item.get("t38.field_data", "").split(":") if octet)
            elif kind in ENDS and (said := opened.pop(side, [])) and kind in GOOD:
                yield round(float(layers["frame"]["frame.time_relative"]) * 1000), side, octets_of("".join(f"{octet:08b}" for octet in said))


heard = list(frames(json.load(sys.stdin)))
# who says a DIS answers, who says a DCS calls
first = next(((side, said[2] == DIS) for _at, side, said in heard if len(said) > 2 and (said[2] == DIS or said[2] & 0xFE == DCS)), None)
if not first:
    sys.exit("t382log.py: there is no DIS and no DCS")
for at, side, said in heard:
    print(at, "answerer" if (side == first[0]) == first[1] else "caller", said.hex().upper())
