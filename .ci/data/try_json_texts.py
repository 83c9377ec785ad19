"""The text of a signal by its record, for the scripts that try `--json`. It needs Python's standard library alone."""

# Records name codes as `--code` does, and carriers as `station` does; the lines of frames have names of their own.
CODES = {"mh": "mh", "mmr": "t6"}
CARRIERS = {"v27ter-2400": "v27-2400", "v27ter-4800": "v27-4800"} | {
    name: name for name in ["v29-7200", "v29-9600", "v17-7200", "v17-9600", "v17-12000", "v17-14400"]
}


def signal_text(says):
    if "fault" in says:
        return f"fault {says['fault']}"
    name = says["signal"]
    if name == "DIS":
        words = ["receiver" if says["receiver"] else "noreceiver", says["modems"], says["lines"], says["width"], CODES[says["code"]],
                 "ecm" if says["error_correction"] else "noecm"]
    elif name == "DCS":
        words = [CARRIERS[says["speed"]], says["lines"], says["width"], CODES[says["code"]], says["frame_octets"]]
    elif name == "FCD":
        words = [says["frame"], says["data_octets"]]
    elif name == "PPS":
        words = [says["ends"], "page", says["page"], "block", says["block"], "last", says["last"]]
    elif name == "PPR":
        words = [len(says["frames"])]
    elif name == "other":
        words = [says["control_field"]]
    else:  # CFR, FTT, RCP, MCF, RNR, RR, DCN and TRAINING say no more than their name
        words = []
    return " ".join(str(word) for word in [name] + words)
