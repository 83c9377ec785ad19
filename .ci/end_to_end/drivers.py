"""Two of docs/examples/driver.py, each with a station of the program, joined by a line of bits in real time, as two modems would be; the first
training check is lost on it: a carrier without a bit comes in its place. The answerer is begun by the lines of docs/SERVICE.md. The page that
is stored is the one that is sent, and the line took as long as its bits. The status of a station that can't begin, or whose modem leaves, is
the driver's.

    drivers.py PROGRAM DRIVER IN.pbm FOLDER"""

import os
import socket
import subprocess
import sys
import threading
import time
from pathlib import Path

PROGRAM, DRIVER, PAGE, FOLDER = sys.argv[1:]
RATES = {"v21": 300}
SENT, CHECKS = [], []


def rate(carrier):
    return RATES.get(carrier) or int(carrier.rpartition("-")[2])


def carry(mine, other):
    """Carries what one driver sends, in as long as its bits take, until it hangs up."""
    for line in mine.makefile():
        if line.startswith("hear "):
            continue
        _tx, carrier, kind, bits, _octets = line.split(" ")
        is_lost = kind == "raw" and not CHECKS
        CHECKS.extend([carrier] * (kind == "raw"))
        SENT.append(int(bits) / rate(carrier))
        other.sendall(b"busy\n")
        time.sleep(SENT[-1])
        other.sendall(b"rx v27ter-2400 hdlc 0 \n" if is_lost else line.replace("tx", "rx", 1).encode())
        mine.sendall(b"sent\n")


def begin(path, words, **more):
    """Starts a driver by these words, whose socket is the path; returns it and the modem's side."""
    with socket.socket(socket.AF_UNIX) as listener:
        listener.bind(str(path))
        listener.listen()
        driver = subprocess.Popen(words, stderr=subprocess.PIPE, text=True, **more)
        return driver, listener.accept()[0]


def start(name, words):
    """Starts a driver with a station of these words."""
    path = Path(FOLDER, name)
    return begin(path, [DRIVER, path, PROGRAM, "station", *words])


def serve(folder):
    """Starts the driver by the lines of docs/SERVICE.md, in a folder that has what they name."""
    text = Path(DRIVER).parents[1].joinpath("SERVICE.md").read_text().partition("\n## Your own modem program\n")[2]
    lines = text.partition("```sh\n")[2].partition("```")[0]
    (folder / "bin").mkdir(parents=True)
    (folder / "bin" / "faxtool").symlink_to(Path(PROGRAM).resolve())
    (folder / "examples").symlink_to(Path(DRIVER).resolve().parent)
    paths = os.pathsep.join([str((folder / "bin").resolve()), os.environ["PATH"]])
    return begin(folder / "modem.sock", ["sh", "-e", "-c", lines], cwd=folder, env={**os.environ, "PATH": paths})


def leaves(name, words, status, says):
    """A modem's program that reads nothing, and leaves once its station has spoken or ended: the driver's status and last words."""
    driver, modem = start(name, words)
    time.sleep(1.5)
    modem.close()
    last = driver.communicate(timeout=60)[1].splitlines()[-1]
    if (driver.returncode, last) != (status, says):
        sys.exit(f"driver.py of station {' '.join(words)}: status {driver.returncode}: {last}")


began = time.monotonic()
stored = Path(FOLDER, "stored")
stored.mkdir()
served = Path(FOLDER, "service")
ends = [start("caller", ["--call", PAGE]), serve(served)]
modems = [modem for _driver, modem in ends]
threads = [threading.Thread(target=carry, args=pair, daemon=True) for pair in (modems, modems[::-1])]
for thread in threads:
    thread.start()
said = [driver.communicate(timeout=240)[1] for driver, _modem in ends]
lasted = time.monotonic() - began
statuses = [driver.returncode for driver, _modem in ends]
page = served / "calls" / "1" / "page-1.pbm"
log = (served / "calls" / "log").read_text()
is_page = page.read_bytes() == Path(PAGE).read_bytes() and page.stat().st_mode & 0o777 == 0o640
is_page &= log.endswith("end normal pages 1\n") and "heard DCN" in (served / "calls" / "trace").read_text()
if statuses != [0, 0] or not is_page or len(CHECKS) != 2 or lasted < sum(SENT):
    sys.exit(f"statuses {statuses}, {len(CHECKS)} checks, {lasted:.1f} s for bursts of {sum(SENT):.1f} s: {said} {log}")
leaves("wrong", ["--answer"], 2, "For more information, try 'faxtool station --help'.")
leaves("nowhere", ["--answer", "--out", str(Path(FOLDER, "none"))], 1, "fault 8")
leaves("left", ["--answer", "--out", str(stored)], 1, "end line-lost pages 0")
