#!/usr/bin/env python3
"""Calls of softfax over two iaxmodems (software modems of Debian's package iaxmodem), which a relay joins in place of an exchange: it hands
the datagrams of each to the other one. One process answers two calls, of two pages and of one, and tells who calls.

    iax.py SOFTFAX PAGE.pbm FOLDER"""

import os
import shutil
import signal
import socket
import subprocess
import sys
import threading
import time
from pathlib import Path

PROGRAM, PAGE, FOLDER = sys.argv[1], sys.argv[2], Path(sys.argv[3]).resolve()
PORTS = {}
CONFIG = """device {folder}/tty-{name}
owner root:root
mode 660
port {port}
refresh 0
server 127.0.0.1:{relay}
peername {name}
secret none
cidname A NAME
cidnumber 5551234
codec slinear
nodaemon
"""


def free_socket():
    line = socket.socket(socket.AF_INET, socket.SOCK_DGRAM)
    line.bind(("127.0.0.1", 0))
    return line


def relay(line):
    """Hands what comes from one modem to the other one."""
    while True:
        octets, (_host, port) = line.recvfrom(4096)
        for other in PORTS.values():
            if other != port:
                line.sendto(octets, ("127.0.0.1", other))


def modem(name, line):
    """Starts an iaxmodem; its configuration is given by a way out of its folder."""
    (FOLDER / name).write_text(CONFIG.format(folder=FOLDER, name=name, port=PORTS[name], relay=line.getsockname()[1]))
    words = ["iaxmodem", os.path.relpath(FOLDER / name, "/etc/iaxmodem")]
    return subprocess.Popen(words, stdout=subprocess.DEVNULL, stderr=subprocess.DEVNULL, stdin=subprocess.DEVNULL)


def main():
    if shutil.which("iaxmodem") is None or os.getuid() != 0:
        print("softfax: not tried over iaxmodems: the package iaxmodem isn't installed, or this isn't root")
        return 0
    signal.signal(signal.SIGTERM, lambda *_: sys.exit(1))
    sockets = [free_socket() for _ in range(3)]
    PORTS.update(zip(("one", "two"), (one.getsockname()[1] for one in sockets)))
    for one in sockets[:2]:
        one.close()
    threading.Thread(target=relay, args=sockets[2:], daemon=True).start()
    modems = [modem(name, sockets[2]) for name in PORTS]
    try:
        ends = time.monotonic() + 20
        while not all(os.path.exists(FOLDER / f"tty-{name}") for name in PORTS) and time.monotonic() < ends:
            time.sleep(0.1)
        return call()
    finally:
        for one in modems:
            one.terminate()
            one.wait()


def send(pages):
    """A caller's call; returns its status and what it said."""
    words = [PROGRAM, "--tty", str(FOLDER / "tty-one"), "--call", "5559999", *pages, "--id", "1234", "--trace-at", str(FOLDER / "one.at")]
    caller = subprocess.run(words, stderr=subprocess.PIPE, text=True, timeout=300)
    return caller.returncode, caller.stderr


def call():
    faxes = FOLDER / "faxes"
    faxes.mkdir()
    words = [PROGRAM, "--tty", str(FOLDER / "tty-two"), "--answer", str(faxes), "--calls", "2", "--init", "AT+VCID=1", "--rings", "2",
             "--trace-at", str(FOLDER / "two.at")]
    with subprocess.Popen(words, stderr=subprocess.PIPE, text=True) as answerer:
        came = []
        for pages in ([PAGE, PAGE], [PAGE]):
            time.sleep(8)  # iaxmodem refuses calls for 5 s after ATZ, and after a call
            came.append(send(pages))
        if any(status for status, _said in came):
            answerer.terminate()
        said = answerer.communicate(timeout=120)[1]
    pages = sorted(faxes.glob("*/*"))
    is_right = [page.name for page in pages] == ["page-1.pbm", "page-2.pbm", "page-1.pbm"] and all(
        page.read_bytes() == Path(PAGE).read_bytes() for page in pages)
    if any(status for status, _said in came) or answerer.returncode or not is_right or said.count("from 5551234 (A NAME)") != 2:
        traces = "".join((FOLDER / f"{name}.at").read_text() for name in PORTS)
        sys.exit(f"{came}, status {answerer.returncode}, {pages}: {said}\n{traces[-3000:]}")
    print("softfax: two calls over two iaxmodems: one process answers both, and tells who calls")
    return 0


if __name__ == "__main__":
    sys.exit(main())
