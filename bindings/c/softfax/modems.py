#!/usr/bin/env python3
"""Modems on ptys that fail, each in its own way, and calls that are stopped: softfax has to say in words what it was, to leave the modem on
hook, and to end in time. All are tried at once, since each waits by the machine's clock.

    modems.py SOFTFAX PAGE.pbm FOLDER"""

import os
import pty
import select
import signal
import subprocess
import sys
import threading
import time
import tty

OK, ERROR = b"\r\nOK\r\n", b"\r\nERROR\r\n"
CAN = b"\x18"
DIS = bytes.fromhex("ff1380006efa44") + bytes(2)  # and two octets in place of its check sequence
FRAME = b"\r\nCONNECT\r\n" + DIS.replace(b"\x10", b"\x10\x10") + b"\x10\x03" + OK
FAULTS = []


class Call:
    """A call by softfax over a modem that has a reply to each command."""

    def __init__(self, name, wanted, reply, **more):
        self.name, self.wanted, self.reply = name, wanted, reply
        self.words = more.get("words", ["--call", "5551234", sys.argv[2]])
        self.within = more.get("within", 30)     # seconds; a busy machine is slow
        self.goes_at = more.get("goes_at")       # the tty goes when this is told
        self.kills_at = more.get("kills_at")     # SIGTERM comes half a second after this is told
        self.must_say = more.get("must_say", b"")
        self.must_not_say = more.get("must_not_say")
        self.floods = more.get("floods", False)  # it says octets without end
        self.kills_by = more.get("kills_by", signal.SIGTERM)
        self.status = more.get("status", 1)
        self.told = b""

    def serve(self, master, slave, program):
        """Replies until the program ends, or is too late."""
        ends, kill = time.monotonic() + self.within, None
        while program.poll() is None and time.monotonic() < ends:
            if kill is not None and time.monotonic() > kill:
                program.send_signal(self.kills_by)
                self.kills_at = kill = None
            if self.floods and select.select([], [master], [], 0)[1]:
                os.write(master, b"~" * 1000)
            if not select.select([master], [], [], 0 if self.floods else 0.05)[0]:
                continue
            for piece in os.read(master, 500).replace(CAN, CAN + b"\r").split(b"\r"):
                if not piece:
                    continue
                self.told += piece + b"\r"
                if self.kills_at and self.kills_at in piece:
                    kill = time.monotonic() + 0.5
                if self.goes_at and self.goes_at in piece:
                    os.close(slave)
                    os.close(master)
                    program.wait(self.within)
                    return
                os.write(master, self.reply(piece))
        os.close(slave)
        os.close(master)

    def run(self):
        master, slave = pty.openpty()
        tty.setraw(slave)
        words = [sys.argv[1], "--tty", os.ttyname(slave), *self.words]
        began = time.monotonic()
        with subprocess.Popen(words, stderr=subprocess.PIPE, text=True) as program:
            try:
                self.serve(master, slave, program)
            except (OSError, subprocess.TimeoutExpired) as fault:
                FAULTS.append(f"{self.name}: {fault}")
            is_late = program.poll() is None
            if is_late:
                program.kill()
            said = program.stderr.read()
        is_told = self.must_say in self.told and not (self.must_not_say and self.must_not_say in self.told)
        if is_late or program.returncode != self.status or self.wanted not in said or not is_told:
            late = "too late" if is_late else f"with status {program.returncode}"
            FAULTS.append(f"{self.name}: softfax ended {late} after {time.monotonic() - began:.1f} s, was heard to say {self.told!r}, "
                          f"and told: {said}")


def until(text, first, then):
    """A reply that is `first` until a command has this text, which `then` replies to; after it there is none."""
    state = {"is": True}

    def reply(told):
        if not state["is"]:
            return b""
        state["is"] = text not in told
        return first if state["is"] else then

    return reply


def replies(**other):
    """OK to anything but to what begins so."""
    return lambda told: next((other[begin] for begin in other if told.startswith(b"AT" + begin.encode())), OK)


def lists(told):
    return b"\r\n3\r\n\r\nOK\r\n" if told.endswith(b"=?") else OK


def dials(told):
    return b"" if told.startswith(b"ATD") else OK


def rings(told):
    """Two rings with the caller's number between them, and then nobody is there."""
    if told == b"AT+FRM=?":
        return OK + b"\r\nRING\r\n\r\nDATE = 1129\r\n\r\nNMBR = 5551234\r\n\r\nNAME = A \"NAME\"\r\n\r\nRING\r\n"
    return b"\r\nNO CARRIER\r\n" if told == b"ATA" else OK


def says_once(content):
    """A caller that says a frame of this content once, and then nothing."""
    frames = [b"\r\nCONNECT\r\n" + content + b"\0\0\x10\x03" + OK]

    def reply(told):
        if told == b"AT+FRM=?":
            return OK + b"\r\nRING\r\n"
        if told == b"ATA" or told.startswith(b"AT+FTH"):
            return b"\r\nCONNECT\r\n"
        if told.startswith((b"AT+FRH", b"AT+FRM=")):
            return frames.pop() if frames else b""
        return OK if told.startswith((b"AT", CAN)) or told.endswith(b"\x10\x03") else b""

    return reply


def damages(told):
    """An answerer whose DIS ends with ERROR: a frame of another check sequence. What is said to it is taken."""
    if told.startswith(b"ATD"):
        return FRAME.removesuffix(OK) + ERROR
    if told.startswith(b"AT+FT") and not told.endswith(b"?"):
        return b"\r\nCONNECT\r\n"
    return b"\r\nNO CARRIER\r\n" if told.startswith(b"AT+FRH") else OK


ANSWER = ["--answer", sys.argv[3]]
CALL = ["--call", "5551234", sys.argv[2]]
NO_CALL = ('{"end":"no-call","confirmed":0,"blocks":0,"failed_checks":0,"first_speed":null,"last_speed":null,"peer":null,"pprs":0,'
           '"resent":0,"retries":0,"seconds":0,"why":"a signal has stopped it"}')
BUSY = replies(D=b"\r\nBUSY\r\n")
CALLS = [
    Call("a modem that is silent", "it doesn't answer to ATZ", lambda told: b""),
    Call("a line that echoes", "it echoes, but has no result for ATZ", lambda told: told + b"\r\n"),
    Call("a modem that floods", "it doesn't answer to ATZ", lambda told: b"", floods=True),
    Call("a modem without Class 1", "it has no Class 1: it says ERROR to AT+FCLASS=1",
         lambda told: ERROR if b"FCLASS" in told else OK),
    Call("a modem without V.27 ter", "it has no V.27 ter by AT+FTM=?", lists),
    Call("a command of the set-up", "it says ERROR to AT&K9", lambda told: ERROR if b"&K9" in told else OK,
         words=["--init", "AT&K9", *CALL]),
    Call("a modem by name", "the modem says BUSY", BUSY, words=["--init", "conexant", "--init", "ATM0", *CALL],
         must_say=b"AT&FE0&K3\rATM0\rAT+FCLASS=1\r"),
    Call("a modem by name with XON", "the modem says BUSY", BUSY, words=["--init", "usr", "--xon", *CALL], must_say=b"AT&F2E0\r"),
    Call("a busy line", "the modem says BUSY", BUSY),
    Call("no dial tone", "the modem says NO DIALTONE", replies(D=b"\r\nNO DIALTONE\r\n")),
    Call("a tty that goes", "the tty is gone", lambda told: OK, goes_at=b"ATD"),
    Call("a frame that ends with ERROR", "end stopped confirmed 0", damages, words=[*CALL, "--most-seconds", "4"], must_not_say=b"AT+FTM=1"),
    Call("a modem that falls silent amid a call", "the modem has fallen silent", until(b"ATD", OK, FRAME), within=90),
    Call("a modem that falls silent while nobody calls", "the modem has fallen silent", until(b"=?", OK, OK), words=ANSWER, within=120),
    Call("SIGTERM while it dials", "end no-call confirmed 0", dials, kills_at=b"ATD", must_say=b"ATH0\r"),
    Call("the record of no call", NO_CALL, dials, words=[*CALL, "--json"], kills_at=b"ATD"),
    Call("SIGTERM while it waits for a ring", "end no-call pages 0", lambda told: OK, words=ANSWER, kills_at=b"=?", must_say=b"ATH0\r"),
    Call("Caller-ID", '{"call":1,"number":"5551234","name":"A \\u0022NAME\\u0022"}', rings,
         words=[*ANSWER, "--calls", "1", "--rings", "2", "--json"], must_say=b"ATA\r", status=0),
    Call("CTC, which a fax says after the fourth PPR", "CTC, which isn't answered", says_once(b"\xff\x13\x12\x40\x00"),
         words=[*ANSWER, "--no-ctc"], within=150),
    Call("EOR", ',"why":"EOR, which isn\'t answered"}', says_once(b"\xff\x13\xcf\x2f"), words=[*ANSWER, "--json"], within=150),
    Call("a frame without a name", ',"why":null}', says_once(b"\xff\x13\x77"), words=[*ANSWER, "--json"], within=150),
    Call("SIGUSR1 while it waits for a ring", "", lambda told: OK, words=[*ANSWER, "--calls", "forever"], kills_at=b"=?",
         kills_by=signal.SIGUSR1, must_say=b"ATH0\r", status=0),
    Call("a modem that fails while many calls are awaited", "the modem has fallen silent", until(b"=?", OK, OK),
         words=[*ANSWER, "--calls", "forever"], within=120),
    Call("no ring in time", "end no-call pages 0", lambda told: OK, words=[*ANSWER, "--most-seconds", "2"], must_say=b"ATH0\r"),
]

THREADS = [threading.Thread(target=call.run) for call in CALLS]
for thread in THREADS:
    thread.start()
for thread in THREADS:
    thread.join()
if FAULTS:
    sys.exit("\n".join(FAULTS))
print(f"softfax: {len(CALLS)} modems that fail and calls that are stopped are told in time")
