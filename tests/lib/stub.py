"""python3 stub.py LOG locks WORD..: stands for the program behind a server. It knows lines and numbers, and nothing of locks.

It writes to LOG the words it was started with, and each line that comes. It answers a client that asks
  totals       totals 0 0 0 0
  big N        N bytes
  say TEXT     nothing, and writes TEXT as it is, with a newline for each |
  flood C N K  flooded, and before that K events of N bytes for client C
  work N       heard, after the clock of its processor time has gone on by N microseconds (FAULT_WORK of fault.c)
  hold, let    the word: after `hold` what is for others than the operator is kept until `let`, or a SIGUSR1
  more N       the word: the next N hang-ups are answered `* more C`, and lines `commit K` and `abort K` `* more K`
  end N        nothing, and ends with this status
  LINE         heard, and the bytes of the line as hexadecimal digits
"""
import os
import signal
import sys
from typing import Any


ENDS = [b"commit"], [b"abort"]


class Stub:
    def __init__(self, log: int) -> None:
        self.log = log
        self.kept: list[bytes] = []
        self.holds = False
        self.work = self.parts = 0
        self.clock = os.open(os.environ.get("FAULT_WORK", os.devnull), os.O_WRONLY)

    def take(self, line: bytes) -> None:
        os.write(self.log, line + b"\n")
        number, _, request = line.partition(b" ")
        if number == b"-":
            self.write(b"* more " + request if self.parts > 0 else line)
            self.parts -= 1
            return
        word, _, rest = request.partition(b" ")
        if self.parts > 0 and request.split()[:1] in ENDS:
            self.write(b"* more " + request.split()[1])
            self.parts -= 1
            return
        if word == b"work":
            self.work += int(rest)
            os.pwrite(self.clock, self.work.to_bytes(8, sys.byteorder), 0)
        if word == b"say":
            write(rest.replace(b"|", b"\n") + b"\n")
        elif word == b"end":
            sys.exit(int(rest))
        elif word == b"flood":
            client, size, count = rest.split(b" ")
            write((client + b" * " + b"x" * int(size) + b"\n") * int(count))
            self.write(number + b" flooded")
        else:
            self.write(number + b" " + self.answer(word, rest, request))

    def answer(self, word: bytes, rest: bytes, request: bytes) -> bytes:
        if word == b"totals":
            return b"totals 0 0 0 0"
        if word == b"big":
            return b"x" * int(rest)
        if word == b"more":
            self.parts = int(rest)
        elif word == b"hold":
            self.holds = True
        elif word == b"let":
            self.let()
        else:
            return b"heard " + request.hex().encode()
        return word

    def let(self, *_: Any) -> None:
        self.holds = False
        write(b"".join(self.kept))
        self.kept.clear()

    def write(self, line: bytes) -> None:
        if self.holds and not line.startswith(b"0 "):
            self.kept.append(line + b"\n")
        else:
            write(line + b"\n")


def write(data: bytes) -> None:
    while data:
        data = data[os.write(1, data) :]


def main() -> None:
    stub, rest = Stub(os.open(sys.argv[1], os.O_WRONLY | os.O_APPEND | os.O_CREAT, 0o600)), b""
    signal.signal(signal.SIGUSR1, stub.let)
    os.write(stub.log, " ".join(sys.argv[2:]).encode() + b"\n")
    while data := os.read(0, 65536):
        *lines, rest = (rest + data).split(b"\n")
        for line in lines:
            stub.take(line)


main()
