"""What the front does with lines, numbers and connections, before a program that knows nothing of locks (lib/stub.py) and notes each line."""
import contextlib
import os
import select
import signal
import socket
import stat
import subprocess
import sys
import time
from typing import Any, Callable

from lib.faults import FaultCase, variables
from lib.world import LIMIT, TOP, Server, Wire, answers, each, environment, read, run, stop, until, wants, write
from service.test_server import ServerCase, fills

STUB = os.path.join(TOP, "tests", "lib", "stub.py")
LONGEST = 1048
FULL = b"refused connections-full\n"
BYTES = [bytes([byte]) for byte in range(256) if byte != 0x0A]
LINES = [
    b"", b"\r", b"\r\r", b" ", b"#", b"hangup", b"- 0", b"- 1", b"- 3", b"-", b"0 graph", b"1 begin", b"3 * granted 0.1 a", b"* granted 0.1 a",
    b"malformed", b"begin\r", b"begin\r\r", *BYTES, b"".join(BYTES), b"x" * LONGEST, b"x" * LONGEST + b"\r", b"\r" * (LONGEST + 1),
]  # fmt: skip
LONG = [b"x" * (LONGEST + 1), b"x" * (LONGEST + 1) + b"\r", b"\r" * (LONGEST + 2), b"x" * LONGEST + b"\r\r", b"-" * 4095, b"x" * 4096, b"x" * 70_000]
NONSENSE = ["x", "", "1", "1granted", "01 granted", "9 granted", "70000 granted", "123456 x", "- 1", "- 9", "-", "- 0", "- 1 ", " 1 x", "1 a|1 b",
            "9 * granted 0.1 a", "0 one|0 two",
            "* more 3.1", "* more 3.", "* more 03.1", "* more 3.1 ", "* more 1", "* more 9", "* more 0", "* more 1 ", "* more", "* granted 0.1 a"]  # fmt: skip


class StubCase(ServerCase, FaultCase):
    """A server before the stub, and an operator's connection to it. The stub takes no time to do what it is asked but `work`."""

    def stubbed(self, *words: str, rules: str = "", **how: Any) -> Server:
        self.log, self.admin_path = self.file("log", ""), self.path("admin")
        program = self.script(f'exec "{sys.executable}" "{STUB}" "{self.log}" "$@"')
        self.faults = self.file("faults", "")
        env = variables(rules, log=self.faults, only="pashkure-serve", work=self.file("work", bytes(8)))
        server = self.server("--admin", self.admin_path, *words, program=program, env=env, **how)
        self.seen = 0
        self.admin = self.wire(self.admin_path)
        until(lambda: b"- 1" in self.came(), "the first one, who looked whether it answers, has hung up")
        self.turn()
        self.seen = len(self.came())
        return server

    def came(self) -> list[bytes]:
        """The lines that came to the program, but for those of operators: since `stubbed` has returned, without the words that started it."""
        with open(self.log, "rb") as file:
            return [line for line in file.read().split(b"\n")[1:-1] if not line.startswith(b"0 ")][self.seen :]

    def words(self) -> list[str]:
        """The words that the program was started with."""
        return read(self.log).partition("\n")[0].split()

    def turn(self) -> None:
        """Returns when the server has passed on what it had read before."""
        for _ in range(3):
            self.asks(self.admin, (b"turn", b"heard " + b"turn".hex().encode()))


class Lines(StubCase):
    def test_each_is_passed_on(self) -> None:
        """Every byte is, behind the number: what a client sends never begins a line of the program's input."""
        wire = self.wire(self.stubbed())
        wire.send(b"".join(line + b"\n" for line in LINES))
        self.assertEqual(wire.lines(len(LINES)), [b"heard " + line.hex().encode() for line in LINES])
        self.assertEqual(self.came(), [b"1 " + line for line in LINES])

    def test_long_ones(self) -> None:
        """In place of a line that is too long the program is given one that is malformed, also if it comes in pieces."""
        wire, heard = self.wire(self.stubbed()), b"heard " + b"malformed".hex().encode()
        for line in LONG:
            self.asks(wire, (line, heard), (b"", b"heard "))
        for line in LONG:
            for place in 1, LONGEST, LONGEST + 1:
                wire.send(line[:place])
                self.turn()
                wire.send(line[place:] + b"\nnext\n")
                self.assertEqual(wire.lines(2), [heard, b"heard " + b"next".hex().encode()])
        self.assertEqual({len(line) for line in self.came()}, {2, 6, 11})

    def test_longest_in_pieces(self) -> None:
        wire = self.wire(self.stubbed())
        for line in b"x" * LONGEST, b"x" * LONGEST + b"\r":
            for place in 1, LONGEST - 1, LONGEST, len(line):
                wire.send(line[:place])
                self.turn()
                self.assertEqual(wire.ask(line[place:]), b"heard " + line.hex().encode())

    def test_of_64_megabytes(self) -> None:
        """It is not kept."""
        server = self.stubbed()
        wire, before = self.wire(server), server.memory()
        for _ in range(64):
            wire.send(b"x" * 1_000_000)
        self.asks(wire, (b"", b"heard " + b"malformed".hex().encode()))
        self.has_not_grown(server, before, 4_000_000)

    def test_of_operators(self) -> None:
        """They come from connection 0, and only there."""
        self.stubbed()
        self.asks(self.admin, (b"- 1", b"heard " + b"- 1".hex().encode()), (b"x" * 2000, b"heard " + b"malformed".hex().encode()))
        self.admin.close()
        other = self.wire(self.admin_path)
        self.asks(other, (b"a", b"heard 61"))
        with open(self.log, "rb") as file:
            self.assertNotIn(b"- 0", file.read().split(b"\n"))

    @each([1, 4])
    def test_turns(self, turn: int) -> None:
        """One line of each in a round, or as many as are asked for."""
        server, count = self.stubbed("--turn", str(turn)), 60
        wires = [self.wire(server) for _ in range(4)]
        for wire in wires:
            wire.ask(b"first")
        self.seen += len(wires)
        stop(server.process.pid)
        for wire in wires:
            wire.send(b"".join(b"%d\n" % number for number in range(count)))
        os.kill(server.process.pid, signal.SIGCONT)
        for wire in wires:
            wire.lines(count)
        came = self.came()
        for first in range(0, count, turn):
            group = came[first * len(wires) : (first + turn) * len(wires)]
            turns = [group[place : place + turn] for place in range(0, len(group), turn)]
            self.assertEqual(sorted(turns), [[b"%d %d" % (place, number) for number in range(first, first + turn)] for place in range(1, len(wires) + 1)])


class Leaving(StubCase):
    def test_end_in_good_order(self) -> None:
        """What was sent before is passed on, then the hang-up; what comes until it is answered is still sent, and then the end."""
        server = self.stubbed()
        wire = self.wire(server)
        self.asks(self.admin, (b"hold", b"hold"))
        wire.send(b"".join(b"%d\n" % number for number in range(200)) + b"half")
        wire.socket.shutdown(socket.SHUT_WR)
        self.admin.send(b"say 1 * granted 0.1 a|0 said\nlet\n")
        self.assertEqual(self.admin.lines(2), [b"said", b"let"])
        wanted = b"".join(b"heard " + (b"%d" % number).hex().encode() + b"\n" for number in range(200))
        before, event, after = wire.all().partition(b"* granted 0.1 a\n")
        self.assertEqual((before + after, bool(event)), (wanted, True))
        self.assertEqual(self.came(), [b"1 %d" % number for number in range(200)] + [b"- 1"])

    def test_events_until_it_is_over(self) -> None:
        server = self.stubbed()
        wire = self.wire(server)
        wire.ask(b"a")
        self.asks(self.admin, (b"hold", b"hold"))
        wire.socket.shutdown(socket.SHUT_WR)
        until(lambda: b"- 1" in self.came(), "it has hung up")
        self.admin.send(b"say 1 * granted 0.1 a|0 said\nlet\n")
        self.assertEqual((self.admin.lines(2), wire.all()), ([b"said", b"let"], b"* granted 0.1 a\n"))

    def test_number_that_is_not_free_yet(self) -> None:
        """A number is used again only when its hang-up has been answered."""
        server = self.stubbed("--connections", "1")
        one = self.wire(server)
        one.ask(b"one")
        self.asks(self.admin, (b"hold", b"hold"))
        one.close()
        until(lambda: self.came() == [b"1 one", b"- 1"], "it has hung up")
        said = b"say 1 * granted 0.1 a|0 said", b"said"  # which can no longer be sent
        self.asks(self.admin, said)
        two = self.wire(server)
        two.send(b"two\n")
        self.turn()
        self.asks(self.admin, said)
        self.assertEqual(self.came(), [b"1 one", b"- 1"])
        self.asks(self.admin, (b"let", b"let"))
        self.assertEqual(two.lines(1), [b"heard " + b"two".hex().encode()])
        self.assertEqual(self.came(), [b"1 one", b"- 1", b"1 two"])

    def test_gone_at_once(self) -> None:
        """Of one that is gone, and is owed replies, no further line is passed on, and nothing is kept."""
        server = self.stubbed()
        wire = self.wire(server)
        wire.ask(b"first")
        self.seen += 1
        self.asks(self.admin, (b"hold", b"hold"))
        wire.send(b"a\n" * 200)
        until(lambda: len(self.came()) == 16, "16 have come")
        wire.close()
        self.asks(self.admin, (b"say 0 said|1 * granted 0.1 a", b"said"))  # the event can no longer be sent, and nothing comes after it
        until(lambda: b"- 1" in self.came(), "it has hung up")
        self.asks(self.admin, (b"let", b"let"))
        self.turn()
        self.assertEqual(self.came(), [b"1 a"] * 16 + [b"- 1"])
        self.asks(self.wire(server), (b"b", b"heard 62"))

    def test_full(self) -> None:
        """One more than there may be is told so, unasked, and there is room again when one leaves."""
        server = self.stubbed("--connections", "2")
        wires = [self.wire(server) for _ in range(2)]
        for wire in wires:
            wire.ask(b"a")
        for _ in range(3):
            self.assertEqual(self.wire(server).all(), FULL)
        wires[0].close()
        self.asks(self.wire(server), (b"a", b"heard 61"))
        self.assertEqual(self.words()[1:3], ["--connections", "3"])

    def test_no_descriptors(self) -> None:
        """A server that may have few descriptors serves fewer, and says so."""
        server = self.stubbed(before=["prlimit", "--nofile=40:40"], is_quiet=False)
        wires = [self.wire(server) for _ in range(8)]
        for wire in wires:
            self.asks(wire, (b"a", b"heard 61"))
        self.assertEqual(self.wire(server).all(), FULL)
        self.assertIn("the system gives 40 descriptors, so at most 8 clients are served\n", server.stderr())
        self.assertEqual(self.words()[1:3], ["--connections", "9"])


class Operators(StubCase):
    def test_events(self) -> None:
        """A deadlock is told to all; other lines with a star to whom the last reply was sent."""
        self.stubbed()
        other = self.wire(self.admin_path)
        self.asks(other, (b"a", b"heard 61"))
        self.admin.send(b"say 0 list 2|0 * 0.1 1 active|0 * deadlock 0.1 a 1.1 b|0 * 1.1 - active\n")
        self.assertEqual(self.admin.lines(4), [b"list 2", b"* 0.1 1 active", b"* deadlock 0.1 a 1.1 b", b"* 1.1 - active"])
        self.assertEqual(other.lines(1), [b"* deadlock 0.1 a 1.1 b"])
        self.asks(other, (b"b", b"heard 62"))
        self.admin.send(b"say 0 one|0 * two\n")
        self.assertEqual(self.admin.lines(2), [b"one", b"* two"])

    def test_one_that_left(self) -> None:
        """The replies for it are dropped, and so are the lines behind. Its place is given again when all have come."""
        server = self.stubbed()
        others, wire = [self.wire(self.admin_path) for _ in range(15)], self.wire(server)
        for other in others:
            self.asks(other, (b"a", b"heard 61"))
        stop(server.program_pid())
        self.admin.send(b"say 0 list 1|0 * 0.1 1 active\n" + b"b\n" * 20)
        others[0].send(b"c\n")
        self.admin.close()
        for _ in range(30):
            self.assertEqual(self.wire(self.admin_path).all(), FULL)
        os.kill(server.program_pid(), signal.SIGCONT)
        self.assertEqual(others[0].lines(1), [b"heard 63"])
        until(lambda: self.asked_anew(b"d") == b"heard 64", "an operator has a place")
        self.asks(wire, (b"e", b"heard 65"))

    def asked_anew(self, request: bytes) -> bytes:
        """Returns the first line that a new operator's connection gets."""
        try:
            return self.wire(self.admin_path).ask(request)
        except OSError as error:
            return str(error).encode()

    def test_half_an_end(self) -> None:
        self.stubbed()
        self.admin.send(b"a\n" * 200 + b"clients\nhalf")
        self.admin.socket.shutdown(socket.SHUT_WR)
        self.assertEqual(self.admin.all(), b"heard 61\n" * 200 + b"clients 0\n")

    def test_clients(self) -> None:
        """It is answered by the front in its turn: who is connected, with process, user and seconds."""
        server = self.stubbed()
        wires = [self.wire(server) for _ in range(3)]
        for wire in wires:
            wire.ask(b"a")
        wires[1].close()
        until(lambda: b"- 2" in self.came(), "it has hung up")
        self.admin.send(b"say 0 list 1|0 * 0.1 1 active\nclients\nb\nclients\r\nclients now\n")
        told = self.admin.lines(10)
        self.assertEqual(told[:3] + [told[5], told[9]], [b"list 1", b"* 0.1 1 active", b"clients 2", b"heard 62", b"heard " + b"clients now".hex().encode()])
        for line, number in zip(told[3:5] + told[7:9], (b"1", b"3", b"1", b"3")):
            self.assertRegex(line, rb"\A\* %b %d %d \d+\Z" % (number, os.getpid(), os.geteuid()))
        self.asks(wires[0], (b"clients", b"heard " + b"clients".hex().encode()))

    def test_rights(self) -> None:
        self.stubbed("--mode", "666")
        self.assertEqual([stat.S_IMODE(os.stat(self.admin_path + end).st_mode) for end in ("", ".lock")], [0o600, 0o600])

    def test_path_in_use(self) -> None:
        """A second server does not start at the operator's path of another one."""
        self.stubbed()
        path = self.path("socket")
        told = run(*self.needs_server(), "--socket", path, "--admin", self.admin_path, "--program", "/bin/false", env=environment())
        self.assertRegex(told.err.decode(), rf"\A[^\n]*{self.admin_path}[^\n]*another server[^\n]*\n\Z")
        self.assertEqual((told.status, os.path.exists(path)), (1, False))

    def test_graph_that_is_not_read(self) -> None:
        """An operator that asks for much and does not read is read no further, and others are served."""
        server = self.stubbed()
        wire, other, before = self.wire(server), self.wire(self.admin_path), server.memory()
        fills(self.admin, b"say 0 graph 2|0 * " + b"a" * 900 + b"|0 * b\n", other, server, b"turn")
        self.asks(wire, (b"a", b"heard 61"))
        self.has_not_grown(server, before, 8_000_000)
        self.assertEqual(self.admin.lines(3), [b"graph 2", b"* " + b"a" * 900, b"* b"])


class Log(StubCase):
    def test_lines(self) -> None:
        """A line for the start, the end, and each deadlock, whose bytes are text."""
        server = self.stubbed(is_quiet=False)
        self.admin.send("say 0 * deadlock 0.1 Müller 1.1 ~!|0 done\n".encode())
        self.assertEqual(self.admin.lines(2), ["* deadlock 0.1 Müller 1.1 ~!".encode(), b"done"])
        self.assertEqual(server.close(), 0)
        self.assertRegex(server.stderr(), rf"\Apashkure: serves at {server.path}, for 16384 clients, of epoch \d+\n"
                         r"pashkure: deadlock 0\.1 M\\xc3\\xbcller 1\.1 ~!\npashkure: ends by signal 15\n\Z")  # fmt: skip

    def test_many_deadlocks(self) -> None:
        """At most a hundred are told in a second, and the others are counted."""
        began = time.monotonic()
        server, count, left = self.stubbed(is_quiet=False), 5000, b"|".join([b"0 * deadlock 0.1 a 1.1 b"] * 40)
        for _ in range(count // 40):
            self.admin.send(b"say " + left + b"|0 done\n")
            self.admin.lines(41)
        self.assertEqual(server.close(), 0)
        text = server.stderr()
        told, counted = text.count(" deadlock 0.1 a 1.1 b\n"), [int(line.split()[1]) for line in text.splitlines() if line.endswith(" more deadlocks")]
        self.assertEqual(told + sum(counted), count)
        self.assertGreaterEqual(told, 100)
        self.assertLessEqual(told, 100 * (time.monotonic() - began + 2))

    def test_that_nobody_reads(self) -> None:
        """What standard error has no room for is dropped, and nobody waits."""
        reads, writes = os.pipe()
        for end in reads, writes:
            self.addCleanup(os.close, end)
        self.stubbed(is_quiet=False, stderr=writes)
        for text in [b"x" * 900] * 60 + [b"\xff" * 1000] * 40:
            self.admin.send(b"say 0 * deadlock " + text + b"|0 done\n")
            self.admin.lines(2)


class Program(StubCase):
    @each(NONSENSE)
    def test_nonsense(self, text: str) -> None:
        """A program that writes what no lock service does ends the server. What it wrote before is still sent."""
        server = self.stubbed()
        wire, other = self.wire(server), self.wire(server)
        other.ask(b"a")
        wire.send(b"say 2 * granted 0.1 a|" + text.encode() + b"\n")
        self.assertEqual(other.all(), b"* granted 0.1 a\n")
        self.assertEqual((server.process.wait(LIMIT), os.path.exists(server.path), os.path.exists(self.admin_path)), (1, False, False))
        self.assertTrue(server.stderr().endswith("wrote what is no reply\n"), server.stderr())

    def test_end(self) -> None:
        for status in 0, 1, 3:
            server = self.stubbed()
            self.wire(server).send(b"end %d\n" % status)
            self.assertEqual(server.process.wait(LIMIT), 1)
            self.assertRegex(server.stderr(), rf"\A[^\n]* ended with status {status}\n\Z")

    def test_options(self) -> None:
        """Its options are the program's, but no seed: the program draws one, and no list of processes shows it."""
        server = self.stubbed("--transactions", "7", "--names=8", "--name-bytes", "9", "--names-each", "2", "--each", "3", "--epoch", "11", "--connections", "20")
        self.assertEqual(self.words(), "locks --transactions 7 --names 8 --name-bytes 9 --names-each 2 --connections 21 --epoch 11 --each 3".split())
        self.assertFalse(os.path.exists(server.path + ".epoch"))
        self.stubbed()
        self.assertRegex(" ".join(self.words()), r"\Alocks --connections 16385 --epoch \d{13,}\Z")

    def test_what_it_inherits(self) -> None:
        """Three descriptors, and no signal that is blocked or dropped, but those that Python drops itself."""
        told = self.path("told")
        program = self.script("")
        write(program, f"#!{sys.executable}\nimport os\nnames = os.listdir('/proc/self/fd')\nwith open({told!r}, 'w') as file:\n"
              "    print(len(names), *(line for line in open('/proc/self/status') if line.startswith(('SigBlk', 'SigIgn'))), file=file)\n")  # fmt: skip
        words = [*self.needs_server(), "--socket", self.path("socket"), "--admin", self.path("admin"), "--program", program]
        self.assertEqual(run(*words, env=environment()).status, 1)
        count, _, blocked, _, dropped = read(told).split()
        self.assertEqual((int(count), int(blocked, 16), int(dropped, 16) & 0x7EFF_EFFF), (4, 0, 0))  # (the folder itself is open too)


class Heartbeat(StubCase):
    """Lines without which the server stops. Its clock is the test's: it jumps after so many looks at it."""

    def words(self) -> list[str]:
        """Of a server that needs a line in ten minutes, and a pipe for them."""
        self.reads, self.writes = os.pipe()
        self.addCleanup(os.close, self.reads)
        return ["--heartbeat-fd", str(self.reads), "--heartbeat-ms", "600000"]

    def beats(self, *seconds: float) -> None:
        """Writes lines that count from so many seconds after now, by the clock without its jumps."""
        now = time.clock_gettime(time.CLOCK_BOOTTIME)
        os.write(self.writes, b"".join(b"%d\n" % (1000 * (now + second)) for second in seconds))

    def beaten(self, *rules: str) -> Server:
        """A server that had a line. Its clock and what it sends are noted."""
        words = self.words()
        self.beats(0)
        return self.stubbed(*words, rules=" ".join([*rules, "boottime:told", "send:told"]), pass_fds=[self.reads])

    def asks_to_the_end(self, wire: Wire, beats: Callable[[], Any]) -> None:
        """Asks until the server has closed the connection."""
        with contextlib.suppress(BrokenPipeError, ConnectionResetError):
            for _ in range(2_000):
                beats()
                wire.send(b"a\n")
                if not wire.socket.recv(65536):
                    return
            self.fail("it goes on")

    def has_stopped(self, server: Server) -> None:
        """Fails unless the server has ended with a line that says why."""
        self.assertEqual((server.process.wait(LIMIT), os.path.exists(server.path)), (1, False))
        self.assertEqual(server.stderr(), f"pashkure: no line that counts came on descriptor {self.reads} for 600000 milliseconds\n")

    @each([400, *range(501, 509)])
    def test_no_line_in_time(self, looks: int) -> None:
        """It stops, whatever it is about to do, closes all connections, and sends nothing more: also if lines come that are as old as the jump."""
        server = self.beaten(f"boottime:jump=601>{looks}")
        wires = [self.wire(server) for _ in range(3)]
        self.asks_to_the_end(wires[0], (lambda: None) if looks == 400 else (lambda: self.beats(0)))
        self.assertEqual([wire.all() for wire in wires], [b""] * 3)
        self.has_stopped(server)
        before, jump, behind = read(self.faults).partition("boottime:told=601@")
        self.assertEqual(("send:" in before, bool(jump), "send:" in behind), (True, True, False))
        os.close(self.writes)

    @each([[b"beat\n", b"\n", b"lease 1 expired or revoked.\n"], [b"-1\n", b"+%d\n", b"%d \n", b" %d\n", b"%d\r\n", b"0x%d\n", b"1%d.\n"],
           [b"1%d\n", b"%d0\n"], [b"9" * 19 + b"\n", b"1" + b"0" * 30 + b"%d\n", b"9" * 300 + b"%d\n"], [b"x\n%d"], [b""]])  # fmt: skip
    def test_what_is_no_line(self, lines: list[bytes]) -> None:
        """Any other text is none, and neither are a number of the future, one that is too large, the end of the descriptor and bytes without a newline."""
        server = self.beaten("boottime:jump=601>400")
        wire, now = self.wire(server), int(1000 * (time.clock_gettime(time.CLOCK_BOOTTIME) + 599))
        if lines[0] == b"":
            os.close(self.writes)
            self.writes = os.open(os.devnull, os.O_WRONLY)
        text = b"".join(line.replace(b"%d", b"%d" % now) for line in lines)  # which would count after the jump
        self.asks_to_the_end(wire, lambda: os.write(self.writes, text))
        self.has_stopped(server)
        os.close(self.writes)

    def test_lines_in_time(self) -> None:
        """It goes on as long as lines come: each of these is of one of the times at which its clock may be, the others are later or smaller; one is cut in two."""
        server = self.beaten(*(f"boottime:jump=250>{looks}" for looks in range(300, 2300, 50)))
        wire = self.wire(server)
        for number in range(200):
            self.beats(*range(10_000, -1, -250))
            os.write(self.writes, b"12")
            self.asks(wire, (b"a", b"heard 61"))
            os.write(self.writes, b"x\n" if number % 2 else b"\n")
        self.assertIsNone(server.process.poll())
        self.assertIn("boottime:told=10000@", read(self.faults))
        os.close(self.writes)

    def test_first_line(self) -> None:
        """No socket is opened and no program is started before a line that counts, whatever was in the pipe."""
        path, started, words = self.path("socket"), self.path("started"), self.words()
        program = self.script(f'echo > "{started}"; exec "{sys.executable}" "{STUB}" /dev/null "$@"')
        self.beats(-601, 10_000)
        os.write(self.writes, b"beat\n")
        command = [*self.needs_server(), "--quiet", "--socket", path, "--program", program, *words]
        with subprocess.Popen(command, env=environment(), stderr=subprocess.PIPE, pass_fds=[self.reads]) as server:
            until(lambda: os.path.exists(path + ".lock") and not select.select([self.reads], [], [], 0)[0], "it has read them")
            self.assertEqual((os.path.exists(path), os.path.exists(started), server.poll()), (False, False, None))
            text = b"%d\n" % (1000 * time.clock_gettime(time.CLOCK_BOOTTIME))
            os.write(self.writes, text[:5])
            until(lambda: not select.select([self.reads], [], [], 0)[0], "it has read the half")
            os.write(self.writes, text[5:])
            until(lambda: answers(path), "it serves")
            server.terminate()
            self.assertEqual((server.communicate()[1], server.returncode), (b"", 0))
        os.close(self.writes)

    @each([(b"", ""), (b"1\n" * 3, ""), (b"beat\n", ""), (b"", "TERM")])
    def test_without_a_first_line(self, lines: bytes, ends_by: str) -> None:
        """It ends as if no line had come in time, with status 1, or 0 if it is told to end; no program was started."""
        path, words = self.path("socket"), [*self.words()[:-1], "600000" if ends_by else "300"]
        os.write(self.writes, lines)
        command = [*self.needs_server(), "--socket", path, "--program", "/no/such/program", *words]
        with subprocess.Popen(command, env=environment(), stderr=subprocess.PIPE, pass_fds=[self.reads]) as server:
            if ends_by:
                until(lambda: int(read(f"/proc/{server.pid}/status").partition("SigBlk:")[2].split()[0], 16) != 0, "it waits")
                server.terminate()
            told, status = server.communicate()[1].decode(), server.returncode
        why = "ends by signal 15" if ends_by else f"no line that counts came on descriptor {self.reads} for 300 milliseconds"
        self.assertEqual((status, told, os.path.exists(path)), (0 if ends_by else 1, f"pashkure: {why}\n", False))
        os.close(self.writes)


class Manager(StubCase):
    def test_readiness(self) -> None:
        """NOTIFY_SOCKET is told when clients may come, and when the server ends."""
        for path in self.path("notify"), f"@{self.path('notify')}":
            with socket.socket(socket.AF_UNIX, socket.SOCK_DGRAM) as told:
                told.settimeout(LIMIT)
                told.bind("\0" + path[1:] if path.startswith("@") else path)
                server = self.server(program=self.script(f'exec "{sys.executable}" "{STUB}" /dev/null "$@"'), env={"NOTIFY_SOCKET": path})
                self.assertEqual(told.recv(100), b"READY=1")
                self.assertEqual(server.close(), 0)
                self.assertEqual(told.recv(100), b"STOPPING=1")

    def test_passed_socket(self) -> None:
        """A socket that was passed is served, and its file is left."""
        path = self.path("socket")
        with socket.socket(socket.AF_UNIX) as listener:
            listener.bind(path)
            listener.listen()
            os.set_inheritable(listener.fileno(), True)
            early = self.wire(path)  # before there is any server
            before = ["bash", "-c", f'export LISTEN_PID=$$ LISTEN_FDS=1; exec "$@" 3<&{listener.fileno()}', "bash"]
            for _ in range(2):
                server = self.server(program=self.script(f'exec "{sys.executable}" "{STUB}" /dev/null "$@"'), path=path, before=before, pass_fds=[listener.fileno()])
                self.asks(early, (b"a", b"heard 61"))
                self.assertEqual((server.close(), os.path.exists(path)), (0, True))
                early = self.wire(path)

    def test_what_is_no_socket(self) -> None:
        path, why = self.path("socket"), b"pashkure: LISTEN_FDS: it has to pass one Unix socket that listens, of type SOCK_STREAM\n"
        for count, file in (1, "/dev/null"), (2, "/dev/null"):
            words = ["bash", "-c", f'export LISTEN_PID=$$ LISTEN_FDS={count}; exec "$@" 3< {file}', "bash", *self.needs_server(), "--socket", path]
            told = run(*words, "--program", "/bin/false", env=environment())
            self.assertEqual((told.status, told.err), (1, why))
        with socket.socket(socket.AF_UNIX, socket.SOCK_SEQPACKET) as packets:
            packets.bind(path)
            packets.listen()
            words = ["bash", "-c", f'export LISTEN_PID=$$ LISTEN_FDS=1; exec "$@" 3<&{packets.fileno()}', "bash", *self.needs_server(), "--socket", path]
            told = run(*words, "--program", "/bin/false", env=environment(), pass_fds=[packets.fileno()])
            self.assertEqual((told.status, told.err), (1, why))
        os.unlink(path)
        words = ["bash", "-c", 'export LISTEN_PID=1 LISTEN_FDS=1; exec "$@"', "bash", *self.needs_server(), "--socket", path]
        self.assertIn(b"/bin/false did not start", run(*words, "--program", "/bin/false", env=environment()).err)

    def test_unit(self) -> None:
        """The unit of examples/ is one that systemd takes."""
        wants("systemd-analyze")
        unit = self.file("pashkure.service", read(os.path.join(TOP, "examples/pashkure.service")).replace("/usr/local/bin/", "/bin/true #"))
        told = run("systemd-analyze", "verify", unit)
        self.assertEqual(told.status, 0, told.err)
