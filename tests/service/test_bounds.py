"""What one client can take from the others at most: places in the program, its time, memory of the server, and its ear for those that come."""
import os
import select
import signal
import socket

from lib.world import stop, until
from service.test_front import FULL, StubCase
from service.test_server import fills


class Bounds(StubCase):
    def test_unanswered(self) -> None:
        """At most 16 requests of a client are in the program, and 64 of all; another one has its turn when some are answered."""
        server, count = self.stubbed("--connections", "6"), 300
        wires = [self.wire(server) for _ in range(6)]
        for wire in wires:
            wire.ask(b"first")
        self.seen += 6
        self.asks(self.admin, (b"hold", b"hold"))
        for place, wire in enumerate(wires[:5], 1):
            wire.send(b"".join(b"%d\n" % number for number in range(count)))
            until(lambda place=place: len(self.came()) == min(16 * place, 64), "16 of each have come, as far as there is room")
        wires[5].send(b"other\n")
        for _ in range(100):  # the server has its turns
            self.assertEqual(self.wire(server).all(), FULL)
        self.assertEqual(len(self.came()), 64)
        os.kill(server.program_pid(), signal.SIGUSR1)
        for wire in wires[:5]:
            self.assertEqual(wire.lines(count), [b"heard " + (b"%d" % number).hex().encode() for number in range(count)])
        self.assertEqual(wires[5].lines(1), [b"heard " + b"other".hex().encode()])
        self.assertLess(self.came().index(b"6 other"), 64 + 32)

    def test_unread(self) -> None:
        """Of a client that does not read no more than some replies are asked for. It loses none."""
        server, count, size = self.stubbed(), 2000, 10_000
        wire, before = self.wire(server), server.memory()
        fills(wire, b"big %d\n" % size * count, self.admin, server, b"turn")
        self.assertLess(len(self.came()), 64 + 100)
        self.has_not_grown(server, before, 4_000_000)
        self.assertEqual(set(wire.lines(100)), {b"x" * size})

    def test_much_that_nobody_asked_for(self) -> None:
        """Events come all the same, up to --unread bytes. Then the client is hung up, and nothing of it is left."""
        server = self.stubbed("--unread", "1000000", is_quiet=False)
        slow, other = self.wire(server), self.wire(server)
        slow.ask(b"a")
        self.asks(other, (b"flood 1 100 9000", b"flooded"), (b"a", b"heard 61"))
        self.assertNotIn(b"- 1", self.came())
        self.asks(other, (b"flood 1 100 9000", b"flooded"))
        until(lambda: b"- 1" in self.came(), "it is hung up")
        self.assertRegex(server.stderr(), r"(?m)^pashkure: client 1 is hung up: it left \d+ bytes unread$")
        told = slow.all()
        self.assertEqual(set(told.split(b"\n")[:-1]), {b"* " + b"x" * 100})
        self.asks(self.wire(server), (b"a", b"heard 61"))

    def test_a_large_line(self) -> None:
        """A reply of a megabyte comes whole, also to one that reads slowly, and an operator may be told more."""
        server = self.stubbed()
        wire = self.wire(server)
        self.asks(wire, (b"big 3000000", b"x" * 3_000_000), (b"a", b"heard 61"))
        self.asks(self.admin, (b"big 30000000", b"x" * 30_000_000))

    def test_program_that_is_slow(self) -> None:
        """While much waits for the program nobody is read, and so nobody makes the server grow. The lines that the server finds at once are more than
        a pipe takes, so that it writes a part of them."""
        server, count = self.stubbed("--connections", "120"), 60
        wires, line = [self.wire(server) for _ in range(120)], b"y" * 1040
        for wire in wires:
            wire.ask(b"first")
        before, pid = server.memory(), server.program_pid()
        stop(pid)
        stop(server.process.pid)
        for wire in wires:
            wire.send((line + b"\n") * count)
        os.kill(server.process.pid, signal.SIGCONT)
        for _ in range(50):  # the server has its turns
            self.assertEqual(self.wire(server).all(), FULL)
        self.has_not_grown(server, before, 4_000_000)
        os.kill(pid, signal.SIGCONT)
        for wire in wires:
            self.assertEqual(wire.lines(count), [b"heard " + line.hex().encode()] * count)

    def test_program_that_is_not_read(self) -> None:
        """The server goes on to read the program while the program takes nothing."""
        server = self.stubbed()
        wires = [self.wire(server) for _ in range(3)]
        for wire in wires:
            wire.send(b"big 100000\n" * 50)
        for wire in wires:
            self.assertEqual(set(wire.lines(50)), {b"x" * 100_000})

    def test_long_replies(self) -> None:
        """While a request for all names is in the program, it is the only one of its client."""
        server = self.stubbed()
        wire = self.wire(server)
        wire.ask(b"first")
        self.seen += 1
        for lines, most in ([b"holds 0.1", b"a", b"b"], 1), ([b"a", b"b", b"  holds 0.1", b"c"], 2), ([b"holds"] * 3, 1):
            self.asks(self.admin, (b"hold", b"hold"))
            seen = len(self.came())
            wire.send(b"".join(line + b"\n" for line in lines))
            until(lambda seen=seen, most=most: len(self.came()) == seen + most, "those before it have come, or it alone")
            self.turn()
            self.assertEqual(len(self.came()), seen + most)
            self.asks(self.admin, (b"let", b"let"))
            self.assertEqual(wire.lines(len(lines)), [b"heard " + line.hex().encode() for line in lines])


class Ends(StubCase):
    """A line that ends a transaction of many names, which the program answers `* more K`: it is passed on again, and its client sees one reply."""

    def heard(self, *lines: bytes) -> list[bytes]:
        return [b"heard " + line.hex().encode() for line in lines]

    def test_parts_of_an_end(self) -> None:
        """It is passed on again when its client has its turn, behind those who wait. No other line of the client is until it has its reply."""
        server = self.stubbed()
        wire, other = self.wire(server), self.wire(server)
        for each_wire in wire, other:
            each_wire.ask(b"a")
        self.asks(self.admin, (b"more 2", b"more"), (b"hold", b"hold"))
        self.seen += 2
        wire.send(b"a\n  commit  3.1\nb\nabort 4.1\nc\n")
        until(lambda: len(self.came()) == 2, "the first two lines have come")
        other.send(b"d\n")
        until(lambda: len(self.came()) == 3, "another one has its turn")
        self.turn()
        self.assertEqual(self.came(), [b"1 a", b"1   commit  3.1", b"2 d"])
        self.asks(self.admin, (b"let", b"let"))
        self.assertEqual(wire.lines(5), self.heard(b"a", b"commit 3.1", b"b", b"abort 4.1", b"c"))
        self.assertEqual(other.lines(1), self.heard(b"d"))
        self.assertEqual(self.came()[3:], [b"1 commit 3.1"] * 2 + [b"1 b", b"1 abort 4.1", b"1 c"])

    def test_two_at_once(self) -> None:
        """Each is its client's, also if both end the same transaction."""
        server = self.stubbed()
        wires = [self.wire(server) for _ in range(2)]
        for wire in wires:
            wire.ask(b"a")
        self.seen += 2
        self.asks(self.admin, (b"more 3", b"more"), (b"hold", b"hold"))
        for place, (wire, line) in enumerate(zip(wires, (b"commit 3.1", b"abort 3.1")), 1):
            wire.send(line + b"\n")
            until(lambda place=place: len(self.came()) == place, "it has come")
        self.asks(self.admin, (b"let", b"let"))
        for wire, line in zip(wires, (b"commit 3.1", b"abort 3.1")):
            self.assertEqual(wire.lines(1), self.heard(line))
        self.assertEqual(sorted(self.came()), [b"1 commit 3.1"] * 3 + [b"2 abort 3.1"] * 2)

    def test_end_in_good_order(self) -> None:
        """What a client sent before its end is done, then it hangs up."""
        server = self.stubbed()
        wire = self.wire(server)
        wire.ask(b"a")
        self.seen += 1
        self.asks(self.admin, (b"more 2", b"more"))
        wire.send(b"commit 3.1\n")
        wire.socket.shutdown(socket.SHUT_WR)
        self.assertEqual(wire.all(), b"heard " + b"commit 3.1".hex().encode() + b"\n")
        self.assertEqual(self.came(), [b"1 commit 3.1"] * 3 + [b"- 1"])

    def test_hang_up_between_parts(self) -> None:
        """Of one that is cut off nothing is passed on again: its hang-up ends the transaction."""
        server = self.stubbed("--unread", "1000000", is_quiet=False)
        wire, other = self.wire(server), self.wire(server)
        for each_wire in wire, other:
            each_wire.ask(b"a")
        self.seen += 2
        self.asks(self.admin, (b"more 1", b"more"), (b"hold", b"hold"))
        wire.send(b"commit 3.1\nb\n")
        until(lambda: self.came() == [b"1 commit 3.1"], "it has come")
        self.admin.send(b"flood 1 100000 30\n")
        self.assertEqual(self.admin.lines(1), [b"flooded"])
        until(lambda: "client 1 is hung up" in server.stderr(), "it is hung up")
        self.turn()
        self.asks(self.admin, (b"let", b"let"))
        until(lambda: b"- 1" in self.came(), "the program is told")
        self.asks(self.wire(server), (b"a", b"heard 61"))
        self.assertEqual(self.came()[:2], [b"1 commit 3.1", b"- 1"])
        self.assertNotIn(b"1 commit 3.1", self.came()[1:])

    def test_of_an_operator(self) -> None:
        """An operator's line is passed on again too, also if the operator has left: nobody else would end what is left of the transaction."""
        server = self.stubbed(is_quiet=False)
        client = self.wire(server)
        client.ask(b"a")
        self.asks(self.admin, (b"more 2", b"more"), (b"abort 3.1", *self.heard(b"abort 3.1")), (b"more 2", b"more"), (b"hold", b"hold"))
        wire = self.wire(self.admin_path)
        wire.send(b"abort 4.1\n")
        until(lambda: b"0 abort 4.1" in self.asked(), "it has come")
        wire.close()
        client.send(b"say 0 * deadlock 1.1 a 2.1 b|1 said\nlet\n")  # which can no longer be sent to the one that left
        self.assertEqual((self.admin.lines(1), client.lines(2)), ([b"* deadlock 1.1 a 2.1 b"], [b"said", b"let"]))
        until(lambda: self.asked().count(b"0 abort 4.1") == 3, "it was passed on three times")
        self.asks(self.admin, (b"a", b"heard 61"))
        self.assertEqual(self.asked().count(b"0 abort 3.1"), 3)
        self.asks(self.wire(server), (b"a", b"heard 61"))

    def asked(self) -> list[bytes]:
        """What operators asked the program."""
        with open(self.log, "rb") as file:
            return [line for line in file.read().split(b"\n") if line.startswith(b"0 ")]


class Unread(StubCase):
    """What all clients together leave unread."""

    def steps(self, *words: str) -> int:
        """How many events of 10,000 bytes a client leaves unread, those in its socket among them, until it is hung up."""
        server = self.stubbed(*words)
        slow, other = self.wire(server), self.wire(server)
        slow.ask(b"a")
        for count in range(1, 1000):
            self.asks(other, (b"flood 1 9996 1", b"flooded"))
            self.turn()
            if b"- 1" in self.came():
                return count
        self.fail("it is not hung up")

    def test_little(self) -> None:
        """Who leaves up to 64 KiB unread is not hung up for others."""
        self.assertIn(self.steps("--unread-total", "1") - self.steps("--unread", "1"), (6, 7))

    def test_greatest(self) -> None:
        """If it is too much, who left most is hung up, and nobody else."""
        server = self.stubbed("--unread-total", "3000000", is_quiet=False)
        slow, other = [self.wire(server) for _ in range(3)], self.wire(server)
        for wire in slow:
            wire.ask(b"a")
        for number, count in (2, 100), (3, 200), (1, 120):
            self.assertNotIn(b"- 3", self.came())
            self.asks(other, (b"flood %d 9996 %d" % (number, count), b"flooded"))
        until(lambda: b"- 3" in self.came(), "the greatest is hung up")
        self.assertRegex(server.stderr(), r"(?m)^pashkure: client 3 is hung up: it left \d+ bytes unread, and all clients \d+$")
        self.assertEqual((len(slow[1].lines(100)), len(slow[0].lines(120))), (100, 120))
        self.asks(self.wire(server), (b"a", b"heard 61"))
        self.assertEqual({b"- 1", b"- 2"} & {*self.came()}, set())

    def test_operator(self) -> None:
        """One that reads nothing has no more than all clients may have."""
        server = self.stubbed("--unread-total", "2000000", is_quiet=False)
        slow = self.wire(self.admin_path)
        slow.send(b"big 3000000\n")
        until(lambda: "client 0 is hung up" in server.stderr(), "it is hung up")
        self.asks(self.wire(server), (b"a", b"heard 61"))
        self.turn()

    def test_memory(self) -> None:
        """What was read takes no memory, also if a little is left."""
        server = self.stubbed("--unread", "100000000")
        slow, other = self.wire(server), self.wire(server)
        slow.ask(b"a")
        before = server.memory()
        self.asks(other, (b"flood 1 9996 3000", b"flooded"))
        slow.lines(2960)
        self.turn()
        self.has_not_grown(server, before, 10_000_000)
        slow.lines(40)


class Accepts(StubCase):
    def test_no_room(self) -> None:
        """After accepts that failed others come in, though a client asks all the time; one line says so for all that failed one after another."""
        server = self.stubbed(rules=" ".join(f"accept:{error}@{place}" for place, error in enumerate(["ENFILE", "EMFILE", "ENOMEM"] * 2, 10)), is_quiet=False)
        wire = self.wire(server)
        for _ in range(8):
            new = self.wire(server)
            new.send(b"a\n")
            until(lambda new=new: wire.ask(b"b") and select.select([new.socket], [], [], 0)[0], "another one is served")
            self.assertEqual(new.lines(1), [b"heard 61"])
        self.assertEqual(server.stderr().count("for now: Too many open files in system"), 1)
        self.assertEqual(server.stderr().count("no client can come"), 1)


class Turns(StubCase):
    """Those whose lines take long, by the processor time of the program, which the test sets."""

    def test_one_that_takes_long(self) -> None:
        """Of all clients with long lines, or of which nothing is known, one line is in the program at a time; others have turns beside it."""
        server = self.stubbed()
        slow, new, quick = [self.wire(server) for _ in range(2)], self.wire(server), self.wire(server)
        for wire in [*slow, quick]:
            self.asks(wire, (b"a", b"heard 61"))
        for wire in slow:
            self.asks(wire, (b"work 200", b"heard " + b"work 200".hex().encode()))
        self.seen += 5
        self.asks(self.admin, (b"hold", b"hold"))
        for wire in [*slow, new]:
            wire.send(b"b\n" * 3)
        until(lambda: len(self.came()) == 1, "one has come")
        quick.send(b"c\n" * 10)
        until(lambda: len(self.came()) == 11, "and those of another one")
        self.turn()
        self.assertEqual(self.came()[1:], [b"4 c"] * 10)
        self.admin.send(b"let\n")
        for wire in [*slow, new]:
            wire.lines(3)
        self.assertEqual(self.came()[11:13], [b"3 b", b"2 b"])  # the new one does not wait for all with long lines

    def test_no_longer(self) -> None:
        """A client whose lines take no longer has its share again, when the program has worked for a tenth of a second."""
        server = self.stubbed()
        wire, other = self.wire(server), self.wire(server)
        for line in b"a", b"work 151":
            wire.ask(line)
        for count, most in (698, 1), (2, 16):
            for _ in range(count):
                other.ask(b"work 143")  # which is not long, and with the others a tenth of a second
            wire.ask(b"a")
            seen = len(self.came())
            self.asks(self.admin, (b"hold", b"hold"))
            wire.send(b"c\n" * 30)
            until(lambda seen=seen, most=most: len(self.came()) == seen + most, "its share has come")
            self.turn()
            self.assertEqual(len(self.came()), seen + most)
            self.asks(self.admin, (b"let", b"let"))
            wire.lines(30)

    def test_parts_of_a_hang_up(self) -> None:
        """After `* more C` it is told again, behind those who wait; its number is in use until `- C` has come back."""
        server = self.stubbed("--connections", "2")
        wire, other = self.wire(server), self.wire(server)
        for each_wire in wire, other:
            each_wire.ask(b"a")
        self.asks(self.admin, (b"more 3", b"more"), (b"hold", b"hold"))
        self.seen += 2
        wire.close()
        until(lambda: self.came() == [b"- 1"], "it has hung up")
        other.send(b"b\n")
        until(lambda: len(self.came()) == 2, "another one has its turn")
        next_wire = self.wire(server)
        next_wire.send(b"c\n")
        self.turn()
        self.assertEqual(self.came(), [b"- 1", b"2 b"])
        self.asks(self.admin, (b"let", b"let"))
        self.assertEqual((other.lines(1), next_wire.lines(1)), ([b"heard 62"], [b"heard 63"]))
        self.assertEqual(self.came(), [b"- 1", b"2 b", *[b"- 1"] * 3, b"1 c"])
