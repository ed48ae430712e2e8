"""A server with the program: clients that use the keys of others, hang up, also with many transactions, and come in thousands. (Lines, halves of
lines, and bounds are in test_front; what the program says to connections that hang up, in program.test_random.)"""
import multiprocessing
import os
import random
import re
from multiprocessing.connection import Connection

from lib.hub import PART
from lib.search import SUBJECTS
from lib.world import IS_SLOW, LIMIT, PROGRAM, SEED, Case, Server, Wire, read, run, same, until

CROWDS, SIZE, KILLS = (20, 500, 200) if IS_SLOW else (8, 50, 16)
MANY = 1000
"""Transactions of one that hangs up."""


def crowd(path: str, place: int, told: Connection) -> None:
    """Makes connections, each of which begins a transaction with a name of its own, and then asks what it owns, again and again."""
    wires = {b"%d/%d" % (place, number): Wire(path) for number in range(SIZE)}
    keys = {name: wire.ask(b"begin " + name).split(b" ")[1:] for name, wire in wires.items()}
    for name, (key, *waits) in keys.items():
        same(wires[name].lines(len(waits[:1])), [b"* granted %b %b" % (key, name)][: len(waits)])
    told.send("they own their names")
    while True:
        for name, wire in wires.items():
            same(wire.ask(b"holds " + keys[name][0]), b"holds " + name)


class Crowd:
    def __init__(self, path: str, place: int) -> None:
        self.told, end = multiprocessing.Pipe(False)
        self.process = multiprocessing.Process(target=crowd, args=(path, place, end), daemon=True)
        self.process.start()
        end.close()

    def kill(self, waits: bool = True) -> None:
        """Kills the process, once its connections own their names if that is waited for. Fails if it has ended by itself."""
        assert (not waits or self.told.poll(LIMIT) and self.told.recv()) and self.process.is_alive(), "an end of its own"
        self.process.kill()
        self.process.join()


def begun(wire: Wire, *names: bytes) -> bytes:
    """The key of a new transaction, which owns these names."""
    reply, *told = wire.ask(b" ".join([b"begin", *names])).split(b" ")
    assert reply == b"begun" and len(told) == 1, (reply, told)
    return told[0]


def fills(wire: Wire, data: bytes, witness: Wire, server: Server, asked: bytes = b"owner nobody") -> int:
    """Sends the data again and again until the server reads no more, though it serves another connection. Returns how many bytes it took."""
    wire.socket.setblocking(False)
    sent = quiet = 0
    while quiet < 20:  # so often it had its turn and read nothing
        assert sent < 64_000_000, "it reads on"
        try:
            sent += wire.socket.send(data[sent % len(data) :])
            quiet = 0
        except BlockingIOError:
            witness.ask(asked)
            quiet += 1
    wire.socket.settimeout(LIMIT)
    return sent


class ServerCase(Case):
    def asks(self, wire: Wire, *pairs: tuple[bytes, bytes]) -> None:
        """Fails unless each request has this reply."""
        for request, reply in pairs:
            self.assertEqual(wire.ask(request), reply, request)

    def has_not_grown(self, server: Server, before: int, size: int) -> None:
        """Fails if the server has so many more bytes of memory than before. (Sanitizers take their own.)"""
        if not os.environ.get("TESTED_SANITIZED"):
            self.assertLess(server.memory() - before, size)

    def counts(self, wire: Wire) -> list[int]:
        """Transactions begun, committed and aborted, and deadlocks."""
        return [int(word) for word in wire.ask(b"totals").split(b" ")[1:]]


class Clients(ServerCase):
    def test_keys_of_others(self) -> None:
        """The key of another connection is no transaction's, whatever is asked. `owner` and `totals` are for all, `graph` is the operator's."""
        server = self.server()
        one, other = self.wire(server), self.wire(server)
        begun(one, b"a")
        for line in b"lock 0.1 b", b"try 0.1 b", b"unlock 0.1 a", b"commit 0.1", b"abort 0.1", b"cancel 0.1", b"lock 00.1 b", b"status 0.1", b"holds 0.1":
            self.asks(other, (line, b"refused no-transaction"))
        self.asks(other, (b"owner a", b"owner 0.1"), (b"graph", b"refused operator"), (b"totals", b"totals 1 0 0 0"))
        self.asks(one, (b"holds 0.1", b"holds a"))

    def test_all_are_aborted(self) -> None:
        """Who hangs up has all its transactions aborted: active ones, and those that wait for each other, for others, or for both."""
        server = self.server()
        wire, other = self.wire(server), self.wire(server)
        mine = begun(other, b"x")
        keys = [begun(wire, b"%d" % number) for number in range(4)]
        self.asks(wire, (b"lock %b 1" % keys[0], b"waits " + keys[1]), (b"lock %b 2" % keys[1], b"waits " + keys[2]),
                  (b"lock %b x" % keys[2], b"waits " + mine), (b"lock %b 0" % keys[3], b"waits " + keys[0]))  # fmt: skip
        self.asks(other, (b"lock %b 3" % mine, b"deadlock %b 0 %b 1 %b 2 %b x" % (keys[3], *keys[:3])))
        wire.close()
        until(lambda: self.counts(other)[2] == 4, "all are aborted")
        self.asks(other, (b"lock %b 0 1 2 3" % mine, b"granted"), (b"commit " + mine, b"committed"))

    def test_crowds(self) -> None:
        """Hundreds of connections of processes that are killed, with --slow ten thousand: what a dead one owned can be had, and nothing of it is left."""
        server, chance = self.server(), random.Random(SEED)
        wire = self.wire(server)
        crowds = [Crowd(server.path, place) for place in range(CROWDS)]
        self.assertTrue(all(each.told.poll(LIMIT) for each in crowds))
        memory, files = server.memory(), server.descriptors() - CROWDS * SIZE
        for place in chance.choices(range(CROWDS), k=KILLS):
            crowds[place].kill(chance.random() < 2 / 3)
            crowds[place] = Crowd(server.path, place)
        self.assertTrue(all(each.told.poll(LIMIT) for each in crowds))
        self.has_not_grown(server, 0, 40_000_000)
        self.has_not_grown(server, memory, 4_000_000)
        for each in crowds:
            each.kill()
        until(lambda: server.descriptors() <= files and self.counts(wire)[0] == self.counts(wire)[2], "all have hung up, and all is aborted")


class Ends(ServerCase):
    """A transaction of more than 1,024 names ends by parts."""

    NAMES = 3000

    def given(self, *lines: bytes) -> list[bytes]:
        """The answers of the program to these lines, after connection 1 has begun 0.1, which owns NAMES names, and 2 waits for the last and the first of them."""
        names = [b"%d" % number for number in range(self.NAMES)]
        locks = [b"1 lock 0.1 " + b" ".join(names[first : first + 100]) for first in range(0, self.NAMES, 100)]
        before = [b"1 begin", *locks, b"2 begin %d" % (self.NAMES - 1), b"2 begin 0"]
        told = run(PROGRAM, "locks", "--connections", "3", "--names", "5000", given=b"".join(line + b"\n" for line in [*before, *lines]))
        return self.passes(told).out.split(b"\n")[len(before) : -1]

    def test_parts_of_a_commit(self) -> None:
        """Each line gives back 1,024 names, the one that it got last first, and says that there is more. It is counted at the last part."""
        self.assertEqual(self.given(*[b"1 commit 0.1", b"0 totals"] * 4),
                         [b"2 * granted 1.1 2999", b"* more 0.1", b"0 totals 3 0 0 0", b"* more 0.1", b"0 totals 3 0 0 0",
                          b"1 committed", b"2 * granted 2.1 0", b"0 totals 3 1 0 0", b"1 refused no-transaction", b"0 totals 3 1 0 0"])  # fmt: skip

    def test_parts_of_an_abort(self) -> None:
        """The same of an abort by the operator, of which the connection is told at the last part; and a hang-up ends what is left."""
        parts = [b"2 * granted 1.1 2999", b"* more 0.1", b"* more 0.1"]
        self.assertEqual(self.given(*[b"0 abort 0.1"] * 3), [*parts, b"0 aborted", b"1 * aborted 0.1", b"2 * granted 2.1 0"])
        self.assertEqual(self.given(b"1 abort 0.1", b"1 abort 0.1", b"- 1", b"0 totals"), [*parts, b"2 * granted 2.1 0", b"- 1", b"0 totals 3 0 1 0"])

    def test_parts_of_a_hang_up(self) -> None:
        """A line of a hang-up gives back no more names either. The transaction is live until its last part."""
        self.assertEqual(self.given(*[b"- 1", b"0 totals"] * 3),
                         [b"2 * granted 1.1 2999", b"* more 1", b"0 totals 3 0 0 0", b"* more 1", b"0 totals 3 0 0 0", b"2 * granted 2.1 0", b"- 1", b"0 totals 3 0 1 0"])

    def test_between_the_parts(self) -> None:
        """Who is ending asks for nothing more, and gives no name back by itself. Its client and the operator see that it is ending."""
        refused = b"1 refused no-transaction"
        self.assertEqual(self.given(b"0 abort 0.1", b"1 lock 0.1 x", b"1 lock 0.1 x y", b"1 try 0.1 x", b"1 unlock 0.1 0", b"1 cancel 0.1", b"1 status 0.1"),
                         [b"2 * granted 1.1 2999", b"* more 0.1", *[refused] * 5, b"1 ending"])  # fmt: skip
        self.assertEqual(self.given(b"1 commit 0.1", b"2 status 0.1", b"0 list", b"1 commit 0.1", b"1 commit 0.1", b"0 status 0.1"),
                         [b"2 * granted 1.1 2999", b"* more 0.1", b"2 refused no-transaction", b"0 list 3", b"0 * 0.1 1 ending", b"0 * 1.1 2 active", b"0 * 2.1 2 waiting 0 0.1",
                          b"* more 0.1", b"1 committed", b"2 * granted 2.1 0", b"0 refused no-transaction"])  # fmt: skip

    def test_of_a_stranger(self) -> None:
        self.assertEqual(self.given(b"2 commit 0.1", b"0 commit 0.1"), [b"2 refused no-transaction", b"0 refused no-transaction"])

    def test_by_the_server(self) -> None:
        """A client sees one reply, and others have their turns."""
        server = self.server("--names", "5000")
        wire, other = self.wire(server), self.wire(server)
        mine = begun(wire)
        for first in range(0, self.NAMES, 100):
            self.assertEqual(wire.ask(b"lock %b " % mine + b" ".join(b"%d" % number for number in range(first, first + 100))), b"granted")
        theirs = begun(other)
        self.assertEqual(other.ask(b"lock %b 0" % theirs), b"waits " + mine)
        wire.send(b"commit %b\ntotals\n" % mine)
        self.assertEqual(wire.lines(2), [b"committed", b"totals 2 1 0 0"])
        self.assertEqual(other.lines(1), [b"* granted %b 0" % theirs])


class HangUps(ServerCase):
    """One with many transactions hangs up, of which half wait: for each other, and for one of another client."""

    def waits(self, keys: list[bytes]) -> list[bytes]:
        return [b"lock %b %b" % (key, b"held" if number % 4 else b"%d" % (number + 1)) for number, key in enumerate(keys) if number % 2 == 0]

    def test_parts(self) -> None:
        """Each line ends a part of them. All waits are taken back before, so that none of them is granted anything. While some are left the answer says
        so, and when none is, that all are."""
        keys = [b"%d.1" % number for number in range(1, MANY + 1)]
        given = [b"2 begin held", *(b"1 begin %d" % number for number in range(MANY)), *(b"1 " + line for line in self.waits(keys)),
                 b"2 begin", b"2 lock %d.1 0" % (MANY + 1), *[b"- 1", b"0 totals"] * 20]  # fmt: skip
        data = b"".join(line + b"\n" for line in given)
        self.assertIsNone(next(subject for subject in SUBJECTS if subject.name == "connections").difference(data))
        told = run(PROGRAM, "locks", "--connections", "3", given=data)
        lines = self.passes(told).out.split(b"\n")[len(given) - 40 : -1]
        self.assertEqual([line for line in lines if line.startswith((b"1 ", b"2 "))], [b"2 * granted %d.1 0" % (MANY + 1)])
        answers = [line for line in lines if line.endswith(b" 1") and not line.startswith(b"2 ")]
        aborted = [int(line.split(b" ")[4]) for line in lines if line.startswith(b"0 totals ")]
        parts = [after - before for before, after in zip([0, *aborted], aborted)]
        self.assertEqual((len(answers), sum(parts)), (20, MANY))
        self.assertLessEqual(max(parts), PART)
        last = aborted.index(MANY)
        self.assertEqual(answers, [b"* more 1"] * last + [b"- 1"] * (20 - last))

    def test_beside_a_quiet_client(self) -> None:
        """The server sends the line again until all have ended, and another client keeps what it has."""
        written = self.path("written")
        server = self.server(program=self.script(f'"{PROGRAM}" "$@" | tee "{written}"'))
        wire, quiet = self.wire(server), self.wire(server)
        mine, keys = begun(quiet, b"held"), [begun(wire, b"%d" % number) for number in range(MANY)]
        lines = self.waits(keys)
        wire.send(b"".join(line + b"\n" for line in lines))
        self.assertEqual({line[:6] for line in wire.lines(len(lines))}, {b"waits "})
        wire.close()
        until(lambda: self.counts(quiet)[2] == MANY, "all are aborted")
        parts = re.findall(r"^\* more (\d+)\n", read(written), re.M)
        self.assertEqual((len({*parts}), len(parts) >= MANY // PART), (1, True))
        until(lambda: f"\n- {parts[0]}\n" in read(written).rpartition("* more ")[2], "the hang-up is answered")
        self.asks(quiet, (b"holds " + mine, b"holds held"), (b"lock %b 0 1 2" % mine, b"granted"), (b"commit " + mine, b"committed"))
