"""Lines of all bytes of several connections at once, cut anywhere: what the server gives the program is exactly what each client sent, behind
its number; the program alone, given the same, writes the same; and each client is told exactly what is for it."""
import random
import signal
import socket
import threading
from typing import Iterator

from lib.draw import Requests, any_bytes, odd
from lib.search import read
from lib.world import IS_SLOW, PROGRAM, SEED, Case, Server, Wire, each, run, until

CLIENTS = 6
TURNS = 200 if IS_SLOW else 12
BATCHES = 4
SIZE = (16, 12, 64)
LIMIT = Requests.longest
OPERATOR = [b"graph", b"totals", b"abort 0.1", b"status 1.1", b"holds 2.1", b"begin", b"lock 0.1 a", b"- 1", b"", b"x" * 3000, b"owner a\r\r"]


def drawn(chance: random.Random, keys: list[bytes]) -> list[bytes]:
    """Some lines, few enough that a client that sends them all before it reads does not wait for itself: requests of these transactions, some of
    them odd, and any bytes."""
    draws = Requests(chance, SIZE)
    lines = [draws.request(keys) for _ in range(chance.choice([1, 5, 20, 50]))]
    for place in chance.sample(range(len(lines)), len(lines) // 3):
        kind = chance.random()
        lines[place] = odd(chance, lines[place], LIMIT) if kind < 0.7 else any_bytes(chance, [], 30).replace(b"\n", b"\r")
        if kind > 0.98:
            lines[place] = b"x" * chance.choice([5_000, 65_536, 200_000])
    return [*lines, b"begin"] if chance.random() < 0.5 else lines


def pieces(data: bytes, chance: random.Random) -> Iterator[bytes]:
    """The bytes in pieces, which end anywhere, and often just before or behind a newline."""
    newlines = [place for place, byte in enumerate(data) if byte == 0x0A]
    cuts = []
    for _ in range(chance.choice([0, 1, 3, 10, 40])):
        cuts.append(chance.choice([chance.randrange(len(data)), chance.choice(newlines), chance.choice(newlines) + 1]))
    for start, end in zip([0, *sorted(cuts)], [*sorted(cuts), len(data)]):
        if start < end:
            yield data[start:end]


def passed_on(line: bytes) -> bytes:
    """What the program is to be given of a line."""
    return b"malformed" if len(line) - line.endswith(b"\r") > LIMIT else line


class Session:
    """A connection from its start to its end: what it sent, and what it was told."""

    def __init__(self, wire: Wire, name: bytes, chance: random.Random) -> None:
        self.wire, self.chance = wire, chance
        self.keys = [b"%d.%d" % (chance.randrange(9), chance.randrange(1, 4)) for _ in range(4)]
        self.sent: list[bytes] = [b"owner session/" + name]
        self.told: list[bytes] = []
        self.is_cut = False

    def run(self, is_cut: bool) -> None:
        self.talk([])
        for _ in range(BATCHES):
            self.talk(drawn(self.chance, self.keys))
        self.is_cut = is_cut
        if not is_cut:
            self.wire.send(b"begin\nlock 0.1 a\nhalf a line")
            self.sent += [b"begin", b"lock 0.1 a"]
            self.wire.socket.shutdown(socket.SHUT_WR)
            self.told += self.wire.all().split(b"\n")[:-1]
        self.wire.close()

    def talk(self, lines: list[bytes]) -> None:
        self.sent += lines
        new = lines or self.sent
        for piece in pieces(b"".join(line + b"\n" for line in new), self.chance):
            self.wire.send(piece)
        replies = self.wire.replies(len(new))
        self.told += replies
        self.keys = [*self.keys, *(reply[6:] for reply in replies if reply.startswith(b"begun "))][-6:]


class Client(threading.Thread):
    """Sessions one after another."""

    def __init__(self, path: str, number: int, seed: int) -> None:
        super().__init__()
        self.path, self.number, self.random = path, number, random.Random(f"between {seed} {number}")
        self.sessions: list[Session] = []
        self.error: BaseException | None = None

    def run(self) -> None:
        try:
            for turn in range(TURNS):
                self.sessions.append(Session(Wire(self.path), b"%d/%d" % (self.number, turn), self.random))
                self.sessions[-1].run(self.random.random() < 0.3)
        except BaseException as error:
            self.error = error


def split(data: bytes) -> dict[bytes, list[list[bytes]]]:
    """By the number of each connection, the lines of each client that had it."""
    found: dict[bytes, list[list[bytes]]] = {}
    for line in data.split(b"\n")[:-1]:
        head, _, rest = line.partition(b" ")
        if head == b"-":
            found.setdefault(rest, [[]]).append([])
        else:
            found.setdefault(head, [[]])[-1].append(rest)
    return found


class Between(Case):
    def recorded(self) -> Server:
        """A server whose program is recorded: its words, what it is given, and what it writes."""
        self.given, self.written, self.words, self.admin = (self.path(name) for name in ("given", "written", "words", "admin"))
        program = self.script(f'echo "$*" > "{self.words}"; tee "{self.given}" | "{PROGRAM}" "$@" | tee "{self.written}"')
        return self.server("--transactions", "16", "--names", "12", "--name-bytes", "64", "--each", "5", "--admin", self.admin, program=program)

    @each([("one seed", 1), ("a new seed", SEED)])
    def test_interleaved(self, name: str, seed: int) -> None:
        server = self.recorded()
        clients, operator = [Client(server.path, number, seed) for number in range(CLIENTS)], Session(self.wire(self.admin), b"operator", random.Random(seed))
        for client in clients:
            client.start()
        operator.talk([])
        while any(client.is_alive() for client in clients):
            operator.talk(operator.chance.choices(OPERATOR, k=5))
        for client in clients:
            client.join()
            self.assertIsNone(client.error)
        until(lambda: self.all_have_left(operator), "all have left")
        self.assertEqual((server.close(), server.stderr()), (0, ""))
        sessions = {each.sent[0]: each for client in clients for each in client.sessions}
        given, written = split(read(self.given)), split(read(self.written))
        found = 0
        for number in given.keys() - {b"0"}:
            self.assertEqual(len(given[number]), len(written[number]), f"hang-ups of {number!r}")
            for lines, told in zip(given[number], written[number]):
                if not lines:
                    continue
                found += 1
                self.is_as_recorded(sessions[lines[0]], lines, told)
        self.assertEqual(found, len(sessions))
        self.assertGreaterEqual(len(sessions), CLIENTS * TURNS)
        self.assertEqual(given[b"0"], [[b"totals", *map(passed_on, operator.sent)]])
        self.assertEqual(operator.told, written[b"0"][0][1 : len(operator.told) + 1])
        self.is_written_by_the_program_alone()

    def all_have_left(self, operator: Session) -> bool:
        """Asks who is connected. The program is asked for the totals, whose reply has the turn of the answer."""
        operator.sent.append(b"totals")
        operator.wire.send(b"clients\n")
        line = b""
        while not line.startswith(b"clients "):
            line = operator.wire.lines(1)[0]
        return not operator.wire.lines(int(line.split(b" ")[1]))

    def is_as_recorded(self, session: Session, lines: list[bytes], told: list[bytes]) -> None:
        self.assertEqual(lines, [passed_on(line) for line in session.sent])
        heard = session.told
        self.assertEqual(heard, told[: len(heard)] if session.is_cut else told)

    def is_written_by_the_program_alone(self) -> None:
        alone = run(PROGRAM, *read(self.words).decode().split(), given=read(self.given))
        self.assertEqual(alone.out, read(self.written))
        self.assertNotIn(alone.status, (-signal.SIGSEGV, 3, 4))
