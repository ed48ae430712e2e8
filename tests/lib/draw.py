"""Scripts and requests that are drawn by chance. A model goes along, so that most of them do something; some lines are odd, and some bytes
are changed."""
import random
from typing import Any, Optional

from lib.hub import CONNECTIONS, Hub
from lib.service import Service
from lib.table import FORMS, Script, Table, shown

SMALL = [(1, 3), (2, 5), (4, 8), (6, 40)]
LABELS = [(1, 3), (4, 40), (41, 400), (17_592_186_044_415, 17_592_186_044_415)]
GENERATIONS = [(1, 3), (4, 30), (2**32 - 1, 2**32 - 1)]
WEIGHTS = {b"begin": 8, b"acquire": 30, b"release": 6, b"transmit": 14, b"detect": 12, b"state": 6, b"owner": 3, b"totals": 1, b"finish": 5,
           b"abort": 9, b"settle": 2, b"give_up": 4, b"table": 0.05, b"table2": 0.05}  # fmt: skip
NAMES = [b"a", b"b", b"c", b"accounts/1", b"accounts/2", "Müller".encode(), "账户".encode(), b"\xff\x80", b"~!", b"thirteenbytes"]
KINDS = {b"lock": 14, b"try": 3, b"unlock": 4, b"commit": 2, b"abort": 2.5, b"cancel": 3, b"begin": 4, b"owner": 1, b"status": 1, b"holds": 1,
         b"graph": 0.5, b"totals": 0.5}  # fmt: skip
FURTHER = {b"begin": 4, b"lock": 8, b"fence": 2, b"hello": 1, b"list": 1, b"counts": 1}
SIZES = [(12, 7, 12), (3, 2, 12), (60, 9, 12), (5, 40, 64), (200, 3, 1024)]
PLAIN = [b"fly", b"acquire 0.1", b"begin 1", b"release 0 0", b"state -1.1", b"settle now", b"x" * 129, b"acquire 0.1 4294967296", b"", b"   ", b"# a comment"]
SILENT = [b"", b" ", b"\r", b"   \r", b"#", b"# begin", b"  #x", b"#\0\xff"]
PIECES = [b"\n", b" ", b"\r\n", b"\r", b"\r\r", b"#", b".", b"-", b"\t", b"\0", b"0", b"1", b"9", b"0.1", b"1.1", b"65536", b"4294967296", b"begin\n", b"* "]


def pick(chance: random.Random, weights: dict[bytes, float]) -> bytes:
    return chance.choices(list(weights), list(weights.values()))[0]


def key(table: Table, process: int) -> bytes:
    return shown(table.key(process)).encode()


class Scripts:
    """Draws the lines of one script."""

    def __init__(self, chance: random.Random) -> None:
        self.chance, self.model = chance, Script()
        self.near = 1

    def draw(self, count: int) -> bytes:
        lines = [self.call(word) for word in WEIGHTS] if self.chance.random() < 0.1 else []  # without a table
        lines.append(self.opening())
        for line in lines:
            self.model.answer(line)
        while len(lines) < count:
            line = self.call(self.word())
            if self.chance.random() < 0.03:
                line = odd(self.chance, line, 128)
            lines.append(line)
            self.model.answer(line)
        return b"\n".join(lines) + self.chance.choice([b"\n", b""])

    def draw_plain(self, count: int, processes: int, resources: int) -> bytes:
        """A script of a table that is opened at once and has room for its labels, whose odd lines are plain text."""
        lines, self.near = [b"table %d %d 1000000 1000000" % (processes, resources)], resources
        self.model.answer(lines[0])
        while len(lines) < count:
            line = self.call(self.word())
            lines.append(self.chance.choice(PLAIN) if self.chance.random() < 0.03 or line.startswith(b"table") else line)
            self.model.answer(lines[-1])
        return b"\n".join(lines) + b"\n"

    def word(self) -> bytes:
        """A word, mostly one that some process can be used for."""
        table, word = self.model.table, pick(self.chance, WEIGHTS)
        for _ in range(10 if table is not None and self.chance.random() < 0.95 else 0):
            has_use = bool(table.freed) or table.unused < table.processes if word == b"begin" else "K" not in FORMS[word] or self.meant(table, word)
            if has_use:
                break
            word = pick(self.chance, WEIGHTS)
        return word

    def opening(self) -> bytes:
        chance = self.chance
        processes, resources = (chance.randint(*chance.choice(SMALL)) if chance.random() < 0.97 else chance.choice([1000, 4096, 4097, 65_536, 65_537]) for _ in range(2))
        self.near = min(resources, max(1, chance.randint(1, 2 * min(processes, 20))))
        limits = chance.randint(*chance.choice(LABELS)), chance.randint(*chance.choice(GENERATIONS))
        return b"%b %d %d %d %d" % (chance.choice([b"table", b"table2"]), processes, resources, *limits)

    def call(self, word: bytes) -> bytes:
        if word in (b"table", b"table2"):
            return self.opening()
        parts = [word]
        for kind in FORMS[word]:
            parts.append(self.key(word) if kind == "K" else self.resource(word, parts))
        return b" ".join(parts)

    def key(self, word: bytes) -> bytes:
        """Mostly a key that the word is for."""
        table, chance = self.model.table, self.chance
        if table is None or not table.live or chance.random() < 0.04:
            return b"%d.%d" % (chance.choice([0, 1, 2, chance.randrange(60), 2**32 - 1]), chance.choice([0, 1, 2, 2**32 - 1]))
        meant = sorted(table.live)
        if chance.random() < 0.9:
            meant = self.meant(table, word) or meant
        return key(table, chance.choice(meant))

    def meant(self, table: Table, word: bytes) -> list[int]:
        active, waiting = sorted(table.live - table.wait.keys()), sorted(table.wait)
        if word == b"detect":
            return [process for process in waiting if table.can_detect(process)] or waiting
        if word == b"transmit":
            return [process for process in waiting if table.public(table.holder(process)) > table.public(process)] or waiting
        others = {b"acquire": active, b"finish": active, b"release": sorted({*table.owner.values()} - table.wait.keys()), b"abort": sorted(table.verdicts),
                  b"state": sorted(table.live)}  # fmt: skip
        return others.get(word, waiting)

    def resource(self, word: bytes, parts: list[bytes]) -> bytes:
        table, chance = self.model.table, self.chance
        if word == b"release" and table is not None and chance.random() < 0.9:
            process = int(parts[1].split(b".")[0])
            owned = table.owned(process)
            if owned:
                return b"%d" % chance.choice(owned)
        if chance.random() < 0.02:
            return b"%d" % chance.choice([table.resources if table else 1, 2**32 - 1])
        return b"%d" % chance.randrange(self.near)


class Requests:
    """Draws the lines of requests of one service."""

    longest = 1048

    def __init__(self, chance: random.Random, size: Optional[tuple[int, int, int]] = None) -> None:
        self.chance = chance
        self.size = size or chance.choice(SIZES)
        self.names_each = chance.choice([0, 0, 0, 1, 2, 5])
        self.model = Service(*self.size, names_each=self.names_each)
        self.head = b"# --transactions %d --names %d --name-bytes %d" % self.size
        self.head += b" --names-each %d" % self.names_each if self.names_each else b""
        self.ended = [b"0.1"]  # keys that were given

    def draw(self, count: int) -> bytes:
        lines = [self.head]
        while len(lines) < count:
            line = self.line()
            if self.chance.random() < 0.03:
                line = odd(self.chance, line, self.longest)
            lines.append(line)
            self.ended += [reply.rpartition(b" ")[2] for reply in self.answer(line) if b"begun " in reply]
        return b"\n".join(lines) + self.chance.choice([b"\n", b""])

    def line(self) -> bytes:
        return self.request()

    def answer(self, line: bytes) -> list[bytes]:
        return self.model.answer(line)

    def request(self, among: Optional[list[bytes]] = None) -> bytes:
        """A request, mostly of a live transaction, of these keys if some are given."""
        kind = pick(self.chance, KINDS)
        words = [kind]
        if kind not in (b"begin", b"owner", b"graph", b"totals"):
            words.append(self.key(kind, list(self.model.keys) if among is None else among))
        if kind in (b"lock", b"try", b"unlock", b"owner"):
            words.append(self.name(kind, words))
        if kind == b"holds" and self.chance.random() < 0.6:
            words.append(self.name(b"unlock" if self.chance.random() < 0.5 else kind, words))
        return self.chance.choice([b" ", b" ", b"   "]).join(words) + self.chance.choice([b"", b"", b"\r"])

    def key(self, kind: bytes, live: list[bytes]) -> bytes:
        chance, waits = self.chance, self.model.table.wait
        if not live or chance.random() < 0.03:
            return chance.choice([self.ended[0], self.ended[-1], b"7.0", b"65535.9", b"00.1"])
        if chance.random() < 0.7:  # one that the word is for
            meant = [each for each in live if (self.model.keys.get(each) in waits) == (kind in (b"cancel", b"abort", b"status"))]
            live = meant or live
        return chance.choice(live)

    def name(self, kind: bytes, words: list[bytes]) -> bytes:
        owned = self.model.names.get(self.model.keys.get(words[-1], -1), [])
        if kind == b"unlock" and owned and self.chance.random() < 0.9:
            return self.chance.choice(owned)
        return self.chance.choice(NAMES) if self.chance.random() < 0.99 else self.chance.choice([b"n" * 1024, b"n" * 1025, b"a\x7f"])


class Connections(Requests):
    """Draws the lines of connections: requests, mostly of a connection's own transactions, and hang-ups."""

    longest = 1054

    def __init__(self, chance: random.Random) -> None:
        super().__init__(chance)
        each, epoch = chance.choice([None, 1, 3, 9]), chance.choice([None, 1, 7, 2**63 - 1])
        self.hub = Hub(CONNECTIONS, each, epoch, transactions=self.size[0], names=self.size[1], name_bytes=self.size[2], names_each=self.names_each)
        self.model = self.hub.service
        self.head += b"".join(b" --%b %d" % (word, number) for word, number in ((b"each", each), (b"epoch", epoch)) if number)

    def answer(self, line: bytes) -> list[bytes]:
        return self.hub.answer(line)

    def line(self) -> bytes:
        connection = self.chance.choices([0, 1, 2, 3, 4, 5], [4, 10, 10, 10, 10, 0.1])[0]
        if self.chance.random() < 0.01:
            return b"- %d" % connection
        own = [key for key, owner in self.hub.began.items() if owner == connection and key in self.model.keys]
        if connection and not own and self.chance.random() < 0.9:
            return b"%d begin" % connection
        among = own if connection and self.chance.random() < 0.95 else None
        return b"%d " % connection + (self.further(among) if self.chance.random() < 0.3 else self.request(among))

    def further(self, among: Optional[list[bytes]]) -> bytes:
        """A request that only connections have."""
        chance, words = self.chance, [pick(self.chance, FURTHER)]
        if words[0] in (b"lock", b"fence"):
            words.append(self.key(words[0], list(self.model.keys) if among is None else among))
        if words[0] == b"fence":
            owned = self.model.names.get(self.model.keys.get(words[1], -1), [])
            words.append(chance.choice(owned) if owned and chance.random() < 0.8 else self.name(words[0], words))
        if words[0] in (b"begin", b"lock"):
            words += [self.name(words[0], words) for _ in range(chance.choice([1, 2, 2, 3, 5]))]
        return b" ".join(words)


def odd(chance: random.Random, line: bytes, longest: int) -> bytes:
    """A line that is seldom: silent, about as long as may be, or with a small fault; some of these are no fault."""
    words, place = line.split(b" "), chance.randrange(len(line) + 1)
    ways = [
        lambda: chance.choice(SILENT),
        lambda: line.ljust(longest + chance.randint(-2, 2)) + chance.choice([b"", b"\r", b"\r\r"]),
        lambda: b"#" * (longest + chance.randint(-1, 2)) + chance.choice([b"", b"\r"]),
        lambda: b" ".join([words[0], *(b"0" * chance.choice([1, 3, 17, 20]) + word for word in words[1:])]),
        lambda: b" ".join(words[:-1]),
        lambda: line + b" 1",
        lambda: line.upper(),
        lambda: b" ".join([*words[:-1], b"%d" % (2 ** chance.choice([32, 64]) + chance.randint(-1, 1))]),
        lambda: line[:place],
        lambda: line[:place] + chance.choice(PIECES[1:]).replace(b"\n", b"") + line[place:],
        lambda: line.replace(b".", chance.choice([b",", b"..", b""]), 1),
        lambda: line[:place] + bytes([chance.choice([byte for byte in range(256) if byte != 10])]) + line[place:],
    ]
    return chance.choice(ways)()


def changed(chance: random.Random, data: bytes) -> bytes:
    """The bytes with some flipped, cut, doubled, or others put in."""
    for _ in range(chance.randint(1, 6)):
        place = chance.randrange(len(data) + 1)
        end = place + chance.choice([0, 1, 1, 2, 10, 300])
        piece = data[place:end]
        new: list[Any] = [b"", piece + piece, chance.choice(PIECES), bytes(byte ^ 1 << chance.randrange(8) for byte in piece), chance.randbytes(len(piece))]
        data = data[:place] + chance.choice(new) + data[end:]
    return data


def any_bytes(chance: random.Random, words: list[bytes], size: int) -> bytes:
    """Bytes of every value alike, or words and signs of a language in any order."""
    if chance.random() < 0.5:
        return chance.randbytes(size)
    pieces = PIECES + words + [word + b" " for word in words]
    return b"".join(chance.choices(pieces, k=size // 3))
