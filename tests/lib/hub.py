"""The lock service with connections, by crates/mm_connections/README.md, on top of the service: `C REQUEST` and `- C`."""
import re
from typing import Optional

from lib.service import LONGEST, Refused, Service, given_by, key_of, limits_of, name_of, parsed
from lib.table import lines_of

NUMBER = re.compile(rb"(?:0|[1-9][0-9]{0,19})\Z")
CONNECTIONS = 5
"""Those of a service that answers inputs."""
OPERATOR = 0
PART = 256
"""How many transactions of one that hangs up are set aside by one line, and how many end at most."""
END_PART = 1024
"""How many names are given back at most by one line that hangs up, or that ends a transaction which owns more."""
OPERATOR_MAY = {b"owner", b"totals", b"graph", b"status", b"holds", b"abort", b"hello", b"list", b"counts"}
OPERATORS = {b"graph", b"list", b"counts"}
ENDS = {b"commit", b"abort"}
OF_OPEN = {b"lock", b"try", b"unlock", b"cancel"}
"""What a transaction that is set aside cannot ask for."""
ABOUT_NO_KEY = {b"begin", b"owner"}
OF_TRANSACTION = {"no-transaction", "waiting"}
FURTHER = {b"begin": "names", b"lock": "key names", b"fence": "key name", b"hello": "", b"list": "", b"counts": ""}
"""What follows the words that only a service with connections has."""


def further(line: bytes) -> Optional[list[bytes]]:
    """The words of a request that only a service with connections has, keys without zeros in front."""
    words = [word for word in line.split(b" ") if word]
    if not words or words[0] not in FURTHER or len(line) > LONGEST:
        return None
    kinds, parts = FURTHER[words[0]].split(), words[1:]
    if kinds[-1:] == ["names"]:
        kinds += ["name"] * (len(parts) - len(kinds))
    if len(kinds) != len(parts) or not kinds and parts:
        return None
    read = [key_of(part) if kind == "key" else name_of(part) for kind, part in zip(kinds, parts)]
    return [words[0], *(part for part in read if part is not None)] if None not in read else None


class Hub:
    """The state of a service with connections. A transaction of `began` is its connection's."""

    def __init__(self, connections: int, each: Optional[int] = None, epoch: Optional[int] = None, **limits: int) -> None:
        self.service = Service(**limits)
        self.connections, self.epoch = connections, epoch
        self.each = each or -(-self.service.table.processes // 4)
        self.began: dict[bytes, int] = {}  # in the order of the begins
        self.aside: list[bytes] = []  # of those that hang up, whose waits were taken back; the last one first
        self.is_malformed = False

    def answer(self, line: bytes) -> list[bytes]:
        """The lines that are written for a line without its newline."""
        line = line[:-1] if line.endswith(b"\r") else line
        head, space, rest = line.partition(b" ")
        number = self.number(rest if head == b"-" else head)
        if len(line) > LONGEST + len(b"65535 ") or not space or number is None:
            self.is_malformed = True
            return []
        return self.hang_up(number) if head == b"-" else self.serve(number, rest)

    def number(self, word: bytes) -> Optional[int]:
        return int(word) if NUMBER.match(word) and int(word) < self.connections else None

    def serve(self, connection: int, request: bytes) -> list[bytes]:
        to = b"%d " % connection
        words = parsed(request)
        words = further(request) if words is None else words
        if not words:
            self.is_malformed = True
            return [to + b"malformed"]
        word, *parts = words
        if connection != OPERATOR and word in OPERATORS or connection == OPERATOR and word == b"begin":
            return [to + b"refused operator"]
        key = parts[0] if parts and word not in ABOUT_NO_KEY else None
        may = word in OPERATOR_MAY if connection == OPERATOR else self.began.get(key or b"") == connection
        if connection != OPERATOR and word in OF_OPEN and key in self.aside:
            may = False
        if key is not None and not may:
            return [to + b"refused no-transaction"]
        if word in ENDS and key is not None and self.ends_by_parts(word, key):
            return self.end_part(key)
        try:
            reply, *rest = self.reply(connection, word, parts)
        except Refused as refused:
            return [to + b"refused " + str(refused).encode()]
        if word in OPERATORS:
            return [to + line for line in (reply, *rest)]
        if connection == OPERATOR and reply == b"aborted":
            rest = [b"* aborted " + parts[0], *rest]
        if word == b"lock" and reply.startswith(b"deadlock "):
            rest = [b"* deadlock" + self.service.cycle, *rest]
        return [to + reply, *self.told(rest)]

    def reply(self, connection: int, word: bytes, parts: list[bytes]) -> list[bytes]:
        """The reply, and what the request caused or the further lines."""
        if word == b"begin":
            return [self.begin_with(connection, parts)]
        if word == b"lock" and len(parts) > 2:
            return [self.lock_names(parts[0], parts[1:]) or b"granted"]
        if word == b"status":
            return [self.status(parts[0])]
        own = getattr(self, word.decode(), None) if word in FURTHER else None
        return own(*parts) if own is not None else self.service.make(word, *parts)

    # -- ends by parts

    def owned(self, key: bytes) -> int:
        """How many names a transaction owns; none if it has ended."""
        process = self.service.keys.get(key)
        return 0 if process is None else len(self.service.names[process])

    def ends_by_parts(self, word: bytes, key: bytes) -> bool:
        if self.owned(key) <= END_PART:
            return False
        return word == b"abort" or self.service.keys[key] not in self.service.table.wait

    def end_part(self, key: bytes) -> list[bytes]:
        """Takes back the wait of a transaction, and gives back a part of its names. The line is to be sent again."""
        if key not in self.aside:
            self.aside.insert(0, key)
        self.service.make(b"cancel", key)
        return [*self.give_back(key), b"* more " + key]

    def give_back(self, key: bytes) -> list[bytes]:
        """Gives back the names that a transaction was granted last."""
        process, lines = self.service.keys[key], []
        for _ in range(END_PART):
            _, *events = self.service.make(b"unlock", key, self.service.names[process][-1])
            lines += self.told(events)
        return lines

    # -- several names

    def begin_with(self, connection: int, names: list[bytes]) -> bytes:
        if sum(key in self.service.keys for key in self.own(connection)) >= self.each:
            raise Refused("transactions-full")
        reply = self.service.begin()
        self.begin(connection, reply[len(b"begun ") :])
        stop = self.lock_names(reply[len(b"begun ") :], names)
        return reply + b" " + stop if stop else reply

    def lock_names(self, key: bytes, names: list[bytes]) -> bytes:
        """What stopped a request of several names; nothing if all are owned."""
        for place, name in enumerate(names):
            try:
                reply = self.service.lock(key, name)
            except Refused as refused:
                return b"refused " + (b"" if str(refused) in OF_TRANSACTION else b"%d " % place) + str(refused).encode()
            if reply not in (b"granted", b"held"):
                return reply.replace(b" ", b" %d " % place, 1)
        return b""

    # -- reads

    def fence(self, key: bytes, name: bytes) -> list[bytes]:
        process = self.service.live(key)
        if self.epoch is None:
            raise Refused("no-epoch")
        if len(name) > self.service.name_bytes:
            raise Refused("name-too-long")
        if self.service.table.owner.get(name) != process:
            raise Refused("not-owner")
        return [b"fence %d %d" % (self.epoch, self.service.events)]

    def hello(self) -> list[bytes]:
        return [b"hello 2 %d %d %d %d" % (self.epoch or 0, self.service.table.processes, self.service.names_limit, self.service.name_bytes)]

    def list(self) -> list[bytes]:
        live = sorted(self.service.keys, key=self.service.keys.__getitem__)
        return [b"list %d" % len(live), *(b"* %b %d %b" % (key, self.began[key], self.status(key)) for key in live)]

    def status(self, key: bytes) -> bytes:
        said = self.service.status(key)
        return b"ending" if key in self.aside else said

    def counts(self) -> "list[bytes]":
        service, events = self.service, self.service.events
        said = [*service.counts, service.waits, service.withdrawn, events, 2**43 - 1 - service.counts[3] - service.waits, 2**62 - 2**26 - events]
        return [b" ".join([b"counts", *(b"%d" % number for number in said)])]

    # -- who is told, and hang-ups

    def own(self, connection: int) -> "list[bytes]":
        """The transactions of a connection, the one begun last first, with those that have ended and whose processes are free."""
        return [key for key, owner in reversed(self.began.items()) if owner == connection]

    def begin(self, connection: int, key: bytes) -> None:
        """What is known of the transaction that had the process before goes."""
        process = key.split(b".")[0]
        self.began = {other: owner for other, owner in self.began.items() if other.split(b".")[0] != process}
        self.began[key] = connection

    def told(self, events: "list[bytes]") -> "list[bytes]":
        """Each event with the number of the connection that it concerns."""
        return [b"%d %b" % (OPERATOR if event.startswith(b"* deadlock") else self.began[event.split(b" ")[2]], event) for event in events]

    def hang_up(self, connection: int) -> "list[bytes]":
        """A part of a hang-up: first the waits of all transactions are taken back, part by part, and then they end."""
        for key in [key for key in self.own(connection) if key not in self.aside][:PART]:
            self.service.make(b"cancel", key)
            self.aside.insert(0, key)
        own = {*self.own(connection)}
        lines = self.end_front([key for key in self.aside if key in own]) if own <= {*self.aside} else []
        return [*lines, (b"* more %d" if self.own(connection) else b"- %d") % connection]

    def end_front(self, keys: "list[bytes]") -> "list[bytes]":
        """Ends the first of these transactions that own END_PART names in all at most, or gives back so many of the first one."""
        if keys and self.owned(keys[0]) > END_PART:
            return self.give_back(keys[0])
        lines: "list[bytes]" = []
        left = END_PART
        for key in keys[:PART]:
            left -= self.owned(key)
            if left < 0:
                break
            _, *events = self.service.make(b"abort", key)
            lines += self.told(events)
            del self.began[key]
        return lines


def answers(data: bytes) -> tuple[int, bytes]:
    """The status and the lines that the service writes to an input. The first line, which says its limits, is answered to nobody."""
    given = given_by(data)
    hub = Hub(CONNECTIONS, given.get("each"), given.get("epoch"), **limits_of(data))
    lines = [reply for line in lines_of(data) for reply in hub.answer(line)]
    return int(hub.is_malformed), b"".join(line + b"\n" for line in lines)
