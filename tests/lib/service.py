"""The lock service by docs/SERVICE.md, on top of the table of docs/ALGORITHM.md.

It says each reply exactly, and the order of grants. That order is promised by no page: a transaction that ends hands over its names by their numbers, and a name that
nobody owned gets the number that was freed last, or else the least that was never used. If nobody waits for any, what was granted last is freed first."""
import re
from typing import Callable, Optional

from lib.table import Table, lines_of, shown

LARGEST = 2**32 - 1
LONGEST = 1048
"""Bytes of a line: `unlock`, a key of 16 bytes, a name of 1,024, and two spaces."""
NUMBER = re.compile(rb"[0-9]{1,20}\Z")
NAME = re.compile(rb"[!-~\x80-\xff]{1,1024}\Z")
PART = 1024
"""Names of a transaction that a reply tells. If there are more, two dots follow."""
LONGEST_PATH = 16
"""Waits of a cycle that a line tells."""
LIMITS = {"transactions": 65_536, "names": 65_536, "name_bytes": 64, "names_each": 0}
GREATEST = {"transactions": 65_536, "names": 16_777_216, "name-bytes": 1_024, "names-each": 16_777_216, "each": 65_536, "epoch": 2**63 - 1}
"""The greatest number that each option may have. The least is 1; `names-each` may be 0, for as many as there are."""


class Refused(Exception):
    """A request is refused, by this word. Nothing has changed."""


def key_of(word: bytes) -> Optional[bytes]:
    """The key that a word says, without zeros in front."""
    numbers = word.split(b".")
    if len(numbers) != 2 or not all(NUMBER.match(number) and int(number) <= LARGEST for number in numbers):
        return None
    return b"%d.%d" % tuple(map(int, numbers))


def name_of(word: bytes) -> Optional[bytes]:
    return word if NAME.match(word) else None


FORMS: dict[bytes, tuple[Callable[[bytes], Optional[bytes]], ...]] = {
    b"begin": (), b"lock": (key_of, name_of), b"try": (key_of, name_of), b"unlock": (key_of, name_of), b"commit": (key_of,), b"abort": (key_of,),
    b"cancel": (key_of,), b"owner": (name_of,), b"status": (key_of,), b"holds": (key_of,), b"graph": (), b"totals": (),
}  # fmt: skip


def parsed(line: bytes) -> Optional[list[bytes]]:
    """The words of a request, keys without zeros in front. None if the line is malformed, and no words if it asks for nothing."""
    words = [word for word in line.split(b" ") if word]
    if len(line) > LONGEST:
        return None
    if not words or words[0].startswith(b"#"):
        return []
    readers = FORMS.get(words[0])
    if words[0] == b"holds" and len(words) == 3:
        readers = (key_of, name_of)
    if readers is None or len(readers) != len(words) - 1:
        return None
    parts = [part for part in (reader(word) for reader, word in zip(readers, words[1:])) if part is not None]
    return [words[0], *parts] if len(parts) == len(readers) else None


class Names(Table):
    """A table whose resources are names. How many there may be its caller tests."""

    def resource_of(self, resource: bytes) -> bytes:
        return resource


class Service:
    """The state of a service, and its requests. Each returns its reply, and `caused` has the lines behind it."""

    def __init__(self, transactions: int = LIMITS["transactions"], names: int = LIMITS["names"], name_bytes: int = LIMITS["name_bytes"],
                 names_each: int = LIMITS["names_each"]) -> None:  # fmt: skip
        self.names_limit, self.name_bytes, self.names_each = names, name_bytes, names_each
        self.table = Names(transactions, names, 2**43, LARGEST)
        self.keys: dict[bytes, int] = {}  # of live transactions: their processes
        self.names: dict[int, list[bytes]] = {}  # by process: what it owns, in the order of the grants
        self.numbers: dict[bytes, int] = {}  # of names that are owned
        self.freed: list[int] = []  # numbers, of which the last one is given again first
        self.counts = [0, 0, 0, 0]  # begun, committed, aborted, deadlocks
        self.waits = self.withdrawn = 0
        self.events = 0  # of the table, with each settle
        self.caused: list[bytes] = []
        self.cycle = b""  # that the last request would have closed, from its own wait on
        self.is_malformed = False

    def answer(self, line: bytes) -> list[bytes]:
        """The lines of the answer to a line without its newline: none, or a reply and what it caused."""
        request = parsed(line[:-1] if line.endswith(b"\r") else line)
        if request is None:
            self.is_malformed = True
            return [b"malformed"]
        return self.make(*request) if request else []

    def make(self, word: bytes, *parts: bytes) -> list[bytes]:
        """Makes a request. Returns its reply and what it caused."""
        self.caused = []
        try:
            reply = getattr(self, "try_lock" if word == b"try" else word.decode())(*parts)
        except Refused as refused:
            return [b"refused " + str(refused).encode()]
        return [reply, *self.caused]

    # -- what requests have in common

    def key(self, process: int) -> bytes:
        return shown(self.table.key(process)).encode()

    def live(self, key: bytes) -> int:
        if key not in self.keys:
            raise Refused("no-transaction")
        return self.keys[key]

    def idle(self, key: bytes, name: bytes = b"") -> int:
        """A transaction that may ask for something."""
        process = self.live(key)
        if process in self.table.wait:
            raise Refused("waiting")
        if len(name) > self.name_bytes:
            raise Refused("name-too-long")
        return process

    def take(self, process: int, name: bytes) -> Optional[bytes]:
        """Gives the name to the transaction if nobody owns it. None if another one does."""
        owner = self.table.owner.get(name)
        if owner == process:
            return b"held"
        if self.names_each and len(self.names[process]) >= self.names_each:
            raise Refused("too-many-names")
        if owner is not None:
            return None
        if len(self.table.owner) >= self.names_limit:
            raise Refused("names-full")
        self.table.owner[name] = process
        self.names[process].append(name)
        self.numbers[name] = self.freed.pop() if self.freed else len(self.numbers)
        self.events += 1
        return b"granted"

    def hand_over(self, process: int, names: list[bytes]) -> None:
        """Gives each name to its longest waiter."""
        mine, given = self.names[process], {*names}
        owned = names if len(names) == 1 else [name for name in reversed(mine) if name in given]
        if any(self.table.queue.get(name) for name in owned):
            owned.sort(key=self.numbers.__getitem__)
        for name in owned:
            if mine[-1] == name:
                mine.pop()
            else:
                mine.remove(name)
            heir = self.table.hand_over(name)
            if heir is not None:
                self.names[heir].append(name)
                self.caused.append(b"* granted %b %b" % (self.key(heir), name))
        self.freed += [self.numbers.pop(name) for name in owned if name not in self.table.owner]
        self.events += 1 + any(self.table.queue.get(name) for name in owned)  # a settle follows if one of those that got new labels waits
        self.table.settle()

    def end(self, process: int) -> None:
        """Ends a transaction that does not wait."""
        del self.keys[self.key(process)]
        self.hand_over(process, list(self.names[process]))
        self.table.vacate(process)

    def withdraw(self, process: int) -> None:
        """Takes back a wait."""
        self.events += 1 + self.table.withdraw(process)

    def path(self, places: list[int]) -> bytes:
        """The waits of these transactions, as a line tells them: each with the name that it waits for."""
        pairs = [b" %b %b" % (self.key(place), self.table.wait[place]) for place in places[:LONGEST_PATH]]
        return b"".join([*pairs, b" .."] if len(places) > LONGEST_PATH else pairs)

    # -- requests

    def begin(self) -> bytes:
        if not self.table.freed and self.table.unused == self.table.processes:
            raise Refused("transactions-full")
        key = self.table.begin()[4:].encode()
        self.keys[key] = int(key.split(b".")[0])
        self.names[self.keys[key]] = []
        self.counts[0] += 1
        self.events += 1
        return b"begun " + key

    def lock(self, key: bytes, name: bytes) -> bytes:
        process = self.idle(key, name)
        reply = self.take(process, name)
        if reply is not None:
            return reply
        self.table.acquire(self.table.key(process), name)
        self.table.settle()
        self.events += 2
        cycle = self.table.cycle(process)
        assert self.table.verdicts == ({process} if cycle else set()), "labels and the search do not agree"
        if not cycle:
            self.waits += 1
            return b"waits " + self.key(self.table.owner[name])
        self.counts[3] += 1
        self.cycle, rest = self.path(cycle), self.path(cycle[1:])
        self.table.take_back(process)
        return b"deadlock" + rest

    def try_lock(self, key: bytes, name: bytes) -> bytes:
        reply = self.take(self.idle(key, name), name)
        return reply if reply is not None else b"busy " + self.key(self.table.owner[name])

    def unlock(self, key: bytes, name: bytes) -> bytes:
        process = self.idle(key, name)
        if self.table.owner.get(name) != process:
            raise Refused("not-owner")
        self.hand_over(process, [name])
        return b"unlocked"

    def commit(self, key: bytes) -> bytes:
        process = self.idle(key)
        self.counts[1] += 1
        self.end(process)
        return b"committed"

    def abort(self, key: bytes) -> bytes:
        process = self.live(key)
        if process in self.table.wait:
            self.withdraw(process)
        self.counts[2] += 1
        self.end(process)
        return b"aborted"

    def cancel(self, key: bytes) -> bytes:
        process = self.live(key)
        if process not in self.table.wait:
            raise Refused("not-waiting")
        self.withdraw(process)
        self.withdrawn += 1
        return b"cancelled"

    def owner(self, name: bytes) -> bytes:
        process = self.table.owner.get(name)
        return b"free" if process is None else b"owner " + self.key(process)

    def status(self, key: bytes) -> bytes:
        process = self.live(key)
        if process not in self.table.wait:
            return b"active"
        return b"waiting %b %b" % (self.table.wait[process], self.key(self.table.holder(process)))

    def holds(self, key: bytes, after: bytes = b"") -> bytes:
        names = sorted(name for name in self.names[self.live(key)] if name > after)
        return b" ".join([b"holds", *names[:PART], *([b".."] if len(names) > PART else [])])

    def graph(self) -> bytes:
        waits = [(self.key(process), name, self.key(self.table.owner[name])) for process, name in sorted(self.table.wait.items())]
        self.caused = [b"* %b %b %b" % wait for wait in waits]
        return b"graph %d" % len(waits)

    def totals(self) -> bytes:
        return b"totals %d %d %d %d" % tuple(self.counts)


def given_by(data: bytes) -> dict[str, int]:
    """The options that the first line of an input asks for: `# --names 7` and so on. To the service it is a comment. One out of range is none."""
    head = data.partition(b"\n")[0].decode("latin-1")
    given = re.findall(r"--([a-z-]+) ([0-9]+)", head) if head.startswith("# --") else []
    return {name: int(number) for name, number in given if 1 <= int(number) <= GREATEST.get(name, 0)}


def limits_of(data: bytes) -> dict[str, int]:
    """The limits that an input asks for."""
    given = given_by(data)
    return {name: given.get(name.replace("_", "-"), most) for name, most in LIMITS.items()}


def answers(data: bytes) -> tuple[int, bytes]:
    """The status and the lines that the service writes to an input."""
    service = Service(**limits_of(data))
    replies = [reply for line in lines_of(data) for reply in service.answer(line)]
    return int(service.is_malformed), b"".join(reply + b"\n" for reply in replies)
