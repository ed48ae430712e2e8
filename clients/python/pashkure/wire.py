"""The protocol of the socket (docs/SERVICE.md), as bytes. Nothing here reads or writes."""
import math
import re
from collections import deque
from time import monotonic
from typing import Deque, Dict, List, NamedTuple, Optional, Sequence, Tuple

from .errors import ProtocolError

LONGEST = 1048
"""Bytes of a line."""


class Ask(NamedTuple):
    """A request: its word, and its names or the key of another transaction. The key of its own transaction is added where it is sent."""

    word: bytes
    names: Tuple[bytes, ...] = ()
    deadline: float = math.inf
    """When its reply has to be there, if that is sooner than what the backend allows each request."""


Answer = Tuple[bytes, ...]
"""The words of a reply, or of how a wait ended; behind those of `graph`, `list` and `clients` the lines that follow."""

_KEY, _NAME, _N = rb"[0-9]{1,10}\.[0-9]{1,10}", rb"[!-~\x80-\xff]+", rb"[0-9]{1,20}"
_PAIRS = rb"(?: KEY NAME)+(?: \.\.)?"
_MORE = rb"(?: NAME)*"  # words of a later version, which are passed over


def _pattern(text: bytes) -> "re.Pattern[bytes]":
    return re.compile(text.replace(b"PAIRS", _PAIRS).replace(b"MORE", _MORE).replace(b"KEY", _KEY).replace(b"NAME", _NAME).replace(b"#", _N))


REPLIES = {
    word: _pattern(text + rb"|refused(?: #)? [a-z]+(?:-[a-z]+)*")
    for word, text in {
        b"begin": rb"begun KEY(?: waits # KEY| deadlock #PAIRS| refused # [a-z-]+)?",
        b"lock": rb"granted|held|waits(?: #)? KEY|deadlock(?: #)?PAIRS", b"try": rb"granted|held|busy KEY", b"unlock": rb"unlocked",
        b"commit": rb"committed", b"abort": rb"aborted", b"cancel": rb"cancelled", b"owner": rb"owner KEY|free",
        b"status": rb"active|ending|waiting NAME KEY", b"holds": rb"holds(?: NAME)*", b"fence": rb"fence # #", b"totals": rb"totals(?: #){4}",
        b"hello": rb"hello(?: #){5}MORE", b"counts": rb"counts(?: #){9}MORE", b"graph": rb"graph #", b"list": rb"list #", b"clients": rb"clients #",
    }.items()
}  # fmt: skip
PLAIN = (b"begin", b"owner", b"totals", b"hello")
"""The requests without a key."""
EVENT = _pattern(rb"\* (?:granted KEY NAME|aborted KEY|deadlockPAIRS)")
LINES = {
    b"graph": _pattern(rb"\* KEY NAME KEY"),
    b"list": _pattern(rb"\* KEY # (?:active|ending|waiting NAME KEY)MORE"),
    b"clients": _pattern(rb"\* # # # #MORE"),
}
"""The lines that follow a reply, for the requests whose replies have some."""


class Party:
    """Whose requests they are: at most one live transaction."""

    key = b""  # of the transaction, from its begin
    is_unwanted = False  # a begin that comes yet is aborted

    def __init__(self) -> None:
        self.told: List[Answer] = []  # how its wait ended, until that is read; or each deadlock, to an operator

    def is_told(self) -> None:
        """Called when `told` has got something, and when a request has its answer or never gets one."""


class Call:
    """A request that was sent, and its answer once that is there."""

    answer: Optional[Answer] = None

    def __init__(self, ask: Ask, party: Party) -> None:
        self.ask, self.party, self.since = ask, party, monotonic()


class Conversation:
    """One connection: requests out, replies and events in, of any number of transactions."""

    def __init__(self, operator: Optional[Party] = None) -> None:
        self.pending: Deque[Call] = deque()
        self._operator = operator  # whom deadlocks are told
        self._live: Dict[bytes, Party] = {}
        self._rest = b""
        self._owed = b""
        self._words: List[bytes] = []  # of a reply of which further lines are to come, and the lines that came

    def send(self, call: Call) -> bytes:
        """The line of a request. Its reply is due from now on."""
        ask, key = call.ask, call.party.key
        self.pending.append(call)
        words = (ask.word, key, *ask.names) if key and ask.word not in PLAIN else (ask.word, *ask.names)
        return b" ".join(words) + b"\n"

    def feed(self, data: bytes) -> bytes:
        """Takes what came, and tells calls and parties. Returns what has to be sent now: the aborts of transactions that nobody wants.

        Raises `ProtocolError` at what no service writes, and `ConnectionResetError` at no data. The connection is of no use then.
        """
        if not data:
            raise ConnectionResetError("it closed the connection")
        *lines, self._rest = (self._rest + data).split(b"\n")
        for line in lines:
            if line.startswith(b"* ") and not self._words:
                self._take_event(line)
            else:
                self._take_reply(line)
        owed, self._owed = self._owed, b""
        return owed

    def abandon(self, party: Party) -> bytes:
        """A call of the transaction was left. What takes it back: what it waits for is cancelled, and one that begins is aborted as soon as its
        key is known."""
        return self.send(Call(Ask(b"cancel"), party)) if party.key in self._live else self.drop(party)

    def drop(self, party: Party) -> bytes:
        """What ends the transaction, whatever it does."""
        party.is_unwanted = True
        return self.send(Call(Ask(b"abort"), party)) if party.key in self._live else b""

    def lost(self) -> None:
        """Tells all calls and parties that nothing comes any more."""
        parties = [*self._live.values(), *(call.party for call in self.pending)]
        self.pending.clear()
        for party in parties:
            party.is_told()

    def is_idle(self) -> bool:
        """Whether no reply is due, and no transaction live."""
        return not self.pending and not self._live

    def _take_reply(self, line: bytes) -> None:
        if not self.pending:
            raise ProtocolError(f"a reply that nobody asked for: {_shown(line)}")
        call = self.pending[0]
        word, party = call.ask.word, call.party
        if not (LINES if self._words else REPLIES)[word].fullmatch(line):
            raise ProtocolError(f"the reply to {word.decode()}: {_shown(line)}")
        self._words += [line] if self._words else line.split(b" ")
        if word in LINES and self._words[0] == word and len(self._words) < 2 + int(self._words[1]):
            return
        self.pending.popleft()
        if word in (b"begin", b"lock"):
            party.told.clear()  # of waits before
        words = call.answer = tuple(self._words)
        self._words = []
        if words[0] == b"begun":
            party.key = words[1]
            self._live[party.key] = party
            if party.is_unwanted:
                self._owed += self.send(Call(Ask(b"abort"), party))
        elif words[0] in (b"committed", b"aborted"):
            self._live.pop(party.key, None)
        party.is_told()

    def _take_event(self, line: bytes) -> None:
        if not EVENT.fullmatch(line):
            raise ProtocolError(f"an event: {_shown(line)}")
        words = tuple(line.split(b" "))[1:]
        party = self._operator if words[0] == b"deadlock" else self._live.get(words[1])
        if party is None:
            raise ProtocolError(f"an event of another connection's transaction: {_shown(line)}")
        if words[0] == b"aborted":
            del self._live[words[1]]
        party.told.append(words)
        party.is_told()


def _shown(line: bytes) -> str:
    return repr(line[:100].decode("ascii", "backslashreplace"))


def cut(names: Sequence[bytes], room: int) -> int:
    """How many of these names, at least one, go into so many bytes with a space before each."""
    for count, name in enumerate(names):
        room -= len(name) + 1
        if room < 0:
            return max(1, count)
    return len(names)
