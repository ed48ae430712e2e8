"""A lock manager of this process alone, by the C extension `_pashkure`: what a transaction asks is answered at once."""
from __future__ import annotations

import importlib
import math
import os
import sys
import threading
import weakref
from time import monotonic
from typing import Any, Callable, Dict, List, Optional, Sequence, Type, TypeVar

from . import backend
from .backend import BY_CLOSE, BY_DROP, BY_FORK, FORGOTTEN, OnEvent, Watch, each, slept
from .errors import Closed, Misuse, Wait, again
from .flows import counts_of, waits_of
from .values import Counts, Retry, decoded
from .wire import Answer, Ask

L = TypeVar("L", bound="Manages")
R = TypeVar("R")

HELD, WAITS, DEADLOCK, BUSY = range(1, 5)
"""Results of `pashkure.h`."""
REFUSALS = {16: b"no-transaction", **dict(enumerate((b"waiting", b"not-waiting", b"name-empty", b"name-too-long", b"not-owner",
                                                     b"transactions-full", b"names-full", b"labels-full", b"counts-full"), 18)),
            28: b"too-many-names"}  # fmt: skip
LIMITS = (8_796_093_022_207, 4_611_686_018_360_279_040)
"""`PASHKURE_LABELS_FULL` begins at so many requests that waited or were told of a deadlock, `PASHKURE_COUNTS_FULL` at so many events."""


class Inside(backend.Session):
    """A session without its ways to sleep: at most one transaction, whose requests are answered as the service answers them."""

    part = sys.maxsize  # one answer has all names

    def __init__(self, owner: "InProcess") -> None:
        super().__init__()
        self._manager, self._slots, self.name_bytes = owner.manager, owner.transactions, owner.name_bytes
        self._seat = owner.extension.Seat(self._bell())

    def _bell(self) -> Callable[[], None]:
        """What is to be called when there is news."""
        return self.is_told

    async def ask(self, ask: Ask) -> Answer:
        """The answer to a request, by the words of the protocol."""
        self.check()
        return _ANSWERS[ask.word](self, ask.names)

    def news(self) -> Optional[Answer]:
        self.check()
        return (b"granted",) if self._seat.is_granted() else None

    def end(self, why: Closed = BY_DROP) -> None:
        if self.why is None:
            self.why = why
            self._manager.abort(self._seat)
            self.is_told()

    def __del__(self) -> None:
        """Ends the transaction, if an exception of a signal kept it from its end."""
        if hasattr(self, "_seat"):
            self._manager.abort(self._seat)

    def forget(self) -> None:
        """In the child of a fork."""
        self.why = BY_FORK

    def _refused(self, result: int) -> Answer:
        if result not in REFUSALS:  # another thread has closed the manager
            raise again(BY_CLOSE)
        return (b"refused", REFUSALS[result])

    def _begin(self, names: Sequence[bytes]) -> Answer:
        result = self._manager.begin(self._seat)
        if result:
            return self._refused(result)
        return (b"begun", self._seat.key, *(self._lock(names) if names else ()))

    def _lock(self, names: Sequence[bytes]) -> Answer:
        for place, name in enumerate(names):
            result, *words = self._manager.lock(self._seat, name)
            if result in (WAITS, DEADLOCK):
                return (b"waits" if result == WAITS else b"deadlock", b"%d" % place, *words)
            if result > HELD:
                return self._refused(result)
        return (b"granted",)

    def _try(self, names: Sequence[bytes]) -> Answer:
        result, *holder = self._manager.try_lock(self._seat, *names)
        if result == BUSY:
            return (b"busy", *holder)
        return self._refused(result) if result > HELD else (b"granted",)

    def _unlock(self, names: Sequence[bytes]) -> Answer:
        result = self._manager.unlock(self._seat, *names)
        return self._refused(result) if result else (b"unlocked",)

    def _commit(self, names: Sequence[bytes]) -> Answer:
        result = self._manager.commit(self._seat)
        return self._refused(result) if result else (b"committed",)

    def _abort(self, names: Sequence[bytes]) -> Answer:
        result = self._manager.abort(self._seat)
        return self._refused(result) if result else (b"aborted",)

    def _cancel(self, names: Sequence[bytes]) -> Answer:
        result = self._manager.cancel(self._seat)
        return self._refused(result) if result else (b"cancelled",)

    def _status(self, names: Sequence[bytes]) -> Answer:
        _, *wait = self._manager.status(self._seat.slot)
        return (b"waiting", *wait) if wait else (b"active",)

    def _holds(self, names: Sequence[bytes]) -> Answer:
        return (b"holds", *sorted(name for name, key in self._manager.owned() if key == self._seat.key))

    def _locks(self, names: Sequence[bytes]) -> Answer:
        return (b"locks", *(word for pair in sorted(self._manager.owned()) for word in pair))

    def _owner(self, names: Sequence[bytes]) -> Answer:
        key = self._manager.owner(*names)
        return (b"free",) if key is None else (b"owner", key)

    def _graph(self, names: Sequence[bytes]) -> Answer:
        told = [self._manager.status(slot) for slot in range(self._slots)]
        lines = [b"* %s %s %s" % (key, *wait) for key, *wait in told if wait]
        return (b"graph", b"%d" % len(lines), *lines)

    def _totals(self, names: Sequence[bytes]) -> Answer:
        return (b"totals", *(b"%d" % number for number in self._manager.totals()[:4]))

    def _counts(self, names: Sequence[bytes]) -> Answer:
        *counted, events = self._manager.totals()
        deadlocks, waits = counted[3:5]
        left = LIMITS[0] - deadlocks - waits, LIMITS[1] - events
        return (b"counts", *(b"%d" % max(0, number) for number in (*counted, events, *left)))

    def _fence(self, names: Sequence[bytes]) -> Answer:
        raise Misuse("in process there are no fences: whoever loses its locks there is this process, and has ended with them")


_ANSWERS: Dict[bytes, Callable[[Inside, Sequence[bytes]], Answer]] = {
    b"begin": Inside._begin, b"lock": Inside._lock, b"try": Inside._try, b"unlock": Inside._unlock, b"commit": Inside._commit,
    b"abort": Inside._abort, b"cancel": Inside._cancel, b"status": Inside._status, b"holds": Inside._holds, b"owner": Inside._owner,
    b"totals": Inside._totals, b"fence": Inside._fence, b"locks": Inside._locks, b"graph": Inside._graph, b"counts": Inside._counts,
}  # fmt: skip


class Session(Inside):
    """For threads."""

    def _bell(self) -> Callable[[], None]:
        self._lock_of_news = threading.Lock()  # released when there is news
        self._lock_of_news.acquire()
        return self._lock_of_news.release

    def is_told(self) -> None:
        try:
            self._lock_of_news.release()
        except RuntimeError:
            pass  # it was released before

    async def _sleep(self, deadline: float) -> None:
        self._lock_of_news.acquire(True, min(max(0.0, deadline - monotonic()), threading.TIMEOUT_MAX))


class InProcess(backend.Ending):
    """The manager, and its sessions."""

    pause = staticmethod(slept)
    reply_timeout = math.inf  # each request is answered at once

    def __init__(self, transactions: int, names: int, name_bytes: int, names_each: int, watch: Watch) -> None:
        if not 0 <= names_each < 2**32:
            raise ValueError("names_each is out of range")
        self.extension, self.transactions, self.name_bytes, self.watch = extension(), transactions, name_bytes, watch
        self.manager = self.extension.Manager(transactions, names, name_bytes, names_each, int.from_bytes(os.urandom(8), "little"))
        self._sessions: "weakref.WeakSet[Inside]" = weakref.WeakSet()
        FORGOTTEN.add(self)

    def new(self, kind: Callable[[Any], Any]) -> Any:
        """A session of this kind, for one transaction."""
        self.check()
        session = kind(self)
        self._sessions.add(session)
        return session

    async def session(self, deadline: float) -> Any:
        return self.new(Session)

    def close(self) -> None:
        self.why = self.why or BY_CLOSE
        for session in each(self._sessions):
            session.end(BY_CLOSE)
        self.manager.close()

    def forget(self) -> None:
        """In the child of a fork, which excludes nobody of the parent."""
        self.why = BY_FORK
        self.manager.forget()
        for session in each(self._sessions):
            session.forget()

    def __str__(self) -> str:
        return "in process"


def extension() -> Any:
    """The C extension. Raises `ImportError` that says why there is none."""
    try:
        return importlib.import_module("_pashkure")
    except ModuleNotFoundError as error:
        raise ImportError("the C extension _pashkure is not there: `pip install` of the package builds it") from error


class Manages:
    """What locks in process have besides: how they are opened, and what a service tells its operator alone."""

    _backend: Any
    _ask: Callable[..., Any]
    _inside: Type[Any] = InProcess

    @classmethod
    def in_process(cls: Type[L], *, transactions: int = 1024, names: int = 4096, name_bytes: int = 64, names_each: int = 0,
                   retry: Retry = Retry(), on_event: OnEvent = None, slow_wait: Optional[float] = None) -> L:  # fmt: skip
        """The locks of this process alone, or of the tasks of one loop, which a lock manager inside this process keeps.

        The child of a fork finds them closed. There are no fences. Raises `ImportError` if the C extension is not installed, and says why
        it is not.

        - `transactions`: how many can be live at a time, 1 to 65,536.
        - `names`: how many can be owned at a time, 1 to 16,777,216. `name_bytes`: how many bytes each may have, 1 to 1,024.
        - `names_each`: how many a transaction may own, so that one that asks for many is refused, as `TooManyNames`, before it owns the
          names of all others. 0: as many as there are.
        - `retry`, `on_event`, `slow_wait`: as for `connect`.
        """
        kind: Any = cls
        locks: L = kind(cls._inside(transactions, names, name_bytes, names_each, Watch(on_event, slow_wait)), retry)
        return locks

    def locks(self) -> Dict[str, str]:
        """The names that are owned, each with the key of its owner. Of `in_process` alone, as `graph` and `counts`: else it raises `Misuse`."""
        return self._told(b"locks", lambda words: {decoded(name): key.decode("ascii") for name, key in zip(words[1::2], words[2::2])})

    def graph(self) -> List[Wait]:
        """All waits."""
        return self._told(b"graph", waits_of)

    def counts(self) -> Counts:
        """What was counted, and how many events are left until the locks have to be opened again."""
        return self._told(b"counts", lambda words: counts_of(words))

    def _told(self, word: bytes, read: Callable[[Answer], R]) -> R:
        if not isinstance(self._backend, InProcess):
            raise Misuse(f"{word.decode()} of a service is its operator's: pashkure.Operator")
        told: R = self._ask(word, read)
        return told
