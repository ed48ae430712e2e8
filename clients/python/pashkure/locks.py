"""Locks and transactions, for threads, and the operator's socket (`mmdetect serve --admin PATH`)."""
import inspect
import math
import threading
from typing import TYPE_CHECKING, Any, Callable, Iterator, List, Optional, Tuple, TypeVar

from .backend import OnEvent, Watch, now
from .calls import Calls, Opened
from .errors import Wait
from .flows import asked, counts_of, cycle_of, holds, next_told, status_of, waits_of
from .service import Path, Service
from .values import Client, Counts, Live, Name, Retry, Status, encoded, key_bytes, seconds
from .wire import Answer, Ask

if TYPE_CHECKING:
    from typing_extensions import Concatenate, ParamSpec

    P = ParamSpec("P")
C = TypeVar("C", bound="Closes")
R = TypeVar("R")


class Transaction(Calls):
    """A transaction, which owns the names that it locks until it ends.

    `Locks.transaction` begins one. In a `with` statement it is committed at the end, and aborted if an exception leaves the block:

        with locks.transaction() as tx:
            tx.lock("accounts/1", "accounts/2", timeout=2.0)

    One thread at a time may call it; a second one raises `Waiting`. While one waits, other threads may call `abort`, `interrupt` and
    `status`. If an exception of a signal breaks off a call, the transaction is aborted, and its next call raises `LocksLost`.
    """

    _who = staticmethod(threading.get_ident)

    def __enter__(self) -> "Transaction":
        self._own = self._who()
        return self

    def __exit__(self, *error: object) -> None:
        now(self._leaves, *error)


class Closes:
    """What is closed at the end of a `with` statement."""

    _backend: Any

    def close(self) -> None:
        """Closes all connections, and waits for nothing. Live transactions are aborted, and their calls raise `Closed`."""
        self._backend.close()

    def __enter__(self: C) -> C:
        return self

    def __exit__(self, *error: object) -> None:
        self.close()


class Locks(Closes, Opened):
    """Exclusive locks on names, for transactions. All threads may use one object, and each process of a fork.

    `Locks.connect` makes one for a service, and `Locks.in_process` one without. In a `with` statement it is closed at the end.
    """

    _kind = Transaction

    @classmethod
    def connect(cls, *paths: Path, connect_timeout: float = 5.0, reply_timeout: float = 10.0, retry: Retry = Retry(), on_event: OnEvent = None,
                slow_wait: Optional[float] = None) -> "Locks":  # fmt: skip
        """The locks of a service that many processes share (`mmdetect serve --socket PATH`). Connects at first use.

        - `paths`: the ways to this one service, tried in turn from the one that answered last. Two services exclude nothing from each
          other. A service whose epoch is below the greatest that was seen counts as not reachable.
        - `connect_timeout`: seconds for which it is tried to connect. Then `CannotConnect` is raised.
        - `reply_timeout`: seconds in which the service has to answer each request. Then the connection is closed, and `LocksLost` raised.
        - `retry`: how often `run` tries, and its pauses. `slow_wait`: seconds after which a wait is logged as a warning.
        - `on_event`: called after each begin, lock, commit and abort, in its thread, and when a connection is made or lost.
        """
        return cls(Service(paths, connect_timeout, reply_timeout, Watch(on_event, slow_wait)), retry)

    def transaction(self, *names: Name, timeout: Optional[float] = None) -> Transaction:
        """Begins a transaction, and locks the names in their order. At an exception, as `Deadlock` or `Timeout`, none is left."""
        tx = Transaction(self._backend, tuple(map(encoded, names)), seconds(timeout))
        tx._begin()
        return tx

    def run(self, work: "Callable[Concatenate[Transaction, P], R]", *args: "P.args", **kwargs: "P.kwargs") -> R:
        """Runs `work(tx, *args, **kwargs)` in a transaction of its own, and returns what it returns.

        After `Deadlock` the transaction is aborted, and the work is run again in a new one after a pause, as often as `retry` says. The last
        `Deadlock`, and each other exception, is raised. So the work locks first and changes things then, or undoes what it changed.
        It is not run again after `LocksLost`: it may have changed things while somebody else owned the names.
        """
        if any(map(inspect.iscoroutinefunction, (work, getattr(getattr(work, "func", work), "__call__", None)))):
            raise TypeError(f"{work!r} is a coroutine function: use pashkure.aio")

        async def attempt() -> R:
            with self.transaction() as tx:
                result = work(tx, *args, **kwargs)
                if inspect.iscoroutine(result):
                    result.close()
                    raise TypeError(f"{work!r} returned a coroutine: use pashkure.aio")
                return result

        return now(lambda: self._attempts(attempt))


class Operator(Closes):
    """What only the operator may ask, at a socket whose clients see all transactions. Connects at first use. All threads may use it."""

    def __init__(self, path: Path, *, connect_timeout: float = 5.0, reply_timeout: float = 10.0) -> None:
        self._backend = Service((path,), connect_timeout, reply_timeout, Watch())

    def transactions(self) -> List[Live]:
        """All live transactions."""
        return self._ask(b"list", lambda words: [_live(*line.split(b" ")[1:]) for line in words[2:]])

    def status(self, key: str) -> Status:
        """What the transaction with this key does."""
        return self._ask(b"status", status_of, key_bytes(key))

    def holds(self, key: str) -> List[str]:
        """The names that the transaction with this key owns, in the order of their bytes. They are read in parts of 1,024 names: one that it
        comes to own or gives back meanwhile may be among them or not."""
        return Transaction(self._backend)._plain(holds, key_bytes(key))

    def abort(self, key: str) -> None:
        """Aborts the transaction with this key, whatever it does: its call that waits, or its next one, raises `Aborted`."""
        return self._ask(b"abort", lambda words: None, key_bytes(key))

    def graph(self) -> List[Wait]:
        """All waits."""
        return self._ask(b"graph", waits_of)

    def counts(self) -> Counts:
        """What the service has counted."""
        return self._ask(b"counts", lambda words: counts_of(words))

    def clients(self) -> List[Client]:
        """Who is connected."""
        return self._ask(b"clients", lambda words: [Client(*map(int, line.split(b" ")[1:5])) for line in words[2:]])

    def deadlocks(self) -> Iterator[Tuple[Wait, ...]]:
        """Each deadlock from now on, as its waits, first the one that was refused, over a connection of its own. Raises `Closed` at its
        end."""
        session = now(self._backend.find, math.inf)
        told: Iterator[Answer] = iter(lambda: now(next_told, session, self._backend.reply_timeout), None)
        return (cycle_of(words[1:]) for words in told)

    def _ask(self, word: bytes, read: Callable[[Answer], R], *names: bytes) -> R:
        return Transaction(self._backend)._plain(asked, Ask(word, names), read)


def _live(key: bytes, client: bytes, *status: bytes) -> Live:
    return Live(key.decode("ascii"), None if client == b"-" else int(client), status_of(status))
