"""The locks of a service for asyncio: what `pashkure` has for threads, awaited, with the same exceptions and values."""
import asyncio
import inspect
from typing import TYPE_CHECKING, Any, Awaitable, Callable, Dict, Generator, List, Optional, TypeVar

from ..backend import OnEvent, Watch
from ..calls import Calls, Opened
from ..errors import Wait
from ..service import Path
from ..values import Counts, Fence, Name, Retry, Status, Totals, encoded, seconds
from .in_process import InProcess
from .service import Service

if TYPE_CHECKING:
    from typing_extensions import Concatenate, ParamSpec

    P = ParamSpec("P")
R = TypeVar("R")
__all__ = ["Locks", "Transaction"]


class Transaction(Calls):
    """A transaction, which owns the names that it locks until it ends.

    `Locks.transaction` makes one, which begins, once, by `async with` or by `await`. The `async with` statement commits it at the end, and
    aborts it if an exception leaves the block:

        async with locks.transaction() as tx:
            await tx.lock("accounts/1", "accounts/2", timeout=2.0)

    One task at a time may call it; a second one raises `Waiting`. While one waits, other tasks may call `abort`, `interrupt` and `status`.

    A task may be cancelled in each call, as by `asyncio.timeout`. A cancelled begin leaves nothing. A cancelled `lock` is taken back, and the
    transaction goes on; `holds` says whether the name was granted in that moment. A cancelled `commit` or `abort` was sent, and counts.
    """

    _who = staticmethod(asyncio.current_task)

    async def _drive(self, flow: Callable[..., Awaitable[R]], *args: Any) -> R:  # type: ignore[override]
        return await flow(*args)

    if TYPE_CHECKING:  # what `Calls` does
        async def lock(self, *names: Name, timeout: Optional[float] = None) -> None: ...  # type: ignore[override]
        async def try_lock(self, name: Name) -> bool: ...  # type: ignore[override]
        async def unlock(self, name: Name) -> None: ...  # type: ignore[override]
        async def fence(self, name: Name) -> Fence: ...  # type: ignore[override]
        async def holds(self) -> List[str]: ...  # type: ignore[override]
        async def status(self) -> Status: ...  # type: ignore[override]
        async def commit(self, timeout: Optional[float] = None) -> None: ...  # type: ignore[override]
        async def abort(self) -> None: ...  # type: ignore[override]

    def __await__(self) -> Generator[Any, None, "Transaction"]:
        return self.__aenter__().__await__()

    async def __aenter__(self) -> "Transaction":
        await self._begin()
        return self

    __aexit__ = Calls._leaves


class Locks(Opened):
    """Exclusive locks on names, for transactions, and for the tasks of one event loop.

    `Locks.connect` makes one for a service, and `Locks.in_process` one without. In an `async with` statement it is closed at the end. Do not
    fork while it is open.
    """

    _kind = Transaction
    _inside = InProcess

    @classmethod
    def connect(cls, *paths: Path, connect_timeout: float = 5.0, reply_timeout: float = 10.0, retry: Retry = Retry(), on_event: OnEvent = None,
                slow_wait: Optional[float] = None, connections: int = 1) -> "Locks":  # fmt: skip
        """The locks of a service that many processes share (`mmdetect serve --socket PATH`). Connects at first use.

        - `paths`: the ways to this one service. Two services exclude nothing from each other.
        - `connect_timeout`, `reply_timeout`: in how many seconds a service has to be found, and has to answer a request.
        - `retry`: how often `run` tries. `on_event`: called after each begin, lock, commit and abort. `slow_wait`: seconds of a wait to be logged.
        - `connections`: over how many connections the transactions go, in turn. The service takes a line of each connection in turn.
        """
        return cls(Service(connections, paths, connect_timeout, reply_timeout, Watch(on_event, slow_wait)), retry)

    def transaction(self, *names: Name, timeout: Optional[float] = None) -> Transaction:
        """A transaction, which begins by `async with` or by `await`, and then locks the names in their order. At an exception of that, as
        `Deadlock` or `Timeout`, and if the task is cancelled, none is left."""
        return Transaction(self._backend, tuple(map(encoded, names)), seconds(timeout))

    async def run(self, work: "Callable[Concatenate[Transaction, P], Awaitable[R]]", *args: "P.args", **kwargs: "P.kwargs") -> R:
        """Awaits `work(tx, *args, **kwargs)` in a transaction of its own, and returns what it returns.

        After `Deadlock`, also one in a group of exceptions, the transaction is aborted, and the work is run again in a new one after a pause,
        as often as `retry` says. The last `Deadlock`, and each other exception, is raised. So the work locks first and changes things then,
        or undoes what it changed. It is not run again after `LocksLost`: it may have changed things while somebody else owned the names.
        """

        async def attempt() -> R:
            async with self.transaction() as tx:
                result = work(tx, *args, **kwargs)
                if not inspect.isawaitable(result):
                    raise TypeError(f"{work!r} returned nothing to await")
                value: R = await result
                return value

        return await self._attempts(attempt)

    if TYPE_CHECKING:  # what `Opened` does
        async def owner(self, name: Name) -> Optional[str]: ...  # type: ignore[override]
        async def totals(self) -> Totals: ...  # type: ignore[override]
        async def locks(self) -> Dict[str, str]: ...  # type: ignore[override]
        async def graph(self) -> List[Wait]: ...  # type: ignore[override]
        async def counts(self) -> Counts: ...  # type: ignore[override]

    async def close(self) -> None:
        """Closes all connections, and waits for nothing. Live transactions are aborted, and their calls raise `Closed`."""
        self._backend.close()

    async def __aenter__(self) -> "Locks":
        return self

    async def __aexit__(self, *error: object) -> None:
        await self.close()
