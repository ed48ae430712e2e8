"""The seam below the flows: where a transaction lives, and what is told of it. Who lends such places has `session`, `look`, `pause`, `close`."""
import logging
import os
import weakref
from functools import partial
from time import monotonic, sleep
from typing import Any, Callable, Coroutine, Iterable, Iterator, List, Optional, Sequence, TypeVar

from .errors import Closed, Deadlock, LocksLost, ServiceRestarted, again
from .flows import State
from .values import Event, decoded, seconds
from .wire import Answer, Ask, Party

R = TypeVar("R")
log = logging.getLogger("pashkure")
OnEvent = Optional[Callable[[Event], None]]

BY_CLOSE = Closed("it was closed")
BY_FORK = Closed("it belongs to the parent process, before a fork")
BY_DROP = LocksLost("a call of this transaction was broken off, so its connection was closed, and its locks are gone")
LOST = LocksLost("the connection to the service was lost")
RESTARTED = ServiceRestarted("the service was started anew, and all locks of before are gone")
FORGOTTEN: "weakref.WeakSet[Any]" = weakref.WeakSet()
"""What the child of a fork forgets, so that only the parent has it: the connections, whose copies it closes, and the managers in process."""


def each(items: Iterable[R]) -> List[R]:
    """The items of a set to which other threads may add."""
    while True:
        try:
            return list(items)
        except RuntimeError:
            pass  # it changed size


os.register_at_fork(after_in_child=lambda: [item.forget() for item in each(FORGOTTEN)])


def made(flow: Callable[..., Any], *args: Any) -> Iterator[Any]:
    """The coroutine of a flow, as the first item. An exception of a signal cannot come between its making and its first step in a `for`, as it can
    behind a call. Python would say of that coroutine that it was never awaited."""
    return iter(partial(flow, *args), None)


def now(flow: Callable[..., Coroutine[Any, Any, R]], *args: Any) -> R:
    """Runs a flow of a thread."""
    for coroutine in made(flow, *args):
        try:
            coroutine.send(None)
        except StopIteration as end:
            return end.value  # type: ignore[no-any-return]
        break
    raise RuntimeError("a flow of a thread was suspended")


async def slept(time: float) -> None:
    """Pauses a thread."""
    sleep(time)


class Watch:
    """Tells of calls and connections."""

    def __init__(self, on_event: OnEvent = None, slow_wait: Optional[float] = None) -> None:
        self._on_event, self.slow_wait = on_event, seconds(slow_wait, "slow_wait")

    def connection(self, way: str, error: Optional[Closed]) -> None:
        """A connection by this way was made, or it was lost."""
        log.log(logging.INFO if error is None else logging.WARNING, "%s: %s", way, "connected" if error is None else error)
        self._tell(Event("connect") if error is None else Event("lost", error=error))

    def call(self, kind: str, state: State, names: Sequence[bytes], start: float, error: Optional[BaseException]) -> None:
        """A call of a transaction has ended."""
        if isinstance(error, Deadlock):
            log.info("%s: deadlock: %s", state.key.decode("ascii"), error)
        if kind and state.key and self._on_event is not None:
            waited = state.waited if kind in ("begin", "lock") else 0.0
            self._tell(Event(kind, state.key.decode("ascii"), tuple(map(decoded, names)), monotonic() - start, waited, error))  # type: ignore[arg-type]

    def slow(self, key: bytes, name: str, holder: str, waited: float) -> None:
        log.warning("%s has waited for %r of %s for %.1f s", key.decode("ascii"), name, holder, waited)

    def _tell(self, event: Event) -> None:
        if self._on_event is not None:
            try:
                self._on_event(event)
            except Exception:
                log.exception("%s: on_event raised an exception at %s", event.key or "no transaction", event.kind)


class Ending:
    """What is of no use any more at some time."""

    why: Optional[Closed] = None
    """What its calls raise from then on."""

    def check(self) -> None:
        """Raises if it is of no use any more."""
        if self.why is not None:
            raise again(self.why)


class Session(Party, Ending):
    """Where one transaction lives. One thread or task at a time may call `ask` and `wait`."""

    epoch = 0
    """The number of the service's start."""
    name_bytes = 0
    """How many bytes a name may have."""
    part = 1024
    """How many names one answer to `holds` tells. If the transaction owns more, a last word says so."""
    _is_woken = False

    ask: Callable[[Ask], Any]
    """The answer to a request. It waits for no other transaction, and for no longer than the backend allows: then it raises `Closed`."""
    end: Callable[..., None]
    """Ends the transaction, whatever it does, from any thread: for this reason, or `BY_DROP`. It waits for nothing, and never raises."""
    _sleep: Callable[[float], Any]
    """Returns when there may be news, and at the deadline."""

    async def wait(self, deadline: float) -> Optional[Answer]:
        """How the wait of its transaction ended: granted or aborted. None at the deadline, a time of `monotonic`, and after `wake`."""
        news = self.news()
        while news is None and not self._is_woken and monotonic() < deadline:
            await self._sleep(deadline)
            news = self.news()
        self._is_woken = False
        return news

    def news(self) -> Optional[Answer]:
        """What `wait` returns, if it need not wait for that."""
        self.check()
        return self.told.pop(0) if self.told else None

    def wake(self) -> None:
        """Ends a `wait`, or the next one, from any thread."""
        self._is_woken = True
        self.is_told()

    def let_go(self) -> None:
        """As `end`, at any moment of any thread, as when an object ends."""
        self.end()

    def abandon(self) -> bool:
        """A call was left at an exception. Whether what it waits for could be taken back, so that the transaction goes on."""
        return False

    def give_back(self) -> None:
        """Its transaction has ended. Never raises."""
