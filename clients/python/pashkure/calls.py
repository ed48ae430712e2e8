"""The calls that threads and tasks have in common. Each is a flow, which `_drive` runs: now, or when it is awaited."""
import contextlib
import math
import threading
import warnings
from time import monotonic
from typing import Any, Awaitable, Callable, Coroutine, List, Optional, Sequence, Tuple, Type, TypeVar

from . import flows
from .backend import BY_DROP, LOST, RESTARTED, made, now
from .errors import Aborted, CannotConnect, Closed, Deadlock, LockError, LocksLost, NoTransaction, Waiting, again
from .in_process import Manages
from .values import Fence, Name, Retry, Status, Totals, encoded, seconds
from .wire import Answer, Ask

L = TypeVar("L", bound="Opened")
R = TypeVar("R")


class Calls:
    """A transaction, which owns the names that it locks until it ends. The types are those for threads."""

    _who: Callable[[], Any]  # the thread or the task that calls this
    _own: Any = None  # the one that began it
    _right: List[Any] = []  # the session: who takes it out may end the transaction
    _is_aborted = False  # by another thread or task

    def __init__(self, backend: Any, names: Tuple[bytes, ...] = (), timeout: float = math.inf) -> None:
        self._backend, self._names, self._timeout = backend, names, timeout
        self._state = flows.State(backend.watch.slow_wait, backend.reply_timeout, backend.watch.slow)
        self._busy = threading.Lock()  # held within a call, and never waited for

    @property
    def key(self) -> str:
        """The key of the transaction, which the service chose. No other transaction gets it until the service is started anew."""
        return self._state.key.decode("ascii")

    @property
    def epoch(self) -> int:
        """The number of the service's start. It rises."""
        return int(self._state.session.epoch)

    def lock(self, *names: Name, timeout: Optional[float] = None) -> None:
        """Returns when the transaction owns the names, which it asks for in their order. Until then only its thread, or task, waits.

        Raises `Deadlock` at once if a request would close a cycle of waits. A request that waits is never told of a deadlock later.

        With a timeout, in seconds, the request is taken back after that time, and `Timeout` is raised. At every exception the transaction
        waits for nothing, keeps what it owns, and may go on.
        """
        deadline, data = monotonic() + seconds(timeout), tuple(map(encoded, names))
        return self._call("lock", data, flows.lock, data, deadline)

    def try_lock(self, name: Name) -> bool:
        """Whether the transaction owns the name now: it did, or nobody did. It never waits for another transaction."""
        return self._ask(b"try", lambda words: words[0] != b"busy", name)

    def unlock(self, name: Name) -> None:
        """Gives one name back before the end. The transaction that has waited for it the longest gets it."""
        return self._ask(b"unlock", lambda words: None, name)

    def fence(self, name: Name) -> Fence:
        """A number greater than what any earlier owner of the name was told. A storage that refuses smaller ones than the greatest that it
        saw is safe from those who lost their locks and do not know it yet."""
        return self._ask(b"fence", lambda words: Fence(int(words[1]), int(words[2])), name)

    def holds(self) -> List[str]:
        """The names that the transaction owns, in the order of their bytes."""
        return self._call("", (), flows.holds)

    def status(self) -> Status:
        """What the transaction does. Any thread or task may call it; while it waits, this is known here, and nothing is asked."""
        return self._drive(self._status)

    def commit(self, timeout: Optional[float] = None) -> None:
        """Ends the transaction. All that it owns is given back. If no reply comes in time, this raises `LocksLost`."""
        return self._ask(b"commit", lambda words: None, kind="commit", deadline=monotonic() + seconds(timeout))

    def abort(self) -> None:
        """Ends the transaction, whatever it does. All that it owns is given back. Nothing happens if it has ended.

        Any thread or task may call it. If another one waits in a call, that call raises `Aborted` at once.
        """
        return self._drive(self._ends)

    def interrupt(self) -> None:
        """The wait of the transaction, or its next one, raises `Interrupted`, once. Any thread may call it; in asyncio, any task."""
        self._state.is_interrupted = True
        if self._state.session is not None:
            self._state.session.wake()

    def _ask(self, word: bytes, read: Callable[[Answer], R], *names: Name, kind: str = "", deadline: float = math.inf) -> R:
        return self._call(kind, (), flows.asked, Ask(word, tuple(map(encoded, names)), deadline), read)

    def _plain(self, flow: Callable[..., Awaitable[R]], *args: Any) -> R:
        """What a flow without a transaction says. None begins."""
        self._own = "nobody"
        result: R = self._call("", (), self._over, math.inf, flow, *args)
        return result

    def _begin(self) -> Any:
        if self._own is not None:
            raise RuntimeError("it has begun: call `transaction` for each transaction")
        self._own, deadline = self._who(), monotonic() + self._timeout
        return self._call("begin", self._names, self._over, deadline, flows.begin, self._names, deadline)

    def _drive(self, flow: Callable[..., Coroutine[Any, Any, R]], *args: Any) -> R:
        return now(flow, *args)

    def _call(self, kind: str, names: Sequence[bytes], flow: Callable[..., Awaitable[R]], *args: Any) -> R:
        result: R = self._drive(self._within, kind, names, flow, *args)
        return result

    async def _status(self) -> Status:
        waits = self._state.waits
        status: Status = await self._within("", (), flows.asked, Ask(b"status"), flows.status_of) if waits is None else waits
        return status

    async def _leaves(self, *error: object) -> None:
        """The end of its block: it is committed, or aborted at an exception."""
        try:
            if error[0] is None and (self._is_aborted or not self._state.is_over):
                await self._within("commit", (), flows.asked, Ask(b"commit"), lambda words: None)
        finally:
            await self._ends()

    async def _over(self, state: flows.State, deadline: float, flow: Callable[..., Any], *args: Any) -> Any:
        """This flow, over a session that is lent, or over another one if that is lost before anything was done."""
        while True:
            state.session = await self._backend.session(deadline)
            self._right = [state.session]
            if self._is_aborted:
                raise Aborted("another task aborted the transaction before it had begun")
            try:
                for coroutine in made(flow, state, *args):
                    return await coroutine
            except LocksLost as lost:
                if state.key:
                    raise
                self._part("end")
                if state.session.why not in (BY_DROP, LOST, RESTARTED):  # the answer was late
                    raise CannotConnect(str(lost)) from lost

    async def _within(self, kind: str, names: Sequence[bytes], flow: Callable[..., Any], *args: Any) -> Any:
        """This flow, as one call, beside which there is no other one. Whatever ends it, nothing stays that nobody wants."""
        if self._own is None:
            raise NoTransaction("the transaction has not begun: use `async with`, or `await`")
        if self._state.is_over:
            raise Aborted("the transaction was aborted") if self._is_aborted else NoTransaction("the transaction has ended")
        if not self._busy.acquire(False):
            raise Aborted("another call aborts it") if self._is_aborted else Waiting("another thread or task is inside a call of this transaction")
        start, error, self._state.waited = monotonic(), None, 0.0
        try:
            for coroutine in made(flow, self._state, *args):
                result = await coroutine
                self._is_aborted = self._is_aborted and not self._state.is_over  # a commit that was made counts
                return result
        except BaseException as told:
            error = told
            error = await self._after(kind, told)
            raise error from told.__cause__
        finally:
            if self._state.is_over:
                self._part("give_back")
            self._busy.release()
            self._backend.watch.call(kind, self._state, names, start, error)
            del error  # which has this frame

    async def _after(self, kind: str, error: BaseException) -> BaseException:
        """Cleans up after a call that this ended: one of its own exceptions or one of a signal, or its task was cancelled. What to raise."""
        session, is_left = self._state.session, not isinstance(error, LockError)
        is_dead = is_left or isinstance(error, Closed)
        if is_left and self._right and session.abandon():
            is_dead = self._state.is_over = kind in ("begin", "commit") or not self._state.key  # a commit was sent; refused, it is an abort
        is_lost = is_dead and self._part("end") and session.why is LOST
        if self._is_aborted and isinstance(error, LocksLost):
            return Aborted("another thread or task aborted the transaction")
        if is_lost and session.epoch >= self._backend.epoch:  # whether the service was started anew a new connection says
            with contextlib.suppress(Closed):
                await self._backend.look(session)
        if is_lost and session.epoch < self._backend.epoch:
            session.why = RESTARTED
            return again(RESTARTED)
        return error

    async def _ends(self) -> None:
        """Aborts it. If another thread or task is in a call of it, this waits for nothing."""
        state = self._state
        if state.is_over or self._own is None:
            return
        is_free, start = self._busy.acquire(False), monotonic()
        self._is_aborted = not is_free or self._who() != self._own
        try:
            if is_free and self._right:
                await flows.abort(state)
                self._part("give_back")
        except Closed:
            pass
        finally:
            state.is_over = True
            self._part("end")
            if is_free:
                self._busy.release()
            self._backend.watch.call("abort", state, (), start, None)

    def _part(self, how: str) -> bool:
        """Parts with the session in this way, if this call is the one that ends the transaction. Whether it is."""
        try:
            session = self._right.pop()
        except IndexError:
            return False
        getattr(session, how)()
        return True

    def __del__(self) -> None:
        if self._part("let_go"):
            warnings.warn(f"{self!r} was dropped alive, and is aborted: use `with`, commit or abort", ResourceWarning, source=self)

    def __repr__(self) -> str:
        return f"<Transaction {self.key}{' (over)' if self._state.is_over else ''}>"


class Opened(Manages):
    """Exclusive locks on names, for transactions."""

    _kind: Type[Calls]  # of its transactions

    def __init__(self, backend: Any, retry: Retry) -> None:
        self._backend, self._retry = backend, retry

    def retrying(self: L, retry: Retry) -> L:
        """The same locks, whose `run` tries otherwise."""
        return type(self)(self._backend, retry)

    def __reduce__(self) -> Any:
        raise TypeError("locks cannot be pickled: each process opens its own")

    def owner(self, name: Name) -> Optional[str]:
        """The key of the transaction that owns the name, if one does."""
        return self._ask(b"owner", lambda words: words[1].decode("ascii") if words[0] == b"owner" else None, name)

    def totals(self) -> Totals:
        """How many transactions began, were committed and were aborted, and how many requests were refused for a deadlock."""
        return self._ask(b"totals", lambda words: Totals(*map(int, words[1:])))

    def _ask(self, word: bytes, read: Callable[[Answer], R], *names: Name) -> R:
        return self._kind(self._backend)._plain(flows.asked, Ask(word, tuple(map(encoded, names))), read)

    async def _attempts(self, attempt: Callable[[], Awaitable[R]]) -> R:
        """What an attempt returns, which is made again after a deadlock."""
        number = 0
        while True:
            start, number = monotonic(), number + 1
            try:
                return await attempt()
            except BaseException as error:
                if number >= self._retry.attempts or not is_deadlock(error):
                    raise
            await self._backend.pause(self._retry.pause(number, monotonic() - start))

    def __repr__(self) -> str:
        return f"<Locks {self._backend}>"


def is_deadlock(error: BaseException) -> bool:
    """Whether a deadlock is all that went wrong, also in a group of exceptions."""
    parts: Sequence[BaseException] = getattr(error, "exceptions", ())
    rest = [part for part in parts if not is_deadlock(part)]
    return isinstance(error, Deadlock) or len(rest) < len(parts) and all(isinstance(part, Aborted) for part in rest)
