"""What the tests of the Python client have in common."""
import asyncio
import contextlib
import logging
import threading
from typing import Any, Awaitable, Callable

from lib.world import LIMIT, same, until  # noqa: F401

from pashkure import aio

logging.getLogger("pashkure").addHandler(logging.NullHandler())  # so that a warning is no line on standard error


def raises(kind: type, call: Callable[..., Any], *args: Any, **kwargs: Any) -> Any:
    """Fails unless the call raises an exception of this very kind, and returns it."""
    try:
        told = call(*args, **kwargs)
    except Exception as error:
        if type(error) is not kind:
            raise
        return error
    raise AssertionError(f"{told!r}, and {kind.__name__} is wanted")


class Apart(threading.Thread):
    """A call in a thread of its own, and what came of it."""

    def __init__(self, call: Callable[..., Any], *args: Any, **kwargs: Any) -> None:
        super().__init__(daemon=True)
        self.call, self.args, self.kwargs = call, args, kwargs
        self.told: Any = None
        self.start()

    def run(self) -> None:
        try:
            self.told = self.call(*self.args, **self.kwargs)
        except BaseException as error:
            self.told = error

    def ends(self) -> Any:
        """Waits for the end, and returns the result or the exception."""
        self.join(LIMIT)
        if self.is_alive():
            raise AssertionError("the call has no end")
        return self.told


class Asyncio:
    """The asyncio client, called as the one for threads: its coroutines run in a loop of their own. Without a path it is in process."""

    def __init__(self, *paths: Any, **options: Any) -> None:
        self._loop = asyncio.new_event_loop()
        self._thread = threading.Thread(target=self._loop.run_forever, daemon=True)
        self._thread.start()
        self._locks = aio.Locks.connect(*paths, **options) if paths else aio.Locks.in_process(**options)

    def result(self, call: Awaitable[Any]) -> Any:
        """What comes of a call, once it has an end."""

        async def waits() -> Any:
            return await call

        return asyncio.run_coroutine_threadsafe(waits(), self._loop).result(LIMIT)

    def transaction(self, *names: Any, **options: Any) -> "AsyncioTransaction":
        return AsyncioTransaction(self, self.result(self._locks.transaction(*names, **options)))

    def run(self, work: Callable[..., Any], *args: Any) -> Any:
        async def works(tx: aio.Transaction, *args: Any) -> Any:
            return await self._loop.run_in_executor(None, lambda: work(AsyncioTransaction(self, tx), *args))

        return self.result(self._locks.run(works, *args))

    def retrying(self, retry: Any) -> "Asyncio":
        self._locks = self._locks.retrying(retry)
        return self

    def __getattr__(self, name: str) -> Callable[..., Any]:
        return lambda *args, **options: self.result(getattr(self._locks, name)(*args, **options))

    def ends(self) -> None:
        """Ends the loop too."""
        self.close()
        self.result(self._loop.shutdown_default_executor())
        self._loop.call_soon_threadsafe(self._loop.stop)
        self._thread.join()
        self._loop.close()


class Opener:
    """What opens locks that are closed at the end of the test."""

    def opened(self, form: Any, *paths: str, **options: Any) -> Any:
        locks = form(*paths, **options)
        self.addCleanup(locks.ends if isinstance(locks, Asyncio) else locks.close)  # type: ignore[attr-defined]
        return locks


class AsyncioTransaction(contextlib.AbstractContextManager):
    def __init__(self, locks: Asyncio, tx: aio.Transaction) -> None:
        self._locks, self._tx, self.key = locks, tx, tx.key

    def interrupt(self) -> None:
        self._locks._loop.call_soon_threadsafe(self._tx.interrupt)

    def __getattr__(self, name: str) -> Callable[..., Any]:
        return lambda *args, **options: self._locks.result(getattr(self._tx, name)(*args, **options))

    def __exit__(self, *error: Any) -> None:
        self._locks.result(self._tx.__aexit__(*error))


def waits(tx: Any) -> None:
    """Returns when the transaction waits."""
    until(lambda: tx._tx._state.waits if isinstance(tx, AsyncioTransaction) else tx._state.waits, "the transaction waits")


def waiting(tx: Any, *names: str, **options: Any) -> Apart:
    """A lock in a thread of its own, which waits."""
    thread = Apart(tx.lock, *names, **options)
    waits(tx)
    return thread


NO_BYTES = [*range(0x21), 0x7F]
NO_NAMES = ["", b"", "a b", "\ud800", *(f"a{chr(byte)}b" for byte in NO_BYTES), *(bytes([byte]) for byte in NO_BYTES), bytearray(b"a\n"),
            memoryview(b"a\nb")]  # fmt: skip
NO_TEXTS = [None, 3, 10**20, True, 1.5, [97, 98], (97,), object(), threading.Thread]
NO_KEYS = ["", "0", "0.", ".1", "0.1.1", "-0.1", "+0.1", "0.1 ", " 0.1", "0.1\n", "0.1\ntry 0.1 x", "0.1\r", "0,1", "ü", "0.1ü", "a.b", "٠.١",
           "².1", "4294967296.1", "0.4294967296", "1" * 21 + ".1", "0." + "0" * 21, "1_0.1", "\ud800"]  # fmt: skip
