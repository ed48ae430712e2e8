"""The service at a Unix socket, for tasks: one connection for the transactions of all tasks, or a few."""
import asyncio
import contextlib
import math
import os
import socket
from time import monotonic
from typing import Any, List, Optional, Tuple

from .. import backend
from ..backend import BY_CLOSE, BY_DROP, BY_FORK, FORGOTTEN, LOST, RESTARTED
from ..errors import CannotConnect, Closed, LocksLost, ProtocolError, again
from ..service import SIZE, Ways, late
from ..wire import Answer, Ask, Call, Conversation

ENDS = (b"commit", b"abort", b"cancel")


class Sleeper(backend.Session):
    """Where one transaction lives. One task at a time may sleep here."""

    _waiter: "Optional[asyncio.Future[None]]" = None

    def __init__(self, *owner: Any) -> None:
        super().__init__(*owner)
        self.loop = asyncio.get_running_loop()

    def is_told(self) -> None:
        if self._waiter is not None and not self._waiter.done():
            self._waiter.set_result(None)

    def let_go(self) -> None:
        if not self.loop.is_closed():
            self.loop.call_soon_threadsafe(self.end)

    async def _sleep(self, deadline: float) -> None:
        waiter = self._waiter = self.loop.create_future()
        if deadline == math.inf:
            await waiter
        else:
            await asyncio.wait([waiter], timeout=max(0.0, deadline - monotonic()))


class Connection(asyncio.Protocol, backend.Ending):
    """One connection, for any number of transactions."""

    name_bytes = 0
    """How many bytes a name may have."""

    def __init__(self, service: "Service", own: socket.socket, way: str) -> None:
        self.service, self.own, self.epoch, self.way = service, own, service.epoch, way
        self.loop, self.talk = asyncio.get_running_loop(), Conversation()
        self.can_write = asyncio.Event()
        self.can_write.set()
        self._transport: Optional[asyncio.Transport] = None
        self._timer: Optional[asyncio.TimerHandle] = None

    async def opened(self, path: Any) -> None:
        """Connects, and asks the service who it is."""
        self.own.setblocking(False)
        self.own.connect(path)
        FORGOTTEN.add(self)
        await self.service.hello(self)
        self._transport, _ = await self.loop.create_connection(lambda: self, sock=self.own)

    async def exchanged(self, line: bytes) -> bytes:
        with contextlib.suppress(BrokenPipeError):  # a service that has no room says so unasked
            await self.loop.sock_sendall(self.own, line)
        return await self.loop.sock_recv(self.own, SIZE)

    def data_received(self, data: bytes) -> None:
        try:
            if self.why is None:
                self.write(self.talk.feed(data))
        except ProtocolError as error:
            self.end(again(error))

    def connection_lost(self, error: Optional[Exception]) -> None:
        self.end(LOST)

    def pause_writing(self) -> None:
        self.can_write.clear()

    def resume_writing(self) -> None:
        self.can_write.set()

    def send(self, call: Call) -> None:
        """Sends a request, whose reply has to come in time."""
        self.write(self.talk.send(call))
        if self._timer is None:
            self._timer = self.loop.call_later(self.service.reply_timeout, self._time_is_up)

    def write(self, data: bytes) -> None:
        if data and self.why is None and self._transport is not None:
            self._transport.write(data)

    def end(self, why: Closed) -> None:
        """Closes the connection. All that wait for it are told."""
        if self.why is not None:
            return
        self.why = why
        if self._transport is None or self.loop.is_closed():
            self.own.close()
            return
        if self._timer is not None:
            self._timer.cancel()
        self._transport.abort()
        if self in self.service.connections and why is not BY_CLOSE:
            self.service.tell(self.way, again(why))
        self.can_write.set()
        self.talk.lost()

    def forget(self) -> None:
        """In the child of a fork: closes its copy."""
        self.why = BY_FORK
        self.own.close()

    def _time_is_up(self) -> None:
        """Ends the connection if the oldest request has waited for too long."""
        self._timer = None
        if self.talk.pending:
            left = self.talk.pending[0].since + self.service.reply_timeout - monotonic()
            if left > 0:
                self._timer = self.loop.call_later(left, self._time_is_up)
            else:
                self.end(late(self.service.reply_timeout))


class Session(Sleeper):
    """One transaction of a connection."""

    def __init__(self, connection: Connection) -> None:
        super().__init__()
        self.connection, self.epoch, self.name_bytes = connection, connection.epoch, connection.name_bytes

    async def ask(self, ask: Ask) -> Answer:
        connection = self.connection
        while not connection.can_write.is_set() and ask.word not in ENDS:
            await connection.can_write.wait()
        self.check()
        call = Call(ask, self)
        connection.send(call)
        while call.answer is None:
            self.check()
            if monotonic() >= ask.deadline:
                self.end(LocksLost(f"the service did not answer {ask.word.decode()} in time"))
            await self._sleep(ask.deadline)
        return call.answer

    def check(self) -> None:
        if self.epoch < self.connection.service.epoch:
            self.connection.end(RESTARTED)
        self.why = self.why or self.connection.why
        super().check()

    def end(self, why: Closed = BY_DROP) -> None:
        if self.why is None and self.connection.why is None:
            self.why = why
            self.connection.write(self.connection.talk.drop(self))
            self.is_told()

    def abandon(self) -> bool:
        if self.connection.why is None:
            self.connection.write(self.connection.talk.abandon(self))
        return True


class Service(Ways[Connection]):
    """A service that many processes share, for the tasks of one loop."""

    pause = staticmethod(asyncio.sleep)

    def __init__(self, connections: int, *options: Any) -> None:
        super().__init__(*options)
        if connections < 1:
            raise ValueError(f"connections is at least 1, not {connections}")
        self.connections: List[Optional[Connection]] = [None] * connections
        self._tries: "List[Optional[Tuple[asyncio.Task[Connection], bool]]]" = [None] * connections
        self._turn = 0
        self._loop: Optional[asyncio.AbstractEventLoop] = None

    async def session(self, deadline: float) -> Session:
        self.check()
        self._loop = self._loop or asyncio.get_running_loop()
        if self._loop is not asyncio.get_running_loop():
            raise RuntimeError("these locks were opened in another event loop: each loop needs its own")
        place = self._turn = (self._turn + 1) % len(self.connections)
        connection = self.connections[place]
        if connection is None or connection.why is not None or connection.epoch < self.epoch:
            connection = await self._shared(place, deadline)
        return Session(connection)

    def close(self) -> None:
        self.why = BY_CLOSE
        for connection in filter(None, self.connections):
            connection.end(BY_CLOSE)

    async def look(self, lost: Session) -> None:
        """Tries each way once, to learn whether the service was started anew. Raises `Closed` if there is none."""
        if lost.connection in self.connections:
            await self._shared(self.connections.index(lost.connection), math.inf, True)

    async def _shared(self, place: int, deadline: float, is_once: bool = False) -> Connection:
        """A new connection. All tasks that want one at this time wait for the same."""
        while True:
            tried = self._tries[place]
            if tried is None or tried[0].done():
                tried = self._tries[place] = asyncio.ensure_future(self._connected(place, is_once)), is_once
                tried[0].add_done_callback(lambda task: task.cancelled() or task.exception())
            await asyncio.wait([tried[0]], timeout=None if deadline == math.inf else max(0.0, deadline - monotonic()))
            if not tried[0].done():
                raise CannotConnect(f"no service answered in time at {self}")
            error = tried[0].exception()
            if error is None:
                return tried[0].result()
            if is_once or not tried[1]:
                raise again(error) from error.__cause__

    async def _connected(self, place: int, is_once: bool) -> Connection:
        self.connections[place] = connection = await self.find(math.inf, is_once)
        return connection

    async def _tried(self, path: Any, limit: float) -> Connection:
        connection = Connection(self, socket.socket(socket.AF_UNIX), os.fsdecode(path))
        try:
            await asyncio.wait_for(connection.opened(path), limit)
            return connection
        except BaseException as error:
            connection.end(LOST)
            if isinstance(error, asyncio.TimeoutError):
                raise OSError("no answer") from error
            raise
