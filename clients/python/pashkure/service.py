"""The service at a Unix socket: how it is found, and for threads a connection for each live transaction, from a pool."""
import contextlib
import math
import os
import select
import socket
import weakref
from time import monotonic
from typing import Any, Awaitable, Callable, Generic, List, Optional, Sequence, Tuple, TypeVar, Union

from . import backend
from .backend import BY_CLOSE, BY_DROP, BY_FORK, FORGOTTEN, LOST, RESTARTED, Ending, Watch, each, slept
from .errors import CannotConnect, Closed, Full, LocksLost, ProtocolError, again
from .values import seconds
from .wire import Answer, Ask, Call, Conversation, Party

C = TypeVar("C", bound=Any)  # a connection
SIZE = 16384
PROTOCOL = 2
"""The number of the protocol, which the reply to `hello` begins with."""
Path = Union[str, bytes, "os.PathLike[str]", "os.PathLike[bytes]"]
LONGEST = 1e6
"""Seconds that the calls of the system take; more are as good as for ever."""


def late(limit: Optional[float]) -> LocksLost:
    """Why a connection is of no use that has waited for an answer for so many seconds."""
    return LocksLost(f"the service did not answer within {limit:g} s")


class Ways(Ending, Generic[C]):
    """The ways to one service, by the paths of sockets."""

    _tried: Callable[[Any, float], Awaitable[C]]
    """A connection by this way. In so many seconds a service has to say who it is: a tenth at least, so that the last try is one."""
    pause: Callable[[float], Any]

    def __init__(self, paths: Sequence[Path], connect_timeout: float, reply_timeout: float, watch: Watch) -> None:
        if not paths:
            raise ValueError("the path of a socket is missing")
        self.paths = [os.fspath(path) for path in paths]
        self.connect_timeout = seconds(connect_timeout, "connect_timeout")
        self.reply_timeout = min(seconds(reply_timeout, "reply_timeout"), LONGEST)
        self.watch, self.tell = watch, watch.connection
        self.epoch = 0  # the greatest that was seen
        self._way = 0  # the place of the path that answered last

    async def find(self, deadline: float, is_once: bool = False) -> C:
        """A new connection, which one of the ways has. The pauses between the tries are 10 ms to 1 s."""
        pause, deadline = 0.01, min(deadline, monotonic() + self.connect_timeout)
        while True:
            self.check()
            failed: List[str] = []
            for place in [*range(self._way, len(self.paths)), *range(self._way)]:
                try:
                    found = await self._tried(self.paths[place], max(0.1, min(self.reply_timeout, deadline - monotonic())))
                    self._way = place
                    self.tell(found.way, None)
                    if self.why is not None:
                        found.end(self.why)
                    return found
                except ProtocolError:
                    raise
                except (OSError, Full) as error:
                    cause = error.with_traceback(None)
                    failed.append(f"no service at {os.fsdecode(self.paths[place])}: {error}")
            left = deadline - monotonic()
            if left <= 0 or is_once:
                raise CannotConnect("; ".join(failed)) from cause
            await self.pause(min(pause, left))
            pause = min(1.0, 2 * pause)

    async def hello(self, found: C) -> None:
        """Asks the service of a new connection for its epoch. Raises `OSError` if it is of no use, as if a greater epoch was seen."""
        call = Call(Ask(b"hello"), Party())
        line = found.talk.send(call)
        while call.answer is None:
            found.talk.feed(await found.exchanged(line))
            line = b""
        if call.answer[0] != b"hello":
            raise Full("connections")
        protocol, epoch, _, _, found.name_bytes = map(int, call.answer[1:6])
        if protocol != PROTOCOL:
            wanted = "restart the service first, from this package's version" if protocol < PROTOCOL else "install a later version of this package"
            raise ProtocolError(f"the service speaks protocol {protocol}, and this package protocol {PROTOCOL}: {wanted}")
        found.epoch = epoch
        if epoch < self.epoch:
            raise ConnectionError(f"the service's epoch {epoch} is below {self.epoch}, which was seen before: it has to be started anew")
        is_new, self.epoch = 0 < self.epoch < epoch, max(self.epoch, epoch)
        if is_new:
            self.tell(found.way, again(RESTARTED))

    def __str__(self) -> str:
        return " or ".join(map(os.fsdecode, self.paths))


class Socket(socket.socket):
    """A socket that nobody is told of if it is dropped."""

    def __del__(self) -> None:
        if hasattr(self, "_io_refs"):  # an exception of a signal may have kept it from its begin
            self.close()


class Session(backend.Session):
    """A connection with at most one transaction."""

    _pipe: Tuple[int, ...] = ()  # by which a wait is woken

    def __init__(self, service: "Service", connection: Socket, way: str) -> None:
        super().__init__()
        self.service, self.epoch, self.way = service, service.epoch, way
        self._socket, self.talk = connection, Conversation(self)
        self.poll = select.poll()
        self.poll.register(connection, select.POLLIN)

    async def ask(self, ask: Ask) -> Answer:
        self.check()
        self._socket.settimeout(max(0.001, min(self.service.reply_timeout, ask.deadline - monotonic())))
        call = Call(ask, self)
        line = self.talk.send(call)
        while call.answer is None:
            await self._take(line)
            line = b""
        return call.answer

    def wake(self) -> None:
        self._is_woken = True
        with contextlib.suppress(OSError, IndexError):  # it is closed, many have woken it, or it has not slept yet
            os.write(self._pipe[1], b"w")

    def end(self, why: Closed = BY_DROP) -> None:
        """A thread that reads wakes up. The descriptor is closed when nobody has the session any more."""
        self.why = self.why or why
        with contextlib.suppress(OSError):  # the other side has closed it
            self._socket.shutdown(socket.SHUT_RDWR)

    def give_back(self) -> None:
        self.key = b""
        self.service.idle.append(self)
        if self.service.why is not None:
            self.end(self.service.why)

    def forget(self) -> None:
        """In the child of a fork: closes its copy, so that only the parent has the connection."""
        self.why = BY_FORK
        self._socket.close()

    def check(self) -> None:
        if self.talk.pending:  # an exception broke off a call, and another one kept it from saying so
            self.end()
        if self.why is None and self.epoch < self.service.epoch:
            self.end(RESTARTED)
        super().check()

    async def _sleep(self, deadline: float) -> None:
        if not self._pipe:
            self._pipe = os.pipe()
            for descriptor in self._pipe:
                os.set_blocking(descriptor, False)
            self.poll.register(self._pipe[0], select.POLLIN)
            return  # somebody may have woken it before there was a pipe
        left = deadline - monotonic()
        for descriptor, _ in self.poll.poll(None if left > LONGEST else max(0.0, math.ceil(left * 1000))):
            if descriptor == self._pipe[0]:
                os.read(descriptor, 64)
            else:
                await self._take(b"")

    async def _take(self, line: bytes) -> None:
        """As `exchanged`, and takes what comes. The first error ends the connection."""
        try:
            self.talk.feed(await self.exchanged(line))
        except OSError as error:
            is_new, is_late = self.why is None, isinstance(error, socket.timeout)
            why = self.why or (again(error) if isinstance(error, ProtocolError) else late(self._socket.gettimeout()) if is_late else LOST)
            self.end(why)
            if is_new:
                self.service.tell(self.way, again(why))
            raise again(why) from error

    async def exchanged(self, line: bytes) -> bytes:
        """Sends a line, if there is one, and returns what comes."""
        with contextlib.suppress(BrokenPipeError):  # what the service said before it closed the connection comes
            self._socket.sendall(line)
        return self._socket.recv(SIZE)

    def __del__(self) -> None:
        pipe, self._pipe = self._pipe, ()
        for descriptor in pipe:
            os.close(descriptor)


class Service(Ways[Session]):
    """A service that many processes share."""

    pause = staticmethod(slept)

    def __init__(self, *options: Any) -> None:
        super().__init__(*options)
        self.idle: List[Session] = []
        self._all: "weakref.WeakSet[Session]" = weakref.WeakSet()

    async def session(self, deadline: float) -> Session:
        with contextlib.suppress(IndexError):  # none is idle
            while True:
                session = self.idle.pop()
                if session.why is None and session.epoch >= self.epoch and session.talk.is_idle() and not session.poll.poll(0):
                    return session  # what comes to an idle connection is its end
                session.end()
        return await self.find(deadline)

    def close(self) -> None:
        self.why = BY_CLOSE
        self.idle.clear()
        for session in each(self._all):
            session.end(BY_CLOSE)

    async def look(self, lost: Session) -> None:
        """Tries each way once, to learn whether the service was started anew. Raises `Closed` if there is none."""
        self.idle.append(await self.find(math.inf, True))

    async def _tried(self, path: Any, limit: float) -> Session:
        connection = Socket(socket.AF_UNIX)
        connection.settimeout(limit)
        try:
            connection.connect(path)
            session = Session(self, connection, os.fsdecode(path))
            self._all.add(session)
            FORGOTTEN.add(session)
            await self.hello(session)
            return session
        except BaseException:
            connection.close()
            raise
