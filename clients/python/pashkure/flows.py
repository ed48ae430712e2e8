"""What each call does, step by step, for threads and for tasks alike. Nothing here reads, writes or sleeps.

A flow is a coroutine, which awaits its transaction's session (`pashkure.backend.Session`) alone. That of a thread never suspends it:
`pashkure.backend.now` runs it to its end.
"""
import math
from dataclasses import dataclass
from time import monotonic
from typing import Any, Callable, List, Optional, Sequence, Tuple, TypeVar

from .errors import Aborted, Closed, Deadlock, Interrupted, LockError, NameTooLong, ProtocolError, Timeout, Wait, refusal
from .values import Counts, Status, decoded
from .wire import LONGEST, Answer, Ask, cut

R = TypeVar("R")
OWNED = (b"granted", b"held")
REPLY_SLACK = 1.0
"""Seconds after the time of a call in which a reply to it is still taken."""


@dataclass
class State:
    """What is known of a transaction."""

    slow_wait: float = math.inf
    reply_timeout: float = math.inf  # in so many seconds of a wait the service has to answer once
    warn: Optional[Callable[[bytes, str, str, float], None]] = None
    session: Any = None
    key: bytes = b""
    waits: Optional[Status] = None  # while it waits
    waited: float = 0.0  # how long the last call waited
    is_over: bool = False
    is_interrupted: bool = False  # its wait, or its next one, is to be interrupted


async def begin(state: State, names: Sequence[bytes], deadline: float) -> None:
    """Begins a transaction that owns these names. Where it cannot own all, none is left."""
    part = names[: cut(names, LONGEST - len(b"begin"))]
    words: Answer = await state.session.ask(Ask(b"begin", tuple(part), _due(deadline)))
    state.is_over = words[0] != b"begun"
    if state.is_over:
        raise refusal(words[-1])
    state.key = words[1]
    try:
        await lock(state, names[await _owned(state, part, words[2:], deadline) :], deadline)
    except LockError as error:
        if not state.is_over and not isinstance(error, Closed):
            await abort(state)
        raise


async def lock(state: State, names: Sequence[bytes], deadline: float) -> None:
    """Locks the names in their order. What is owned at an exception stays owned."""
    while names:
        part = names[: cut(names, LONGEST - len(b"lock ") - len(state.key))]
        words: Answer = await state.session.ask(Ask(b"lock", tuple(part), _due(deadline)))
        names = names[await _owned(state, part, words, deadline) :]


async def _owned(state: State, names: Sequence[bytes], words: Answer, deadline: float) -> int:
    """How many of the names that it asked for are owned, after its wait if need be. Raises what else the answer says."""
    if not words or words[0] in OWNED:
        return len(names)
    has_place = words[1].isdigit()
    place = int(words[1]) if has_place else 0
    if place >= len(names):
        raise ProtocolError(f"the service told of name {place} of {len(names)}")
    if words[0] == b"waits":
        await _waited(state, decoded(names[place]), words[-1].decode("ascii"), deadline)
        return place + 1
    if words[0] == b"deadlock":
        cycle = cycle_of((state.key, names[place], *words[1 + has_place :]))
        raise Deadlock(cycle[0].name, cycle[0].holder, cycle)
    raise _refused(state, words, names[place])


def _due(deadline: float) -> float:
    """When the reply to a request of a call with this deadline has to be there."""
    return max(deadline, monotonic()) + REPLY_SLACK


async def _waited(state: State, name: str, holder: str, deadline: float) -> None:
    """Returns when the wait was granted. At the deadline, and if it is interrupted, the request is taken back, and this raises. A service that
    hangs ends it too: it is asked again and again."""
    state.waits = Status("waiting", name, holder)
    start = monotonic()
    warns, looks = start + state.slow_wait, start + state.reply_timeout
    try:
        while True:
            told: Optional[Answer] = None if state.is_interrupted else await state.session.wait(min(deadline, warns, looks))
            if told is not None:
                break
            now = monotonic()
            if now >= warns and state.warn is not None:
                state.warn(state.key, name, holder, now - start)
                warns = math.inf
            if now >= deadline or state.is_interrupted:
                told = await _taken_back(state, name, deadline)
                break
            if now >= looks:
                await state.session.ask(Ask(b"status", (), _due(deadline)))
                looks = monotonic() + state.reply_timeout
    finally:
        state.waits = None
        state.waited += monotonic() - start
    if told[0] == b"aborted":
        raise _refused(state, told)


async def _taken_back(state: State, name: str, deadline: float) -> Answer:
    """Takes the wait back, and raises. If it had ended before, returns how, which this side was told before this reply."""
    words: Answer = await state.session.ask(Ask(b"cancel", (), _due(deadline)))
    if words[0] == b"cancelled":
        is_interrupted, state.is_interrupted = state.is_interrupted, False
        raise Interrupted(f"the wait for {name!r} was interrupted") if is_interrupted else Timeout(name)
    told: Optional[Answer] = await state.session.wait(-math.inf)
    if told is None:
        raise ProtocolError("the service did not take a wait back, and had not told how it ended")
    return told


async def asked(state: State, ask: Ask, read: Callable[[Answer], R]) -> R:
    """What is read of the answer to a request of a transaction that waits for nothing, or of none: then nothing is left."""
    words: Answer = await state.session.ask(ask)
    state.is_over = not state.key or words[0] == b"committed"
    if words[0] == b"refused":
        raise _refused(state, words, *ask.names[:1])
    return read(words)


async def holds(state: State, *key: bytes) -> List[str]:
    """The names that the transaction owns, or the one with this key. Each request is answered by a part of them."""
    names: List[bytes] = []
    while True:
        told = await asked(state, Ask(b"holds", (*key, *names[-1:])), lambda words: words[1:])
        names += told[: state.session.part]
        if len(told) <= state.session.part:
            return [decoded(name) for name in names]


async def abort(state: State) -> None:
    """Ends the transaction, whatever it does."""
    await state.session.ask(Ask(b"abort"))
    state.is_over = True


async def next_told(session: Any, reply_timeout: float) -> Answer:
    """What an operator is told next. In so many seconds the service has to answer once."""
    while True:
        told: Optional[Answer] = await session.wait(monotonic() + reply_timeout)
        if told is not None:
            return told
        await session.ask(Ask(b"hello"))


def _refused(state: State, words: Answer, name: bytes = b"") -> LockError:
    """What a refusal says, of a request for this name, or the end of a wait. This side did not end a live transaction."""
    if words[-1] == b"name-too-long":
        return NameTooLong(decoded(name), state.session.name_bytes)
    if words[0] == b"refused" and (words[-1] != b"no-transaction" or not state.key):
        return refusal(words[-1])
    state.is_over = True
    return Aborted("somebody else aborted the transaction, and all that it owned is given back")


def status_of(words: Sequence[bytes]) -> Status:
    """What a transaction does, by the words of a reply."""
    if words[0] == b"waiting":
        return Status("waiting", decoded(words[1]), words[2].decode("ascii"))
    return Status("active" if words[0] == b"active" else "ending")


def counts_of(words: Answer) -> Counts:
    """What was counted, by the words of a reply. Further words are of a later version."""
    return Counts(*map(int, words[1:10]))


def waits_of(words: Answer) -> List[Wait]:
    return [cycle_of(line.split(b" ")[1:])[0] for line in words[2:]]


def cycle_of(words: Sequence[bytes]) -> Tuple[Wait, ...]:
    """The waits of a cycle, by its keys and names in turn."""
    keys, names = [word.decode("ascii") for word in words[::2]], [decoded(word) for word in words[1::2]]
    holders = [*keys[1:], *([] if len(keys) > len(names) else keys[:1])]
    return tuple(map(Wait, keys, names, holders))
