"""Names, keys, times, and what calls return."""
import math
import random
import re
from dataclasses import dataclass
from typing import Literal, Optional, Tuple, Union

from .errors import BadName, NameTooLong

Name = Union[str, bytes, bytearray, memoryview]
"""A name: text, which is sent as UTF-8, or the bytes themselves."""

LONGEST_NAME = 1024
_NAME = re.compile(rb"[!-~\x80-\xff]+\Z")
_KEY = re.compile(r"([0-9]{1,20})\.([0-9]{1,20})\Z")


def encoded(name: Name) -> bytes:
    """The bytes of a name. Raises `TypeError` if it is neither text nor bytes, and `BadName` or `NameTooLong` if it can be no name."""
    if not isinstance(name, (str, bytes, bytearray, memoryview)):
        raise TypeError(f"a name is text or bytes, not {type(name).__name__}")
    try:
        data = name.encode("utf-8", "surrogateescape") if isinstance(name, str) else bytes(name)
    except UnicodeEncodeError:
        data = b""  # surrogates that stand for no byte
    if not _NAME.match(data):
        raise BadName(f"{name!r} is no name: a name has at least one byte, and no spaces or control characters")
    if len(data) > LONGEST_NAME:
        raise NameTooLong(decoded(data), LONGEST_NAME)
    return data


def decoded(data: bytes) -> str:
    """The text of a name. Bytes that are no UTF-8 become surrogates, which `encoded` turns back into the same bytes."""
    return data.decode("utf-8", "surrogateescape")


def key_bytes(key: str) -> bytes:
    """The bytes of a key, which is two numbers with a point between them. Raises `TypeError` or `ValueError` if it is none."""
    if not isinstance(key, str):
        raise TypeError(f"a key is text, not {type(key).__name__}")
    numbers = _KEY.match(key)
    if numbers is None or max(map(int, numbers.groups())) > 4_294_967_295:
        raise ValueError(f"{key!r} is no key: a key is two numbers, such as 0.1")
    return key.encode("ascii")


def seconds(value: Optional[float], what: str = "a timeout") -> float:
    """A time as a number; none is an infinite one. Raises `TypeError` or `ValueError` if it is no time."""
    if value is None:
        return math.inf
    if isinstance(value, bool) or not isinstance(value, (int, float)):
        raise TypeError(f"{what} is a number of seconds, not {type(value).__name__}")
    if not value >= 0:
        raise ValueError(f"{what} is at least 0 seconds, not {value!r}")
    return float(value)


@dataclass(frozen=True)
class Status:
    """What a transaction does: if it waits, the name that it waits for, and who owns that. It is ending if it gives back many names, part by
    part: it commits or is aborted, or its client has hung up."""
    state: Literal["active", "waiting", "ending"]
    name: Optional[str] = None
    holder: Optional[str] = None


@dataclass(frozen=True)
class Totals:
    """What the service has counted since its start. `deadlocks` are the requests that were refused for one."""
    begun: int
    committed: int
    aborted: int
    deadlocks: int


@dataclass(frozen=True)
class Counts(Totals):
    """The same, and more for an operator: how many requests can yet wait or be told of a deadlock, and how many events can be counted, until
    the service has to be started again."""
    waits: int
    withdrawn: int
    events: int
    labels_left: int
    counts_left: int


@dataclass(frozen=True)
class Live:
    """A live transaction: its key, the number of its client, if that is still connected, and what it does."""
    key: str
    client: Optional[int]
    status: Status


@dataclass(frozen=True)
class Client:
    """A client: its number, its process and user, and for how many seconds it has been connected."""
    number: int
    pid: int
    uid: int
    seconds: int


@dataclass(frozen=True, order=True)
class Fence:
    """A number that rises: greater than what any earlier owner of the name was told. As text it sorts in the same order."""
    epoch: int
    count: int

    def __str__(self) -> str:
        return f"{self.epoch:019}.{self.count:019}"


@dataclass(frozen=True)
class Event:
    """What a call of a transaction did, how long it took, and how long of that it waited for others; or a connection was made or lost."""
    kind: Literal["begin", "lock", "commit", "abort", "connect", "lost"]
    key: str = ""
    names: Tuple[str, ...] = ()
    seconds: float = 0.0
    waited: float = 0.0
    error: Optional[BaseException] = None


@dataclass(frozen=True)
class Retry:
    """How often `run` tries. After a deadlock it pauses by chance for up to as long as the attempt took, twice as long after each further
    one, but for up to `longest` seconds at most, and up to `shortest` at least."""
    attempts: int = 10
    shortest: float = 0.001
    longest: float = 2.0

    def __post_init__(self) -> None:
        if type(self.attempts) is not int or self.attempts < 1:
            raise ValueError(f"attempts is a whole number from 1, not {self.attempts!r}")
        seconds(self.shortest, "shortest")
        seconds(self.longest, "longest")

    def pause(self, attempt: int, took: float) -> float:
        """Seconds before the next attempt, after the one of this number, from 1, which took so long."""
        return random.uniform(0.0, min(self.longest, max(self.shortest, took) * 2.0 ** min(attempt - 1, 60)))
