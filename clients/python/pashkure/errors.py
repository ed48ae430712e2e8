"""The exceptions of the package, and what one of them tells. Each is a `LockError`, and can be pickled."""
from dataclasses import dataclass
from typing import Sequence, TypeVar

E = TypeVar("E", bound=BaseException)


@dataclass(frozen=True)
class Wait:
    """The transaction `key` waits for `name`, which `holder` owns. Behind the last wait of a cycle that was cut, the holder is ".."."""
    key: str
    name: str
    holder: str


class LockError(Exception):
    """A call could not do what it was asked for."""


class Deadlock(LockError):
    """The request would have closed a cycle of waits, so it was refused. The transaction waits for nothing, and keeps what it owns.

    It may go on. But each transaction of the cycle waits, directly or over others, for this one: so it gives back what they wait for, as
    back to a savepoint, or is aborted. One that asks again before that is told of the deadlock again, and all of them wait on. `name` is
    the name that it asked for, and `holder` the key of the transaction that owns it. `cycle` has the waits of the cycle, first the one
    that was refused, and at most 16 others.
    """

    def __init__(self, name: str, holder: str, cycle: Sequence[Wait] = ()) -> None:
        super().__init__(name, holder, tuple(cycle))
        self.name, self.holder, self.cycle = name, holder, tuple(cycle)

    def __str__(self) -> str:
        waits = ", ".join(f"{wait.key} waits for {wait.name!r}" for wait in self.cycle)
        return f"the request for {self.name!r} of {self.holder} would close a cycle of waits" + (f": {waits}" if waits else "")


class Timeout(LockError, TimeoutError):
    """The name was not granted in time. The transaction does not wait any more, and keeps what it owns."""

    def __init__(self, name: str) -> None:
        super().__init__(name)
        self.name = name

    def __str__(self) -> str:
        return f"{self.name!r} was not granted in time"


class Full(LockError):
    """There is no room. `what` is "transactions", "names", "connections", "labels" or "counts".

    `is_lasting` says whether the service has to be started again before there is room.
    """

    def __init__(self, what: str) -> None:
        super().__init__(what)
        self.what, self.is_lasting = what, what in ("labels", "counts")

    def __str__(self) -> str:
        return f"there is no room for more {self.what}"


class TooManyNames(LockError):
    """The transaction owns as many names as one may, and was refused a further one. It keeps what it owns, and others go on.

    `names_each` of `in_process`, or the option `--names-each` of the service, says how many that are.
    """


# fmt: off
class Interrupted(LockError): """`interrupt` was called. The transaction does not wait any more, and keeps what it owns."""
class Aborted(LockError): """Somebody else aborted the transaction: another thread or task, or the operator. It owns nothing any more."""

class Closed(LockError, ConnectionError): """There is no connection to a service: it was closed, or it was lost, or there was none."""
class CannotConnect(Closed): """No service could be reached in time. The reason is the `__cause__`."""
class ProtocolError(Closed): """The other side wrote what no lock service writes. The connection was closed."""
class LocksLost(Closed): """The connection of a live transaction was lost, and its locks with it. Somebody else may own its names now. Whether a
    `commit` that raises this was made is not known."""
class ServiceRestarted(LocksLost): """The service was started anew. The locks of all transactions of before are gone."""

class Misuse(LockError): """The program that calls this package is wrong. Nothing has changed."""
class NoTransaction(Misuse): """The transaction has ended."""
class Waiting(Misuse): """Another thread or task is inside a call of this transaction, such as a `lock` that waits."""
class NotOwner(Misuse): """The transaction does not own the name."""
class BadName(Misuse, ValueError): """It can be no name: it is empty, or has spaces or control characters."""
# fmt: on


class NameTooLong(Misuse):
    """The name has more bytes than a name may have: `limit`."""

    def __init__(self, name: str, limit: int) -> None:
        super().__init__(name, limit)
        self.name, self.limit = name, limit

    def __str__(self) -> str:
        return f"the name {self.name!r} has more than {self.limit} bytes"


_REFUSALS = {
    b"waiting": Waiting("the transaction waits for a lock"),
    b"not-owner": NotOwner("the transaction does not own the name"),
    b"too-many-names": TooManyNames("the transaction owns as many names as one may; to allow more, raise names_each, or --names-each of the service"),
    b"operator": Misuse("only the operator may ask for this, at the operator's socket"),
    b"no-epoch": Misuse("the service was started without an epoch, so it has no fences"),
    b"no-transaction": NoTransaction("no live transaction has this key"),
}


def refusal(word: bytes) -> LockError:
    """The exception that a refusal stands for."""
    what = word.decode("ascii", "replace")
    return again(_REFUSALS.get(word) or (Full(what[:-5]) if what.endswith("-full") else ProtocolError(f"the service replied: refused {what}")))


def again(error: E) -> E:
    """A copy of the exception, without where it was raised before."""
    return type(error)(*error.args)
