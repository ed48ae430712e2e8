"""Exclusive locks on names for transactions, with deadlocks told at once.

    from pashkure import Locks

    locks = Locks.connect("/run/pashkure/locks")
    with locks.transaction("accounts/1", "accounts/2", timeout=2.0):   # commits at the end, aborts at an exception
        ...
    locks.run(transfer, "accounts/1", "accounts/2")                    # again after Deadlock

`pashkure.aio` has the same for asyncio. `mmdetect serve --socket PATH` serves the locks.
"""
from .errors import (Aborted, BadName, CannotConnect, Closed, Deadlock, Full, Interrupted, LockError, LocksLost, Misuse, NameTooLong,
                     NotOwner, NoTransaction, ProtocolError, ServiceRestarted, Timeout, TooManyNames, Wait, Waiting)  # fmt: skip
from .locks import Locks, Operator, Transaction
from .values import Client, Counts, Event, Fence, Live, Name, Retry, Status, Totals

__version__ = "0.2.0"
__all__ = ["Aborted", "BadName", "CannotConnect", "Client", "Closed", "Counts", "Deadlock", "Event", "Fence", "Full", "Interrupted", "Live",
           "LockError", "Locks", "LocksLost", "Misuse", "Name", "NameTooLong", "NoTransaction", "NotOwner", "Operator", "ProtocolError",
           "Retry", "ServiceRestarted", "Status", "Timeout", "TooManyNames", "Totals", "Transaction", "Wait", "Waiting"]  # fmt: skip
