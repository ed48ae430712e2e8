"""Accounts in a file that processes share, with an undo journal, and a history of who owned which account when.

Each account has its balance, the balance before the last change, and the slot of whoever changed it, or 0. Each slot says whether its
transfer is over. So whoever has the lock of an account finds out whether the last change of it counts, and takes it back if it does not:
the process that made it was killed. A slot belongs to one process, and no two processes ever have the same.

python3 lib/bank.py SOCKET FILE SLOT SEED: moves money between accounts under locks until it is told to stop, or is killed.
"""
import contextlib
import mmap
import os
import random
import sys
import time
from typing import Any, Iterator, NamedTuple

ACCOUNTS, OPENING, SLOTS = 12, 1000, 4096
BALANCE, BEFORE, CHANGED_BY = range(3)
OVER = 1
"""What a slot says of a transfer whose changes count."""


class BankFile:
    """The accounts, by numbers of 64 bits in shared memory."""

    def __init__(self, path: str, is_new: bool = False) -> None:
        if is_new:
            with open(path, "wb") as file:
                file.truncate(8 * (1 + 3 * ACCOUNTS + 2 * SLOTS))
        with open(path, "r+b") as file:
            self._map = mmap.mmap(file.fileno(), 0)
        self._words = memoryview(self._map).cast("q")
        for account in range(ACCOUNTS if is_new else 0):
            self._set(account, BALANCE, OPENING)

    def close(self) -> None:
        self._words.release()
        self._map.close()

    def is_over(self) -> bool:
        return self._words[0] != 0

    def end(self) -> None:
        """Tells all processes to stop."""
        self._words[0] = 1

    def balance(self, account: int) -> int:
        return self._get(account, BALANCE)

    def recover(self, account: int) -> None:
        """Takes back a change that does not count. The caller has the lock of the account."""
        slot = self._get(account, CHANGED_BY)
        if slot == 0:
            return
        if self._words[self._state(slot)] != OVER:
            self._set(account, BALANCE, self._get(account, BEFORE))
        self._set(account, CHANGED_BY, 0)

    def begin(self, slot: int) -> None:
        """Begins a transfer. No account names the slot."""
        self._words[self._state(slot)] = 0

    def change(self, slot: int, account: int, amount: int) -> None:
        """Changes an account. The caller has its lock."""
        self._set(account, BEFORE, self._get(account, BALANCE))
        self._set(account, CHANGED_BY, slot)
        self._set(account, BALANCE, self._get(account, BALANCE) + amount)

    def commit(self, slot: int, accounts: list[int]) -> None:
        """From now on all changes of the transfer count."""
        self._words[self._state(slot)] = OVER
        for account in accounts:
            self._set(account, CHANGED_BY, 0)

    def is_within(self, slot: int) -> bool:
        """Whether some account names the slot."""
        return any(self._get(account, CHANGED_BY) == slot for account in range(ACCOUNTS))

    def count(self, slot: int) -> None:
        self._words[self._state(slot) + 1] += 1

    def counted(self, slot: int) -> int:
        return self._words[self._state(slot) + 1]

    def _get(self, account: int, field: int) -> int:
        return self._words[1 + 3 * account + field]

    def _set(self, account: int, field: int, value: int) -> None:
        self._words[1 + 3 * account + field] = value

    def _state(self, slot: int) -> int:
        return 1 + 3 * ACCOUNTS + 2 * slot


class Owned(NamedTuple):
    """A process owned an account between these times of one clock: from when it was told so, to just before it gave it back or was killed."""

    account: int
    start: int
    end: int
    slot: int


class History:
    """What a process notes: `account time` when it owns one more, and `- time` just before it gives all of them back."""

    def __init__(self, path: str, slot: int) -> None:
        self.file = os.open(f"{path}.{slot}", os.O_WRONLY | os.O_CREAT | os.O_APPEND, 0o600)

    def owns(self, account: int) -> None:
        os.write(self.file, b"%d %d\n" % (account, time.monotonic_ns()))

    def gives_back(self) -> None:
        os.write(self.file, b"- %d\n" % time.monotonic_ns())


def owned(path: str, slot: int, end: int) -> Iterator[Owned]:
    """What a process owned that had ended at this time."""
    open_since: dict[int, int] = {}
    with open(f"{path}.{slot}", encoding="ascii") as file:
        for word, moment in map(str.split, [*file, f"- {end}"]):
            if word != "-":
                open_since[int(word)] = int(moment)
            else:
                yield from (Owned(account, start, int(moment), slot) for account, start in open_since.items())
                open_since.clear()


def overlaps(history: list[Owned]) -> list[tuple[Owned, Owned]]:
    """Each two who owned an account at one time."""
    found, last = [], {}
    for each in sorted(history, key=lambda each: (each.account, each.start)):
        before = last.get(each.account)
        if before is not None and each.start < before.end:
            found.append((before, each))
        if before is None or each.end > before.end:
            last[each.account] = each
    return found


def transfer(tx: Any, bank: BankFile, history: History, slot: int, chance: random.Random) -> None:
    """Moves an amount from one account to another, and sometimes takes its time in the middle."""
    accounts = chance.sample(range(ACCOUNTS), chance.choice([2, 2, 2, 3]))
    try:
        for account in accounts:
            tx.lock(f"accounts/{account}", timeout=chance.choice([None, None, 0.05]))
            history.owns(account)
            bank.recover(account)
        amount = chance.randrange(1, 100)
        bank.begin(slot)
        for place, account in enumerate(accounts):
            bank.change(slot, account, amount * (len(accounts) - 1) if place == 0 else -amount)
            if chance.random() < 0.05:
                time.sleep(0.01)
        bank.commit(slot, accounts)
    finally:
        history.gives_back()


def main() -> None:
    from pashkure import Locks, Retry, Timeout

    path, file, slot, seed = sys.argv[1], sys.argv[2], int(sys.argv[3]), int(sys.argv[4])
    chance, bank, history = random.Random(seed), BankFile(file), History(file, slot)
    with Locks.connect(path, retry=Retry(1000, longest=0.1)) as locks:
        while not bank.is_over():
            with contextlib.suppress(Timeout):
                locks.run(transfer, bank, history, slot, chance)
                bank.count(slot)


if __name__ == "__main__":
    main()
