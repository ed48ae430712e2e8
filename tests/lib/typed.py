"""A user's program, for mypy (service.test_flows): each line that is marked is wrong, and no other one."""
import pashkure
from pashkure import Deadlock, Locks, Retry, Transaction, aio


def transfer(tx: Transaction, source: str, target: str, amount: int) -> int:
    tx.lock(source, target, timeout=1)
    return amount


async def move(tx: aio.Transaction, name: str) -> int:
    await tx.lock(name)
    return 1


locks = Locks.connect("/tmp/x", "/tmp/y", retry=Retry(3))
total: int = locks.run(transfer, "a", "b", 1)
text: str = locks.run(transfer, "a", "b", 1)  # wrong
locks.run(transfer, "a")  # wrong
locks.run(transfer, "a", "b", "hundred")  # wrong
locks.run(lambda tx: tx.lokc("a"))  # wrong
with locks.transaction("a", b"b", timeout=2) as tx:
    tx.lock(3)  # wrong
    tx.lock(["a", "b"])  # wrong
    if tx.status().state == "wating":  # wrong
        pass
    fence: str = str(tx.fence("a"))
    key: int = tx.key  # wrong
Locks("/tmp/x")  # wrong


async def main() -> None:
    async with aio.Locks.connect("/tmp/x", connections=4) as tasks:
        tx = await tasks.transaction("a")
        tx.lock("a")  # wrong
        number: int = await tasks.run(move, "x")
        await tasks.run(move)  # wrong
        await tasks.run(transfer, "a", "b", 1)  # wrong
        with tasks.transaction() as plain:  # wrong
            pass
        try:
            names: list[str] = await tx.holds()
        except Deadlock as error:
            holders: list[str] = [wait.holder for wait in error.cycle]
    with pashkure.Operator("/tmp/admin") as operator:
        waits: list[pashkure.Wait] = operator.graph()
        operator.begin()  # wrong
