"""The Python client over a socket: each call and each exception, with threads and with asyncio; what the operator sees; events and the log; and a
service for tests."""
import contextlib
import gc
import logging
import os
import shlex
import time
from typing import Any, List

from lib.clients import Apart, Asyncio, Opener, raises, same, waiting
from lib.world import PROGRAM, Case, until

from pashkure import (Aborted, Closed, Counts, Deadlock, Event, Full, Interrupted, Locks, Misuse, NameTooLong, NotOwner, NoTransaction,
                      Operator, Retry, Status, Timeout, TooManyNames, Totals, Wait, Waiting, testing)  # fmt: skip

OPTIONS = {"test_names": {"name_bytes": 20}, "test_full": {"transactions": 4, "names": 4}, "test_names_each": {"names_each": 2}}


class Calls(Opener):
    """The cases that threads and asyncio have in common."""

    locks: Any
    form: Any
    paths: List[str] = []
    connected = ("{path}: connected",)  # what is logged at the start

    def setUp(self) -> None:
        super().setUp()  # type: ignore[misc]
        words = [word for name, value in OPTIONS.get(self._testMethodName, {}).items() for word in ("--" + name.replace("_", "-"), str(value))]  # type: ignore[attr-defined]
        self.admin = self.path("admin")  # type: ignore[attr-defined]
        self.paths = [self.server("--admin", self.admin, *words).path]  # type: ignore[attr-defined]
        self.operator = Operator(self.admin)
        self.addCleanup(self.operator.close)  # type: ignore[attr-defined]
        self.locks = self.opened()

    def opened(self, **options: Any) -> Any:  # type: ignore[override]
        return super().opened(self.form, *self.paths, **options)

    def test_calls(self) -> None:
        """Locks are granted, held, busy, unlocked, and read"""
        locks = self.locks
        with locks.transaction() as tx:
            tx.lock("b")
            tx.lock("a")
            tx.lock("a")
            same(tx.try_lock("b"), True)
            same(tx.holds(), ["a", "b"])
            same(tx.status(), Status("active"))
            same(locks.owner("a"), tx.key)
            with locks.transaction() as other:
                same(other.try_lock("a"), False)
                same(other.try_lock("c"), True)
                tx.unlock("a")
                same(other.try_lock("a"), True)
            raises(NotOwner, tx.unlock, "a")
            same(self.operator.holds(tx.key), ["b"])
            many = [f"n{number}" for number in range(2500)]
            tx.lock("z", "y", "x", *many)
            same((tx.holds(), self.operator.holds(tx.key)), (sorted(["b", *many, "x", "y", "z"]),) * 2)
        same(locks.owner("b"), None)
        raises(NoTransaction, tx.lock, "a")
        raises(NoTransaction, tx.commit)
        tx.abort()
        same(locks.totals(), Totals(2, 2, 0, 0))
        with locks.transaction("a", "b", timeout=5) as tx:
            same(tx.holds(), ["a", "b"])

    def test_fence(self) -> None:
        """A later owner of a name is told of a greater fence."""
        with self.locks.transaction("a") as tx:
            fence = tx.fence("a")
        with self.locks.transaction("a") as tx:
            same(tx.fence("a") > fence, True)
            raises(NotOwner, tx.fence, "b")

    def test_several_names(self) -> None:
        """A transaction that cannot own all of its names is not left; a lock that cannot leaves what it owns."""
        locks = self.locks
        one = locks.transaction("a")
        same(raises(Timeout, locks.transaction, "b", "a", "c", timeout=0.01).name, "a")
        same((locks.owner("b"), locks.owner("c")), (None, None))
        two = locks.transaction("d")
        same(raises(Timeout, two.lock, "b", "a", "c", timeout=0.01).name, "a")
        same(two.holds(), ["b", "d"])
        thread = waiting(one, "d")
        same(raises(Deadlock, two.lock, "e", "a", "f").name, "a")
        two.abort()
        same(thread.ends(), None)
        thread = Apart(locks.transaction, "b", "d", "c")
        until(lambda: len(self.operator.graph()), "it waits")
        one.commit()
        three = thread.ends()
        same(three.holds(), ["b", "c", "d"])
        three.commit()
        same(locks.totals(), Totals(4, 2, 2, 1))

    def test_deadlock(self) -> None:
        """A deadlock is told to the one who would close the cycle, as often as it asks. The others go on after its abort, and time-outs meanwhile.
        Who waits refuses all other calls"""
        locks = self.locks
        one, two = locks.transaction("1"), locks.transaction("2")
        thread = waiting(one, "2")
        same(self.operator.graph(), [Wait(one.key, "2", two.key)])
        same(one.status(), Status("waiting", "2", two.key))
        error = raises(Deadlock, two.lock, "1")
        same((error.name, error.holder, error.cycle), ("1", one.key, (Wait(two.key, "1", one.key), Wait(one.key, "2", two.key))))
        same(raises(Deadlock, two.lock, "1").cycle, error.cycle)
        same(raises(Deadlock, two.lock, "3", "1", "4").cycle, error.cycle)
        same((two.status(), two.holds(), two.try_lock("1")), (Status("active"), ["2", "3"], False))
        same(raises(Timeout, locks.transaction, "1", timeout=0.001).name, "1")
        for call in (one.commit,), (one.try_lock, "3"), (one.lock, "3"), (one.holds,):
            raises(Waiting, *call)
        two.abort()
        same(thread.ends(), None)
        same(one.holds(), ["1", "2"])
        one.commit()
        same(locks.totals(), Totals(3, 1, 2, 3))

    def test_savepoint(self) -> None:
        """One that is told of a deadlock goes back to a savepoint, as far as the others wait for, and goes on: both commit."""
        locks = self.locks
        one, two = locks.transaction("1"), locks.transaction("2")
        savepoint = two.holds()
        two.lock("3", "4")
        thread = waiting(one, "3")
        error = raises(Deadlock, two.lock, "1")
        same((error.cycle[-1].key, error.cycle[-1].name), (one.key, "3"))
        for name in two.holds():
            if name not in savepoint:
                two.unlock(name)
        same(thread.ends(), None)
        thread = waiting(two, "1", "3")
        one.commit()
        same(thread.ends(), None)
        same(two.holds(), ["1", "2", "3"])
        two.commit()
        same(locks.totals(), Totals(2, 2, 0, 1))

    def test_long_cycle(self) -> None:
        """Of a long cycle the wait that was refused and sixteen others are told."""
        ring = [self.locks.transaction(f"{number}") for number in range(18)]
        threads = [waiting(tx, f"{number + 1}") for number, tx in enumerate(ring[:-1])]
        for first, rest in (1, ring[17].key), (0, ".."):
            cycle = raises(Deadlock, ring[17].lock, f"{first}").cycle
            keys = [tx.key for tx in (ring[17], *ring[first : first + 16])]
            same(cycle, tuple(map(Wait, keys, map(str, range(first, first + 17)), [*keys[1:], rest])))
        ring[17].unlock("17")
        for number in range(16, -1, -1):
            same(threads[number].ends(), None)
            ring[number].commit()
        ring[17].commit()

    def test_blocks(self) -> None:
        """A `with` block commits at its end, also after a deadlock that it swallows, and aborts at an exception"""
        locks = self.locks
        with locks.transaction() as tx:
            tx.lock("a")
        same(locks.totals(), Totals(1, 1, 0, 0))

        def fails() -> None:
            with locks.transaction() as tx:
                tx.lock("a")
                raise KeyError("a")

        raises(KeyError, fails)
        same(locks.totals(), Totals(2, 1, 1, 0))
        with locks.transaction() as tx:
            tx.commit()
        same(locks.totals(), Totals(3, 2, 1, 0))

        def swallows() -> None:
            with locks.transaction() as two:
                two.lock("b")
                thread.append(waiting(one, "b"))
                with contextlib.suppress(Deadlock):
                    two.lock("a")

        thread: List[Apart] = []
        one = locks.transaction("a")
        swallows()
        same(thread[0].ends(), None)
        one.commit()
        same(locks.totals(), Totals(5, 4, 1, 1))

    def test_timeouts(self) -> None:
        """A lock with a timeout gives up after it, not before, and the transaction goes on"""
        locks = self.locks
        one, two = locks.transaction("a"), locks.transaction()
        start = time.monotonic()
        error = raises(Timeout, two.lock, "a", timeout=0.05)
        assert time.monotonic() - start >= 0.05, "it gave up too soon"
        assert isinstance(error, TimeoutError) and error.name == "a"
        raises(Timeout, locks.transaction, "a", timeout=0)
        two.lock("b", timeout=0.05)
        raises(Timeout, two.lock, "a", timeout=0)
        same(two.status().state, "active")
        thread = waiting(two, "a", timeout=1000)
        one.commit()
        same(thread.ends(), None)
        same(two.holds(), ["a", "b"])
        two.commit()

    def test_abort_of_another(self) -> None:
        """A transaction that waits is aborted by another thread, and its `lock` raises `Aborted`"""
        locks = self.locks
        one, two = locks.transaction("a"), locks.transaction("b")
        thread = waiting(two, "a")
        two.abort()
        same(type(thread.ends()), Aborted)
        until(lambda: locks.owner("b") is None, "its name is free, though the one before it goes on")
        two.abort()
        raises(Aborted, two.lock, "c")
        one.commit()
        until(lambda: locks.totals() == Totals(2, 1, 1, 0), "it has ended")

        def aborts_elsewhere() -> None:
            with locks.transaction("a") as tx:
                Apart(tx.abort).ends()

        raises(Aborted, aborts_elsewhere)

    def test_interrupt(self) -> None:
        """A wait is interrupted by another thread, or the next one if it does not wait, once, and the transaction goes on."""
        locks = self.locks
        one, two = locks.transaction("a"), locks.transaction("b")
        thread = waiting(two, "a")
        two.interrupt()
        same(type(thread.ends()), Interrupted)
        two.interrupt()
        two.lock("c")
        raises(Interrupted, two.lock, "a")
        raises(Timeout, two.lock, "a", timeout=0.001)
        same(two.holds(), ["b", "c"])
        two.commit()
        one.commit()

    def test_operator(self) -> None:
        """The operator sees and aborts each transaction, and is told of deadlocks; a client may ask for nothing of that."""
        locks, operator = self.locks, self.operator
        deadlocks = operator.deadlocks()
        one, two = locks.transaction("1"), locks.transaction("2")
        thread = waiting(one, "2")
        raises(Deadlock, two.lock, "1")
        same(next(deadlocks), (Wait(two.key, "1", one.key), Wait(one.key, "2", two.key)))
        live = operator.transactions()
        same([(each.key, each.status.state) for each in live], [(one.key, "waiting"), (two.key, "active")])
        self.assertIn(live[0].client, [client.number for client in operator.clients()])  # type: ignore[attr-defined]
        same({client.pid for client in operator.clients()}, {os.getpid()})
        same(operator.status(one.key), Status("waiting", "2", two.key))
        operator.abort(two.key)
        same(thread.ends(), None)
        raises(Aborted, two.holds)
        raises(NoTransaction, two.lock, "3")
        four = Apart(locks.transaction, "1")  # what the one before it on this connection was told is not its own
        until(operator.graph, "it waits")
        three = locks.transaction()
        thread = waiting(three, "1")
        operator.abort(three.key)
        same(type(thread.ends()), Aborted)
        raises(NoTransaction, operator.status, "4294967295.4294967295")
        one.commit()
        last = four.ends()
        same(last.holds(), ["1"])
        last.commit()
        counts = operator.counts()
        same((type(counts), counts.deadlocks, counts.waits), (Counts, 1, 3))
        deadlocks.close()
        for call in locks.locks, locks.graph, locks.counts:
            self.assertIn("pashkure.Operator", str(raises(Misuse, call)))  # type: ignore[attr-defined]

    def test_names(self) -> None:
        """Names are any text without spaces: UTF-8, other bytes, and the longest; what is none raises at once"""
        locks = self.locks
        every = ["a", "Konten/Müller", "账户/1", "🔒", "~!#*", "x" * 20, b"\xff\xfe\x80", "ä" * 10]
        with locks.transaction() as tx:
            for name in every:
                tx.lock(name)
                same(locks.owner(name), tx.key)
            texts = [name if isinstance(name, str) else name.decode("utf-8", "surrogateescape") for name in every]
            same(tx.holds(), sorted(texts, key=lambda name: name.encode("utf-8", "surrogateescape")))
            for name in tx.holds():
                tx.unlock(name)
            same(tx.holds(), [])
            for same_name in bytearray(b"a"), memoryview(b"a"), b"a":
                tx.lock(same_name)
                same(locks.owner(same_name), tx.key)
            tx.unlock("a")
            for call in tx.lock, tx.try_lock, tx.unlock:
                for name, limit in ("x" * 21, 20), ("ä" * 2000, 1024), ("x" * 100_000, 1024):
                    error = raises(NameTooLong, call, name)
                    same((error.name, error.limit), (name, limit))
            tx.lock("after")
            for zeros in f"00{tx.key}", tx.key.zfill(20), tx.key:
                same(self.operator.status(zeros).state, "active")

    def test_full(self) -> None:
        """A full table refuses transactions and names as `Full`, and has room again after an end"""
        locks = self.locks
        txs = [locks.transaction(f"{number}") for number in range(4)]
        same(raises(Full, locks.transaction).what, "transactions")
        error = raises(Full, txs[0].lock, "more")
        same((error.what, error.is_lasting), ("names", False))
        raises(Full, txs[0].try_lock, "more")
        same(txs[0].try_lock("1"), False)
        txs[1].commit()
        txs[0].lock("more")
        for tx in txs[0], txs[2], txs[3]:
            tx.abort()
        same(locks.totals(), Totals(4, 1, 3, 0))

    def test_names_each(self) -> None:
        """A transaction that owns as many names as one may is refused a further one, and its neighbour goes on"""
        one, two = self.locks.transaction("1", "2"), self.locks.transaction("x")
        for call in one.lock, one.try_lock:
            for name in "3", "x":
                self.assertIn("names_each", str(raises(TooManyNames, call, name)))  # type: ignore[attr-defined]
        raises(TooManyNames, self.locks.transaction, "4", "5", "6")
        two.lock("4")
        one.unlock("1")
        one.lock("3")
        same((one.holds(), two.holds()), (["2", "3"], ["4", "x"]))
        one.commit()
        two.commit()

    def test_threads(self) -> None:
        """Sixteen threads change counters under their locks, and no change is lost"""
        locks = self.locks.retrying(Retry(1000, longest=0.05))
        counters = {f"counter/{number}": 0 for number in range(5)}

        def add(tx: Any, one: str, two: str) -> None:
            tx.lock(one)
            tx.lock(two)
            before = counters[one], counters[two]
            time.sleep(0)
            counters[one], counters[two] = before[0] + 1, before[1] - 1

        def many(number: int) -> None:
            for turn in range(50):
                one, two = (number + turn) % 5, (number + 2 * turn + 1 + turn % 3) % 5
                if one != two:
                    locks.run(add, f"counter/{one}", f"counter/{two}")
                    done.append(1)

        done: List[int] = []
        same([thread.ends() for thread in [Apart(many, number) for number in range(16)]], [None] * 16)
        same(sum(counters.values()), 0)
        totals = locks.totals()
        same((totals.committed, totals.begun, totals.deadlocks), (len(done), totals.committed + totals.aborted, totals.aborted))
        same(self.operator.graph(), [])

    def test_closing(self) -> None:
        """After `close` every call raises `Closed`, also one that waits"""
        locks = self.locks
        one, two = locks.transaction("a"), locks.transaction()
        thread = waiting(two, "a")
        locks.close()
        same(type(thread.ends()), Closed)
        for call in (one.lock, "b"), (two.commit,), (locks.transaction,), (locks.totals,):
            raises(Closed, *call)
        two.abort()
        one.abort()
        locks.close()

    def test_events(self) -> None:
        """Each begin, lock, commit and abort is told, also one that fails; what the hook raises is logged, and so is a slow wait and a deadlock."""
        told: List[Event] = []

        def hook(event: Event) -> None:
            told.append(event)
            raise ValueError("of the hook")

        locks = self.opened(on_event=hook, slow_wait=0.01)  # type: ignore[attr-defined]
        with self.assertLogs("pashkure", logging.INFO) as logs:  # type: ignore[attr-defined]
            one, two = locks.transaction("a"), locks.transaction()
            two.lock("b")
            thread, third = Apart(one.lock, "b"), Apart(locks.transaction, "a")
            until(lambda: all(any(f"has waited for {name!r}" in line for line in logs.output) for name in "ab"), "the slow waits are logged")
            raises(Deadlock, two.lock, "a")
            two.abort()
            thread.ends()
            one.commit()
            three = third.ends()
            three.commit()
        events = [(event.kind, event.key, event.names, type(event.error)) for event in told if event.kind != "connect"]
        none = type(None)
        same((set(events), len(events)), ({("begin", one.key, ("a",), none), ("begin", two.key, (), none), ("lock", two.key, ("b",), none), ("lock", one.key, ("b",), none),
             ("lock", two.key, ("a",), Deadlock), ("abort", two.key, (), none), ("commit", one.key, (), none), ("begin", three.key, ("a",), none), ("commit", three.key, (), none)}, 9))  # fmt: skip
        waited = [event for event in told if (event.key, event.names) in [(one.key, ("b",)), (three.key, ("a",))]]
        same([event.seconds >= event.waited >= 0.01 for event in waited], [True, True])
        text = "\n".join(logs.output)
        for part in *(part.format(path=self.paths[0]) for part in self.connected), f"{two.key}: deadlock: the request for 'a'", f"{one.key}: on_event raised an exception", f"WARNING:pashkure:{one.key} has waited for 'b' of {two.key}":
            self.assertIn(part, text)  # type: ignore[attr-defined]


class Threads(Calls, Case):
    form = Locks.connect

    def test_abort_in_the_block(self) -> None:
        """A block whose own thread aborts its transaction ends without an exception."""
        with self.locks.transaction("a") as tx:
            tx.abort()
        same(self.locks.totals(), Totals(1, 0, 1, 0))

    def test_dropped(self) -> None:
        """A transaction that is dropped alive is aborted, with a warning, before the garbage collector finds its session."""
        gc.disable()
        self.addCleanup(gc.enable)
        tx = self.locks.transaction("a")
        with self.assertWarns(ResourceWarning):
            del tx
        until(lambda: self.locks.owner("a") is None, "the name is free")


class Tasks(Calls, Case):
    """The same with the asyncio client."""

    form = Asyncio


class Testing(Case):
    def test_service(self) -> None:
        """A service for tests: it answers, is stopped, and is started anew with a greater epoch."""
        command = [*self.needs_server(), "--program", PROGRAM]
        os.environ["PASHKURE_SERVE"] = shlex.join(command)
        self.addCleanup(os.environ.pop, "PASHKURE_SERVE")
        with testing.service("--names", "1") as served, Locks.connect(served.path) as locks, Operator(served.admin) as operator:
            with locks.transaction("a") as tx:
                raises(Full, tx.lock, "b")
                epoch = tx.epoch
            served.stop()
            served.start()
            with locks.transaction() as tx:
                same((tx.epoch > epoch, operator.counts().begun), (True, 1))
        same(os.path.exists(served.path), False)
        raises(RuntimeError, testing.service, command=["false"])
