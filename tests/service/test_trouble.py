"""The Python client in a wrong world: exceptions of signals at each line, services that are killed, started anew, stopped or none, forks, tasks that
are cancelled, and calls of the C library that fail, are short or are late, below the client and below the server."""
import asyncio
import contextlib
import gc
import os
import random
import re
import signal
import socket
import subprocess
import sys
import threading
import time
import warnings
from typing import Any, Callable, List

from lib.clients import Apart, Asyncio, Opener, raises, same, waiting, waits
from lib.faults import FaultCase, variables
from lib.world import LIMIT, PACKAGE, SEED, TOP, Case, Server, each, environment, read, run, slow, stop, until

import pashkure
from pashkure import (Aborted, CannotConnect, Closed, Deadlock, Interrupted, Locks, LocksLost, NoTransaction, ProtocolError, ServiceRestarted, Timeout,
                      Waiting, aio)  # fmt: skip

FORMS = [("threads", Locks.connect), ("tasks", Asyncio)]
KILLS = 20


class Stop(BaseException):
    """What a signal's handler raises."""


class TroubleCase(Opener, Case):
    def none_is_left(self, locks: Any, but: int = 0, of: str = "anyone") -> None:
        """Returns when no transaction is live but for so many."""
        until(lambda: (totals := locks.totals()).begun == totals.committed + totals.aborted + but, f"nothing is left of {of}")


def ends_an_object(frame: Any) -> bool:
    """Whether it runs where Python ends an object, as at any moment, and keeps an exception to itself."""
    while frame is not None and frame.f_code.co_name != "__del__":
        frame = frame.f_back
    return frame is not None


class Interrupts(TroubleCase):
    """An exception of a signal, as of Ctrl-C or of a time limit, at any moment."""

    def setUp(self) -> None:
        super().setUp()
        self.path_ = self.server().path
        self.locks, self.other = self.opened(Locks.connect, self.path_), self.opened(Locks.connect, self.path_)
        self.has_hook()

    def has_hook(self) -> None:
        self.holder, self.place = self.other.transaction("held"), "a moment"
        hook, sys.unraisablehook = sys.unraisablehook, lambda told: None  # exceptions may also come where Python ends an object
        self.addCleanup(setattr, sys, "unraisablehook", hook)
        self.addCleanup(self.holder.abort)

    def uses(self) -> None:
        with self.locks.transaction() as tx:
            tx.lock("a", "b")
            with contextlib.suppress(Timeout):
                tx.lock("held", timeout=0)

    def at_line(self, count: int) -> bool:
        """Uses the locks, and raises at the line of the package that is the so-manieth. Whether it came so far."""
        left, package = [count], os.path.dirname(pashkure.__file__)

        def trace(frame: Any, event: str, argument: Any) -> Any:
            if not frame.f_code.co_filename.startswith(package) or frame.f_code.co_name in ("tell", "call") or ends_an_object(frame):
                return None
            if event == "line":
                left[0] -= 1
                if left[0] == 0:
                    sys.settrace(None)
                    self.place = f"{frame.f_code.co_filename}:{frame.f_lineno}"
                    raise Stop
            return trace

        try:
            sys.settrace(trace)
            self.uses()
        except Stop:
            return True
        finally:
            sys.settrace(None)
        return False

    def is_whole(self) -> None:
        """Fails unless other threads go on, and what was broken off has left nothing."""
        self.none_is_left(self.other, 1, self.place)
        same(Apart(self.locks.owner, "a").ends(), None)

    def test_each_line(self) -> None:
        count = 0
        with warnings.catch_warnings():
            warnings.simplefilter("ignore", ResourceWarning)  # one that is broken off outside of its block is dropped alive
            while self.at_line(count := count + 1):
                self.is_whole()
        self.assertGreater(count, 200)

    def test_timer(self) -> None:
        """The same at moments of chance, beside another thread of the same locks."""
        armed, over, chance = [False], threading.Event(), random.Random(SEED)

        def handler(number: int, frame: Any) -> None:
            if armed[0]:
                armed[0] = False
                raise Stop

        def goes_on() -> int:
            done = 0
            while not over.is_set():
                with self.locks.transaction("other") as tx:
                    same(tx.holds(), ["other"])
                done += 1
            return done

        def uses_while_armed() -> None:
            armed[0] = True
            signal.setitimer(signal.ITIMER_REAL, chance.uniform(0.00002, 0.002))
            while armed[0]:
                self.uses()

        self.addCleanup(signal.signal, signal.SIGALRM, signal.signal(signal.SIGALRM, handler))
        thread, stops = Apart(goes_on), 0
        with warnings.catch_warnings():
            warnings.simplefilter("ignore", ResourceWarning)
            while stops < 1000:
                stops += 1
                with contextlib.suppress(Stop):
                    uses_while_armed()
        over.set()
        self.assertGreater(thread.ends(), 0)
        self.is_whole()

    def test_commit(self) -> None:
        """A block whose commit is broken off gives its names back."""
        tx = self.locks.transaction("a")
        with contextlib.suppress(KeyboardInterrupt), tx:
            tx._within = lambda *args: exec("raise KeyboardInterrupt")  # type: ignore[method-assign]
        same(self.other.owner("a"), None)

    def test_within_a_wait(self) -> None:
        """A lock that a signal's exception leaves ends its transaction, whose next calls say so."""
        tx, main = self.locks.transaction("a"), threading.get_ident()

        def handler(number: int, frame: Any) -> None:
            raise Stop

        self.addCleanup(signal.signal, signal.SIGUSR1, signal.signal(signal.SIGUSR1, handler))

        def kills() -> None:
            waits(tx)
            signal.pthread_kill(main, signal.SIGUSR1)

        thread = Apart(kills)
        with contextlib.suppress(Stop):
            tx.lock("held")
        thread.ends()
        until(lambda: self.other.owner("a") is None, "its name is free")
        raises(LocksLost, tx.lock, "b")
        raises(LocksLost, tx.commit)
        tx.abort()


class Crowd(TroubleCase):
    @each(FORMS)
    def test_aborts_and_interrupts(self, name: str, form: Any) -> None:
        """Transactions are aborted and interrupted by others at any moment: each is told so and nothing else, and none is left."""
        locks, current, over = self.opened(form, self.server().path), {}, threading.Event()

        def works(number: int) -> None:
            chance = random.Random(number)
            for _ in range(50):
                with contextlib.suppress(Aborted, Deadlock, Interrupted, Timeout), locks.transaction() as tx:
                    current[number] = tx
                    tx.lock(*chance.sample("abcd", 2), timeout=chance.choice([None, 0.001, 0.02]))

        def kills() -> None:
            chance = random.Random(SEED)
            while not over.is_set():
                for tx in list(current.values()):
                    chance.choice([tx.abort, tx.interrupt, tx.interrupt])()

        killer, threads = Apart(kills), [Apart(works, number) for number in range(8)]
        same([thread.ends() for thread in threads], [None] * 8)
        over.set()
        same(killer.ends(), None)
        self.none_is_left(locks)

    def goes_back(self, locks: Any, threads: int, goes_on: Callable[[int], bool]) -> None:
        """Threads lock names in any order. After a deadlock each goes back to a savepoint, as far as the others wait for, and goes on: all commit."""
        counters = dict.fromkeys("abcdefghijkl", 0)

        def works(number: int) -> int:
            done, chance = 0, random.Random(number)
            while goes_on(done):
                with locks.transaction() as tx:
                    owned: List[str] = []
                    wanted = chance.sample(list(counters), 4)
                    while wanted:
                        try:
                            tx.lock(wanted[-1])
                            owned.append(wanted.pop())
                        except Deadlock as error:
                            same(error.cycle[-1].holder, tx.key)
                            for name in owned[owned.index(error.cycle[-1].name) :]:
                                tx.unlock(name)
                                owned.remove(name)
                                wanted.append(name)
                            chance.shuffle(wanted)
                            time.sleep(chance.uniform(0, 0.002))
                    before = {name: counters[name] for name in owned}
                    time.sleep(0)
                    counters.update({name: count + 1 for name, count in before.items()})
                done += 1
            return done

        done = [thread.ends() for thread in [Apart(works, number) for number in range(threads)]]
        self.assertTrue(all(type(count) is int and count > 0 for count in done), done)
        totals = locks.totals()
        same((totals.begun, totals.committed, totals.aborted), (sum(done), sum(done), 0))
        same((sum(counters.values()), totals.deadlocks > 0), (4 * sum(done), True))

    @each(FORMS)
    def test_savepoints(self, name: str, form: Any) -> None:
        self.goes_back(self.opened(form, self.server().path), 8, lambda done: done < 40)

    @slow
    def test_savepoints_for_a_minute(self) -> None:
        """The same by a hundred threads."""
        end = time.monotonic() + 60
        self.goes_back(self.opened(Locks.connect, self.server().path), 100, lambda done: time.monotonic() < end)


class Restarts(TroubleCase):
    def again(self, server: Server, *words: str) -> Server:
        """The same service, killed and started anew."""
        server.process.kill()
        server.process.wait()
        return self.server(*words, path=server.path)

    @each(FORMS)
    def test_restart(self, name: str, form: Any) -> None:
        """A live transaction is told that its locks are lost, in each of its calls but an abort; the next one connects anew."""
        server = self.server()
        locks = self.opened(form, server.path)
        txs = [locks.transaction(f"{number}") for number in range(4)]
        thread = waiting(txs[0], "1")
        server = self.again(server)
        self.assertIn(type(thread.ends()), (LocksLost, ServiceRestarted))
        for call in (txs[1].lock, "a"), (txs[1].lock, "a"), (txs[2].commit,):
            raises(ServiceRestarted, *call)
        txs[3].abort()
        self.assertIn(type(Apart(txs[3].lock, "a").ends()), (NoTransaction, Aborted))

        def works(tx: Any) -> int:
            nonlocal server
            runs.append(tx.key)
            server = self.again(server)
            return 1

        runs: List[str] = []
        raises(ServiceRestarted, locks.run, works)  # and it is not run again
        same(len(runs), 1)
        same(locks.run(lambda tx: tx.lock("a")), None)
        for tx in txs:
            tx.abort()
        same(locks.totals().begun, 1)

    def test_many(self) -> None:
        """Threads and tasks work while the service is killed again and again: all go on, and by their fences no name has two owners."""
        server = self.server()
        plain, tasks = self.opened(Locks.connect, server.path, connect_timeout=LIMIT), self.opened(Asyncio, server.path, connect_timeout=LIMIT)
        over, fences, lost = threading.Event(), [], []

        def works(locks: Any, number: int) -> int:
            done, chance = 0, random.Random(number)
            while not over.is_set():
                try:
                    with locks.transaction(f"{chance.randrange(3)}") as tx:
                        name = tx.holds()[0]
                        fences.append((name, tx.fence(name), (locks is plain, number, done)))
                    done += 1
                except LocksLost:
                    lost.append(number)
            return done

        threads = [Apart(works, locks, number) for locks in (plain, tasks) for number in range(8)]
        for _ in range(KILLS):
            count = len(fences)
            until(lambda: len(fences) > count + 50, "they work")
            server = self.again(server)
        count = len(fences)
        until(lambda: len(fences) > count + 50, "they work")
        over.set()
        for thread in threads:
            same((type(thread.ends()), thread.ends() != 0), (int, True), repr(thread.ends()))
        self.assertGreater(len(lost), 0)
        self.assertLessEqual(len(lost), 16 * KILLS)
        same(len({(name, fence) for name, fence, _ in fences}), len(fences))
        self.none_is_left(plain)

    @each(FORMS)
    def test_epochs(self, name: str, form: Any) -> None:
        """Of several ways the one that answers is taken; a service of an epoch below the greatest that was seen is none."""
        first, second = self.server("--epoch", "5"), self.server("--epoch", "9")
        locks = self.opened(form, first.path, second.path, connect_timeout=2)
        tx = locks.transaction("a")
        same(tx.fence("a").epoch, 5)
        other = locks.transaction()
        first.process.kill()
        first.process.wait()
        raises(ServiceRestarted, tx.lock, "b")
        tx.abort()
        raises(ServiceRestarted, other.commit)
        other.abort()
        with locks.transaction("a") as tx:
            same(tx.fence("a").epoch, 9)
        self.server("--epoch", "6", path=first.path)
        with locks.transaction("a") as tx:
            same(tx.fence("a").epoch, 9)
        second.process.kill()
        second.process.wait()
        error = Apart(locks.transaction).ends()
        same((type(error), "the service's epoch 6 is below 9" in str(error)), (CannotConnect, True), str(error))

    def test_connecting(self) -> None:
        """What cannot be reached is told with its path and the reason, and is connected to as soon as it is there."""
        path = self.path("socket")
        for name, form in FORMS:
            locks = self.opened(form, path, connect_timeout=0.01)
            error = raises(CannotConnect, locks.transaction)
            self.assertIn(path, str(error))
            self.assertIn("No such file", str(error))
            patient = self.opened(form, path, connect_timeout=LIMIT, reply_timeout=float("inf"))
            thread = Apart(patient.totals)
            raises(CannotConnect, patient.transaction, timeout=0.02)
            server = self.server(path=path)
            same(thread.ends().begun, 0)
            server.close()
        server = self.server("--connections", "1")
        wire = self.wire(server)
        same(wire.ask(b"totals"), b"totals 0 0 0 0")
        for name, form in FORMS:
            error = raises(CannotConnect, self.opened(form, server.path, connect_timeout=1).totals)
            self.assertIn("no room for more connections", str(error))


class Forks(TroubleCase):
    def test_child(self) -> None:
        """A child that was forked connects anew, its parent's transaction is not its own, and that ends with the parent."""
        server = self.server()
        text = f"""if True:
            import os, time
            from pashkure import Closed, Locks
            locks = Locks.connect({server.path!r})
            with locks.transaction("z"):
                pass
            tx = locks.transaction("a")
            child = os.fork()
            if child == 0:
                try:
                    tx.lock("b")
                except Closed:
                    with locks.transaction("c") as own:
                        print(os.getpid(), own.holds(), flush=True)
                time.sleep(1000)
            time.sleep(1000)"""
        wire = self.wire(server)
        with subprocess.Popen([sys.executable, "-c", text], env=environment(), stdout=subprocess.PIPE, text=True) as parent:
            child, told = parent.stdout.readline().split(" ", 1)
            try:
                same((told, wire.ask(b"owner a").split(b" ")[0]), ("['c']\n", b"owner"))
                parent.kill()
                parent.wait()
                until(lambda: wire.ask(b"owner a") == b"free", "the lock of the dead parent is free")
            finally:
                parent.kill()
                os.kill(int(child), signal.SIGKILL)


class Hangs(TroubleCase):
    @each(FORMS)
    def test_stopped(self, name: str, form: Any) -> None:
        """A service that hangs: each call has an end, and what it left is gone when the service goes on."""
        server = self.server()
        options = {"reply_timeout": 0.2, "connect_timeout": 0.2}
        locks, watch = self.opened(form, server.path, **options), self.opened(Locks.connect, server.path)
        holder = watch.transaction("held")
        txs = [self.opened(form, server.path, **options).transaction(f"{number}") for number in range(5)]
        waiter, patient = waiting(txs[3], "held", timeout=0.3), waiting(txs[4], "held")
        for call, wanted in ((txs[0].lock, "a"), LocksLost), ((txs[1].commit,), LocksLost), ((locks.transaction, "b"), CannotConnect), ((locks.totals,), CannotConnect):
            stop(server.process.pid)
            same(type(Apart(*call).ends()), wanted, str(call))
            os.kill(server.process.pid, signal.SIGCONT)
        stop(server.process.pid)
        raises(LocksLost, txs[2].commit, timeout=0.05)
        self.assertIn(type(waiter.ends()), (LocksLost, Timeout))
        same(type(patient.ends()), LocksLost)
        for tx in txs:
            same(Apart(tx.abort).ends(), None)
        same(Apart(locks.close).ends(), None)
        os.kill(server.process.pid, signal.SIGCONT)
        holder.commit()
        self.none_is_left(watch)

    @each(FORMS)
    def test_close(self, name: str, form: Any) -> None:
        """`close` ends calls that wait for a service which hangs, also those that wait to be sent."""
        server = self.server("--name-bytes", "1024")
        locks = self.opened(form, server.path)
        txs = [locks.transaction() for _ in range(20)]
        names = [f"{number}/" + "x" * 1000 for number in range(400)]
        stop(server.process.pid)
        threads = [Apart(tx.lock, *names) for tx in txs] + [Apart(locks.transaction) for _ in range(20)]
        same(Apart(locks.close).ends(), None)
        self.assertLessEqual({type(thread.ends()) for thread in threads}, {Closed, CannotConnect})
        os.kill(server.process.pid, signal.SIGCONT)
        self.none_is_left(self.opened(Locks.connect, server.path))

    @each([("nonsense", b"nonsense\n", ProtocolError), ("of before", b"hello 1 1 1 1 1\n", ProtocolError), ("later", b"hello 3 1 1 1 1 1\n", ProtocolError), ("nothing", b"", CannotConnect)])
    def test_no_service(self, name: str, says: bytes, wanted: Any) -> None:
        """What is no lock service is told as such."""
        path = self.path("socket")
        with socket.socket(socket.AF_UNIX) as listener:
            listener.bind(path)
            listener.listen()

            def serves() -> None:
                with contextlib.suppress(OSError):
                    while True:
                        with listener.accept()[0] as wire:
                            wire.sendall(says)
                            while says and wire.recv(1000):
                                pass

            thread = Apart(serves)
            for _, form in FORMS:
                raises(wanted, self.opened(form, path, connect_timeout=0.01 if not says else LIMIT).totals)
            listener.shutdown(socket.SHUT_RDWR)
        thread.ends()


def in_tasks(test: Callable[..., Any]) -> Callable[..., Any]:
    """Makes a test of a coroutine, which is given the locks of a new service."""
    return lambda self: self.run_with(lambda locks: test(self, locks))


class Tasks(TroubleCase):
    """What only tasks have."""

    def run_with(self, work: Callable[..., Any], **options: Any) -> Any:
        async def main() -> Any:
            async with aio.Locks.connect(self.server("--transactions", "300").path, **options) as locks:
                return await work(locks)

        return asyncio.run(main())

    def test_cancelled_begins(self) -> None:
        """A begin that is cancelled at each turn of the loop, or in a block, leaves no transaction."""

        async def begins(locks: aio.Locks) -> None:
            async with locks.transaction("a"):
                await asyncio.Event().wait()

        async def main(locks: aio.Locks) -> None:
            await asyncio.gather(*(locks.totals() for _ in range(3)))  # all are connected, so a task sends its begin at once
            for turns in range(60):
                task = asyncio.ensure_future(begins(locks))
                for _ in range(turns % 20):
                    await asyncio.sleep(0)
                task.cancel()
                await asyncio.wait([task])
                self.assertTrue(task.cancelled())
            totals = await locks.totals()
            while totals.begun != totals.aborted:
                totals = await locks.totals()
            self.assertGreater(totals.begun, 0)

        for connections in 1, 3:
            self.run_with(main, connections=connections)

    @in_tasks
    async def test_aborted_begins(self, locks: aio.Locks) -> None:
        """A begin that another task aborts, before it is connected or while it waits, raises `Aborted` and leaves no transaction."""

        async def begins(tx: Any) -> None:
            async with tx:
                pass

        unconnected = locks.transaction("a")
        task = asyncio.ensure_future(begins(unconnected))
        await asyncio.sleep(0)
        await unconnected.abort()
        self.assertIsInstance((await asyncio.gather(task, return_exceptions=True))[0], Aborted)
        async with locks.transaction("b"):
            waiter = locks.transaction("a", "b")
            task = asyncio.ensure_future(begins(waiter))
            while not waiter._state.waits:
                await asyncio.sleep(0)
            await waiter.abort()
            self.assertIsInstance((await asyncio.gather(task, return_exceptions=True))[0], Aborted)
            same((await locks.owner("a"), (await locks.totals()).aborted), (None, 1))

    @in_tasks
    async def test_cancelled_lock(self, locks: aio.Locks) -> None:
        """A lock that is given up waits no longer, dooms nobody, and its transaction goes on."""
        one, two = await locks.transaction("1"), await locks.transaction("2")
        task = asyncio.ensure_future(one.lock("2"))
        while not one._state.waits:
            await asyncio.sleep(0)
        task.cancel()
        await asyncio.wait([task])
        other = asyncio.ensure_future(two.lock("1"))  # no deadlock: nobody waits for `2`
        while not two._state.waits:
            await asyncio.sleep(0)
        await one.lock("3")
        same(await one.holds(), ["1", "3"])
        await one.commit()
        await other
        await two.commit()
        three = await locks.transaction("4")
        commit = asyncio.ensure_future(three.commit())
        await asyncio.sleep(0)
        commit.cancel()
        await asyncio.wait([commit])
        same((await locks.owner("4"), (await locks.totals()).committed), (None, 3))

    @in_tasks
    async def test_group(self, locks: aio.Locks) -> None:
        """A transaction serves one task at a time."""
        async with locks.transaction("a") as tx:
            told = await asyncio.gather(tx.lock("b"), tx.lock("c"), return_exceptions=True)
            same([type(error) for error in told], [type(None), Waiting])
        begin = locks.transaction()
        async with begin:
            for again in begin, locks.transaction():
                try:
                    async with again:
                        same(again is begin, False)
                except RuntimeError:
                    same(again is begin, True)
        same(await locks.totals(), pashkure.Totals(3, 3, 0, 0))
        with self.assertRaises(NoTransaction):  # it has not begun
            await locks.transaction().lock("a")

    def test_loops(self) -> None:
        """Locks of one loop are of no use in another one; locks that are closed stay closed."""
        locks = aio.Locks.connect(self.server().path)

        async def first() -> None:
            await locks.totals()  # noqa: F821

        asyncio.run(first())
        self.assertRaisesRegex(RuntimeError, "another event loop", asyncio.run, first())

        async def closes() -> None:
            await locks.close()
            for again in range(2):
                with self.assertRaises(Closed):
                    async with locks:
                        await locks.totals()

        with warnings.catch_warnings():
            warnings.simplefilter("ignore", ResourceWarning)  # the connection of the first loop was not closed in its time
            asyncio.run(closes())
            del locks
            gc.collect()

    @in_tasks
    async def test_many_requests(self, locks: aio.Locks) -> None:
        """More requests at once than a connection takes all come to their end."""
        txs = [await locks.transaction() for _ in range(200)]
        await asyncio.gather(*(tx.lock(*(f"{number}/{place}" for place in range(100))) for number, tx in enumerate(txs)))
        await asyncio.gather(*(tx.commit() for tx in txs))
        same((await locks.totals()).committed, 200)


# A program that uses each call of the client, and says at its end what it saw. It is run with faults below it.
USES = """if True:
    import sys, threading
    from lib.clients import Asyncio
    from pashkure import Locks, Retry, Timeout
    told = []
    locks = (Asyncio if sys.argv[2] == "tasks" else Locks.connect)(sys.argv[1], retry=Retry(1000, longest=0.05))
    def work(tx, one, two):
        tx.lock(one)
        tx.lock(two)
        told.append((one, two))
    threads = [threading.Thread(target=locks.run, args=(work, one, two)) for one, two in ["ab", "bc", "ca", "ba"] * 4]
    for thread in threads: thread.start()
    for thread in threads: thread.join()
    with locks.transaction() as tx:
        tx.lock(*("name/%d" % number + "x" * 40 for number in range(200)))
        assert len(tx.holds()) == 200
        other = locks.transaction()
        try:
            other.lock("name/0" + "x" * 40, timeout=0.01)
        except Timeout:
            told.append("timeout")
        other.abort()
    totals = locks.totals()
    assert totals.begun == totals.committed + totals.aborted
    getattr(locks, "ends", locks.close)()
    print(len(told))
"""
USED = (0, b"17\n", b"")
FAULTS = "read:short%30 write:short%30 recv:short%30 send:short%30 read:EINTR%10 write:EINTR%10 recv:EINTR%10 send:EINTR%10 poll:EINTR%10 epoll_wait:EINTR%10"


class Faults(FaultCase):
    def uses(self, server: Server, form: str, **env: str) -> Any:
        return run(sys.executable, "-c", USES, server.path, form, env=environment(PYTHONPATH=f"{PACKAGE}:{TOP}/tests", **env))

    @each([(f"{form} of seed {seed}", form, seed) for seed in (1, SEED) for form, _ in FORMS])
    def test_client(self, name: str, form: str, seed: int) -> None:
        """Signals, and reads and writes that do less than they were asked for, make no difference to the client."""
        log = self.path("log")
        self.assertEqual(self.uses(self.server("--name-bytes", "64"), form, **variables(FAULTS, seed, log, only="python")), USED)
        for fault in "recv:short", "send:short", "recv:EINTR", "send:EINTR":
            self.assertIn(fault, read(log))

    @each([("one", 1), ("two", 2), ("a new seed", SEED)])
    def test_server(self, name: str, seed: int) -> None:
        """The same below the server."""
        log = self.path("log")
        server = self.server("--name-bytes", "64", env=variables(FAULTS + " read:late=1%5 accept:EINTR%30", seed, log, "pashkure-serve"))
        self.assertEqual(self.uses(server, "threads"), USED)
        self.assertEqual((server.close(), server.stderr()), (0, ""))
        for fault in "read:short", "write:short", "recv:short", "send:short", "recv:EINTR", "send:EINTR", "epoll_wait:EINTR":
            self.assertIn(fault, read(log))

    def test_how_long_poll_waits(self) -> None:
        """A lock with a time of a twentieth of a second does not ask the system to wait for longer, and for a reply not for a second more."""
        log = self.path("log")
        text = """if True:
            import contextlib, sys
            from pashkure import Locks, Timeout
            with Locks.connect(sys.argv[1], reply_timeout=100, connect_timeout=100) as locks:
                one, two = locks.transaction("a"), locks.transaction()
                with contextlib.suppress(Timeout):
                    two.lock("a", timeout=0.05)
                one.abort()
                two.abort()
        """
        told = run(sys.executable, "-c", text, self.server().path, env=environment(**variables("poll:told", log=log, only="python")))
        self.assertEqual(told, (0, b"", b""))
        waited = [int(time) for time in re.findall(r"poll:told=(-?[0-9]+)@", read(log)) if 0 < int(time) < 50_000]
        self.assertTrue(waited, "it never waited for a time")
        self.assertLessEqual(min(waited), 51)
        self.assertLessEqual(max(waited), 1051)
