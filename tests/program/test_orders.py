"""Real runs of threads: each has an order in which a lock manager of one thread gives the same answers (tests/lib/orders.py)."""
import random
import shutil
import threading
from time import monotonic_ns
from typing import Any

from lib.orders import has_order, parsed
from lib.world import IS_SLOW, SEED, Case, each, run
from program.test_library import HERE, LibraryCase
from program.test_rust import CrateCase
from program.test_threads_in_c import LAYER
from service.test_in_process import ExtensionCase

from pashkure import Deadlock, Locks, NotOwner, Timeout

SIZES = [(2, 1, 6), (2, 2, 8), (3, 2, 8), (3, 3, 12), (4, 3, 10), (4, 5, 16)]
"""Threads, names, and calls of a thread at the least."""
RUNS = 20_000 if IS_SLOW else 400
RIGHT = {
    "a name that passes on": "0 0 1 lock a ok\n1 2 9 lock a ok\n0 3 4 end - ok\n1 10 11 end - ok",
    "an end that gives back one name after another": "0 0 1 lock a ok\n0 2 3 lock b ok\n0 4 9 end - ok\n1 5 6 try a ok\n1 7 8 try b busy",
    "a deadlock": "0 0 1 lock a ok\n0 4 9 lock b ok\n1 2 3 lock b ok\n1 5 6 lock a deadlock\n1 7 8 end - ok",
    "one that is taken back": "0 0 1 lock a ok\n1 2 5 lock a timed-out\n0 6 7 end - ok\n1 8 9 try a ok",
    "two that overlap": "0 0 9 lock a ok\n1 1 8 try a busy",
}
WRONG = {
    "two owners": "0 0 1 lock a ok\n1 2 3 lock a ok\n0 4 5 end - ok",
    "busy, though nobody owns it": "0 0 1 lock a ok\n0 2 3 end - ok\n1 4 5 try a busy",
    "a deadlock without a cycle": "0 0 1 lock a ok\n1 2 3 lock a deadlock\n0 4 5 end - ok",
    "a time that is up for one's own name": "0 0 1 lock a ok\n0 2 3 lock a timed-out",
    "an end that gives back nothing": "0 0 1 lock a ok\n0 2 3 end - ok\n1 4 5 lock a timed-out",
    "an end that is refused": "0 0 1 lock a ok\n0 2 3 end - refused",
    "an unlock of a name that is owned": "0 0 1 lock a ok\n0 2 3 unlock a not-owner",
    "an unlock of a name that is not": "0 0 1 unlock a ok",
    "one owns what it was told that it does not": "0 0 1 lock a ok\n1 2 3 try a busy\n0 4 5 end - ok\n1 6 7 unlock a ok",
}


class Orders(Case):
    @each(RIGHT)
    def test_right(self, what: str) -> None:
        self.assertTrue(has_order(parsed(RIGHT[what], 3)))

    @each(WRONG)
    def test_wrong(self, what: str) -> None:
        """What no manager answers is seen."""
        self.assertFalse(has_order(parsed(WRONG[what], 3)))


class Real(Case):
    def have_orders(self, program: str, threads: int, *words: str) -> None:
        """Each run that the program prints has an order."""
        told = run(program, *words)
        self.assertEqual((told.status, told.err), (0, b""))
        texts = told.out.decode().split("run\n")[:-1]
        self.assertEqual(len(texts), RUNS)
        for text in texts:
            self.assertTrue(has_order(parsed(text, threads)), text)


class InC(Real, LibraryCase):
    @classmethod
    def setUpClass(cls) -> None:
        super().setUpClass()
        cls.program = cls.compiled(f"{cls.top}/orders", "-pthread", LAYER, f"{HERE}/orders.c")

    @each(SIZES)
    def test_runs(self, threads: int, names: int, calls: int) -> None:
        self.have_orders(self.program, threads, str(threads), str(names), str(calls), str(RUNS), str(SEED))


class InRust(Real, CrateCase):
    @classmethod
    def setUpClass(cls) -> None:
        super().setUpClass()
        shutil.copy(f"{HERE}/orders.rs", f"{cls.crate}/examples")
        told = cls.cargo("build", "--quiet", "--example", "orders", PASHKURE_LIB_DIR=f"{cls.top}/lib")
        assert (told.status, told.err) == (0, b""), told.err.decode()
        cls.program = f"{cls.top}/target/debug/examples/orders"

    @each(SIZES)
    def test_runs(self, threads: int, names: int, calls: int) -> None:
        self.have_orders(self.program, threads, str(threads), str(names), str(calls), str(RUNS), str(SEED))


class InRattle(Real):
    @each(SIZES)
    def test_runs(self, threads: int, names: int, calls: int) -> None:
        self.have_orders(self.built("bench_locks"), threads, "history", str(threads), str(names), str(calls // 3), str(RUNS), str(SEED))


class InPython(Real, ExtensionCase):
    @staticmethod
    def answer(tx: Any, kind: str, name: str) -> str:
        """Makes a call of the transaction."""
        try:
            if kind == "unlock":
                tx.unlock(name)
            elif kind == "try":
                return "ok" if tx.try_lock(name) else "busy"
            else:
                tx.lock(name, timeout=0.0005 if kind == "timed" else None)
        except Deadlock:
            return "deadlock"
        except Timeout:
            return "timed-out"
        except NotOwner:
            return "not-owner"
        return "ok"

    def work(self, locks: Any, number: int, names: int, calls: int, seed: int, gate: threading.Barrier, lines: list[str]) -> None:
        """Makes transactions of calls by chance, and writes each call down."""
        chance = random.Random(8 * seed + number)
        gate.wait()
        for _ in range(calls // 3):
            tx, answer = locks.transaction(), "ok"
            for _ in range(chance.randint(1, 4)):
                kind, name = chance.choice(["unlock", "try", "timed", *5 * ["lock"]]), f"n{chance.randrange(names)}"
                start = monotonic_ns()
                answer = self.answer(tx, kind, name)
                lines.append(f"{number} {start} {monotonic_ns()} {'lock' if kind == 'timed' else kind} {name} {answer}")
                if answer == "deadlock":
                    break
            start = monotonic_ns()
            (tx.abort if answer == "deadlock" or chance.randrange(4) == 0 else tx.commit)()
            lines.append(f"{number} {start} {monotonic_ns()} end - ok")

    @each(SIZES)
    def test_runs(self, threads: int, names: int, calls: int) -> None:
        for seed in range(SEED, SEED + RUNS // 10):
            lines: list[str] = []
            gate = threading.Barrier(threads)
            with Locks.in_process(transactions=threads, names=64) as locks:
                each_one = [threading.Thread(target=self.work, args=(locks, number, names, calls, seed, gate, lines)) for number in range(threads)]
                for thread in each_one:
                    thread.start()
                for thread in each_one:
                    thread.join()
            self.assertTrue(has_order(parsed("\n".join(lines), threads)), lines)
