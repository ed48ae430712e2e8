"""The Python client in process: the cases that it has in common with the service, and what differs."""
import asyncio
import gc
import os
import pathlib
import sys
import sysconfig
import unittest.mock
import zipfile
from typing import Any, List

from lib.clients import Asyncio, raises, same, waiting
from lib.world import PACKAGE, each, environment, run, until
from program.test_library import LibraryCase
from service import test_python, test_trouble
from service.test_python import OPTIONS, Calls

import build_backend
from pashkure import Aborted, Closed, Counts, Deadlock, Full, Locks, Misuse, Status, Timeout, Totals, Wait, aio

HEADERS = sysconfig.get_path("include")
LABELS, EVENTS = 8_796_093_022_207, 4_611_686_018_360_279_040  # of pashkure.h
USE = "import pashkure; locks = pashkure.Locks.in_process(); print(locks.transaction('a').holds())"


class Looks:
    """What the operator of a service asks, asked of the locks."""

    def __init__(self, locks: Any) -> None:
        self.locks, self.backend = locks, getattr(locks, "_locks", locks)._backend
        self.manager, self.graph = self.backend.manager, locks.graph

    def holds(self, key: str) -> List[str]:
        return sorted(name for name, owner in self.locks.locks().items() if owner == key)

    def status(self, key: str) -> Status:
        return Status("waiting") if self.manager.status(int(key.split(".")[0]))[1:] else Status("active")


class ExtensionCase(LibraryCase):
    """With the extension, built from its source."""

    @classmethod
    def setUpClass(cls) -> None:
        super().setUpClass()
        if not os.path.exists(os.path.join(HEADERS, "Python.h")):
            raise unittest.SkipTest(f"there is no Python.h in {HEADERS} (Debian's package python3-dev)")
        with unittest.mock.patch.dict(os.environ, {"PASHKURE_LIB_DIR": f"{cls.top}/lib"}):
            build_backend.extension(cls.top)
        sys.path.insert(0, cls.top)
        cls.addClassCleanup(sys.path.remove, cls.top)


class Inside(Calls):
    """The cases that threads and asyncio have in common."""

    connected = ()

    def setUp(self) -> None:
        super(Calls, self).setUp()  # type: ignore[misc]
        self.locks = self.opened(**OPTIONS.get(self._testMethodName, {}))  # type: ignore[attr-defined]
        self.operator: Any = Looks(self.locks)

    test_operator = None  # type: ignore[assignment]

    def test_fence(self) -> None:
        """There is none."""
        with self.locks.transaction("a") as tx:
            raises(Misuse, tx.fence, "a")
            tx.lock("b")

    def test_reads(self) -> None:
        """All waits, all owners and all counts, of a manager in each state."""
        same((self.locks.graph(), self.locks.locks(), self.locks.counts()), ([], {}, Counts(0, 0, 0, 0, 0, 0, 0, LABELS, EVENTS)))
        one, two = self.locks.transaction("b", "a"), self.locks.transaction("\udcff")
        thread = waiting(two, "a")
        same(self.locks.graph(), [Wait(two.key, "a", one.key)])
        raises(Deadlock, one.lock, "\udcff")
        same(self.locks.graph(), [Wait(two.key, "a", one.key)])
        same(self.locks.locks(), {"a": one.key, "b": one.key, "\udcff": two.key})
        one.abort()
        same(thread.ends(), None)
        same((self.locks.graph(), self.locks.locks()), ([], {"a": two.key, "\udcff": two.key}))
        two.commit()
        counts = self.locks.counts()
        same((counts.begun, counts.committed, counts.aborted, counts.deadlocks, counts.waits, counts.withdrawn), (2, 1, 1, 1, 1, 0))
        same((counts.events > 0, counts.labels_left, counts.counts_left), (True, LABELS - counts.deadlocks - counts.waits, EVENTS - counts.events))

    def test_many_names(self) -> None:
        """One transaction owns 100,000 names, which is all that there can be."""
        locks = self.opened(names=100_000)  # type: ignore[attr-defined]
        tx = locks.transaction(*map(str, range(100_000)))
        raises(Full, tx.lock, "x")
        same((len(locks.locks()), len(tx.holds())), (100_000, 100_000))
        tx.commit()
        same(locks.locks(), {})

    def test_ranges(self) -> None:
        """What is out of range is named."""
        for what, number in ("transactions", 0), ("names", 16_777_217), ("name_bytes", 1_025), ("names_each", -1), ("names_each", 2**32):
            same(str(raises(ValueError, self.opened, **{what: number})), f"{what} is out of range")  # type: ignore[attr-defined]

    def test_unlock(self) -> None:
        """A name that is unlocked is given to the one that waits for it, which wakes up."""
        one, two = self.locks.transaction("a"), self.locks.transaction("b")
        thread = waiting(two, "a")
        one.unlock("a")
        same(thread.ends(), None)
        same((one.holds(), two.holds()), ([], ["a", "b"]))
        one.commit()
        two.commit()

    def test_abort_of_a_waiter(self) -> None:
        """Whoever is aborted while it waits for one that was told of a deadlock gives its names back at once, and that one goes on."""
        one, two = self.locks.transaction("1"), self.locks.transaction("2")
        thread = waiting(one, "2")
        raises(Deadlock, two.lock, "1")
        one.abort()
        same(type(thread.ends()), Aborted)
        until(lambda: self.locks.owner("1") is None, "its name is free")
        two.lock("1", "3")
        same(two.holds(), ["1", "2", "3"])
        two.commit()
        same(self.locks.totals(), Totals(2, 1, 1, 1))

    def test_released(self) -> None:
        """Nothing is kept of a transaction that has ended."""
        backend = self.operator.backend
        for end in "commit", "abort":
            one, two = self.locks.transaction("a"), self.locks.transaction("b")
            thread = waiting(two, "a")
            getattr(one, end)()
            thread.ends()
            getattr(two, end)()
            del one, two, thread
        until(lambda: gc.collect() >= 0 and not len(backend._sessions), "nothing is kept")

    def test_fork(self) -> None:
        """A child finds the locks closed, and the parent's go on."""
        locks, tx = self.locks, self.locks.transaction("a")
        child = os.fork()
        if child == 0:
            status = 1
            try:
                inner, moved = getattr(locks, "_locks", locks), getattr(tx, "_tx", tx)
                raises(Closed, inner._backend.new, lambda owner: None)
                raises(Closed, moved._state.session.check)
                del inner, moved
                status = 0
            finally:
                os._exit(status)
        same(os.waitpid(child, 0)[1], 0)
        same(locks.owner("a"), tx.key)
        tx.commit()
        same(locks.owner("a"), None)


class Threads(Inside, ExtensionCase):
    form = Locks.in_process

    test_dropped = test_python.Threads.test_dropped


class Tasks(Inside, ExtensionCase):
    """The same with asyncio."""

    form = Asyncio

    def test_cancelled_when_granted(self) -> None:
        """A request that is cancelled when it has just been granted owns its name, and the next one waits nevertheless."""

        async def case() -> None:
            async with aio.Locks.in_process() as locks, locks.transaction("a", "b") as one, locks.transaction() as two:
                task = asyncio.ensure_future(two.lock("a"))
                while (await two.status()).state != "waiting":
                    await asyncio.sleep(0)
                await one.unlock("a")
                task.cancel()
                with self.assertRaises(asyncio.CancelledError):
                    await task
                same(await two.holds(), ["a"])
                with self.assertRaises(Timeout):
                    await two.lock("b", timeout=0)

        asyncio.run(case())


class Interrupts(test_trouble.Interrupts, ExtensionCase):
    """An exception of a signal, at any moment."""

    def setUp(self) -> None:
        ExtensionCase.setUp(self)
        self.locks = self.other = self.opened(Locks.in_process)
        self.has_hook()


class Installed(LibraryCase):
    """What the package is made of, with the library and without."""

    def wheel(self, patch: str = "pass", **variables: str) -> str:
        """The folder of a wheel that was made so."""
        code = f"import sys, sysconfig; sys.path.insert(0, {PACKAGE!r}); import build_backend; {patch}; print(build_backend.build_wheel('.'))"
        told = run(sys.executable, "-c", code, cwd=self.folder, env=environment(**{"PASHKURE_LIB_DIR": f"{self.top}/lib", **variables}))
        self.passes(told)
        with zipfile.ZipFile(pathlib.Path(self.folder, told.out.decode().strip())) as wheel:
            wheel.extractall(f"{self.folder}/installed")
        return told.out.decode().strip()

    def used(self) -> Any:
        return run(sys.executable, "-c", USE, env=environment(PYTHONPATH=f"{self.folder}/installed"))

    def test_with_all(self) -> None:
        if not os.path.exists(os.path.join(HEADERS, "Python.h")):
            self.skipTest(f"there is no Python.h in {HEADERS} (Debian's package python3-dev)")
        self.assertRegex(self.wheel(), r"^pashkure-0\.2\.0-cp3\d+-cp3\d+-\w+\.whl$")
        told = self.used()
        self.assertEqual((told.status, told.out), (0, b"['a']\n"))

    @each([
        ("no compiler", {"CC": "no-compiler"}, "pass", "no C compiler no-compiler is on the PATH"),
        ("no Python.h", {}, "sysconfig.get_path = lambda kind: '/none'", "there is no Python.h in /none"),
        ("no archive", {"PASHKURE_LIB_DIR": "/none"}, "pass", "there is no libpashkure.a in /none"),
        ("no folder named", {"PASHKURE_LIB_DIR": "", "PKG_CONFIG_LIBDIR": "/none"}, "pass", "PASHKURE_LIB_DIR is not set, and pkg-config knows no pashkure"),
    ])  # fmt: skip
    def test_without(self, what: str, variables: Any, patch: str, why: str) -> None:
        """The package is installed all the same, and `in_process` says what was missing."""
        self.assertEqual(self.wheel(patch, **variables), "pashkure-0.2.0-py3-none-any.whl")
        told = self.used()
        self.assertEqual(told.status, 1)
        self.assertIn(f"ImportError: pashkure was installed without its C extension: {why}", told.err.decode())

    def test_not_installed(self) -> None:
        told = run(sys.executable, "-c", USE, env=environment())
        self.assertIn(b"ImportError: the C extension _pashkure is not there", told.err)
