"""The C library for threads: each promise of pashkure_threads.h by a program in C, plain and under the compiler's sanitizers."""
import os
import re
import unittest

from lib.world import IS_SLOW, TOP, Run, each, run
from program import test_library
from program.test_library import HERE, INCLUDE, text_of

SOURCE = f"{HERE}/threads.c"
TESTS = re.findall(r"^TEST\((\w+)\)", text_of(SOURCE), re.M)
ROW_STORE = (b"rows 0, 1, 6 and 7 have 0, 0, 1 and 1, after 1 deadlock\nrow 4: the name was not granted in time\n"
             b"rows 2, 3 and 4 have 1, 0 and 1\nrow 5: the request was interrupted\n")  # fmt: skip
LAYER = f"-I{INCLUDE}"
WRAPPED = "-Wl," + ",".join(f"--wrap={name}" for name in re.findall(r"^WRAP\([^,]+, (\w+),", text_of(SOURCE), re.M))


class Threads(test_library.LibraryCase):
    @classmethod
    def setUpClass(cls) -> None:
        super().setUpClass()
        cls.program = cls.compiled(f"{cls.top}/plain", "-pthread", LAYER, WRAPPED, SOURCE)

    @each(TESTS)
    def test_plain(self, name: str) -> None:
        slow = {"ROUNDS": "20000", "SAVEPOINTS_FOR": "60"} if IS_SLOW else {}
        self.passes(run(self.program, name, env={**os.environ, **slow}))

    @each(["address,undefined", "thread"])
    def test_sanitized(self, kind: str) -> None:
        """All of them, and this layer too is compiled so."""
        flags = [f"-fsanitize={kind}", "-fno-sanitize-recover=all"]
        if run("cc", *flags, "-o", self.path("empty"), self.file("empty.c", "int main(void) { return 0; }\n")).status:
            raise unittest.SkipTest(f"the compiler has no -fsanitize={kind}")
        self.passes(run(self.built("-pthread", LAYER, WRAPPED, *flags, SOURCE, *test_library.THREADS)))

    def test_race(self) -> None:
        """ThreadSanitizer reports two threads that count in one place under different names, and none under one name."""
        if run("cc", "-fsanitize=thread", "-o", self.path("empty"), self.file("empty.c", "int main(void) { return 0; }\n")).status:
            raise unittest.SkipTest("the compiler has no -fsanitize=thread")
        program = self.built("-pthread", "-fsanitize=thread", f"{HERE}/race.c")
        self.passes(run(program, "accounts/1", "accounts/1"))
        told = run(program, "accounts/1", "accounts/2")
        self.assertEqual(told.status, 66)
        self.assertIn(b"WARNING: ThreadSanitizer: data race", told.err)

    def example(self, name: str) -> Run:
        return run(self.built("-std=c99", "-pthread", f"{TOP}/examples/{name}.c"))

    def test_row_store(self) -> None:
        """It finds its deadlock, and says who waited for whom; its time-out and its interrupt are told."""
        told = self.example("row_store")
        self.assertEqual((told.status, told.out), (0, ROW_STORE))
        self.assertEqual(sorted(told.err.splitlines()), [b"deadlock: back waits for rows/0 of there", b"deadlock: there waits for rows/1 of back"])

    def test_event_loop(self) -> None:
        """All tasks come to their end, and no money is lost."""
        self.assertEqual(self.example("event_loop"), (0, b"4500 transfers, and all accounts together have 0\n", b""))
