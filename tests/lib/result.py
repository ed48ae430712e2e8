"""Runs the tests of one module, and counts them."""
import importlib
import logging
import os
import sys
import time
import traceback
import unittest
from collections import Counter
from typing import Iterator

KINDS = ("passed", "failed", "skipped", "known")
LONG = 20.0
"""Seconds after which the name of a test is told with its time."""


class Result(unittest.TestResult):
    """Counts each test once, whatever its parts say, and prints what is wrong with it at once."""

    def __init__(self, tests: list[unittest.TestCase]) -> None:
        super().__init__()
        self.sizes = Counter(test.id().rpartition(".")[0] for test in tests)
        """How many tests each class has."""
        self.counts = dict.fromkeys(KINDS, 0)
        self.kind = "passed"
        self.began = 0.0

    def startTest(self, test: unittest.TestCase) -> None:
        super().startTest(test)
        self.kind, self.began = "passed", time.monotonic()

    def stopTest(self, test: unittest.TestCase) -> None:
        super().stopTest(test)
        self.counts[self.kind] += 1
        seconds = time.monotonic() - self.began
        if seconds > LONG:
            print(f"{test.id()} took {seconds:.0f} s", flush=True)

    def tells(self, test: unittest.TestCase, why: str) -> None:
        self.kind = "failed"
        print(f"tests/run: FAILED: {test.id()}\n{why.rstrip()}\n  run it alone: tests/run -k {test.id().rpartition('.')[2].split(' ')[0]}"
              f" --seed {os.environ.get('TESTED_SEED', '1')} {test.id().rsplit('.', 2)[0]}", flush=True)  # fmt: skip

    def addError(self, test: unittest.TestCase, err: tuple) -> None:
        self.addFailure(test, err)
        if not isinstance(test, unittest.TestCase):  # what is set up for a class or a module
            self.counts["failed"] += 1

    def addFailure(self, test: unittest.TestCase, err: tuple) -> None:
        self.tells(test, "".join(traceback.format_exception(*err)))

    def addSubTest(self, test: unittest.TestCase, subtest: unittest.TestCase, err: "tuple | None") -> None:
        if err is not None:
            self.tells(test, f"{subtest}\n" + "".join(traceback.format_exception(*err)))

    def addSkip(self, test: unittest.TestCase, reason: str) -> None:
        if not isinstance(test, unittest.TestCase):  # what is set up for a class, none of whose tests runs then
            self.counts["skipped"] += self.sizes[test.id().partition("(")[2].rstrip(")")]
            print(f"skipped: {test.id()}: {reason}", flush=True)
        elif self.kind == "passed":
            self.kind = "skipped"
            print(f"skipped: {test.id()}: {reason}", flush=True)

    def addExpectedFailure(self, test: unittest.TestCase, err: tuple) -> None:
        self.kind = "known"
        print(f"known: {test.id()}: {test.shortDescription() or 'it fails, as is known'}", flush=True)

    def addUnexpectedSuccess(self, test: unittest.TestCase) -> None:
        self.tells(test, "it passes: take its mark expectedFailure away")


def tests_of(suite: unittest.TestSuite) -> Iterator[unittest.TestCase]:
    for each in suite:
        if isinstance(each, unittest.TestSuite):
            yield from tests_of(each)
        else:
            yield each


def loaded(name: str, word: str) -> list[unittest.TestCase]:
    """The tests of a module with this word in their names. One that cannot be loaded raises."""
    module = importlib.import_module(name)
    return [test for test in tests_of(unittest.defaultTestLoader.loadTestsFromModule(module)) if word in test.id()]


def names_of(name: str, word: str) -> list[str]:
    return [test.id() for test in loaded(name, word)]


def run(name: str, word: str, path: str) -> int:
    """Runs the tests of a module, and writes the counts to a file."""
    logging.getLogger("asyncio").setLevel(logging.ERROR)  # which also tells of each callback that took long, as on a busy machine
    tests = loaded(name, word)
    result, suite = Result(tests), unittest.TestSuite(tests)
    suite.run(result)
    with open(path, "w", encoding="ascii") as file:
        print(*(result.counts[kind] for kind in KINDS), file=file)
    sys.stdout.flush()
    return int(result.counts["failed"] > 0)
