"""Runs with calls of the C library that fail, are short, or are late (fault.c)."""
import functools
import os
import struct
import subprocess
import tempfile
from collections import namedtuple
from typing import Any, NamedTuple, Optional

from lib.world import Case, Run, run, wants, write

SOURCE = os.path.join(os.path.dirname(os.path.abspath(__file__)), "fault.c")
COUNTS = struct.Struct("8q")


class Counts(namedtuple("Counts", "requests by_starts by_threads refused starts started ended bytes")):
    """What fault.c counts: requests for memory, those of the starts of threads and of threads, the refused ones, threads, and requested bytes."""

    def own(self) -> int:
        """The requests that the program made itself. (The C library starts a thread with fewer if it has the memory of one that ended.)"""
        return self.requests - self.by_starts


class Ran(NamedTuple):
    """A run, and what was counted."""

    run: Run
    counts: Counts


@functools.lru_cache(maxsize=None)
def library() -> str:
    """The path of the library, which is built once."""
    wants("cc")
    folder = tempfile.TemporaryDirectory(prefix="pashkure.")
    os.chmod(folder.name, 0o755)
    KEPT.append(folder)
    path = os.path.join(folder.name, "fault.so")
    subprocess.run(["cc", "-std=gnu11", "-O2", "-Wall", "-Wextra", "-Werror", "-fPIC", "-shared", "-o", path, SOURCE], check=True)
    return path


KEPT: list[tempfile.TemporaryDirectory[str]] = []


def variables(rules: str, seed: int = 1, log: Optional[str] = None, only: Optional[str] = None, counts: Optional[str] = None, work: Optional[str] = None) -> dict[str, str]:
    """The variables of the environment under which these rules hold."""
    given = {"LD_PRELOAD": library(), "FAULTS": rules, "FAULT_SEED": str(seed), "FAULT_LOG": log, "FAULT_IN": only, "FAULT_COUNTS": counts, "FAULT_WORK": work}
    return {name: value for name, value in given.items() if value is not None}


class FaultCase(Case):
    @classmethod
    def setUpClass(cls) -> None:
        library()

    @classmethod
    def tearDownClass(cls) -> None:
        while KEPT:
            KEPT.pop().cleanup()
        library.cache_clear()

    def faulty(self, rules: str, *command: str, given: bytes = b"", seed: int = 1, **how: Any) -> Run:
        """Runs a command under these rules."""
        return run(*command, given=given, env={**os.environ, **variables(rules, seed)}, **how)

    def counted(self, rules: str, *command: str, given: bytes = b"") -> Ran:
        """The same, with what was counted."""
        if not hasattr(self, "counts"):
            self.counts = self.file("counts", bytes(COUNTS.size))
        write(self.counts, bytes(COUNTS.size))
        told = run(*command, given=given, env={**os.environ, **variables(rules, counts=self.counts)})
        with open(self.counts, "rb") as file:
            return Ran(told, Counts(*COUNTS.unpack(file.read())))
