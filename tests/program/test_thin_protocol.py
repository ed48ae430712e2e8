"""The protocol of thin names, by a search of all interleavings of small sizes (thin_protocol.rs): nothing breaks it, and each planted fault does."""
import os
import tempfile
from typing import Any

from lib.world import IS_SLOW, TOP, Case, each, run, wants

SOURCE = os.path.join(TOP, "tests/program/thin_protocol.rs")
EACH = "try,timed,unlock"
# Threads, names, buckets, records of a thread, and names for which the manager has room; and the calls.
SIZES = [("2 2 1 2 2", EACH), ("2 2 2 1 2", EACH), ("2 2 2 1 1", "try,unlock"), ("3 2 1 2 2", "unlock"), ("3 2 2 1 2", "unlock"), ("3 2 2 2 2", "none")]
LARGER = [("2 3 2 2 3", EACH), ("2 3 2 2 1", EACH), ("3 1 1 1 1", EACH), ("3 2 2 2 2", "unlock"), ("3 2 2 1 1", "try,unlock"), ("3 3 2 2 3", "none")]
FAULTS = {
    "2 2 1 2 2": ["name_is_read_early", "token_is_grant", "cancel_stays_in_queue", "commit_ignores_manager", "unlock_frees_all"],
    "2 2 2 1 2": ["waiter_is_passed_over", "closer_waits", "take_ignores_word", "let_go_frees", "lent_is_freed", "commit_ignores_changed", "grant_wakes_nobody"],
    "2 2 2 1 1": ["refused_stays_fat"],
}


class Protocol(Case):
    @classmethod
    def setUpClass(cls) -> None:
        wants("rustc")
        scratch = tempfile.TemporaryDirectory(prefix="pashkure.")
        cls.addClassCleanup(scratch.cleanup)
        cls.program = os.path.join(scratch.name, "thin_protocol")
        told = run("rustc", "--edition", "2021", "-O", "-D", "warnings", "-o", cls.program, SOURCE)
        assert told.status == 0, told.err.decode()

    def searched(self, size: str, *words: str) -> Any:
        told = run(self.program, *size.split(), *words)
        self.assertEqual((told.status, told.err), (0, b""))
        return told.out.decode()

    @each(SIZES + (LARGER if IS_SLOW else []))
    def test_holds(self, size: str, calls: str) -> None:
        """No interleaving breaks it."""
        self.assertRegex(self.searched(size, calls), r"^\d{4,} states\n$")

    @each([(fault, size) for size, faults in FAULTS.items() for fault in faults])
    def test_fault(self, fault: str, size: str) -> None:
        """A fault leads to a state that may not be."""
        self.assertNotRegex(self.searched(size, EACH, fault).splitlines()[0], r"^\d+ states$|^$")
