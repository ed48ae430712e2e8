"""Processes that move money between accounts under locks, some of which are killed: the sum stays, no two ever own an account at one time,
and nobody waits for the dead."""
import os
import random
import signal
import subprocess
import sys
import time

from lib.bank import ACCOUNTS, OPENING, BankFile, Owned, overlaps, owned
from lib.world import IS_SLOW, LIMIT, SEED, TOP, Case, Server, each, environment, until
from service.test_server import ServerCase, begun

WORKERS = 8
KILLS = 300 if IS_SLOW else 12


class Staff:
    """The processes, by their slots in the file."""

    def __init__(self, case: Case, server: Server, seed: int) -> None:
        self.path, self.socket, self.seed = case.path("bank"), server.path, seed
        self.file = BankFile(self.path, True)
        self.workers: dict[int, subprocess.Popen[bytes]] = {}
        self.last = 0
        self.random = random.Random(f"bank {seed}")
        self.ends: dict[int, int] = {}  # when each slot's process had ended, or was about to be killed
        self.within = 0  # how many were killed in the middle of a transfer
        for _ in range(WORKERS):
            self.hire()

    def hire(self) -> None:
        self.last += 1
        script = os.path.join(TOP, "tests", "lib", "bank.py")
        words = [sys.executable, script, self.socket, self.path, str(self.last), str(self.seed + self.last)]
        self.workers[self.last] = subprocess.Popen(words, env=environment())

    def kill_one(self) -> None:
        """Kills a process, two times of three in the middle of a transfer, and hires another one."""
        slot = self.random.choice(list(self.workers))
        worker = self.workers[slot]
        until(lambda: self.file.counted(slot) > 0, f"process {slot} works")
        if self.random.random() < 2 / 3:
            until(lambda: self.stops_within(slot, worker), f"process {slot} is in the middle of a transfer")
        self.ends[slot] = time.monotonic_ns()
        worker.kill()
        worker.wait()
        del self.workers[slot]
        self.within += self.file.is_within(slot)
        self.hire()

    def stops_within(self, slot: int, worker: "subprocess.Popen[bytes]") -> bool:
        """Stops a process. Lets it go on unless it is in the middle of a transfer."""
        worker.send_signal(signal.SIGSTOP)
        _, status = os.waitpid(worker.pid, os.WUNTRACED)
        assert os.WIFSTOPPED(status), f"process {slot} has ended with status {status}"
        if self.file.is_within(slot):
            return True
        worker.send_signal(signal.SIGCONT)
        return False

    def end(self) -> None:
        """Ends all processes. Fails if one waits for a dead one, and so never ends."""
        self.file.end()
        for slot, worker in self.workers.items():
            assert worker.wait(LIMIT) == 0, f"the status of process {slot}"
            self.ends[slot] = time.monotonic_ns()

    def history(self) -> list[Owned]:
        return [each for slot, end in self.ends.items() if os.path.exists(f"{self.path}.{slot}") for each in owned(self.path, slot, end)]


class Bank(ServerCase):
    @each([("one seed", 1), ("a new seed", SEED)])
    def test_bank(self, name: str, seed: int) -> None:
        admin = self.path("admin")
        server = self.server("--admin", admin)
        staff = Staff(self, server, seed)
        self.addCleanup(staff.file.close)
        for _ in range(KILLS):
            staff.kill_one()
        staff.end()
        history = staff.history()
        self.assertEqual(overlaps(history)[:3], [], "two owned an account at one time")
        self.assertGreater(len(history), 2 * KILLS)
        wire = self.wire(server)
        for number in range(ACCOUNTS):
            until(lambda number=number: wire.ask(b"owner accounts/%d" % number) == b"free", "all locks are given back")
        begun(wire, *(b"accounts/%d" % number for number in range(ACCOUNTS)))
        for number in range(ACCOUNTS):
            staff.file.recover(number)
        self.assertEqual(sum(staff.file.balance(number) for number in range(ACCOUNTS)), ACCOUNTS * OPENING)
        self.asks(self.wire(admin), (b"graph", b"graph 0"))
        begun_, committed, aborted, _ = self.counts(wire)
        self.assertEqual(begun_, committed + aborted + 1)
        self.assertGreater(staff.within, 0, "nobody was killed in the middle of a transfer")

    def test_overlaps(self) -> None:
        """What the check of the history would find."""
        one, two, three = Owned(1, 10, 20, 1), Owned(1, 20, 30, 2), Owned(2, 15, 25, 3)
        self.assertEqual(overlaps([two, three, one]), [])
        self.assertEqual(overlaps([one, Owned(1, 19, 30, 2)]), [(one, Owned(1, 19, 30, 2))])
        self.assertEqual(len(overlaps([Owned(1, 0, 100, 1), one, two])), 2)
