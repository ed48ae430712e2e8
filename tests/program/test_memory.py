"""The program with each request for memory refused in turn, with starts of threads refused, and in little space; and calls that request no
memory."""
import glob
import json
import os
import re
import resource
from typing import Callable, Optional

from lib.faults import FaultCase, variables
from lib.world import IS_SLOW, LIMIT, PROGRAM, TOP, Run, each, read, run

REFUSED, AMPLE = "refused", "as with ample memory"
NO_MEMORY = b"refused 10 Memory\n"
MOST = 5000
"""More requests than any run makes."""
EXAMPLES = os.path.join(TOP, "examples/workloads")
ENDS = re.compile(rb"clients finished (\d+) aborted (\d+) spent (\d+) refused (\d+)\ntable verdicts (\d+) aborts (\d+)\n")
Judge = Callable[[Run], Optional[str]]
TABLE = b"table 64 128 1000000 1000000\n"
# Two transactions that wait for each other, the second of which is aborted. Their processes are the next ones to be given again.
CALLS = ("begin\nbegin\nacquire 0.{0} 0\nacquire 1.{0} 1\nacquire 0.{0} 1\ngive_up 0.{0}\nacquire 0.{0} 1\nacquire 1.{0} 0\ntransmit 0.{0}\n"
         "detect 1.{0}\nsettle\nstate 1.{0}\nowner 0\nabort 1.{0}\nrelease 0.{0} 0\nfinish 0.{0}\ntotals\n")  # fmt: skip
# Two transactions that lock names and deadlock, after which one goes on and the other is aborted while it waits, and each request that reads.
LOCKS = (b"begin\nbegin\nbegin\nlock 0.1 a\nlock 1.1 b\nlock 0.1 b\nlock 1.1 a\nunlock 1.1 b\nlock 1.1 a\nabort 1.1\nunlock 0.1 a\ntry 2.1 a\nlock 2.1 b\ncancel 2.1\n"
         b"holds 0.1\ngraph\nstatus 2.1\nowner b\ncommit 0.1\ntotals\n")  # fmt: skip
CONNECTIONS = b"1 begin a b\n2 begin\n2 lock 1.1 c a\n1 lock 0.1 c\n0 list\n0 graph\n0 counts\n1 hello\n1 holds 0.1\n2 fence 1.1 c\n0 abort 0.1\n- 1\n- 2\n"
# One transaction owns a name for good, and another one in each round.
ROUND = "begin\nlock 1.{0} z\ngraph\ncancel 1.{0}\nlock 1.{0} a\ntry 1.{0} b\nunlock 1.{0} b\nholds 1.{0}\nstatus 1.{0}\nowner a\nlock 1.{0} z\nabort 1.{0}\ntotals\n"


def calls(rounds: int) -> bytes:
    """The calls above so many times; a later round's keys are of the next generation."""
    return "".join(CALLS.format(generation) for generation in range(1, rounds + 1)).encode()


def is_refused(told: Run) -> bool:
    return told == (4, NO_MEMORY, b"")


def as_ample(ample: Run, hides_errors: bool = False) -> Judge:
    """Answers what this run did, or refuses."""

    def judge(told: Run) -> Optional[str]:
        told, wanted = (told._replace(err=b""), ample._replace(err=b"")) if hides_errors else (told, ample)
        return REFUSED if is_refused(told) else AMPLE if told == wanted else None

    return judge


def ends_of(clients: int) -> Judge:
    """The two lines of a workload with so many clients, or a refusal. Which of them end how is not fixed: one that is not started ends no way."""

    def judge(told: Run) -> Optional[str]:
        lines = ENDS.fullmatch(told.out)
        if is_refused(told) or lines is None or told.err:
            return REFUSED if is_refused(told) else None
        finished, aborted, spent, refused, verdicts, aborts = map(int, lines.groups())
        is_right = finished + aborted + spent + refused == clients and not refused and aborts == aborted and verdicts >= aborts
        return AMPLE if is_right and told.status == (5 if spent else 0) else None

    return judge


def script_of(ample: Run, without_table: bytes) -> Judge:
    """Answers what the ample run did, or that without its first table, or refuses."""
    judge = as_ample(ample)
    return lambda told: REFUSED if told == (0, without_table, b"") else judge(told)


def explained(ample: Run, without_table: bytes) -> Judge:
    """Prints what the ample run did, or that of a run whose table was refused; or ends earlier, with the line that says so."""

    def judge(told: Run) -> Optional[str]:
        begun, last = told.out[: -len(NO_MEMORY)], told.out[-len(NO_MEMORY) :]
        if told == ample:
            return AMPLE
        is_cut = told.status == 4 and last == NO_MEMORY and ample.out.startswith(begun)
        return REFUSED if is_cut or (told.status == 0 and told.out.endswith(without_table)) else None

    return judge


class MemoryCase(FaultCase):
    def with_turns(self, name: str, turns: int) -> tuple[str, int]:
        """A copy of an example with so many turns, and how many clients it has."""
        workload = json.loads(read(f"{EXAMPLES}/{name}"))
        return self.file(name, json.dumps({**workload, "turns": turns})), len(workload["clients"])

    def ample(self, *command: str, given: bytes = b"") -> Run:
        return self.counted("", *command, given=given).run

    def in_turn(self, judge: Judge, *command: str, given: bytes = b"", first: int = 1, needs: int = 1) -> int:
        """Refuses the first request, then the second, and so on, until a run ends without a refusal. Returns how many requests there are."""
        kinds = {REFUSED: 0, AMPLE: 0}
        for place in range(first, MOST):
            told, counts = self.counted(f"malloc:ENOMEM@{place}", *command, given=given)
            answer = judge(told)
            self.assertIsNotNone(answer, f"request {place}: {told}")
            self.assertEqual(counts.started, counts.ended, f"request {place}: threads were started that have not ended")
            if counts.refused == 0:
                self.assertEqual(answer, AMPLE, "nothing is refused")
                self.assertGreaterEqual(place - first, needs)
                return place - first
            kinds[answer or ""] += 1
        self.fail(f"it has no end: {kinds}")


class InTurn(MemoryCase):
    """Each request for memory of the program is refused in turn."""

    def test_script(self) -> None:
        """A table line with calls after it, and a second table line, which stands if the first was refused."""
        given = TABLE + calls(1) + TABLE + calls(1)
        second = self.ample(PROGRAM, given=TABLE + calls(1))
        without = NO_MEMORY + b"no table\n" * CALLS.count("\n") + second.out
        self.in_turn(script_of(self.ample(PROGRAM, given=given), without), PROGRAM, given=given)

    @each(sorted(map(os.path.basename, glob.glob(f"{EXAMPLES}/*.json"))))
    def test_workload(self, name: str) -> None:
        """With 1,000 turns, which may not do. (If a worker is not started, those who were to meet it use all their turns.)"""
        path, clients = self.with_turns(name, 1000)
        self.in_turn(ends_of(clients), PROGRAM, "threads", path)

    @each(["crosswise.json", "hot_resource.json", "--verbose hot_resource.json"])
    def test_workload_with_one_outcome(self, words: str) -> None:
        *flags, name = words.split()
        command = [PROGRAM, "threads", *flags, f"{EXAMPLES}/{name}"]
        self.in_turn(as_ample(self.ample(*command), bool(flags)), *command)

    @each([("", 8), ("--clients 16 --transmitters 0 --seed 7", 16), ("--clients 4 --resources 2 --acquires 3 --transactions 5", 20)])
    def test_storm(self, words: str, ends: int) -> None:
        self.in_turn(ends_of(ends), PROGRAM, "storm", *words.split())

    @each([("--names 8 --seed 7", LOCKS), ("--names 8", LOCKS), ("--names 100000 --seed 7", LOCKS), ("--names 8 --connections 3 --epoch 1", CONNECTIONS)])
    def test_locks(self, words: str, given: bytes) -> None:
        """With a seed of its own, with one of the system, with more names than a table of a script has resources, and of connections."""
        command = [PROGRAM, "locks", "--transactions", "8", *words.split()]
        self.in_turn(as_ample(self.ample(*command, given=given)), *command, given=given)

    @each(["", "--mermaid --dot --all --at 9"])
    def test_explain(self, words: str) -> None:
        command = [PROGRAM, "explain", *words.split()]
        # (what is printed of the table's line differs)
        without = self.ample(*command, given=b"\n" + calls(1)).out
        without = without[len(b"    1\n") :] if without.startswith(b"    1\n") else without
        given = TABLE + calls(1)
        self.in_turn(explained(self.ample(*command, given=given), without), *command, given=given)

    @each(["--help", "threads", "storm --clients 0", "storm extra", "nothing"])
    def test_words(self, words: str) -> None:
        command = [PROGRAM, *words.split()]
        self.in_turn(as_ample(self.ample(*command)), *command)

    def test_locks_that_threads_sleep_for(self) -> None:
        """The bank of eight threads makes all of its transfers, or says why it made none."""
        bank = self.built("example_bank")
        ample = self.ample(bank)

        def judge(told: Run) -> Optional[str]:
            if told[:2] == ample[:2] and re.fullmatch(rb"deadlocks: \d+\n", told.err):
                return AMPLE
            is_told = told.out == b"a request for memory was refused\n" if told.status == 0 else not told.out and told.err
            return REFUSED if is_told else None

        self.in_turn(judge, bank)


class Starts(MemoryCase):
    """The start of a worker is refused."""

    TIMES = 50

    def crowd(self) -> str:
        """A workload in which all clients meet, and then all want the same resources."""
        steps = [["acquire", 0], ["release", 0], ["meet", 12], ["acquire", 1], ["acquire", 2]]
        numbers = {"processes": 12, "resources": 3, "label_limit": 1000, "generation_limit": 9, "transmitters": 4, "turns": 1000}
        return self.file("crowd.json", json.dumps({**numbers, "clients": [steps] * 12}))

    def commands(self) -> list[tuple[list[str], int, int]]:
        return [([PROGRAM, "threads", self.crowd()], 12, 16), ([PROGRAM, "storm", "--clients", "40", "--transmitters", "10"], 40, 50)]

    def test_one_start(self) -> None:
        for command, _, workers in self.commands():
            for time in range(self.TIMES):
                place = 1 + time * workers // self.TIMES
                told, counts = self.counted(f"start:EAGAIN@{place}", *command)
                self.assertTrue(is_refused(told), f"start {place}: {told}")
                self.assertEqual(counts.started, counts.ended, f"start {place}")

    def test_few_processes(self) -> None:
        """If no thread can be started, each run is refused; if some can, they may have ended before the limit is reached."""
        is_root = os.geteuid() == 0
        as_nobody = ["setpriv", "--reuid", "65534", "--regid", "65534", "--clear-groups"] if is_root else []
        program = self.path("mm_detect")
        os.chmod(self.folder, 0o755)
        run("cp", PROGRAM, program)
        os.chmod(program, 0o755)
        for command, clients, workers in self.commands():
            for most in [1] * self.TIMES + list(range(2, workers + 1) if is_root else []):
                told = run(*as_nobody, "prlimit", f"--nproc={most}", program, *command[1:])
                answer = ends_of(clients)(told)
                self.assertTrue(answer == REFUSED or (answer == AMPLE and most > 1), f"at most {most} processes: {told}")


class Space(MemoryCase):
    """The program in little address space: it refuses, until it has as much as it needs."""

    STEP, GREATEST = 64 * 1024, 1 << 30
    STACK = 128 * 1024
    """The stack of each thread. All of it is mapped when a thread starts, so none has to grow if no space is left."""

    def limited(self, space: int, *command: str, given: bytes = b"") -> Run:
        def limits() -> None:
            resource.setrlimit(resource.RLIMIT_CORE, (0, 0))
            resource.setrlimit(resource.RLIMIT_STACK, (self.STACK, self.STACK))
            resource.setrlimit(resource.RLIMIT_AS, (space, space))

        return run(*command, given=given, preexec_fn=limits, timeout=LIMIT)

    def in_steps(self, judge: Judge, *command: str, given: bytes = b"") -> None:
        least = next(space for space in range(self.STEP, self.GREATEST, self.STEP) if self.limited(space, PROGRAM).status in (0, 4))
        for space in range(least, self.GREATEST, self.STEP):
            told = self.limited(space, *command, given=given)
            answer = judge(told)
            self.assertIsNotNone(answer, f"{space // 1024} KiB: {told}")
            if answer == AMPLE:
                return
        self.fail(f"no answer as with ample memory in {self.GREATEST} bytes")

    @each([("table", 4096), ("table2", 65_536)])
    def test_largest_table(self, word: str, processes: int) -> None:
        given = f"{word} {processes} 65536 1 1\nowner 65535\n".encode()
        self.in_steps(script_of(self.limited(self.GREATEST, PROGRAM, given=given), NO_MEMORY + b"no table\n"), PROGRAM, given=given)

    def test_workloads(self) -> None:
        command = [PROGRAM, "threads", f"{EXAMPLES}/hot_resource.json"]
        self.in_steps(as_ample(self.limited(self.GREATEST, *command)), *command)
        path, clients = self.with_turns("philosophers.json", 1000)
        self.in_steps(ends_of(clients), PROGRAM, "threads", path)
        self.in_steps(ends_of(8), PROGRAM, "storm")


class Opened(MemoryCase):
    """No call of an opened table, shared table, pass, board or lock service requests memory."""

    def none_refused(self, given: bytes, opening: bytes, *command: str) -> None:
        opened = self.counted("", *command, given=opening).counts.requests
        told, counts = self.counted(f"malloc:ENOMEM>{opened}", *command, given=given)
        self.assertEqual((told.status, told.err, counts.refused, b"refused" in told.out, b"malformed" in told.out), (0, b"", 0, False, False))
        self.assertGreaterEqual(told.out.count(b"\n"), given.count(b"\n"))

    def test_script(self) -> None:
        """More than a hundred thousand calls."""
        self.none_refused(TABLE + calls(7000), TABLE, PROGRAM)

    def test_service(self) -> None:
        """More than a hundred thousand requests."""
        start = b"begin\nlock 0.1 z\n"
        given = start + "".join(ROUND.format(generation) for generation in range(1, 10_001)).encode()
        self.none_refused(given, start, PROGRAM, "locks", "--seed", "7")

    def test_workers(self) -> None:
        """64 clients and two transmitters, each on a thread, who want two resources again and again. One more says how far the run is."""
        steps = [["meet", 64]] + [[call, place % 2] for place in range(127) for call in ("acquire", "release")]
        numbers = {"processes": 64, "resources": 2, "label_limit": 10**9, "generation_limit": 9, "transmitters": 2, "turns": 10**9}
        path = self.file("crowd.json", json.dumps({**numbers, "clients": [steps] * 64}))
        for _ in range(5):
            told, counts = self.counted("malloc/thread:ENOMEM", PROGRAM, "threads", "--verbose", path)
            self.assertEqual((told.status, told.out.split(b"\n")[0]), (0, b"clients finished 64 aborted 0 spent 0 refused 0"), told.err)
            self.assertEqual((counts.by_threads, counts.started), (0, 67))

    def test_four_threads(self) -> None:
        """A million calls at one shared table."""
        times, rounds = self.built("bench_shared"), 13_900
        told, counts = self.counted("malloc/thread:ENOMEM", times, "4", str(rounds))
        none = self.counted("", times, "4", "0").counts
        self.assertEqual((told.status, told.err, told.out.split()[-1:]), (0, b"", [str(4 * rounds).encode()]))
        self.assertEqual((counts.own(), counts.by_threads), (none.own(), 0))

    @each("grants blocks deadlocks settles hand-overs peeks peeks-beside scans".split())
    def test_board(self, work: str) -> None:
        """Calls of one thread that store on the board or read it."""
        times = self.built("bench_shared")
        none = self.counted("", times, "board", work, "64", "0").counts.requests
        told, counts = self.counted(f"malloc:ENOMEM>{none}", times, "board", work, "64", "10000")
        self.assertEqual((told.status, told.err, counts.refused, counts.requests), (0, b"", 0, none))

    def test_threads_that_wait_for_a_name(self) -> None:
        """Each of eight yields a few times, sleeps without a time, and makes no call of the system until it is woken, however long that takes."""
        locks, log = self.built("bench_locks"), self.file("log", b"")
        told = run(locks, "sleep", "9", "1", "500", env={**os.environ, **variables("futex:told yield:told", log=log)})
        self.assertEqual((told.status, told.err, told.out.split()[1:]), (0, b"", [b"9", b"0", b"0"]))
        lines = read(log).splitlines()
        sleeps = [line for line in lines if line.startswith("futex")]
        self.assertEqual([line for line in sleeps if "told=-" not in line], [], "a sleep with a time")
        self.assertTrue(8 <= len(sleeps) < 200, sleeps)
        self.assertLess(len(lines), 8 * 1000)

    @each([(4, 16), (64, 16), (64, 1000)])
    def test_crowd_that_locks_names(self, threads: int, names: int) -> None:
        """However many transactions the threads make, the requests are those of the opening and of the starts, and no name has two owners."""
        locks, told = self.built("bench_locks"), []
        for milliseconds in "1", "60000" if IS_SLOW else "500":
            told.append(self.counted("", locks, "crowd", str(threads), str(names), milliseconds))
            self.assertEqual((told[-1].run.status, told[-1].run.err), (0, b""))
        few, many = (int(each.run.out.split()[1]) for each in told)
        self.assertEqual(told[0].counts.own(), told[1].counts.own(), f"{few} and {many} transactions")
        self.assertGreater(many, 0)
        self.assertEqual({each.run.out.split()[3] for each in told}, {b"0"}, "a name had two owners")


