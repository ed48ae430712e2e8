"""The program while calls of the C library below it fail, do less than they were asked for, or are late."""
import os
import random
import subprocess

from lib import search
from lib.faults import FaultCase, variables
from lib.world import LIMIT, PROGRAM, SEED, TOP, Run, each, read, run, state, until

CROSSWISE = os.path.join(TOP, "examples/workloads/crosswise.json")
CROSSWISE_LINES = b"clients finished 1 aborted 1 spent 0 refused 0\ntable verdicts 1 aborts 1\n"
SEEDS = [1, 2, 3, SEED]
OTHERS = ["explain", f"threads {CROSSWISE}", "storm --clients 1 --transmitters 0", "--help", "help locks", "--version"]
# A command, its input, and the reply to each line.
RUNS = {
    (): (b"table 3 3 100 9\nbegin\nbegin\nacquire 0.1 0\nacquire 1.1 1\nacquire 0.1 1\nacquire 1.1 0\nsettle\nstate 1.1\n",
         [b"ok\n", b"key 0.1\n", b"key 1.1\n", b"granted\n", b"granted\n", b"waits 1.1 1.0\n", b"waits 0.1 2.1\n", b"settled 1 1\n", b"convicted 0 2.1 2.1\n"]),
    ("locks",): (b"begin\nbegin\nlock 0.1 a\nlock 1.1 a\nunlock 0.1 a\ntotals\n",
                 [b"begun 0.1\n", b"begun 1.1\n", b"granted\n", b"waits 0.1\n", b"unlocked\n* granted 1.1 a\n", b"totals 2 0 0 0\n"]),
}  # fmt: skip
COMMANDS = [("scripts", search.SUBJECTS[0]), ("requests", search.SUBJECTS[1])]


class Less(FaultCase):
    """Calls that do less, or are late, change nothing."""

    @each([(f"{name} of seed {seed}", subject, seed) for name, subject in COMMANDS for seed in SEEDS])
    def test_short(self, name: str, subject: search.Subject, seed: int) -> None:
        """Reads and writes of any length give the same bytes."""
        data = subject.drawn(random.Random(f"short {seed}"))
        status, out = subject.wanted(data)
        rules = "read/0:short%60 write/1:short%60 read/0:late=1%2"
        self.ends(self.faulty(rules, *subject.command(data), given=data, seed=seed), status, out)

    @each([(f"{words} of seed {seed}", words, seed) for words in (f"threads {CROSSWISE}", "storm --clients 16 --resources 3", "storm --transactions 20")
           for seed in SEEDS])  # fmt: skip
    def test_late(self, name: str, words: str, seed: int) -> None:
        """Threads that start late, yield long and wake late all come to an end, and the ends add up."""
        told = self.faulty("start:late=2%50 yield:late=1%1 futex:late=1%20", PROGRAM, *words.split(), seed=seed)
        if words.startswith("threads"):
            self.ends(told, 0, CROSSWISE_LINES)
        else:
            count = 16 if "16" in words else 160
            self.assertRegex(self.ends(told, 0, told.out).out.decode(), r"\Aclients finished \d+ aborted (\d+) spent 0 refused 0\ntable verdicts \1 aborts \1\n\Z")
            self.assertEqual(sum(map(int, told.out.split()[2:5:2])), count)

    @each(["futex:EINTR%30", "futex:EAGAIN%30", "clock:jump=3600>3"])
    def test_threads_that_wake_early(self, rules: str) -> None:
        for seed in SEEDS:
            self.ends(self.faulty(rules, PROGRAM, "threads", CROSSWISE, seed=seed), 0, CROSSWISE_LINES)


class Refused(FaultCase):
    """Calls that fail for good are told as faults, after what was right until then."""

    def failing(self, call: str, piece: int, fault: str, place: int, *command: str, given: bytes) -> tuple[Run, list[str]]:
        """Runs the program with calls of so many bytes, of which the one of this place fails. Returns also what the log has of calls after it."""
        log = self.file("log", b"")
        told = run(PROGRAM, *command, given=given, env={**os.environ, **variables(f"{call}:short={piece} {call}:{fault}@{place}", log=log)})
        return told, read(log).partition(f"{fault}=0@{place}\n")[2].splitlines()

    @each([("", b"begin\n", b"no table\n"), ("locks", b"begin\n", b"begun 0.1\n"), ("explain", b"begin\n", b"    1  begin  no table\n")])
    def test_read(self, words: str, given: bytes, out: bytes) -> None:
        told = self.faulty("read/0:EIO@2", PROGRAM, *words.split(), given=given)
        self.assertEqual((told.status, told.err, told.out.split()), (3, b"read fault\n", out.split() if words != "explain" else told.out.split()))

    @each([(f"{fault} of {words}", words, fault) for words in ("", "locks", "explain", f"threads {CROSSWISE}", "storm", "--help") for fault in ("ENOSPC", "EPIPE", "EIO")])
    def test_write(self, name: str, words: str, fault: str) -> None:
        self.ends(self.faulty(f"write/1:{fault}@1", PROGRAM, *words.split(), given=b"begin\n"), 3, b"", b"write fault\n")

    @each([(f"{command[:1] or 'script'} by {piece}", command, piece) for command in RUNS for piece in (1, 7, 64)])
    def test_each_read(self, name: str, command: tuple[str, ...], piece: int) -> None:
        """At whichever read the fault comes: the lines whose newline was read are answered, and nothing is read after it."""
        given, replies = RUNS[command]
        for count in range(len(given) // piece + 1):
            told, after = self.failing("read/0", piece, "EIO", count + 1, *command, given=given)
            lines = given[: piece * count].count(b"\n")
            self.assertEqual((told, after), (Run(3, b"".join(replies[:lines]), b"read fault\n"), []))

    @each([(f"{command[:1] or 'script'} by {piece}", command, piece) for command in RUNS for piece in (1, 5, 100)])
    def test_each_write(self, name: str, command: tuple[str, ...], piece: int) -> None:
        """At whichever write the fault comes: the front of the replies is there, and nothing is written after it."""
        given, replies = RUNS[command]
        whole = b"".join(replies)
        for count in range((len(whole) - 1) // piece + 1):
            told, after = self.failing("write/1", piece, "ENOSPC", count + 1, *command, given=given)
            self.assertEqual((told, after), (Run(3, whole[: piece * count], b"write fault\n"), []))

    def test_open(self) -> None:
        """A file that cannot be opened for want of descriptors is a read fault, and a report a write fault."""
        for fault in "EMFILE", "ENFILE":
            self.ends(self.faulty(f"open:{fault}", PROGRAM, "threads", CROSSWISE), 3, b"", b"read fault\n")


class Interrupted(FaultCase):
    """A signal, and a descriptor that was set not to wait, are no faults: the call is made again."""

    @each([(f"{words or 'script'} {rules}", words, rules) for words in ("", "locks", "explain") for rules in ("read/0:EINTR@1", "read/0:EAGAIN@1", "read/0:EINTR%30 read/0:EAGAIN%30")])
    def test_read(self, name: str, words: str, rules: str) -> None:
        """A read of standard input is interrupted, or there is nothing yet."""
        wanted = self.run_program(*words.split(), given=b"begin\n" * 3)
        self.ends(self.faulty(rules, PROGRAM, *words.split(), given=b"begin\n" * 3), *wanted)

    @each(OTHERS)
    def test_write_of_others(self, words: str) -> None:
        """What these print goes on after a signal."""
        wanted = self.run_program(*words.split(), given=b"begin\n" * 500)
        for seed in SEEDS:
            self.ends(self.faulty("write/1:EINTR%50 write/1:short%50", PROGRAM, *words.split(), given=b"begin\n" * 500, seed=seed), *wanted)

    @each([(f"{words or 'script'} {rules}", words, rules) for words in ("", "locks") for rules in ("write/1:EINTR@1", "write/1:EAGAIN@1", "write/1:EINTR%30 write/1:EAGAIN%30")]
          + [(f"{words} write/1:EAGAIN@1", words, "write/1:EAGAIN@1") for words in OTHERS])
    def test_write(self, name: str, words: str, rules: str) -> None:
        """A write of the replies is interrupted, or there is no room yet."""
        given = b"begin\n" * 2000 if "%" in rules else b"begin\n"
        wanted = self.run_program(*words.split(), given=given)
        self.ends(self.faulty(rules, PROGRAM, *words.split(), given=given), *wanted)

    def is_asleep_or_over(self, child: "subprocess.Popen[bytes]") -> None:
        """Returns when the program sleeps, since it has nothing to read or no room to write, or when it has ended."""
        until(lambda: child.poll() is not None or state(child.pid) == "S", "it sleeps or ends")

    @each(["", "locks"])
    def test_empty_input_that_does_not_wait(self, word: str) -> None:
        """A line comes only after the program has looked for one."""
        reads, writes = os.pipe()
        os.set_blocking(reads, False)
        with subprocess.Popen([PROGRAM, *word.split()], stdin=reads, stdout=subprocess.PIPE, stderr=subprocess.PIPE) as child:
            os.close(reads)
            self.is_asleep_or_over(child)
            if child.poll() is None:
                os.write(writes, b"begin\n")
            os.close(writes)
            out, err = child.communicate(timeout=LIMIT)
        self.assertEqual((child.returncode, out, err), (0, b"begun 0.1\n" if word else b"no table\n", b""))

    def test_full_output_that_does_not_wait(self) -> None:
        """The replies are read only when there is no room for more of them."""
        reads, writes = os.pipe()
        os.set_blocking(writes, False)
        with open(self.file("script", b"begin\n" * 60_000), "rb") as script:
            with subprocess.Popen([PROGRAM], stdin=script, stdout=writes, stderr=subprocess.PIPE) as child:
                os.close(writes)
                self.is_asleep_or_over(child)
                out = b""
                while piece := os.read(reads, 65536):
                    out += piece
                os.close(reads)
                err = child.stderr.read()
        self.assertEqual((child.returncode, out, err), (0, b"no table\n" * 60_000, b""))
