"""Scripts: from files, from pipes and typed, with devices that fail, and the worked ones."""
import ast
import glob
import os
import re
import subprocess

from lib.world import PROGRAM, TOP, Case, each, read

FIRST_RUN = b"table 4 4 100 9\nbegin\nbegin\nacquire 0.1 0\nacquire 1.1 1\nacquire 0.1 1\nacquire 1.1 0\nstate 0.1\nstate 1.1\n"
FIRST_REPLIES = b"ok\nkey 0.1\nkey 1.1\ngranted\ngranted\nwaits 1.1 1.0\nwaits 0.1 2.1\nwaiting 1 1.0 1.0\nwaiting 0 2.1 2.1\n"
LONGEST = 16_777_216
NO_KEY = "K is not two numbers from 0 to 4294967295 with a dot between them"
WRONG = [
    ("fly 0.1", "no call has this word"), ("Begin", "no call has this word"), ("\tbegin", "no call has this word"), ("finish 1", NO_KEY),
    ("acquire 0. 0", NO_KEY), ("abort 4294967296.1", NO_KEY), ("acquire 0.1", "acquire wants two words, K r, after it, but has 1"),
    ("begin now  please", "begin wants no word after it, but has 2"), ("settle x", "settle wants no word after it, but has 1"),
    ("owner", "owner wants one word, r, after it, but has 0"), ("0" * 129, "the line has more than 128 bytes"),
    ("acquire 0.0 -1", "r is not a whole number from 0 to 4294967295"), ("owner 4294967296\r", "r is not a whole number from 0 to 4294967295"),
    ("table 1 x 9 9", "R is not a whole number from 0 to 4294967295"), ("table 1 1 9 9.", "G is not a whole number from 0 to 4294967295"),
    ("table2 1 1 18446744073709551616 9", "L is not a whole number from 0 to 18446744073709551615"),
    ("table 1 1 9", "table wants four words, P R L G, after it, but has 3"),
]  # fmt: skip


def worked() -> list[tuple[str, bytes, bytes, int]]:
    """The worked scripts of the crate test_support: a name, the script, its replies, and how many lines are malformed."""
    row = r'Row \{\s*name: ("(?:[^"\\]|\\.)*"),\s*input: ("(?:[^"\\]|\\.)*"),\s*output: ("(?:[^"\\]|\\.)*"),\s*\}'
    text = read(os.path.join(TOP, "crates/test_support/src/rows.rt"))
    rows = re.findall(row, text)
    count = sum(map(int, re.findall(r"static \w+: \[Row; (\d+)\]", text)))
    assert len(rows) == count, f"{len(rows)} of {count} scripts are read"
    # (of escapes these texts have only such as Python writes in the same way)
    texts = [[ast.literal_eval("b" + literal) for literal in row] for row in rows]
    return [(name.decode(), script, replies, replies.count(b"malformed\n")) for name, script, replies in texts]


class Worked(Case):
    """Scripts with the replies that the rules give."""

    @each(worked())
    def test_rows(self, name: str, script: bytes, replies: bytes, malformed: int) -> None:
        self.ends(self.run_program(given=script), int(malformed > 0), replies)
        told = self.run_program("script", "--verbose", given=script)
        self.ends(told, int(malformed > 0), replies, told.err)
        self.assertEqual(len(re.findall(rb"^line [0-9]+: ", told.err, re.M)), malformed)

    @each(sorted(map(os.path.basename, glob.glob(os.path.join(TOP, "examples/*.script")))))
    def test_examples(self, name: str) -> None:
        path = os.path.join(TOP, "examples", name)
        self.ends(self.run_program(given=read(path)), 0, read(path.replace(".script", ".replies")))


class Scripts(Case):
    def test_largest_table(self) -> None:
        """It has a process for each of so many transactions, who all wait for one, and no more."""
        count = 65_536
        given = f"table2 {count} {count} 17592186044415 9\n" + "begin\n" * (count + 1) + "".join(f"acquire {place}.1 65535\n" for place in range(count))
        told = self.run_program(given=given)
        waits = "".join(f"waits 0.1 1.{place}\n" for place in range(1, count))
        self.ends(told, 0, "ok\n" + "".join(f"key {place}.1\n" for place in range(count)) + "refused 6 Full\ngranted\n" + waits)

    @each(["", "script"])
    def test_from_a_file(self, word: str) -> None:
        with open(self.file("script", FIRST_RUN), "rb") as script:
            self.ends(self.run_program(*word.split(), stdin=script), 0, FIRST_REPLIES)

    @each([("nothing", b""), ("as many newlines as there may be", b"\n" * LONGEST)])
    def test_silent(self, name: str, script: bytes) -> None:
        self.ends(self.run_program(given=script))

    def test_malformed_line(self) -> None:
        self.ends(self.run_program(given="fly\nbegin"), 1, "malformed\nno table\n")

    def test_each_kind_of_malformed_line(self) -> None:
        script = "".join(f"{line}\n" for line in ["table 1 1 9 9", "# 2", *(line for line, _ in WRONG)])
        replies = "ok\n" + "malformed\n" * len(WRONG)
        told = "".join(f"line {number}: {why}\n" for number, (_, why) in enumerate(WRONG, 3))
        self.ends(self.run_program("script", "--verbose", given=script), 1, replies, told)
        self.ends(self.run_program("script", given=script), 1, replies)

    def test_verbose_has_nothing_to_say(self) -> None:
        self.ends(self.run_program("script", "-v", given=FIRST_RUN), 0, FIRST_REPLIES)

    @each([("scripts", [], FIRST_RUN, FIRST_REPLIES),
           ("requests", ["locks"], b"begin\nlock 0.1 a\nowner a\ncommit 0.1\n", b"begun 0.1\ngranted\nowner 0.1\ncommitted\n")])  # fmt: skip
    def test_typed_lines(self, name: str, words: list[str], lines: bytes, replies: bytes) -> None:
        """Each reply is there before the next line is given."""
        with subprocess.Popen([PROGRAM, *words], stdin=subprocess.PIPE, stdout=subprocess.PIPE) as child:
            for line, reply in zip(lines.splitlines(True), replies.splitlines(True)):
                child.stdin.write(line)
                child.stdin.flush()
                self.assertEqual(child.stdout.readline(), reply)
            child.stdin.close()
            self.assertEqual(child.stdout.read(), b"")
        self.assertEqual(child.returncode, 0)

    @each([
        ("of newlines", b"\n" * (LONGEST + 1), b""),
        ("with its last newline past the limit", b"\n" * (LONGEST - 5) + b"begin\n", b""),
        ("of malformed lines", b"fly\n" + b"#" * 60 + b"\n" * LONGEST, b"malformed\n"),
    ])  # fmt: skip
    def test_too_long(self, name: str, script: bytes, replies: bytes) -> None:
        self.ends(self.run_program(given=script), 3, replies, "input too long\n")

    def test_too_long_with_verbose(self) -> None:
        told = f"line {LONGEST - 5}: no call has this word\nline {LONGEST - 4}: the script has more than {LONGEST} bytes\ninput too long\n"
        self.ends(self.run_program("script", "--verbose", given=b"\n" * (LONGEST - 6) + b"fly\nbegin"), 3, "malformed\n", told)


class Devices(Case):
    """Devices that fail, of scripts, help and the lock service."""

    def opened_folder(self) -> int:
        """A folder, opened to be read as a file."""
        folder = os.open("/", os.O_RDONLY)
        self.addCleanup(os.close, folder)
        return folder

    def test_pipe_that_closes_early(self) -> None:
        for words, line, reply in ([], b"begin\n", b"no table\n"), (["locks"], b"graph\n", b"graph 0\n"):
            with open(self.file("script", line * 200_000), "rb") as script:
                with subprocess.Popen([PROGRAM, *words], stdin=script, stdout=subprocess.PIPE, stderr=subprocess.PIPE) as child:
                    self.assertEqual(child.stdout.readline(), reply)
                    child.stdout.close()
                    self.assertEqual(child.stderr.read(), b"write fault\n")
            self.assertEqual(child.returncode, 3)

    @each(["", "locks", "explain", "explain --dot", "--help", "script -v --help", "--version", "storm --clients 1",
           f"threads {TOP}/examples/workloads/crosswise.json"])  # fmt: skip
    def test_output_that_takes_nothing(self, words: str) -> None:
        with open("/dev/full", "wb") as full:
            self.ends(self.run_program(*words.split(), given=b"begin\n", stdout=full), 3, b"", "write fault\n")
        self.ends(self.run_program(*words.split(), given=b"begin\n", preexec_fn=lambda: os.close(1)), 3, b"", "write fault\n")

    @each(["", "locks", "explain"])
    def test_input_that_cannot_be_read(self, words: str) -> None:
        self.ends(self.run_program(*words.split(), stdin=self.opened_folder()), 3, b"", "read fault\n")
        self.ends(self.run_program(*words.split(), stdin=None, preexec_fn=lambda: os.close(0)), 3, b"", "read fault\n")

    def test_read_fault_with_verbose(self) -> None:
        told = self.run_program("script", "--verbose", stdin=self.opened_folder())
        self.ends(told, 3, b"", told.err)
        self.assertRegex(told.err, rb"(?s)^line 1: .*\nread fault\n\Z")

    def test_read_fault_that_cannot_be_told(self) -> None:
        self.ends(self.run_program(stdin=self.opened_folder(), stderr=None, preexec_fn=lambda: os.close(2)), 3)
