"""What ./mmdetect does if no program is built of its sources, in a checkout of a few small crates, with a command that stands for the
toolchain; and what a person at a terminal is told, and nobody else."""
import glob
import os
import re
import shutil
import signal
import subprocess

from lib.world import LIMIT, PROGRAM, TOP, Case, Run, each, read, run, slow, state, typed, until, wants, write

# A try prints what it was given, and has no answer while 'mute' is there. A build proves one crate, and then waits, with a process below
# it, while 'held' is there; it fails if 'refuses' is there. The program prints its sources, its words and its input.
RT = r"""#!/usr/bin/env bash
fake=$(dirname "$0")/..
[ "$1" = version ] || echo "$1" >> "$fake/calls"
case $1 in
  version) cat "$fake/version" ;;
  try)
    [ ! -e "$fake/mute" ] || { printf '%s\n' "checked: no-answer: it takes long" "run=no-answer proved=no" >&2; exit 6; }
    echo "tried ${PWD##*/} $* $(cat)"
    printf '%s\n' "one complaint" "checked: ended status=1" "races: not looked for" "run=ended status=1 runners=1 proved=no" >&2
    exit 1
    ;;
  ci)
    find . -type f | sort > "$fake/staged"
    sleep 1000 &
    echo "$$ $!" > "$fake/processes"
    printf 'rt: mm_low'; [ ! -e "$fake/held" ] || sleep 1.2; printf ' proved\nrt: mm_low: its tests are proved\n'
    while [ -e "$fake/held" ]; do sleep 0.1; done
    kill $!
    [ ! -e "$fake/refuses" ] || { echo "  fn one: not proved"; exit 1; }
    echo "rt: mm_detect is kept: an earlier run proved it"
    made=$(cat crates/mm_low/src/*.rt crates/mm_detect/src/main.rt | paste -sd ' ')
    mkdir -p crates/mm_detect/out && cd crates/mm_detect/out || exit
    printf '#!/bin/sh\necho "%s $* $(cat)"\n' "$made" > mm_detect
    chmod +x mm_detect
    ;;
esac
"""
# Makes the C library in the folder of its crate.
RATTLE = """#!/bin/sh
echo "$*" > out/libpashkure.a
"""
TRIED = "mmdetect: no program is built: a try of these sources answers in about a minute, unproved; to prove and build: ./mmdetect prove\n"
COMPLAINT = TRIED + "one complaint\n"
PROVE_FIRST = "mmdetect: prove it first: ./mmdetect prove\n"
AT_TERMINAL = b"mmdetect: reads a script from this terminal, a call a line, up to Ctrl-D; './mmdetect help' lists the calls\n"
NO_PROGRAM = "mmdetect: no program is built of these sources"


class Checkout(Case):
    """A checkout, and a toolchain that keeps what it was called for."""

    def setUp(self) -> None:
        super().setUp()
        self.top, self.fake = self.path("checkout"), self.path("fake")
        self.work = self.path("work")
        crates = [f"{self.top}/crates/{crate}/src" for crate in ("mm_low", "mm_other", "mm_detect", "pashkure", "example_script")]
        for folder in (self.work, f"{self.top}/server", *(f"{self.fake}/{name}" for name in ("bin", "tmp", "c")), *crates, f"{self.top}/crates/mm_detect/must-fail"):
            os.makedirs(folder)
        shutil.copytree(os.path.join(TOP, "wrapper"), f"{self.top}/wrapper")
        shutil.copy(os.path.join(TOP, "mmdetect"), self.top)
        self.low = f"{self.top}/crates/mm_low/src/lib.rt"
        for path, text in (("crates.txt", "mm_low:\nmm_other:\nexample_script: mm_low\nmm_detect: mm_low kit # the program\npashkure staticlib: mm_low\n"),
                           ("HANDLES", "Handles allowed: none.\n"), ("crates/mm_low/src/lib.rt", "low\n"),
                           ("crates/mm_detect/src/main.rt", "main\n"), ("crates/pashkure/src/lib.rt", "calls\n"), ("crates/mm_detect/must-fail/one.edit", "edit\n"),
                           ("server/main.c", "int main(void) { return 0; }\n"), ("server/text.h", "")):  # fmt: skip
            write(f"{self.top}/{path}", text)
        write(f"{self.fake}/version", "kit-1\n")
        write(f"{self.fake}/calls", "")
        write(f"{self.fake}/c/liblibc_c.a", "heap\n")
        self.program("rt", RT)
        self.program("rattle", RATTLE)

    def program(self, name: str, text: str) -> None:
        """A command of the toolchain, or in its place."""
        write(f"{self.fake}/bin/{name}", text)
        os.chmod(f"{self.fake}/bin/{name}", 0o755)

    def env(self, build: str = "", path: str = "") -> dict[str, str]:
        return {**os.environ, "PATH": path or f"{self.fake}/bin:{os.environ['PATH']}", "TMPDIR": f"{self.fake}/tmp", "MMDETECT_BUILD": build}

    def wrapped(self, *words: str, build: str = "", given: bytes = b"begin", path: str = "", **how: object) -> Run:
        return run(f"{self.top}/mmdetect", *words, given=given, env=self.env(build, path), **how)

    def gives(self, status: int, out: str, err: "str | None", calls: str, *words: str, build: str = "") -> Run:
        """With these words and a script mmdetect ends so, and calls the toolchain so."""
        told = self.ends(self.wrapped(*words, build=build), status, out, err)
        self.called(calls)
        return told

    def called(self, calls: str) -> None:
        self.assertEqual(read(f"{self.fake}/calls").split(), calls.split(), "calls of the toolchain")
        write(f"{self.fake}/calls", "")

    def proved(self) -> None:
        self.gives(0, "", None, "ci", "prove")


class Tries(Checkout):
    """What is tried, and what is not."""

    def test_script(self) -> None:
        self.gives(1, "tried example_script try -- begin\n", COMPLAINT, "try")
        self.gives(1, "tried example_script try -- begin\n", COMPLAINT, "try", "script")
        with open(self.file("script", "begin"), "rb") as script:
            self.ends(self.wrapped(stdin=script), 1, "tried example_script try -- begin\n", COMPLAINT)

    @each([("script --verbose", "begin"), ("storm --seed=7", ""), ("fly", "")])
    def test_by_the_whole_program(self, words: str, given: str) -> None:
        self.gives(1, f"tried mm_detect try -- {words} {given}\n", COMPLAINT, "try", *words.split())

    def test_file(self) -> None:
        """A file that a word names is given to a try."""
        path = f"{self.work}/work.json"
        write(path, "{}\n")
        self.gives(1, f"tried mm_detect try --data work.json={path} -- threads work.json -v \n", COMPLAINT, "try", "threads", path, "-v")
        told = self.wrapped("explain", "work.json", cwd=self.work)
        self.ends(told, 1, f"tried mm_detect try --data work.json={path} -- explain work.json \n", COMPLAINT)

    def test_typed(self) -> None:
        status, shown = typed([f"{self.top}/mmdetect"], b"typed\n", self.env())
        self.assertEqual(status, 1)
        self.assertIn(AT_TERMINAL, shown)
        self.assertIn(b"tried example_script try -- typed", shown)

    def test_help(self) -> None:
        texts = {name: read(f"{TOP}/wrapper/{name}") for name in ("help.txt", "help/prove.txt", "help/serve.txt", "help/library.txt")}
        own = "\nCommands of ./mmdetect alone:\n"
        for word in "prove", "serve", "library":
            own += f"  {word:9}{texts[f'help/{word}.txt'].splitlines()[0]}\n"
            self.gives(0, texts[f"help/{word}.txt"], "", "", "help", word)
            self.gives(0, texts[f"help/{word}.txt"], "", "", word, "--help")
        self.gives(0, texts["help.txt"] + own, "", "", "--help")

    def test_pipe_that_stays_open(self) -> None:
        reads, writes = os.pipe()
        self.ends(self.wrapped("locks", stdin=reads), 126, "", PROVE_FIRST)
        for end in reads, writes:
            os.close(end)

    def test_more_than_a_mebibyte(self) -> None:
        self.ends(self.wrapped(given=bytes(1_048_577)), 126, "", PROVE_FIRST)

    def test_report(self) -> None:
        self.gives(126, "", PROVE_FIRST, "", "storm", "--report", f"{self.work}/report")

    def test_no_answer(self) -> None:
        write(f"{self.fake}/mute", "")
        self.gives(126, "", f"{TRIED}checked: no-answer: it takes long\nrun=no-answer proved=no\n{PROVE_FIRST}", "try")

    def test_nothing_may_be(self) -> None:
        self.gives(126, "", NO_PROGRAM + "\n", "", build="never")
        self.gives(126, "", NO_PROGRAM + ", and none may be: MMDETECT_BUILD=never\n", "", "prove", build="never")

    @slow
    def test_answers_as_the_program(self) -> None:
        """One try of these sources answers each script as the program does."""
        wants("rt")
        cases, statuses = self.path("cases"), {}
        os.makedirs(cases)
        scripts = {os.path.basename(path)[: -len(".script")]: read(path) for path in glob.glob(os.path.join(TOP, "examples/*.script"))}
        for name, text in {**scripts, "empty": "", "malformed": "fly\nbegin"}.items():
            told = self.run_program(given=text)
            statuses[name] = told.status
            write(f"{cases}/{name}", text)
            write(f"{cases}/{name}.stdout", told.out)
        told = run("rt", "try", "--cases", cases, cwd=os.path.join(TOP, "crates/example_script"))
        for name, status in statuses.items():
            self.assertRegex(told.err.decode(), rf"(?m)^case={name} run=ended status={status} .*output=expected", told.out.decode())


class Proofs(Checkout):
    def test_how_far_it_is(self) -> None:
        """A proof says how far it is, and runs nothing. What is proved: the crates of the program, without edits."""
        wants("cc")
        told = self.wrapped("prove")
        err = re.sub(rb"\d+ s$", b"N s", told.err, flags=re.M).decode()
        self.ends(told._replace(err=err.encode()), 0, "", "mmdetect: the program is proved and built; from nothing that takes about a quarter of an "
                  "hour on four processors\nmmdetect: 1 of 3 crates proved, mm_low just now; N s\nmmdetect: 2 of 3 crates proved, mm_detect just now; "
                  "N s\nmmdetect: proved and built in N s\n")  # fmt: skip
        self.called("ci")
        self.assertEqual(read(f"{self.fake}/staged").split(), ["./HANDLES", "./crates.txt", "./crates/mm_detect/src/main.rt", "./crates/mm_low/src/lib.rt",
                         "./crates/pashkure/src/lib.rt"])  # fmt: skip

    def test_library(self) -> None:
        """It is that of the proved build, and of no other sources. What it writes, test_library tries."""
        self.gives(2, "", "mmdetect: usage: mmdetect library [DIR [LIBDIR]]\n", "", "library", self.work, "b", "c")
        self.gives(126, "", PROVE_FIRST, "", "library", self.work)
        self.proved()
        made = read(f"{self.top}/crates/pashkure/out/libpashkure.a")
        self.assertIn("--extern mm_low=", made)
        self.assertIn("--crate-type staticlib", made)
        write(f"{self.top}/crates/pashkure/src/lib.rt", "other calls\n")
        self.gives(126, "", PROVE_FIRST, "", "library", self.work)
        self.assertEqual(os.listdir(self.work), [])

    def test_what_is_proved_is_run(self) -> None:
        """It is run until a source changes: also one with an old time, a new one, one that is gone again, the toolchain or the program."""
        self.proved()
        self.gives(0, "low main script begin\n", "", "", "script")
        self.gives(0, "", "mmdetect: the program of these sources is proved and built\n", "", "prove")
        write(f"{self.top}/crates/mm_other/src/lib.rt", "other\n")
        self.gives(0, "low main script begin\n", "", "", "script")

        def builds(out: str) -> None:
            self.gives(0, f"{out} script begin\n", None, "ci", "script", build="proved")

        write(self.low, "lower\n")
        os.utime(self.low, (0, 0))
        builds("lower main")
        write(f"{self.top}/crates/mm_low/src/more.rt", "more\n")
        builds("lower more main")
        os.unlink(f"{self.top}/crates/mm_low/src/more.rt")
        builds("lower main")
        write(f"{self.fake}/version", "kit-2\n")
        builds("lower main")
        write(f"{self.top}/crates/mm_detect/out/mm_detect", "#!/bin/sh\necho other\n")
        builds("lower main")

    def test_build_that_fails(self) -> None:
        write(f"{self.fake}/refuses", "")
        told = self.gives(126, "", None, "ci", "prove")
        log = re.search(r"^mmdetect: the build failed; what the toolchain said is in (.*)$", told.err.decode(), re.M)
        assert log, told.err
        self.assertIn("\n  fn one: not proved\n", read(log[1]))

    def starts(self) -> "subprocess.Popen[bytes]":
        """A build is under way in the background, where it gets each signal."""
        write(f"{self.fake}/held", "")
        self.err = self.path("err")

        def signals() -> None:
            for number in signal.SIGHUP, signal.SIGINT, signal.SIGTERM:
                signal.signal(number, signal.SIG_DFL)

        with open(self.err, "wb") as err:
            child = subprocess.Popen([f"{self.top}/mmdetect"], env=self.env("proved"), stdin=subprocess.DEVNULL, stdout=subprocess.PIPE, stderr=err,
                                     preexec_fn=signals)  # fmt: skip
        self.addCleanup(child.kill)
        until(lambda: "1 of 3 crates proved" in read(self.err), "a crate is proved")
        return child

    def test_source_that_changes_meanwhile(self) -> None:
        child = self.starts()
        write(self.low, "second\n")
        os.unlink(f"{self.fake}/held")
        self.assertEqual((child.communicate(timeout=LIMIT)[0], child.returncode), (b"low main  \n", 0))
        self.assertIn("mmdetect: a source changed while the program was built: the next call builds again\n", read(self.err))
        self.called("ci")
        self.gives(0, "second main script begin\n", None, "ci", "script", build="proved")

    @each(["SIGTERM", "SIGINT", "SIGHUP"])
    def test_signal(self, name: str) -> None:
        """It ends the build and what that started."""
        child = self.starts()
        child.send_signal(signal.Signals[name])
        self.assertEqual((child.communicate(timeout=LIMIT)[0], child.returncode), (b"", 128 + signal.Signals[name]))
        self.assertIn(f"mmdetect: the build was ended by {name}\n", read(self.err))
        for process in read(f"{self.fake}/processes").split():
            until(lambda process=process: is_over(process), "what the build started has ended")
        self.assertEqual(os.listdir(f"{self.fake}/tmp"), [])

    def test_no_toolchain(self) -> None:
        """A program that stands is run; without one there is status 127."""
        self.proved()
        path = ":".join(folder for folder in os.environ["PATH"].split(":") if not os.path.exists(f"{folder}/rt"))
        self.ends(self.wrapped("script", path=path), 0, "low main script begin\n")
        write(self.low, "last\n")
        for word in "prove", "script":
            self.ends(self.wrapped(word, path=path), 127, "", "mmdetect: the command rt of the Rattle toolchain is not on the PATH\n")

    def test_checkout_that_cannot_be_written(self) -> None:
        for root, folders, files in os.walk(self.folder):
            for name in (*folders, *files):
                os.chmod(os.path.join(root, name), 0o755)
        os.chmod(self.folder, 0o755)
        command = [f"{self.top}/mmdetect", "prove"]
        if os.geteuid() == 0:
            command = ["setpriv", "--reuid=65534", "--regid=65534", "--clear-groups", *command]
        else:
            os.chmod(f"{self.top}/crates/mm_detect", 0o555)
        self.ends(run(*command, env=self.env()), 125, "", NO_PROGRAM + ", and this checkout cannot be written\n")
        os.chmod(f"{self.top}/crates/mm_detect", 0o755)


def is_over(process: str) -> bool:
    try:
        return state(int(process)) in "XZ"
    except OSError:
        return True


class Serves(Checkout):
    """The server, which is built once by cc, and stands here for one that prints its words."""

    def setUp(self) -> None:
        super().setUp()
        write(f"{self.top}/server/main.c", '#include "text.h"\nint main(int n, char **w) { puts(TEXT); while (*++w) puts(*w); return n > 20; }\n')
        self.text("one")
        self.front = f"{self.top}/crates/mm_detect/out/pashkure-serve"
        self.program("cc", f'#!/bin/sh\necho cc >> "{self.fake}/calls"\nexec {shutil.which("cc")} "$@"\n')

    def text(self, text: str) -> None:
        write(f"{self.top}/server/text.h", f'#include <stdio.h>\n#define TEXT "{text}"\n')

    def test_proved_program(self) -> None:
        """It is built for its sources, and started with the proved program unless another one is named."""
        wants("cc")
        self.gives(0, "", None, "ci cc", "prove")
        words, program = ["serve", "--socket", "x y", "--quiet"], f"{self.top}/crates/mm_detect/out/mm_detect"
        self.gives(0, f"one\n--program\n{program}\n--socket\nx y\n--quiet\n", "", "", *words)
        self.text("two")
        self.gives(0, "two\n--program\nother\n", "", "cc", "serve", "--program", "other")
        self.gives(0, "two\n--program=other\n", "", "", "serve", "--program=other")

    def test_nothing_proved(self) -> None:
        """Nothing is tried or proved. Another program needs no proof."""
        wants("cc")
        for build in "", "proved", "never":
            self.gives(126, "", PROVE_FIRST, "", "serve", "--socket", "x", build=build)
        self.gives(0, "one\n--program\nother\n", "", "cc", "serve", "--program", "other")

    def test_no_compiler(self) -> None:
        """Without cc there is status 127, unless the server is built."""
        bare = self.path("bin")
        os.makedirs(bare)
        for name in "bash", "env", "dirname", "readlink", "sha256sum", "cut", "cat":
            os.symlink(str(shutil.which(name)), os.path.join(bare, name))
        words = ["serve", "--program", "other"]
        self.ends(self.wrapped(*words, path=bare), 127, "", "mmdetect: the server is built by a C compiler, and no command cc is on the PATH\n")
        wants("cc")
        self.gives(0, "one\n--program\nother\n", "", "cc", *words)
        self.ends(self.wrapped(*words, path=bare), 0, "one\n--program\nother\n")

    def test_compiler_that_fails(self) -> None:
        wants("cc")
        self.text('" ! "')
        told = self.gives(126, "", None, "cc", "serve", "--program", "other")
        self.assertTrue(told.err.endswith(b"mmdetect: cc did not build the server\n"), told.err)
        self.assertEqual(os.listdir(os.path.dirname(self.front)), [])


class Desk(Checkout):
    """What a person at a terminal is told, if a program is built."""

    def setUp(self) -> None:
        super().setUp()
        self.proved()

    def at_terminal(self, *words: str, text: bytes = b"") -> bytes:
        status, shown = typed([f"{self.top}/mmdetect", *words], text, self.env())
        self.assertEqual(status, 0, shown)
        return shown

    def test_script(self) -> None:
        shown = self.at_terminal(text=b"begin\n")
        self.assertIn(AT_TERMINAL, shown)
        self.assertIn(b"low main  begin\n", shown)
        self.assertIn(AT_TERMINAL, self.at_terminal("script"))

    @each(["help", "storm --clients 1", "threads x.json"])
    def test_others(self, words: str) -> None:
        self.assertNotIn(b"mmdetect: ", self.at_terminal(*words.split()).replace(b"mmdetect: finds", b""))

    def test_one_terminal_alone(self) -> None:
        """Nothing is said if only standard input or only standard error is a terminal."""
        err = self.path("err")
        shown = typed(["sh", "-c", f'"{self.top}/mmdetect" 2> "{err}"'], b"begin\n", self.env())[1]
        self.assertIn(b"low main  begin", shown)
        self.assertEqual(os.path.getsize(err), 0)
        shown = typed(["sh", "-c", f'echo begin | "{self.top}/mmdetect"'], b"", self.env())[1]
        self.assertNotIn(b"mmdetect: ", shown)

    @each(["", "script "])
    def test_name_of_a_file(self, word: str) -> None:
        path = self.file("first.script", "begin\n")
        told = self.wrapped(*word.split(), path)
        self.assertEqual(told.err.decode(), f"mmdetect: a script is read from standard input: ./mmdetect < {path}\n")

    def test_typed_at_the_program(self) -> None:
        """The program itself says nothing at a terminal but its replies."""
        status, shown = typed([PROGRAM], b"begin\n")
        self.assertEqual((status, shown.count(b"no table\n"), b"mmdetect" in shown), (0, 1, False))

    def test_version_without_git(self) -> None:
        os.makedirs(f"{self.top}/crates/mm_command/src")
        path = shutil.copy(os.path.join(TOP, "crates/mm_command/src/version.rt"), f"{self.top}/crates/mm_command/src")
        version = re.search(r'^pub const VERSION: &str = "(.*)";$', read(path), re.M)
        assert version
        self.ends(self.wrapped("--version"), 0, f"mmdetect {version[1]}\n")
        with open("/dev/full", "wb") as full:
            self.ends(self.wrapped("--version", stdout=full), 3, "", "write fault\n")


class Gate(Checkout):
    """What ./run_tests makes of its parts: the toolchain's gate, and tests/run."""

    def gate(self, rt: str, tests: str, *words: str) -> Run:
        os.makedirs(f"{self.top}/tests", exist_ok=True)
        for name in "run_tests", "tests/times":
            shutil.copy(os.path.join(TOP, name), f"{self.top}/{name}")
        for name, text in ("rt", rt), ("tests", tests):
            self.program(name, f"#!/bin/sh\n{text}\n")
        shutil.copy(f"{self.fake}/bin/tests", f"{self.top}/tests/run")
        return run(f"{self.top}/run_tests", *words, env=self.env())

    def test_sum(self) -> None:
        told = self.gate("echo rt: ok; echo '4 passed, 0 failed'", "echo 'skipped: a: no tool'; echo 'skipped: 2'; echo '7 passed, 0 failed'")
        self.ends(told, 0, "rt: ok\nrt ci: 4 passed, 0 failed\nskipped: a: no tool\nskipped: 2\ntests/run: 7 passed, 0 failed\nskipped: 2\n11 passed, 0 failed\n")

    @each([("a test fails", "echo '4 passed, 0 failed'", "echo '7 passed, 1 failed'; exit 1", "11 passed, 1 failed"),
           ("a proof fails", "echo '3 passed, 1 failed'; exit 1", "echo '7 passed, 0 failed'", "10 passed, 1 failed"),
           ("a part ends early", "echo '4 passed, 0 failed'", "echo hello; exit 1", "4 passed, 1 failed"),
           ("a part says nothing", "exit 0", "echo '7 passed, 0 failed'", "7 passed, 1 failed"),
           ("a status differs", "echo '4 passed, 0 failed'; exit 3", "echo '7 passed, 0 failed'", "11 passed, 1 failed")])  # fmt: skip
    def test_failures(self, name: str, rt: str, tests: str, last: str) -> None:
        told = self.gate(rt, tests)
        self.assertEqual((told.status, told.out.decode().splitlines()[-1]), (1, last), told)

    def test_times(self) -> None:
        check = "exec python3 -c 'import time; end = time.process_time() + 1.2\nwhile time.process_time() < end: pass' --crate-name mm_low "
        self.assertEqual(self.gate(f"cd crates/mm_low && ({check})\necho '1 passed, 0 failed'", "echo '1 passed, 0 failed'").status, 0)
        told = run(f"{self.top}/run_tests", "--times", env=self.env())
        self.assertRegex(self.ends(told, 0, told.out).out.decode(), r"\A# the run that began .*\n[0-9.]+\tmm_low proof\n[0-9.]+\tall\n\Z")

    def test_words(self) -> None:
        self.ends(self.gate("", "", "--time"), 2, "", "usage: run_tests [--times]\n")
        self.ends(self.gate("", "", "--times"), 2, "", "run_tests: no run was timed; ./run_tests does that\n")
