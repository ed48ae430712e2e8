"""The pages: what they say of the sources, the commands that they show, those that a reader pastes, and the crates that a reader copies."""
import importlib.util
import os
import pathlib
import re
import shlex
import signal
import subprocess
import sys

from lib.world import LIMIT, PROGRAM, TOP, Case, each, read, run, slow, wants


def text_of(name: str) -> str:
    return read(os.path.join(TOP, name))


def anchor(title: str) -> str:
    """The name of a heading in a link."""
    return re.sub(r"[^\w -]", "", title.lower()).replace(" ", "-")


BLOCK = re.compile(r"^<!-- tested by tests/pages -->\n```sh\n(.*?)^```$.*?^```\n(.*?)^```$", re.M | re.S)
PASTED = [(f"{page} {number}", *block) for page in ("README.md", "docs/SERVICE.md", "clients/python/README.md", "clients/c/README.md")
          for number, block in enumerate(BLOCK.findall(text_of(page)), 1)]  # fmt: skip
COMMANDS = sorted(page for page in ["README.md", *(f"docs/{name}" for name in os.listdir(f"{TOP}/docs") if name.endswith(".md"))]
                  if re.search(r"^```(text|sh)?\n\$ ", text_of(page), re.M))  # fmt: skip
NEEDS = {"docs/THREADS.md": "crates/example_bank/out/example_bank"}
PIP = {"PIP_NO_INDEX": "1", "PIP_CONFIG_FILE": os.devnull, "PYTHONDONTWRITEBYTECODE": "1"}


class Pages(Case):
    def checks(self, *command: str) -> None:
        told = self.passes(run(sys.executable, *command, cwd=TOP))
        self.assertRegex(told.out.splitlines()[-1], rb"^[0-9]+ passed, 0 failed$")

    @each([("docs/contracts",), ("docs/citations",), ("bench/tables", "--check")])
    def test_sources(self, *command: str) -> None:
        """The contracts in the pages are those of the sources, what the pages name is there, and tables have the numbers that were measured."""
        self.checks(*command)

    @each(COMMANDS)
    def test_commands(self, page: str) -> None:
        """The commands in a page print what it says."""
        if page in NEEDS and not os.path.exists(os.path.join(TOP, NEEDS[page])):
            self.skipTest(f"no program {NEEDS[page]}")
        self.checks("docs/commands", "--program", PROGRAM, page)

    def test_questions(self) -> None:
        """Each question of a new reader has a page and a heading that answers it."""
        lines = [line for line in text_of("tests/pages/questions").splitlines() if line and not line.startswith("#")]
        self.assertEqual(len(lines), 40)
        for line in lines:
            page, _, heading = line.split("\t")[1].partition("#")
            self.assertIn(heading, [anchor(title) for title in re.findall(r"^#+ (.*)$", text_of(page), re.M)], line)

    def test_old_sentences(self) -> None:
        """Sentences that readers could not follow are in no page, comment or message any more."""
        for sentence in text_of("tests/pages/old_sentences.txt").splitlines():
            told = run("git", "grep", "-lF", "-e", sentence, "--", ":!tests/pages/old_sentences.txt", cwd=TOP)
            self.assertEqual((told.status, told.out), (1, b""), sentence)

    def test_tour(self) -> None:
        """The tour has what the program explains."""
        self.checks("docs/make_tour", "--check", "--program", PROGRAM)


class Pasted(Case):
    """The commands of pages below the line '<!-- tested by tests/pages -->', pasted into a shell as a reader would. They print what is in the
    next block. The program stands for ./mmdetect, but for the C library, and a new folder for /tmp."""

    @each(PASTED)
    def test_page(self, _: str, commands: str, wanted: str) -> None:
        if "venv" in commands and importlib.util.find_spec("ensurepip") is None:
            self.skipTest("this Python has no ensurepip (Debian's package python3-venv)")
        wants(*(tool for tool in ("cc", "make", "pkg-config") if re.search(rf"(?<![\w-]){tool} ", commands)))
        commands = commands.replace("/tmp/", f"{self.folder}/")
        if "./mmdetect serve" in commands:
            commands = commands.replace("./mmdetect serve", f"{shlex.join(self.needs_server())} --program {PROGRAM}")
        if "./mmdetect library" not in commands:
            commands = commands.replace("./mmdetect", PROGRAM)
        told = self.pasted(re.sub("(mmdetect library .*)", r"\1 2> /dev/null", commands))
        self.assertEqual(deadlocks_left_out(told), deadlocks_left_out(wanted))

    def pasted(self, commands: str) -> str:
        """What a shell prints that reads these commands, and the programs that they start, up to the end of the last one."""
        environment = {name: value for name, value in os.environ.items() if name != "PYTHONPATH"}
        with subprocess.Popen(["bash"], cwd=TOP, env={**environment, **PIP}, stdin=subprocess.PIPE, stdout=subprocess.PIPE, text=True,
                              start_new_session=True) as shell:  # fmt: skip
            try:
                return shell.communicate(commands, LIMIT)[0]
            except subprocess.TimeoutExpired:
                os.killpg(shell.pid, signal.SIGKILL)
                return shell.communicate()[0] + "and no end\n"


class Copied(Case):
    """examples/copy_crate, into a repository that has nothing."""

    def copies(self, crate: str, status: int, out: str = "", err: str = "") -> None:
        self.ends(run(f"{TOP}/examples/copy_crate", crate, self.folder), status, out, err)

    def test_crate(self) -> None:
        """All is copied that the crate rests on, but what the toolchain has. To copy a part again changes nothing."""
        folder = pathlib.Path(self.folder)
        self.assertEqual(run(f"{TOP}/examples/copy_crate", "example_embedded", self.folder)[::2], (0, b""))
        lines = (folder / "crates.txt").read_text(encoding="ascii")
        below = {word for line in lines.splitlines() for word in line.partition(":")[2].split()} - {"thiserror"}
        self.assertEqual({*below, "example_embedded"}, {path.name for path in folder.glob("crates/*")})
        self.copies("mm_arena", 0, "copied: mm_lists mm_arena\n")
        self.assertEqual((folder / "crates.txt").read_text(encoding="ascii"), lines)
        self.assertEqual([path for name in ("out", "must-fail") for path in folder.glob(f"crates/*/{name}")], [])

    @slow
    def test_program(self) -> None:
        """A program that was copied runs."""
        self.assertEqual(run(f"{TOP}/examples/copy_crate", "example_embedded", self.folder)[::2], (0, b""))
        told = run("rt", "try", cwd=f"{self.folder}/crates/example_embedded")
        self.assertEqual((told.status, told.out), (0, pathlib.Path(TOP, "crates/example_embedded/stdout").read_bytes()))

    def test_handles(self) -> None:
        self.copies("mm_mutex", 0, "copied: mm_mutex\nHANDLES has to allow: Wait\n")

    def test_refused(self) -> None:
        self.copies("mm_nothing", 1, "", "copy_crate: crates.txt has no crate mm_nothing\n")
        os.makedirs(f"{self.folder}/crates/mm_lists")
        self.copies("mm_arena", 1, "", f"copy_crate: {self.folder}/crates/mm_lists is different from the crate here: move it away first\n")
        self.assertEqual(os.listdir(f"{self.folder}/crates"), ["mm_lists"])
        self.ends(run(f"{TOP}/examples/copy_crate"), 2, "", "copy_crate: usage: examples/copy_crate CRATE DIR\n")


def deadlocks_left_out(text: str) -> str:
    """How many deadlocks there are differs from run to run."""
    return re.sub("[0-9]+ deadlocks", "deadlocks", text)
