"""The C client: with replies that are written in replies.c, and with a service; built with sanitizers, and with calls that fail or are short."""
import glob
import os
import re
import shutil
import subprocess
import tempfile
from typing import Any

from lib.faults import FaultCase, variables
from lib.world import CLIENTS, LIMIT, SEED, TOP, Server, each, read, run, wants

HERE = os.path.join(TOP, "tests", "service")
CLIENT = os.path.join(CLIENTS, "c")
SOURCES = sorted(set(glob.glob(f"{CLIENT}/*.c")) - {f"{CLIENT}/bank.c"})
FLAGS = ["-std=c11", "-Wall", "-Wextra", "-Wpedantic", "-Werror", "-O1", "-g", "-pthread", f"-I{CLIENT}"]
SANITIZED = ["-fsanitize=address,undefined", "-fno-sanitize-recover=all"]
LIMITS = ["--transactions", "64", "--names", "2048", "--name-bytes", "64"]
FAULTS = "connect:EINTR%30 recv:EINTR%20 recv:short%30 send:EINTR%25 send:short%40 poll:EINTR%30 read:EINTR%10 write:EINTR%10"
"""What a client has to live with: signals, and calls that do less than they were asked for."""
SEEDS = [1, 2, 3, SEED]


def tests(name: str) -> list[str]:
    return re.findall(r"\bTEST\((\w+)\)", read(f"{HERE}/{name}.c"))


class CCase(FaultCase):
    @classmethod
    def setUpClass(cls) -> None:
        super().setUpClass()
        cls.scratch = tempfile.TemporaryDirectory(prefix="pashkure.")
        cls.addClassCleanup(cls.scratch.cleanup)

    @classmethod
    def program(cls, name: str) -> str:
        """A program of this name, plain or `.sanitized`, which is built at its first use."""
        path = os.path.join(cls.scratch.name, name)
        if not os.path.exists(path):
            kind, _, is_sanitized = name.partition(".")
            sources = [f"{CLIENT}/bank.c" if kind == "bank" else f"{HERE}/{kind}.c", *SOURCES]
            subprocess.run(["cc", *FLAGS, *(SANITIZED if is_sanitized else []), "-o", path, *sources], check=True)
        return path


class Replies(CCase):
    """Each reply is there before the request, or comes when the other end has seen it."""

    @each(tests("replies"))
    def test_sanitized(self, name: str) -> None:
        self.passes(run(self.program("replies.sanitized"), name))

    @each(tests("replies"))
    def test_with_faults(self, name: str) -> None:
        """EINTR and short calls of recv, send and poll change nothing that a caller sees."""
        for seed in SEEDS:
            with self.subTest(seed=seed):
                self.passes(self.faulty(FAULTS, self.program("replies"), name, seed=seed))

    @each(["words", "several", "many_names", "reads", "lists"])
    def test_memory(self, name: str) -> None:
        """No call takes memory."""
        told, counts = self.counted("", self.program("replies"), name)
        self.assertEqual((self.passes(told).status, counts.requests), (0, 0))

    def test_long_time(self) -> None:
        """A time of more than 2 to the 31 milliseconds is not told to poll as a short one."""
        self.assertEqual(set(self.told("long_time")), {2**31 - 1})

    def test_short_time(self) -> None:
        """A reply is due a second after the time of the call that waits for it."""
        self.assertIn(max(self.told("short_time")), range(2, 1002))

    def told(self, name: str) -> list[int]:
        """For how many milliseconds the program of this name tells poll to wait."""
        log = self.path("log")
        env = {**os.environ, **variables("poll:told recv:short=10", log=log)}  # so that it reads `waits 1.1`, and then has to wait
        self.passes(run(self.program("replies"), name, env=env))
        return [int(number) for number in re.findall(r"^poll:told=(-?\d+)@", read(log), re.M)]

    def test_faults_are_made(self) -> None:
        """The tests above would show nothing if no call failed."""
        log = self.path("log")
        self.passes(run(self.program("replies"), "words", env={**os.environ, **variables(FAULTS, log=log)}))
        rules = read(log)
        self.assertTrue("EINTR" in rules and "recv:short" in rules, rules)
        again = self.path("again")
        self.passes(run(self.program("replies"), "words", env={**os.environ, **variables(rules, log=again)}))
        self.assertEqual(read(again), rules, "a log is done again")


class Service(CCase):
    """A service that was just started."""

    def started(self, *words: str, path: str = "", **how: Any) -> Server:
        """A server, with an operator's socket beside that of the clients."""
        path = path or self.path("socket")
        return self.server(*LIMITS, *words, "--admin", f"{path}.admin", path=path, **how)

    @each([name for name in tests("service") if name not in ("killed", "full")])
    def test_sanitized(self, name: str) -> None:
        self.passes(run(self.program("service.sanitized"), name, self.started().path))

    @each([name for name in tests("service") if name not in ("killed", "full", "limits")])
    def test_with_faults(self, name: str) -> None:
        for seed in SEEDS:
            with self.subTest(seed=seed):
                self.passes(self.faulty(FAULTS, self.program("service"), name, self.started().path, seed=seed))

    def test_full(self) -> None:
        self.passes(run(self.program("service.sanitized"), "full", self.started("--connections", "2").path))

    def test_killed(self) -> None:
        """The service is killed: who waits for a lock is told so. After it was started anew it gives the same keys again; those of before are refused."""
        server = self.started()
        pipes = {"stdin": subprocess.PIPE, "stdout": subprocess.PIPE, "stderr": subprocess.PIPE}
        with subprocess.Popen([self.program("service.sanitized"), "killed", server.path], **pipes) as client:
            self.assertEqual(client.stdout.readline(), b"waits\n")
            server.process.kill()
            server.process.wait()
            self.started(path=server.path)
            self.assertEqual((client.communicate(b"\n", LIMIT)[1], client.returncode), (b"", 0))

    @each(["bank", "bank.sanitized", "bank with faults"])
    def test_bank(self, name: str) -> None:
        """Two threads move money, and their deadlocks are tried again."""
        command = [self.program(name.split()[0]), self.started().path]
        told = self.passes(self.faulty(FAULTS, *command) if "faults" in name else run(*command))
        self.assertRegex(told.out, rb"\A2000 transfers; [0-9]+ deadlocks, .*\naccounts/1 has 1000, accounts/2 has 1000\n\Z")

    def test_bank_without_a_socket(self) -> None:
        self.assertEqual(run(self.program("bank")).status, 2)

    def test_bank_by_threads_of_a_sanitizer(self) -> None:
        """Two threads at two connections share nothing that they change at once."""
        path = self.path("bank")
        told = run("cc", *FLAGS, "-fsanitize=thread", "-o", path, f"{CLIENT}/bank.c", *SOURCES)
        if told.status or run(path).status != 2:
            self.skipTest("this C compiler has no thread sanitizer that runs here (Debian's package libtsan)")
        self.passes(run(path, self.started().path))


class Sources(CCase):
    def test_compilers(self) -> None:
        """No compiler warns, and the header is one of C++ too."""
        header = self.file("header.cc", '#include "pashkure_remote.h"\npashkure_remote_connection connection = PASHKURE_REMOTE_CLOSED;\n')
        for compiler, standard, source in [(compiler, "c11", source) for compiler in ("gcc", "clang") for source in SOURCES] + [
            (compiler, "c++98", header) for compiler in ("g++", "clang++")]:  # fmt: skip
            if shutil.which(compiler):
                self.passes(run(compiler, f"-std={standard}", *FLAGS[1:], "-c", "-o", os.devnull, source))

    def test_page(self) -> None:
        """What the page shows of C is C."""
        for code in re.findall(r"^```c\n(.*?)^```$", read(f"{CLIENT}/README.md"), re.M | re.S):
            self.passes(run("cc", *FLAGS, "-c", "-o", os.devnull, self.file("page.c", code)))

    def test_install(self) -> None:
        """A program is compiled with what pkg-config says of a library that was installed below a folder."""
        wants("make", "pkg-config")
        top, bank = self.path("root"), self.path("bank")
        self.passes(run("make", "-s", "-C", CLIENT, "install", f"OUT={self.path('out')}", f"DESTDIR={top}", "PREFIX=/opt/pashkure"))
        files = sorted(os.path.relpath(os.path.join(folder, name), f"{top}/opt/pashkure") for folder, _, names in os.walk(top) for name in names)
        self.assertEqual(files, ["include/pashkure_remote.h", "lib/libpashkure_remote.a", "lib/pkgconfig/pashkure_remote.pc"])
        env = {**os.environ, "PKG_CONFIG_PATH": f"{top}/opt/pashkure/lib/pkgconfig", "PKG_CONFIG_SYSROOT_DIR": top}
        flags = self.passes(run("pkg-config", "--cflags", "--libs", "pashkure_remote", env=env)).out.decode().split()
        shutil.copy(f"{CLIENT}/bank.c", f"{self.folder}/bank.c")  # beside no header
        self.passes(run("cc", "-std=c11", "-pthread", "-o", bank, f"{self.folder}/bank.c", *flags))
        self.assertEqual(run(bank).status, 2)
