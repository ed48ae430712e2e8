"""What the tests run: the program, a server in front of it, and connections to one."""
import contextlib
import glob
import os
import pty
import re
import select
import shlex
import shutil
import signal
import socket
import subprocess
import sys
import tempfile
import time
import unittest
from typing import Any, Callable, Iterable, NamedTuple, Optional

TOP = os.path.dirname(os.path.dirname(os.path.dirname(os.path.abspath(__file__))))
CLIENTS = os.environ.get("TESTED_CLIENTS") or os.path.join(TOP, "clients")
"""The folder of the clients: a copy of it where a wrong body is planted."""
PACKAGE = os.path.join(CLIENTS, "python")
PROGRAM = os.environ.get("TESTED_PROGRAM") or os.path.join(TOP, "crates/mm_detect/out/mm_detect")
SERVER = shlex.split(os.environ.get("TESTED_SERVER") or "")
"""The command that starts a server, to which --socket, --program, the limits and other options are added. tests/run builds it."""
SEED = int(os.environ.get("TESTED_SEED") or 1)
"""The seed of what is drawn anew in each run."""
IS_SLOW = bool(os.environ.get("TESTED_SLOW"))
OUT = os.path.join(TOP, "out")
LIMIT = int(os.environ.get("TESTED_LIMIT") or 600)
"""Seconds after which something is taken to have no end, however slow the machine is."""

sys.path.insert(0, PACKAGE)


FLAGS = ["-std=c11", "-Wall", "-Wextra", "-Wpedantic", "-Wshadow", "-Wconversion", "-Werror"]


def built_server(path: str, *flags: str) -> str:
    """Builds it there. Returns the path, or nothing if there is no compiler."""
    if not shutil.which("cc"):
        return ""
    subprocess.run(["cc", *FLAGS, *(flags or ("-O1",)), "-o", path, *glob.glob(os.path.join(TOP, "server", "*.c"))], check=True)
    return path


class Run(NamedTuple):
    """How a run ended, and what it wrote. A status below 0 is that of a signal."""

    status: int
    out: bytes
    err: bytes


def environment(**more: str) -> dict[str, str]:
    """In which other Python programs find the package, and write nothing into its folder."""
    inherited = {name: value for name, value in os.environ.items() if name != "PYTHONUNBUFFERED"}
    return {**inherited, "PYTHONPATH": PACKAGE, "PYTHONDONTWRITEBYTECODE": "1", **more}


def run(*command: str, given: bytes = b"", **how: Any) -> Run:
    """Runs a command with these bytes as its standard input."""
    if "stdin" not in how:
        how["input"] = given
    how = {"stdout": subprocess.PIPE, "stderr": subprocess.PIPE, "timeout": LIMIT, **how}
    done = subprocess.run(command, check=False, **how)
    return Run(done.returncode, done.stdout or b"", done.stderr or b"")


def until(condition: Callable[[], Any], what: str) -> Any:
    """Waits until something is so, and returns it."""
    end = time.monotonic() + LIMIT
    while time.monotonic() < end:
        told = condition()
        if told:
            return told
        time.sleep(0.002)
    raise AssertionError(f"it never came about that {what}")


def stop(process: int) -> None:
    """Stops a process, and waits until it stands still."""
    os.kill(process, signal.SIGSTOP)
    until(lambda: state(process) == "T", f"process {process} stands still")


def state(process: int) -> str:
    return read(f"/proc/{process}/stat").rpartition(")")[2].split()[0]


def read(path: str) -> str:
    """The text of a file, with its line ends as they are."""
    with open(path, encoding="utf-8", newline="") as file:
        return file.read()


def write(path: str, data: "str | bytes") -> None:
    with open(path, "wb") as file:
        file.write(data if isinstance(data, bytes) else data.encode())


def wants(*tools: str) -> None:
    """Skips the test if one of these commands is missing."""
    for tool in tools:
        if not shutil.which(tool):
            raise unittest.SkipTest(f"no command {tool} is on the PATH (tests/packages)")


def same(told: Any, wanted: Any, what: str = "") -> None:
    """Fails unless both are equal."""
    if told != wanted:
        raise AssertionError(f"{what or 'told'}: {told!r}, and {wanted!r} is wanted")


def each(rows: Iterable[Any]) -> Callable[[Any], Any]:
    """Makes of a function one test for each row. Its name ends with the row's number and with the row, or its first part if that is text."""

    def marks(function: Any) -> Any:
        function.rows = list(rows)
        return function

    return marks


def slow(function: Any) -> Any:
    """A test that takes minutes, which only --slow runs. It is not counted otherwise."""
    return function if IS_SLOW else None


def with_row(function: Any, row: Any) -> Any:
    values = row if isinstance(row, tuple) else (row,)

    def test(self: Any) -> None:
        function(self, *values)

    test.__doc__ = function.__doc__
    test.__unittest_expecting_failure__ = getattr(function, "__unittest_expecting_failure__", False)  # type: ignore[attr-defined]
    return test


class Case(unittest.TestCase):
    """A test, with a folder of its own."""

    maxDiff = 4000

    def __init_subclass__(cls, **more: Any) -> None:
        super().__init_subclass__(**more)
        for name, function in list(vars(cls).items()):
            rows = getattr(function, "rows", None)
            if rows is None:
                continue
            delattr(cls, name)
            for number, row in enumerate(rows, 1):
                first = row[0] if isinstance(row, tuple) else row
                title = re.sub(r"\W+", "_", str(first).replace(TOP + os.sep, ""))[:40].strip("_")
                setattr(cls, f"{name}_{number:02}_{title}".rstrip("_"), with_row(function, row))

    def setUp(self) -> None:
        self.folder = tempfile.mkdtemp(prefix="pashkure.")
        self.addCleanup(shutil.rmtree, self.folder, ignore_errors=True)
        self._files = 0

    def assertEqual(self, first: Any, second: Any, msg: Any = None) -> None:
        """As unittest's, which takes minutes to show how two long values differ: of these it says where they do."""
        texts = ("", "") if first == second else (repr(first), repr(second))
        if max(map(len, texts)) < 5000:
            super().assertEqual(first, second, msg)
            return
        place = len(os.path.commonprefix(texts))
        told, wanted = (text[max(0, place - 100) : place + 300] for text in texts)
        self.fail(f"{msg or 'they differ'}: at place {place} it is .. {told} .., and .. {wanted} .. is wanted")

    def path(self, name: str) -> str:
        """A path that was never given before."""
        self._files += 1
        return os.path.join(self.folder, f"{self._files}.{name}")

    def file(self, name: str, data: "str | bytes") -> str:
        """The path of a new file with this text."""
        path = self.path(name)
        write(path, data)
        return path

    def script(self, text: str) -> str:
        """A program of the shell."""
        path = self.file("program", "#!/bin/sh\n" + text + "\n")
        os.chmod(path, 0o755)
        return path

    def run_program(self, *words: str, given: "bytes | str" = b"", **how: Any) -> Run:
        """Runs the program with these words."""
        return run(PROGRAM, *words, given=given if isinstance(given, bytes) else given.encode(), **how)

    def built(self, crate: str) -> str:
        """The program of another crate, which the gate builds."""
        path = os.path.join(TOP, "crates", crate, "out", crate)
        if not os.access(path, os.X_OK):
            self.assertIn("TESTED_PROGRAM", os.environ, f"no program {path}, which the gate builds")
            self.skipTest(f"no program {path}; `rt run` in crates/{crate} builds it")
        return path

    def ends(self, told: Run, status: int = 0, out: "bytes | str" = b"", err: "bytes | str | None" = b"") -> Run:
        """Fails unless a run ended so. With None something, whatever it is, has to be on standard error."""
        wanted = [text if isinstance(text, bytes) or text is None else text.encode() for text in (out, err)]
        self.assertEqual(told.out, wanted[0], "standard output")
        if wanted[1] is None:
            self.assertNotEqual(told.err, b"", "nothing is on standard error")
        else:
            self.assertEqual(told.err, wanted[1], "standard error")
        self.assertEqual(told.status, status, "the status")
        return told

    def passes(self, told: Run) -> Run:
        """Fails unless a run ended with status 0, and wrote nothing to standard error."""
        self.assertEqual((told.status, told.err.decode(errors="replace")), (0, ""), told.out.decode(errors="replace"))
        return told

    def needs_server(self) -> list[str]:
        """The command that starts a server. Skips the test if none could be built."""
        if not SERVER:
            self.skipTest("no C compiler cc is on the PATH")
        return SERVER

    def server(self, *words: str, path: Optional[str] = None, program: Optional[str] = None, **how: Any) -> "Server":
        """A server that answers, or that has ended. It ends with the test."""
        self.needs_server()
        server = Server(self, program or PROGRAM, path or self.path("socket"), list(words), **how)
        self.addCleanup(server.kill)
        return server

    def wire(self, server: "Server | str") -> "Wire":
        """A connection, which is closed at the end of the test."""
        wire = Wire(server if isinstance(server, str) else server.path)
        self.addCleanup(wire.close)
        return wire


class Server:
    """A server in a process of its own, known by its command and its socket."""

    def __init__(
        self, case: Case, program: str, path: str, words: list[str], env: Optional[dict[str, str]] = None, before: Iterable[str] = (),
        is_quiet: bool = True, **how: Any,
    ) -> None:  # fmt: skip
        self.path = path
        self._pid_file = case.path("pid")
        self._err = case.path("stderr")
        wrapper = case.script(f'echo $$ > "{self._pid_file}"\nexec "{program}" "$@"')
        if "--each" not in words and "--transactions" in words:  # one connection may have all, unless a test says otherwise
            words += ["--each", words[words.index("--transactions") + 1]]
        command = [*before, *SERVER, "--socket", path, "--program", wrapper, *(["--quiet"] if is_quiet else []), *words]
        with open(self._err, "wb") as err:
            how = {"stdin": subprocess.DEVNULL, "stdout": subprocess.DEVNULL, "stderr": err, **how}
            self.process = subprocess.Popen(command, env=environment(**(env or {})), **how)
        until(lambda: self.process.poll() is not None or answers(path), "the server answers or ends")

    def program_pid(self) -> int:
        """The process of the program that it stands in front of."""
        return int(read(self._pid_file))

    def stderr(self) -> str:
        return read(self._err)

    def memory(self) -> int:
        """Resident memory, in bytes."""
        return int(read(f"/proc/{self.process.pid}/statm").split()[1]) * os.sysconf("SC_PAGE_SIZE")

    def descriptors(self) -> int:
        """How many files the server has open."""
        return len(os.listdir(f"/proc/{self.process.pid}/fd"))

    def close(self) -> int:
        """Ends the server as its user does, and returns its status."""
        self.process.terminate()
        return self.process.wait(LIMIT)

    def kill(self) -> None:
        """Ends the server and its program, whatever they do."""
        self.process.terminate()
        with contextlib.suppress(subprocess.TimeoutExpired):
            self.process.wait(min(30, LIMIT))
        self.process.kill()
        self.process.wait()


def typed(command: list[str], text: bytes, environment: Optional[dict[str, str]] = None) -> tuple[int, bytes]:
    """Runs the command at a terminal of its own, types the text there and then Ctrl-D. Returns its status, and what the terminal shows,
    with its line ends as newlines."""
    child, terminal = pty.fork()
    if child == 0:
        try:
            os.execvpe(command[0], command, environment or dict(os.environ))
        finally:
            os._exit(127)
    os.write(terminal, text + b"\x04")
    shown = b""
    with contextlib.suppress(OSError):  # the last program that had the terminal open has ended
        while True:
            if not select.select([terminal], [], [], LIMIT)[0]:
                os.kill(child, signal.SIGKILL)
            if not (piece := os.read(terminal, 4096)):
                break
            shown += piece
    os.close(terminal)
    return os.waitstatus_to_exitcode(os.waitpid(child, 0)[1]), shown.replace(b"\r\n", b"\n")


def answers(path: str) -> bool:
    """Whether somebody accepts connections there."""
    with socket.socket(socket.AF_UNIX) as trial:
        return trial.connect_ex(path) == 0


class Wire:
    """A connection that sends and reads bytes, without any client's library."""

    def __init__(self, path: str) -> None:
        self.socket = socket.socket(socket.AF_UNIX)
        self.rest = b""
        try:
            self.socket.connect(path)  # waits if many others connect
        except OSError:
            self.socket.close()
            raise
        self.socket.settimeout(LIMIT)

    def send(self, data: bytes) -> None:
        self.socket.sendall(data)

    def lines(self, count: int) -> list[bytes]:
        """This many lines. Fails if the connection ends before."""
        parts, have = [self.rest], self.rest.count(b"\n")
        while have < count:
            if not (data := self.socket.recv(65536)):
                raise AssertionError(f"the connection ended after {b''.join(parts)[-200:]!r}")
            parts.append(data)
            have += data.count(b"\n")
        *lines, self.rest = b"".join(parts).split(b"\n", count)
        return lines

    def ask(self, data: bytes) -> bytes:
        """The first line that comes after a request is sent."""
        self.send(data + b"\n")
        return self.lines(1)[0]

    def replies(self, count: int) -> list[bytes]:
        """All lines up to so many replies. (What begins with a star is no reply.)"""
        lines: list[bytes] = []
        while count > 0:
            lines += self.lines(1)
            count -= not lines[-1].startswith(b"* ")
        return lines

    def all(self) -> bytes:
        """All that comes until the other side closes the connection."""
        parts, self.rest = [self.rest], b""
        with contextlib.suppress(ConnectionResetError):
            while data := self.socket.recv(65536):
                parts.append(data)
        return b"".join(parts)

    def close(self) -> None:
        self.socket.close()
