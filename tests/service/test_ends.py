"""How a server starts and ends, and what its clients are told. The server is known by its command and its socket alone."""
import os
import signal
import socket
import stat
import subprocess
from typing import Optional

from lib.world import LIMIT, PROGRAM, Server, Wire, answers, each, environment, read, run, stop, until, wants, write
from service.test_server import ServerCase, begun


class Clients:
    """Some clients, of which one holds a name for which the others wait, and one has asked for nothing."""

    def __init__(self, case: ServerCase, server: Server) -> None:
        self.wires = [case.wire(server) for _ in range(6)]
        key = begun(self.wires[0], b"0")
        for number, wire in enumerate(self.wires[1:5], 1):
            own = begun(wire, b"%d" % number)
            case.asks(wire, (b"lock %b 0" % own, b"waits " + key))

    def are_closed(self, case: ServerCase) -> None:
        """Fails unless each of them is told that its connection is closed."""
        case.assertEqual([wire.all() for wire in self.wires], [b""] * 6)


class Ends(ServerCase):
    def program_is_over(self, pid: int) -> None:
        until(lambda: not os.path.exists(f"/proc/{pid}"), "the program ends")

    def test_program_killed(self) -> None:
        """Each client is told, and the server ends with a line that says why, and with status 1."""
        server = self.server()
        clients = Clients(self, server)
        os.kill(server.program_pid(), signal.SIGKILL)
        clients.are_closed(self)
        self.assertEqual((server.process.wait(LIMIT), os.path.exists(server.path)), (1, False))
        self.assertRegex(server.stderr(), r"\A[^\n]*ended with status -9\n\Z")

    def test_killed(self) -> None:
        """Each client is told, the program ends, and a new server takes the socket over."""
        server = self.server()
        clients, pid = Clients(self, server), server.program_pid()
        server.process.kill()
        clients.are_closed(self)
        self.program_is_over(pid)
        self.assertTrue(os.path.exists(server.path))
        self.asks(self.wire(self.server(path=server.path)), (b"totals", b"totals 0 0 0 0"))

    def test_signals(self) -> None:
        """SIGTERM and SIGINT end a server with status 0: each client is told, and the socket is removed."""
        for number in signal.SIGTERM, signal.SIGINT:
            server = self.server()
            clients, pid = Clients(self, server), server.program_pid()
            server.process.send_signal(number)
            clients.are_closed(self)
            self.assertEqual((server.process.wait(LIMIT), server.stderr(), os.path.exists(server.path)), (0, "", False))
            self.assertFalse(os.path.exists(f"/proc/{pid}"))

    def test_hang_up_of_the_terminal(self) -> None:
        """SIGHUP does nothing."""
        server = self.server()
        wire = self.wire(server)
        for _ in range(3):
            server.process.send_signal(signal.SIGHUP)
            self.asks(wire, (b"totals", b"totals 0 0 0 0"))
        self.assertEqual((server.close(), server.stderr()), (0, ""))

    @each([signal.SIGTERM, signal.SIGINT])
    def test_signal_at_the_start(self, number: signal.Signals) -> None:
        """A server ends while its program starts, and never answers."""
        path, started = self.path("socket"), self.path("started")
        program = self.script(f'trap "" TERM INT; echo $$ > "{started}"; exec sleep 1000')
        words = [*self.needs_server(), "--quiet", "--socket", path, "--program", program]
        with subprocess.Popen(words, env=environment(), stderr=subprocess.PIPE) as server:
            pid = int(until(lambda: os.path.exists(started) and read(started), "the program starts"))
            server.send_signal(number)
            self.assertEqual((server.communicate()[1], server.returncode, os.path.exists(path)), (b"", 0, False))
        self.program_is_over(pid)

    def test_quiet(self) -> None:
        """A program that is ended while replies of it are due has no write fault."""
        statuses = self.path("statuses")
        program = self.script(f'"{PROGRAM}" "$@" 2>> "{statuses}"\necho $? >> "{statuses}"')
        for _ in range(5):
            server = self.server(program=program)
            wires = [self.wire(server) for _ in range(4)]
            for wire in wires:
                wire.send(b"totals\n" * 1000)
            self.assertEqual(wires[0].lines(1), [b"totals 0 0 0 0"])
            self.assertEqual((server.close(), server.stderr()), (0, ""))
        self.assertEqual(read(statuses), "0\n" * 5)

    def test_program_that_hangs(self) -> None:
        """A server whose program does not end at the end of its input ends it, with status 0."""
        server = self.server(program=self.script(f"trap '' TERM; \"{PROGRAM}\" \"$@\"; exec sleep 1000"))
        self.asks(self.wire(server), (b"totals", b"totals 0 0 0 0"))
        pid = server.program_pid()
        self.assertEqual(server.close(), 0)
        self.program_is_over(pid)


class StartCase(ServerCase):
    def does_not_start(self, why: str, *words: str, path: Optional[str] = None) -> None:
        """Fails unless a server ends with status 1 and a line that says why."""
        server = self.server(*words, path=path)
        self.assertEqual(server.process.wait(LIMIT), 1)
        self.assertRegex(server.stderr(), rf"\A[^\n]*{why}[^\n]*\n\Z")


class Starts(StartCase):
    def mode(self, path: str) -> int:
        return stat.S_IMODE(os.stat(path).st_mode)

    def test_rights(self) -> None:
        """The socket has the rights that were asked for, 0600 if none were."""
        self.assertEqual(self.mode(self.server().path), 0o600)
        for mode in 0o660, 0o666, 0o640:
            self.assertEqual(self.mode(self.server("--mode", f"{mode:04o}").path), mode)

    def test_rights_at_first(self) -> None:
        """The file never has more rights than were asked for, not even when it is made."""
        wants("strace")
        path, log = self.path("socket"), self.path("log")
        command = ["strace", "-f", "-o", log, "-e", "trace=umask,bind,chmod,fchmod,fchmodat", *self.needs_server(), "--socket", path, "--program", PROGRAM]
        with subprocess.Popen(command, env=environment(), stderr=subprocess.DEVNULL) as child:
            until(lambda: child.poll() is not None or answers(path), "the server answers or ends")
            calls = read(log)
            if "umask(" not in calls:
                child.kill()
                self.skipTest("strace cannot trace here")
            os.kill(int(calls.split()[0]), signal.SIGTERM)
        before = calls[: calls.index("bind(")]
        masks = [line for line in before.splitlines() if " umask(" in line]
        self.assertRegex(masks[-1], r" umask\(0?177\)", "the mask with which the file is made")

    def test_path_in_use(self) -> None:
        """A server replaces neither one that answers nor what is no socket."""
        server = self.server()
        self.does_not_start(rf"{server.path}[^\n]*another server", path=server.path)
        self.assertTrue(answers(server.path))
        path = self.file("text", "text")
        self.does_not_start(path, path=path)
        self.assertEqual(read(path), "text")
        self.does_not_start("", path=self.path("none") + "/socket")

    def test_stale_file(self) -> None:
        """A socket file that nobody answers at is replaced."""
        path = self.path("stale")
        with socket.socket(socket.AF_UNIX) as gone:
            gone.bind(path)
        server = self.server(path=path)
        self.asks(self.wire(path), (b"totals", b"totals 0 0 0 0"))
        self.assertEqual((server.close(), os.path.exists(path)), (0, False))

    def test_file_of_another(self) -> None:
        """At its end a server leaves a file that is another one by now."""
        server = self.server()
        os.unlink(server.path)
        write(server.path, "mine")
        self.assertEqual((server.close(), os.path.exists(server.path)), (0, True))

    def test_pairs(self) -> None:
        """Of two servers that start together at one path exactly one serves. The other starts no program, and names the path."""
        path, starts, count = self.path("socket"), self.path("starts"), 15
        program = self.script(f'echo started >> "{starts}"\nexec "{PROGRAM}" "$@"')
        command = [*self.needs_server(), "--quiet", "--socket", path, "--program", program]
        locked = []
        for _ in range(count):
            both = [subprocess.Popen(command, env=environment(), stderr=subprocess.PIPE, text=True) for _ in range(2)]
            until(lambda both=both: any(each.poll() is not None for each in both), "one of both ends")
            both.sort(key=lambda each: each.poll() is None)
            self.assertRegex(both[0].communicate()[1], rf"\A[^\n]*{path}[^\n]*another server[^\n]*\n\Z")
            self.assertEqual(both[0].returncode, 1)
            until(lambda both=both: both[1].poll() is not None or answers(path), "the other one answers")
            with_wire = Wire(path)
            self.asks(with_wire, (b"totals", b"totals 0 0 0 0"))
            with_wire.close()
            both[1].send_signal(signal.SIGTERM)
            self.assertEqual((both[1].communicate()[1], both[1].returncode, os.path.exists(path)), ("", 0, False))
            locked.append(os.stat(path + ".lock"))
        self.assertEqual({(status.st_ino, stat.S_IMODE(status.st_mode)) for status in locked}, {(locked[0].st_ino, 0o600)})
        self.assertEqual(read(starts), "started\n" * count)

    def test_lock_file(self) -> None:
        """PATH.lock is held by the server alone: not by its program, which may outlive it; a link at its place is not followed."""
        server = self.server()
        pid = server.program_pid()
        stop(pid)  # so that it does not end with the server
        try:
            server.process.kill()
            server.process.wait()
            self.asks(self.wire(self.server(path=server.path)), (b"totals", b"totals 0 0 0 0"))
        finally:
            os.kill(pid, signal.SIGKILL)
        path, target = self.path("socket"), self.path("target")
        os.symlink(target, path + ".lock")
        self.does_not_start(path, path=path)
        self.assertEqual((os.path.exists(target), os.path.exists(path)), (False, False))

    def test_wrong_words(self) -> None:
        path = self.path("socket")
        for words in [], ["--socket", "x", "--mode", "9"], ["--socket", "x", "--names", "many"], ["--socket", path, "--fly"]:
            told = run(*self.needs_server(), *words, env=environment())
            self.assertEqual((told.status, told.out, bool(told.err)), (2, b"", True), words)
        for program in self.path("no.program"), "/bin/false":
            told = run(*self.needs_server(), "--socket", path, "--program", program, env=environment())
            self.assertEqual((told.status, told.err.count(b"\n")), (1, 1), told.err)
        for words in (["--transactions", "0"], ["--names", "16777217"], ["--each", "0"], ["--connections", "65536"], ["--epoch", "0"], ["--epoch", "9223372036854775808"],
                      ["--heartbeat-fd", "0"], ["--heartbeat-ms", "1"], ["--group", "no such group"], ["--admin", path], ["--mode", "1000"], ["--names"], ["x"]):
            told = run(*self.needs_server(), "--socket", path, "--program", "/bin/false", *words, env=environment())
            self.assertEqual((told.status, told.out, told.err.count(b"\n")), (2, b"", 1), words)

    def test_help(self) -> None:
        told = run(*self.needs_server(), "--help", env=environment())
        self.assertEqual((told.status, told.err, told.out.startswith(b"usage: pashkure-serve --socket PATH ")), (0, b"", True))
        self.ends(run(*self.needs_server(), "--version", env=environment()), 0, "pashkure-serve 0.2.0\n")

    def test_group(self) -> None:
        """The socket belongs to the group that was asked for."""
        if os.geteuid() != 0:
            self.skipTest("only root may give a file to any group")
        path = self.server("--group", "65534", "--mode", "660").path
        status = os.stat(path)
        self.assertEqual((status.st_gid, stat.S_IMODE(status.st_mode)), (65534, 0o660))


class Epochs(StartCase):
    def epoch(self, *words: str, path: str) -> int:
        """The epoch that a server gives its program."""
        told = self.path("words")
        server = self.server(*words, path=path, program=self.script(f'echo "$*" > "{told}"\nexec "{PROGRAM}" "$@"'))
        self.assertEqual((server.close(), server.stderr()), (0, ""))
        return int(read(told).partition("--epoch ")[2].split()[0])

    def test_rises(self) -> None:
        """Each start has a greater one, also if the file is gone, and if it is ahead of the clock."""
        path, last = self.path("socket"), 1_000_000_000_000
        for number in range(6):
            if number == 3:
                os.unlink(path + ".epoch")
            if number == 4:
                write(path + ".epoch", "9000000000000000000\n")
                last = 9 * 10**18
            now = self.epoch(path=path)
            self.assertGreater(now, last)
            self.assertEqual((read(path + ".epoch"), os.path.exists(path + ".epoch.new")), (f"{now}\n", False))
            self.assertEqual(stat.S_IMODE(os.stat(path + ".epoch").st_mode), 0o600)
            last = now
        self.assertEqual(last, 9 * 10**18 + 2)

    def test_file_of_its_own(self) -> None:
        path, file = self.path("socket"), self.path("epoch")
        first = self.epoch("--epoch-file", file, path=path)
        self.assertEqual((read(file), os.path.exists(path + ".epoch")), (f"{first}\n", False))
        self.assertGreater(self.epoch("--epoch-file", file, path=self.path("another")), first)

    def test_given(self) -> None:
        """One that is given has to be above that of the file, if there is one."""
        path, file = self.path("socket"), self.path("epoch")
        self.assertEqual(self.epoch("--epoch", "7", path=path), 7)
        self.assertFalse(os.path.exists(path + ".epoch"))
        self.assertEqual(self.epoch("--epoch", "7", "--epoch-file", file, path=path), 7)
        self.assertEqual(read(file), "7\n")
        self.does_not_start(file, "--epoch", "7", "--epoch-file", file)
        self.assertEqual(self.epoch("--epoch", "9223372036854775807", "--epoch-file", file, path=path), 2**63 - 1)
        self.does_not_start(file, "--epoch-file", file)

    @each(["", "\n", "x", "12 13", "-1", "+1", " 1", "1\n\n", "1\r\n", "9223372036854775807", "18446744073709551617", "1\0", "0x1", "1" * 4096])
    def test_file_that_is_none(self, text: str) -> None:
        """What is no number is left as it is, and the server does not start."""
        file, path = self.file("epoch", text), self.path("socket")
        self.does_not_start(file, "--epoch-file", file, path=path)
        self.assertEqual((read(file), os.path.exists(path)), (text, False))

    def test_files_of_others(self) -> None:
        """A link is not followed, and a file of another user is not taken."""
        target, link = self.file("target", "1"), self.path("epoch")
        os.symlink(target, link)
        places = [link, self.folder]
        if os.geteuid() == 0:
            other, folder = self.file("other", "1"), self.path("folder")
            os.chown(other, 65534, 65534)
            os.makedirs(folder)
            places += [other]
            write(os.path.join(folder, "socket.lock"), "")
            os.chown(os.path.join(folder, "socket.lock"), 65534, 65534)
            self.does_not_start("no file of this user", path=os.path.join(folder, "socket"))
        for place in places:
            self.does_not_start(place, "--epoch-file", place)
        self.assertEqual(read(target), "1")
