"""The tests of the server again, with one that is built with sanitizers; and with calls that fail or are short below that."""
import os
import subprocess
import sys
import tempfile

from lib.faults import FaultCase, variables
from lib.world import SEED, TOP, built_server, each, environment, run
from service.test_server import ServerCase

MODULES = ["service.test_front", "service.test_bounds", "service.test_ends", "service.test_server", "service.test_between"]
FAULTS = "read:short%30 write:short%30 recv:short%30 send:short%30 recv:EINTR%10 send:EINTR%10 write:EINTR%10 read:EINTR%10 epoll_wait:EINTR%10 accept:EINTR%20"
FLAGS = ["-g", "-O1", "-fsanitize=address,undefined", "-fno-sanitize-recover=all", "-fno-omit-frame-pointer", "-static-libasan"]
OPTIONS = {"ASAN_OPTIONS": "quarantine_size_mb=1:detect_stack_use_after_return=0", "UBSAN_OPTIONS": "print_stacktrace=1"}


class Sanitized(FaultCase, ServerCase):
    @classmethod
    def setUpClass(cls) -> None:
        super().setUpClass()
        folder = tempfile.TemporaryDirectory(prefix="pashkure.")
        cls.addClassCleanup(folder.cleanup)
        cls.front = os.path.join(folder.name, "pashkure-serve")
        try:
            built_server(cls.front, *FLAGS)
        except subprocess.CalledProcessError:
            cls.front = ""

    def tries(self, module: str, **env: str) -> None:
        self.needs_server()
        if not self.front or run(self.front, "--help").status != 0:
            self.skipTest("this C compiler has no sanitizers that run here (Debian's package libasan)")
        words = [sys.executable, os.path.join(TOP, "tests/run"), "--seed", str(SEED), module]
        told = run(*words, env=environment(**OPTIONS, TESTED_SERVER=self.front, TESTED_SANITIZED="yes", **env))
        self.passes(told)

    @each(MODULES)
    def test_module(self, module: str) -> None:
        self.tries(module)

    def test_with_faults(self) -> None:
        self.tries("service.test_between", **variables(FAULTS, SEED, only="pashkure-serve"))
