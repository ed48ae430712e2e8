"""A lock service for tests: `with service() as served: locks = Locks.connect(served.path)`."""
import os
import shlex
import shutil
import signal
import socket
import subprocess
import tempfile
import time
from typing import Optional, Sequence


class Served:
    """A service that runs. `path` is its socket, and `admin` the operator's."""

    def __init__(self, command: Sequence[str], options: Sequence[str]) -> None:
        self._folder = tempfile.mkdtemp(prefix="pashkure.")
        self.path, self.admin = os.path.join(self._folder, "socket"), os.path.join(self._folder, "admin")
        self._command = [*command, "--quiet", "--socket", self.path, "--admin", self.admin, *options]
        self.start()

    def start(self) -> None:
        """Starts it, and returns when it answers. All locks of before are gone."""
        self.process = subprocess.Popen(self._command, stdin=subprocess.DEVNULL, start_new_session=True)
        with socket.socket(socket.AF_UNIX) as trial:
            while trial.connect_ex(self.path):
                if self.process.poll() is not None:
                    raise RuntimeError(f"{shlex.join(self._command)} ended with status {self.process.returncode}")
                time.sleep(0.005)

    def stop(self, number: int = signal.SIGTERM) -> None:
        """Ends it by this signal. Each client is told."""
        self.process.send_signal(number)
        self.process.wait()

    def __enter__(self) -> "Served":
        return self

    def __exit__(self, *error: object) -> None:
        self.stop()
        shutil.rmtree(self._folder, ignore_errors=True)


def service(*options: str, command: Optional[Sequence[str]] = None) -> Served:
    """Starts a front and a program at a socket in a new folder, as `mmdetect serve` with these options, and returns when it answers.

    `command` starts it: "mmdetect serve", or the variable PASHKURE_SERVE of the environment, if that is set.
    """
    return Served(command if command is not None else shlex.split(os.environ.get("PASHKURE_SERVE") or "mmdetect serve"), options)
