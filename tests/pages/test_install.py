"""What pip makes of the Python package, as its users call it and without a network."""
import base64
import hashlib
import importlib.util
import os
import pathlib
import subprocess
import sys
import tempfile
import zipfile

from lib.world import PACKAGE, PROGRAM, SERVER, Case, run

CLIENT = pathlib.Path(PACKAGE)
PIP = {"PASHKURE_LIB_DIR": "", "PKG_CONFIG_LIBDIR": os.devnull, "PIP_NO_INDEX": "1", "PIP_DISABLE_PIP_VERSION_CHECK": "1", "PIP_CONFIG_FILE": os.devnull, "PYTHONDONTWRITEBYTECODE": "1"}
USE = f"""if True:
    import importlib.metadata, pashkure, pashkure.aio, pashkure.testing
    with pashkure.testing.service("--program", {PROGRAM!r}, command={SERVER!r}) as served, pashkure.Locks.connect(served.path) as locks:
        with locks.transaction("a") as tx:
            print(tx.holds(), importlib.metadata.version("pashkure"), pashkure.__file__)
"""


def sources() -> dict[str, bytes]:
    """The files of the package, by their paths."""
    paths = [path for path in (CLIENT / "pashkure").rglob("*") if path.is_file() and "__pycache__" not in path.parts]
    return {str(path.relative_to(CLIENT)): path.read_bytes() for path in paths}


class Install(Case):
    """An environment of its own, in which nothing is installed but pip."""

    @classmethod
    def setUpClass(cls) -> None:
        if None in map(importlib.util.find_spec, ("venv", "ensurepip")):
            return
        cls.scratch = tempfile.TemporaryDirectory(prefix="pashkure.")
        cls.addClassCleanup(cls.scratch.cleanup)
        cls.room = pathlib.Path(os.path.realpath(cls.scratch.name))
        cls.bin = cls.room / "venv" / "bin"
        cls.environment = {**{name: value for name, value in os.environ.items() if name != "PYTHONPATH"}, **PIP}
        subprocess.run([sys.executable, "-m", "venv", cls.room / "venv"], check=True, env=cls.environment)

    def setUp(self) -> None:
        super().setUp()
        self.needs_server()
        if not hasattr(type(self), "room"):
            self.skipTest("this Python has no venv or no ensurepip (Debian's package python3-venv)")

    def runs(self, *command: object) -> str:
        """What the command prints."""
        done = subprocess.run([*map(str, command)], cwd=self.room, env=self.environment, check=False, stdin=subprocess.DEVNULL, stdout=subprocess.PIPE,
                              stderr=subprocess.STDOUT, text=True)  # fmt: skip
        self.assertEqual(done.returncode, 0, f"{command} printed {done.stdout}")
        return done.stdout

    def pip(self, *words: object) -> str:
        return self.runs(self.bin / "python", "-m", "pip", *words)

    def is_used(self, path: object) -> None:
        """The package that is installed locks a name, and lies at this path; its script runs."""
        self.assertEqual(self.runs(self.bin / "python", "-c", USE), f"['a'] 0.2.0 {path}\n")
        told = run(str(self.bin / "pashkure"), env=self.environment)
        self.assertEqual((told.status, told.out, b"mmdetect serve" in told.err), (2, b"", True))
        self.addCleanup(self.pip, "uninstall", "-y", "pashkure")

    def library(self) -> pathlib.Path:
        """The folder of what is installed."""
        return next((self.room / "venv" / "lib").glob("python*/site-packages"))

    def test_folder(self) -> None:
        """`pip install --no-index` of the folder installs all files of the package, and its script."""
        self.pip("install", "--no-index", CLIENT)
        self.is_used(self.library() / "pashkure" / "__init__.py")
        self.assertEqual({path: (self.library() / path).read_bytes() for path in sources()}, sources())

    def test_editable(self) -> None:
        """`pip install --no-index -e` lets the sources be used where they are."""
        self.pip("install", "--no-index", "-e", CLIENT)
        self.is_used(CLIENT / "pashkure" / "__init__.py")

    def test_wheel(self) -> None:
        """`pip wheel` gives the files of the package with their digests, and the same bytes again."""
        wheels = []
        for name in "one", "two":
            self.pip("wheel", "--no-index", "-w", self.room / name, CLIENT)
            wheels.append(self.room / name / "pashkure-0.2.0-py3-none-any.whl")
        self.assertEqual(*(wheel.read_bytes() for wheel in wheels))
        with zipfile.ZipFile(wheels[0]) as wheel:
            files = {name: wheel.read(name) for name in wheel.namelist()}
        self.assertIn(b"without its C extension", files["_pashkure.py"])
        self.assertEqual({name: data for name, data in files.items() if ".dist-info/" not in name and name != "_pashkure.py"}, sources())
        digests = {name: base64.urlsafe_b64encode(hashlib.sha256(data).digest()).decode().rstrip("=") for name, data in files.items()}
        record = "pashkure-0.2.0.dist-info/RECORD"
        lines = [f"{name},sha256={digests[name]},{len(data)}" for name, data in files.items() if name != record]
        self.assertEqual(sorted(files[record].decode().splitlines()), sorted([*lines, f"{record},,"]))

    def test_archive(self) -> None:
        """An archive of the sources can be installed too."""
        code = f"import sys; sys.path.insert(0, {str(CLIENT)!r}); import build_backend; print(build_backend.build_sdist('.'))"
        name = self.runs(sys.executable, "-c", code).strip()
        self.assertEqual(name, "pashkure-0.2.0.tar.gz")
        self.pip("install", "--no-index", self.room / name)
        self.is_used(self.library() / "pashkure" / "__init__.py")
