"""Wrong bodies of the clients and the server, in tests/mutants: each is put into a copy of clients/ or server/, and there the test that it names
fails."""
import concurrent.futures
import glob
import itertools
import os
import shlex
import shutil
import subprocess
import sys
import tempfile
from typing import NamedTuple

from lib.world import FLAGS, TOP, Case, each, read, write

LIMIT = "30"
"""Seconds after which a test takes something to have no end. A wrong body may hang; that is how its test fails."""
MUTANTS = os.path.join(TOP, "tests/mutants")
EDITS = sorted(glob.glob(f"{MUTANTS}/**/*.edit", recursive=True), key=os.path.basename)


class Edit(NamedTuple):
    file: str
    test: str
    old: str
    new: str


def edit_of(path: str) -> Edit:
    """An edit of the file that its folder is named for: lines `test:`, `old:` and `new:`, of which the last two may come again."""
    parts: dict[str, list[str]] = {"file": [os.path.relpath(os.path.dirname(path), MUTANTS)], "test": [], "old": [], "new": []}
    for line in read(path).splitlines():
        word, _, text = line.partition(": ")
        parts[word].append(text)
    return Edit(*("\n".join(parts[word]) for word in Edit._fields))


def tried(path: str, objects: str) -> tuple[int, str]:
    """The status and the words of the test that the edit names, in a copy of clients/ or server/ with the edit."""
    edit = edit_of(path)
    part = edit.file.split("/")[0]
    with tempfile.TemporaryDirectory(prefix="pashkure.") as folder:
        shutil.copytree(os.path.join(TOP, part), os.path.join(folder, part), ignore=shutil.ignore_patterns("__pycache__", "out"))
        file_changed = os.path.join(folder, edit.file)
        text = read(file_changed)
        if text.count(edit.old) != 1:
            return -1, f"what is to be changed stands {text.count(edit.old)} times in {edit.file}"
        write(file_changed, text.replace(edit.old, edit.new))
        command = [sys.executable, os.path.join(TOP, "tests/run"), "-k", edit.test, "--seed", os.environ["TESTED_SEED"], edit.test.rsplit(".", 2)[0]]
        changed = {"TESTED_SERVER": server_with(file_changed, objects)} if part == "server" else {"TESTED_CLIENTS": os.path.join(folder, part)}
        environment = {**os.environ, **changed, "TESTED_LIMIT": LIMIT}
        told = subprocess.run(command, env=environment, stdout=subprocess.PIPE, stderr=subprocess.STDOUT, text=True, check=False)
        return told.returncode, told.stdout


def compiled(source: str, folder: str) -> str:
    """The object of a file of the server, which is written into the folder."""
    to = os.path.join(folder, os.path.basename(source)[:-1] + "o")
    subprocess.run(["cc", *FLAGS, "-c", "-o", to, source], check=True)
    return to


def server_with(source: str, objects: str) -> str:
    """The command that starts the server with this file in place of its own, and all else of the objects in the other folder; nothing without cc."""
    if not shutil.which("cc"):
        return ""
    folder = os.path.dirname(source)
    changed, to = compiled(source, folder), os.path.join(folder, "pashkure-serve")
    others = [path for path in glob.glob(os.path.join(objects, "*.o")) if os.path.basename(path) != os.path.basename(changed)]
    subprocess.run(["cc", "-o", to, changed, *others], check=True)
    return shlex.quote(to)


class Mutants(Case):
    @classmethod
    def setUpClass(cls) -> None:
        objects = tempfile.TemporaryDirectory(prefix="pashkure.")
        cls.addClassCleanup(objects.cleanup)
        pool = concurrent.futures.ThreadPoolExecutor(4 * len(os.sched_getaffinity(0)))  # (most of the time they wait)
        cls.addClassCleanup(pool.shutdown)
        if shutil.which("cc"):
            list(pool.map(compiled, glob.glob(os.path.join(TOP, "server/*.c")), itertools.repeat(objects.name)))
        cls.results = {path: pool.submit(tried, path, objects.name) for path in EDITS}

    @each([(os.path.basename(path)[: -len(".edit")], path) for path in EDITS])
    def test_is_seen(self, name: str, path: str) -> None:
        status, told = self.results[path].result()
        if f"skipped: {edit_of(path).test}" in told:
            self.skipTest(f"its test is skipped: {edit_of(path).test}")
        self.assertEqual(status, 1, f"the wrong body is not seen: {told}")
        module = edit_of(path).test.rsplit(".", 2)[0]
        self.assertRegex(told, f"tests/run: FAILED: ({edit_of(path).test}|{module}: it ended early)")
