"""What no clause says, read in the sources: that two calls take no lock, that five have no loop, and that C has one layout."""
import glob
import os
import re
import sys
from typing import Iterator

from lib.world import TOP, Case, each, read, run, wants

sys.path.insert(0, os.path.join(TOP, "docs"))
from sources import CLAUSE, FUNCTION, closing, owners, signature_end  # noqa: E402

CALLS = ["begin", "acquire", "give_up", "transmit", "detect"]
# What may be called of the standard library, and what is written as a call and is none. (An operator is a method of a trait, and stands in the list.)
STANDARD = set("""get get_mut len push_reserved as_mut as_ref is_none is_some ok_or replace take unwrap checked_add checked_sub cmp max min then_some
trailing_zeros is_some_and mem::replace u64::from matches! unreachable! Some Ok Err""".split())  # fmt: skip
WORDS = {"if", "match", "return", "in", "let", "else", "move"}
LOOPS = re.compile(r"\b(for|while|loop)\b(?!\s*<)")
NAME = re.compile(r"(?:\b(\w+)::)?\b([A-Za-z_]\w*)(?:(!)\s*[(\[{]|(?:::<[^()]*?>)?\()")


def code_of(path: str) -> str:
    return re.sub(r"//[^\n]*", "", read(os.path.join(TOP, "crates", path)))


def bodies(path: str) -> Iterator[tuple[str, str]]:
    """Each function of a source with its type, and its body without what is a proof."""
    text = code_of(path)
    places = list(owners(text))
    for match in FUNCTION.finditer(text):
        of = next((name for begin, end, name, _ in places if begin < match.start() < end), "")
        at = signature_end(text, match.end())
        while found := CLAUSE.match(text, at):
            at = closing(text, found.end() - 1)
        place = text.find("{", at)
        if place >= 0 and not text[at:place].strip():
            yield (f"{of}::" if of else "") + match[2], text[place : closing(text, place)]


def without_proofs(body: str) -> str:
    """A body without its ghost blocks and its claims on loops."""
    while match := re.search(r"\bghost\b[^;{]*\{", body):
        body = body[: match.start()] + body[closing(body, match.end() - 1) :]
    return body


class ConstantTime(Case):
    """The five calls, and all that they call, stand in a list, each before what it calls. None has a loop, and none calls anything else: what
    it calls by name is a function further down, or one of the standard library that has no loop. So there is no recursion either."""

    def functions(self) -> list[tuple[str, str]]:
        lines = [line.split() for line in read(f"{TOP}/tests/pages/constant_time.txt").splitlines() if not line.startswith("#")]
        return [(path, name) for path, *names in lines for name in names]

    def test_calls_are_listed(self) -> None:
        names = {name for _, name in self.functions()}
        self.assertEqual([], [f"{of}::{call}" for of in ("Table", "Records") for call in CALLS if f"{of}::{call}" not in names])

    def test_bodies(self) -> None:
        functions = self.functions()
        sources = {path: list(bodies(path)) for path in {path for path, _ in functions}}
        for place, (path, name) in enumerate(functions):
            found = [body for of, body in sources[path] if of == name]
            self.assertEqual(len(found) >= 1, True, f"{path} has no function {name}")
            below = {other.rpartition("::")[2] for _, other in functions[place + 1 :]} | {other for _, other in functions[place + 1 :]}
            for body in found:
                body = without_proofs(body)
                self.assertIsNone(LOOPS.search(body), f"{path}: {name} has a loop")
                for of, called, sign in NAME.findall(body):
                    if called in WORDS or (called[0].isupper() and not sign):  # a variant or a struct is no call
                        continue
                    known = {called + sign, f"{of}::{called}"} & (STANDARD | below)
                    self.assertTrue(known, f"{path}: {name} calls {of + '::' if of else ''}{called}{sign}, which is not in the list below it")

    @each(["for x in 0..3 { go(x) }", "while true { go(1) }", "loop { go(1) }", "names.iter().map(go)", "Table::begin(self)", "self.begin(1)",
           "vec.sort_by(go)", "unknown(3)", "panic!(3)", "assert!{3}"])  # fmt: skip
    def test_what_is_refused(self, body: str) -> None:
        """Each of these bodies would be found."""
        below = {"go"}
        calls = [called + sign for of, called, sign in NAME.findall(without_proofs(body)) if called not in WORDS]
        self.assertTrue(LOOPS.search(body) or any(called not in STANDARD | below for called in calls), calls)


def functions_of(code: str) -> list[tuple[str, str]]:
    """Each function of a file: its name, and its text from there to the next one."""
    pieces = re.split(r"\bfn (\w+)", code)
    return list(zip(pieces[1::2], pieces[2::2]))


class NoLock(Case):
    """Peek and scan of a shared table take no lock, not even a free one. They stand in a file of their own, in which the lock cannot be named:
    its field is private to the file that has it. And no other function of that file is a way round."""

    def test_shared(self) -> None:
        """Each function there that names the lock opens the table, ends it, or is given a handle that may wait."""
        shared = code_of("mm_shared/src/shared.rt")
        for name, text in functions_of(shared):
            if re.search(r"\b(lock|YieldingMutex|Guard|Mutex)\b", text):
                self.assertTrue(name in ("new", "into_inside") or "R: Wait>" in text, name)
        fields = re.search(r"struct SharedTable<[^{]*{(.*?)\n}", shared, re.S)
        assert fields
        self.assertRegex(fields[1], r"(?m)^ *lock:")

    def test_lock(self) -> None:
        """What is within a lock is private to mm_mutex, and whoever takes one there is given such a handle."""
        lock = code_of("mm_mutex/src/lib.rt")
        for name in "YieldingMutex", "Guard":
            fields = re.search(rf"struct {name}<[^{{]*{{(.*?)\n}}", lock, re.S)
            assert fields
            self.assertNotIn("pub", fields[1])
        for name, text in functions_of(lock):
            if re.search(r"\.(try_lock|lock|get_mut)\(|-> [^{]*\bGuard\b[^{]*{", text):
                self.assertRegex(text.partition("{")[0], r"R: Wait( \+ Clock)?>", name)

    def test_look(self) -> None:
        """What the file of peek and scan names is neither a lock nor a handle, nor a name that it has from elsewhere."""
        shared, look = code_of("mm_shared/src/shared.rt"), code_of("mm_shared/src/look.rt")
        for name in "peek", "scan":
            self.assertIn(f"pub fn {name}(", look)
            self.assertNotIn(f"fn {name}", shared)
        self.assertNotRegex(look, "[Ll]ock|Guard|Mutex|Wait")
        self.assertNotRegex(look, r"\buse [^;]* as ", "an alias")


class Layout(Case):
    def test_c(self) -> None:
        """Each file in C and C++ has the layout of .clang-format, by the version that made it: others lay some lines out otherwise."""
        wants("clang-format")
        if b" version 14." not in run("clang-format", "--version").out:
            self.skipTest("the layout is that of clang-format 14")
        files = [path for kind in ("c", "h", "cc") for path in glob.glob(f"{TOP}/**/*.{kind}", recursive=True) if "/out/" not in path and "/mutants/" not in path]
        self.assertGreater(len(files), 50)
        self.passes(run("clang-format", "--dry-run", "--Werror", *files, cwd=TOP))
