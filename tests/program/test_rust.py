"""The crate for Rust over the C library: its tests by cargo, its example, how its build finds the library, and its declarations against the headers."""
import os
import re
import shutil

from lib.world import CLIENTS, Case, Run, run, wants
from program.test_library import HEADER, INCLUDE, LibraryCase, text_of

CRATE = os.path.join(CLIENTS, "rust")
HEADERS = HEADER + re.sub(r"/\*.*?\*/", "", text_of(INCLUDE, "pashkure_threads.h"), flags=re.S)
SYS, ERROR = text_of(CRATE, "src", "sys.rs"), text_of(CRATE, "src", "error.rs")
KINDS = {"uint32_t": "u32", "uint64_t": "u64", "int64_t": "i64", "size_t": "usize", "pashkure_result": "u32", "char": "c_char", "void": "c_void",
         "bool": "bool", "pashkure": "Manager"}  # fmt: skip


def in_rust(declared: str) -> str:
    """A parameter or a result of C, as Rust declares it."""
    found = re.fullmatch(r"(const )?(\w+) *(\**)(\w*)", declared.strip())
    assert found, declared
    if found[2] == "pashkure_wake_call":
        return f"{found[4]}: WakeCall"
    kind = KINDS.get(found[2]) or found[2].removeprefix("pashkure_").capitalize()
    for star in range(len(found[3])):
        kind = ("*const " if found[1] and not star else "*mut ") + kind
    return f"{found[4]}: {kind}" if found[4] else kind


class Declarations(Case):
    """What the crate declares is what the headers say."""

    def test_functions(self) -> None:
        header = {}
        for result, name, given in re.findall(r"^((?:const )?\w+ \**)(pashkure_\w+)\(([^)]*)\)", HEADERS, re.M):
            header[name] = [in_rust(part) for part in given.split(",")], in_rust(result)
        crate = re.findall(r"pub fn (\w+)\(([^)]*)\)(?: -> ([^;]+))?;", SYS)
        self.assertGreater(len(crate), 20)
        for name, given, result in crate:
            self.assertEqual((given.split(", "), result or "c_void"), header[name], name)

    def test_records(self) -> None:
        header = {}
        for body, name in re.findall(r"typedef struct pashkure\w* {(.*?)} (\w+);", HEADERS, re.S):
            parts = re.findall(r"((?:const )?\w+ \**)(\w[\w, ]*);", body)
            header[in_rust(name)] = [in_rust(kind + member.strip()) for kind, members in parts for member in members.split(",")]
        crate = re.findall(r"#\[repr\(C\)\]\npub struct (\w+) {\n(.*?)\n}", SYS + text_of(CRATE, "src", "values.rs"), re.S)
        self.assertEqual(len(crate), len(header) + 1)
        for name, body in crate:
            if name != "Locks":
                self.assertEqual(re.findall(r"pub (\w+: [^,\n]+)", body), header[name], name)

    def test_numbers(self) -> None:
        header = {name: int(number) for name, number in re.findall(r"\bPASHKURE_([A-Z_]+[A-Z]) = (\d+)", HEADER)}
        self.assertIn(f"#define PASHKURE_VERSION {re.findall(r'VERSION: u32 = (.*);', SYS)[0]}u", HEADER)
        for name, number in re.findall(r"const (?!VERSION)(\w+): u32 = (\d+);", SYS):
            self.assertEqual(int(number), header[name], name)
        variants = re.findall(r"^        (\w+) = (\d+),$", ERROR, re.M)
        for variant, number in variants:
            name = re.sub(r"(?<=[a-z])(?=[A-Z])", "_", variant).upper()
            self.assertIn(int(number), [header.get(prefix + name) for prefix in ("", "BAD_", "NO_")], variant)
        refusals = {number for name, number in header.items() if 16 <= number < 32}
        self.assertEqual(refusals - {int(number) for _, number in variants}, set())


class CrateCase(LibraryCase):
    """The crate, built in a copy of its folder."""

    @classmethod
    def setUpClass(cls) -> None:
        wants("cargo")
        super().setUpClass()
        cls.crate = shutil.copytree(CRATE, f"{cls.top}/crate", ignore=shutil.ignore_patterns("target", "Cargo.lock"))

    @classmethod
    def cargo(cls, *words: str, **env: str) -> Run:
        given = {name: value for name, value in os.environ.items() if not name.startswith(("CARGO_", "PASHKURE_", "PKG_CONFIG"))}
        return run("cargo", *words, "--offline", cwd=cls.crate, env={**given, "CARGO_TARGET_DIR": f"{cls.top}/target", **env})


class Crate(CrateCase):
    def test_tests(self) -> None:
        """Its tests, and the examples of its pages."""
        told = self.cargo("test", PASHKURE_LIB_DIR=f"{self.top}/lib")
        self.assertEqual(told.status, 0, (told.out + told.err).decode())
        self.assertNotIn(b"warning", told.err)
        passed = [int(number) for number in re.findall(rb"test result: ok\. (\d+) passed", told.out)]
        self.assertEqual(len(passed), 4)
        self.assertTrue(all(passed[1:]), passed)

    def test_bank(self) -> None:
        """No money is lost."""
        told = self.passes(self.cargo("run", "--quiet", "--example", "bank", PASHKURE_LIB_DIR=f"{self.top}/lib"))
        self.assertRegex(told.out, rb"^8000 transfers; [0-9]+ deadlocks, each tried again\nall accounts together have 8000\n$")

    def test_found_by_pkg_config(self) -> None:
        wants("pkg-config")
        told = self.cargo("build", PKG_CONFIG_PATH=f"{self.top}/lib/pkgconfig")
        self.assertEqual(told.status, 0, told.err.decode())

    def test_not_found(self) -> None:
        """The build says where it looked, and who writes the library."""
        told = self.cargo("build", PASHKURE_LIB_DIR=self.folder)
        self.assertIn(f'the folder of PASHKURE_LIB_DIR, "{self.folder}", has no libpashkure.a', told.err.decode())
        self.assertIn(b"`./mmdetect library DIR`", told.err)
        told = self.cargo("build", PKG_CONFIG=f"{self.folder}/none")
        self.assertIn(f'PASHKURE_LIB_DIR is not set, and "{self.folder}/none" was not run', told.err.decode())
