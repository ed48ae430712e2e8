"""The C library: its header by the compilers, header and crate compared both ways, and each behaviour of the header by a program in C."""
import os
import re
import subprocess
import tempfile

from lib.world import TOP, Case, each, read, run, wants

HERE = os.path.join(TOP, "tests", "program")
SOURCE = f"{HERE}/library.c"
INCLUDE = os.path.join(TOP, "include")
CRATE = os.path.join(TOP, "crates", "pashkure", "src")
FLAGS = ["-Wall", "-Wextra", "-Wpedantic", "-Werror"]
SANITIZED = ["-fsanitize=address,undefined", "-fno-sanitize-recover=all"]
VALGRIND = ["valgrind", "--quiet", "--leak-check=full", "--show-leak-kinds=all", "--error-exitcode=9"]
STANDARDS = [(f"{compiler} {standard}", compiler, language, standard)
             for compilers, language, standards in ((("gcc", "clang"), "c", "c99 c11 c17"), (("g++", "clang++"), "c++", "c++98 c++11 c++14 c++17 c++20"))
             for compiler in compilers for standard in standards.split()]  # fmt: skip
SIZES = {"u32": 4, "u64": 8, "*mut u8": 8}
RECORDS = {"pashkure": "Handle", "pashkure_desk": "DeskHandle", "pashkure_worker": "WorkerHandle", "pashkure_key": "PlainKey",
           "pashkure_config": "PlainConfig", "pashkure_wake": "PlainWake", "pashkure_seen": "PlainSeen", "pashkure_counts": "PlainCounts"}  # fmt: skip
"""Each struct of the headers, and the record of the crate."""
OF_SLEEPERS = {"TIMED_OUT": 9, "INTERRUPTED": 10, "NOT_ASKED": 11}
"""The results that no call of the crate gives."""


def text_of(*path: str) -> str:
    return read(os.path.join(*path))


HEADER, DESK = (re.sub(r"/\*.*?\*/", "", text_of(INCLUDE, f"{name}.h"), flags=re.S) for name in ("pashkure", "pashkure_desk"))
SOURCES = "".join(text_of(CRATE, name) for name in sorted(os.listdir(CRATE)))
TESTS = re.findall(r"^TEST\((\w+)\)", text_of(SOURCE), re.M)
THREADS = [f"{INCLUDE}/pashkure_threads{part}.c" for part in ("", "_end", "_open")]


class HeaderOnly(Case):
    @each(STANDARDS)
    def test_compiles(self, _: str, compiler: str, language: str, standard: str) -> None:
        """Each header alone, and what is written in C, compile without a warning."""
        wants(compiler)
        alone = [self.file(f"{name}.c", f'#include "{name}.h"\n') for name in ("pashkure", "pashkure_threads", "pashkure_desk")]
        threads = THREADS if standard in ("c11", "c17") else []
        for source in (*alone, f"{INCLUDE}/pashkure_text.c", *threads):
            command = [compiler, "-x", language, f"-std={standard}", *FLAGS, f"-I{INCLUDE}", "-fsyntax-only", source]
            self.ends(run(*command))


class LibraryCase(Case):
    """The library as ./mmdetect library writes it."""

    @classmethod
    def setUpClass(cls) -> None:
        super().setUpClass()
        wants("cc", "nm", "objcopy")
        scratch = tempfile.TemporaryDirectory(prefix="pashkure.")
        cls.addClassCleanup(scratch.cleanup)
        cls.top = scratch.name
        cls.written = run(f"{TOP}/mmdetect", "library", cls.top)
        if cls.written.status:
            raise AssertionError(cls.written)

    @classmethod
    def compiled(cls, to: str, *words: str, archive: bool = True) -> str:
        """A program at this path, linked with the archive or the shared object."""
        library = [f"{cls.top}/lib/libpashkure.a"] if archive else [f"-L{cls.top}/lib", "-lpashkure", f"-Wl,-rpath,{cls.top}/lib"]
        subprocess.run(["cc", "-std=c11", "-O1", "-g", *FLAGS, f"-I{cls.top}/include", "-o", to, *words, *library], check=True)
        return to

    def built(self, *words: str, archive: bool = True) -> str:
        return self.compiled(self.path("program"), *words, archive=archive)

    def symbols(self, *words: str) -> set[str]:
        told = run("nm", "--defined-only", *words)
        return {line.split()[-1] for line in told.out.decode().splitlines() if " T " in line}


class Agreement(LibraryCase):
    """What the header says of names and numbers is what the crate has, and the other way round."""

    def test_functions(self) -> None:
        header, desk = (set(re.findall(r"\b(pashkure_\w+)\(", text)) for text in (HEADER, DESK))
        exports = set(re.findall(r'#\[unsafe\(no_mangle\)\]\npub extern "C" fn (\w+)', SOURCES))
        self.assertEqual(header | desk, exports | {"pashkure_message"})
        header |= set(re.findall(r"\b(pashkure_locks_\w+)\(", text_of(INCLUDE, "pashkure_threads.h").partition("#endif")[2]))
        self.assertEqual(self.symbols("--extern-only", f"{self.top}/lib/libpashkure.a"), header | desk)
        self.assertEqual(self.symbols("--dynamic", f"{self.top}/lib/libpashkure.so"), header)

    def test_parameters(self) -> None:
        """Each call has the parameters of the header in their order; a slice is a pointer and a length, and an allocator is nothing."""
        for name, given in re.findall(r"\b(pashkure_\w+)\(([^)]*)\)", HEADER + DESK):
            if name == "pashkure_message":
                continue
            found = re.search(rf"extern \"C\" fn {name}\(([^)]*)\)", SOURCES)
            assert found, name
            crate: list[str] = []
            for parameter in filter(None, (part.strip() for part in found[1].split(","))):
                what = parameter.partition(": ")[2]
                crate += {"Global": [], "&[u8]": ["pointer", "size_t"], "&mut [u8]": ["pointer", "size_t"], "&mut [u32]": ["pointer", "size_t"],
                          "u32": ["uint32_t"], "usize": ["size_t"], "PlainKey": ["pashkure_key"]}.get(what, ["pointer"])  # fmt: skip
            header = ["pointer" if "*" in part else part.split()[0] for part in given.split(",") if part.strip() != "void"]
            self.assertEqual(header, crate, name)

    def test_results(self) -> None:
        header = {name: int(number) for name, number in re.findall(r"\bPASHKURE_([A-Z_]+[A-Z]) = (\d+)", HEADER)}
        self.assertEqual(header.pop("REFUSED"), header["NO_TRANSACTION"])
        crate = {name: int(number) for name, number in re.findall(r"\bconst (\w+): u32 = (\d+);", text_of(CRATE, "answer.rt"))}
        for name, number in re.findall(r"Refusal::(\w+) => (\d+)", SOURCES):
            crate[re.sub(r"(?<=[a-z])(?=[A-Z])", "_", name).upper()] = int(number)
        self.assertEqual(header, {**crate, **OF_SLEEPERS})
        desk = re.findall(r"\bPASHKURE_([A-Z_]+[A-Z]) \(\(pashkure_result\)(\d+)\)", DESK)
        self.assertEqual(sorted(desk), sorted(re.findall(r"\bconst (\w+): u32 = (\d+);", text_of(CRATE, "desk_answer.rt"))))
        self.assertEqual(len({*header.values(), *(int(number) for _, number in desk)}), len(header) + len(desk))
        version = re.search(r"#define PASHKURE_VERSION (\d+)u", HEADER)
        assert version
        self.assertIn(f"pub const VERSION: u32 = {int(version[1]):_};", SOURCES)

    def test_records(self) -> None:
        """The members have one order, and the offsets of the compiler are those of the crate."""
        sizes, rows = dict(SIZES), []
        for struct, record in sorted(RECORDS.items(), key=lambda item: item[0] != "pashkure_key"):
            found = re.search(rf"#\[repr\(C\)\]\n#\[derive\([^)]*\)\]\npub struct {record} {{(.*?)\n}}", SOURCES, re.S)
            assert found, record
            members, place = re.findall(r"^    (?:pub )?(\w+): ([^{}\n]+),$", found[1], re.M), 0
            for name, kind in members:
                align = 4 if kind in ("u32", "PlainKey") else 8
                place += -place % align
                rows.append(f"{struct} {'manager' if (struct, name) == ('pashkure', 'at') else name} {place}")
                place += sizes[kind]
            sizes[record] = place
            rows.append(f"{struct} size {place + -place % (4 if struct in ('pashkure_key', 'pashkure_wake', 'pashkure_seen') else 8)}")
        lines = []
        for body, struct in re.findall(r"typedef struct pashkure\w* {(.*?)} (\w+);", HEADER + DESK, re.S):
            for declared in filter(str.strip, body.split(";")):
                for member in re.sub(r"^\s*\w+ \*?", "", declared).split(","):
                    lines.append(f'printf("{struct} {member.strip()} %zu\\n", offsetof({struct}, {member.strip()}));')
            lines.append(f'printf("{struct} size %zu\\n", sizeof({struct}));')
        source = self.file("sizes.c", '#include "pashkure_desk.h"\n#include <stdio.h>\nint main(void) {' + "\n".join(lines) + "return 0;}\n")
        self.assertEqual(sorted(run(self.built(source, f"-I{INCLUDE}")).out.decode().splitlines()), sorted(rows))

    def test_messages(self) -> None:
        """Each result of the header has a text of its own, and no other number has one."""
        program = self.built(SOURCE, "-Wl,--wrap=malloc,--wrap=free")
        told = dict(line.split(" ", 1) for line in run(program, "messages").out.decode().splitlines())
        numbers = {number for number in re.findall(r"\bPASHKURE_[A-Z_]+[A-Z] = (\d+)", HEADER)}
        none = told["95"]
        self.assertEqual({number for number, text in told.items() if text != none}, numbers)
        self.assertEqual(len(set(told.values())), len(numbers) + 1)


class Behaviour(LibraryCase):
    @classmethod
    def setUpClass(cls) -> None:
        super().setUpClass()
        cls.programs = {}
        for kind, flags in ("plain", []), ("sanitized", SANITIZED):
            cls.programs[kind] = cls.compiled(f"{cls.top}/{kind}", *flags, "-Wl,--wrap=malloc,--wrap=free", SOURCE)

    @each(TESTS)
    def test_sanitized(self, name: str) -> None:
        self.passes(run(self.programs["sanitized"], name))

    def test_all(self) -> None:
        self.passes(run(self.programs["plain"]))

    def test_valgrind(self) -> None:
        """No byte is read before it is written, and none is lost."""
        wants("valgrind")
        self.passes(run(*VALGRIND, self.programs["plain"]))


class Linked(LibraryCase):
    """How a program finds the library."""

    def test_written(self) -> None:
        self.assertEqual(self.written.err.decode(), f"mmdetect: the C library is in {self.top}\n")
        files = {os.path.relpath(os.path.join(at, name), self.top) for at, _, names in os.walk(self.top) for name in names}
        self.assertEqual(files, {"include/pashkure.h", "include/pashkure_threads.h", "lib/libpashkure.a", "lib/libpashkure.so", "lib/libpashkure.so.0.2", "lib/pkgconfig/pashkure.pc"})

    def test_shared(self) -> None:
        """The shared object has its name with the major and the minor number, and needs the C library alone."""
        wants("readelf")
        told = run("readelf", "--dynamic", f"{self.top}/lib/libpashkure.so").out.decode()
        self.assertEqual(re.findall(r"(?:NEEDED|SONAME).*\[(.*)\]", told), ["libc.so.6", "libpashkure.so.0.2"])
        self.assertNotIn("TEXTREL", told)
        source = self.file("shared.c", '#include "pashkure.h"\nint main(void) { return pashkure_version() != PASHKURE_VERSION; }\n')
        self.ends(run(self.built(source, archive=False)))

    def test_page(self) -> None:
        """The program of EMBEDDING.md is built without a warning, and prints what the page says."""
        page = text_of(TOP, "docs", "EMBEDDING.md")
        programs = re.findall(r"^```c\n(.*?)^```.*?^```text\n(.*?)^```", page, re.M | re.S)
        self.assertEqual(len(programs), 1)
        for source, printed in programs:
            self.ends(run(self.built(self.file("page.c", source), "-pthread")), 0, printed)

    def test_static_program(self) -> None:
        source = self.file("static.c", '#include "pashkure.h"\nint main(void) { return pashkure_version() != PASHKURE_VERSION; }\n')
        self.ends(run(self.built(source, "-static")))

    @each(["g++", "clang++"])
    def test_cpp_program(self, compiler: str) -> None:
        wants(compiler)
        source = self.file("program.cc", '#include "pashkure.h"\nint main() { pashkure locks = PASHKURE_CLOSED; pashkure_close(&locks); return 0; }\n')
        to = self.path("program")
        subprocess.run([compiler, "-std=c++98", *FLAGS, f"-I{self.top}/include", "-o", to, source, f"{self.top}/lib/libpashkure.a"], check=True)
        self.ends(run(to))

    def test_pkg_config(self) -> None:
        wants("pkg-config")
        other = self.path("usr")
        self.ends(run(f"{TOP}/mmdetect", "library", other, "lib/x86_64-linux-gnu"), 0, "", f"mmdetect: the C library is in {other}\n")
        for top, lib in (other, "lib/x86_64-linux-gnu"), (self.top, "lib"):
            env = {**os.environ, "PKG_CONFIG_PATH": f"{top}/{lib}/pkgconfig"}
            told = self.passes(run("pkg-config", "--cflags", "--libs", "pashkure", env=env))
            places = [os.path.normpath(word[2:]) for word in told.out.decode().split() if word[:2] in ("-I", "-L")]
            self.assertEqual(places, [f"{top}/include", f"{top}/{lib}"])
        self.ends(run("pkg-config", "--modversion", "pashkure", env=env), 0, "0.2.0\n")

    def test_folder_by_a_relative_path(self) -> None:
        self.ends(run(f"{TOP}/mmdetect", "library", "in/here", cwd=self.folder), 0, "", "mmdetect: the C library is in in/here\n")
        self.assertEqual(sorted(os.listdir(f"{self.folder}/in/here/lib")), ["libpashkure.a", "libpashkure.so", "libpashkure.so.0.2", "pkgconfig"])

    def test_folder_that_cannot_be_written(self) -> None:
        place = self.file("file", "")
        self.ends(run(f"{TOP}/mmdetect", "library", f"{place}/in"), 125, "", f"mmdetect: the folder {place}/in cannot be written\n")

    def test_no_compiler(self) -> None:
        self.ends(run(f"{TOP}/mmdetect", "library", self.path("to"), env={**os.environ, "CC": "no-compiler"}), 127, "",
                  "mmdetect: the command no-compiler is not on the PATH (Debian's package gcc has it)\n")  # fmt: skip
