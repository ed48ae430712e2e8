"""Help, the version, and words that are wrong."""
import os
import re
import subprocess

from lib.world import TOP, Case, each, read

PARTS = ["script", "threads", "storm", "locks", "explain"]
CROSSWISE = os.path.join(TOP, "examples/workloads/crosswise.json")
WRONG = """fly|--fly|-x|-|script extra|script script|script --fly|script --verbos|script -v -v|script --verbose extra|script --hel|script -- -v
fly script|help fly|help --help|-- --version|Script|scrip|threads|threads a b|threads --fly a|threads -v -v a|--verbose|-- x|storm extra
storm --clients 0|storm --clients 65|storm --clients|storm --clients -1|storm --transmitters 65|storm --seed 18446744073709551616
storm --seed x|storm --seed=|storm --seed -1|storm --clients 8 --clients 8|storm --verbose --verbose|storm --resources 0
storm --resources=65537|storm --resources|storm --resources x|storm --acquires 257|storm --acquires 0|storm --acquires -1
storm --acquires 4 --acquires 4|storm --transactions 0|storm --transactions 1000001|storm --transactions|storm --transactions=x
storm --transactions -1|storm --transactions 2 --transactions 2|storm --transaction 3|storm --report|storm --report a --report b
storm --report -v|threads -v|threads -v --report a|threads --report a -v|threads a --verbos|threads --hel a|threads a --reporty=3
storm --seed -v|storm --seed --clients 3|storm --clint 3|storm --hel|storm --xyz|locks --name 3|explain --merm|explain --al x
explain --at --dot|threads a --report|threads --report a --report=b c|threads --report a|threads a --resources 8|threads a --transactions 2
explain a b|explain --fly|explain --at|explain --at 0|explain --at x|explain --at 1 --at 2|explain --dot --dot|explain --dot=yes
locks --names 0|locks --names 16777217|locks --transactions 0|locks --transactions 65537|locks --name-bytes 0|locks --name-bytes 1025|locks --names-each 16777217
locks --seed -1|locks --seed x|locks --names|locks extra|locks --verbose|locks --names 1 --names 2|prove""".replace("\n", "|").split("|")
TOLD = {
    "script": ["1 to 17592186044415", " 7 LabelsExhausted ", "15 CountsExhausted ", "refused N Name"],
    "locks": ["* granted K NAME", "* aborted K", "* more C", "* more K", "'ending'", "no-transaction", "waiting", "not-waiting", "name-too-long", "not-owner",
              "names-full", "too-many-names", "transactions-full", "labels-full", "counts-full", "operator", "no-epoch"],
}  # fmt: skip


def text_of(name: str) -> str:
    return read(os.path.join(TOP, name))


class Help(Case):
    @each(["--help", "-h", "help", "help help", *(f"help {part}" for part in PARTS), *(f"{part} {word}" for part in PARTS for word in ("--help", "-h")),
           "script -v --help", "locks --names 2 -h", "threads a -h", "explain x --dot --help", "threads --report a -h",
           "storm --report=a --acquires 2 --help", "storm --transactions 2 -h"])  # fmt: skip
    def test_help(self, line: str) -> None:
        """The help of the program is that of the launcher, and has 80 columns."""
        words = line.split()
        part = words[-1] if words[0] == "help" and len(words) > 1 else words[0]
        text = text_of("wrapper/help.txt" if line in ("--help", "-h", "help") else f"wrapper/help/{part}.txt")
        told = self.ends(self.run_program(*words, given=b"begin"), 0, text)
        self.assertLessEqual(max(map(len, told.out.decode().splitlines())), 80)

    @each(sorted(TOLD))
    def test_what_it_tells(self, part: str) -> None:
        text = text_of(f"wrapper/help/{part}.txt")
        for told in ["Exit statuses:", *TOLD[part]]:
            self.assertIn(told, text)

    def test_subcommands(self) -> None:
        """The launcher's help has a line for each of them."""
        for part in PARTS:
            self.assertIn(f"  {part} ", text_of("wrapper/help.txt"))


def words_of(table: str) -> list[str]:
    """The words of a table of the sources. It is proved that no others are read."""
    text = text_of(f"crates/{table}")
    rows = re.search(r"const FORMS.*?^\];", text, re.M | re.S)
    assert rows
    return re.findall(r'^ *(?:\(|word: )"([a-z_0-9]*)"', rows[0], re.M)


def words_in(part: str) -> list[str]:
    """The words that a help lists."""
    text = re.search(r"their replies:\n(.*?)^$", text_of(f"wrapper/help/{part}.txt"), re.M | re.S)
    assert text
    return re.findall(r"^  ([a-z_0-9]+) ", text[1], re.M)


class Words(Case):
    def test_requests(self) -> None:
        """The help and the page list each word of a request in the order of the sources, and no other; so does the model of the tests."""
        from lib.service import FORMS

        words = words_of("mm_service/src/requests.rt")
        page = re.search(r"^### Requests(.*?)^### ", text_of("docs/SERVICE.md"), re.M | re.S)
        assert page
        self.assertEqual(words_in("locks"), words)
        self.assertEqual(re.findall(r"^\| `([a-z]+)[ `]", page[1], re.M), words)
        self.assertEqual(sorted(FORMS), sorted(word.encode() for word in words))

    def test_requests_of_connections(self) -> None:
        """So it is of the requests that only connections have."""
        from lib.hub import FURTHER

        words = words_of("mm_connections/src/forms.rt")
        text = re.search(r"Further requests:\n(.*?)^The operator", text_of("wrapper/help/locks.txt"), re.M | re.S)
        page = re.search(r"^Further requests:(.*?)^A fence ", text_of("docs/SERVICE.md"), re.M | re.S)
        assert text and page
        self.assertEqual(re.findall(r"^  ([a-z]+) ", text[1], re.M), words)
        self.assertEqual(re.findall(r"^\| `([a-z]+)[ `]", page[1], re.M), words)
        self.assertEqual(list(FURTHER), [word.encode() for word in words])

    def test_calls(self) -> None:
        """The help lists each word of a call, and no other; so does the model of the tests."""
        from lib.table import FORMS

        words = words_of("mm_script/src/forms.rt")
        self.assertEqual(words_in("script"), words)
        self.assertEqual(sorted(FORMS), sorted(word.encode() for word in words))

    @each(WRONG)
    def test_wrong(self, line: str) -> None:
        self.assertIn(b"error: ", self.ends(self.run_program(*line.split(), given=b"begin"), 2, b"", None).err)

    @each([b"", b"\xff"])
    def test_no_word(self, word: bytes) -> None:
        self.ends(self.run_program(os.fsdecode(word), given=b"begin"), 2, b"", None)


class Version(Case):
    def version(self) -> str:
        version = re.search(r'^pub const VERSION: &str = "(.*)";$', text_of("crates/mm_command/src/version.rt"), re.M)
        assert version
        return version[1]

    @each(["--version", "-V"])
    def test_program(self, word: str) -> None:
        self.ends(self.run_program(word), 0, f"mmdetect {self.version()}\n")

    @each(["--version", "-V"])
    def test_launcher(self, word: str) -> None:
        """It adds the commit."""
        git = ["git", "--no-optional-locks", "describe", "--always", "--dirty"]
        is_there = os.path.exists(os.path.join(TOP, ".git"))
        commit = subprocess.run(git, cwd=TOP, stdout=subprocess.PIPE, text=True, check=True).stdout.strip() if is_there else ""
        number, comma, kit = self.version().partition(",")
        told = subprocess.run([os.path.join(TOP, "mmdetect"), word], stdout=subprocess.PIPE, text=True, check=True).stdout
        self.assertEqual(told, f"mmdetect {number}{f' ({commit})' if commit else ''}{comma}{kit}\n")
