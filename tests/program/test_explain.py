"""What `mmdetect explain` prints, beside a table by the rules."""
import os
import random

from lib import draw, explained, follow, graphs
from lib.table import lines_of, shown
from lib.world import OUT, PROGRAM, SEED, Case, each, run, typed, wants, write

LONGEST = 16_777_216
CALLS = b"table 3 3 100 9\nbegin\nbegin\nacquire 0.1 0\nacquire 1.1 1\nacquire 0.1 1\nacquire 1.1 0\nsettle\n"
CHECKED = 2_000
"""Lines of a random script."""


def script(seed: object, count: int, processes: int = 10, resources: int = 10) -> tuple[bytes, list[follow.Line], int]:
    """A random script, its lines, and the status with which it ends."""
    data = draw.Scripts(random.Random(f"explain {seed}")).draw_plain(count, processes, resources)
    lines = list(follow.lines(data))
    return data, lines, int(any(line.reply == "malformed" for line in lines))


def wanted_graph(line: follow.Line, has_all: bool = False) -> graphs.Graph:
    table = line.table
    mark = lambda p: "victim" if p in table.verdicts else "cycle" if table.cycle(p) else ""
    nodes = {shown(table.key(p)): (mark(p), shown(table.private(p)), shown(table.public(p))) for p in table.live}
    waited = set(table.wait.values())
    owner = lambda r: shown(table.key(table.owner[r])) if r in table.owner else None
    resources = {r: owner(r) for r in range(table.resources) if r not in waited} if has_all else {}
    return graphs.Graph(nodes, table.edges(), resources)


class Explain(Case):
    def explains(self, *words: str, given: bytes = b"", status: int = 0, err: str = "") -> str:
        told = self.run_program("explain", *words, given=given)
        self.ends(told, status, told.out, err)
        return told.out.decode()

    @each([("ten and ten", 1, 10, 10), ("many who want few", 1, 40, 4), ("ten and ten anew", SEED, 10, 10), ("many who want few anew", SEED, 40, 4)])
    def test_lines(self, name: str, seed: int, processes: int, resources: int) -> None:
        """Each line of a random script is explained as the model changes."""
        data, lines, status = script(seed, CHECKED, processes, resources)
        told = self.run_program("explain", given=data)
        try:
            follow.check(lines, self.ends(told, status, told.out).out.decode())
        except AssertionError:
            os.makedirs(OUT, exist_ok=True)
            path = os.path.join(OUT, f"explain.{name.replace(' ', '_')}.script")
            write(path, data)
            print(f"the script is {path}; it is of the seed {SEED}, or of 1")
            raise

    def test_graphs(self) -> None:
        """Each graph of random scripts has the nodes, marks and edges of the model, in Mermaid's grammar and in Graphviz's."""
        for seed in [*range(60), *(f"{SEED} {number}" for number in range(60))]:
            chance = random.Random(f"graphs {seed}")
            data, lines, _ = script(seed, 120, chance.randrange(3, 16), chance.randrange(2, 12))
            at = chance.randrange(1, len(lines) + 1)
            options = ["--at", str(at)] + (["--all"] if chance.random() < 0.5 else [])
            wanted = wanted_graph(lines[at - 1], "--all" in options)
            status = int(any(line.reply == "malformed" for line in lines[:at]))
            with self.subTest(seed=seed, options=options):
                self.assertEqual(graphs.of_mermaid(self.explains("--mermaid", *options, given=data, status=status)), wanted)
                self.assertEqual(graphs.of_dot(self.explains("--dot", *options, given=data, status=status)), wanted)

    def test_graphviz(self) -> None:
        """Graphviz takes a graph without a word."""
        wants("dot")
        for seed in range(20):
            data, _, status = script(f"dot {seed}", 120)
            told = run("dot", "-Tsvg", given=self.explains("--dot", "--all", given=data, status=status).encode())
            self.assertEqual((told.status, told.err, b"</svg>" in told.out), (0, b"", True))

    def test_graph_after_the_last_line(self) -> None:
        """Both formats may be asked for at once."""
        data, lines, status = script(5, 200)
        mermaid = self.explains("--mermaid", given=data, status=status)
        self.assertEqual(graphs.of_mermaid(mermaid), wanted_graph(lines[-1]))
        dot = self.explains("--dot", given=data, status=status)
        self.assertEqual(self.explains("--dot", "--mermaid", given=data, status=status), mermaid + dot)

    def test_graph_of_nothing(self) -> None:
        self.assertEqual(graphs.of_mermaid(self.explains("--mermaid", given=b"begin\n")), graphs.Graph())
        self.assertEqual(graphs.of_dot(self.explains("--dot", "--all")), graphs.Graph())

    def test_lines_that_are_no_calls(self) -> None:
        """Malformed lines, blank ones and calls without a table are printed with their numbers."""
        given = b"begin\nfly\n\n# x\n\xff\x00\x1b[31mred\n" + b"y" * 129 + b"\n" + b"z" * 100_000 + b"\ntable 0 1 1 1\ntable 1 1 1 1\r\nbegin"
        told = self.run_program("explain", given=given)
        self.ends(told, 1, told.out)
        self.assertFalse(set(told.out) & (set(range(32)) - {10}), "a control character is printed")
        parts = explained.parts_of(told.out.decode("latin-1"))
        self.assertEqual([part.number for part in parts], list(range(1, len(lines_of(given)) + 1)))
        self.assertEqual([part.line.split() for part in parts], [["begin", "no", "table"], ["fly", "malformed"], [], ["#", "x"], ["\xff??[31mred", "malformed"],
                         ["y" * 128 + "..", "malformed"], ["z" * 128 + "..", "malformed"], "table 0 1 1 1 refused 11 BadConfig".split(),
                         "table 1 1 1 1 ok".split(), "begin key 0.1".split()])  # fmt: skip

    def test_input_too_long(self) -> None:
        """It is explained as far as it may be read."""
        line = b"# " + b"x" * 61 + b"\n"
        given = b"fly\n" + line * (LONGEST // len(line) + 2)
        parts = explained.parts_of(self.explains(given=given, status=3, err="input too long\n"))
        wanted = 1 + (LONGEST - 4) // len(line)
        self.assertEqual((len(parts), parts[-1].number, parts[-1].line), (wanted, wanted, line.decode().strip()))

    def test_one_line_alone(self) -> None:
        """With --at one line is explained, and the lines behind it are not run."""
        given = CALLS + b"fly\n"
        (part,) = explained.parts_of(self.explains("--at", "7", given=given))
        self.assertEqual((part.number, part.line.split()), (7, ["acquire", "1.1", "0", "waits", "0.1", "2.1"]))
        self.assertEqual(part.found(explained.CLOSES), [("1.1 -> 0.1 -> 1.1",)])
        (last,) = explained.parts_of(self.explains("--at", "9", given=given, status=1))
        self.assertEqual((last.number, last.line.split()), (9, ["fly", "malformed"]))
        for words in [], ["--dot"]:
            self.assertEqual(self.explains("--at", "10", *words, given=given, status=2, err="the script ends after line 9\n"), "")

    def test_files(self) -> None:
        """A script is read from a file if one is named; one that cannot be read is named."""
        self.assertEqual(self.explains(self.file("script", CALLS)), self.explains(given=CALLS))
        path = self.path("nothing")
        told = self.run_program("explain", path)
        self.assertRegex(self.ends(told, 3, b"", told.err).err.decode(), rf"(?s)\A{path}: .*read fault\n\Z")
        self.ends(self.run_program("explain", self.folder), 3, b"", "read fault\n")

    def on_terminal(self, environment: dict[str, str]) -> bytes:
        """What it prints on a terminal."""
        status, shown = typed(["sh", "-c", f'"{PROGRAM}" explain < "{self.file("script", CALLS)}"'], b"", environment)
        self.assertEqual(status, 0)
        return shown

    def test_colors(self) -> None:
        """Text has colors on a terminal if NO_COLOR is not set, and says the same without them."""
        plain = self.explains(given=CALLS)
        self.assertNotIn("\x1b", plain)
        environment = {name: value for name, value in os.environ.items() if name != "NO_COLOR"}
        painted = self.on_terminal(environment)
        self.assertIn(b"\x1b", painted)
        for value, has_colors in ("", True), ("1", False), ("yes, please", False):
            self.assertEqual(b"\x1b" in self.on_terminal({**environment, "NO_COLOR": value}), has_colors, value)
        first, *others = painted.split(b"\x1b")
        self.assertEqual((first + b"".join(part.partition(b"m")[2] for part in others)).replace(b"\r\n", b"\n").decode(), plain)
