"""Follows the text of `mmdetect explain` line by line, and holds it against the model."""
import copy
from dataclasses import dataclass
from typing import Iterator, Optional

from lib import explained as text
from lib.table import Key, Script, Table, arguments, lines_of, shown
from lib.world import same

WIDTH = 100


@dataclass
class Line:
    """A line of a script, the reply that it is to have, the call that it makes, and the table after it."""

    text: str
    reply: Optional[str]
    word: str
    key: Optional[Key]
    table: Table


def lines(data: bytes) -> Iterator[Line]:
    """The lines of a script whose first line opens a table."""
    script = Script()
    for line in lines_of(data):
        reply = script.answer(line)
        assert script.table is not None
        words = line.rstrip(b"\r").split()
        is_call = reply not in (None, "malformed") and words
        values = arguments(words) if is_call else None
        key = values[0] if values and isinstance(values[0], tuple) else None
        yield Line(line.decode("latin-1"), reply, words[0].decode() if is_call else "", key, copy.deepcopy(script.table))


class Follower:
    """What the text has said so far: who waits, the labels of live transactions, and who is convicted."""

    def __init__(self) -> None:
        self.edges: dict[str, tuple[int, str]] = {}
        self.labels: dict[str, tuple[str, str]] = {}
        self.convicted: set[str] = set()

    def take(self, part: text.Part) -> None:
        for key, private, public in part.found(text.BEGINS):
            self.labels[key] = private, public
        for (key,) in part.found(text.ENDS):
            self.edges.pop(key, None)
            self.labels.pop(key)
            self.convicted.discard(key)
        for (key,) in part.found(text.NO_LONGER):
            del self.edges[key]
        for key, resource, holder in part.found(text.WAITS):
            self.edges[key] = int(resource), holder
        self.take_labels(part)

    def take_labels(self, part: text.Part) -> None:
        for key, label, private, public in part.found(text.LABEL):
            same(self.labels[key], (private, public), "the labels before")
            self.labels[key] = label, label
        for key, old, new, holder in part.found(text.RAISE):
            same((self.labels[key][1], self.edges[key][1]), (old, holder), "the label before, and the holder")
            self.labels[key] = self.labels[key][0], new
        for key, label, holder in part.found(text.CONVICTED):
            same((self.labels[key], self.labels[holder][1], self.edges[key][1]), ((label, label), label, holder), "why it is convicted")
            self.convicted.add(key)


def cycle_text(line: Line, process: int) -> str:
    places = line.table.cycle(process)
    return " -> ".join(shown(line.table.key(place)) for place in [*places, process])


def greatest(line: Line, process: int) -> tuple[str, str]:
    table = line.table
    place = max(table.cycle(process), key=table.private)
    return shown(table.private(place)), shown(table.key(place))


def check_cycles(line: Line, part: text.Part, convicted: list[str]) -> int:
    """A cycle is told where an acquire closed it, and at each verdict. Returns how many were closed."""
    closed = []
    if line.word == "acquire" and line.reply.startswith("waits") and line.table.cycle(line.key[0]):
        closed = [line.key[0]]
    rounds = [int(key.partition(".")[0]) for key in convicted]
    same(part.found(text.CLOSES), [(cycle_text(line, process),) for process in closed], "the cycles that are closed")
    same(part.found(text.ROUND), [(cycle_text(line, process),) for process in rounds], "the cycles of the convicted")
    same(part.found(text.GREATEST), [greatest(line, process) for process in closed + rounds], "the greatest labels")
    return len(closed)


def check_owners(before: Line, line: Line, part: text.Part) -> None:
    """Each resource with another owner than before is told, and no other."""
    old, table = before.table, line.table
    owner = lambda of, r: shown(of.key(of.owner[r])) if r in of.owner else None
    changed = [r for r in range(table.resources) if owner(old, r) != owner(table, r)]
    told = {int(r): key for r, key in part.found(text.GOES)}
    told |= {int(r): None for (r,) in part.found(text.FREE)} | {int(r): key for key, r in part.found(text.OWNS)}
    same(told, {r: owner(table, r) for r in changed}, "the owners")


def check(lines: list[Line], printed: str) -> str:
    """Fails unless the text tells of each line what it changed."""
    parts = text.parts_of(printed)
    same(len(parts), len(lines), "how many lines there are")
    follower, edges, cycles = Follower(), 0, 0
    for number, (line, part) in enumerate(zip(lines, parts), 1):
        try:
            cycles += check_line(lines[number - 2] if number > 1 else line, line, part, number, follower)
        except AssertionError as fault:
            raise AssertionError(f"line {number}, {line.text!r}: {fault}; below it: {part.below}") from None
        edges += len(follower.edges)
    return f"{len(lines)} lines, {edges} edges, {cycles} cycles closed"


def check_line(before: Line, line: Line, part: text.Part, number: int, follower: Follower) -> int:
    same(part.number, number, "the number")
    for below in part.below:
        assert text.is_known(below), f"{below!r} is not known"
        assert len(text.INDENT + below) <= WIDTH, f"{below!r} is too wide"
    printable = "".join(letter if " " <= letter != "\x7f" else "?" for letter in line.text.rstrip("\r"))
    shown_line = printable if len(printable) <= 128 else printable[:128] + ".."
    wanted = [shown_line] if line.reply is None else [shown_line, line.reply]
    same(part.line.split(), " ".join(wanted).split(), "the line and its reply")
    earlier = set(follower.convicted)
    follower.take(part)
    table = line.table
    same({(k, *e) for k, e in follower.edges.items()}, table.edges(), "the edges")
    live = {shown(table.key(p)): (shown(table.private(p)), shown(table.public(p))) for p in table.live}
    same(follower.labels, live, "the labels")
    same(follower.convicted, {shown(table.key(p)) for p in table.verdicts}, "the convicted")
    check_owners(before, line, part)
    return check_cycles(line, part, [key for (key, _, _) in part.found(text.CONVICTED) if key not in earlier])
