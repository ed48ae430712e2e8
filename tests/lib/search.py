"""Searches for an input to which the program answers otherwise than a model, and cuts it short."""
import os
import random
from typing import Any, Callable, Iterator, NamedTuple, Optional

from lib import draw, hub, service, table
from lib.world import OUT, PROGRAM, TOP, run, write

CORPUS = os.path.join(TOP, "tests", "corpus")
LENGTHS = [30, 100, 300, 300, 1000]


class Subject(NamedTuple):
    """What is searched: how inputs are drawn, what they are to be answered with, and the command of the program that an input asks for."""

    name: str
    words: list[bytes]
    draws: Callable[[random.Random], Any]
    wanted: Callable[[bytes], tuple[int, bytes]]
    command: Callable[[bytes], list[str]]

    def drawn(self, chance: random.Random) -> bytes:
        return self.draws(chance).draw(chance.choice(LENGTHS))

    def corpus(self) -> list[str]:
        """The paths of the inputs that are kept, of which each was the answer to a search once, or stands on a page."""
        folder = os.path.join(CORPUS, self.name)
        return sorted(os.path.join(folder, name) for name in os.listdir(folder)) if os.path.isdir(folder) else []

    def input(self, chance: random.Random) -> bytes:
        """By its grammar in most cases, and else with bytes changed, also of what is kept, or of any bytes."""
        kind = chance.random()
        if kind < 0.9:
            return self.drawn(chance)
        if kind < 0.93:
            return draw.any_bytes(chance, self.words, chance.choice([10, 100, 1000, 10_000]))
        paths = self.corpus()
        data = read(chance.choice(paths)) if paths and chance.random() < 0.5 else self.drawn(chance)
        return draw.changed(chance, data)

    def difference(self, data: bytes) -> Optional[str]:
        """How the program answers otherwise than the model, if it does."""
        status, out = self.wanted(data)
        told = run(*self.command(data), given=data)
        if (told.status, told.out, told.err) == (status, out, b""):
            return None
        lines, others = told.out.split(b"\n"), out.split(b"\n")
        place = next((place for place, pair in enumerate(zip(lines, others)) if pair[0] != pair[1]), min(len(lines), len(others)))
        said = [b"\n".join(each[max(0, place - 2) : place + 1])[:500] for each in (lines, others)]
        return f"status {told.status} ({status} by the model), errors {told.err[:200]!r}; from line {place - 1} on {said[0]!r} ({said[1]!r} by the model)"


def of_requests(data: bytes) -> list[str]:
    limits = service.limits_of(data).items()
    return [PROGRAM, "locks", *(word for name, value in limits for word in ("--" + name.replace("_", "-"), str(value)))]


def of_connections(data: bytes) -> list[str]:
    given = service.given_by(data)
    options = [word for name in ("each", "epoch") if name in given for word in (f"--{name}", str(given[name]))]
    return [*of_requests(data), "--connections", str(hub.CONNECTIONS), *options]


SUBJECTS = [
    Subject("scripts", list(table.FORMS), draw.Scripts, table.answers, lambda data: [PROGRAM]),
    Subject("requests", list(service.FORMS), draw.Requests, service.answers, of_requests),
    Subject("connections", [*service.FORMS, *hub.FURTHER, b"0 ", b"1 ", b"- 1", b"- "], draw.Connections, hub.answers, of_connections),
]


def read(path: str) -> bytes:
    with open(path, "rb") as file:
        return file.read()


def inputs(subject: Subject, seed: int, lines: int) -> Iterator[bytes]:
    """Inputs of this seed, until they have so many lines."""
    chance, done = random.Random(f"{subject.name} {seed}"), 0
    while done < lines:
        data = subject.input(chance)
        done += data.count(b"\n") + 1
        yield data


def shortest(data: bytes, fails: Callable[[bytes], bool], tries: int = 3000) -> bytes:
    """An input that fails as this one does, without any of its parts that are not needed: first of its lines, and then of its bytes."""
    for between in b"\n", b"":
        parts = data.split(between) if between else [bytes([byte]) for byte in data]
        if not between and len(parts) > 2000:
            break
        size = max(1, len(parts) // 2)
        while tries > 0:
            place, is_shorter = 0, False
            while place < len(parts) and tries > 0:
                left = parts[:place] + parts[place + size :]
                tries -= 1
                if left and fails(between.join(left)):
                    parts, is_shorter = left, True
                else:
                    place += size
            if size == 1 and not is_shorter:
                break
            size = max(1, size // 2)
        data = between.join(parts)
    return data


def kept(subject: Subject, data: bytes, seed: object) -> str:
    """Cuts an input short, and writes it to out/. Returns what to say of it."""
    data = shortest(data, lambda given: subject.difference(given) is not None)
    os.makedirs(OUT, exist_ok=True)
    path = os.path.join(OUT, f"{subject.name}.{seed}")
    write(path, data)
    return f"{subject.difference(data)}\n  cut short, the input is {path}: put it into {os.path.relpath(CORPUS, TOP)}/{subject.name}/ under a name of its own"


def search(subject: Subject, seed: int, lines: int) -> Optional[str]:
    """Tries inputs of this seed. Returns what is wrong with the first one that fails."""
    for data in inputs(subject, seed, lines):
        if subject.difference(data) is not None:
            return kept(subject, data, seed)
    return None
