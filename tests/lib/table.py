"""A table of locks by the rules of docs/ALGORITHM.md, as plain as can be, and scripts of its calls by docs/SCRIPTS.md.

It keeps labels, and searches the wait-for graph too: each verdict is one that a search finds, and a settle leaves no cycle without one.
"""
import re
from typing import Any, Optional

Label = tuple[int, int]
Key = tuple[int, int]
LONGEST = 128
"""Bytes of a line."""
GREATEST = {"K": 2**32 - 1, "r": 2**32 - 1, "P": 2**32 - 1, "R": 2**32 - 1, "L": 2**64 - 1, "G": 2**32 - 1}
RANGES = {b"table": (4096, 65_536, 17_592_186_044_415, 2**32 - 1), b"table2": (65_536, 65_536, 17_592_186_044_415, 2**32 - 1)}
FORMS = {
    b"table": "PRLG", b"table2": "PRLG", b"begin": "", b"acquire": "Kr", b"release": "Kr", b"finish": "K", b"transmit": "K", b"detect": "K",
    b"abort": "K", b"give_up": "K", b"settle": "", b"state": "K", b"owner": "r", b"totals": "",
}  # fmt: skip
READS = (b"state", b"owner", b"totals")
NUMBER = re.compile(rb"[0-9]{1,20}\Z")


def shown(pair: tuple[int, int]) -> str:
    """A key or a label as it is printed."""
    return f"{pair[0]}.{pair[1]}"


class Refused(Exception):
    """A call is refused, by this number and name."""

    def __init__(self, number: int, name: str) -> None:
        super().__init__(f"refused {number} {name}")


class Table:
    """The state of a table. Processes are numbers, and resources may be anything that is sorted."""

    def __init__(self, processes: int, resources: int, label_limit: int, generation_limit: int) -> None:
        self.processes, self.resources = processes, resources
        self.label_limit, self.generation_limit = label_limit, generation_limit
        self.generations: dict[int, int] = {}  # of processes that were freed
        self.freed: list[int] = []  # to be given again, the last one first
        self.unused = 0  # the least process that was never used
        self.live: set[int] = set()
        self.privates: dict[int, Label] = {}  # of processes that ever waited
        self.publics: dict[int, Label] = {}
        self.owner: dict[Any, int] = {}
        self.queue: dict[Any, list[int]] = {}
        self.wait: dict[int, Any] = {}
        self.verdicts: set[int] = set()
        self.accepted = self.verdicts_given = self.aborts = 0

    # -- reads

    def key(self, process: int) -> Key:
        return process, self.generations.get(process, 1)

    def private(self, process: int) -> Label:
        return self.privates.get(process, (0, process))

    def public(self, process: int) -> Label:
        return self.publics.get(process, (0, process))

    def holder(self, process: int) -> int:
        """Whom a process that waits waits for."""
        return self.owner[self.wait[process]]

    def edges(self) -> set[tuple[str, Any, str]]:
        """Who waits, for which resource, and who owns it."""
        return {(shown(self.key(p)), r, shown(self.key(self.owner[r]))) for p, r in self.wait.items()}

    def cycle(self, process: int) -> list[int]:
        """The processes of the cycle that this one is on, from it on, by a search; none if it is on none."""
        places = [process]
        while places[-1] in self.wait:
            place = self.holder(places[-1])
            if place == process:
                return places
            if place in places:
                break
            places.append(place)
        return []

    # -- what calls have in common

    def live_process(self, key: Key) -> int:
        process, generation = key
        if process not in self.live or self.key(process)[1] != generation:
            raise Refused(1, "Stale")
        return process

    def resource_of(self, resource: Any) -> Any:
        if resource >= self.resources:
            raise Refused(2, "NoResource")
        return resource

    def active(self, process: int) -> None:
        if process in self.wait:
            raise Refused(3, "Waiting")

    def waiting(self, key: Key) -> int:
        process = self.live_process(key)
        if process not in self.wait:
            raise Refused(8, "NotWaiting")
        return process

    def fresh(self, process: int, holder: int) -> Label:
        return max(self.public(process)[0], self.public(holder)[0]) + 1, process

    def relabel(self, process: int, holder: int) -> None:
        self.privates[process] = self.publics[process] = self.fresh(process, holder)

    def fits(self, resource: Any) -> None:
        """Whether each label of a hand-over is within the limit."""
        queue = self.queue.get(resource, [])
        if any(self.fresh(other, queue[0])[0] > self.label_limit for other in queue[1:]):
            raise Refused(7, "LabelsExhausted")

    def hand_over(self, resource: Any) -> Optional[int]:
        """Gives the resource to its longest waiter, and returns that one."""
        del self.owner[resource]
        queue = self.queue.get(resource)
        if not queue:
            return None
        first = queue.pop(0)
        self.owner[resource] = first
        del self.wait[first]
        for other in queue:
            self.relabel(other, first)
        return first

    def owned(self, process: int) -> list[Any]:
        return sorted(resource for resource, owner in self.owner.items() if owner == process)

    def vacate(self, process: int) -> None:
        for resource in self.owned(process):
            self.hand_over(resource)
        self.live.remove(process)
        if self.key(process)[1] < self.generation_limit:
            self.generations[process] = self.key(process)[1] + 1
            self.freed.append(process)

    def end_wait(self, process: int) -> None:
        self.queue[self.wait.pop(process)].remove(process)

    def can_detect(self, process: int) -> bool:
        own = self.private(process)
        return process not in self.verdicts and own == self.public(process) == self.public(self.holder(process))

    def convict(self, process: int) -> None:
        assert self.cycle(process), f"labels convict {process}, and a search finds no cycle"
        self.verdicts.add(process)
        self.verdicts_given += 1

    def raises(self, process: int) -> bool:
        greater = self.public(self.holder(process))
        if greater <= self.public(process):
            return False
        self.publics[process] = greater
        return True

    # -- calls, each of which returns its reply

    def begin(self) -> str:
        if self.freed:
            process = self.freed.pop()
        elif self.unused < self.processes:
            process = self.unused
            self.unused += 1
        else:
            raise Refused(6, "Full")
        self.live.add(process)
        return f"key {shown(self.key(process))}"

    def acquire(self, key: Key, resource: Any) -> str:
        process = self.live_process(key)
        self.resource_of(resource)
        self.active(process)
        holder = self.owner.get(resource)
        if holder == process:
            raise Refused(4, "AlreadyOwns")
        if holder is None:
            self.owner[resource] = process
            return "granted"
        if self.fresh(process, holder)[0] > self.label_limit:
            raise Refused(7, "LabelsExhausted")
        self.relabel(process, holder)
        self.wait[process] = resource
        self.queue.setdefault(resource, []).append(process)
        return f"waits {shown(self.key(holder))} {shown(self.private(process))}"

    def release(self, key: Key, resource: Any) -> str:
        process = self.live_process(key)
        self.resource_of(resource)
        self.active(process)
        if self.owner.get(resource) != process:
            raise Refused(5, "NotOwner")
        self.fits(resource)
        first = self.hand_over(resource)
        return "free" if first is None else f"to {shown(self.key(first))}"

    def finish(self, key: Key) -> str:
        process = self.live_process(key)
        self.active(process)
        for resource in self.owned(process):
            self.fits(resource)
        self.vacate(process)
        return "finished"

    def abort(self, key: Key) -> str:
        process = self.live_process(key)
        if process not in self.verdicts:
            raise Refused(9, "NoVerdict")
        for resource in self.owned(process):
            self.fits(resource)
        self.verdicts.remove(process)
        self.end_wait(process)
        self.vacate(process)
        self.aborts += 1
        return "aborted"

    def transmit(self, key: Key) -> str:
        process = self.waiting(key)
        return f"raised {shown(self.public(process))}" if self.raises(process) else "still"

    def detect(self, key: Key) -> str:
        process = self.waiting(key)
        if process in self.verdicts:
            return "standing"
        if not self.can_detect(process):
            return "clear"
        self.convict(process)
        return f"deadlock {shown(self.private(process))}"

    def give_up(self, key: Key) -> str:
        process = self.waiting(key)
        if process in self.verdicts:
            raise Refused(14, "UnderVerdict")
        if self.private(process) != self.public(process):
            raise Refused(13, "Carried")
        self.end_wait(process)
        return "withdrawn"

    def settle(self) -> str:
        raises = 0
        while raised := sum([self.raises(process) for process in sorted(self.wait)]):
            raises += raised
        found = [process for process in sorted(self.wait) if self.can_detect(process)]
        for process in found:
            self.convict(process)
        for process in self.wait:
            cycle = self.cycle(process)
            assert not cycle or len(self.verdicts.intersection(cycle)) == 1, f"a search finds the cycle {cycle}, and labels convict {self.verdicts}"
        return f"settled {raises} {len(found)}"

    def withdraw(self, process: int) -> bool:
        """Takes back the wait of a process in a table at rest without a verdict. Whether the one whose label it shows got another one."""
        label = self.public(process)
        makers = [other for other in self.wait if other != process and self.private(other) == label]
        for other in makers:
            self.relabel(other, self.holder(other))
        self.end_wait(process)
        if makers:
            self.settle()
        return bool(makers)

    def take_back(self, process: int) -> None:
        """Takes back the wait of a process with a verdict, and the verdict."""
        self.verdicts.remove(process)
        self.end_wait(process)

    def state(self, key: Key) -> str:
        process = self.live_process(key)
        labels = f"{shown(self.private(process))} {shown(self.public(process))}"
        if process not in self.wait:
            return f"active {labels}"
        return f"{'convicted' if process in self.verdicts else 'waiting'} {self.wait[process]} {labels}"

    def totals(self) -> str:
        return f"totals {self.accepted} {self.verdicts_given} {self.aborts}"


def owner(table: Table, resource: int) -> str:
    process = table.owner.get(table.resource_of(resource))
    return "free" if process is None else f"owner {shown(table.key(process))}"


class Script:
    """Answers the lines of a script."""

    def __init__(self) -> None:
        self.table: Optional[Table] = None
        self.is_malformed = False

    def answer(self, line: bytes) -> Optional[str]:
        """The reply to a line without its newline, if it has one."""
        text = line[:-1] if line.endswith(b"\r") else line
        words = [word for word in text.split(b" ") if word]
        if len(line) <= LONGEST and (not words or words[0].startswith(b"#")):
            return None
        values = None if len(line) > LONGEST else arguments(words)
        if values is None:
            self.is_malformed = True
            return "malformed"
        if words[0] in RANGES:
            return self.open(words[0], values)
        return "no table" if self.table is None else call(self.table, words[0], values)

    def open(self, word: bytes, values: list[Any]) -> str:
        if self.table is not None:
            return "table stands"
        if not all(1 <= value <= most for value, most in zip(values, RANGES[word])):
            return "refused 11 BadConfig"
        self.table = Table(*values)
        return "ok"


def arguments(words: list[bytes]) -> Optional[list[Any]]:
    """What stands behind the first word; None if the line is malformed."""
    form = FORMS.get(words[0])
    if form is None or len(form) != len(words) - 1:
        return None
    values: list[Any] = []
    for kind, word in zip(form, words[1:]):
        numbers = word.split(b".") if kind == "K" else [word]
        if len(numbers) != (2 if kind == "K" else 1) or not all(NUMBER.match(number) and int(number) <= GREATEST[kind] for number in numbers):
            return None
        values.append(tuple(map(int, numbers)) if kind == "K" else int(word))
    return values


def call(table: Table, word: bytes, values: list[Any]) -> str:
    """The reply of a table that stands."""
    try:
        reply = owner(table, *values) if word == b"owner" else getattr(table, word.decode())(*values)
    except Refused as refused:
        return str(refused)
    if word not in READS:
        table.accepted += 1
    return reply


def answers(data: bytes) -> tuple[int, bytes]:
    """The status and the replies of a script."""
    script = Script()
    replies = [script.answer(line) for line in lines_of(data)]
    return int(script.is_malformed), "".join(f"{reply}\n" for reply in replies if reply is not None).encode()


def lines_of(data: bytes) -> list[bytes]:
    """The lines of an input. What stands behind the last newline is a line too, unless that is nothing."""
    lines = data.split(b"\n")
    return lines if lines[-1] else lines[:-1]
