"""An order for a real run: whether a lock manager of one thread could have answered the calls of several threads so.

Each thread made its calls one after another, and wrote down when each began and ended. A call took effect at some moments between the two: a
request when it was made, and once more when it was taken back; an end once for each name that it gave back, in any order. `has_order` looks for
an order of these moments in which the manager below gives each call its answer, as Porcupine and Knossos do for other objects.
"""
from typing import Iterator, NamedTuple, Optional


class Call(NamedTuple):
    thread: int
    start: int
    end: int
    kind: str
    """`lock`, `try`, `unlock` or `end`."""
    name: str
    """Of an end: nothing."""
    answer: str
    """`ok`; of a request also `held`, `deadlock`, `timed-out` or `busy`; of an unlock also `not-owner`."""


class Manager(NamedTuple):
    """Who owns each name, and who waits for it, the longest first."""

    owners: tuple[tuple[str, int], ...] = ()
    queues: tuple[tuple[str, tuple[int, ...]], ...] = ()

    def owner(self, name: str) -> Optional[int]:
        return dict(self.owners).get(name)

    def owned(self, thread: int) -> list[str]:
        return [name for name, owner in self.owners if owner == thread]

    def closes(self, thread: int, name: str) -> bool:
        """Whether a wait of this thread for this name would close a cycle of waits."""
        wanted = {waiter: each for each, queue in self.queues for waiter in queue}
        at = self.owner(name)
        while at is not None and at != thread:
            at = self.owner(wanted[at]) if at in wanted else None
        return at == thread

    def given(self, name: str, thread: Optional[int]) -> "Manager":
        owners = {**dict(self.owners), name: thread}
        return self._replace(owners=tuple(sorted((each, owner) for each, owner in owners.items() if owner is not None)))

    def queued(self, name: str, queue: tuple[int, ...]) -> "Manager":
        queues = {**dict(self.queues), name: queue}
        return self._replace(queues=tuple(sorted((each, waiters) for each, waiters in queues.items() if waiters)))

    def released(self, name: str) -> "tuple[Manager, Optional[int]]":
        """The name passes on to the one that has waited longest. Returns that one too."""
        queue = dict(self.queues).get(name, ())
        if not queue:
            return self.given(name, None), None
        return self.queued(name, queue[1:]).given(name, queue[0]), queue[0]


IDLE, WAITS, ENDS = "idle", "waits", "ends"


class Point(NamedTuple):
    """How far a run has come: of each thread how many calls are over, and what the next one does, and the manager."""

    over: tuple[int, ...]
    stages: tuple[str, ...]
    manager: Manager


def moments(point: Point, call: Call) -> Iterator[tuple[Manager, str, Optional[int]]]:
    """What the next moment of a call can be: the manager after it, the stage of the call (`over` if it has its answer), and who was granted."""
    manager, thread, owner = point.manager, call.thread, point.manager.owner(call.name)
    if call.kind == "end":
        if call.answer != "ok":
            return
        names = manager.owned(thread)
        if not names:
            yield manager, "over", None
        for name in names:
            after, granted = manager.released(name)
            yield after, ENDS, granted
    elif call.kind == "unlock":
        if call.answer == "ok" and owner == thread:
            after, granted = manager.released(call.name)
            yield after, "over", granted
        elif call.answer == "not-owner" and owner != thread:
            yield manager, "over", None
    elif point.stages[thread] == WAITS:
        if call.answer == "timed-out":
            queue = dict(manager.queues)[call.name]
            yield manager.queued(call.name, tuple(each for each in queue if each != thread)), "over", None
    elif owner is None:
        if call.answer == "ok":
            yield manager.given(call.name, thread), "over", None
    elif owner == thread:
        if call.answer in ("ok", "held"):
            yield manager, "over", None
    elif call.kind == "try":
        if call.answer == "busy":
            yield manager, "over", None
    elif manager.closes(thread, call.name):
        if call.answer == "deadlock":
            yield manager, "over", None
    elif call.answer in ("ok", "timed-out"):
        yield manager.queued(call.name, (*dict(manager.queues).get(call.name, ()), thread)), WAITS, None


def after(point: Point, call: Call, moment: tuple[Manager, str, Optional[int]], calls: list[list[Call]]) -> Optional[Point]:
    """The point after a moment; none if somebody was granted a name who was told otherwise."""
    manager, stage, granted = moment
    over, stages = list(point.over), list(point.stages)
    stages[call.thread] = IDLE if stage == "over" else stage
    over[call.thread] += stage == "over"
    if granted is not None:
        if calls[granted][over[granted]].answer != "ok":
            return None
        stages[granted] = IDLE
        over[granted] += 1
    return Point(tuple(over), tuple(stages), manager)


def has_order(calls: list[list[Call]]) -> bool:
    """Whether there is such an order of the calls of these threads."""
    first = Point((0,) * len(calls), (IDLE,) * len(calls), Manager())
    seen, left = {first}, [(first, 0)]
    while left:
        point, now = left.pop()
        pending = [calls[thread][over] for thread, over in enumerate(point.over) if over < len(calls[thread])]
        if not pending:
            return True
        until = min(call.end for call in pending)
        # The call that ends first is tried first: it is taken last from the list.
        for call in sorted(pending, key=lambda each: -each.end):
            time = max(now, call.start)
            if time > until:
                continue
            for moment in moments(point, call):
                next_point = after(point, call, moment, calls)
                if next_point is not None and next_point not in seen:
                    seen.add(next_point)
                    left.append((next_point, time))
    return False


def parsed(text: str, threads: int) -> list[list[Call]]:
    """The calls of a run, a line each: thread, start, end, kind, name (`-` of an end), answer."""
    calls: list[list[Call]] = [[] for _ in range(threads)]
    for line in text.splitlines():
        thread, start, end, kind, name, answer = line.split()
        calls[int(thread)].append(Call(int(thread), int(start), int(end), kind, "" if name == "-" else name, answer))
    return calls
