"""What the Python client does without I/O: the protocol cut at each byte, calls that are left at each moment, time-outs by a clock of the
test's own, names and keys, pauses, and that the forms for threads and for tasks are one."""
import asyncio
import contextlib
import inspect
import itertools
import math
import os
import pickle
import random
import re
import subprocess
import types
import unittest.mock
from typing import Any, Callable

from lib.clients import NO_KEYS, NO_NAMES, NO_TEXTS, raises, same
from lib.hub import Hub
from lib.world import PACKAGE, Case, each, environment, read, run, wants

import pashkure
from pashkure import Aborted, Deadlock, Full, Interrupted, LockError, LocksLost, NotOwner, ProtocolError, Retry, Timeout, aio, flows, wire
from pashkure.backend import Watch
from pashkure.locks import Transaction
from pashkure.service import Service
from pashkure.values import encoded, key_bytes
from pashkure.wire import Ask, Call, Conversation, Party

DIALOGUE = [
    ("begin", "begun 0.1"), ("begin", "begun 0.1 waits 1 2.7"), ("begin", "begun 0.1 deadlock 0 2.7 a"), ("begin", "begun 0.1 refused 3 names-full"),
    ("begin", "refused transactions-full"), ("begin", "refused counts-full"), ("begin", "refused operator"),
    ("lock", "granted"), ("lock", "held"), ("lock", "waits 2.7"), ("lock", "waits 5 4294967295.65535"), ("lock", "deadlock 2.7 a"),
    ("lock", "deadlock 1 2.7 a 3.1 b .."), ("lock", "deadlock 2.7 .. 3.1 .. .."),
    ("lock", "refused no-transaction"), ("lock", "refused waiting"), ("lock", "refused 2 name-too-long"), ("lock", "refused labels-full"),
    ("try", "granted"), ("try", "held"), ("try", "busy 2.7"), ("unlock", "unlocked"), ("unlock", "refused not-owner"), ("commit", "committed"),
    ("abort", "aborted"), ("cancel", "cancelled"), ("cancel", "refused not-waiting"),
    ("owner", "owner 2.7"), ("owner", "free"), ("status", "active"), ("status", "ending"), ("status", "waiting a\\xff 2.7"),
    ("holds", "holds"), ("holds", "holds a b"), ("holds", "holds a b .."), ("holds", "refused no-transaction"),
    ("fence", "fence 7 8"), ("fence", "refused no-epoch"), ("totals", "totals 1 2 3 4"),
    ("hello", "hello 1 2 3 4 5"), ("hello", "refused connections-full"), ("counts", "counts 1 2 3 4 5 6 7 8 9 10 later"), ("graph", "graph 0"),
    ("graph", "graph 2\n* 0.1 a 2.7\n* 2.7 b 0.1"), ("list", "list 4\n* 0.1 1 active 7\n* 1.1 3 waiting a 0.1 later\n* 2.1 2 waiting b 1.1\n* 3.1 1 ending"),
    ("clients", "clients 1\n* 1 2 3 4 later"),
]  # fmt: skip
"""Each request with each of its replies, by docs/SERVICE.md."""
EVENTS = ["* granted 9.9 a", "* aborted 9.9"]
NO_REPLIES = [
    ("begin", ["begun", "begun 0", "begun 0.1 ", "begun 0.1 waits 2.7", "begun 0.1 waits x 2.7", "begun 0.1 granted", "begin 0.1", "committed", "", " begun 0.1"]),
    ("lock", ["grante", "granted ", "granted 0.1", "waits", "waits 2", "waits 1 2", "waits 1 2 3.4", "busy 2.7", "refused", "refused ", "refused 1", "malformed", "deadlock 2.7",
              "deadlock 1 2.7", "deadlock 2.7 a 3.1", "deadlock 2.7 ..  ", "deadlock 2.7 a .. ..", "deadlock a 2.7", "deadlock"]),
    ("try", ["waits 2.7", "busy"]), ("commit", ["aborted", "later"]), ("abort", ["later", "committed"]), ("cancel", ["aborted", "carried"]),
    ("owner", ["owner", "owner a", "free 1"]),
    ("status", ["waiting", "waiting a", "waiting a b", "waiting a 2.7 later", "ending a 2.7", "deadlock a 2.7", "idle"]), ("holds", ["hold a", "holds a  b", "holds "]),
    ("fence", ["fence 1", "fence a b"]), ("totals", ["totals 1 2 3", "totals 1 2 3 x"]),
    ("hello", ["hello", "hello 1 2 3 4"]), ("graph", ["graph", "graph x", "graph -1", "graph 1 2", "graph 1\n* 0.1 a", "graph 1\n* 0.1 a b c", "graph 2\n* 0.1 a 1.1\ngranted",
                                                     "graph 1\ngranted"]),
    ("list", ["list 1\n* 0.1 x active", "list 1\n* 0.1 - active", "list 1\n* 0.1 1 asleep"]), ("counts", ["counts 1 2 3 4"]),
]  # fmt: skip
NO_EVENTS = ["* granted 9.9", "* granted 8.8 a", "* aborted", "* aborted 8.8", "* deadlock 0.1 a", "* woken 9.9", "*", "granted", "* granted 9.9 a b"]
TIMES = [float("nan"), "2", -1, -0.001, True, None.__class__, [1], float("-inf")]


def lines(text: str) -> bytes:
    return text.encode().decode("unicode_escape").encode("latin-1") + b"\n"


class Wire(Case):
    def talk(self, *words: str) -> tuple[Conversation, list[Call], Party]:
        """A conversation in which a transaction 9.9 is live, and these requests were sent."""
        talk, party = Conversation(), Party()
        talk.send(Call(Ask(b"begin"), party))
        talk.feed(b"begun 9.9\n")
        calls = [Call(Ask(word.encode()), Party()) for word in words]
        for call in calls:
            talk.send(call)
        return talk, calls, party

    def test_each_cut(self) -> None:
        """All replies with events between them, cut at each byte, give the same answers."""
        text = b"".join(lines(reply) + (lines(EVENTS[0]) if number % 5 == 0 else b"") for number, (_, reply) in enumerate(DIALOGUE)) + lines(EVENTS[1])
        wanted = [tuple(lines(reply)[:-1].split(b"\n")[0].split(b" ")) + tuple(lines(reply)[:-1].split(b"\n")[1:]) for _, reply in DIALOGUE]
        for cut in range(1, len(text)):
            talk, calls, party = self.talk(*(word for word, _ in DIALOGUE))
            talk.feed(text[:cut])
            talk.feed(text[cut:])
            same([call.answer for call in calls], wanted, f"cut at {cut}")
            same(party.told, [(b"granted", b"9.9", b"a")] * len(range(0, len(DIALOGUE), 5)) + [(b"aborted", b"9.9")])
        talk, calls, _ = self.talk(*(word for word, _ in DIALOGUE))
        for byte in text:
            talk.feed(bytes([byte]))
        same([call.answer for call in calls], wanted)

    @each([*NO_REPLIES, ("event", NO_EVENTS)])
    def test_no_reply(self, word: str, replies: list[str]) -> None:
        """Any other line is a `ProtocolError`, and ends all calls, also in the middle of a reply."""
        for reply in replies:
            ended: list[int] = []
            talk, calls, party = self.talk(*([word] if word != "event" else []), "owner")
            if reply == "granted" and word == "event":
                talk.feed(b"free\n")
            for number, call in enumerate(calls):
                call.party.is_told = lambda number=number: ended.append(number)  # type: ignore[method-assign, misc]
            party.is_told = lambda: ended.append(99)  # type: ignore[method-assign]
            raises(ProtocolError, talk.feed, lines(reply))
            ended.clear()
            talk.lost()
            same(sorted({*ended}), [*(number for number, call in enumerate(calls) if call.answer is None), 99], reply)

    def test_after_the_end(self) -> None:
        """A request of a transaction that has just ended still has its key."""
        talk, _, party = self.talk()
        talk.send(Call(Ask(b"commit"), party))
        talk.feed(b"committed\n")
        same((talk.is_idle(), talk.send(Call(Ask(b"abort"), party))), (True, b"abort 9.9\n"))

    def test_lines_are_cut(self) -> None:
        """A request of many names is cut into lines that are as long as a line may be, and each name is asked for once."""
        for size in 1, 100, 1023, 1024:
            names = [b"%d/" % number + b"x" * size for number in range(300)]
            names = [name[:1024] for name in names]
            state, sent = flows.State(session=STEPS), []
            for flow in flows.begin(state, names, math.inf), flows.lock(state, names, math.inf):
                asked, answer, party = [], None, Party()
                with contextlib.suppress(StopIteration):
                    while True:
                        ask: Any = flow.send(answer)
                        party.key = b"" if ask.word == b"begin" else b"65535.4294967295"
                        sent.append(len(Conversation().send(Call(ask, party))))
                        asked += ask.names
                        answer = (b"begun", b"65535.4294967295") if ask.word == b"begin" else (b"granted",)
                same(asked, names)
            self.assertTrue(1000 - size % 1000 < max(sent) <= wire.LONGEST + 1, sent)

    @each([("its own", ()), ("of a key", (b"7.1",))])
    def test_parts(self, name: str, key: tuple[bytes, ...]) -> None:
        """The names of a transaction are asked for part by part, each after the last name of the one before, and no more is asked than is needed."""
        for count in 0, 1, 1023, 1024, 1025, 2048, 2049:
            names, asks, answer = [b"%04d" % number for number in range(count)], [], None
            flow = flows.holds(flows.State(session=STEPS, key=b"7.1"), *key)
            try:
                while True:
                    asks.append(flow.send(answer))
                    left = names[STEPS.part * (len(asks) - 1) :]
                    answer = (b"holds", *left[: STEPS.part], *([b".."] if len(left) > STEPS.part else []))
            except StopIteration as end:
                same(end.value, [name.decode() for name in names])
            same(asks, [Ask(b"holds", (*key, *names[at - 1 : at])) for at in range(0, max(count, 1), STEPS.part)])


class Steps:
    """A session whose calls are what a flow is seen to await; it is sent what they return."""

    part = 1024

    @types.coroutine
    def ask(self, step: Any) -> Any:
        return (yield step)

    wait = ask


STEPS = Steps()


class World:
    """A service by its model, with three clients, each of which has a conversation; bytes are on their way until `pump` carries them."""

    def __init__(self) -> None:
        self.hub = Hub(4, 16, epoch=5, transactions=16, names=16, name_bytes=20)
        self.talks = [Conversation() for _ in range(4)]
        self.sent: list[tuple[int, bytes]] = []

    def send(self, number: int, data: bytes) -> None:
        self.sent += [(number, line) for line in data.split(b"\n")[:-1]]

    def pump(self) -> None:
        while self.sent:
            number, line = self.sent.pop(0)
            for told in self.hub.answer(b"%d " % number + line):
                to, _, reply = told.partition(b" ")
                if to != b"0":
                    self.send(int(to), self.talks[int(to)].feed(reply + b"\n"))

    def says(self, number: int, line: str) -> None:
        """A request of a client that is not tried, which is on its way."""
        self.send(number, line.encode() + b"\n")
        self.talks[number].pending.append(Call(Ask(line.split()[0].encode()), Party()))

    def ask(self, number: int, line: str) -> None:
        """The same, and it is answered."""
        self.says(number, line)
        self.pump()


LEFT = object()
"""What `Place.runs` returns of a flow that was left."""


class Place(Party):
    """A session in that world, whose flow is run step by step."""

    def __init__(self, world: World, number: int) -> None:
        super().__init__()
        self.world, self.number, self.talk = world, number, world.talks[number]

    def begins(self, flow: Any, moment: int, is_delivered: bool) -> Any:
        """Runs the flow, and leaves it at this moment, before or after the answer came. Whether it had come so far."""
        with contextlib.suppress(LockError):
            return self.runs(flow, moment, is_delivered) is LEFT
        return False

    def runs(self, flow: Any, moment: int = -1, is_delivered: bool = True) -> Any:
        """Runs the flow to its end, whose value it returns, or up to this moment."""
        answer = None
        try:
            for count in itertools.count():
                step = flow.send(answer)
                if isinstance(step, Ask):
                    call = Call(step, self)
                    self.world.send(self.number, self.talk.send(call))
                    if count == moment and not is_delivered:
                        return LEFT
                    self.world.pump()
                    answer = call.answer
                else:
                    answer = self.told.pop(0) if self.told else None
                if count == moment:
                    return LEFT
        except StopIteration as end:
            return end.value


class Left(Case):
    """Calls that are left, as by a task that is cancelled, at each of their moments."""

    def world(self) -> tuple[World, Place]:
        """Client 2 owns `two`. Client 3 owns `three` and waits for `one`, which client 1's transaction owns if it has begun."""
        world = World()
        world.ask(2, "begin two")
        world.ask(3, "begin three")
        return world, Place(world, 1)

    @each([("free", ["one", "four"]), ("one waits", ["one", "two"]), ("many", [f"n{number}" for number in range(20)])])
    def test_begin(self, name: str, names: list[str]) -> None:
        """A begin that is left leaves no transaction."""
        for moment, is_delivered in itertools.product(range(6), (False, True)):
            world, place = self.world()
            flow = flows.begin(flows.State(session=STEPS), [name.encode() for name in names], -math.inf)
            if place.begins(flow, moment, is_delivered):
                flow.close()
                world.send(1, place.talk.drop(place))
                world.pump()
                same(sorted(world.hub.service.keys), [b"0.1", b"1.1"], f"{moment} {is_delivered}")
                self.assertTrue(place.talk.is_idle())

    @each([("free", ["four"]), ("some", ["five", "two", "six"]), ("time is up", ["two"]), ("looks", ["two"]), ("deadlock", ["three"])])
    def test_lock(self, name: str, names: list[str]) -> None:
        """A lock that is left waits no longer, and the transaction goes on."""
        deadline = -math.inf if name == "time is up" else math.inf
        for moment, is_delivered in itertools.product(range(6), (False, True)):
            world, place = self.world()
            state = flows.State(session=STEPS, reply_timeout=0.0 if name == "looks" else math.inf)
            place.runs(flows.begin(state, [b"one"], math.inf))
            if name == "deadlock":
                world.ask(3, "lock 1.1 one")
            flow = flows.lock(state, [name.encode() for name in names], deadline)
            if not place.begins(flow, moment, is_delivered):
                continue
            flow.close()
            world.send(1, place.talk.abandon(place))
            world.pump()
            service = world.hub.service
            process = service.keys[state.key]
            self.assertNotIn(process, service.table.wait, f"it waits: {moment} {is_delivered}")
            held = place.runs(flows.asked(state, Ask(b"holds"), lambda words: words[1:]))
            same(held, tuple(sorted(service.names[process])))
            place.runs(flows.abort(state))
            self.assertTrue(place.talk.is_idle())
            self.assertNotIn(state.key, service.keys)

    def test_grant_of_before(self) -> None:
        """A wait that was left and granted before it was taken back is not the next one."""
        world, place = self.world()
        state = flows.State(session=STEPS)
        place.runs(flows.begin(state, [], math.inf))
        flow = flows.lock(state, [b"two"], math.inf)
        self.assertTrue(place.begins(flow, 0, True))
        flow.close()
        world.says(2, "unlock 0.1 two")
        world.send(1, place.talk.abandon(place))
        raises(Timeout, place.runs, flows.lock(state, [b"three"], -math.inf))
        same(world.hub.service.names[world.hub.service.keys[state.key]], [b"two"])


class Clock(Case):
    """A lock with a time-out, by a clock of the test's own."""

    def told(self, *steps: Any, deadline: float = 10.0, interrupts: int = -1, slow: float = math.inf, looks: float = math.inf) -> Any:
        """Runs a lock whose answers these are, and returns how it ended. A number is a time at which the wait returns nothing."""
        now, self.warned, self.asked, self.untils = [0.0], [], [], []
        state = flows.State(slow, looks, lambda *told: self.warned.append(told), STEPS)
        with unittest.mock.patch("pashkure.flows.monotonic", lambda: now[0]):
            flow, answer = flows.lock(state, [b"a"], deadline), None
            try:
                for count, given in enumerate([None, (b"waits", b"9.1"), *steps]):
                    state.is_interrupted = state.is_interrupted or count == interrupts
                    if isinstance(given, (int, float)):
                        now[0], given = float(given), None
                    answer = flow.send(given)
                    (self.asked if isinstance(answer, Ask) else self.untils).append(answer)
            except StopIteration:
                return None
            except LockError as error:
                return error
            return answer

    def test_time_out(self) -> None:
        """It gives up at the time, and not before, whatever wakes it."""
        error = self.told(0.0, 9.999, 10.0, (b"cancelled",))
        same((type(error), error.name, self.untils), (Timeout, "a", [10.0] * 3))
        same([ask.word for ask in self.asked], [b"lock", b"cancel"])

    @each([("a time", 10.0), ("none", math.inf)])
    def test_looks(self, name: str, deadline: float) -> None:
        """A service from which nothing comes for the time of a reply has to answer, each time. To a call with a time it has to within a second of it."""
        waiting = (b"waiting", b"a", b"9.1")
        same(self.told(2.0, waiting, 4.5, waiting, (b"granted", b"9.9", b"a"), deadline=deadline, looks=2.0), None)
        same((self.untils, [ask.word for ask in self.asked]), ([2.0, 4.0, 6.5], [b"lock", b"status", b"status"]))
        same({ask.deadline for ask in self.asked}, {deadline + 1.0})
        self.told(12.0, (b"cancelled",), deadline=deadline, interrupts=2)
        same(self.asked[-1].deadline, max(deadline, 12.0) + 1.0)

    @each([("granted", (b"granted", b"9.9", b"a"), None), ("aborted", (b"aborted", b"9.9"), Aborted)])
    def test_ended_between(self, name: str, told: Any, wanted: Any) -> None:
        """What ends the wait while it is taken back counts."""
        for steps in (told,), (10.0, (b"refused", b"not-waiting"), told):
            error = self.told(*steps)
            same(error if wanted is None else type(error), wanted)
        same(type(self.told(10.0, (b"refused", b"not-waiting"), 11.0)), ProtocolError)

    def test_interrupted(self) -> None:
        """An interrupt takes the wait back, once; if it was granted in between, the next wait is interrupted."""
        same(type(self.told((b"cancelled",), interrupts=1)), Interrupted)
        same(type(self.told(0.0, (b"cancelled",), interrupts=2)), Interrupted)
        same(self.told(0.0, (b"refused", b"not-waiting"), (b"granted", b"9.9", b"a"), interrupts=2), None)

    def test_slow_wait(self) -> None:
        """A wait that is slow is told once, while it waits on."""
        same(self.told(3.0, 9.0, (b"granted", b"9.9", b"a"), slow=3.0), None)
        same((self.warned, self.untils), ([(b"", "a", "9.1", 3.0)], [3.0, 10.0, 10.0]))


class Silent:
    """A session of which nothing may be asked."""

    epoch, watch, reply_timeout = 1, Watch(), math.inf

    def __getattr__(self, name: str) -> Any:
        raise AssertionError(f"{name} was called")


class Arguments(Case):
    """What is no name, key or time raises before a byte is sent, in both forms."""

    def callers(self) -> list[tuple[Any, Any]]:
        """Locks and a transaction of each form, of which nothing may be asked."""
        plain = pashkure.Locks(Silent(), Retry())
        tx = Transaction(Silent())
        tasks = aio.Locks(Silent(), Retry())
        return [(plain, tx), (tasks, tasks.transaction())]

    def test_names(self) -> None:
        for locks, tx in self.callers():
            for call in tx.lock, tx.try_lock, tx.unlock, tx.fence, locks.owner, locks.transaction, lambda name: tx.lock("good", name):
                for name in NO_NAMES:
                    raises(pashkure.BadName, call, name)
                for name in NO_TEXTS:
                    raises(TypeError, call, name)
                for name in "x" * 1025, "ä" * 513, b"x" * 10**6:
                    same(raises(pashkure.NameTooLong, call, name).limit, 1024)

    def test_every_byte(self) -> None:
        """A name of each byte is sent as it is, or refused."""
        for byte in range(256):
            name = b"a%cb" % byte
            if byte <= 0x20 or byte == 0x7F:
                raises(pashkure.BadName, encoded, name)
            else:
                same(encoded(name), name)
                same(encoded(name.decode("utf-8", "surrogateescape")), name)

    def test_keys(self) -> None:
        for key in NO_KEYS:
            raises(ValueError, key_bytes, key)
        for no_text in [*NO_TEXTS, b"0.1"]:
            raises(TypeError, key_bytes, no_text)
        same(key_bytes("4294967295.0"), b"4294967295.0")
        operator = pashkure.Operator("/no/such/socket", connect_timeout=0)
        for call in operator.status, operator.holds, operator.abort:
            raises(pashkure.CannotConnect, call, "0.1")
            for key in NO_KEYS:
                raises(ValueError, call, key)

    def test_pickle(self) -> None:
        """Locks say that each process opens its own."""
        for locks, _ in self.callers():
            self.assertRaisesRegex(TypeError, "each process opens its own", pickle.dumps, locks)

    def test_times(self) -> None:
        for locks, tx in self.callers():
            for call in lambda time: tx.lock("a", timeout=time), lambda time: tx.commit(timeout=time), lambda time: locks.transaction("a", timeout=time):
                for time in TIMES:
                    self.assertRaises((TypeError, ValueError), call, time)
            for option in "connect_timeout", "reply_timeout", "slow_wait":
                for time in TIMES:
                    self.assertRaises((TypeError, ValueError), lambda: type(locks).connect("x", **{option: time}))
            raises(ValueError, type(locks).connect)
        for attempts in 0, -3, 1.5, True, "2":
            self.assertRaises((TypeError, ValueError), Retry, attempts)


class FakeLocks(contextlib.AbstractContextManager, contextlib.AbstractAsyncContextManager):
    """Locks in both forms whose transactions only count, and whose work takes its time by a clock of the test's own."""

    def __init__(self, form: Any, retry: Retry) -> None:
        self.begun, self.now, self.pauses, self.is_plain = 0, 0.0, [], form is pashkure
        self.pause = Service.pause if self.is_plain else self.sleeps
        self.locks = form.Locks(self, retry)
        self.locks.transaction = self.transaction

    def transaction(self) -> Any:
        self.begun += 1
        return self

    async def sleeps(self, seconds: float) -> None:
        same(aio.service.Service.pause, asyncio.sleep)
        self.pauses.append(seconds)

    def run(self, work: Callable[..., Any]) -> Any:
        async def works(tx: Any) -> Any:
            return work(tx)

        with unittest.mock.patch("pashkure.calls.monotonic", lambda: self.now), unittest.mock.patch("pashkure.backend.sleep", self.pauses.append):
            return self.locks.run(work) if self.is_plain else asyncio.run(self.locks.run(works))

    def __exit__(self, *error: Any) -> None:
        self.now += 0.5

    async def __aexit__(self, *error: Any) -> None:
        self.now += 0.5


class Group(Exception):
    def __init__(self, *exceptions: BaseException) -> None:
        super().__init__("some")
        self.exceptions = exceptions


def fails(error: BaseException) -> Any:
    raise error


class Retries(Case):
    @each([pashkure, aio])
    def test_attempts(self, form: Any) -> None:
        """As many as it is told, with pauses up to the attempt's own time, twice as long after each."""
        for attempts in 1, 2, 10:
            random.seed(attempts)
            fake = FakeLocks(form, Retry(attempts, 0.001, 4.0))
            raises(Deadlock, fake.run, lambda tx: fails(Deadlock("a", "0.1")))
            same((fake.begun, len(fake.pauses)), (attempts, attempts - 1))
            random.seed(attempts)
            same(fake.pauses, [random.uniform(0, min(4.0, 0.5 * 2**number)) for number in range(attempts - 1)])
        same(max(Retry(3, 0.1, 2.0).pause(1, 0.0) for _ in range(200)) > 0.05, True)

    @each([pashkure, aio])
    def test_what_is_tried_again(self, form: Any) -> None:
        """Deadlocks, also in groups, and nothing else."""
        deadlock = Deadlock("a", "0.1")
        for error in deadlock, Group(deadlock), Group(Group(deadlock), Aborted("so")):
            fake = FakeLocks(form, Retry(3))
            raises(type(error), fake.run, lambda tx: fails(error))
            same(fake.begun, 3)
        for error in LocksLost("lost"), KeyError(1), Full("names"), Group(KeyError(1)), Group(deadlock, KeyError(1)), Aborted("so"), KeyboardInterrupt():
            fake = FakeLocks(form, Retry(3))
            self.assertRaises(type(error), fake.run, lambda tx: fails(error))
            same(fake.begun, 1)

    def test_coroutines(self) -> None:
        """Work that is to be awaited is refused by the form for threads, before it begins or with an abort; and other work by the one for tasks."""

        async def work(tx: Any) -> None:
            raise AssertionError

        fake = FakeLocks(pashkure, Retry(3))
        raises(TypeError, fake.run, work)
        same(fake.begun, 0)
        raises(TypeError, fake.run, lambda tx: work(tx))
        same(fake.begun, 1)
        tasks = FakeLocks(aio, Retry(3))

        async def main() -> None:
            await tasks.locks.run(lambda tx: 1)  # type: ignore[arg-type, return-value]

        self.assertRaises(TypeError, asyncio.run, main())


class Forms(Case):
    def test_the_same_calls(self) -> None:
        """Both forms have the same calls with the same parameters."""
        for name in "Locks", "Transaction":
            found = []
            for form in pashkure, aio:
                members = inspect.getmembers(getattr(form, name), lambda member: callable(member) or isinstance(member, property))
                signatures = {key: "" if isinstance(value, property) else str(inspect.signature(value)) for key, value in members if not key.startswith("_")}
                plain = {key: re.sub(r"['\"]|Awaitable\[|self, | -> .*", "", text).replace("R]]", "R]") for key, text in signatures.items()}
                found.append({key: text.replace(", connections: int = 1", "") for key, text in plain.items()})
            same(found[0], found[1])

    def test_documented(self) -> None:
        """Each public call of both forms has a text of its own."""
        for form in pashkure, aio:
            for name in form.__all__:
                item = getattr(form, name)
                self.assertTrue(item.__doc__ or not inspect.isclass(item), name)
                for key, value in vars(item).items() if inspect.isclass(item) else ():
                    self.assertTrue(key.startswith("_") or not callable(value) or value.__doc__, f"{name}.{key}")

    def test_pickled(self) -> None:
        """Exceptions survive a way between processes."""
        import pickle

        wait = pashkure.Wait("0.1", "a", "1.1")
        for error in Deadlock("a", "1.1", [wait]), Timeout("a"), Full("labels"), LocksLost("x"), NotOwner("x"), Interrupted("x"):
            told = pickle.loads(pickle.dumps(error))
            same((type(told), str(told), vars(told)), (type(error), str(error), vars(error)))
        same(str(Deadlock("a", "1.1", [wait, pashkure.Wait("1.1", "b", "0.1")])).count("waits for"), 2)
        fences = [pashkure.Fence(1, 10), pashkure.Fence(1, 9), pashkure.Fence(2**63 - 1, 0), pashkure.Fence(0, 2**62)]
        same(sorted(map(str, fences)), [str(fence) for fence in sorted(fences)])

    def test_mypy(self) -> None:
        """The package, and a user's program, whose wrong lines are marked with `# wrong`, under `mypy --strict`."""
        wants("mypy")
        program = os.path.join(os.path.dirname(os.path.dirname(os.path.abspath(__file__))), "lib", "typed.py")
        told = run("mypy", "--strict", "--cache-dir", self.path("cache"), program, "pashkure", cwd=PACKAGE, env=environment(MYPYPATH=PACKAGE))
        errors = re.findall(rb"typed\.py:(\d+): error", told.out)
        wanted = [number for number, line in enumerate(read(program).splitlines(), 1) if "# wrong" in line]
        same((sorted({*map(int, errors)}), told.out.count(b"error:") - len(errors)), (wanted, 0), told.out.decode())


USE = "import sys, pashkure, pashkure.aio, pashkure.testing; print(sys.version_info[:2] >= (3, 9), pashkure.Retry(2).pause(1, 0) <= 0.001, pashkure.Status('active'))"


class Versions(Case):
    @each([f"python3.{minor}" for minor in range(9, 14)])
    def test_first_use(self, python: str) -> None:
        """Each Python on the PATH imports the package without a warning."""
        if run("sh", "-c", f"{python} -c 'import sys; sys.exit(sys.version_info < (3, 9))'").status:
            self.skipTest(f"no {python} is on the PATH")
        told = subprocess.run([python, "-X", "dev", "-W", "error", "-c", USE], env=environment(), capture_output=True, text=True)
        same((told.stdout, told.stderr), ("True True Status(state='active', name=None, holder=None)\n", ""))
