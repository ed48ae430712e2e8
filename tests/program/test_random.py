"""Random scripts and requests: what is kept in tests/corpus, those of one seed, and those of a new seed, each as a model answers."""
import itertools
import os
import random

from lib import hub, search, service
from lib.table import lines_of
from lib.world import SEED, Case, each, run

LINES = 40_000
BYTES = [bytes([byte]) for byte in range(256) if byte != 0x0A]
FORMED = [b"status 0.1", b"holds 0.1", b"holds 0.1 a", b"graph", b"totals", b"owner a", b"lock 0.1 a", b"try 9.9 a", b"unlock 1.1 a", b"commit 1.1", b"abort 9.9", b"cancel 0.1"]
REQUESTS, CONNECTIONS = (subject for subject in search.SUBJECTS if subject.name in ("requests", "connections"))


class Kept(Case):
    @each([(f"{subject.name}/{os.path.basename(path)}", subject, path) for subject in search.SUBJECTS for path in subject.corpus()])
    def test_kept(self, name: str, subject: search.Subject, path: str) -> None:
        self.assertIsNone(subject.difference(search.read(path)))


class Drawn(Case):
    @each([(f"{subject.name} of {name}", subject, seed) for name, seed in (("one seed", 1), ("a new seed", SEED)) for subject in search.SUBJECTS])
    def test_drawn(self, name: str, subject: search.Subject, seed: int) -> None:
        wrong = search.search(subject, seed, LINES)
        self.assertIsNone(wrong, f"of the seed {seed}: {wrong}\n  again: tests/run -k {self.id().rpartition('.')[2]} --seed {seed}")

    @each([(subject.name, subject) for subject in search.SUBJECTS])
    def test_what_is_drawn(self, name: str, subject: search.Subject) -> None:
        """Each kind of reply comes about, so the search looks at all of them."""
        seen = {word: 0 for word in KINDS[name]}
        for data in search.inputs(subject, 1, LINES):
            for line in subject.wanted(data)[1].split(b"\n"):
                words = line.decode("latin-1").split(" ")
                words = words[1:] if name == "connections" and len(words) > 1 and words[0] != "-" else words
                kind = " ".join(words[:2]) if words[:1] == ["*"] else words[-1] if words[0] == "refused" else words[0]
                if kind in seen:
                    seen[kind] += 1
        self.assertEqual([kind for kind, count in seen.items() if count < 20], [], seen)

    def test_same_bytes(self) -> None:
        """The same lines, seed and epoch give the same bytes."""
        for data in search.inputs(CONNECTIONS, 2, 3_000):
            command = [*CONNECTIONS.command(data), "--seed", "5"]
            self.assertEqual(run(*command, given=data), run(*command, given=data))

    def test_each_byte(self) -> None:
        """Each byte alone, twice and before a request, and each at each place of each request, whose transaction is live, waits, or is none."""
        given = [b"begin", b"begin", b"lock 0.1 a", b"lock 1.1 a"]
        for byte in BYTES:
            given += [byte, byte * 2, b" " + byte, byte + b"\r", byte + b"\r\r", byte + b"owner a", byte + b" begin"]
        for line in FORMED:
            given += [line[:place] + byte * count + line[place:] for place in range(len(line) + 1) for byte in BYTES for count in (1, 2)]
        self.assertIsNone(REQUESTS.difference(b"\n".join(given)))

    def test_end_without_promise(self) -> None:
        """The model's order of grants is the program's, by the numbers of names, which no page promises."""
        given = b"# --names 9\nbegin\nbegin\nbegin\nlock 0.1 c\nlock 0.1 a\nunlock 0.1 c\nlock 0.1 b\nlock 1.1 a\nlock 2.1 b\ncommit 0.1\n"
        self.assertIsNone(REQUESTS.difference(given), service.answers(given))

    def test_cut_short(self) -> None:
        """What fails is cut to what it needs: first lines, and then bytes."""
        data = b"".join(b"line %d x\n" % number if number % 7 == 0 else b"line %d\n" % number for number in range(200)) + b"y\n"
        self.assertEqual(search.shortest(data, lambda given: given.count(b"x") >= 2 and b"y" in given), b"xxy")

    def test_wrong_services(self) -> None:
        """A service that aborts whom it tells of a deadlock, and one that hands over in another order, answer otherwise than the model."""

        class Aborts(service.Service):
            def lock(self, key: bytes, name: bytes) -> bytes:
                reply = super().lock(key, name)
                if reply.startswith(b"deadlock "):
                    self.end(self.keys[key])
                return reply

        class Reversed(service.Service):
            def hand_over(self, process: int, names: list[bytes]) -> None:
                before = len(self.caused)
                super().hand_over(process, names)
                self.caused[before:] = self.caused[before:][::-1]

        for kind in Aborts, Reversed:
            seen = 0
            for data in search.inputs(REQUESTS, 1, 20_000):
                wrong = kind(**service.limits_of(data))
                seen += [reply for line in lines_of(data) for reply in wrong.answer(line)] != REQUESTS.wanted(data)[1].split(b"\n")[:-1]
            self.assertGreater(seen, 2, kind)


class Many(Case):
    """Transactions own more names than a script's table has resources, with connections."""

    NAMES = 70_000

    def say(self, line: bytes) -> list[bytes]:
        """What the model answers to a line, which the program is to answer too."""
        self.lines.append(line)
        said = self.hub.answer(line)
        self.wanted += said
        return said

    def own(self, connection: int, names: list[bytes]) -> bytes:
        """A transaction of a connection that owns these names."""
        key = self.say(b"%d begin" % connection)[0].split(b" ")[2]
        for first in range(0, len(names), 100):
            self.say(b"%d lock %b " % (connection, key) + b" ".join(names[first : first + 100]))
        return key

    def test_ends_by_parts(self) -> None:
        """One commits and one is aborted, both by parts, and a client hangs up, while others ask for names and the operator looks."""
        self.lines, self.wanted, chance = [], [], random.Random(SEED)  # type: ignore[var-annotated]
        self.hub = hub.Hub(5, each=40, transactions=64, names=self.NAMES + 9_000)
        names = [b"%d" % number for number in range(self.NAMES + 6_000)]
        chance.shuffle(names)
        left = iter(names)
        own = [[*itertools.islice(left, size)] for size in (self.NAMES, 3_000, 1_500, 500, 500, 500)]
        first, second, *_ = [self.own(connection, some) for connection, some in zip((1, 2, 3, 3, 3, 3), own)]
        for some in own:
            for name in chance.sample(some, 4):
                self.say(b"4 begin %b" % name)
        for after in chance.sample(own[0], 8):
            self.say(b"1 holds %b %b" % (first, after))
        ends = [b"1 commit %b" % first, b"0 abort %b" % second]
        while ends:
            line = chance.choice(ends)
            if not any(said.startswith(b"* more ") for said in self.say(line)):
                ends.remove(line)
            chance.choice([lambda: self.say(b"4 begin %b" % chance.choice(names)), lambda: self.say(b"0 list"), lambda: self.say(b"0 counts"), lambda: self.say(b"1 status %b" % first)])()
        while self.say(b"- 3")[-1] != b"- 3":
            self.say(b"4 begin %b" % chance.choice(names))
        self.say(b"0 totals")
        told = run(search.PROGRAM, "locks", "--connections", "5", "--each", "40", "--transactions", "64", "--names", str(self.NAMES + 9_000),
                   given=b"".join(line + b"\n" for line in self.lines))  # fmt: skip
        self.assertEqual(self.passes(told).out.split(b"\n")[:-1], self.wanted)


KINDS = {
    "scripts": "ok key granted waits free to finished raised still deadlock standing clear aborted withdrawn settled active waiting convicted owner "
    "totals malformed no table Stale NoResource Waiting AlreadyOwns NotOwner Full LabelsExhausted NotWaiting NoVerdict Carried UnderVerdict".split(),
    "requests": "begun granted held waits deadlock busy unlocked committed aborted cancelled owner free active waiting holds graph totals "
    "malformed no-transaction waiting not-waiting name-too-long not-owner names-full too-many-names transactions-full".split() + ["* granted"],
}
KINDS["connections"] = KINDS["requests"] + "operator - fence no-epoch hello list counts".split() + ["* deadlock", "* aborted"]
