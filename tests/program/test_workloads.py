"""Workloads: how they end, what is said of them, and files that are none."""
import json
import os
import re
import shutil
import signal
import subprocess

from lib.world import PROGRAM, TOP, Case, each, read, run

LEFT_OVER = "spent 0 refused 0"
CROSSWISE_LINES = f"clients finished 1 aborted 1 {LEFT_OVER}\ntable verdicts 1 aborts 1\n"
EXAMPLES = os.path.join(TOP, "examples/workloads")
NUMBERS = {"processes": 2, "resources": 2, "label_limit": 1000, "generation_limit": 9, "transmitters": 1, "turns": 1_000_000}
TURNS = "the key turns is not a whole number from 1 to 1000000000"
TRANSMITTERS = "the key transmitters is not a whole number from 0 to 64"
NO_CLIENTS = "the key clients is not an array of 1 to 64 clients"
FORM = "client 1, step 2: not an array of a word and a number"
WORD = "client 1, step 2: the word is not acquire, release or meet"
NUMBER = "client 1, step 2: the number is not a whole number from 0 to 4294967295"
UNREADABLE, TOO_SOON = "no JSON that can be read", "the JSON text ends too soon"
# Two clients that acquire two resources crosswise; each text below is this one with one change.
CROSSWISE = ('{"processes":2,"resources":2,"label_limit":1000,"generation_limit":9,"transmitters":1,"turns":10000000,'
             '"clients":[[["acquire",0],["meet",2],["acquire",1]],[["acquire",1],["meet",2],["acquire",0]]]}')  # fmt: skip
CLIENTS = '[["acquire",0],["meet",2],["acquire",1]],[["acquire",1],["meet",2],["acquire",0]]'
STEP = '["meet",2]'


def changed(part: str, other: str) -> str:
    """The workload with other text in place of its part, where that stands first."""
    assert part in CROSSWISE, part
    return CROSSWISE.replace(part, other, 1)


def of_clients(clients: int, steps: int) -> str:
    """The workload with so many clients, each of so many steps."""
    return changed(CLIENTS, ",".join(["[" + ",".join(['["release",7]'] * steps) + "]"] * clients))


def nested(depth: int) -> str:
    """The workload with one more key, whose value is so many arrays in one another."""
    return changed("]]]}", ']]],"other":' + "[" * depth + "]" * depth + "}")


def greatest(key: str, most: int) -> str:
    return f"the key {key} is not a whole number from 0 to {most}"


# Each text with what a person is told of it: the place and the cause. No clause says which place is told, so these were written by hand from
# docs/WORKLOADS.md. One that is a workload has no such line.
TEXTS: "list[tuple[str, str | bytes, str | None]]" = [
    *((f"without {key}", changed(text, ""), f"the key {key} is missing") for key, text in [
        ("processes", '"processes":2,'), ("resources", '"resources":2,'), ("label_limit", '"label_limit":1000,'),
        ("generation_limit", '"generation_limit":9,'), ("transmitters", '"transmitters":1,'), ("turns", '"turns":10000000,')]),
    ("another key", changed("clients", "Clients"), "the key clients is missing"),
    ("processes", changed('"processes":2', '"processes":4294967296'), greatest("processes", 2**32 - 1)),
    ("resources", changed('"resources":2', '"resources":"2"'), greatest("resources", 2**32 - 1)),
    ("generations", changed('"generation_limit":9', '"generation_limit":[9]'), greatest("generation_limit", 2**32 - 1)),
    ("labels", changed("1000,", "18446744073709551616,"), greatest("label_limit", 2**64 - 1)),
    *((f"transmitters {value}", changed('"transmitters":1,', f'"transmitters":{value},'), TRANSMITTERS) for value in ("65", "-1", "-0", "true")),
    *((f"turns {value}", changed("10000000", value), TURNS) for value in ("0", "1000000001", "1e7", "1.0", "null")),
    *((f"a step {step}", changed(STEP, step), FORM) for step in ('["acquire",0,0]', '["acquire"]', '[0,"acquire"]', '{"acquire":0}', '"acquire"')),
    *((f"a word {step}", changed(STEP, step), WORD) for step in ('["fly",0]', '["Meet",2]', '["meet ",2]')),
    *((f"a number {step}", changed(STEP, step), NUMBER) for step in ('["meet",-1]', '["acquire",1.0]', '["meet",4294967296]', '["meet","2"]')),
    ("a last step", changed('["acquire",0]]]}', "7]]}"), "client 2, step 3: not an array of a word and a number"),
    ("no clients", of_clients(0, 0), NO_CLIENTS), ("65 clients", of_clients(65, 0), NO_CLIENTS),
    ("65 clients of 257 steps", of_clients(65, 257), NO_CLIENTS), ("257 steps", of_clients(1, 257), "client 1 is not an array of at most 256 steps"),
    ("clients that are a number", changed('"clients":[', '"clients":8,"others":['), NO_CLIENTS),
    ("a client that is an object", changed('[["acquire",1],["meet",2],["acquire",0]]', "{}"), "client 2 is not an array of at most 256 steps"),
    # (columns are those at which the text was changed, or one past what is too large or too deep)
    ("a word behind it", changed("]]]}", "]]]} word"), f"line 1, column 199: {UNREADABLE}"),
    ("a comma too many", changed("]]]}", "]]],}"), f"line 1, column 198: {UNREADABLE}"),
    ("no end", changed("]]]}", "]]]"), f"line 1, column 196: {TOO_SOON}"),
    ("a number too great", changed("]]]}", ']]],"other":1e999}'), f"line 1, column 211: {UNREADABLE}"),
    ("half a letter", changed("]]]}", ']]],"other":"\\ud800"}'), f"line 1, column 206: {UNREADABLE}"),
    ("half a word", changed("]]]}", ']]]\n,\n\n  "other":tru}'), f"line 4, column 11: {UNREADABLE}"),
    ("a zero in front", changed("10000000", "01"), f"line 1, column 95: {UNREADABLE}"),
    ("a mark of byte order", changed("{", "\ufeff{"), f"line 1, column 1: {UNREADABLE}"), ("an array", "[]", "the file is not a JSON object"),
    ("a number alone", "7", "the file is not a JSON object"), ("nothing", "", f"line 1, column 0: {TOO_SOON}"),
    ("a first part", '{"processes":2,', f"line 1, column 15: {TOO_SOON}"), ("as deep as can be", nested(126), None),
    ("too deep", nested(127), f"line 1, column 333: {UNREADABLE}"),
    ("a byte that is no text", CROSSWISE.encode() + b"\xff", f"line 1, column 198: {UNREADABLE}"), ("as long as can be", CROSSWISE.ljust(1_048_576), None),
    ("a byte too long", CROSSWISE.ljust(1_048_577), "the file is longer than 1048576 bytes"),
]  # fmt: skip


def workload(clients: object, **numbers: int) -> str:
    return json.dumps({**NUMBERS, **numbers, "clients": clients})


def lines(finished: int = 0, aborted: int = 0, spent: int = 0, refused: int = 0) -> str:
    return f"clients finished {finished} aborted {aborted} spent {spent} refused {refused}\ntable verdicts {aborted} aborts {aborted}\n"


class Workloads(Case):
    def runs(self, path: str, status: int, out: str, told: "str | None" = None) -> str:
        """Runs a file without a flag and with --verbose: the same is on standard output. Returns what else --verbose says."""
        self.ends(self.run_program("threads", path), status, out)
        return self.ends(self.run_program("threads", path, "--verbose"), status, out, told).err.decode()

    @each([("crosswise", 1, 1), ("philosophers", 4, 1), ("hot_resource", 8, 0), ("chain", 5, 0), ("ring_of_64", 63, 1)])
    def test_examples(self, name: str, finished: int, aborted: int) -> None:
        told = self.runs(f"{EXAMPLES}/{name}.json", 0, lines(finished, aborted))
        self.assertIn(f"{EXAMPLES}/{name}.json: clients {finished + aborted}, ", told)

    def test_what_verbose_says(self) -> None:
        path = f"{EXAMPLES}/crosswise.json"
        told = self.runs(path, 0, CROSSWISE_LINES)
        for text in (f"{path}: clients 2, transmitters 1, turns of each 10000000\n",
                     f"{path}: processes 2, resources 2, label limit 1000, generation limit 9\n", " aborted", "calls accepted "):  # fmt: skip
            self.assertIn(text, told)

    def test_from_a_pipe(self) -> None:
        self.ends(self.run_program("threads", "/dev/stdin", given=CROSSWISE), 0, CROSSWISE_LINES)

    @each(["", "--verbose", "-v"])
    def test_name_with_a_space(self, flag: str) -> None:
        path = self.file("a file.json", CROSSWISE)
        told = self.run_program("threads", *flag.split(), path)
        self.ends(told, 0, CROSSWISE_LINES, told.err)
        self.assertEqual(f"{path}: clients 2, transmitters 1, turns of each 10000000\n".encode() in told.err, bool(flag))

    def test_file_that_cannot_be_read(self) -> None:
        for path in self.path("nothing"), self.folder, "":
            self.ends(self.run_program("threads", path), 3, b"", "read fault\n")
        path = self.path("nothing")
        told = self.run_program("threads", path, "--verbose")
        self.assertRegex(self.ends(told, 3, b"", told.err).err.decode(), rf"(?s)\A{path}: .*\nread fault\n\Z")

    @each(TEXTS)
    def test_texts(self, name: str, text: "str | bytes", told: "str | None") -> None:
        path = self.file("workload", text)
        if told is None:
            self.runs(path, 0, CROSSWISE_LINES)
        else:
            self.runs(path, 1, "malformed workload\n", f"{path}: {told}\n")

    ENDS = [
        ("some left over", workload([[["acquire", 5]], [["meet", 2]]]), 5, lines(spent=1, refused=1)),
        ("some that wait for an arrival", workload([[["meet", 2]], [["acquire", 5]]], resources=1, transmitters=0, turns=100), 5, lines(spent=1, refused=1)),
        ("as many steps as can be", workload([[["release", 7]] * 256] * 64, processes=64), 5, lines(refused=64)),
        ("no steps", workload([[]]), 0, lines(1)),
        ("as many as there are keys", workload([[]] * 64, processes=8, generation_limit=8), 0, lines(64)),
        ("one more than there are keys", workload([[]] * 64, processes=7, generation_limit=9), 5, lines(63, spent=1)),
        ("no steps and one turn", workload([[]], processes=1, transmitters=0, turns=1), 0, lines(1)),
        ("eight in one order", workload([[["acquire", place] for place in range(3)]] * 8, processes=8, resources=3, label_limit=1_000_000, transmitters=4,
         turns=1_000_000_000), 0, lines(8)),
        ("32 deadlocks at once", workload([[["acquire", place], ["meet", 64], ["acquire", place ^ 1]] for place in range(64)], processes=64, resources=64,
         turns=1_000_000_000), 0, lines(32, 32)),
        ("a table that is refused", workload([[]], processes=0), 4, "refused 11 BadConfig\n"),
        ("the same without a transmitter", workload([[]], processes=0, transmitters=0, turns=1), 4, "refused 11 BadConfig\n"),
    ]  # fmt: skip

    @each(ENDS)
    def test_ends(self, name: str, text: str, status: int, out: str) -> None:
        self.runs(self.file("workload", text), status, out)

    def test_who_is_left_over(self) -> None:
        """They are told in the order of the clients."""
        path = self.file("workload", workload([[["acquire", 5]], [["meet", 2]], [["acquire", 0]], [["release", 1]]], processes=4))
        told = self.runs(path, 5, lines(1, spent=1, refused=2))
        self.assertEqual(re.findall(r"client \d+ (?:refused \d+|spent)", told), ["client 1 refused 2", "client 2 spent", "client 4 refused 5"])

    def test_how_far_it_is(self) -> None:
        """A run that takes long says how far it is. (It is ended as soon as it has said so, however many turns are left.)"""
        path = self.file("workload", workload([[["meet", 2]]], processes=1, resources=1, label_limit=9, transmitters=0, turns=1_000_000_000))
        with subprocess.Popen([PROGRAM, "threads", "--verbose", path], stdout=subprocess.PIPE, stderr=subprocess.PIPE) as child:
            for line in child.stderr:
                if b"after 1 s: clients ended 0 of 1" in line:
                    break
            else:
                self.fail("it ended before it said how far it was")
            child.send_signal(signal.SIGKILL)

    def test_malformed_into_a_full_device(self) -> None:
        with open("/dev/full", "wb") as full:
            self.ends(self.run_program("threads", self.file("workload", "[]"), stdout=full), 3, b"", "write fault\n")


class Reports(Case):
    """Where a report is written, and where not."""

    def test_in_place_of_an_older_one(self) -> None:
        path = self.file("a report", "0" * 100_000)
        told = self.run_program("storm", f"--report={path}")
        self.ends(told, 0, told.out)
        text = read(path)
        self.assertTrue(text.endswith("}\n") and "totals" in json.loads(text), text)

    def test_on_a_pipe(self) -> None:
        told = self.run_program("storm", "--report", "/dev/stderr")
        self.assertIn("totals", json.loads(self.ends(told, 0, told.out, told.err).err))

    def test_that_cannot_be_written(self) -> None:
        """The two lines are printed all the same."""
        for path in self.path("nothing/report"), self.folder, "/dev/full":
            told = self.run_program("threads", f"{EXAMPLES}/crosswise.json", "--report", path)
            self.assertRegex(self.ends(told, 3, CROSSWISE_LINES, told.err).err.decode(), rf"(?s)\A{path}: .*\nwrite fault\n\Z")

    def test_that_would_replace_the_workload(self) -> None:
        """It is refused before anything runs: by the same name, another name, and links of both kinds."""
        folder = self.path("work")
        os.makedirs(f"{folder}/folder")
        shutil.copy(f"{EXAMPLES}/crosswise.json", f"{folder}/folder/mine.json")
        os.symlink("folder/mine.json", f"{folder}/link")
        os.link(f"{folder}/folder/mine.json", f"{folder}/second")
        pairs = ["folder/mine.json folder/mine.json", "folder/mine.json folder/../folder//mine.json", "folder/mine.json link",
                 "link folder/mine.json", "link link", "folder/mine.json second", "second link"]  # fmt: skip
        for file, report in map(str.split, pairs):
            told = self.run_program("threads", f"{folder}/{file}", "--report", f"{folder}/{report}")
            self.ends(told, 2, b"", f"{folder}/{report}: the report would replace the workload\n")
            self.assertEqual(run("cmp", f"{EXAMPLES}/crosswise.json", f"{folder}/folder/mine.json").status, 0)
        os.symlink("folder/new.json", f"{folder}/to_new")  # a link to nothing is no file yet
        self.ends(self.run_program("threads", f"{folder}/folder/mine.json", "--report", f"{folder}/to_new"), 0, CROSSWISE_LINES)
        self.assertGreater(os.path.getsize(f"{folder}/folder/new.json"), 0)

    def test_none_if_nothing_runs(self) -> None:
        for text, status, out, err in [("[]", 1, "malformed workload\n", b""), (workload([[]], processes=0), 4, "refused 11 BadConfig\n", b""),
                                       (None, 3, "", "read fault\n")]:  # fmt: skip
            path, report = self.path("nothing") if text is None else self.file("workload", text), self.path("report")
            self.ends(self.run_program("threads", path, "--report", report), status, out, err)
            self.assertFalse(os.path.exists(report))
