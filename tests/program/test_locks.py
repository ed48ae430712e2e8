"""The lock service over pipes. What is wanted here was worked out by hand from docs/SERVICE.md."""
import random

from lib.world import IS_SLOW, SEED, Case, each

LONG = "x" * 1024
MANY = 1_000_000 if IS_SLOW else 80_000
TAKEN = ["begin: begun 0.1", "begin: begun 1.1", "lock 0.1 a: granted"]
THREE = ["begin: begun 0.1", "begin: begun 1.1", "begin: begun 2.1"]
# 0.1 shows the label of 1.1, which waited after it did. Its wait can be taken back all the same, and 1.1 gets a new label.
CHAIN = [*THREE, "lock 1.1 b: granted", "lock 2.1 c: granted", "lock 0.1 b: waits 1.1", "lock 1.1 c: waits 2.1"]
# 2.1 waits for 0.1, and 0.1 for 1.1, whose wait for 0.1 would close a cycle.
REFUSED = [*THREE, "lock 0.1 a: granted", "lock 1.1 b: granted", "lock 2.1 a: waits 0.1", "lock 0.1 b: waits 1.1", "lock 1.1 a: deadlock 0.1 b"]
# Each of seventeen owns the name of its number, and each but the last one waits for that of the next one.
RING = [*(f"begin: begun {of}.1" for of in range(17)), *(f"lock {of}.1 {of}: granted" for of in range(17)), *(f"lock {of}.1 {of + 1}: waits {of + 1}.1" for of in range(16))]
ANSWERS = [
    ("nothing", [], ""),
    ("each answer of lock and try", [*TAKEN, "lock 0.1 a: held", "try 0.1 a: held", "try 1.1 a: busy 0.1", "try 1.1 b: granted",
     "lock 1.1 a: waits 0.1", "lock 0.1 b: deadlock 1.1 a"], ""),
    ("a name is handed to its longest waiter", [*THREE, "lock 0.1 a: granted", "lock 1.1 a: waits 0.1", "lock 2.1 a: waits 0.1",
     "owner a: owner 0.1", "unlock 0.1 a: unlocked/* granted 1.1 a", "owner a: owner 1.1", "commit 1.1: committed/* granted 2.1 a",
     "owner a: owner 2.1", "commit 2.1: committed", "owner a: free"], ""),
    ("who is told of a deadlock goes on with its locks", [*TAKEN, "lock 1.1 b: granted", "lock 0.1 b: waits 1.1", "lock 1.1 a: deadlock 0.1 b",
     "status 1.1: active", "holds 1.1: holds b", "cancel 1.1: refused not-waiting", "lock 1.1 a: deadlock 0.1 b", "lock 1.1 c: granted",
     "try 1.1 a: busy 0.1", "unlock 1.1 b: unlocked/* granted 0.1 b", "lock 1.1 a: waits 0.1", "commit 0.1: committed/* granted 1.1 a",
     "holds 1.1: holds a c", "commit 1.1: committed", "totals: totals 2 2 0 2"], ""),
    ("the waits of a deadlock lead back to who is told", [*THREE, "begin: begun 3.1", "lock 0.1 a: granted", "lock 1.1 b: granted",
     "lock 2.1 c: granted", "lock 3.1 a: waits 0.1", "lock 0.1 b: waits 1.1", "lock 1.1 c: waits 2.1", "lock 2.1 a: deadlock 0.1 b 1.1 c",
     "abort 2.1: aborted/* granted 1.1 c"], ""),
    ("sixteen waits of a deadlock are told", [*RING, f"lock 16.1 0: deadlock {' '.join(f'{of}.1 {of + 1}' for of in range(16))}"], ""),
    ("of seventeen waits the last one is not told", [*RING, "begin: begun 17.1", "lock 17.1 17: granted", "lock 16.1 17: waits 17.1",
     f"lock 17.1 0: deadlock {' '.join(f'{of}.1 {of + 1}' for of in range(16))} .."], ""),
    ("who waits may cancel and abort and nothing else", [*TAKEN, "lock 1.1 a: waits 0.1", "lock 1.1 b: refused waiting",
     "try 1.1 b: refused waiting", "unlock 1.1 a: refused waiting", "commit 1.1: refused waiting", "cancel 1.1: cancelled",
     "status 1.1: active", "cancel 1.1: refused not-waiting", "lock 1.1 a: waits 0.1", "abort 1.1: aborted",
     "abort 1.1: refused no-transaction"], ""),
    ("a wait behind another one is taken back", [*CHAIN, "cancel 0.1: cancelled", "status 0.1: active", "status 1.1: waiting c 2.1",
     "unlock 2.1 c: unlocked/* granted 1.1 c", "unlock 1.1 b: unlocked", "owner b: free"], ""),
    ("who waits behind another one is aborted at once", [*CHAIN, "abort 0.1: aborted", "status 0.1: refused no-transaction",
     "lock 2.1 b: deadlock 1.1 c", "abort 2.1: aborted/* granted 1.1 c", "totals: totals 3 0 2 1"], ""),
    ("a wait behind a deadlock is taken back at once", [*REFUSED, "cancel 2.1: cancelled", "cancel 0.1: cancelled", "status 2.1: active",
     "lock 1.1 a: waits 0.1", "holds 0.1: holds a"], ""),
    ("who waits behind a deadlock is aborted at once", [*REFUSED, "abort 2.1: aborted", "abort 0.1: aborted", "owner a: free",
     "lock 1.1 a: granted", "totals: totals 3 0 2 1"], ""),
    ("what one owned that waits goes on at its abort", [*THREE, "begin: begun 3.1", "lock 2.1 z: granted", "lock 3.1 z: waits 2.1",
     "lock 0.1 a: granted", "lock 2.1 a: waits 0.1", "abort 2.1: aborted/* granted 3.1 z"], ""),
    ("names are listed in the order of their bytes", ["begin: begun 0.1", *(f"lock 0.1 {name}: granted" for name in ("b", "a", "ab", "B", "é")),
     "holds 0.1: holds B a ab b é", "unlock 0.1 ab: unlocked", "holds 0.1: holds B a b é", "holds 0.2: refused no-transaction"], ""),
    ("the names after another one are listed", ["begin: begun 0.1", "begin: begun 1.1", *(f"lock 0.1 {name}: granted" for name in ("b", "..", "ab", "a", "é")),
     "lock 1.1 aa: granted", "holds 0.1 a: holds ab b é", "holds 0.1 aa: holds ab b é", "holds 0.1 ab: holds b é", "holds 0.1 !: holds .. a ab b é",
     "holds 0.1 -: holds .. a ab b é", "holds 0.1 ..: holds a ab b é", "holds 0.1 é: holds", f"holds 0.1 {LONG}: holds é", "holds 1.1 a: holds aa", "holds 1.1 aa: holds",
     "holds 0.1 a b: malformed", "holds 0.1 a\x7f: malformed", f"holds 0.1 {LONG}x: malformed", "holds 2.1 a: refused no-transaction"], ""),
    ("the graph is by the keys", [*THREE, "graph: graph 0", "lock 2.1 a: granted", "lock 1.1 a: waits 2.1", "lock 0.1 b: granted",
     "lock 2.1 b: waits 0.1", "graph: graph 2/* 1.1 a 2.1/* 2.1 b 0.1", "lock 0.1 a: deadlock 2.1 b",
     "graph: graph 2/* 1.1 a 2.1/* 2.1 b 0.1"], ""),
    ("as many transactions as there can be", [*THREE[:2], "begin: refused transactions-full", "commit 0.1: committed", "begin: begun 0.2"],
     "--transactions 2"),
    ("as many names as there can be", ["begin: begun 0.1", "lock 0.1 a: granted", "lock 0.1 b: granted", "lock 0.1 c: refused names-full",
     "try 0.1 c: refused names-full", "lock 0.1 a: held", "unlock 0.1 a: unlocked", "lock 0.1 c: granted"], "--names 2"),
    ("as many names as a transaction may own", [*THREE, "lock 1.1 z: granted", "lock 0.1 a: granted", "lock 0.1 b: granted", "lock 0.1 c: refused too-many-names",
     "try 0.1 c: refused too-many-names", "lock 0.1 z: refused too-many-names", "lock 0.1 a: held", "lock 0.2 c: refused no-transaction", "lock 1.1 c: granted",
     "lock 2.1 d: refused names-full", "lock 1.1 d: refused too-many-names", "unlock 0.1 a: unlocked", "lock 0.1 z: waits 1.1",
     "commit 1.1: committed/* granted 0.1 z", "lock 0.1 c: refused too-many-names", "lock 2.1 c: granted"], "--names 4 --names-each 2"),
    ("names as long as there can be", ["begin: begun 0.1", "lock 0.1 abc: granted", "lock 0.1 abcd: refused name-too-long",
     "try 0.1 abcd: refused name-too-long", "unlock 0.1 abcd: refused name-too-long", "owner abcd: free",
     "lock 1.1 abcd: refused no-transaction"], "--name-bytes 3"),
    ("a name of 65 bytes if nothing is said", ["begin: begun 0.1", f"lock 0.1 {LONG[:64]}: granted", f"lock 0.1 {LONG[:65]}: refused name-too-long"], ""),
    ("the longest name and longer ones", ["begin: begun 0.1", f"lock 0.1 {LONG}: granted", f"owner {LONG}: owner 0.1", f"lock 0.1 {LONG}x: malformed",
     f"holds 0.1: holds {LONG}"], "--name-bytes 1024"),
    ("the longest line and a longer one", [f"unlock 65535.4294967295 {LONG}\r: refused no-transaction", f"unlock 065535.4294967295 {LONG}: malformed"], ""),
    *((f"no reply depends on the seed {seed}", [*TAKEN, "lock 0.1 b: granted", "lock 0.1 c: granted", "lock 1.1 b: waits 0.1",
       "commit 0.1: committed/* granted 1.1 b", "holds 1.1: holds b"], f"--seed {seed}") for seed in (0, 1, 2**64 - 1)),
]  # fmt: skip
NO_REQUESTS = ["fly", "begin now", "lock 0.1", "lock 0.1 a b", "lock a 0.1", "lock 0 a", "lock 0.1 \ta", "lock 0.1 a\x7f", "owner", "owner a b",
               "holds", "holds a", "holds 0.1 a b", "holds 0.1 0.1 0.1", "graph 1", "totals x", "BEGIN", "lock 0.4294967296 a", "lock 4294967296.0 a", "lock +0.1 a"]  # fmt: skip


class Answers(Case):
    @each(ANSWERS)
    def test_answers(self, name: str, rows: list[str], options: str) -> None:
        pairs = [row.rpartition(": ") for row in rows]
        replies = "".join(f"{reply}\n".replace("/*", "\n*") for _, _, reply in pairs)
        told = self.run_program("locks", *options.split(), given="".join(f"{request}\n" for request, _, _ in pairs))
        self.ends(told, int("malformed" in replies), replies)

    def test_lines_that_are_no_request(self) -> None:
        self.ends(self.run_program("locks", given="\n".join(NO_REQUESTS)), 1, "malformed\n" * len(NO_REQUESTS))

    def test_line_without_its_newline(self) -> None:
        self.ends(self.run_program("locks", given="begin\nlock 0.1 a"), 0, "begun 0.1\ngranted\n")

    def test_line_of_a_million_bytes(self) -> None:
        self.ends(self.run_program("locks", given="begin\nowner " + "x" * 1_000_000 + "\nstatus 0.1\n"), 1, "begun 0.1\nmalformed\nactive\n")

    def test_many_names(self) -> None:
        """Four transactions own nine in ten of MANY names, more than a script's table has resources. They end and begin again in turns, and each asks
        now and then for a name of another one, and takes the wait back. At last one owns all names, and a further one is refused."""
        chance, owned = random.Random(SEED), [[0], [1], [2], [3]]
        rows = [row for process in range(4) for row in (("begin", f"begun {process}.1"), (f"lock {process}.1 {process}", "granted"))]
        for place in range(12):
            process, key, new = place % 4, f"{place % 4}.{place // 4 + 1}", f"{place % 4}.{place // 4 + 2}"
            rows += chance.choice([[(f"commit {key}", "committed")], [(f"abort {key}", "aborted")]]) + [("begin", f"begun {new}")]
            owned[process] = [4 * number + process for number in chance.sample(range(MANY // 4), MANY * 9 // 40)]
            for name in owned[process]:
                rows.append((f"lock {new} {name}", "granted"))
                if chance.random() < 0.001:
                    other = (process + chance.randint(1, 3)) % 4
                    holder = f"{other}.{(place - (process - other) % 4) // 4 + 2}"
                    rows += [(f"lock {new} {chance.choice(owned[other])}", f"waits {holder}"), (f"cancel {new}", "cancelled")]
        rows += [(f"abort {process}.4", "aborted") for process in range(4)] + [("begin", "begun 3.5")]
        rows += [(f"lock 3.5 {name}", "granted") for name in range(MANY)] + [("lock 3.5 x", "refused names-full"), ("commit 3.5", "committed")]
        told = self.run_program("locks", "--transactions", "4", "--names", str(MANY), given="".join(f"{request}\n" for request, _ in rows))
        self.ends(told, 0, "".join(f"{reply}\n" for _, reply in rows))

    def test_long_replies(self) -> None:
        """A transaction owns 3,000 names, and 3,000 wait for it: more than the program holds of a reply."""
        names = [f"name/{number}" for number in range(10_001, 13_001)]
        requests = ["begin"] * 3001 + [f"lock 0.1 {name}" for name in names] + [f"lock {number}.1 {name}" for number, name in enumerate(names, 1)]
        parts = ["holds 0.1", f"holds 0.1 {names[1023]}", f"holds 0.1 {names[2047]}"]
        told = self.run_program("locks", given="\n".join([*requests, *parts, "graph", "commit 0.1"])).out.decode().splitlines()
        held = [" ".join(["holds", *names[:1024], ".."]), " ".join(["holds", *names[1024:2048], ".."]), " ".join(["holds", *names[2048:]])]
        waits = [f"* {number}.1 {name} 0.1" for number, name in enumerate(names, 1)]
        self.assertEqual(told[9001:12006], [*held, "graph 3000", *waits, "committed"])
        self.assertEqual(sorted(told[12006:]), sorted(f"* granted {number}.1 {name}" for number, name in enumerate(names, 1)))

    def test_parts(self) -> None:
        """Up to 1,024 names are told in one reply, in whatever order they were locked; one more is told of by two dots."""
        for count in 1023, 1024, 1025, 2047, 2048, 2049:
            names = [f"{number * 773 % count:05}/{'x' * (number % 40)}" for number in range(count)]
            held, requests, wanted = sorted(names), ["begin", *(f"lock 0.1 {name}" for name in names)], []
            for start in range(0, count, 1024):
                requests.append("holds 0.1" if start == 0 else f"holds 0.1 {held[start - 1]}")
                wanted.append(" ".join(["holds", *held[start : start + 1024], *([".."] if start + 1024 < count else [])]))
            requests.append(f"holds 0.1 {held[-1025]}" if count > 1024 else "holds 0.1 00000")
            wanted.append(" ".join(["holds", *held[-1024:]]))
            told = self.run_program("locks", given="\n".join(requests)).out.decode().splitlines()
            self.assertEqual(told[1 + count :], wanted)
