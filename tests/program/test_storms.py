"""Storms, and the reports of storms and workloads. What the clients of a storm acquire is computed here anew from the published algorithm
of the generator, PCG-XSH-RR with 64 bits of state and words of 32 bits (M. E. O'Neill, 2014; the C library's pcg32)."""
import json
import os
import re
from typing import Any

from lib.faults import FaultCase
from lib.world import PROGRAM, TOP, Case, each, read

TURNS = 10_000_000
STEP = 8
"""The bytes of a step."""
USUAL = {"seed": 1, "clients": 8, "transmitters": 2, "resources": 8, "acquires": 4, "transactions": 1}
STORMS = """|--verbose|--seed 0|--seed 1|--seed 2|--seed 3|--seed 7|-v --seed 7|--clients 64 --transmitters 0|--clients 64 --transmitters=64
--clients 64 --transmitters=64 --verbose|--transmitters=64 --clients=1|--transmitters 0 --clients 1|--transmitters 0 --clients 1 --verbose
--seed 18446744073709551615 --verbose|--verbose --seed 18446744073709551615|--seed 3 --clients 32 --transmitters 4 --resources 2 --acquires 2
--clients 64 --transmitters 64 --resources 65536 --acquires 256|--seed 3 --clients 8 --resources 2 --acquires 3 --transactions 3
--clients 64 --transmitters=0 --resources 3 --acquires 4 --transactions 100 --verbose
--clients 1 --transmitters 0 --resources 1 --acquires 1 --transactions 1000000""".replace("\n", "|").split("|")
# Seed, resources, acquires, transactions and clients of storms in which no two clients acquire one resource.
APART = """1 8 4 1 1|1 8 256 1 1|2 1 256 1 1|3 65536 256 1 1|4 100 17 1 1|5 2 1 1 1|6 65536 1 1 1|18446744073709551615 3 2 1 1|1 8 4 2 1
2 1 256 3 1|3 65536 256 10 1|18446744073709551615 3 2 1000 1|1 65536 16 4 4|2 65536 8 10 3|9 65536 4 3 8""".replace("\n", "|").split("|")


class Generator:
    def __init__(self, seed: int, stream: int) -> None:
        self.increment, self.state = (stream << 1 | 1) & 2**64 - 1, 0
        self.word()
        self.state = (self.state + seed) & 2**64 - 1
        self.word()

    def word(self) -> int:
        old = self.state
        self.state = (old * 6364136223846793005 + self.increment) & 2**64 - 1
        mixed, turn = ((old >> 18 ^ old) >> 27) & 2**32 - 1, old >> 59
        return (mixed >> turn | mixed << (32 - turn)) & 2**32 - 1

    def transactions(self, count: int, resources: int, acquires: int) -> list[list[int]]:
        """What so many transactions acquire, each resource once."""
        draws = ([self.word() % resources for _ in range(1 + self.word() % acquires)] for _ in range(count))
        return [list(dict.fromkeys(draw)) for draw in draws]


def acquired(seed: int, resources: int, acquires: int, transactions: int, clients: int) -> list[list[list[int]]]:
    """What each client acquires, transaction by transaction. Clients count from 1, and each has a generator for all but its first."""
    firsts = Generator(seed, 0).transactions(clients, resources, acquires)
    more = (Generator(seed, number).transactions(transactions - 1, resources, acquires) for number in range(1, clients + 1))
    return [[first, *others] for first, others in zip(firsts, more)]


def options(words: str) -> dict[str, int]:
    """The numbers of a storm."""
    return {**USUAL, **{name: int(value) for name, value in re.findall(r"--(\w+)[ =](\d+)", words)}}


class PlainStorms(FaultCase):
    """Storms that print their two lines and nothing else."""

    def extra(self, seed: int) -> tuple[int, int]:
        """How many bytes of memory more the storm of this seed requests than that of seed 0, and how many steps more its clients have."""
        requested, steps = [], []
        for each_seed in (seed, 0):
            told, counts = self.counted("", PROGRAM, "storm", "--clients", "64", "--transmitters", "0", "--seed", str(each_seed))
            self.assertEqual((told.status, told.err), (0, b""))
            requested.append(counts.bytes)
            steps.append(sum(len(transaction) for client in acquired(each_seed, 8, 4, 1, 64) for transaction in client))
        return requested[0] - requested[1], steps[0] - steps[1]

    @each(["2", "3", "7", "18446744073709551615"])
    def test_steps(self, seed: str) -> None:
        """The clients' steps are those of the seed, as far as the memory that they take shows it."""
        requested, steps = self.extra(int(seed))
        self.assertEqual(requested, STEP * steps)


class Storms(Case):
    def storm(self, words: str, *more: str) -> tuple[list[int], str, dict[str, Any]]:
        """The numbers of the two lines, what is on standard error, and the report. Fails unless each agrees with the others."""
        path = self.path("report")
        told = self.run_program(*words.split(), *more, "--report", path)
        lines = re.fullmatch(rb"clients finished (\d+) aborted (\d+) spent (\d+) refused (\d+)\ntable verdicts (\d+) aborts (\d+)\n", told.out)
        assert lines, told.out
        numbers = list(map(int, lines.groups()))
        self.assertEqual(told.status, 5 if numbers[2] + numbers[3] else 0)
        text = read(path)
        report = json.loads(text)
        ends, totals = report["ends"], report["totals"]
        self.assertTrue(text.endswith("}\n"))
        self.assertEqual(list(report), ["source", "workload", "ends", "totals", "waits", "raises", "seconds"])
        self.assertEqual(numbers, [ends["finished"], ends["aborted"], ends["spent"], ends["refused"], totals["verdicts"], totals["aborts"]])
        self.assertEqual(sum(ends.values()), report["workload"]["clients"] * report["source"].get("transactions", 1))
        self.assertEqual(ends["aborted"], totals["aborts"])
        self.assertTrue(totals["aborts"] <= report["waits"] <= totals["accepted"] >= report["raises"] and report["seconds"] > 0, text)
        return numbers, told.err.decode(), report

    @each(STORMS)
    def test_storm(self, words: str) -> None:
        """Each transaction has an end, no limit of the table is in the way, and the report says what was asked for."""
        wanted = options(words)
        (finished, aborted, spent, refused, verdicts, aborts), told, report = self.storm(f"storm {words}")
        self.assertEqual((finished + aborted, spent, refused), (wanted["clients"] * wanted["transactions"], 0, 0))
        self.assertEqual((verdicts, aborts), (aborted, aborted))
        head = f"storm: clients {wanted['clients']}, transmitters {wanted['transmitters']}, turns of each {TURNS}\n"
        self.assertEqual(head in told, "-v" in words)
        self.assertEqual(bool(told), "-v" in words)
        source = {"command": "storm", **{name: wanted[name] for name in ("seed", "resources", "acquires", "transactions")}}
        limits = (10**9, 9) if wanted["transactions"] == 1 else (17_592_186_044_415, 4_294_967_295)
        self.assertEqual(report["source"], source)
        self.assertEqual(report["workload"], {"clients": wanted["clients"], "transmitters": wanted["transmitters"], "turns": TURNS,
                         "processes": wanted["clients"], "resources": wanted["resources"], "label_limit": limits[0],
                         "generation_limit": limits[1]})  # fmt: skip

    @each(APART)
    def test_calls(self, row: str) -> None:
        """If no two clients acquire one resource, none waits, and so many calls are accepted: each transaction begins, acquires and finishes."""
        seed, resources, acquires, transactions, clients = map(int, row.split())
        each_client = acquired(seed, resources, acquires, transactions, clients)
        wanted = [{resource for transaction in client for resource in transaction} for client in each_client]
        self.assertEqual(sum(map(len, wanted)), len(set().union(*wanted)), "two clients acquire one resource")
        words = f"storm --clients {clients} --transmitters 0 --seed {seed} --resources {resources} --acquires {acquires} --transactions {transactions}"
        _, told, report = self.storm(words)
        self.assertEqual(told, "")
        self.assertEqual(report["totals"]["accepted"], 2 * transactions * clients + sum(len(each) for client in each_client for each in client))
        self.assertEqual(report["waits"], 0)

    def test_generator(self) -> None:
        """The first words of the C library's example program."""
        example = Generator(42, 54)
        self.assertEqual([example.word() for _ in range(6)], [0xA15C02B7, 0x7B47F409, 0xBA1D3330, 0x83D2F293, 0xBFA4784B, 0xCBED606E])

    def test_report_of_a_workload(self) -> None:
        path = os.path.join(TOP, "examples/workloads/crosswise.json")
        numbers, told, report = self.storm("threads", path)
        self.assertEqual((numbers, told), ([1, 1, 0, 0, 1, 1], ""))
        self.assertEqual(report["source"], {"command": "threads", "file": path})
        self.assertEqual(report["workload"], {"clients": 2, "transmitters": 1, "turns": TURNS, "processes": 2, "resources": 2,
                         "label_limit": 1000, "generation_limit": 9})  # fmt: skip
        # (each of the two waits for the other; the label of one travels to the other before the verdict)
        self.assertTrue(report["waits"] == 2 and report["raises"] >= 1 and report["totals"]["accepted"] >= 9, report)

    def test_report_of_clients_that_are_left_over(self) -> None:
        numbers = '{"processes":2,"resources":2,"label_limit":1000,"generation_limit":9,"transmitters":1,"turns":100000,"clients":'
        _, _, report = self.storm("threads", self.file("workload", numbers + '[[["acquire",5]],[["meet",2]]]}'))
        self.assertEqual(report["ends"], {"finished": 0, "aborted": 0, "spent": 1, "refused": 1})
