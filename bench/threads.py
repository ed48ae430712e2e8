"""Runs programs of threads, the proved one and the plain one in turn, and prints what they take: the best turn, and the median."""

import os
import statistics
import subprocess
import sys

HERE = os.path.dirname(os.path.abspath(__file__))
PROVED = os.path.join(HERE, "..", "crates", "bench_shared", "out", "bench_shared")
CALLS = 18  # of a transaction: begin, 16 acquires, finish
TRANSACTIONS = 200_000  # of all threads together
STORM_TRANSACTIONS = 1_000  # of all clients of all storms together
# Works at a board, with how many calls each repetition makes, and how often it is repeated in a turn.
WORKS = {
    "grants": ("begin, acquire, release, finish", 4, 100_000),
    "blocks": ("two transactions, one waits for the other", 7, 50_000),
    "deadlocks": ("deadlock of two, from begin to finish", 10, 30_000),
    "hand-overs": ("hand-over with 16 waiters, and acquire", 2, 20_000),
    "peeks": ("peek", 1, 2_000_000),
    "peeks-beside": ("peek, beside a thread that writes", 1, 2_000_000),
    "scans": ("scan where nobody waits, a process", 1, 0),
}
SCANNED = 4_000_000  # processes looked at in a turn
TURNS = 25
BOARD_TURNS = 100  # of the works at a board, each of which takes some milliseconds


def numbers(*command):
    """The numbers that a run prints."""
    words = [str(word) for word in command]
    return [int(word) for word in subprocess.run(words, capture_output=True, text=True, check=True).stdout.split()]


def call_time(command, threads):
    """Nanoseconds a call, of one run with so many threads at a shared table."""
    count = TRANSACTIONS // threads
    nanoseconds, done = numbers(*command, threads, count)
    if done != threads * count:
        sys.exit("%s did %d transactions" % (command, done))
    return nanoseconds / (done * CALLS)


def storm_rate(command, clients):
    """Transactions a second, of one run of storms with so many clients."""
    count = STORM_TRANSACTIONS // clients
    nanoseconds, finished, aborted = numbers(*command, clients, count)
    if finished + aborted != clients * count:
        sys.exit("%s: %d clients finished, %d were aborted" % (command, finished, aborted))
    return (finished + aborted) * 1e9 / nanoseconds


def in_turn(measure, commands, number, turns=TURNS):
    """What is measured of each command, so many times."""
    taken = [[] for _ in commands]
    for _ in range(turns):
        for command, results in zip(commands, taken):
            results.append(measure(command, number))
    return taken


def head(text, first="proved", second="plain"):
    print("%-50s %5s %11s %11s %6s" % (text, "", first, second, "ratio"))


def line(text, number, first, second, unit):
    ratio = "%6.2f" % (first / second) if second else "%6s" % "-"
    print("%-50s %5d %11.2f %11.2f %s  %s" % (text, number, first, second, ratio, unit), flush=True)


def shared_table():
    """One line for each number of threads, and its median."""
    head("shared table: begin, 16 acquires, finish")
    commands = [[PROVED], [os.path.join(HERE, "out", "shared")]]
    for threads in (1, 2, 4):
        times = in_turn(call_time, commands, threads)
        for name, pick in (("least", min), ("median", statistics.median)):
            line("by %d threads, %s of %d" % (threads, name, TURNS), threads, *map(pick, times), "ns a call")


def storms():
    """One line for each number of clients, and its median. More is better."""
    head("storms: transactions a second")
    commands = [[PROVED, "storm"], [os.path.join(HERE, "out", "storm")]]
    for clients in (1, 2, 4, 8):
        rates = in_turn(storm_rate, commands, clients)
        for name, pick in (("most", max), ("median", statistics.median)):
            line("by %d clients, %s of %d" % (clients, name, TURNS), clients, *map(pick, rates), "a second")


def work_time(command, name, processes):
    """Nanoseconds a call, or a process of a scan, of one run."""
    _, calls, count = WORKS[name]
    count = count or SCANNED // processes
    calls = processes if name == "scans" else calls
    return numbers(*command, name, processes, count)[0] / (count * calls)


def board():
    """One line for each work and each number of processes: the least. A turn goes over all lines, so that what disturbs the machine for
    some seconds disturbs few turns of each."""
    head("shared table with its board, nanoseconds a call, least of %d" % BOARD_TURNS)
    commands = [[PROVED, "board"], [os.path.join(HERE, "out", "board")]]
    works = [(name, processes) for name in WORKS for processes in (64, 4096, 65536)]
    taken = {work: [[] for _ in commands] for work in works}
    for _ in range(BOARD_TURNS):
        for name, processes in works:
            for command, times in zip(commands, taken[name, processes]):
                times.append(work_time(command, name, processes))
    for name, processes in works:
        line(WORKS[name][0], processes, *map(min, taken[name, processes]), "ns")


shared_table()
board()
storms()
