"""Runs the programs of bench/calls.rs, bench/names.rs and bench/settled.rs several times, and prints what a call takes: of each line the median of the runs."""

import os
import statistics
import subprocess

HERE = os.path.dirname(os.path.abspath(__file__))
TURNS = 5
# The lines of names have Rust's HashMap in the place of the plain table, those of settled the proved table, and neither a reference.
PROGRAMS = ("calls", "names", "settled")
TABLES = ("proved", "plain", "reference")


def lines(program):
    """The lines of one run: name, size and unit, and the cost of each table."""
    run = subprocess.run([os.path.join(HERE, "out", program)], capture_output=True, text=True, check=True)
    for line in run.stdout.splitlines():
        name, size, unit, *costs = line.split("\t")
        yield (name, int(size), unit), [float(cost) for cost in costs]


def main():
    """Prints a table."""
    taken = {}
    for program in PROGRAMS:
        for _ in range(TURNS):
            for workload, costs in lines(program):
                taken.setdefault(workload, []).append(costs)
    print("%-50s %6s %11s %11s %6s %11s %6s" % ("workload", "size", *TABLES[:2], "ratio", TABLES[2], "ratio"))
    for (name, size, unit), runs in taken.items():
        first, *others = map(statistics.median, zip(*runs))
        against = "".join(" %11.2f %6.2f" % (other, first / other) for other in others)
        print("%-50s %6s %11.2f%s  ns a %s" % (name, size or "", first, against, unit))


main()
