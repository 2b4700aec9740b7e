#!/usr/bin/env python3
"""Compares two builds of the program, each started anew in turn: what they relay to 1, 10 and 100 clients and play back for
each second of processor time, and what a message and an idle client cost in memory.

    bench/two_builds.py BEFORE AFTER ROUNDS

Two runs of one program differ by more than most changes gain, so a gain shows where the ranges don't overlap. On a machine with
other work let root run it at real-time priority: chrt --rr 40 bench/two_builds.py BEFORE AFTER 9
"""
import os
import statistics
import sys

from beside_znc import measure
from machine import name_of_run, spread, table


def rounds_of(before, after, rounds):
    """The figures of each round by both builds, of which now the one is first and now the other."""
    found = {before: [], after: []}
    for number in range(rounds):
        for program in (before, after) if number % 2 == 0 else (after, before):
            found[program].append(measure("bnc", program))
    return found[before], found[after]


def main():
    if len(sys.argv) != 4:
        sys.exit(__doc__)
    before, after = map(os.path.abspath, sys.argv[1:3])
    if before == after:
        sys.exit("these are one program")
    head = name_of_run(after)
    olds, news = rounds_of(before, after, int(sys.argv[3]))
    rows = []
    for name in olds[0]:
        old, new = ([figures[name] for figures in runs] for runs in (olds, news))
        overlap = max(min(old), min(new)) <= min(max(old), max(new))
        rows.append([name, spread(old), spread(new), f"{statistics.median(new) / statistics.median(old):.2f}", "yes" if overlap else "no"])
    print(f"\n{head} Medians and ranges of {sys.argv[3]} rounds.\n")
    print(table(["what", "before", "after", "after : before", "ranges overlap"], rows))


if __name__ == "__main__":
    main()
