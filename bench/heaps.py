#!/usr/bin/env python3
"""Measures what one worker and four relay with one heap for all threads, and with a heap for each of up to 16, and how much memory
an idle client and a message take then.

    bench/heaps.py PROGRAM ROUNDS

All are started anew in turn, as many times. One server speaks, and its lines reach clients of all workers: each message is put
by one worker, and told by all. It prints the tables of docs/PERFORMANCE.md.
"""
import itertools
import os
import statistics
import sys
import time

from beside_znc import Clients, begin, flood
from machine import name_of_run, spread, table
from memory import Growth, Running, settled

WORKERS, HEAPS = (1, 4), (1, 16)
# To how many clients lines are relayed, and how many lines.
RELAYED = ((4, 20000), (40, 10000), (100, 4000))
# How many idle clients there are, and messages.
IDLE, HELD = 1000, 100_000


def figures_of(program, workers, heaps):
    """The lines that reach clients in a second, and those in a processor second, for each number of clients."""
    bouncer, server = begin("bnc", program, workers=workers, environment={"MALLOC_ARENA_MAX": str(heaps)})
    try:
        return [lines_of(bouncer, server, *it) for it in RELAYED]
    finally:
        bouncer.stop()
        server.close()


def lines_of(bouncer, server, attached, count):
    clients = Clients(bouncer, attached)
    clients.settle()
    clients.reset()
    before, begun = bouncer.seconds(), time.monotonic()
    flood(server, clients, count)
    took, spent = time.monotonic() - begun, bouncer.seconds() - before
    clients.close()
    time.sleep(0.5)
    return count * attached / took, count * attached / spent


def memory_of(program, workers, heaps):
    """The bytes that an idle client takes, and those of a message that is held."""
    how = {"workers": workers, "environment": {"MALLOC_ARENA_MAX": str(heaps)}}
    with Running(program, **how) as (bouncer, _):
        growth = Growth(bouncer, IDLE)
        settled(bouncer, IDLE)
        idle = growth.each()[0]
    with Running(program, **how) as (bouncer, server):
        clients = settled(bouncer, workers)
        before = bouncer.resident()
        flood(server, clients, HELD)
        return idle, (bouncer.resident() - before) / HELD


WHAT = ("a second", "a processor second")
TAKES = ("an idle client", "a message")


def compared(one, many):
    """The figures with one heap and with many, and the ratio of the medians."""
    return [spread(one), spread(many), f"{statistics.median(many) / statistics.median(one):.2f}"]


def row_of(runs, workers, at, measure):
    one, many = ([run[at][measure] for run in runs[workers, heaps]] for heaps in HEAPS)
    return [workers, RELAYED[at][0], WHAT[measure], *compared(one, many)]


def memory_row(runs, workers, measure):
    one, many = ([run[measure] for run in runs[workers, heaps]] for heaps in HEAPS)
    return [TAKES[measure], workers, *compared(one, many)]


def by_turns(rounds, measure):
    """What is measured, for each number of workers and of heaps."""
    runs = {(workers, heaps): [] for workers in WORKERS for heaps in HEAPS}
    for number in range(rounds):
        for each in list(runs) if number % 2 == 0 else list(runs)[::-1]:
            runs[each].append(measure(*each))
    return runs


def main():
    if len(sys.argv) != 3:
        sys.exit(__doc__)
    program, rounds = os.path.abspath(sys.argv[1]), int(sys.argv[2])
    head = name_of_run(program)
    memory = by_turns(rounds, lambda *each: memory_of(program, *each))
    print(f"{head} Medians and ranges of {rounds} rounds by turns.\n")
    rows = [memory_row(memory, *it) for it in itertools.product(WORKERS, range(len(TAKES)))]
    print(table(["bytes of", "workers", "with one heap", "with up to 16", "ratio"], rows), flush=True)
    runs = by_turns(rounds, lambda *each: figures_of(program, *each))
    rows = [row_of(runs, *it) for it in itertools.product(WORKERS, range(len(RELAYED)), range(len(WHAT)))]
    print()
    print(table(["workers", "clients", "lines", "with one heap", "with up to 16", "ratio"], rows))


if __name__ == "__main__":
    main()
