#!/usr/bin/env python3
"""Measures how long a line takes from the network's server to its clients: through the bouncer, through ZNC, and through a loop in
C that reads from one socket and writes to all, by turns.

    bench/latency.py PROGRAM [ROUNDS [CLIENTS]]      9 rounds and 10 clients if nothing else is said

It needs cc and Debian's znc. bench/plain/latency.c says the lines, one each millisecond, and hears them at all clients. It never
sleeps, and has a processor for itself where there are two; the bouncers share the others.
"""
import os
import shutil
import subprocess
import sys
import tempfile

from beside_c import Loop, built
from beside_znc import Clients, begin
from machine import name_of_run, spread, table

CLIENTS = int(sys.argv[3]) if len(sys.argv) > 3 else 10
LINES, PAUSE = 2000, 1000


class Way:
    """A way from a server to ten clients, and what was measured of it."""

    def __init__(self, name, server, clients):
        self.name, self.sockets = name, [server.socket, *clients.sockets]
        # (of each round: the median, what 99 of 100 lines take at most, and the most, in microseconds)
        self.rounds = []

    def measure(self, driver, processor):
        descriptors = [it.fileno() for it in self.sockets]
        words = [driver, str(LINES), str(PAUSE), *map(str, descriptors)]
        ran = subprocess.run(words, pass_fds=descriptors, stdout=subprocess.PIPE, text=True, check=True,
                             preexec_fn=lambda: os.sched_setaffinity(0, {processor}))
        self.rounds.append([int(it) / 1000 for it in ran.stdout.split()])

    def row(self, other):
        """The medians of its rounds, each with its range, and what 99 of 100 lines take beside another way."""
        ratios = [one[1] / its[1] for one, its in zip(self.rounds, other.rounds)]
        return [self.name, *(f"{spread(it)} us" for it in zip(*self.rounds)), spread(ratios, 2)]


def bouncers(program, ends):
    """The ways through the two bouncers, once nothing more comes to the clients."""
    for name, kind in (("bnc", "bnc"), ("ZNC", "znc")):
        begun, server = begin(kind, program)
        ends += [server.close, begun.stop]
        clients = Clients(begun, CLIENTS)
        clients.settle(2)
        yield Way(name, server, clients)


def loop_in_c(home, ends):
    loop = Loop(home, CLIENTS)
    ends += [loop.server.close, loop.process.wait, loop.process.kill]
    return Way("the loop in C", loop.server, loop.connect())


def main():
    program = os.path.abspath(sys.argv[1])
    rounds = int(sys.argv[2]) if len(sys.argv) > 2 else 9
    head = name_of_run(program)
    home = tempfile.mkdtemp(prefix="bench-")
    *others, last = sorted(os.sched_getaffinity(0))
    # (what is begun from now on runs where the driver doesn't)
    os.sched_setaffinity(0, others or [last])
    ends = [lambda: shutil.rmtree(home, ignore_errors=True)]
    try:
        driver = built("latency", home)
        ways = [*bouncers(program, ends), loop_in_c(home, ends)]
        for _ in range(rounds + 1):
            for way in ways:
                way.measure(driver, last)
        for way in ways:
            # (the first round warms up)
            del way.rounds[0]
        print(f"{head} Medians and ranges of {rounds} rounds by turns, of {LINES:,} lines each.\n")
        heads = [f"a line to one of {CLIENTS} clients", "half of them take at most", "99 of 100", "all of them", "99 of 100 : ZNC's", "goal"]
        print(table(heads, ([*way.row(ways[1]), goal] for way, goal in zip(ways, (0.5, "", "")))))
    finally:
        for end in reversed(ends):
            end()


if __name__ == "__main__":
    main()
