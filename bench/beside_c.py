#!/usr/bin/env python3
"""Measures what a relayed line costs beside a loop in C that reads it from one socket and writes it to another, in pieces of
the same size, and beside relays in plain Rust that keep it: by turns, the processor time of each.

    bench/beside_c.py PROGRAM [ROUNDS]      9 rounds if nothing else is said

It needs cc and rustc. The loop keeps nothing and knows no line. The relays know messages alone, and put each into two states, as a
node does, or into none.
"""
import operator
import os
import shutil
import statistics
import subprocess
import sys
import tempfile

from beside_znc import Bouncer, Clients, Server, begin, flood
from cluster import free_ports
from machine import name_of_run, spread, table

# How many lines come at once, and how many there are of each in a round.
PIECES = {1: 2_000, 20: 10_000, 200: 20_000}
PLAIN = os.path.join(os.path.dirname(os.path.realpath(__file__)), "plain")


def built(name, folder):
    """Builds a program of bench/plain, in C or in Rust."""
    program = os.path.join(folder, name)
    source = os.path.join(PLAIN, name)
    if os.path.exists(f"{source}.c"):
        subprocess.run(["cc", "-O2", "-o", program, f"{source}.c"], check=True)
    else:
        subprocess.run(["rustc", "-O", "--edition", "2021", "-o", program, f"{source}.rs"], check=True)
    return program


class Loop(Bouncer):
    """The loop in C, as a process between a server and so many clients; or another program that is called like it."""

    def __init__(self, home, count=1, name="relay", words=()):
        self.kind, self.home, self.count = name, home, count
        self.server_port, self.port = free_ports(2)
        self.server = Server(self.server_port)
        self.process = subprocess.Popen([built(name, home), str(self.server_port), str(self.port), *(words or [str(count)])])

    def login(self):
        return ""

    def connect(self):
        """The clients of the loop, which connects to the server then."""
        clients = None
        while clients is None:
            try:
                clients = Clients(self, self.count)
            except ConnectionRefusedError:
                continue
        self.server.listener.settimeout(30)
        self.server.socket, _ = self.server.listener.accept()
        return clients


def seconds(bouncer, server, clients, piece):
    """The processor seconds of a line, where so many come at once."""
    clients.reset()
    spent = bouncer.seconds()
    flood(server, clients, PIECES[piece], piece)
    return (bouncer.seconds() - spent) / PIECES[piece]


def row(piece, found):
    """What a line took of each, and how ours compares with the loop and with the relay that keeps it in two states."""
    each = [[it * 1e6 for it in of_one] for of_one in zip(*found)]
    ours, bare, keeping, _ = each
    ratios = [one / other for one, other in zip(ours, bare)]
    times = [f"{statistics.median(it):.2f} us" for it in each]
    return [piece, *times[:2], spread(ratios, 1), 4, *times[2:], f"{statistics.median(map(operator.truediv, ours, keeping)):.2f}"]


HEADS = ["lines at once", "a relayed line", "the same by the loop in C", "ratio, and its range", "goal",
         "in plain Rust, with two states", "with none", "ours : with two"]


def main():
    program = os.path.abspath(sys.argv[1])
    rounds = int(sys.argv[2]) if len(sys.argv) > 2 else 9
    home = tempfile.mkdtemp(prefix="bench-")
    ours, server = begin("bnc", program)
    loops = [Loop(home), *(Loop(home, name="kept_relay", words=[states]) for states in ("2", "0"))]
    try:
        sides = [(loop, loop.server, loop.connect()) for loop in loops]
        clients = Clients(ours, 1)
        clients.settle()
        sides.insert(0, (ours, server, clients))
        rows = [row(piece, [[seconds(*side, piece) for side in sides] for _ in range(rounds)]) for piece in PIECES]
        print(f"{name_of_run(program)} Medians of {rounds} rounds.\n")
        print(table(HEADS, rows))
    finally:
        ours.stop()
        for loop in loops:
            loop.process.kill()
            loop.process.wait()
        shutil.rmtree(home, ignore_errors=True)


if __name__ == "__main__":
    main()
