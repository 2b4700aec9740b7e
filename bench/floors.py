#!/usr/bin/env python3
"""Measures what it takes that a floor lets 1,000,000 messages of one conversation go, with message ids of 22 random characters and
with ids of as many bytes that rise.

    bench/floors.py PROGRAM [ROUNDS]      3 rounds, where nothing else is said

The node takes the messages from its network's server. Then a peer that this script plays hands over the floor, and a client of the
same worker says PING each 10 ms.
"""
import os
import shutil
import statistics
import sys
import tempfile

from cluster import Network, Node, waits
from ids import KINDS, spelled
from joining import PATIENCE, Peer, Pinger, has
from machine import name_of_run, table

COUNT, PIECE = 1_000_000, 1000
# A moment behind them all.
FLOOR = 1_790_000_000_000


def fill(network, node, name):
    """Has the node take the messages."""
    line = spelled(name, 0)
    for first in range(0, COUNT, PIECE):
        network.say(b"".join(line(number) for number in range(first, first + PIECE)), node.nick)
    last = name(COUNT - 1).decode()
    waits("the messages", lambda: has(node, last), PATIENCE)


def floor(program, name):
    """The processor seconds that the floor takes, and the longest wait for a PONG meanwhile."""
    home = tempfile.mkdtemp(prefix="bench-")
    network = Network()
    network.open()
    node = Node(home, program, 1, network.port, [("n0", 9)])
    node.write()
    try:
        node.start()
        waits("the node", lambda: network.is_up(node.nick), 30)
        fill(network, node, name)
        peer, pinger = Peer(node), Pinger(node.clients)
        pinger.start()
        spent = node.seconds()
        peer.give([f"C FLOOR demo net #a {FLOOR}"])
        spent = node.seconds() - spent
        return spent, pinger.stop()
    finally:
        node.kill()
        shutil.rmtree(home, ignore_errors=True)


def main():
    program, rounds = os.path.abspath(sys.argv[1]), int(sys.argv[2]) if len(sys.argv) > 2 else 3
    print(f"{name_of_run(program)} Medians of {rounds} rounds.\n")
    found = []
    for kind, name in KINDS:
        spent, waited = zip(*(floor(program, name) for _ in range(rounds)))
        goal = {"rising": "0.1 s", "random": "0.15 s"}[kind]
        found.append([f"{kind} ids", f"{statistics.median(spent):.2f} s", f"{statistics.median(waited) * 1000:.0f} ms", goal])
    print(table([f"a floor that lets {COUNT:,} messages go", "processor time", "the longest wait for a PONG", "goal"], found))


if __name__ == "__main__":
    main()
