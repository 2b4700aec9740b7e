#!/usr/bin/env python3
"""What nodes say to each other for each message, by which peers each of them has: the table of docs/THREE-MACHINES.md.

    bench/topologies.py [PROGRAM]

A message is heard by the last node alone. The bytes are those of TCP's streams, without TLS.
"""

import os
import shutil
import signal
import sys
import tempfile
import time

from cluster import BODY, Link, Network, Node, waits
from machine import name_of_run, table

PROGRAM = os.path.join(os.path.dirname(os.path.dirname(os.path.abspath(__file__))), "crates", "bnc", "out", "bnc")
MESSAGES, PAUSE = 50, 0.1
# The most seconds in which the nodes come together.
TOGETHER = 300
# All is said once nothing went over any link for so many seconds.
QUIET = 15
# A message's own line between nodes, with an id of the network's server.
LINE = len(f"C POST demo net #a id-123456 1767323045000 P #a bob!b@host :{BODY}\r\n")


def mesh(count):
    return [(one, other) for one in range(1, count + 1) for other in range(one + 1, count + 1)]


def ring(count):
    return [(one, one + 1) for one in range(1, count)] + [(1, count)]


def star(count):
    return [(1, other) for other in range(2, count + 1)]


class Nodes:
    """So many nodes, with links between those that are peers. Of two, the one with the smaller name opens the connection."""

    def __init__(self, program, count, pairs):
        self.home = tempfile.mkdtemp(prefix="bench-")
        self.network = Network()
        self.network.open()
        self.nodes = [Node(self.home, os.path.abspath(program), number, self.network.port, []) for number in range(1, count + 1)]
        self.links = []
        for one, other in pairs:
            near, far = self.nodes[one - 1], self.nodes[other - 1]
            self.links.append(Link(far.peers))
            near.known.append((far.name, self.links[-1].port))
            far.known.append((near.name, near.peers))

    def begin(self):
        """Whether all nodes are there and level. Where somebody else took a port, they aren't."""
        for node in reversed(self.nodes):
            node.write()
            node.start()
            waits(f"{node.name} listens", lambda: " listening: " in node.log() or not node.is_up(), TOGETHER, 0.05)
            if not node.is_up():
                return False
        waits("the nodes are level", self.is_whole, TOGETHER, 0.05)
        return True

    def is_whole(self):
        return all(node.log().count(" peer level: ") == len(node.known) and self.network.is_up(node.nick) for node in self.nodes)

    def carried(self):
        return sum(link.carried for link in self.links)

    def say(self, line):
        self.network.sessions[self.nodes[-1].nick].sendall(line)

    def bytes_a_message(self):
        """How many bytes go between the nodes for each of the messages."""
        before = self.carried()
        for number in range(100_000, 100_000 + MESSAGES):
            stamp = time.strftime("%Y-%m-%dT%H:%M:%S", time.gmtime()) + f".{number % 1000:03}Z"
            self.say(f"@msgid=id-{number};time={stamp} :bob!b@host PRIVMSG #a :{BODY}\r\n".encode())
            time.sleep(PAUSE)
        now, quiet = self.carried(), 0
        while quiet < QUIET:
            time.sleep(1)
            before_that, now = now, self.carried()
            quiet = quiet + 1 if now == before_that else 0
        return (now - before) / MESSAGES

    def stop(self):
        for node in self.nodes:
            if node.process:
                node.kill()
        shutil.rmtree(self.home, ignore_errors=True)


def row(program, count, name, pairs):
    carried = None
    while carried is None:
        nodes = Nodes(program, count, pairs)
        try:
            if nodes.begin():
                carried = nodes.bytes_a_message()
        finally:
            nodes.stop()
    print(f"{count} nodes, {name}: {carried:.0f}", file=sys.stderr, flush=True)
    return count, name, len(pairs), f"{carried:,.0f}"


def main():
    program = sys.argv[1] if len(sys.argv) > 1 else PROGRAM
    signal.signal(signal.SIGTERM, lambda *_: sys.exit("ended by a signal"))
    print(f"{name_of_run(program)} A message's line has {LINE} bytes.\n")
    plans = [(9, "all with all", mesh(9)), (9, "a ring", ring(9)), (9, "a star", star(9)), (3, "all with all", mesh(3))]
    heads = ["nodes", "peers", "connections", "bytes a message"]
    print(table(heads, [row(program, *plan) for plan in plans]))


if __name__ == "__main__":
    main()
