#!/usr/bin/env python3
"""Measures what two and four workers relay beside one, where eight networks' servers speak without pause and each network has five
clients, and what processor time a line takes then.

    bench/workers.py PROGRAM ROUNDS [OTHER]

All are started anew in turn, so many times. With another program both are measured by turns. Each server has at most two pieces of lines
under way, so nobody overruns. It prints a table: the medians, with their ranges.
"""
import os
import selectors
import socket
import sys
import time

from beside_znc import BOUNCER_PORTS, PEER_PORT, SERVER_PORTS, Bouncer, Server, message, wait_for_port
from machine import name_of_run, spread, table
from nodes import SECRET, configuration

WORKERS, NETWORKS, CLIENTS = (1, 2, 4), 8, 5
LINES, PIECE = 40_000, 200
NETWORK = """
[[network]]
account = "demo"
name = "net{number}"
address = "127.0.0.1:{port}"
nick = "al"
user = "al"
channels = ["#a"]
"""
GOALS = {2: (1.6, ""), 4: (2.2, 1.3)}


class Node(Bouncer):
    """A bouncer with so many networks, of which each has a server and clients of its own."""

    def __init__(self, program, workers):
        self.servers = [Server(SERVER_PORTS["bnc"] + number) for number in range(NETWORKS)]
        super().__init__("bnc", program, workers=workers)
        for server in self.servers:
            server.accept()
        wait_for_port(self.port)

    def configured(self, workers):
        """Its configuration: the first network is `net`, the others have numbers."""
        first = SERVER_PORTS["bnc"]
        text = configuration("n1", "al", BOUNCER_PORTS["bnc"], PEER_PORT, f"127.0.0.1:{first}", workers)
        return text + "".join(NETWORK.format(number=number, port=first + number) for number in range(1, NETWORKS))

    def login_of(self, number):
        network = f"net{number or ''}"
        return f"CAP REQ :batch server-time message-tags\r\nPASS {SECRET}\r\nNICK al\r\nUSER demo/{network} 0 * :al\r\nCAP END\r\n"

    def stop(self):
        super().stop()
        for server in self.servers:
            server.close()


class Listeners:
    """The clients of all networks, and how many messages each has had."""

    def __init__(self, node):
        self.selector = selectors.DefaultSelector()
        self.room = bytearray(1 << 18)
        self.seen = [[0] * CLIENTS for _ in range(NETWORKS)]
        for number in range(NETWORKS):
            for place in range(CLIENTS):
                client = socket.create_connection(("127.0.0.1", node.port))
                client.sendall(node.login_of(number).encode())
                client.setblocking(False)
                self.selector.register(client, selectors.EVENT_READ, (number, place))
        while self.turn(1):
            pass
        # from here on there are messages alone
        self.seen = [[0] * CLIENTS for _ in range(NETWORKS)]

    def turn(self, patience):
        ready = self.selector.select(patience)
        for key, _ in ready:
            number, place = key.data
            length = key.fileobj.recv_into(self.room)
            if not length:
                raise SystemExit("the bouncer closed a client")
            self.seen[number][place] += self.room.count(b"\n", 0, length)
        return bool(ready)

    def close(self):
        for key in list(self.selector.get_map().values()):
            key.fileobj.close()


def figures_of(program, workers):
    """The lines that servers say in a second, and the processor seconds of a line."""
    node = Node(program, workers)
    try:
        listeners = Listeners(node)
        sent = [0] * NETWORKS
        pieces = [b"".join(message(it) for it in range(first, first + PIECE)) for first in range(0, LINES, PIECE)]
        before, begun = node.seconds(), time.monotonic()
        while min(min(its) for its in listeners.seen) < LINES:
            for number, server in enumerate(node.servers):
                while sent[number] < LINES and sent[number] - min(listeners.seen[number]) <= PIECE:
                    server.send(pieces[sent[number] // PIECE])
                    sent[number] += PIECE
            listeners.turn(1)
        took, spent = time.monotonic() - begun, node.seconds() - before
        listeners.close()
        return NETWORKS * LINES / took, spent / (NETWORKS * LINES)
    finally:
        node.stop()


def main():
    programs, rounds = [os.path.abspath(it) for it in sys.argv[1:2] + sys.argv[3:4]], int(sys.argv[2])
    runs = {}
    for _ in range(rounds):
        for program in programs:
            for workers in WORKERS:
                runs.setdefault((program, workers), []).append(figures_of(program, workers))
    print(name_of_run(programs[0]) + "\n")
    rows = []
    for program in programs:
        one = runs[program, 1]
        for workers in WORKERS[1:]:
            many = runs[program, workers]
            lines, seconds = ([its[at] / first[at] for its, first in zip(many, one)] for at in (0, 1))
            rows.append([os.path.basename(program), workers, spread(lines, 2), GOALS[workers][0], spread(seconds, 2), GOALS[workers][1]])
    print(table(["program", "workers", "lines a second : one worker's", "goal", "processor time a line : one worker's", "goal"], rows))


if __name__ == "__main__":
    main()
