#!/usr/bin/env python3
"""Measures how a node joins a cluster that holds much, what clients wait for meanwhile, and what a packet costs that brings
nothing new.

    bench/joining.py PROGRAM [MESSAGES]

A node takes so many messages from its network's server (1,000,000 if nothing else is said). Then a second node with nothing
starts, whose peer is the first. All the while a client of each node says PING each 10 ms. The two are level once the second
node tells it. Then a peer that this script plays sends the first node the same packet of 256 changes again and again.
"""
import os
import shutil
import sys
import tempfile
import threading
import time

from cluster import BODY, WORD, Network, Node, Session, connected, waits
from machine import name_of_run, table

# How long the first node may take for its messages, and the second to be level.
PATIENCE = 600
PIECES, PACKETS = 256, 2000


class Pinger(threading.Thread):
    """A client that says PING each 10 ms, and keeps the longest wait for an answer in seconds."""

    def __init__(self, port):
        super().__init__(daemon=True)
        self.session, self.longest, self.goes_on = Session(port, 60).login(), 0.0, True
        self.session.until(" 001 ")

    def run(self):
        number = 0
        while self.goes_on:
            number += 1
            begun = time.monotonic()
            self.session.say(f"PING n{number}")
            self.session.until(f":n{number}")
            self.longest = max(self.longest, time.monotonic() - begun)
            time.sleep(0.01)

    def stop(self):
        self.goes_on = False
        self.join()
        self.session.close()
        return self.longest


def messages(count):
    """Lines of a server, in pieces of a thousand."""
    for first in range(0, count, 1000):
        yield b"".join(b":bob!bob@host PRIVMSG #a :%08d %s\r\n" % (number, BODY.encode())
                       for number in range(first, min(first + 1000, count)))


def has(node, text):
    """Whether the node's latest message has this text. Who asks hears what comes meanwhile, and may be closed for being late."""
    try:
        asks = Session(node.clients, 60).login()
        asks.until(" 001 ")
        page = asks.page("CHATHISTORY LATEST #a * 1")
        asks.close()
    except OSError:
        return False
    return any(text in line for line in page or [])


def fill(network, node, count):
    """Has the node take so many messages, and says in how many seconds."""
    begun = time.monotonic()
    for piece in messages(count):
        network.say(piece, node.nick)
    waits("the messages", lambda: has(node, f"{count - 1:08d}"), PATIENCE)
    return time.monotonic() - begun


class Peer:
    """A node that this script plays, which sends packets of changes."""

    def __init__(self, node):
        self.socket, self.held = connected(node.peers, 60), b""
        self.life = "n0 5"
        self.socket.sendall(f"W {WORD}\nH 3 {self.life}\n".encode())
        self.other = self.until(b"H ").decode().split(" ", 2)[2]

    def until(self, head):
        """The next line that begins so."""
        while True:
            while b"\n" not in self.held:
                data = self.socket.recv(1 << 16)
                if not data:
                    raise SystemExit("the node closed the connection with the peer")
                self.held += data
            line, _, self.held = self.held.partition(b"\n")
            line = line.rstrip(b"\r")
            if line.startswith(head):
                return line

    def give(self, changes):
        """Sends a packet of these changes and hears it acknowledged."""
        head = f"D {self.life} {self.other} 0 {len(changes)} {len(changes)}"
        self.socket.sendall("".join(f"{it}\n" for it in [head, *changes]).encode())
        self.until(f"A {self.other} {self.life} ".encode())


def packet_cost(node):
    """Microseconds of the node's processor time for each change of packets that bring nothing new."""
    peer = Peer(node)
    changes = [f"C POST demo net #a m{number:04d} {1000 + number} P #a bob!bob@host :{BODY}" for number in range(PIECES)]
    peer.give(changes)
    spent = node.seconds()
    for _ in range(PACKETS):
        peer.give(changes)
    spent = node.seconds() - spent
    peer.socket.close()
    return spent / PACKETS / PIECES * 1e6


def main():
    program = os.path.abspath(sys.argv[1])
    count = int(sys.argv[2]) if len(sys.argv) > 2 else 1_000_000
    home = tempfile.mkdtemp(prefix="bench-")
    network = Network()
    network.open()
    # (the one with the smaller name opens the connection, at once as it starts)
    first, second = (Node(home, program, number, network.port, []) for number in (2, 1))
    first.known += [("n1", second.peers), ("n0", 9)]
    second.known.append(("n2", first.peers))
    for node in (first, second):
        node.write()
    try:
        first.start()
        waits("the first node", lambda: network.is_up(first.nick), 30)
        taken = fill(network, first, count)
        here = Pinger(first.clients)
        here.start()
        begun, spent = time.monotonic(), first.seconds()
        second.start()
        waits("the second node", lambda: " listening: " in second.log(), 30, 0.05)
        there = Pinger(second.clients)
        there.start()
        waits("level", lambda: " peer level: n2" in second.log(), PATIENCE, 0.05)
        joined = time.monotonic() - begun
        spent = first.seconds() - spent
        print(name_of_run(program), "\n")
        print(table(["what", "figure", "goal"], [
            [f"a node takes {count:,} messages of its server", f"{taken:.1f} s", ""],
            ["a second node that holds nothing is level with it", f"after {joined:.1f} s", "10 s"],
            [".. of which the first one's processor time", f"{spent:.1f} s", ""],
            [".. and the second one's", f"{second.seconds():.1f} s", ""],
            ["the longest wait for a PONG meanwhile, at the first and at the second",
             f"{here.stop() * 1000:.0f} and {there.stop() * 1000:.0f} ms", "50 ms"],
            ["resident memory of the first and of the second",
             f"{first.resident() / 1e6:.0f} and {second.resident() / 1e6:.0f} MB", ""],
            [f"a change of a packet of {PIECES} that brings nothing new", f"{packet_cost(first):.2f} us", "1 us"],
        ]))
    finally:
        for node in (first, second):
            if node.process and node.is_up():
                node.kill()
        shutil.rmtree(home, ignore_errors=True)


if __name__ == "__main__":
    main()
