"""Everybody has a turn, whatever the load (docs/OPERATING.md, "Size")."""

import socket
import statistics
import subprocess
import threading
import time

from harness.failure import Failed
from harness.node import Node
from harness.readable import readable
from harness.registry import test
from harness.server import Server

# How many clients each worker has beside the one that is looked at.
BESIDE = 20
# How many lines of a server a client may hear before its answer, of 256 a turn. Some are on their way.
LINES = 1000
# How often it is asked for.
ROUNDS = 9


def endless(fixture, words, **how):
    """A process beside the test, over a connection of it."""
    process = subprocess.Popen(words, stderr=subprocess.DEVNULL, **how)
    fixture.at_end(process.wait)
    fixture.at_end(process.kill)


def says_without_pause(fixture, session, line):
    """A server that says the line again and again, as fast as it is read."""
    session.socket.settimeout(None)
    endless(fixture, ["yes", f"{line}\r"], stdin=subprocess.DEVNULL, stdout=session.socket.fileno())


def reads_all(fixture, client):
    """A client that reads whatever comes."""
    client.socket.settimeout(None)
    endless(fixture, ["cat"], stdin=client.socket.fileno(), stdout=subprocess.DEVNULL)


class Ear:
    """Reads whatever comes over a connection, counts the lines, and knows at which line and when it heard its word last. The
    socket stays as it is, since a process beside may write to it."""

    def __init__(self, connection, word):
        self.connection, self.word = connection, word.encode()
        self.rest, self.lines, self.at, self.when = b"", 0, None, None

    def read(self):
        it = self.connection.socket
        if not readable([it], self.connection.fixture.patience()):
            raise Failed(f"{self.connection.name}: nothing more comes, after {self.lines} lines")
        more = it.recv(1 << 20, socket.MSG_DONTWAIT)
        if not more:
            raise Failed(f"{self.connection.name}: the connection was closed")
        # (searched as a whole: who goes through the lines one by one falls behind a server that floods)
        came = self.rest + more
        end = came.rfind(b"\n") + 1
        found = came.rfind(self.word, 0, end)
        if found >= 0:
            self.at, self.when = self.lines + came.count(b"\n", 0, found), time.monotonic()
        self.lines += came.count(b"\n", 0, end)
        self.rest = came[end:]

    def hears(self):
        """Reads until the word is heard anew."""
        last = self.at
        while self.at == last:
            self.read()

    def go_on(self):
        """Reads until the connection ends."""
        try:
            while True:
                self.read()
        except (Failed, OSError, ValueError):
            # (a socket that was closed at this end has no number any more)
            pass

    def beside(self):
        """Reads in a thread of its own."""
        threading.Thread(target=self.go_on, daemon=True).start()
        return self


def is_heard(fixture, ear, seconds, what):
    fixture.until(what, lambda: ear.at is not None, seconds)


def most(what, allowed, came):
    if came > allowed:
        raise Failed(f"{what}: {came} and not at most {allowed}")


def under_a_flood(fixture, which):
    """The server of that network speaks without pause. The worker of that number has it. Each worker has clients of it."""
    servers = [Server(fixture), Server(fixture)]
    node = Node(fixture, servers=[server.address for server in servers], bound=1 << 20, places=2 * BESIDE + 2).begin()
    session = [server.register("message-tags") for server in servers][which]
    clients = [node.client(f"client {number}").register(network=node.networks[which]) for number in range(2 * BESIDE + 2)]
    for client in clients[2:]:
        reads_all(fixture, client)
    near, far = clients[which], clients[1 - which]
    hears_far, server = Ear(far, "PONG").beside(), Ear(session, "from the other worker")
    says_without_pause(fixture, session, ":bob!b@h PRIVMSG #a :hi")
    server.beside()
    hears_near, took, between = Ear(near, "PONG"), [], []
    for _ in range(ROUNDS):
        began, before = time.monotonic(), hears_near.lines
        near.say("PING :here")
        hears_near.hears()
        took.append(hears_near.when - began)
        between.append(hears_near.at - before)
    far.say("PRIVMSG #a :from the other worker")
    hears_near.beside()
    is_heard(fixture, server, 5, "the server hears the line of a client of the other worker")
    most("lines before a PONG", LINES, statistics.median(between))
    most("seconds before a PONG", 1, statistics.median(took))
    # (a client of the other worker hears the same lines, not much later)
    fixture.until("much is said", lambda: hears_near.lines > 2000)
    most("lines that a client of the other worker is behind", 5000 + hears_near.lines // 4, hears_near.lines - hears_far.lines)


@test
def a_server_without_pause_holds_nobody_up_at_the_first_worker(fixture):
    under_a_flood(fixture, 0)


@test
def a_server_without_pause_holds_nobody_up_at_the_second_worker(fixture):
    under_a_flood(fixture, 1)
