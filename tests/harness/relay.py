"""A relay between two nodes: it passes on what they say to each other, and does to it what a bad line does. It never changes a
byte, since TCP doesn't either: what a connection brings is a prefix of what was said over it."""

import random
import re
import socket
import threading
import time

from harness.readable import readable

# A packet's head, whose last number says how many lines follow (docs/PROTOCOL.md, "Lines").
HEAD = re.compile(rb"D \S+ \d+ \S+ \d+ \d+ \d+ (\d+)\r\n")
# How many messages of the past may come again.
PAST = 50


class Way:
    """What goes one way over a connection, message by message: a line, or a packet with all of its lines."""

    def __init__(self, source, to, past):
        self.source, self.to, self.past = source, to, past
        self.held, self.messages, self.count = b"", [], 0
        self.wait_until = 0

    def receive(self):
        """Takes in what came. False once nothing more can come."""
        try:
            more = self.source.recv(65536)
        except OSError:
            return False
        self.held += more
        while True:
            size = self.size()
            if not size:
                return bool(more)
            self.messages.append(self.held[:size])
            self.held = self.held[size:]

    def size(self):
        """How many bytes the first message has, or 0 while it isn't whole."""
        head = HEAD.match(self.held)
        end = -1
        for _ in range(1 + int(head[1]) if head else 1):
            end = self.held.find(b"\n", end + 1)
            if end < 0:
                return 0
        return end + 1

    def give(self, data):
        try:
            self.to.sendall(data)
        except OSError:
            pass

    def give_next(self):
        """Passes the first message on."""
        message = self.messages.pop(0)
        self.give(message)
        self.count += 1
        if message[:1] in b"DA":
            self.past.append(message)
            del self.past[:-PAST]

    def give_again(self, chance):
        """Passes a message of the past on once more, as a node does that says it again after a reconnect."""
        # (not before the word and the hello)
        if self.past and self.count >= 2:
            self.give(chance.choice(self.past))

    def close(self):
        for it in (self.source, self.to):
            it.close()


class Line:
    """A connection of the one node, and the one that was made to the other node for it."""

    def __init__(self, near, far, pasts):
        self.near, self.far = near, far
        self.ways = [Way(near, far, pasts[0]), Way(far, near, pasts[1])]
        # after so many messages something happens to it
        self.left = None


class Relay:
    """Where the one node connects to reach the other. Without a chance it passes on whatever comes."""

    def __init__(self, fixture, seed=None):
        self.fixture = fixture
        self.chance = random.Random(seed) if seed is not None else None
        self.listener = socket.socket()
        self.listener.bind(("127.0.0.1", 0))
        self.listener.listen(16)
        self.address = self.listener.getsockname()
        self.target = None
        self.lines, self.pasts, self.late = [], ([], []), []
        self.counts = {}
        self.lock, self.is_over = threading.Lock(), False
        fixture.at_end(self.end)
        threading.Thread(target=self.run, daemon=True).start()

    def end(self):
        with self.lock:
            self.is_over = True
            self.cut_all()
            self.listener.close()

    def run(self):
        while True:
            sources = [self.listener, *(way.source for line in self.lines for way in line.ways)]
            try:
                readable(sources, 0.003)
            except (OSError, ValueError):
                pass
            with self.lock:
                if self.is_over:
                    return
                self.accept()
                for line in list(self.lines):
                    self.move(line)
                self.move_late()

    def accept(self):
        if not readable([self.listener]):
            return
        near = self.listener.accept()[0]
        try:
            far = socket.create_connection(self.target, 5)
        except OSError:
            near.close()
            return
        for it in (near, far):
            it.setsockopt(socket.IPPROTO_TCP, socket.TCP_NODELAY, 1)
        line = Line(near, far, self.pasts)
        if self.chance:
            line.left = self.chance.randrange(6, 60)
        self.lines.append(line)
        self.count("connections")

    def count(self, what):
        self.counts[what] = self.counts.get(what, 0) + 1

    def move(self, line):
        """Passes on what came over a connection. Its end is passed on too."""
        if line.left == 0:
            return
        for way in line.ways:
            if not self.receive(way) and not way.messages:
                self.cut(line)
                return
            while way.messages and time.monotonic() >= way.wait_until and line.left != 0:
                self.pass_on(line, way)
        if line.left == 0:
            self.spoil(line)

    def receive(self, way):
        while readable([way.source]):
            if not way.receive():
                return False
        return True

    def pass_on(self, line, way):
        way.give_next()
        if not self.chance:
            return
        line.left -= 1
        if self.chance.random() < 0.1:
            way.give_again(self.chance)
            self.count("repeated")
        if self.chance.random() < 0.2:
            way.wait_until = time.monotonic() + self.chance.random() * 0.03
            self.count("delayed")

    def spoil(self, line):
        """What happens to a connection in the end: it is cut in the middle of a message; or is cut for the one node, while what
        it said comes late to the other, maybe behind what it says next; or it is open and nothing comes over it."""
        fate = self.chance.choice(["torn", "torn", "late", "late", "silent"])
        self.count(fate)
        if fate == "silent":
            return
        for way in line.ways:
            self.receive(way)
            rest = b"".join(way.messages) + way.held
            if fate == "torn" and rest:
                way.give(rest[:self.chance.randrange(len(rest))])
        if fate == "late":
            line.near.close()
            self.late.append((time.monotonic() + self.chance.random() * 0.5, line))
            self.lines.remove(line)
        else:
            self.cut(line)

    def move_late(self):
        for at, line in list(self.late):
            if time.monotonic() >= at:
                self.late.remove((at, line))
                line.ways[0].give(b"".join(line.ways[0].messages))
                line.far.close()

    def cut(self, line):
        self.lines.remove(line)
        line.near.close()
        line.far.close()

    def cut_all(self):
        for line in list(self.lines):
            self.cut(line)

    def lose_far_end(self):
        """The other node's machine is gone for the one that connected: its end stays open, and nothing comes over it. The other
        node learns that the connection ended."""
        with self.lock:
            for line in self.lines:
                line.left = 0
                line.far.close()

    def calm(self):
        """Passes on whatever comes from now on."""
        with self.lock:
            self.chance = None
            for line in list(self.lines):
                if line.left == 0:
                    self.cut(line)
