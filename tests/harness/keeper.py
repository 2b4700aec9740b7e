"""A keeper: `bnc-keep` with a configuration of its own; its file; and nodes that a test plays for it."""

import contextlib
import os
import socket

from harness.connection import Listener, spelled
from harness.failure import Failed, expect
from harness.identities import WORD
from harness.node import configuration
from harness.peer import Peer
from harness.readable import readable
from harness.told import Told

# What stands in a node's configuration for the address of a keeper, which nobody dials.
NOWHERE = ("127.0.0.1", 1)
CLOSED = b"-"
POST = "C POST demo net #a m{0} {0} P #a bob!b@h :hi {0}"


def posts(*numbers):
    """The posts of these numbers."""
    return [POST.format(number) for number in numbers]


def block(*lines):
    """A block with an open gate (docs/PROTOCOL.md, "A keeper's file")."""
    payload = b"".join(line.encode() + b"\r\n" for line in lines)
    return b"+%08d\r\n" % len(payload) + payload


def payloads_of(data):
    """The payloads of a file at rest."""
    found = []
    while data != CLOSED:
        size = int(data[1:9])
        expect("the head of a block", b"+%08d\r\n" % size, data[:11])
        found.append(data[11:11 + size])
        data = data[11 + size:]
    return found


def kept_in(path):
    """The lines of the whole blocks of a file, to which a keeper may append meanwhile. What isn't whole doesn't count yet."""
    with open(path, "rb") as file:
        data = file.read()
    found = b""
    while data[:1] == b"+" and len(data) >= 11 + int(data[1:9]):
        size = int(data[1:9])
        found, data = found + data[11:11 + size], data[11 + size:]
    return found.decode().split("\r\n")[:-1]


class Keeper(Told):
    """A keeper of a test, whose name is smaller than that of each node. Its file is alone in a folder."""

    # (tests/run sets these: where the program is, and how often it is killed)
    program, kills = None, 10

    def __init__(self, fixture, peers=(), name="0keep", front=(), file=None):
        """The peers are those that it dials: their names and addresses, and maybe more of their configuration."""
        self.fixture, self.name, self.peers, self.front = fixture, name, list(peers), list(front)
        self.folder = fixture.path(f"{name}.files")
        os.makedirs(self.folder, exist_ok=True)
        self.file = file or os.path.join(self.folder, "history")
        self.process = None
        fixture.logs.append((name, self.log))

    def text(self):
        peers = [{"name": name, "address": spelled(address), **dict(more)} for name, address, *more in self.peers]
        return configuration({"node": self.name, "peer_word": WORD, "file": self.file}, peers)

    def words(self):
        """The words that start it."""
        if not os.access(self.program, os.X_OK):
            raise Failed(f"there is no keeper {self.program}: ./build keep or rt ci builds it (tests/run --keeper)")
        return [self.fixture.write(f"{self.name}.toml", self.text().encode())]

    def start(self):
        words = self.words()
        with self.errors() as log:
            self.process = self.fixture.start(*words, program=self.program, front=self.front, stdin=None, stdout=log, stderr=log)
        return self

    def begin(self):
        """Starts it, and waits until its file was read and its life is begun."""
        self.forget_log()
        self.start()
        self.wait_for("read: ")
        return self

    def run(self, **how):
        """Runs it to its end."""
        return self.fixture.run(*self.words(), program=self.program, front=self.front, **how)

    def data(self):
        """What its file has."""
        with open(self.file, "rb") as file:
            return file.read()

    def holds(self, text):
        """Those files of its folder that have this text. (One may go while they are looked at.)"""
        found = []
        for name in os.listdir(self.folder):
            with contextlib.suppress(FileNotFoundError), open(os.path.join(self.folder, name), "rb") as file:
                if text.encode() in file.read():
                    found.append(name)
        return found

    def write(self, *payloads, end=CLOSED):
        """Writes its file anew: a block for each list of lines."""
        with open(self.file, "wb") as file:
            file.write(b"".join(block(*lines) for lines in payloads) + end)


class Played(Peer):
    """A node that the test plays, over a connection that a keeper opened. It acknowledges what it gets, and keeps it."""

    def __init__(self, *given, **how):
        super().__init__(*given, **how)
        self.changes, self.acknowledged = [], 0

    def step(self):
        """Hears the next line, with all that belongs to it."""
        words = (line := self.line("a line between nodes")).split(" ")
        if words[0] == "D":
            self.changes += [self.line("a change") for _ in range(int(words[7]))]
            self.acknowledge(words[6])
        elif words[0] == "A":
            expect("for whom it is", f"{self.other} {self.life}", " ".join(words[1:5]))
            self.acknowledged = max(self.acknowledged, int(words[5]))
        elif words[0] != "H":
            raise Failed(f"{self.name}: expected a line of a greeted keeper, came {line!r}")

    def hear_acknowledged(self, upto):
        """Hears what comes until that number is acknowledged."""
        while self.acknowledged < upto:
            self.step()

    def hear_changes(self, *changes):
        """Hears what comes until it has each of these changes, and has heard no other."""
        while not set(changes) <= set(self.changes):
            self.step()
        expect(f"{self.name} got", sorted(changes), sorted(set(self.changes)))

    def keep(self, *changes):
        """Has these changes kept: they are acknowledged."""
        first = self.acknowledged
        self.give(first, *changes)
        self.hear_acknowledged(first + len(changes))


class PlayedNode(Listener):
    """Where a keeper finds a node that the test plays."""

    def __init__(self, fixture, name="n1", incarnation=5, version=3, told=3):
        super().__init__(fixture)
        # (so that it may come back while connections of before are still about)
        self.socket.setsockopt(socket.SOL_SOCKET, socket.SO_REUSEADDR, 1)
        self.name, self.incarnation, self.version, self.told = name, incarnation, version, told
        self.peer = (name, self.address, *([("version", told)] if told != 3 else []))

    def leave(self):
        """Listens no more."""
        self.socket.close()

    def come_back(self):
        """Listens again, at its address."""
        self.socket = self.fixture.until(f"{self.name} has its port again", self.server)
        self.fixture.at_end(self.socket.close)

    def server(self):
        try:
            return socket.create_server(self.address)
        except OSError:
            return None

    def forget(self):
        """Closes the connections that nobody took in, of a keeper that was killed."""
        while readable([self.socket]):
            self.socket.accept()[0].close()

    def meet(self):
        """Takes in the next connection, and greets."""
        it = self.next_socket(self.name)
        played = Played(self.fixture, it, self.name, self.incarnation, version=self.version, told=self.told)
        played.hear(f"W {played.word}")
        played.hear_hello()
        played.say(f"W {played.word}", played.hello())
        return played

    def keep(self, *changes):
        """Has these changes kept, over the next connection that lasts: one that a keeper ends as it begins a new life doesn't."""
        while True:
            self.fixture.patience()
            try:
                played = self.meet()
                played.keep(*changes)
                return played
            except (Failed, OSError):
                continue
