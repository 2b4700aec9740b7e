"""The other end of a connection between nodes (docs/PROTOCOL.md, "Between nodes")."""

import re

from harness.connection import Connection, connect
from harness.failure import Failed
from harness.identities import WORD


class Peer(Connection):
    """A node of the cluster, by its name and its incarnation."""

    def __init__(self, fixture, it, name, incarnation=5, version=3, told=3, word=WORD):
        """It says hello in that version, and is told the version that the node's configuration has for it. The word is that of
        its cluster."""
        super().__init__(fixture, it, f"the peer {name}")
        self.life, self.word = f"{name} {incarnation}", word
        self.version, self.told = version, told
        self.other = None

    @classmethod
    def dial(cls, node, name="n0", incarnation=5, **how):
        """Connects to the node."""
        return cls(node.fixture, connect(node.fixture, node.peers), name, incarnation, **how)

    def greet(self):
        """Says the word and the hello first, and hears those of the node, whose life is known then."""
        self.say(f"W {self.word}", self.hello())
        self.hear(f"W {self.word}")
        return self.hear_hello()

    def hello(self):
        return f"H {self.version} {self.life}"

    def hear_hello(self):
        found = re.fullmatch(rf"H {self.told} (\w+ [0-9]+)", self.line("a hello"))
        if not found:
            raise Failed(f"{self.name}: expected a hello")
        self.other = found[1]
        return self

    def give(self, first, *changes, upto=None):
        """Sends a packet of changes that begins after that number."""
        upto = upto or first + len(changes)
        self.say(f"D {self.life} {self.other} {first} {upto} {len(changes)}", *changes)

    def hear_packet(self, first, upto, *changes):
        """Hears a packet of just these changes."""
        self.hear(f"D {self.other} {self.life} {first} {upto} {len(changes)}", *changes)

    def acknowledge(self, upto):
        self.say(f"A {self.life} {self.other} {upto}")

    def hear_acknowledged(self, upto):
        self.hear(f"A {self.other} {self.life} {upto}")
