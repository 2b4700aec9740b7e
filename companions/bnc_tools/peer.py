"""A peer that hands changes to a node (docs/PROTOCOL.md, "Between nodes")."""

import re
import socket
from collections.abc import Sequence

from bnc_tools.addresses import Address
from bnc_tools.commands import CommandError, said

VERSION = 3
# The most changes of a packet.
MOST_OF_PACKET = 256
# How long an acknowledgement is waited for, and how often a packet is said.
PATIENCE, TRIES = 60.0, 3
CLOSED = "the node closed the connection: its log says why, beside `peer refused` or `peer down`"


class Peer:
    """A connection with a node, which has been greeted."""

    def __init__(self, address: Address, word: str, name: str, incarnation: int) -> None:
        self.word, self.life, self.upto = word, f"{name} {incarnation}", 0
        try:
            self.socket = socket.create_connection((address.host, address.port), PATIENCE)
        except OSError as error:
            raise CommandError(f"can't reach the node at {address.host}, port {address.port}: {said(error)}") from None
        self.held = b""
        self.other = self.greet()

    def close(self) -> None:
        self.socket.close()

    def greet(self) -> str:
        """Says the word and the hello, and answers the life of the node."""
        word = f"W {self.word}".encode()
        self.say(word, f"H {VERSION} {self.life}".encode())
        try:
            said_word, hello = self.line(), self.line()
        except TimeoutError:
            raise CommandError("nothing comes from the node's address") from None
        found = re.fullmatch(rb"H \d+ ([a-z0-9]+ \d+)", hello)
        if said_word != word or not found:
            raise CommandError("who listens at the node's address is no node with the configuration's word")
        return found[1].decode()

    def say(self, *lines: bytes) -> None:
        try:
            self.socket.sendall(b"".join(line + b"\r\n" for line in lines))
        except OSError as error:
            raise CommandError(f"the node takes nothing more: {said(error)}") from None

    def line(self) -> bytes:
        """The node's next line, for which the patience is waited."""
        while b"\n" not in self.held:
            more = self.receive()
            if not more:
                raise CommandError(CLOSED)
            self.held += more
        line, _, self.held = self.held.partition(b"\n")
        return line.removesuffix(b"\r")

    def receive(self) -> bytes:
        try:
            return self.socket.recv(65536)
        except TimeoutError:
            raise
        except ConnectionResetError:
            return b""
        except OSError as error:
            raise CommandError(f"the connection with the node ended: {said(error)}") from None

    def give(self, changes: Sequence[bytes]) -> None:
        """Hands a packet of changes over, and waits until the node has acknowledged it."""
        upto = self.upto + len(changes)
        head = f"D {self.life} {self.other} {self.upto} {upto} {len(changes)}".encode()
        for _ in range(TRIES):
            self.say(head, *changes)
            if self.is_acknowledged(upto):
                self.upto = upto
                return
        raise CommandError("the node acknowledged nothing for three minutes: it may be out of memory")

    def is_acknowledged(self, upto: int) -> bool:
        """Whether the node acknowledges that number in time. What it has for its peer is taken meanwhile, and left."""
        wanted = f"A {self.other} {self.life} {upto}".encode()
        while True:
            try:
                line = self.line()
            except TimeoutError:
                return False
            if line == wanted:
                return True
            if line.startswith(b"D "):
                self.take_packet(line)

    def take_packet(self, head: bytes) -> None:
        """Takes a packet of the node and acknowledges it, so that the node sends it no more."""
        upto, count = head.split(b" ")[-2:]
        for _ in range(int(count)):
            self.line()
        self.say(f"A {self.life} {self.other} {upto.decode()}".encode())
