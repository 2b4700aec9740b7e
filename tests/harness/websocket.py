"""A client over a WebSocket (RFC 6455), as far as a test needs it."""

import base64
import hashlib
import os
import struct

from harness.connection import Connection
from harness.failure import Failed, expect

MAGIC = "258EAFA5-E914-47DA-95CA-C5AB0DC85B11"
TEXT, BINARY, CLOSE, PING, PONG = 1, 2, 8, 9, 10


class WebSocket(Connection):
    """Lines over a WebSocket, a message each (IRCv3 WebSocket)."""

    def __init__(self, fixture, it, name="a browser", protocol="text.ircv3.net"):
        super().__init__(fixture, it, name)
        self.kind = BINARY if protocol == "binary.ircv3.net" else TEXT
        self.shake_hands(protocol)

    def shake_hands(self, protocol):
        key = base64.b64encode(os.urandom(16)).decode()
        asked = [f"Sec-WebSocket-Protocol: {protocol}"] if protocol else []
        self.send("\r\n".join(["GET / HTTP/1.1", "Host: localhost", "Upgrade: websocket", "Connection: Upgrade",
                               f"Sec-WebSocket-Key: {key}", "Sec-WebSocket-Version: 13", *asked, "", ""]).encode())
        expect("the answer to a handshake", "HTTP/1.1 101 Switching Protocols", super().line())
        headers = {}
        while True:
            line = super().line()
            if not line:
                break
            name, _, value = line.partition(": ")
            headers[name.lower()] = value
        accepted = base64.b64encode(hashlib.sha1((key + MAGIC).encode()).digest()).decode()
        expect("the accepted key", accepted, headers.get("sec-websocket-accept"))
        expect("the protocol", protocol, headers.get("sec-websocket-protocol", ""))

    def say(self, *lines):
        for line in lines:
            self.frame(self.kind, line.encode())

    def frame(self, kind, data):
        """Sends a message, whose bytes are masked by zeros, which leaves them as they are."""
        length = bytes([0x80 | len(data)]) if len(data) < 126 else bytes([0x80 | 126]) + struct.pack(">H", len(data))
        self.send(bytes([0x80 | kind]) + length + bytes(4) + data)

    def exactly(self, count):
        while len(self.held) < count:
            more = self.receive()
            if not more:
                raise Failed(f"{self.name}: the connection was closed")
            self.held += more
        data, self.held = self.held[:count], self.held[count:]
        return data

    def line(self, wanted="a line"):
        """The next message, which must be of the right kind and have no ending."""
        while True:
            kind, length = self.exactly(2)
            if length == 126:
                length, = struct.unpack(">H", self.exactly(2))
            data = self.exactly(length)
            if kind & 15 == PING:
                self.frame(PONG, data)
                continue
            expect(f"{self.name}: the kind of a message, where {wanted!r} is expected", self.kind, kind & 15)
            text = data.decode()
            if "\n" in text or "\r" in text:
                raise Failed(f"{self.name}: a message has an ending: {text!r}")
            return text

    def hear_end(self):
        kind, length = self.exactly(2)
        self.exactly(length)
        expect(f"{self.name}: the kind of the last message", CLOSE, kind & 15)
