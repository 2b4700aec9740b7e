"""Clients over WebSocket, a message a line (IRCv3 WebSocket). What is a WebSocket is known to Debian's package
python3-websockets, which has no socket here: so its connections are bounded like all others."""

import asyncio
from collections import deque
from importlib import import_module
from types import SimpleNamespace
from typing import Any

from bnc_wire.lines import LONGEST, bytes_of, text_of
from bnc_wire.settings import Refused

# A browser takes text. The other one takes bytes as they are.
TEXT, BINARY = "text.ircv3.net", "binary.ircv3.net"
PIECE = 4096


def library() -> SimpleNamespace:
    """What is used of the package, or a refusal that says how to get it."""
    try:
        from websockets.exceptions import WebSocketException
        from websockets.http11 import Request
        server = import_module("websockets.server")
    except ImportError:
        raise Refused("[websocket] needs the package python3-websockets: apt install python3-websockets") from None
    # (the class had another name before version 11)
    protocol = getattr(server, "ServerProtocol", None) or server.ServerConnection
    return SimpleNamespace(protocol=protocol, request=Request, error=WebSocketException)


class WebSocketClient:
    """A client whose messages are lines without an ending."""

    def __init__(self, reader: asyncio.StreamReader, writer: asyncio.StreamWriter, name: str) -> None:
        self.reader, self.writer, self.name = reader, writer, name
        self.library = library()
        self.protocol = self.library.protocol(subprotocols=[TEXT, BINARY], max_size=LONGEST)
        self.messages: deque[bytes] = deque()
        self.part = self.held = b""
        self.is_over = False

    async def line(self) -> str | None:
        while not self.messages:
            if self.is_over:
                return None
            await self._receive()
        # (a message is one line, whatever is in it)
        return text_of(self.messages.popleft()).rstrip("\r\n").replace("\r", " ").replace("\n", " ")

    async def _receive(self) -> None:
        """Takes in what the other end sent, and answers its handshake, its pings and its end."""
        data = await self.reader.read(PIECE)
        self.is_over = not data
        try:
            if data:
                self.protocol.receive_data(data)
            else:
                self.protocol.receive_eof()
        except Exception:
            # (the package raises what it likes where the first lines are no HTTP)
            raise ConnectionError("it speaks no WebSocket") from None
        for event in self.protocol.events_received():
            if isinstance(event, self.library.request):
                self.protocol.send_response(self.protocol.accept(event))
            else:
                self._frame(event)
        await self._flush()

    def _frame(self, frame: Any) -> None:
        """A message's part, or a sign that the package has answered."""
        if frame.opcode in (0, 1, 2):
            self.part += frame.data
            if frame.fin:
                self.messages.append(self.part)
                self.part = b""

    async def _flush(self) -> None:
        """Sends what the package wants to be sent. Empty bytes are the connection's end."""
        for data in self.protocol.data_to_send():
            if data:
                self.writer.write(data)
            else:
                self.is_over = True
        await self.writer.drain()

    async def say(self, *lines: str) -> None:
        try:
            for line in lines:
                if self.protocol.subprotocol == BINARY:
                    self.protocol.send_binary(bytes_of(line))
                else:
                    self.protocol.send_text(bytes_of(line).decode("utf-8", "replace").encode())
        except self.library.error:
            raise ConnectionError("the client closed it") from None
        await self._flush()

    async def give(self, writer: asyncio.StreamWriter) -> None:
        while (line := await self.line()) is not None:
            writer.write(bytes_of(line) + b"\r\n")
            await writer.drain()

    async def take(self, data: bytes) -> None:
        *lines, self.held = (self.held + data).split(b"\n")
        await self.say(*(text_of(line.rstrip(b"\r")) for line in lines))
