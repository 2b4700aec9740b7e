"""A client's connection, by lines until it is let in."""

import asyncio
from typing import Protocol

from bnc_wire.lines import LineReader, Outlet

# The most bytes that wait for a client before it is let in, and the most that are carried at once.
OWED, PIECE = 16384, 16384


class Client(Protocol):
    """What the porch needs of a client's connection. All calls but `say` end by themselves as the connection ends."""
    name: str

    async def line(self) -> str | None:
        """The next line without its ending, or none at the end."""

    async def say(self, *lines: str) -> None:
        """Sends lines."""

    async def give(self, writer: asyncio.StreamWriter) -> None:
        """Carries what the client sends to the node, until the client ends."""

    async def take(self, data: bytes) -> None:
        """Carries what the node sent to the client; waits while the client doesn't read."""


class StreamClient:
    """A client over a stream of bytes."""

    def __init__(self, reader: asyncio.StreamReader, writer: asyncio.StreamWriter, name: str) -> None:
        self.reader, self.writer, self.name = reader, writer, name
        self.lines, self.outlet = LineReader(reader), Outlet(writer, OWED)

    async def line(self) -> str | None:
        return await self.lines.line()

    async def say(self, *lines: str) -> None:
        if not self.outlet.say(*lines):
            raise ConnectionError("it did not read what was owed to it")
        await self.writer.drain()

    async def give(self, writer: asyncio.StreamWriter) -> None:
        # (what came behind its last line before it was let in)
        data = self.lines.held
        while True:
            if data:
                writer.write(data)
                await writer.drain()
            data = await self.reader.read(PIECE)
            if not data:
                return

    async def take(self, data: bytes) -> None:
        self.writer.write(data)
        await self.writer.drain()
