"""Lines over a connection, with a bound on what waits in each direction."""

import asyncio

# The longest line that is read, its ending included: 8,191 bytes of tags and 512 of the rest (IRCv3 message-tags).
LONGEST = 8703
# The most bytes that are asked for at once.
PIECE = 4096


def text_of(data: bytes) -> str:
    """Bytes as text, which `bytes_of` gives back as they were, whatever they are."""
    return data.decode("utf-8", "surrogateescape")


def bytes_of(text: str) -> bytes:
    return text.encode("utf-8", "surrogateescape")


class LineReader:
    """The lines of a connection. One that is too long is dropped to its end, and counted."""

    def __init__(self, reader: asyncio.StreamReader) -> None:
        self.reader, self.held, self.is_dropping, self.dropped = reader, b"", False, 0

    async def line(self) -> str | None:
        """The next line without its ending, or none at the connection's end. Bytes after the last LF are no line."""
        while True:
            line, found, rest = self.held.partition(b"\n")
            if found:
                self.held = rest
                if self.is_dropping or len(line) >= LONGEST:
                    self.is_dropping = False
                    self.dropped += 1
                    continue
                return text_of(line[:-1] if line.endswith(b"\r") else line)
            if len(self.held) >= LONGEST:
                self.held, self.is_dropping = b"", True
            piece = await self.reader.read(PIECE)
            if not piece:
                return None
            self.held += piece


class Outlet:
    """The lines that go out over a connection. Who doesn't read is closed before more than `most` bytes wait for it."""

    def __init__(self, writer: asyncio.StreamWriter, most: int) -> None:
        self.writer, self.most = writer, most

    def say(self, *lines: str) -> bool:
        """Sends lines, and answers whether they could be taken."""
        data = b"".join(bytes_of(line) + b"\r\n" for line in lines)
        if self.writer.is_closing() or self.writer.transport.get_write_buffer_size() + len(data) > self.most:
            return False
        self.writer.write(data)
        return True


async def close(writer: asyncio.StreamWriter, seconds: float = 2) -> None:
    """Closes a connection: what waits is sent within that time, and else dropped."""
    try:
        writer.close()
        async with asyncio.timeout(seconds):
            await writer.wait_closed()
    except (OSError, TimeoutError):
        pass
    finally:
        _abort(writer)


def _abort(writer: asyncio.StreamWriter) -> None:
    try:
        writer.transport.abort()
    except AttributeError:
        # (that of TLS has forgotten its connection once it is closed)
        pass
