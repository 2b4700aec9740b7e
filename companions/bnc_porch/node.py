"""A client's session at a node: opened with what the node wants to hear."""

import asyncio
from dataclasses import dataclass

from bnc_porch.identity import Identity
from bnc_wire.journal import Often
from bnc_wire.lines import PIECE, LineReader, bytes_of, close
from bnc_wire.listener import prepare
from bnc_wire.message import Message, read_message
from bnc_wire.settings import Address, reason_of

# How long a node may take to be reached, and to say whether it lets a client in. It says no after a second.
CONNECT, ANSWER = 5, 10
unreachable = Often("node unreachable")


class NotLetIn(Exception):
    """Why a node doesn't let a client in, in words for its user."""


class WrongSecret(NotLetIn):
    """The account, the network or the secret is wrong."""


class NoNode(NotLetIn):
    """No node is there."""


@dataclass
class Session:
    """A client that a node has let in: what the node said since then, and its connection."""
    identity: Identity
    capabilities: tuple[str, ...]
    held: bytes
    reader: asyncio.StreamReader
    writer: asyncio.StreamWriter

    async def close(self) -> None:
        await close(self.writer)


async def _connect(nodes: tuple[Address, ...]) -> tuple[asyncio.StreamReader, asyncio.StreamWriter]:
    """A connection with the first node that answers."""
    for node in nodes:
        try:
            async with asyncio.timeout(CONNECT):
                reader, writer = await asyncio.open_connection(node.host, node.port, limit=PIECE)
            prepare(writer.get_extra_info("socket"))
            return reader, writer
        except (OSError, TimeoutError) as error:
            unreachable.log(f"{node}: {reason_of(error)}")
    raise NoNode("no node answers")


async def open_session(nodes: tuple[Address, ...], identity: Identity, nick: str, capabilities: tuple[str, ...]) -> Session:
    """Opens a session with the first node that answers, as the client would if it could."""
    reader, writer = await _connect(nodes)
    lines = LineReader(reader)
    try:
        async with asyncio.timeout(ANSWER):
            names = [f"CAP REQ :{' '.join(capabilities)}"] if capabilities else []
            end = ["CAP END"] if capabilities else []
            said = [*names, f"PASS :{identity.secret}", f"NICK {nick}", f"USER {identity} 0 * :{nick}", *end]
            writer.write(b"".join(bytes_of(it) + b"\r\n" for it in said))
            welcome = await _welcome(lines)
        return Session(identity, capabilities, bytes_of(welcome) + b"\r\n" + lines.held, reader, writer)
    except (OSError, TimeoutError) as error:
        await close(writer)
        raise NoNode(f"the node gave no answer: {reason_of(error)}") from None
    except BaseException:
        await close(writer)
        raise


async def _welcome(lines: LineReader) -> str:
    """The node's welcome. What it says of capabilities before is known already."""
    while True:
        line = await lines.line()
        if line is None:
            raise NoNode("the node closed the connection: maybe each of its places is taken")
        message = read_message(line) or Message("", ())
        if message.command == "001":
            return line
        if message.command == "464":
            raise WrongSecret("the account, the network or the secret is wrong")
        if message.command == "CAP" and message.parameter(1) == "NAK":
            raise NotLetIn("the node doesn't offer what the porch offers: is one of them older?")
        if message.command == "ERROR":
            raise NotLetIn(f"the node said: {message.parameter(0)}")
