"""A port where others connect. Strangers are counted before their TLS begins, so that they can't take more than their places."""

import asyncio
import ipaddress
import socket
import ssl
from collections import Counter
from collections.abc import Awaitable, Callable
from dataclasses import dataclass, field

from bnc_wire.journal import Often, log
from bnc_wire.lines import PIECE, close
from bnc_wire.settings import Address, Unable, reason_of

# The bytes of a connection that may wait in each of the system's own buffers.
WAITING = 131072
# How long the beginning of TLS may take.
HANDSHAKE = 10
Handler = Callable[[asyncio.StreamReader, asyncio.StreamWriter, str], Awaitable[None]]
Networks = tuple[ipaddress.IPv4Network | ipaddress.IPv6Network, ...]


@dataclass(frozen=True)
class Bounds:
    """How many connections there may be: of all, and of one source. Where `allow` has networks, no other may connect."""
    places: int
    each: int
    allow: Networks = ()


def source_of(host: str) -> str:
    """What counts as one source: an IPv4 address, or the network of 64 bits of an IPv6 address."""
    address = ipaddress.ip_address(host.partition("%")[0])
    if isinstance(address, ipaddress.IPv6Address):
        if address.ipv4_mapped:
            return str(address.ipv4_mapped)
        return str(ipaddress.ip_network((address, 64), strict=False))
    return str(address)


def listening_socket(address: Address) -> socket.socket:
    """A socket that listens at the address."""
    try:
        found = socket.getaddrinfo(address.host, address.port, type=socket.SOCK_STREAM, flags=socket.AI_PASSIVE)
        family, _, _, _, where = found[0]
        it = socket.create_server(where[:2], family=family, backlog=128)
    except OSError as error:
        raise Unable(f"can't listen at {address}: {reason_of(error)}") from None
    it.setblocking(False)
    return it


def prepare(it: socket.socket) -> None:
    """Has the system ask whether the other machine is still there: after a minute of silence, and then six times, each ten
    seconds. And it bounds the bytes that wait in the system's own buffers, each way."""
    it.setsockopt(socket.SOL_SOCKET, socket.SO_SNDBUF, WAITING)
    it.setsockopt(socket.SOL_SOCKET, socket.SO_RCVBUF, WAITING)
    it.setsockopt(socket.SOL_SOCKET, socket.SO_KEEPALIVE, 1)
    for name, value in (("TCP_KEEPIDLE", 60), ("TCP_KEEPINTVL", 10), ("TCP_KEEPCNT", 6), ("TCP_USER_TIMEOUT", 120_000)):
        if hasattr(socket, name):
            it.setsockopt(socket.IPPROTO_TCP, getattr(socket, name), value)


@dataclass
class Listener:
    """Takes connections in at a socket, and hands each to a handler."""
    listening: socket.socket
    bounds: Bounds
    handler: Handler
    kind: str
    tls: ssl.SSLContext | None = None
    sources: Counter[str] = field(default_factory=Counter)
    tasks: set[asyncio.Task[None]] = field(default_factory=set)

    def __post_init__(self) -> None:
        self.refused = Often(f"{self.kind} refused")

    async def run(self) -> None:
        """Takes connections in for ever."""
        loop = asyncio.get_running_loop()
        while True:
            try:
                it, where = await loop.sock_accept(self.listening)
            except OSError as error:
                log(f"accept failed: {reason_of(error)}; trying again in a second")
                await asyncio.sleep(1)
                continue
            self._take(it, where[0], str(Address(where[0].partition("%")[0], where[1])))

    def _take(self, it: socket.socket, host: str, name: str) -> None:
        source = source_of(host)
        why = self._why_not(source, host)
        if why:
            self.refused.log(f"{name}: {why}")
            it.close()
            return
        self.sources[source] += 1
        task = asyncio.create_task(self._serve(it, name))
        self.tasks.add(task)
        task.add_done_callback(lambda _: self._let_go(task, source))

    def _why_not(self, source: str, host: str) -> str | None:
        if self.bounds.allow and not any(ipaddress.ip_address(host.partition("%")[0]) in it for it in self.bounds.allow):
            return "its address is none that may connect"
        if self.sources.total() >= self.bounds.places:
            return f"each of {self.bounds.places} places is taken"
        if self.sources[source] >= self.bounds.each:
            return f"its address has {self.bounds.each} connections already"
        return None

    def _let_go(self, task: asyncio.Task[None], source: str) -> None:
        self.tasks.discard(task)
        self.sources[source] -= 1
        if not self.sources[source]:
            del self.sources[source]
        if not task.cancelled() and task.exception():
            log(f"{self.kind} failed: {task.exception()!r}")

    async def _serve(self, it: socket.socket, name: str) -> None:
        """One connection, from its TLS to its end."""
        loop = asyncio.get_running_loop()
        prepare(it)
        reader = asyncio.StreamReader(limit=PIECE)
        protocol = asyncio.StreamReaderProtocol(reader)
        try:
            transport, _ = await loop.connect_accepted_socket(
                lambda: protocol, it, ssl=self.tls, ssl_handshake_timeout=HANDSHAKE if self.tls else None)
        except (OSError, ssl.SSLError) as error:
            self.refused.log(f"{name}: no TLS: {getattr(error, 'reason', None) or error}")
            it.close()
            return
        writer = asyncio.StreamWriter(transport, protocol, reader, loop)
        try:
            await self.handler(reader, writer, name)
        finally:
            await close(writer)
