"""The door's connection with the network: opened, registered, and opened again."""

import asyncio
import random
import ssl
from itertools import cycle
from typing import TYPE_CHECKING

from bnc_door.registration import Ended, Registration
from bnc_door.sending import Pace
from bnc_door.session import Session
from bnc_wire.journal import log
from bnc_wire.lines import PIECE, LineReader, Outlet, close
from bnc_wire.listener import prepare
from bnc_wire.message import Message, read_message
from bnc_wire.settings import Address, reason_of
from bnc_wire.tasks import first_ended

if TYPE_CHECKING:
    from bnc_door.door import Door

# So many lines of the burst are gone once the door is welcome.
REGISTERING = 3
# The seconds that connecting and registering may take.
CONNECT, REGISTER = 30, 60
# After so many seconds without a line the network is asked whether it is there, and given up after so many more.
SILENCE, ANSWER = 90, 60
# The most bytes that wait to be sent, and how long they may.
OWED, STUCK = 65536, 60
# The first pause before the network is tried again, the longest one, and how long a session is one that went well.
PAUSE, LONGEST, WELL = 2, 300, 60
# What a server says as it throttles or bans, and how long the door then stays away.
WORDS_OF_REFUSAL = (("throttl", 60), ("too fast", 60), ("too many", 60), ("banned", 300), ("line", 300), ("dnsbl", 300))


class Retry:
    """How long to wait before the network is tried again."""

    def __init__(self) -> None:
        self.pause = float(PAUSE)

    def after(self, lasted: float, least: float) -> float:
        """The pause after a session that lasted so many seconds, and after which so many have to go by."""
        if lasted >= WELL:
            self.pause = float(PAUSE)
        pause = max(self.pause, least)
        self.pause = min(self.pause * 2, LONGEST)
        # (doors that lost the network together don't come back together)
        return pause * random.uniform(1, 1.2)


def wait_of(words: str) -> float:
    """How long to stay away after a server's last words."""
    folded = words.lower()
    return max((seconds for word, seconds in WORDS_OF_REFUSAL if word in folded), default=0)


class Uplink:
    """The session with the network, over one connection after another."""

    def __init__(self, door: "Door") -> None:
        self.door, self.network = door, door.settings.network
        self.outlet: Outlet | None = None
        self.pace = Pace(0)

    async def run(self) -> None:
        """Keeps a session with the network until it is cancelled."""
        loop, retry = asyncio.get_running_loop(), Retry()
        for server in cycle(self.network.servers):
            begun, least = loop.time(), 0.0
            try:
                await self._session(server)
                why = "it closed the connection"
            except Ended as end:
                why, least = str(end), end.wait
            except ssl.SSLCertVerificationError as error:
                why = f"its certificate is refused: {error.verify_message}: look at network.tls_name and network.authority"
            except (OSError, TimeoutError) as error:
                why = f"it could not be reached: {reason_of(error)}"
            pause = retry.after(loop.time() - begun, least)
            log(f"network down: {server}: {why}; it is tried again in {pause:.0f} seconds")
            await asyncio.sleep(pause)

    async def _session(self, server: Address) -> None:
        """One connection, from its begin to its end."""
        reader, writer = await self._connect(server)
        self.outlet, lines = Outlet(writer, OWED), LineReader(reader)
        # (so that the next line waits until the system has taken this one)
        writer.transport.set_write_buffer_limits(high=0)
        why = "the network went away"
        try:
            async with asyncio.timeout(REGISTER):
                session = await self._register(lines)
            log(f"network up: {server} as {session.nick}")
            self.door.enter_session(session)
            await first_ended(self._hear(lines), self._send(writer))
        except TimeoutError:
            raise Ended(f"it did not let the door in within {REGISTER} seconds") from None
        except Ended as end:
            why = f"the network went away: {end}"
            raise
        except asyncio.CancelledError:
            why = "the door ends, or gives way to the first one"
            self.outlet.say("QUIT :bnc-door")
            raise
        finally:
            self.outlet = None
            self.door.leave_session(why)
            await close(writer)

    async def _connect(self, server: Address) -> tuple[asyncio.StreamReader, asyncio.StreamWriter]:
        context = self.network.tls
        name = self.network.tls_name or server.host if context else None
        async with asyncio.timeout(CONNECT):
            reader, writer = await asyncio.open_connection(server.host, server.port, limit=PIECE, ssl=context,
                                                           server_hostname=name, happy_eyeballs_delay=0.25)
        prepare(writer.get_extra_info("socket"))
        return reader, writer

    def say(self, line: str) -> None:
        """Sends a line now. A server that doesn't read is given up."""
        if self.outlet and not self.outlet.say(line):
            raise Ended("it did not read what was owed to it")

    async def _register(self, lines: LineReader) -> Session:
        registration = Registration(self.network)
        for line in registration.begin():
            self.say(line)
        while not registration.is_welcome:
            message = await self._next(lines)
            if message.command == "PING":
                self.pong(message)
            elif message.command == "ERROR":
                raise error_of(message)
            else:
                for line in registration.hear(message):
                    self.say(line)
        return Session(registration.nick, registration.held)

    async def _next(self, lines: LineReader) -> Message:
        """The next line that can be read."""
        while True:
            line = await lines.line()
            if line is None:
                raise Ended("it closed the connection")
            message = read_message(line)
            if message is not None:
                return message

    def pong(self, message: Message) -> None:
        """Answers at once, before all that waits."""
        self.pace.take(asyncio.get_running_loop().time())
        self.say(f"PONG :{message.last}")

    async def _hear(self, lines: LineReader) -> None:
        """Hears the network for as long as it says something, or answers a PING."""
        while True:
            try:
                async with asyncio.timeout(SILENCE):
                    message = await self._next(lines)
            except TimeoutError:
                self.say("PING :bnc-door")
                try:
                    async with asyncio.timeout(ANSWER):
                        message = await self._next(lines)
                except TimeoutError:
                    raise Ended("it was silent for too long") from None
            if message.command == "ERROR":
                raise error_of(message)
            self.door.hear(message)

    async def _send(self, writer: asyncio.StreamWriter) -> None:
        """Sends what waits, as fast as no server calls a flood."""
        loop = asyncio.get_running_loop()
        self.pace = Pace(loop.time())
        for _ in range(REGISTERING):
            self.pace.take(loop.time())
        while True:
            await self.door.something_waits.wait()
            await asyncio.sleep(self.pace.wait(loop.time()))
            if self.pace.wait(loop.time()) > 0:
                continue
            entry = self.door.waiting.next()
            if entry is None:
                self.door.something_waits.clear()
                continue
            self.pace.take(loop.time())
            self.say(entry.line)
            self.door.was_sent(entry)
            await self._drain(writer)

    async def _drain(self, writer: asyncio.StreamWriter) -> None:
        try:
            async with asyncio.timeout(STUCK):
                await writer.drain()
        except TimeoutError:
            raise Ended("it did not read what was owed to it") from None


def error_of(message: Message) -> Ended:
    words = message.last
    return Ended(f"the server said: {words}", wait_of(words))
