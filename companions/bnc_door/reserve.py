"""A door in reserve: it asks the first one each second, goes in when no answer comes, and gives way when the first is back."""

import asyncio

from bnc_door.door import Door
from bnc_door.settings import Reserve
from bnc_wire.journal import log
from bnc_wire.lines import PIECE, LineReader, Outlet, close
from bnc_wire.message import read_message
from bnc_wire.settings import Refused, reason_of

# The seconds between two questions, the most that an answer may take, and the most bytes that wait.
ASK, ANSWER, OWED = 1.0, 2.0, 4096


class Watch:
    """What a door in reserve knows of the first one."""

    def __init__(self, door: Door, settings: Reserve) -> None:
        self.door, self.settings = door, settings
        self.answered, self.why = door.now(), "no answer came"
        self.outlet: Outlet | None = None

    async def run(self) -> None:
        """Watches the first door for ever."""
        first, seconds = self.settings.first, self.settings.patience
        log(f"in reserve: it goes in when the first door at {first} doesn't answer for {seconds} seconds")
        while True:
            try:
                await self._watch()
            except (OSError, TimeoutError) as error:
                self.why = reason_of(error)
            self._look()
            await asyncio.sleep(ASK / 2)
            self._look()

    async def _watch(self) -> None:
        """Asks over one connection until an answer is missing."""
        first, context = self.settings.first, self.settings.tls
        name = self.settings.tls_name or first.host if context else None
        async with asyncio.timeout(ANSWER):
            reader, writer = await asyncio.open_connection(first.host, first.port, limit=PIECE, ssl=context, server_hostname=name)
        try:
            self.outlet, lines = Outlet(writer, OWED), LineReader(reader)
            while True:
                async with asyncio.timeout(ANSWER):
                    is_in = await self._ask(lines)
                self.answered = self.door.now()
                if is_in and self.door.is_active:
                    await self._give_way()
                await asyncio.sleep(ASK)
        finally:
            self.outlet = None
            await close(writer, 0.2)

    async def _ask(self, lines: LineReader) -> bool:
        """Whether the first door is in the network."""
        self._say("ASK")
        while True:
            line = await lines.line()
            if line is None:
                raise ConnectionError("it closed the connection")
            message = read_message(line)
            if message and message.command == "DOOR":
                if message.parameter(0) == self.door.stamps.life:
                    raise Refused("reserve.first is this very door: name the other one's address")
                return message.parameter(1) == "IN"
            if message and message.command == "ERROR":
                raise ConnectionError(f"it said: {message.last}")

    def _say(self, word: str) -> None:
        if self.outlet:
            self.outlet.say(f"DOOR {self.door.stamps.life} {word}")

    def _look(self) -> None:
        """Goes in where the first door hasn't answered for long enough."""
        if not self.door.is_active and self.door.now() - self.answered >= self.settings.patience:
            log(f"going in: the first door at {self.settings.first} doesn't answer: {self.why}")
            self.door.go_in()

    async def _give_way(self) -> None:
        """Leaves the network to the first door, which is in it again."""
        log(f"giving way: the first door at {self.settings.first} is in the network again")
        had_nodes = any(it.is_welcome for it in self.door.nodes)
        age = self.door.backlog.age(self.door.now())
        await self.door.go_out()
        if had_nodes:
            # (so the first one need not tell once more what this one's nodes have)
            self._say(f"LEFT {age * 1000:.0f}")
        self.door.backlog.clear()
