"""A node's connection: the door is the network's server for it. A door in reserve asks here too whether this one answers."""

import asyncio

from bnc_door.door import GIVEN, Door
from bnc_wire.journal import log
from bnc_wire.lines import LineReader, Outlet
from bnc_wire.message import Message, read_message
from bnc_wire.settings import reason_of
from bnc_wire.tasks import first_ended

# The most bytes that wait for a node.
OWED = 1 << 20
# After so many seconds without a line a node is asked whether it is there, and given up at the third.
SILENCE, TIMES = 30, 3
# How long a node has to say who it is, and how long it waits at a door in reserve that doesn't go in.
HELLO, HOLD = 30, 10


class Node:
    """What the door knows of a node."""

    def __init__(self, door: Door, outlet: Outlet, name: str) -> None:
        self.door, self.outlet, self.name = door, outlet, name
        self.capabilities: set[str] = set()
        self.asks_for_list = self.is_holding = self.has_user = self.is_welcome = self.is_door = False
        self.confirming = 0
        self.end: asyncio.Future[str] = asyncio.get_running_loop().create_future()

    # -- its connection

    async def run(self, lines: LineReader) -> str:
        """Serves the node, and answers why its connection ended."""
        return await first_ended(self._hear_all(lines), self._wait_for_end(), self._hurry())

    async def _wait_for_end(self) -> str:
        return await self.end

    async def _hurry(self) -> str:
        """Ends the connection of who doesn't say who it is, or waits where nobody goes in."""
        await asyncio.sleep(HOLD)
        while self.is_door or self.door.is_active:
            await asyncio.sleep(HELLO - HOLD)
            if not (self.is_door or self.has_user):
                return "it did not say in time who it is"
        return "this door is in reserve, and the first one answers"

    async def _hear_all(self, lines: LineReader) -> str:
        unanswered = 0
        while True:
            try:
                async with asyncio.timeout(SILENCE):
                    line = await lines.line()
            except TimeoutError:
                unanswered += 1
                if unanswered == TIMES:
                    return "it was silent for too long"
                self.say("PING :still-there")
                continue
            if line is None:
                return "the other end closed it"
            unanswered = 0
            message = read_message(line)
            if message and message.command == "QUIT":
                return "it ended as the protocol says"
            if message:
                self.hear(message)

    def say(self, *lines: str) -> None:
        """Sends lines. A node that doesn't read is closed."""
        if not self.end.done() and not self.outlet.say(*lines):
            self.close("it did not read what was owed to it")

    def close(self, why: str) -> None:
        """Has the connection end."""
        if not self.end.done():
            self.end.set_result(why)

    # -- what it says

    def hear(self, message: Message) -> None:
        command = message.command
        if command == "PING":
            self.say(f":{self.door.name} PONG {self.door.name} :{message.last}")
        elif command == "PONG":
            self._confirmed(message.last)
        elif command == "CAP":
            self._capability(message)
        elif command == "DOOR":
            self._other_door(message)
        elif self.is_welcome:
            self.door.hear_node(self, message)
        elif command == "USER":
            self.has_user = True
            self._welcome()

    def _capability(self, message: Message) -> None:
        kind, words = message.parameter(0).upper(), message.parameter(1).split()
        if kind == "LS":
            self.is_holding = self.asks_for_list = True
            self.network_is_up()
        elif kind == "REQ":
            self.is_holding = not self.is_welcome
            is_given = set(words) <= self.door.gives()
            self.capabilities |= set(words) if is_given else set()
            self.say(f":{self.door.name} CAP * {'ACK' if is_given else 'NAK'} :{' '.join(words)}")
        elif kind == "END":
            self.is_holding = False
            self._welcome()

    def network_is_up(self) -> None:
        """What the node gets is known only once the network is up, so its question waits until then."""
        if self.asks_for_list and self.door.session:
            self.asks_for_list = False
            self.say(f":{self.door.name} CAP * LS :{' '.join(sorted(self.door.gives()))}")
        self._welcome()

    def network_is_down(self, why: str) -> None:
        """Who waits for the network goes on waiting."""
        if not self.asks_for_list and not self.is_door:
            self.close(why)

    def _welcome(self) -> None:
        session = self.door.session
        if session is None or self.is_holding or not self.has_user or self.is_welcome:
            return
        if not self.capabilities >= GIVEN:
            self.close("it is no node: it did not ask for echo-message, message-tags and server-time")
            return
        self.is_welcome = True
        log(f"node in: {self.name}")
        self.say(f":{self.door.name} 001 {session.nick} :Welcome")
        self.door.told_to(self)

    # -- what it has

    def confirm(self, number: int) -> None:
        """Asks the node to say that it has all messages up to this one."""
        if self.is_welcome and self.confirming < number and self.door.backlog.lines:
            self.confirming = number
            self.say(f"PING :{number}")

    def _confirmed(self, spelled: str) -> None:
        if self.is_welcome and spelled.isascii() and spelled.isdigit() and int(spelled[:18]) <= self.confirming:
            self.door.backlog.taken(int(spelled[:18]))

    # -- a door in reserve

    def _other_door(self, message: Message) -> None:
        """`DOOR <life> ASK` asks whether this door is in the network. `DOOR <life> LEFT <ms>` says that the other one has left
        it, and that its nodes have what came until so many milliseconds ago."""
        self.is_door = True
        age = message.parameter(2)[:9]
        if message.parameter(1) == "LEFT" and age.isascii() and age.isdigit():
            log(f"the door in reserve at {self.name} gave way")
            self.door.other_gave_way(int(age) / 1000)
        else:
            self.say(f"DOOR {self.door.stamps.life} {'IN' if self.door.session else 'OUT'}")


async def serve_node(door: Door, reader: asyncio.StreamReader, writer: asyncio.StreamWriter, name: str) -> None:
    """Serves a connection of a node to its end."""
    node = Node(door, Outlet(writer, OWED), name)
    door.nodes.add(node)
    why = "the door ends"
    try:
        why = await node.run(LineReader(reader))
    except OSError as error:
        why = reason_of(error)
    finally:
        door.nodes.discard(node)
        node.outlet.say(f"ERROR :{why}")
        who = "door in reserve" if node.is_door else "node"
        log(f"{who} {'out' if node.is_welcome or node.is_door else 'refused'}: {name}: {why}")
