"""The door: what the network says goes to all nodes, and what they say goes to the network in turn."""

import asyncio
from typing import TYPE_CHECKING

from bnc_door.asked import Asked, Asker
from bnc_door.backlog import Backlog
from bnc_door.channels import REFUSALS, Channels
from bnc_door.regain import Regain
from bnc_door.sending import Entry, Waiting
from bnc_door.session import Session
from bnc_door.settings import Settings
from bnc_door.stamps import Stamps
from bnc_door.uplink import Uplink
from bnc_wire.journal import log
from bnc_wire.message import Message, cut, read_message, spell_tags

if TYPE_CHECKING:
    from bnc_door.node import Node

# What every node gets; draft/message-redaction where the network has it.
GIVEN = frozenset(("echo-message", "message-tags", "server-time"))
REDACTION = "draft/message-redaction"
MESSAGES = frozenset(("PRIVMSG", "NOTICE"))
# What a node doesn't need of the welcome.
WELCOME = frozenset(("001", "002", "003", "004", "005"))
# The seconds between two looks at what is due.
LOOK = 1.0
# Once another door gave way, what came up to so many seconds before is held still: rather twice than not at all.
OVERLAP = 1.0


class Door:
    """One session with a network, for all nodes that are connected."""

    def __init__(self, settings: Settings) -> None:
        self.settings, self.name = settings, settings.name
        self.stamps, self.backlog, self.asked = Stamps(settings.name), Backlog(), Asked()
        self.channels, self.regain = Channels(settings.network.channels), Regain(settings.network.nick)
        self.waiting, self.something_waits = Waiting(), asyncio.Event()
        self.nodes: set[Node] = set()
        # Nodes that wait for the members of a channel.
        self.curious: dict[str, set[Node]] = {}
        self.session: Session | None = None
        self.uplink = Uplink(self)
        self.task: asyncio.Task[None] | None = None

    # -- going in, and leaving

    @property
    def is_active(self) -> bool:
        """Whether the door is in the network, or tries to be."""
        return self.task is not None

    def go_in(self) -> None:
        if self.task is None:
            self.task = asyncio.create_task(self.uplink.run())

    async def go_out(self) -> None:
        """Leaves the network, and sends the nodes away."""
        if self.task is None:
            return
        task, self.task = self.task, None
        task.cancel()
        await asyncio.gather(task, return_exceptions=True)

    def enter_session(self, session: Session) -> None:
        """The network let the door in."""
        now = self.now()
        self.session, self.asked = session, Asked()
        self.regain.begin(now)
        for line in self.channels.begin(now):
            self.say(line)
        for node in list(self.nodes):
            node.network_is_up()

    def leave_session(self, why: str) -> None:
        """The session with the network is over. The nodes are told why, and dial again."""
        if self.session is None:
            return
        self.session = None
        count = self.waiting.clear()
        self.curious.clear()
        if count:
            log(f"not sent: {count} lines of nodes were still waiting")
        for node in list(self.nodes):
            node.network_is_down(why)

    async def keep(self) -> None:
        """Looks each second at what is due."""
        while True:
            await asyncio.sleep(LOOK)
            if self.task and self.task.done():
                # (it never ends by itself, so this says what failed)
                self.task.result()
            self._due(self.now())

    def _due(self, now: float) -> None:
        lost = self.backlog.count_lost()
        if lost:
            log(f"not told: {lost} messages, since no node was here for so long")
        if self.session is None:
            return
        for line in [*self.channels.due(now), self.regain.look(self.session, now)]:
            if line:
                self.say(line)
        for node in list(self.nodes):
            node.confirm(self.backlog.number)

    @staticmethod
    def now() -> float:
        return asyncio.get_running_loop().time()

    # -- from the network

    def hear(self, message: Message) -> None:
        """Hears a line of the network."""
        session = self.session
        if session is None:
            return
        if message.command == "PING":
            self.uplink.pong(message)
            return
        freed = self.regain.hear(message, session)
        self._note_channels(message, session)
        session.note(message)
        if freed:
            self.say(freed)
        if message.command in WELCOME or message.command in ("CAP", "PONG", "AUTHENTICATE"):
            return
        if message.command.isascii() and message.command.isdigit():
            self._numeric(message, session)
        elif message.command in MESSAGES and len(message.parameters) >= 2 or message.command == "REDACT":
            self.tell_message(self.stamps.tags_of(message) + message.rest)
        elif message.command == "TAGMSG":
            self.tell(spell_tags(message.client_only) + message.rest)
        else:
            self.tell(message.rest)

    def _note_channels(self, message: Message, session: Session) -> None:
        """Keeps what is wanted in step with what happened to the door itself."""
        command, name = message.command, message.parameter(0)
        if command == "KICK" and session.is_own(message.parameter(1)):
            log(f"kicked: {name}")
            self.channels.kicked(name)
        elif command == "JOIN" and session.is_own(message.nick):
            self.channels.joined(name)
        elif command == "PART" and session.is_own(message.nick):
            self.channels.parted(name)
        elif command in REFUSALS and self.channels.refused(message.parameter(1), self.now()):
            log(f"channel refused: {message.parameter(1)}: {message.last}")

    def _numeric(self, message: Message, session: Session) -> None:
        askers = self.asked.askers_of(message, self.now())
        if askers is None:
            self.tell(message.rest)
            return
        for node in askers:
            node.say(message.rest)
        if not askers and message.command == "303":
            line = self.regain.found(message, session)
            if line:
                self.say(line)

    # -- to the nodes

    def tell(self, line: str) -> None:
        """Sends a line to each node that is welcome."""
        for node in list(self.nodes):
            if node.is_welcome:
                node.say(line)

    def tell_message(self, line: str) -> None:
        """Sends a message to each node, and holds it until one is known to have it."""
        self.backlog.add(line, self.now())
        self.tell(line)

    def told_to(self, node: "Node") -> None:
        """What a node that is welcome now has missed: the channels, their topics and members, and messages that nobody has."""
        session = self.session
        if session is None:
            return
        for channel in session.channels.values():
            node.say(f":{session.mask} JOIN {channel.name}")
            if channel.topic:
                node.say(f":{self.name} 332 {session.nick} {channel.name} :{channel.topic}")
            self.curious.setdefault(session.fold(channel.name), set()).add(node)
            self.waiting.put_later(f"NAMES {channel.name}")
            self.something_waits.set()
        for held in list(self.backlog.lines):
            node.say(held.line)
        node.confirm(self.backlog.number)

    # -- from the nodes

    def gives(self) -> frozenset[str]:
        """The capabilities that nodes get."""
        has_redaction = self.session is not None and REDACTION in self.session.capabilities
        return GIVEN | {REDACTION} if has_redaction else GIVEN

    def say(self, line: str) -> None:
        """Has a line of the door's own wait for its turn."""
        self.waiting.put_own(line)
        self.something_waits.set()

    def hear_node(self, node: "Node", message: Message) -> None:
        """Hears a line of a node that is for the network."""
        session = self.session
        if session is None:
            return
        if message.command == "JOIN" and message.parameters:
            self._join(node, message, session)
            return
        if message.command == "TAGMSG" and "message-tags" not in session.capabilities:
            return
        if message.command == "NICK":
            self.regain.node_asks(message.parameter(0))
        has_tags = message.command in MESSAGES | {"TAGMSG"} and "message-tags" in session.capabilities
        self._queue(node, (spell_tags(message.client_only) if has_tags else "") + message.body, message.command)

    def _queue(self, node: "Node", line: str, command: str) -> None:
        if self.waiting.put(Entry(line, node)):
            self.something_waits.set()
        elif self.session:
            node.say(f":{self.name} 263 {self.session.nick} {command} :Not sent, since too many lines wait to be sent already")

    def _join(self, node: "Node", message: Message, session: Session) -> None:
        """Joins the channels where the door isn't yet. All nodes are in those where it is."""
        keys = message.parameter(1).split(",")
        for number, name in enumerate(message.parameter(0).split(",")):
            if session.channel(name) or not name:
                continue
            for line in self.channels.ask(name, keys[number] if number < len(keys) else "", self.now()):
                self._queue(node, line, "JOIN")

    def was_sent(self, entry: Entry) -> None:
        """A line went to the network: its answer goes to who asked, and an echo to all where the network sends none."""
        message, session = read_message(entry.line), self.session
        if message is None or session is None:
            return
        askers: tuple[Asker, ...] = ()
        if entry.owner is not None:
            askers = (entry.owner,)
        elif message.command == "NAMES":
            askers = tuple(self.curious.pop(session.fold(message.parameter(0)), ()))
        self.asked.add(message, askers, self.now())
        if message.command in MESSAGES and len(message.parameters) >= 2 and "echo-message" not in session.capabilities:
            self._echo(message, session)

    def _echo(self, message: Message, session: Session) -> None:
        for target in message.parameter(0).split(","):
            if target:
                line = cut(f":{session.mask} {message.command} {target} :{message.parameter(1)}")
                self.tell_message(self.stamps.tags_of(Message("", (), tags=message.client_only)) + line)

    def other_gave_way(self, age: float) -> None:
        """A door in reserve left the network, and its nodes have what came until so many seconds ago."""
        self.backlog.forget_before(self.now() - age - OVERLAP)
        line = self.regain.take(self.session) if self.session else None
        if line:
            self.say(line)
