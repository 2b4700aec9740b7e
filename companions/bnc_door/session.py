"""What the door knows of its session with the network once it is welcome."""

from dataclasses import dataclass

from bnc_wire.message import CASEMAPPINGS, Message, fold


@dataclass
class Joined:
    """A channel that the door is in, and its topic where it is known."""
    name: str
    topic: str = ""


class Session:
    """The nick, the source of the door's own lines, the channels, and how names are compared."""

    def __init__(self, nick: str, capabilities: set[str]) -> None:
        self.nick, self.mask, self.capabilities = nick, nick, capabilities
        self.casemapping = "rfc1459"
        self.channels: dict[str, Joined] = {}

    def fold(self, name: str) -> str:
        return fold(name, self.casemapping)

    def is_own(self, nick: str) -> bool:
        return self.fold(nick) == self.fold(self.nick)

    def channel(self, name: str) -> Joined | None:
        return self.channels.get(self.fold(name))

    def note(self, message: Message) -> None:
        """Learns from a line of the network what it says about the door itself."""
        command = message.command
        if command == "005":
            self._supported(message.parameters[1:])
        elif command in ("331", "332"):
            self._topic(message.parameter(1), message.parameter(2) if command == "332" else "")
        elif command == "TOPIC":
            self._topic(message.parameter(0), message.parameter(1))
        elif command == "396":
            self._host(message.parameter(1))
        elif command == "CAP" and message.parameter(1).upper() == "DEL":
            self.capabilities -= set(message.last.split())
        elif command == "KICK" and self.is_own(message.parameter(1)):
            self.channels.pop(self.fold(message.parameter(0)), None)
        elif self.is_own(message.nick):
            self._own(message)

    def _own(self, message: Message) -> None:
        if "!" in message.source:
            self.mask = message.source
        name = message.parameter(0)
        if message.command == "JOIN":
            self.channels[self.fold(name)] = Joined(name)
        elif message.command == "PART":
            self.channels.pop(self.fold(name), None)
        elif message.command == "NICK" and name:
            self.nick, self.mask = name, name + self.mask[len(message.nick):]

    def _supported(self, words: tuple[str, ...]) -> None:
        for word in words:
            key, _, value = word.partition("=")
            if key == "CASEMAPPING" and value in CASEMAPPINGS:
                self.casemapping = value
                self.channels = {self.fold(it.name): it for it in self.channels.values()}

    def _topic(self, channel: str, topic: str) -> None:
        joined = self.channel(channel)
        if joined:
            joined.topic = topic

    def _host(self, host: str) -> None:
        """The network hides the door's host behind another one."""
        front, at, _ = self.mask.partition("@")
        if at and host:
            self.mask = f"{front}@{host.rpartition('@')[2]}"
