"""What a client says before it is let in, and what it is answered. It has no socket."""

from dataclasses import dataclass, field

from bnc_porch.identity import Identity, Unknown, of_base64, of_words
from bnc_wire.message import Message
from bnc_wire.settings import is_word

# What a node offers (docs/PROTOCOL.md, "Capability negotiation").
CAPABILITIES = ("batch", "draft/chathistory", "draft/message-redaction", "draft/read-marker", "echo-message", "message-tags",
                "server-time")
# The name in front of the porch's lines.
NAME = "porch"
# The most bytes of an answer of SASL, of which one part has 400.
LONGEST, CHUNK = 4096, 400


def _version(words: list[str]) -> int:
    """The version of capability negotiation that a client says it speaks."""
    return int(words[0][:9]) if words and words[0].isascii() and words[0].isdigit() else 301


@dataclass
class Login:
    """What a client has said so far. `check` is who is to be checked now, since it logs in by SASL."""
    nick: str = ""
    user: str | None = None
    password: str = ""
    capabilities: list[str] = field(default_factory=list)
    is_holding: bool = False
    mechanism: str = ""
    answer: str = ""
    check: Identity | None = None
    logged_in: Identity | None = None

    @property
    def is_complete(self) -> bool:
        return bool(self.nick) and self.user is not None and not self.is_holding

    @property
    def identity(self) -> Identity:
        """Who it says it is: by SASL, or else by its words."""
        return self.logged_in or of_words(self.password, self.user or "")

    def hear(self, message: Message) -> list[str]:
        """Hears a line, and answers what is to be said."""
        command, first = message.command, message.parameter(0)
        if command == "CAP":
            return self._capability(message)
        if command == "AUTHENTICATE":
            return self._authenticate(first)
        if command == "PING":
            return [f":{NAME} PONG {NAME} :{first[:300]}"]
        if command == "NICK":
            return self._nick(first)
        if command == "PASS":
            self.password = first
        elif command == "USER":
            self.user = first
        elif command not in ("PONG", "WEBIRC"):
            return [f":{NAME} 451 * :You have not registered"]
        return []

    def _nick(self, nick: str) -> list[str]:
        if not nick:
            return [f":{NAME} 431 * :No nickname given"]
        if not is_word(nick):
            return [f":{NAME} 432 * * :Erroneous nickname"]
        self.nick = nick
        return []

    # -- capabilities

    def _capability(self, message: Message) -> list[str]:
        kind, words = message.parameter(0).upper(), message.parameter(1).split()
        if kind == "LS":
            self.is_holding = True
            names = [*CAPABILITIES, "sasl=PLAIN" if _version(words) >= 302 else "sasl"]
            return [f":{NAME} CAP * LS :{' '.join(names)}"]
        if kind == "LIST":
            return [f":{NAME} CAP * LIST :{' '.join(self.capabilities)}"]
        if kind == "REQ":
            return self._request(words)
        if kind == "END":
            self.is_holding = False
            return []
        return [f":{NAME} 410 * {kind if is_word(kind) else '*'} :Invalid CAP command"]

    def _request(self, words: list[str]) -> list[str]:
        """Takes all words, or none."""
        self.is_holding = True
        is_given = all(it.removeprefix("-") in (*CAPABILITIES, "sasl") for it in words)
        for word in words if is_given else ():
            name = word.removeprefix("-")
            if name in self.capabilities:
                self.capabilities.remove(name)
            if name == word and name != "sasl":
                self.capabilities.append(name)
        return [f":{NAME} CAP * {'ACK' if is_given else 'NAK'} :{' '.join(words)[:400]}"]

    # -- SASL (IRCv3 sasl-3.1)

    def _authenticate(self, word: str) -> list[str]:
        if word == "*":
            return self.failed("906", "SASL authentication aborted")
        if not self.mechanism:
            if word.upper() != "PLAIN":
                return [f":{NAME} 908 * PLAIN :are available SASL mechanisms", *self.failed("904", "SASL authentication failed")]
            self.mechanism = "PLAIN"
            return ["AUTHENTICATE +"]
        if len(word) > CHUNK or len(self.answer) + len(word) > LONGEST:
            return self.failed("905", "SASL message too long")
        self.answer += "" if word == "+" else word
        if len(word) == CHUNK:
            return []
        try:
            self.check = of_base64(self.answer)
        except Unknown as why:
            return self.failed("904", f"SASL authentication failed: {why}")
        return []

    def failed(self, numeric: str, words: str) -> list[str]:
        """The login is over, and another may follow."""
        self.mechanism = self.answer = ""
        self.check = None
        return [f":{NAME} {numeric} * :{words}"]

    def succeeded(self) -> list[str]:
        """The node knows who was to be checked."""
        self.logged_in = self.check
        self.mechanism = self.answer = ""
        self.check = None
        nick = self.nick or "*"
        return [f":{NAME} 900 {nick} {nick}!*@* {self.logged_in} :You are now logged in as {self.logged_in}",
                f":{NAME} 903 {nick} :SASL authentication successful"]
