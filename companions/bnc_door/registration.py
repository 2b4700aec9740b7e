"""What is said to the network from a connection's begin to its welcome (RFC 2812, section 3.1; IRCv3 capability negotiation and
SASL). It has no socket: lines are heard, and lines to be sent come out."""

import base64

from bnc_door.settings import Login, Network
from bnc_wire.message import Message

# What the door asks for, where the network offers it.
WANTED = ("draft/message-redaction", "echo-message", "message-tags", "server-time")
# How many other nicks are tried where the wanted one is taken.
TRIES = 6
# A part of an answer in SASL.
CHUNK = 400
NICK_TAKEN = frozenset(("433", "436", "437"))
SASL_FAILED = frozenset(("902", "904", "905", "906", "908"))
# After a refusal that stays until somebody does something, the network is tried again after so many seconds.
LONG = 300


class Ended(Exception):
    """Why the session with the network ended, and after how many seconds at least it may be tried again."""

    def __init__(self, why: str, wait: float = 0) -> None:
        super().__init__(why)
        self.wait = wait


def other_nicks(nick: str) -> list[str]:
    """Nicks to try where one is taken. Servers cut long ones, so the last have its first letters alone."""
    return [nick + "_" * count for count in (1, 2, 3)] + [f"{nick[:8 - len(str(it))]}{it}" for it in (7, 42, 815)]


class Registration:
    """The state of a session that isn't welcomed yet."""

    def __init__(self, network: Network) -> None:
        self.network, self.login = network, network.login
        self.offered: dict[str, str] = {}
        self.held: set[str] = set()
        self.answers = 0
        self.is_logged_in = self.is_welcome = False
        self.nick, self.others = network.nick, other_nicks(network.nick)[:TRIES]

    def begin(self) -> list[str]:
        """The first lines."""
        network = self.network
        password = [f"PASS :{network.password}"] if network.password else []
        return [*password, "CAP LS 302", f"NICK {self.nick}", f"USER {network.user} 0 * :{network.real_name}"]

    def hear(self, message: Message) -> list[str]:
        """Hears a line, and answers what is to be said."""
        command = message.command
        if command == "CAP":
            return self._capability(message)
        if command == "AUTHENTICATE":
            return self._authenticate(message)
        if command == "903" and self.login:
            self.is_logged_in = True
            return ["CAP END"]
        if command == "001":
            return self._welcome(message)
        if command in NICK_TAKEN:
            return self._other_nick()
        self._refusal(message)
        return []

    def _refusal(self, message: Message) -> None:
        words = message.last
        if message.command in SASL_FAILED and self.login:
            raise Ended(f"the network refused the login by SASL {self.login.mechanism}: {words}: look at [sasl]", LONG)
        if message.command == "432":
            raise Ended(f"the network doesn't take the nick {self.nick}: {words}: change network.nick", LONG)
        if message.command == "464":
            raise Ended(f"the network refused network.password: {words}", LONG)
        if message.command == "465":
            raise Ended(f"the network has banned this address: {words}", LONG)

    def _capability(self, message: Message) -> list[str]:
        kind, words = message.parameter(1).upper(), message.last.split()
        if kind == "LS":
            self.offered.update({name: value for name, _, value in (it.partition("=") for it in words)})
            return [] if message.parameter(2) == "*" else self._ask()
        if kind == "ACK":
            self.held.update(words)
        if kind in ("ACK", "NAK"):
            return self._answered(kind, words)
        return []

    def _ask(self) -> list[str]:
        """Asks for what is wanted: the login apart, so that a refusal of one isn't that of the other."""
        requests = []
        wanted = [it for it in WANTED if it in self.offered]
        if wanted:
            requests.append(f"CAP REQ :{' '.join(wanted)}")
        if self.login:
            self._check_mechanism(self.login)
            requests.append("CAP REQ :sasl")
        self.answers = len(requests)
        return requests or ["CAP END"]

    def _check_mechanism(self, login: Login) -> None:
        offered = self.offered.get("sasl")
        if offered is None:
            raise Ended("the network offers no SASL, and without it the door doesn't go in: take [sasl] out, or look whether "
                        "its services are there", LONG)
        if offered and login.mechanism not in offered.upper().split(","):
            raise Ended(f"the network offers SASL by {offered}, and not by {login.mechanism}: change sasl.mechanism", LONG)

    def _answered(self, kind: str, words: list[str]) -> list[str]:
        self.answers -= 1
        if "sasl" in words and self.login:
            if kind == "NAK":
                raise Ended("the network refused SASL", LONG)
            return [f"AUTHENTICATE {self.login.mechanism}"]
        return ["CAP END"] if self.answers <= 0 and not self.login else []

    def _authenticate(self, message: Message) -> list[str]:
        if message.parameter(0) != "+" or self.login is None:
            return []
        user, password = self.login.user, self.login.password
        plain = f"{user}\0{user}\0{password}" if self.login.mechanism == "PLAIN" else user
        data = base64.b64encode(plain.encode()).decode()
        chunks = [data[at:at + CHUNK] for at in range(0, len(data), CHUNK)]
        # (a last part that is full, or nothing at all, is ended by a `+`)
        if not chunks or len(chunks[-1]) == CHUNK:
            chunks.append("+")
        return [f"AUTHENTICATE {it}" for it in chunks]

    def _welcome(self, message: Message) -> list[str]:
        if self.login and not self.is_logged_in:
            raise Ended("the network let the door in without its login by SASL, so it left", LONG)
        self.is_welcome, self.nick = True, message.parameter(0) or self.nick
        return []

    def _other_nick(self) -> list[str]:
        if not self.others:
            raise Ended(f"the nick {self.network.nick} is taken, and so are {TRIES} others", LONG)
        self.nick = self.others.pop(0)
        return [f"NICK {self.nick}"]
