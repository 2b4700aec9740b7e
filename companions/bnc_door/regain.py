"""The wanted nick, and how it is regained once somebody else leaves it."""

from bnc_door.session import Session
from bnc_wire.message import Message, fold

# The seconds between two looks, and the most that they grow to where the network takes the nick away again.
LOOK, LONGEST = 30.0, 600.0


class Regain:
    """Looks whether the wanted nick is free, and says which line takes it."""

    def __init__(self, nick: str) -> None:
        self.wanted, self.asked = nick, ""
        self.pause, self.next = LOOK, 0.0

    def begin(self, now: float) -> None:
        """A session begins."""
        self.pause, self.next, self.asked = LOOK, now + LOOK, ""

    def is_missing(self, session: Session) -> bool:
        return session.fold(self.wanted) != session.fold(session.nick)

    def node_asks(self, nick: str) -> None:
        """A node asks for another nick. If the network gives it, it is the wanted one."""
        self.asked = nick

    def look(self, session: Session, now: float) -> str | None:
        """The line that looks for the nick, where it is time to."""
        if now < self.next or not self.is_missing(session):
            return None
        self.next = now + self.pause
        return f"ISON {self.wanted}"

    def found(self, answer: Message, session: Session) -> str | None:
        """The line that takes the nick, where the answer to a look has it not."""
        online = {session.fold(it) for it in answer.last.split()}
        return self.take(session) if session.fold(self.wanted) not in online else None

    def take(self, session: Session) -> str | None:
        return f"NICK {self.wanted}" if self.is_missing(session) else None

    def hear(self, message: Message, session: Session) -> str | None:
        """Hears a line before the session notes it, and answers the line that takes the nick where that line frees it."""
        if message.command == "NICK" and session.is_own(message.nick):
            self._changed(message.parameter(0))
        elif message.command in ("QUIT", "NICK") and session.fold(message.nick) == session.fold(self.wanted):
            return self.take(session)
        return None

    def _changed(self, nick: str) -> None:
        if self.asked and fold(nick) == fold(self.asked):
            self.wanted = nick
        elif fold(nick) != fold(self.wanted):
            self.pause = min(self.pause * 2, LONGEST)
        self.asked = ""
