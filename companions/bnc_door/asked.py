"""Which node asked, so that the network's answers go to it alone (RFC 2812, section 5)."""

from collections import deque
from collections.abc import Iterable
from dataclasses import dataclass
from typing import Protocol

from bnc_wire.message import Message, fold

# How long an answer may take, and how many questions are remembered.
PATIENCE = 60.0
MOST = 500

# The numerics that answer a command, and those with which its answer ends.
ANSWERS: dict[str, tuple[frozenset[int], frozenset[int]]] = {
    command: (frozenset(replies) | frozenset(ends), frozenset(ends)) for command, replies, ends in (
        ("ADMIN", (256, 257, 258), (259,)),
        ("AWAY", (), (305, 306)),
        ("HELP", (704, 705), (706,)),
        ("INFO", (371,), (374,)),
        ("INVITE", (301,), (341,)),
        ("ISON", (), (303,)),
        ("KNOCK", (), (710, 711)),
        ("LINKS", (364,), (365,)),
        ("LIST", (321, 322), (323,)),
        ("LUSERS", (250, 251, 252, 253, 254, 265), (255, 266)),
        ("MODE", (221, 324, 325, 329, 346, 348, 367, 386, 388, 728), (347, 349, 368, 387, 389, 729)),
        ("MOTD", (372, 375), (376,)),
        ("NAMES", (353,), (366,)),
        ("PRIVMSG", (301,), ()),
        ("STATS", tuple(range(211, 219)) + tuple(range(220, 221)) + tuple(range(239, 250)), (219,)),
        ("TIME", (), (391,)),
        ("TOPIC", (332, 333), (331,)),
        ("TRACE", tuple(range(200, 211)), (262,)),
        ("USERHOST", (), (302,)),
        ("VERSION", (), (351,)),
        ("WHO", (352, 354), (315,)),
        ("WHOIS", (275, 276, 301, 307, 308, 309, 310, 311, 312, 313, 316, 317, 319, 320, 330, 335, 338, 344, 378, 379, 671),
         (318,)),
        ("WHOWAS", (312, 314, 330, 338), (369,)),
    )
}
# Commands whose answers always name what was asked about, but for 221, which is about oneself.
NAMED = frozenset(("INVITE", "KNOCK", "MODE", "NAMES", "PRIVMSG", "TOPIC", "WHOIS", "WHOWAS"))
OF_ONESELF = 221
# Errors whose first parameter is a command: of too few parameters, or an unknown one.
OF_A_COMMAND = frozenset((263, 421, 461))


class Asker(Protocol):
    """Who gets answers: a node."""

    def say(self, *lines: str) -> None:
        """Sends lines to it."""


@dataclass(frozen=True)
class Question:
    """A command that was sent, what it names, and who gets its answer."""
    command: str
    names: frozenset[str]
    askers: tuple[Asker, ...]
    end: float


class Asked:
    """The questions whose answers haven't come yet, in the order in which they were sent."""

    def __init__(self) -> None:
        self.questions: deque[Question] = deque(maxlen=MOST)

    def add(self, message: Message, askers: Iterable[Asker], now: float) -> None:
        """A line goes to the network now. Without askers nobody gets the answer."""
        names = frozenset(fold(name) for it in message.parameters for name in it.split(",") if name)
        self.questions.append(Question(message.command, names, tuple(askers), now + PATIENCE))

    def askers_of(self, answer: Message, now: float) -> tuple[Asker, ...] | None:
        """Who gets a numeric of the network; none where nobody asked, so that all get it."""
        while self.questions and self.questions[0].end <= now:
            self.questions.popleft()
        number = int(answer.command)
        question = self._error(number, answer) if number >= 400 or number in OF_A_COMMAND else self._answer(number, answer)
        if question is None:
            return None
        if number >= 400 and question.command not in ("WHOIS", "WHOWAS") or number in ANSWERS.get(question.command, ((), ()))[1]:
            self.questions.remove(question)
        return question.askers

    def _answer(self, number: int, answer: Message) -> Question | None:
        found = [it for it in self.questions if number in ANSWERS.get(it.command, ((), ()))[0]]
        names = {fold(it) for it in answer.parameters[1:]}
        named = (it for it in found if it.names & names)
        # (an answer that names nothing, as a line of the list of all channels, is of who asked first)
        return next(named, next((it for it in found if it.command not in NAMED or number == OF_ONESELF), None))

    def _error(self, number: int, answer: Message) -> Question | None:
        if number in OF_A_COMMAND:
            return next((it for it in self.questions if it.command == answer.parameter(1).upper()), None)
        if number == 422:
            return next((it for it in self.questions if it.command == "MOTD"), None)
        names = {fold(it) for it in answer.parameters[1:-1]}
        return next((it for it in self.questions if it.names & names), None)
