"""The lines of a log as posts of a history (docs/PROTOCOL.md, "Changes")."""

import hashlib
import string
from collections import Counter
from collections.abc import Iterator
from dataclasses import dataclass, field

from bnc_tools.channels import is_channel
from bnc_tools.log_files import MESSAGE, Spoken
from bnc_tools.moments import LogClock

# The most bytes of a message's line, without its end.
MOST_OF_LINE = 510
MOST_OF_TARGET, MOST_OF_SOURCE = 200, 255
# (the greatest moment ends the year 9999, wherever the log was written)
FIRST_YEAR, LAST_YEAR = 1970, 9998
FOLDED = str.maketrans(string.ascii_uppercase, string.ascii_lowercase)
ACTION, ACTION_END = b"\x01ACTION ", b"\x01"


def folded(target: str) -> str:
    return target.translate(FOLDED)


def bytes_of(text: str) -> bytes:
    return text.encode("utf-8", "surrogateescape")


def is_word(word: bytes, most: int) -> bool:
    """Whether it can be a word of a line."""
    return 1 <= len(word) <= most and not set(word) & set(b"\0\r\n ") and not word.startswith(b":")


def is_conversation(target: str) -> bool:
    """Whether it can be a channel or somebody's nick. A server's name, which no nick can be, has a full stop."""
    is_target = is_word(bytes_of(target), MOST_OF_TARGET) and "," not in target and target != "*"
    return is_target and (is_channel(target) or "." not in target)


def pieces(body: bytes, most: int) -> Iterator[bytes]:
    """A text in pieces of at most so many bytes, none of which ends within a letter."""
    while len(body) > most:
        cut = most
        while cut > most - 4 and body[cut] & 0xC0 == 0x80:
            cut -= 1
        yield body[:cut]
        body = body[cut:]
    yield body


def bodies(body: bytes, most: int) -> Iterator[bytes]:
    """The bodies that together say this one, each of at most so many bytes."""
    if body.startswith(ACTION) and body.endswith(ACTION_END) and len(body) > most:
        inner = body[len(ACTION):-len(ACTION_END)]
        for piece in pieces(inner, most - len(ACTION) - len(ACTION_END)):
            yield ACTION + piece + ACTION_END
    else:
        yield from pieces(body, most)


@dataclass
class Conversation:
    """One file's conversation: of an account on a network, with a channel or with somebody, and one's own nick there."""
    account: str
    network: str
    target: str
    nick: str
    clock: LogClock
    equal: Counter[tuple[int, bytes, bytes]] = field(default_factory=Counter)

    def posts(self, said: Spoken) -> list[bytes]:
        """The lines of changes for what somebody said; none where it can't be kept."""
        if not FIRST_YEAR <= said.at.year <= LAST_YEAR:
            return []
        written = self.clock.written(said.at)
        source, to = bytes_of(said.source), bytes_of(self.addressee(said.source))
        body = bytes_of(said.text.replace("\r", ""))
        if not is_word(source, MOST_OF_SOURCE) or b"\0" in body or written < 0:
            return []
        command = b"PRIVMSG" if said.kind == MESSAGE else b"NOTICE"
        most = MOST_OF_LINE - len(b":%s %s %s :" % (source, command, to))
        return [self.post(said, written, source, to, it) for it in bodies(body, most)]

    def addressee(self, source: str) -> str:
        """To whom a line of that source went: in a conversation with somebody, what they said went to oneself."""
        return self.nick if folded(source) == folded(self.target) else self.target

    def post(self, said: Spoken, written: int, source: bytes, to: bytes, body: bytes) -> bytes:
        line = (written, source, body)
        ident = self.ident(line, self.equal[line])
        self.equal[line] += 1
        moment = self.clock.placed(written, said.span)
        words = [b"C POST", *map(bytes_of, (self.account, self.network, folded(self.target), ident, str(moment), said.kind)),
                 to, source]
        return b" ".join(words) + b" :" + body

    def ident(self, line: tuple[int, bytes, bytes], before: int) -> str:
        """The id of a line, before which so many equal ones of that moment stood: the same whenever it is read."""
        written, source, body = line
        parts = (bytes_of(self.network), bytes_of(folded(self.target)), b"%d" % written, source, body, b"%d" % before)
        return "log-" + hashlib.sha256(b"\0".join(parts)).hexdigest()[:32]
