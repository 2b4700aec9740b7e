"""Messages that no node is known to have yet."""

from collections import deque
from dataclasses import dataclass

from bnc_wire.lines import bytes_of

# How long a message is held, and how many bytes of them are. A node dials again a minute after it lost the door.
SECONDS = 180.0
BYTES = 512 << 10


@dataclass(frozen=True)
class Held:
    """A line with its tags, its number, and when it came."""
    number: int
    line: str
    moment: float


class Backlog:
    """What was said since the last message that a node is known to have taken. Who comes next is told of it."""

    def __init__(self) -> None:
        self.lines: deque[Held] = deque()
        self.number = self.bytes = self.lost = 0

    def add(self, line: str, now: float) -> int:
        """Holds a line, and answers its number."""
        self.number += 1
        self.lines.append(Held(self.number, line, now))
        self.bytes += len(bytes_of(line))
        while self.lines and (self.bytes > BYTES or self.lines[0].moment <= now - SECONDS):
            self._drop()
            self.lost += 1
        return self.number

    def _drop(self) -> None:
        self.bytes -= len(bytes_of(self.lines.popleft().line))

    def taken(self, number: int) -> None:
        """A node has taken all lines up to this number."""
        while self.lines and self.lines[0].number <= number:
            self._drop()

    def forget_before(self, moment: float) -> None:
        """Another door's nodes have what came before that moment."""
        while self.lines and self.lines[0].moment < moment:
            self._drop()

    def age(self, now: float) -> float:
        """How many seconds ago the oldest line came that no node is known to have."""
        return now - self.lines[0].moment if self.lines else 0.0

    def clear(self) -> None:
        """Forgets all: another door tells it."""
        self.lines.clear()
        self.bytes = 0

    def count_lost(self) -> int:
        """How many lines were let go since this was last asked, without a node that had them."""
        lost, self.lost = self.lost, 0
        return lost
