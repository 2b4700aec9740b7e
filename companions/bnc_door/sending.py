"""What waits to be sent to the network, and when it may go."""

from collections import deque
from dataclasses import dataclass

from bnc_door.asked import Asker

# A burst of so many lines, then a line each so many seconds.
BURST = 5
PACE = 0.7
# The most lines that wait of one node, and in all.
EACH, ALL = 200, 1000


@dataclass(frozen=True)
class Entry:
    """A line, and who sent it: a node, or nobody where the door itself did."""
    line: str
    owner: Asker | None = None


class Pace:
    """When the next line may go, by a clock that isn't set."""

    def __init__(self, now: float) -> None:
        self.lines, self.last = float(BURST), now

    def _fill(self, now: float) -> None:
        self.lines = min(float(BURST), self.lines + max(now - self.last, 0) / PACE)
        self.last = now

    def wait(self, now: float) -> float:
        """The seconds until a line may go."""
        self._fill(now)
        return max((1 - self.lines) * PACE, 0.0)

    def take(self, now: float) -> None:
        """A line goes now. A PONG goes whether it may or not, and is paid later."""
        self._fill(now)
        self.lines = max(self.lines - 1, -float(BURST))


class Waiting:
    """The lines that wait: the door's own first, then a line of each node in turn, and last what has time."""

    def __init__(self) -> None:
        self.own: deque[Entry] = deque(maxlen=ALL)
        self.nodes: dict[Asker, deque[Entry]] = {}
        self.later: deque[Entry] = deque(maxlen=ALL)

    def __len__(self) -> int:
        return len(self.own) + sum(map(len, self.nodes.values())) + len(self.later)

    def put(self, entry: Entry) -> bool:
        """Has a node's line wait, and answers whether there was room for it."""
        if entry.owner is None:
            return False
        if len(self.nodes.get(entry.owner, ())) >= EACH or len(self) >= ALL:
            return False
        self.nodes.setdefault(entry.owner, deque()).append(entry)
        return True

    def put_own(self, line: str) -> None:
        self.own.append(Entry(line))

    def put_later(self, line: str) -> None:
        if not any(it.line == line for it in self.later):
            self.later.append(Entry(line))

    def next(self) -> Entry | None:
        """The line that goes next."""
        if self.own:
            return self.own.popleft()
        if self.nodes:
            owner = next(iter(self.nodes))
            line = self.nodes.pop(owner)
            entry = line.popleft()
            if line:
                # (its next line goes behind one of each other node)
                self.nodes[owner] = line
            return entry
        return self.later.popleft() if self.later else None

    def clear(self) -> int:
        """Forgets all, and answers how many lines of nodes there were."""
        count = sum(map(len, self.nodes.values()))
        self.own.clear()
        self.nodes.clear()
        self.later.clear()
        return count
