"""The channels that the door wants to be in, over all its sessions."""

from dataclasses import dataclass, field

from bnc_door.settings import Channel
from bnc_wire import message
from bnc_wire.lines import bytes_of

# The most bytes of channels and keys in one JOIN, and how long an answer to it may take.
LONGEST = 350
PATIENCE = 30.0
# A channel that refused the door is tried again after so many seconds.
AGAIN = 300.0
# The network doesn't let the door into a channel (RFC 2812, section 5.2; 477 and 489 are of later servers).
REFUSALS = frozenset(("403", "405", "437", "471", "473", "474", "475", "476", "477", "489"))


def fold(name: str) -> str:
    """A channel as it is compared here. Two names of one channel, by the network's own comparison, do no harm."""
    return message.fold(name, "ascii")


@dataclass(frozen=True)
class Asking:
    """A channel that was asked for: until when an answer may come, and the key that was given."""
    end: float
    key: str = field(repr=False)


class Channels:
    """Wanted channels with their keys, which were asked for, and which refused."""

    def __init__(self, configured: tuple[Channel, ...]) -> None:
        self.configured = {fold(it.name): it for it in configured}
        self.wanted = dict(self.configured)
        self.asked: dict[str, Asking] = {}
        self.again: dict[str, float] = {}

    def begin(self, now: float) -> list[str]:
        """A session begins: the lines that join all channels, those with keys first, as RFC 2812 pairs them."""
        self.asked.clear()
        self.again.clear()
        return self._join(sorted(self.wanted.values(), key=lambda it: not it.key), now)

    def ask(self, name: str, key: str, now: float) -> list[str]:
        """The line that joins a channel for a node; none where it is asked for already."""
        folded = fold(name)
        if folded in self.asked and self.asked[folded].end > now:
            return []
        known = self.wanted.get(folded) or self.configured.get(folded)
        return self._join([Channel(name, key or (known.key if known else ""))], now)

    def _join(self, channels: list[Channel], now: float) -> list[str]:
        self.asked.update((fold(it.name), Asking(now + PATIENCE, it.key)) for it in channels)
        return joining(channels)

    def joined(self, name: str) -> None:
        folded = fold(name)
        asking = self.asked.pop(folded, None)
        self.again.pop(folded, None)
        self.wanted[folded] = Channel(name, asking.key if asking else "")

    def parted(self, name: str) -> None:
        """A node left the channel: it isn't joined again."""
        self.wanted.pop(fold(name), None)

    def kicked(self, name: str) -> None:
        """Somebody threw the door out: in the next session only configured channels are joined again."""
        if fold(name) not in self.configured:
            self.parted(name)

    def refused(self, name: str, now: float) -> bool:
        """The network refused a channel. One that is wanted is tried again later; answers whether it is one."""
        folded = fold(name)
        is_wanted = self.asked.pop(folded, None) is not None and folded in self.wanted
        if is_wanted:
            self.again[folded] = now + AGAIN
        return is_wanted

    def due(self, now: float) -> list[str]:
        """The lines that try refused channels again."""
        self.asked = {name: it for name, it in self.asked.items() if it.end > now}
        names = [name for name, moment in self.again.items() if moment <= now]
        for name in names:
            del self.again[name]
        return self._join([self.wanted[name] for name in names if name in self.wanted], now)


def joining(channels: list[Channel]) -> list[str]:
    """Lines that join channels, each line short enough."""
    lines: list[str] = []
    names: list[str] = []
    keys: list[str] = []
    for channel in [*channels, None]:
        length = sum(len(bytes_of(it)) + 1 for it in names + keys)
        if names and (channel is None or length + len(bytes_of(f"{channel.name} {channel.key}")) > LONGEST
                      or channel.key and len(keys) < len(names)):
            lines.append(" ".join(["JOIN", ",".join(names), *([",".join(keys)] if keys else [])]))
            names, keys = [], []
        if channel is not None:
            names.append(channel.name)
            keys += [channel.key] if channel.key else []
    return lines
