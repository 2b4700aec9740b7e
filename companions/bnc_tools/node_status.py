"""How a node is, by the journal of its present life."""

import re
from collections import Counter
from collections.abc import Callable
from dataclasses import dataclass, field
from datetime import datetime

from bnc_tools.journal import Connections, Event, connections, lives

MORE = re.compile(r"(\d+) more within a minute")
CLOSED = re.compile(r"(\d+) connections were closed")
LOST = re.compile(r"(\d+), for which the log had no room")
# The reason of those that are told by their number alone.
NOT_TOLD = "more within a minute"


@dataclass
class NetworkStatus:
    """A network of an account: whether it is up, since when, and what was told of it last."""
    is_up: bool
    since: datetime
    words: str
    downs: int = 0


@dataclass
class NodeStatus:
    """A node: when its present life began and how many starts the journal has; its networks and peers; how many clients
    there are; and how often since its start somebody was refused, by the reason, memory was wanting, the clock leapt, or
    lines of the log were lost."""
    started: datetime | None = None
    starts: int = 0
    listening: str = ""
    networks: dict[str, NetworkStatus] = field(default_factory=dict)
    peers: Connections = field(default_factory=lambda: Connections(set(), {}, set()))
    clients: int = 0
    clients_refused: Counter[str] = field(default_factory=Counter)
    peers_refused: Counter[str] = field(default_factory=Counter)
    closed_for_memory: int = 0
    leaps: int = 0
    lines_lost: int = 0

    def network_up(self, event: Event) -> None:
        downs = self.networks[event.name()].downs if event.name() in self.networks else 0
        self.networks[event.name()] = NetworkStatus(True, event.at, event.rest.partition(" ")[2], downs)

    def network_down(self, event: Event) -> None:
        words = event.rest[len(event.name()):].lstrip(": ")
        before = self.networks.get(event.name())
        since = before.since if before and not before.is_up else event.at
        self.networks[event.name()] = NetworkStatus(False, since, words, before.downs + 1 if before else 1)

    def client_in(self, _: Event) -> None:
        self.clients += 1

    def client_out(self, _: Event) -> None:
        self.clients -= 1

    def client_refused(self, event: Event) -> None:
        self.clients_refused[event.reason()] += 1

    def peer_refused(self, event: Event) -> None:
        self.peers_refused[event.reason()] += 1

    def more_clients(self, event: Event) -> None:
        self.clients_refused[NOT_TOLD] += number(MORE, event)

    def more_peers(self, event: Event) -> None:
        self.peers_refused[NOT_TOLD] += number(MORE, event)

    def out_of_memory(self, event: Event) -> None:
        self.closed_for_memory += number(CLOSED, event)

    def clock_leapt(self, _: Event) -> None:
        self.leaps += 1

    def log_lost(self, event: Event) -> None:
        self.lines_lost += number(LOST, event)


HANDLERS: dict[str, Callable[[NodeStatus, Event], None]] = {
    "upstream up": NodeStatus.network_up, "upstream down": NodeStatus.network_down,
    "client in": NodeStatus.client_in, "client out": NodeStatus.client_out,
    "client refused": NodeStatus.client_refused, "clients refused": NodeStatus.more_clients,
    "peer refused": NodeStatus.peer_refused, "peers refused": NodeStatus.more_peers,
    "out of memory": NodeStatus.out_of_memory, "clock leapt": NodeStatus.clock_leapt,
    "lines lost": NodeStatus.log_lost,
}


def number(form: re.Pattern[str], event: Event) -> int:
    found = form.search(event.rest)
    return int(found[1]) if found else 0


def status_of(them: list[Event]) -> NodeStatus:
    """How the node is after these events, of which those of its latest life count."""
    found = lives(them)
    if not found:
        return NodeStatus()
    life = found[-1]
    status = NodeStatus(started=life[0].at, starts=len(found), listening=life[0].rest, peers=connections(life))
    for event in life:
        if handler := HANDLERS.get(event.title):
            handler(status, event)
    return status
