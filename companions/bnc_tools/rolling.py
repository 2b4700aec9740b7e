"""Restarting nodes one after another, so that what each held stands at another one meanwhile."""

import time
from collections.abc import Callable
from dataclasses import dataclass

from bnc_tools.commands import CommandError
from bnc_tools.journal import Connections, Event, connections, events, lives, output_of

# How often a journal is read while something is waited for.
PAUSE = 1.0


class NotLevel(Exception):
    """Why no further node may be restarted."""


@dataclass(frozen=True)
class Commands:
    """How a node is restarted and its journal is read: `{}` stands for the node."""
    restart: str
    journal: str


@dataclass(frozen=True)
class Life:
    """A node's present life: when it began, and its connections."""
    beginning: Event
    now: Connections

    def missing(self, peers: set[str]) -> set[str]:
        """Those peers with which the node isn't connected and level."""
        return {it for it in peers if it not in self.now.connected or it not in self.now.level or it in self.now.behind}


@dataclass(frozen=True)
class Node:
    """A node, by the name under which the commands reach it."""
    name: str
    commands: Commands

    def life(self) -> Life | None:
        """Its present life, as far as its journal has a beginning of one."""
        found = lives(events(output_of(self.commands.journal.format(self.name)).splitlines()))
        return Life(found[-1][0], connections(found[-1])) if found else None

    def restart(self) -> None:
        output_of(self.commands.restart.format(self.name))


def peers_of(node: Node, named: set[str] | None) -> set[str]:
    """The peers with which the node has to be level: those that were named, or those that it ever met in this life. It has
    to be level with them now, since what it alone holds would be lost."""
    life = node.life()
    if life is None:
        raise NotLevel(f"{node.name}: its journal has no start of the node, so nobody knows with whom it is level")
    peers = named or life.now.peers()
    if not peers:
        raise NotLevel(f"{node.name}: no peer has greeted it, so nothing would fill it again")
    if missing := life.missing(peers):
        raise NotLevel(f"{node.name}: it isn't level with {listed(missing)}")
    return peers


def listed(names: set[str]) -> str:
    return " and ".join(sorted(names))


def wait_until_level(node: Node, before: Event | None, peers: set[str], seconds: float) -> None:
    """Waits until a life of the node that isn't the one before is level with these peers."""
    end = time.monotonic() + seconds
    while True:
        life = node.life()
        is_new = life is not None and life.beginning != before
        missing = life.missing(peers) if life and is_new else peers
        if is_new and not missing:
            return
        if time.monotonic() > end:
            raise NotLevel(f"{node.name}: after {seconds:.0f} seconds it isn't level with {listed(missing)}")
        time.sleep(PAUSE)


def roll(nodes: list[Node], named: dict[str, set[str]], seconds: float, tell: Callable[[str], None]) -> None:
    """Restarts the nodes. Before the first one, all have to be level with their peers."""
    peers = {node.name: peers_of(node, named.get(node.name)) for node in nodes}
    for node in nodes:
        # (whoever was restarted before may still be on its way to this one)
        wait_until_level(node, None, peers[node.name], seconds)
        life, begun = node.life(), time.monotonic()
        node.restart()
        wait_until_level(node, life.beginning if life else None, peers[node.name], seconds)
        tell(f"{node.name}: level with {listed(peers[node.name])} after {time.monotonic() - begun:.0f} seconds")


def named_peers(spelled: list[str]) -> dict[str, set[str]]:
    """The peers of nodes, each spelled `node=peer,peer`."""
    named = {}
    for it in spelled:
        node, equals, peers = it.partition("=")
        if not equals or not all(peers.split(",")):
            raise CommandError(f"'{it}' isn't spelled NODE=PEER,PEER")
        named[node] = set(peers.split(","))
    return named
