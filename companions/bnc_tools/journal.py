"""What a node logs (docs/OPERATING.md, "What it logs"), line by line."""

import re
import shlex
import subprocess
from collections.abc import Iterable
from dataclasses import dataclass
from datetime import datetime

from bnc_tools.commands import CommandError, said

LINE = re.compile(r"(\d{4}-\d\d-\d\dT\d\d:\d\d:\d\d\.\d{3}Z) ([a-z ]+): (.*)")
# The first event of a node's life that no other one has.
BEGINNING = "listening"
# Why the earlier of two connections with a peer ended: the newer one was greeted before that.
REPLACED = "a newer connection took its place"
# How long the command is waited for that reads a journal.
PATIENCE = 60.0


@dataclass(frozen=True)
class Event:
    """A line of the journal: when, what kind of event, and the rest."""
    at: datetime
    title: str
    rest: str

    def name(self) -> str:
        """The first word of the rest, without the colon behind it: the peer or the network that the event is about."""
        return self.rest.partition(" ")[0].rstrip(":")

    def reason(self) -> str:
        """What stands behind the last colon and space: why a connection ended, where the event is an end."""
        return self.rest.partition("; the server said: ")[0].rpartition(": ")[2]


def read_event(line: str) -> Event | None:
    """The event in a line; nothing where it has none, as where it is systemd's."""
    found = LINE.search(line)
    return Event(datetime.fromisoformat(found[1]), found[2], found[3]) if found else None


def events(lines: Iterable[str]) -> list[Event]:
    return [event for event in map(read_event, lines) if event]


def lives(them: list[Event]) -> list[list[Event]]:
    """The events of each life of the node whose beginning is among them, the latest life last."""
    starts = [place for place, it in enumerate(them) if it.title == BEGINNING]
    return [them[start:end] for start, end in zip(starts, [*starts[1:], len(them)])]


def output_of(command: str) -> str:
    """What a command prints. It is split into words as a shell would, and run without one."""
    try:
        ran = subprocess.run(shlex.split(command), capture_output=True, text=True, errors="replace", timeout=PATIENCE,
                             check=False)
    except OSError as error:
        raise CommandError(f"can't run '{command}': {said(error)}") from None
    except subprocess.TimeoutExpired:
        raise CommandError(f"'{command}' took longer than {PATIENCE:.0f} seconds") from None
    if ran.returncode:
        raise CommandError(f"'{command}' ended with status {ran.returncode}: {ran.stderr.strip()}")
    return ran.stdout


@dataclass
class Connections:
    """A node's peers, as one life's events have them: with which there is a connection, and with which it was level."""
    connected: set[str]
    level: dict[str, datetime]
    behind: set[str]

    def peers(self) -> set[str]:
        return self.connected | set(self.level)


def connections(life: Iterable[Event]) -> Connections:
    now = Connections(set(), {}, set())
    for event in life:
        name = event.name()
        if event.title == "peer greeted":
            now.connected.add(name)
        elif event.title == "peer level":
            now.level.setdefault(name, event.at)
        elif event.title in ("peer behind", "node behind"):
            now.behind.add(name)
        elif event.title == "peer down" and event.reason() != REPLACED:
            now.connected.discard(name)
            now.behind.discard(name)
    return now
