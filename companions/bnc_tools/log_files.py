"""What the logs of other programs have: lines that somebody said, and lines of kinds that a node doesn't keep."""

from collections.abc import Callable, Iterable, Iterator
from dataclasses import dataclass
from datetime import datetime
from typing import Protocol, TypeVar

MESSAGE, NOTICE = "P", "N"
UNREADABLE = "lines that can't be read"


@dataclass(frozen=True)
class Spoken:
    """A line that somebody said at that time, which is the first moment of a span of so many milliseconds."""
    at: datetime
    span: int
    kind: str
    source: str
    text: str


@dataclass(frozen=True)
class Unkept:
    """A line of a kind that isn't kept, by the kind's name in the plural."""
    kind: str


Entry = Spoken | Unkept
Day = TypeVar("Day")


class LogFormat(Protocol):
    """How a program names and writes its logs."""

    def target(self, path: str) -> str | None:
        """The conversation that a file of that name has, or nothing where it is none."""

    def entries(self, path: str, lines: Iterable[str]) -> Iterator[Entry]:
        """What stands in the lines of a file."""


def action(text: str) -> str:
    """The text of a message that describes what somebody does (CTCP ACTION)."""
    return f"\x01ACTION {text}\x01"


def kind_of(text: str, kinds: Iterable[tuple[str, str]], otherwise: str) -> Unkept:
    """The kind of a line by the first of these words that it has."""
    return Unkept(next((kind for words, kind in kinds if words in text), otherwise))


def timed(entry: Callable[[Day, str], Entry], day: Day, line: str) -> Entry:
    """The entry of a day's line; where its time is none, as 25:00, it can't be read."""
    try:
        return entry(day, line)
    except ValueError:
        return Unkept(UNREADABLE)


def read_entries(log: LogFormat, path: str) -> Iterator[Entry]:
    """What stands in a file. Bytes that aren't UTF-8 come through as they are."""
    with open(path, encoding="utf-8", errors="surrogateescape", newline="\n") as file:
        yield from log.entries(path, (line.rstrip("\r\n") for line in file if line.strip()))
