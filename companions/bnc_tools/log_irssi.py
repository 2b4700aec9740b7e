"""The logs of irssi's `autolog`: a file for each conversation, in which each day begins with a line of its own."""

import os
import re
from collections.abc import Iterable, Iterator
from datetime import date, datetime, time

from bnc_tools.commands import CommandError
from bnc_tools.log_files import MESSAGE, NOTICE, UNREADABLE, Entry, Spoken, Unkept, action, kind_of, timed

MONTHS = ("Jan", "Feb", "Mar", "Apr", "May", "Jun", "Jul", "Aug", "Sep", "Oct", "Nov", "Dec")
DAY = re.compile(r"--- (?:Log opened|Log closed|Day changed) \S+ (\S+) +(\d+) (?:\d\d:\d\d:\d\d )?(\d{4})")
LINE = re.compile(r"(\d\d):(\d\d)(?::(\d\d))? ?(.*)", re.DOTALL)
SAID = re.compile(r"<[ @+%&~!]?([^ >]+)> ?(.*)", re.DOTALL)
NOTICED = re.compile(r"-([^ !:(]+)(?::[^ ]+|\([^ ]+\))?- (.*)", re.DOTALL)
DONE = re.compile(r" ?\* ([^ ]+) (.*)", re.DOTALL)
KINDS = (
    (" has joined ", "joins"), (" has left ", "parts"), (" has quit ", "quits"), (" was kicked from ", "kicks"),
    ("-!- mode/", "changes of modes"), (" is now known as ", "changes of nicks"), ("You're now known as ", "changes of nicks"),
    (" changed the topic of ", "changes of topics"),
)


class IrssiLog:
    """`<network>/<target>.log`, with times of minutes or seconds."""

    def target(self, path: str) -> str | None:
        return os.path.basename(path).removesuffix(".log")

    def entries(self, path: str, lines: Iterable[str]) -> Iterator[Entry]:
        day = None
        for line in lines:
            if line.startswith("--- "):
                day = day_of(path, line)
            elif day:
                yield timed(entry, day, line)
            else:
                yield Unkept(UNREADABLE)


def day_of(path: str, line: str) -> date:
    """The day that a line of `---` begins."""
    found = DAY.fullmatch(line)
    try:
        if found:
            return date(int(found[3]), MONTHS.index(found[1]) + 1, int(found[2]))
    except ValueError:
        pass
    raise CommandError(f"{path}: no day in English can be read in '{line}'")


def entry(day: date, line: str) -> Entry:
    found = LINE.fullmatch(line)
    if not found:
        return Unkept(UNREADABLE)
    hour, minute, second = found[1], found[2], found[3]
    at = datetime.combine(day, time(int(hour), int(minute), int(second or 0)))
    return entry_at(at, 1000 if second else 60_000, found[4])


def entry_at(at: datetime, span: int, rest: str) -> Entry:
    if found := SAID.fullmatch(rest):
        return Spoken(at, span, MESSAGE, found[1], found[2])
    if found := DONE.fullmatch(rest):
        return Spoken(at, span, MESSAGE, found[1], action(found[2]))
    if found := NOTICED.fullmatch(rest):
        return Spoken(at, span, NOTICE, found[1], found[2])
    return kind_of(rest, KINDS, "other lines of irssi")
