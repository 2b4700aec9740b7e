"""The logs of WeeChat's plugin `logger`: a file for each buffer, whose lines have a time, a prefix and a text."""

import os
import re
from collections.abc import Iterable, Iterator
from datetime import datetime, timezone

from bnc_tools.log_files import MESSAGE, NOTICE, UNREADABLE, Entry, Spoken, Unkept, action, kind_of, timed

NAME = re.compile(r"irc\.(?!server\.)[^.]+\.(.+)\.weechatlog")
# Up to version 4.2 a local time of seconds, and since then one of microseconds in UTC.
LINE = re.compile(r"(\d{4}-\d\d-\d\d)[ T](\d\d:\d\d:\d\d)(?:\.(\d{1,6})Z)?\t([^\t]*)\t(.*)", re.DOTALL)
NOTICED = re.compile(r"Notice\(([^ )]+)\)(?: -> [^ ]+)?: (.*)", re.DOTALL)
NICK = re.compile(r"[ @+%&~!]?([^ ]+)")
ACTION = " *"
OTHERS = ("--", "=!=", "")
KINDS = (
    (" has quit", "quits"), (" has left ", "parts"), (" has kicked ", "kicks"), ("Mode ", "changes of modes"),
    (" is now known as ", "changes of nicks"), (" has changed topic for ", "changes of topics"), ("Topic for ", "topics"),
)


class WeechatLog:
    """`irc.<network>.<target>.weechatlog`."""

    def target(self, path: str) -> str | None:
        found = NAME.fullmatch(os.path.basename(path))
        return found[1] if found else None

    def entries(self, path: str, lines: Iterable[str]) -> Iterator[Entry]:
        for line in lines:
            yield timed(entry, None, line)


def time_of(day: str, second: str, fraction: str | None) -> tuple[datetime, int]:
    """A line's time, and for how many milliseconds it stands."""
    at = datetime.fromisoformat(f"{day} {second}")
    if fraction is None:
        return at, 1000
    return at.replace(microsecond=int(fraction.ljust(6, "0")) // 1000 * 1000, tzinfo=timezone.utc), 1


def entry(_: None, line: str) -> Entry:
    found = LINE.fullmatch(line)
    if not found:
        return Unkept(UNREADABLE)
    at, span = time_of(*found.groups()[:3])
    return entry_at(at, span, found[4], found[5])


def entry_at(at: datetime, span: int, prefix: str, text: str) -> Entry:
    if prefix == "-->":
        return Unkept("joins")
    if prefix == ACTION:
        nick, _, rest = text.partition(" ")
        return Spoken(at, span, MESSAGE, nick, action(rest))
    if prefix == "--" and (noticed := NOTICED.fullmatch(text)):
        return Spoken(at, span, NOTICE, noticed[1], noticed[2])
    if prefix in (*OTHERS, "<--"):
        return kind_of(text, KINDS, "other lines of WeeChat")
    found = NICK.fullmatch(prefix)
    return Spoken(at, span, MESSAGE, found[1], text) if found else Unkept(UNREADABLE)
