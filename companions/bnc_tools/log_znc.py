"""The logs of ZNC's module `log`: a folder for each conversation, with a file for each day."""

import os
import re
from collections.abc import Iterable, Iterator
from datetime import datetime

from bnc_tools.commands import CommandError
from bnc_tools.log_files import MESSAGE, NOTICE, UNREADABLE, Entry, Spoken, Unkept, action, kind_of, timed

DAY = re.compile(r"(\d{4})-?(\d\d)-?(\d\d)\.log$")
LINE = re.compile(r"\[(\d\d:\d\d:\d\d)\] (.*)", re.DOTALL)
SAID = re.compile(r"<([^ >]+)> (.*)", re.DOTALL)
NOTICED = re.compile(r"-([^ ]+)- (.*)", re.DOTALL)
DONE = re.compile(r"\* ([^ *]+) (.*)", re.DOTALL)
KINDS = (
    ("*** Joins: ", "joins"), ("*** Parts: ", "parts"), ("*** Quits: ", "quits"), (" was kicked by ", "kicks"),
    (" sets mode: ", "changes of modes"), (" is now known as ", "changes of nicks"),
    (" changes topic to ", "changes of topics"),
)


class ZncLog:
    """`<network>/<target>/<day>.log`, with times of seconds."""

    def target(self, path: str) -> str | None:
        name = os.path.basename(os.path.dirname(os.path.abspath(path)))
        return None if name.startswith("*") else name

    def entries(self, path: str, lines: Iterable[str]) -> Iterator[Entry]:
        found = DAY.search(os.path.basename(path))
        if not found:
            raise CommandError(f"{path}: the file's name has no day, as 2026-11-30.log has")
        day = "-".join(found.groups())
        for line in lines:
            yield timed(entry, day, line)


def entry(day: str, line: str) -> Entry:
    found = LINE.fullmatch(line)
    return entry_at(datetime.fromisoformat(f"{day} {found[1]}"), found[2]) if found else Unkept(UNREADABLE)


def entry_at(at: datetime, rest: str) -> Entry:
    if found := SAID.fullmatch(rest):
        return Spoken(at, 1000, MESSAGE, found[1], found[2])
    if found := NOTICED.fullmatch(rest):
        return Spoken(at, 1000, NOTICE, found[1], found[2])
    if found := DONE.fullmatch(rest):
        return Spoken(at, 1000, MESSAGE, found[1], action(found[2]))
    return kind_of(rest, KINDS, "other lines of ZNC")
