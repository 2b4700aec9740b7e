"""A database of the messages in a keeper's file, with a full-text index of what was said."""

import hashlib
import os
import re
import sqlite3
import tempfile
from collections.abc import Iterable, Iterator
from dataclasses import dataclass
from datetime import timedelta

from bnc_tools.changes import Buffer, Change, Floor, Post, Redaction, change_of
from bnc_tools.commands import CommandError
from bnc_tools.keeper_file import KeeperFile, open_keeper_file
from bnc_tools.moments import EPOCH

VERSION = 1
TABLES = """
CREATE TABLE message (
    number INTEGER PRIMARY KEY, account TEXT, network TEXT, target TEXT, id TEXT, ms INTEGER, time TEXT, kind TEXT,
    is_action INTEGER, nick TEXT, source TEXT, to_target TEXT, tags TEXT, text TEXT, UNIQUE (account, network, target, id));
CREATE TABLE keeper (version INTEGER, file TEXT, inode INTEGER, end INTEGER, lines INTEGER, latest TEXT);
CREATE VIRTUAL TABLE said USING fts5 (text, content = 'message', content_rowid = 'number',
    tokenize = "unicode61 remove_diacritics 2");
"""
INDEXES = """
CREATE INDEX message_by_ms ON message (ms, id);
CREATE TRIGGER message_comes AFTER INSERT ON message BEGIN
    INSERT INTO said (rowid, text) VALUES (new.number, new.text); END;
CREATE TRIGGER message_changes AFTER UPDATE ON message BEGIN
    INSERT INTO said (said, rowid, text) VALUES ('delete', old.number, old.text);
    INSERT INTO said (rowid, text) VALUES (new.number, new.text); END;
"""
# Of two posts of one id that of the later moment counts, and then the one with the greater tags; of equal ones the one with the
# smaller kind, source, target and text (docs/DECISIONS.md, "Ids, buffers and records").
KEY = ("account", "network", "target", "id")
REST = ("ms", "time", "kind", "is_action", "nick", "source", "to_target", "tags", "text")
PUT = f"""
INSERT INTO message ({", ".join(KEY + REST)}) VALUES ({", ".join("?" * len(KEY + REST))})
ON CONFLICT DO UPDATE SET {", ".join(f"{it} = excluded.{it}" for it in REST)}
WHERE (excluded.ms, excluded.tags) > (ms, tags) OR (excluded.ms, excluded.tags) = (ms, tags)
    AND (excluded.kind, excluded.source, excluded.to_target, excluded.text) < (kind, source, to_target, text)
"""
# What looks formatted in a client, and what no terminal should get.
FORMATTING = re.compile("\x03(?:[0-9]{1,2}(?:,[0-9]{1,2})?)?|\x04(?:[0-9A-Fa-f]{6})?|[\x00-\x1f\x7f-\x9f]")
ACTION = re.compile(r"\x01ACTION (.*?)\x01?", re.S)
TAKES_AWAY = re.compile(rb"^C (?:REDACT|A?FLOOR) [^\r\n]*", re.M)
# So many bytes before the end are looked at to see whether a file is the one of before.
LATEST = 65536


def plain(text: str) -> str:
    return FORMATTING.sub("", text)


def word(text: bytes) -> str:
    return text.decode("utf-8", "backslashreplace")


def time_of(moment: int) -> str:
    return (EPOCH + timedelta(milliseconds=moment)).isoformat(timespec="milliseconds").replace("+00:00", "Z")


def row_of(post: Post) -> tuple[str | int, ...]:
    body = post.body.decode("utf-8", "replace")
    action = ACTION.fullmatch(body)
    source = word(post.source)
    return (*map(word, post.buffer), word(post.ident), post.moment, time_of(post.moment), word(post.kind), action is not None,
            source.partition("!")[0], source, word(post.target), word(post.tags), plain(action[1] if action else body))


class Gone:
    """What isn't to be found any more: redacted messages, and what lies below a floor."""

    def __init__(self) -> None:
        self.redacted: set[tuple[Buffer, bytes]] = set()
        self.floors: dict[Buffer | bytes, int] = {}

    def take(self, change: Change | None) -> None:
        if isinstance(change, Redaction):
            self.redacted.add((change.buffer, change.ident))
        elif isinstance(change, Floor):
            of = change.buffer or change.account
            self.floors[of] = max(change.moment, self.floors.get(of, 0))

    def has(self, post: Post) -> bool:
        floor = max(self.floors.get(post.buffer, 0), self.floors.get(post.buffer[0], 0))
        return post.moment < floor or (post.buffer, post.ident) in self.redacted


def gone_in(payloads: Iterable[bytes]) -> Gone:
    gone = Gone()
    for payload in payloads:
        for line in TAKES_AWAY.findall(payload):
            gone.take(change_of(line))
    return gone


def posts_in(blocks: Iterable[list[Change]], gone: Gone) -> Iterator[Post]:
    for changes in blocks:
        yield from (it for it in changes if isinstance(it, Post) and not gone.has(it))


@dataclass
class Source:
    """The keeper's file, as far as a database has it."""
    inode: int
    end: int
    lines: int
    latest: str


def latest_of(file: KeeperFile, end: int) -> str:
    """What stands before that place, by a digest."""
    file.file.seek(max(end - LATEST, 0))
    return hashlib.sha256(file.file.read(min(end, LATEST))).hexdigest()


class Database:
    """The messages that can be found."""

    def __init__(self, path: str) -> None:
        """Of a file, or of a temporary one where the path is empty."""
        self.connection = sqlite3.connect(path, isolation_level=None)
        self.connection.execute("PRAGMA secure_delete = ON")

    def source(self) -> Source | None:
        """How far it has the file of a keeper; nothing where an older command made it. It fails where it is no such database."""
        version, *found = self.connection.execute("SELECT version, inode, end, lines, latest FROM keeper").fetchone()
        return Source(*found) if version == VERSION else None

    def fill(self, path: str) -> KeeperFile:
        """Takes all messages of a file. What is gone is looked for first, so nothing of it ever stands in the database."""
        gone = gone_in(open_keeper_file(path).payloads())
        file = open_keeper_file(path)
        self.connection.executescript(TABLES)
        self.connection.execute("BEGIN")
        self.put(file, gone)
        self.connection.execute("INSERT INTO said (said) VALUES ('rebuild')")
        self.connection.execute("COMMIT")
        self.connection.executescript(INDEXES)
        return file

    def go_on(self, path: str, source: Source) -> KeeperFile | None:
        """Takes what was appended since. Nothing, where it isn't the file of before, or where something is gone."""
        file = open_keeper_file(path)
        if os.fstat(file.file.fileno()).st_ino != source.inode or latest_of(file, source.end) != source.latest:
            return None
        file.end, file.lines = source.end, source.lines
        if any(TAKES_AWAY.search(payload) for payload in file.payloads()):
            return None
        self.connection.execute("BEGIN")
        self.put(file, Gone())
        self.connection.execute("COMMIT")
        return file

    def put(self, file: KeeperFile, gone: Gone) -> None:
        self.connection.executemany(PUT, map(row_of, posts_in(file.blocks(), gone)))
        self.connection.execute("DELETE FROM keeper")
        self.connection.execute("INSERT INTO keeper VALUES (?, ?, ?, ?, ?, ?)", (
            VERSION, file.path, os.fstat(file.file.fileno()).st_ino, file.end, file.lines, latest_of(file, file.end)))


def source_of(database: Database, path: str) -> Source | None:
    """How far a database has the file of a keeper. What is none of ours isn't written over."""
    try:
        return database.source()
    except (sqlite3.DatabaseError, TypeError, ValueError):
        raise CommandError(f"{path} is no database of this command, and was not touched") from None


def new_database(path: str, to: str) -> KeeperFile:
    """Makes a database beside that path, which only its owner can read, and puts it in its place."""
    number, made = tempfile.mkstemp(prefix=f"{os.path.basename(to)}.", dir=os.path.dirname(os.path.abspath(to)))
    os.close(number)
    try:
        database = Database(made)
        file = database.fill(path)
        database.connection.close()
        os.replace(made, to)
    except BaseException:
        os.remove(made)
        raise
    return file


def kept_database(path: str, to: str) -> tuple[Database, KeeperFile]:
    """The database at that path, which is gone on with where it can be, and else made anew."""
    try:
        if os.path.exists(to):
            database = Database(to)
            source = source_of(database, to)
            file = source and database.go_on(path, source)
            if file:
                return database, file
            database.connection.close()
        file = new_database(path, to)
        return Database(to), file
    except (OSError, sqlite3.Error) as error:
        raise CommandError(f"can't write {to}: {error}") from None


def made_database(path: str) -> tuple[Database, KeeperFile]:
    """A database that is gone with this process."""
    database = Database("")
    return database, database.fill(path)
