"""The lines of changes, as a keeper's file has them (docs/PROTOCOL.md, "Changes")."""

import re
from typing import NamedTuple

MOST_OF_LINE, MOST_OF_TAGS, GREATEST_MOMENT = 510, 4094, 253402300799999
GREATEST_LIFE = 2**64 - 1

NAME = rb"([a-z0-9_-]{1,32})"
FOLDED = rb"([^\0\r\n ,:A-Z][^\0\r\n ,A-Z]{0,199})"
TARGET = rb"([^\0\r\n ,:][^\0\r\n ,]{0,199})"
WORD = rb"([^\0\r\n :][^\0\r\n ]{0,254})"
NUMBER = rb"(0|[1-9][0-9]{0,14})"
BUFFER = NAME + b" " + NAME + b" " + FOLDED
POST = re.compile(rb"C (T?)POST " + BUFFER + b" " + WORD + b" " + NUMBER + rb" ([PN]) (?:(\+[^\0\r\n ]*) )?" + TARGET + b" "
                  + WORD + rb" :([^\0\r\n]*)")
REDACTION = re.compile(rb"C REDACT " + BUFFER + b" " + WORD + rb" (?:\*|" + NUMBER + b")")
MARK = re.compile(rb"C MARK " + BUFFER + b" " + NUMBER)
FLOOR = re.compile(rb"C (?:FLOOR " + BUFFER + b"|AFLOOR " + NAME + b") " + NUMBER)
TAG = re.compile(rb"(\+[^=]*)(?:=(?:[^\\]|\\[:s\\rn])+)?")
LIFE = re.compile(rb"L ([a-z0-9]{1,32}) (0|[1-9][0-9]{0,19})")
COMMANDS = {b"P": b"PRIVMSG", b"N": b"NOTICE"}

# An account, one of its networks, and the folded target of a conversation there.
Buffer = tuple[bytes, bytes, bytes]


class Post(NamedTuple):
    """A message."""
    buffer: Buffer
    ident: bytes
    moment: int
    kind: bytes
    tags: bytes
    target: bytes
    source: bytes
    body: bytes


class Redaction(NamedTuple):
    """That a message is gone."""
    buffer: Buffer
    ident: bytes


class Floor(NamedTuple):
    """That nothing older is kept, in a buffer or in all those of an account."""
    account: bytes
    buffer: Buffer | None
    moment: int


class Mark(NamedTuple):
    """Up to where a buffer was read."""
    buffer: Buffer
    moment: int


Change = Post | Redaction | Floor | Mark


def are_tags(tags: bytes) -> bool:
    """Whether they are client-only tags as a change has them, with distinct keys."""
    found = [TAG.fullmatch(tag) for tag in tags.split(b";")]
    keys = {tag[1] for tag in found if tag}
    return None not in found and len(keys) == len(found) and len(tags) <= MOST_OF_TAGS


def post_of(line: bytes) -> Post | None:
    found = POST.fullmatch(line)
    if not found:
        return None
    tagged, account, network, target, ident, moment, kind, tags, to, source, body = found.groups()
    size = len(COMMANDS[kind]) + len(to) + len(source) + len(body) + len(b":   :")
    if bool(tagged) != (tags is not None) or tags is not None and not are_tags(tags):
        return None
    if b"*" in (target, to) or int(moment) > GREATEST_MOMENT or size > MOST_OF_LINE:
        return None
    return Post((account, network, target), ident, int(moment), kind, tags or b"", to, source, body)


def floor_of(line: bytes) -> Floor | None:
    found = FLOOR.fullmatch(line)
    if not found:
        return None
    account, network, target, whole, moment = found.groups()
    buffer = None if whole else (account, network, target)
    return Floor(whole or account, buffer, int(moment)) if int(moment) <= GREATEST_MOMENT and target != b"*" else None


def redaction_of(line: bytes) -> Redaction | None:
    found = REDACTION.fullmatch(line)
    if not found or found[3] == b"*" or int(found[5] or 0) > GREATEST_MOMENT:
        return None
    return Redaction(found.group(1, 2, 3), found[4])


def mark_of(line: bytes) -> Mark | None:
    found = MARK.fullmatch(line)
    if not found or found[3] == b"*" or int(found[4]) > GREATEST_MOMENT:
        return None
    return Mark(found.group(1, 2, 3), int(found[4]))


READERS = {b"POST": post_of, b"TPOST": post_of, b"REDACT": redaction_of, b"MARK": mark_of, b"FLOOR": floor_of, b"AFLOOR": floor_of}


def change_of(line: bytes) -> Change | None:
    """The change that a line spells, without its ending; none where it spells none."""
    reader = READERS.get(line[2:].partition(b" ")[0])
    return reader(line) if reader and line.startswith(b"C ") else None


def is_life(line: bytes) -> bool:
    """Whether the line says a life of a keeper."""
    found = LIFE.fullmatch(line)
    return found is not None and int(found[2]) <= GREATEST_LIFE
