"""The file of a keeper (docs/PROTOCOL.md, "A keeper's file"): its blocks, and what can be read where it is damaged."""

import os
import re
from collections.abc import Iterator
from dataclasses import dataclass
from typing import BinaryIO

from bnc_tools.changes import Change, change_of, is_life
from bnc_tools.commands import CommandError, said

END, GATE, CLOSED = b"\r\n", b"+", b"-"
HEAD = re.compile(rb"\+([0-9]{8})\r\n")
HEAD_SIZE, MOST_OF_PAYLOAD = 11, 99_999_999
# The most changes of a block that is written here.
MOST_OF_BLOCK = 256


def payload_in(data: bytes, at: int = 0) -> bytes | None:
    """The payload of the whole open block that begins there, if one does."""
    head = HEAD.match(data, at)
    if not head or len(data) < head.end() + int(head[1]):
        return None
    return data[head.end():head.end() + int(head[1])]


def block(payload: bytes) -> bytes:
    return b"+%08d\r\n%s" % (len(payload), payload)


def changes_in(payload: bytes) -> list[Change] | None:
    """The changes of an entry, of which there are none in the one of a life. None where it is no entry."""
    *lines, rest = payload.split(END)
    if not rest and len(lines) == 1 and is_life(lines[0]):
        return []
    changes = [change for change in map(change_of, lines) if change]
    return changes if not rest and len(changes) == len(lines) else None


def is_torn(end: bytes) -> bool:
    """Whether one append that was cut short may have left these bytes behind the last whole block."""
    is_finished = end.startswith(GATE) and end.endswith(END + CLOSED)
    starts = [1, *(found.end() for found in re.finditer(b"\n", end))]
    later = any(payload_in(end, at) is not None for at in starts)
    return len(end) <= HEAD_SIZE + MOST_OF_PAYLOAD + 1 and not is_finished and not later


@dataclass(frozen=True)
class Damage:
    """The first fault: at which byte from 0, in which line from 1, and how many lines of changes begin behind it."""
    byte: int
    line: int
    behind: int

    def __str__(self) -> str:
        return f"damaged at byte {self.byte}, line {self.line}, with {self.behind} lines of changes behind it"


@dataclass
class KeeperFile:
    """The file while it is read, block after block. `end` is where the blocks end that were read."""
    path: str
    file: BinaryIO
    end: int = 0
    lines: int = 0

    def payloads(self) -> Iterator[bytes]:
        """The payload of each whole block from `end` on, one after another."""
        self.file.seek(self.end)
        while head := HEAD.fullmatch(self.file.read(HEAD_SIZE)):
            payload = self.file.read(int(head[1]))
            if len(payload) < int(head[1]):
                return
            yield payload

    def blocks(self) -> Iterator[list[Change]]:
        """The changes of each whole block from `end` on, up to the first that is no entry."""
        for payload in self.payloads():
            changes = changes_in(payload)
            if changes is None:
                return
            self.end += HEAD_SIZE + len(payload)
            self.lines += 1 + payload.count(END)
            yield changes

    def rest(self) -> bytes:
        """What stands behind the blocks that were read."""
        self.file.seek(self.end)
        return self.file.read()

    def damage(self) -> Damage | None:
        """What is wrong behind the blocks that were read. A keeper that runs may append to the file meanwhile."""
        rest = self.rest()
        payload = payload_in(rest)
        if is_torn(rest) if payload is None else changes_in(payload) is not None:
            return None
        if rest != self.rest():
            return self.damage()
        return Damage(self.end, self.lines + 1, len(re.findall(rb"^C ", rest, re.M)))


def open_keeper_file(path: str) -> KeeperFile:
    """Opens a file that begins as a keeper's does."""
    try:
        file = open(path, "rb")
        is_ours = HEAD.fullmatch(file.read(HEAD_SIZE)) is not None
    except OSError as error:
        raise CommandError(f"can't read {path}: {said(error)}") from None
    if not is_ours:
        raise CommandError(f"{path} is no file of a keeper")
    return KeeperFile(path, file)


@dataclass
class Salvage:
    """What can be read of a file, damaged or not, as a new one has it."""
    data: bytes
    changes: int = 0
    lives: int = 0
    lost: int = 0

    def blocks(self) -> Iterator[bytes]:
        """The whole blocks in their order, and between them blocks of the lines that can be read."""
        at = 0
        while at < len(self.data):
            payload = payload_in(self.data, at)
            if payload is not None and changes_in(payload) is not None:
                self.count(payload.split(END)[:-1])
                yield block(payload)
                at += HEAD_SIZE + len(payload)
            else:
                after = self.next_block(at + 1)
                yield from self.lines(self.data[at:after])
                at = after
        yield CLOSED

    def next_block(self, at: int) -> int:
        """Where the next whole block begins, or the file's end."""
        for found in HEAD.finditer(self.data, at):
            payload = payload_in(self.data, found.start())
            if payload is not None and changes_in(payload) is not None:
                return found.start()
        return len(self.data)

    def lines(self, region: bytes) -> Iterator[bytes]:
        """Blocks of those lines of a region that can be read. Its heads and gates are no lines of changes."""
        found = [line for line in region.split(b"\n") if line[:2] in (b"C ", b"L ")]
        changes = [line[:-1] for line in found if line.endswith(b"\r") and change_of(line[:-1])]
        lives = [line[:-1] for line in found if line.endswith(b"\r") and is_life(line[:-1])]
        self.lost += len(found) - len(changes) - len(lives)
        self.count(changes + lives)
        for line in lives:
            yield block(line + END)
        for first in range(0, len(changes), MOST_OF_BLOCK):
            yield block(b"".join(line + END for line in changes[first:first + MOST_OF_BLOCK]))

    def count(self, lines: list[bytes]) -> None:
        lives = sum(line.startswith(b"L ") for line in lines)
        self.lives += lives
        self.changes += len(lines) - lives


def salvage(path: str, to: str) -> Salvage:
    """Writes what can be read of a file into a new one, of the same owner. Nothing is written over."""
    found = Salvage(whole(path))
    try:
        with open(to, "xb", opener=lambda name, flags: os.open(name, flags, 0o600)) as file:
            file.writelines(found.blocks())
            file.flush()
            os.fsync(file.fileno())
        owner = os.stat(path)
        if os.geteuid() == 0:
            os.chown(to, owner.st_uid, owner.st_gid)
    except OSError as error:
        raise CommandError(f"can't write {to}: {said(error)}") from None
    return found


def whole(path: str) -> bytes:
    try:
        with open(path, "rb") as file:
            return file.read()
    except OSError as error:
        raise CommandError(f"can't read {path}: {said(error)}") from None
