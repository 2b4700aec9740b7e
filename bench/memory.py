#!/usr/bin/env python3
"""Measures what a running bouncer takes of memory: for an idle client, for one that was sent more than its ring has room for, for a
message that is held, and how many blocks each line asks for.

    bench/memory.py PROGRAM

It plays the network's server and the clients itself, over loopback. The ring's part of what a client takes are the pages in
memory of blocks that were mapped since it came: root may see them, or who runs the program. The blocks that lines ask for are
counted by bench/plain/blocks.c, which needs cc.
"""
import os
import resource
import shutil
import subprocess
import struct
import sys
import tempfile
from functools import partial

from beside_c import PLAIN
from beside_znc import Clients, begin, flood, message
from machine import name_of_run, table

PAGE_BYTES = os.sysconf("SC_PAGE_SIZE")
COUNTS, FEW, PAGE = (450, 500, 950, 1950), 100, 100
# What clients are sent in their lives, in bytes, and how many lines of it at once.
SENT, BURSTS = 1_200_000, (200, 20)
HELD, LINES = (20_000, 50_000, 100_000), 20_000


def topic(number):
    """A line of 100 bytes that is passed on and isn't kept."""
    return b":bob!bob@host.example TOPIC #a :%08d %s\r\n" % (number, b"x" * 57)


def tags(number, name):
    seconds, ms = divmod(number, 1000)
    return b"@msgid=%s%08d;time=2026-01-01T00:%02d:%02d.%03dZ " % (name, number, seconds // 60, seconds % 60, ms)


def tagged(number):
    return tags(number, b"m") + message(number)


def escaped(number):
    return tags(number, rb"m\:") + message(number)


def join(number):
    return b":bob!bob@host.example JOIN #c%08d\r\n" % number


def blocks_of(bouncer):
    """The pages of blocks of memory that have a mapping of their own, as all rings have."""
    pages = set()
    with open(f"/proc/{bouncer.process.pid}/maps", encoding="ascii") as it:
        for row in it:
            words = row.split()
            if len(words) == 5:
                first, end = (int(it, 16) // PAGE_BYTES for it in words[0].split("-"))
                pages.update(range(first, end))
    return pages


def resident_of(bouncer, pages):
    """The bytes of those of these pages that are in memory."""
    with open(f"/proc/{bouncer.process.pid}/pagemap", "rb", buffering=0) as it:
        words = (struct.unpack("Q", os.pread(it.fileno(), 8, 8 * page))[0] for page in pages)
        return PAGE_BYTES * sum(word >> 63 for word in words)


class Growth:
    """How much more memory each of some clients takes than before."""

    def __init__(self, bouncer, count):
        self.bouncer, self.count = bouncer, count
        self.before, self.blocks = bouncer.resident(), blocks_of(bouncer)

    def each(self):
        """Bytes of each client: all in all, and of its ring."""
        rings = resident_of(self.bouncer, blocks_of(self.bouncer) - self.blocks)
        return [(self.bouncer.resident() - self.before) / self.count, rings / self.count]


def kilobytes(count):
    return f"{count / 1000:.1f} kB"


def cells(each):
    whole, ring = each
    return [kilobytes(whole), kilobytes(ring), kilobytes(whole - ring)]


class Running:
    """A bouncer with its server, for as long as it is measured."""

    def __init__(self, program, **how):
        self.program, self.how = program, how

    def __enter__(self):
        self.bouncer, self.server = begin("bnc", self.program, **self.how)
        return self.bouncer, self.server

    def __exit__(self, *_):
        self.bouncer.stop()
        self.server.close()


def settled(bouncer, count, word=b" PRIVMSG #a "):
    """Clients, once nothing more comes to them."""
    clients = Clients(bouncer, count, word)
    clients.settle(1)
    clients.reset()
    return clients


def idle_row(program, count):
    """What idle clients take, and what they take once each has asked for a page."""
    with Running(program) as (bouncer, server):
        first = settled(bouncer, 1)
        flood(server, first, PAGE)
        growth = Growth(bouncer, count)
        clients = settled(bouncer, count)
        idle = growth.each()
        for it in clients.sockets:
            it.sendall(b"CHATHISTORY LATEST #a * %d\r\n" % PAGE)
        clients.wait_for(PAGE)
        paged = growth.each()
        return [f"{count:,}", *cells(idle), "8 kB", *cells(paged)[:2]]


def sent_row(program, burst):
    """What clients take that were sent more than their ring has room for, and are idle."""
    with Running(program) as (bouncer, server):
        growth = Growth(bouncer, FEW)
        clients = settled(bouncer, FEW, b" TOPIC ")
        flood(server, clients, SENT // len(topic(0)), burst, topic)
        return [burst, *cells(growth.each()), "2.5 kB"]


def message_row(program, count):
    with Running(program) as (bouncer, server):
        clients = settled(bouncer, 1)
        before = bouncer.resident()
        flood(server, clients, count)
        return [f"{count:,}", f"{(bouncer.resident() - before) / count:.0f} bytes", "450 bytes"]


class Blocks:
    """The blocks that a program asks for, gives back and has resized."""

    def __init__(self, folder):
        self.counts, shim = os.path.join(folder, "counts"), os.path.join(folder, "blocks.so")
        subprocess.run(["cc", "-O2", "-shared", "-fPIC", "-o", shim, os.path.join(PLAIN, "blocks.c")], check=True)
        # (the bouncer isn't run by root)
        os.chmod(folder, 0o755)
        with open(self.counts, "wb") as file:
            file.write(bytes(24))
        os.chmod(self.counts, 0o666)
        self.environment = {"LD_PRELOAD": shim, "BLOCKS": self.counts}

    def now(self):
        with open(self.counts, "rb") as file:
            return struct.unpack("3Q", file.read())


def by_server(spelled, first, server, clients):
    """The server says lines, one after another, which all clients hear."""
    clients.reset()
    flood(server, clients, LINES, 1, lambda number: spelled(first + number))


def by_clients(piece, _, server, clients):
    """Clients say messages by turns, so many at once, which the server hears."""
    said = b"".join(b"PRIVMSG #a :%08d %s\r\n" % (number, b"x" * 40) for number in range(piece))
    for number in range(LINES // piece):
        clients.sockets[number % len(clients.sockets)].sendall(said)
        held = b""
        while held.count(b"\n") < piece:
            held += server.socket.recv(1 << 16)
        clients.turn(0)


# What is said, and at how many workers and clients.
SAID = (
    ("a message without tags", partial(by_server, message), ((1, 1),)),
    ("a message with `time` and `msgid`", partial(by_server, tagged), ((1, 1), (2, 1), (2, 6), (4, 6))),
    ("a message whose `msgid` has an escape", partial(by_server, escaped), ((1, 1),)),
    ("a line that is passed on (JOIN)", partial(by_server, join), ((1, 1), (2, 2), (4, 4))),
    ("a client's own message", partial(by_clients, 1), ((1, 1), (2, 2), (4, 4))),
    ("a client's own messages, 50 at once", partial(by_clients, 50), ((1, 1), (2, 2))),
)


def block_rows(program, blocks):
    """What lines ask for, behind as many others."""
    for what, say, places in SAID:
        for workers, count in places:
            with Running(program, workers=workers, environment=blocks.environment) as (bouncer, server):
                clients = settled(bouncer, count, b":bob!bob@host.example ")
                say(0, server, clients)
                clients.settle()
                before = blocks.now()
                say(LINES, server, clients)
                clients.settle()
                yield [what, workers, count, *(f"{(now - then) / LINES:.2f}" for now, then in zip(blocks.now(), before))]


def main():
    program = os.path.abspath(sys.argv[1])
    most = resource.getrlimit(resource.RLIMIT_NOFILE)[1]
    resource.setrlimit(resource.RLIMIT_NOFILE, (most, most))
    folder = tempfile.mkdtemp(prefix="bench-")
    try:
        print(f"{name_of_run(program)}\n")
        heads = ["all in all", "of it its ring", "beside its ring"]
        print(table(["idle clients", *heads, "goal beside its ring", f"after a page of {PAGE}, all in all", "of it its ring"],
                    [idle_row(program, it) for it in COUNTS]), flush=True)
        print(f"\nOf {FEW} clients that were sent {SENT / 1e6:.1f} MB each, and are idle:\n")
        print(table(["lines at once", *heads, "goal all in all"], [sent_row(program, it) for it in BURSTS]), flush=True)
        print("\n" + table(["messages that are held", "each", "goal"], [message_row(program, it) for it in HELD]), flush=True)
        print(f"\nOver {LINES:,} lines after as many others:\n")
        print(table(["a line", "workers", "clients", "blocks asked for", "given back", "resized"],
                    block_rows(program, Blocks(folder))), flush=True)
    finally:
        shutil.rmtree(folder, ignore_errors=True)


if __name__ == "__main__":
    main()
