#!/usr/bin/env python3
"""Counts the instructions of a line by its tags: of a server's line that is relayed to one client, and of a client's that goes to
its server and is kept.

    bench/tags.py PROGRAM

It needs valgrind. Lines behind as many others are counted, which come some at once. Instructions are no time: what waits for memory
isn't seen.
"""
import os
import sys
import tempfile
from functools import partial

sys.path.insert(1, os.path.join(os.path.dirname(os.path.dirname(os.path.realpath(__file__))), "tests"))

from beside_znc import flood, message
from harness.keys import most_keys
from machine import name_of_run, table
from put import ALL, instructions, served

# The most bytes of tags in a server's line and in a client's (IRCv3 message-tags, "Size limit").
SERVERS, CLIENTS = 8189, 4094
FIVE = b"account=bob;+draft/reply=abcdefgh;msgid=m%012d;time=2026-11-23T00:00:07.000Z;label=7"


def one_tag(length):
    return b"+x=" + (length - 3) * b"x"


def said_by_server(tags, count, server, clients):
    """The server says so many messages with these tags."""
    def spelled(number):
        given = tags % number if tags == FIVE else tags
        return (b"@" + given + b" " if given else b"") + message(number)

    flood(server, clients, count, piece=20, spelled=spelled)


def said_by_client(tags, count, _server, clients):
    """A client says so many messages with these tags."""
    for _ in range(count):
        clients.sockets[0].sendall((b"@" + tags + b" " if tags else b"") + b"PRIVMSG #a :" + 40 * b"x" + b"\r\nPING :here\r\n")
    clients.word = b" PONG "
    clients.wait_for(count)


# Who says it, what tags it has, and how many such lines are counted.
LINES = (
    ("a server's line without tags", said_by_server, b"", 1000),
    ("with five", said_by_server, FIVE, 1000),
    (f"with one of {SERVERS:,} bytes", said_by_server, one_tag(SERVERS), 100),
    (f"with {SERVERS:,} bytes of keys", said_by_server, most_keys(SERVERS), 100),
    ("a client's line without tags", said_by_client, b"", 100),
    (f"with one of {CLIENTS:,} bytes", said_by_client, one_tag(CLIENTS), 50),
    (f"with {CLIENTS:,} bytes of keys", said_by_client, most_keys(CLIENTS), 50),
)


def run(program, log, say, tags, count):
    served(program, log, partial(say, tags, count))
    return instructions(ALL, log)


def counted(program, folder, say, tags, count):
    """The instructions of such a line behind as many others."""
    few, all_of_them = (run(program, f"{folder}/log-{lines}", say, tags, lines) for lines in (count, 2 * count))
    return (all_of_them - few) / count


def main():
    program = os.path.abspath(sys.argv[1])
    with tempfile.TemporaryDirectory() as folder:
        # (the bouncer isn't run by root)
        os.chmod(folder, 0o777)
        rows = [[what, f"{counted(program, folder, say, tags, count):,.0f}"] for what, say, tags, count in LINES]
    print(f"{name_of_run(program)}\n")
    print(table(["line", "instructions"], rows))


if __name__ == "__main__":
    main()
