#!/usr/bin/env python3
"""Measures what a relayed line takes whose message id is 22 random characters, as a network's server makes them, beside one with
an id of as many bytes that rises, as a node makes them; with 100,000 and with 1,000,000 messages held.

    bench/ids.py PROGRAM ROUNDS

It plays the network's server and one client itself, over loopback. Processor time is the median of so many floods of 10,000 lines
behind the messages that are held; memory is what each of those takes. Debian's ZNC, which keeps the last 1,000, gets the same lines.
valgrind counts the instructions of 5,000 lines, 200 at once, with 100,000 held: what waits for memory isn't seen there.
"""
import base64
import hashlib
import os
import statistics
import sys
import tempfile

from beside_znc import Clients, begin, flood, message
from machine import name_of_run, table
from put import ALL, callgrind, instructions

HELD = (100_000, 1_000_000)
LINES, COUNTED = 10_000, 5_000
FIRST = 1_767_225_600_000


def rising(number):
    return b"%022d" % number


def random(number):
    digest = hashlib.blake2b(b"%d" % number, digest_size=18).digest()
    return base64.b64encode(digest, b"aZ")[:22]


KINDS = (("rising", rising), ("random", random))


def spelled(name, first):
    """How a line is spelled by its number, behind so many others."""
    def line(number):
        number += first
        seconds, ms = divmod(number, 1000)
        minutes, second = divmod(seconds, 60)
        hour, minute = divmod(minutes, 60)
        return b"@msgid=%s;time=2026-01-%02dT%02d:%02d:%02d.%03dZ " % (
            name(number), 1 + hour // 24, hour % 24, minute, second, ms) + message(number)
    return line


def held(program, name, count, **how):
    """A bouncer that was sent so many messages, with its server and a client, and the bytes that each takes."""
    bouncer, server = begin("bnc" if program else "znc", program, **how)
    clients = Clients(bouncer, 1)
    clients.settle(1)
    clients.reset()
    before = bouncer.resident()
    flood(server, clients, count, spelled=spelled(name, 0))
    return bouncer, server, clients, (bouncer.resident() - before) / count


def times(program, name, count, rounds):
    """Nanoseconds of a line, round by round, and the bytes of a message."""
    bouncer, server, clients, size = held(program, name, count)
    try:
        found = []
        for number in range(rounds):
            clients.reset()
            before = bouncer.seconds()
            flood(server, clients, LINES, spelled=spelled(name, count + number * LINES))
            found.append((bouncer.seconds() - before) / LINES * 1e9)
        return statistics.median(found), size
    finally:
        bouncer.stop()
        server.close()


def counted(program, name, count, folder):
    """The instructions of a line behind so many others."""
    totals = []
    for more in (0, COUNTED):
        log = os.path.join(folder, f"{name.__name__}-{count}-{more}")
        bouncer, server, _, _ = held(program, name, count + more, before=callgrind(log))
        bouncer.process.terminate()
        bouncer.process.wait()
        totals.append(instructions(ALL, log))
        bouncer.stop()
        server.close()
    return (totals[1] - totals[0]) / COUNTED


def rows(program, rounds):
    theirs, _ = times(None, random, LINES, rounds)
    for count in HELD:
        found = {name: times(program, it, count, rounds) for name, it in KINDS}
        (rise, small), (any_, large) = found["rising"], found["random"]
        yield [f"{count:,}", f"{rise:.0f} ns", f"{any_:.0f} ns", f"{any_ / rise:.2f}", f"{theirs / any_:.1f}", f"{small:.0f} bytes",
               f"{large:.0f} bytes", f"{large / small:.2f}"]


def main():
    program, rounds = os.path.abspath(sys.argv[1]), int(sys.argv[2])
    print(f"{name_of_run(program)} Medians of {rounds} rounds.\n")
    heads = ["held", "a line, rising ids", "random ids", "ratio", "ZNC : random ids", "a message, rising ids", "random ids", "ratio"]
    print(table(heads, rows(program, rounds)), flush=True)
    with tempfile.TemporaryDirectory() as folder:
        os.chmod(folder, 0o777)
        each = [counted(program, it, HELD[0], folder) for _, it in KINDS]
    print(f"\nInstructions of a line, 200 at once, with {HELD[0]:,} held: {each[0]:,.0f} with rising ids, {each[1]:,.0f} with random "
          f"ones, {each[1] / each[0]:.2f} times as many.")


if __name__ == "__main__":
    main()
