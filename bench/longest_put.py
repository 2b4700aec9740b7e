#!/usr/bin/env python3
"""Measures the longest put while a node takes its second, third and fourth million messages, with message ids of 22 random characters
and with ids of as many bytes that rise.

    bench/longest_put.py PROGRAM [ROUNDS]      3 rounds, where nothing else is said

A put can't be seen from outside. So the network's server says 20 lines at once and waits until the client has heard them, again and
again. What a put does at some number of messages it does in every round, and what the machine does besides comes at another number in
each. So of each 20 lines the shortest time of all rounds counts, beyond the median of these. Let root run it at real-time priority:
chrt --rr 30 bench/longest_put.py PROGRAM
"""
import array
import os
import socket
import statistics
import sys
import time

from ids import KINDS, held, spelled
from machine import name_of_run, table

FIRST, LAST, PIECE = 1_000_000, 4_000_000, 20


def times(program, name):
    """The seconds that each 20 lines take."""
    bouncer, server, clients, _ = held(program, name, FIRST)
    try:
        line, found = spelled(name, FIRST), array.array("d")
        # (else a piece may wait until what went before it is acknowledged, for 40 ms)
        server.socket.setsockopt(socket.IPPROTO_TCP, socket.TCP_NODELAY, 1)
        clients.reset()
        for first in range(0, LAST - FIRST, PIECE):
            data = b"".join(line(number) for number in range(first, first + PIECE))
            start = time.perf_counter()
            server.send(data)
            clients.wait_for(first + PIECE)
            found.append(time.perf_counter() - start)
        return found
    finally:
        bouncer.stop()
        server.close()


def main():
    program, rounds = os.path.abspath(sys.argv[1]), int(sys.argv[2]) if len(sys.argv) > 2 else 3
    print(f"{name_of_run(program)} Of {rounds} rounds.\n")
    found = []
    for kind, name in KINDS:
        least = [min(each) for each in zip(*(times(program, name) for _ in range(rounds)))]
        found.append([f"{kind} ids", f"{(max(least) - statistics.median(least)) * 1000:.2f} ms", "1 ms"])
    print(table(["while 1 to 4 million messages are taken", "the longest put", "goal"], found))


if __name__ == "__main__":
    main()
