#!/usr/bin/env python3
"""Measures lines and states beside the same in plain Rust, and prints the tables of docs/PERFORMANCE.md.

    bench/beside_plain.py PROGRAM ROUNDS

PROGRAM is crates/test_state/out/test_state, as `rt run` in that crate builds it. Plain Rust is built by rustc from bench/plain.
Each figure is the median of so many rounds; in each round the two programs run one right after the other, on one processor.
"""

import os
import re
import statistics
import subprocess
import sys
import tempfile

from machine import name_of_run, table

HERE = os.path.dirname(os.path.realpath(__file__))
MOST = 1_000_000

# What is measured: a name, the words for the program, those with which little is held, and the most that it should take
# beside plain Rust.
LINES = (("4,096 bytes", ("lines", 4096, 1000), 1.1), ("1 byte", ("lines", 1, 1000), 1.1))
STATES = (
    ("taking a message that is the newest", ("newest", MOST, 100_000), ("newest", 1000, 100_000), ""),
    ("taking messages in no order of time", ("mixed", MOST, 100_000), ("mixed", 1000, 100_000), ""),
    ("a page of 100 of the newest, as a client asks for it", ("latest", MOST, 10_000), ("latest", 1000, 10_000), 1.5),
    ("a page of 100 anywhere, as a client asks for it", ("before", MOST, 10_000), ("before", 1000, 10_000), 2.5),
    ("a delta of 256 (after 200,000, and after 2,000)", ("delta", 200_000, 1000), ("delta", 2000, 1000), ""),
    ("a floor that lets half of 1,000,000 messages in 1,000 buffers go, for each buffer", ("floor", MOST, 1000), None, 1.5),
)


def plain(name, folder):
    """Builds a program of plain Rust: the words that begin it."""
    to = f"{folder}/{name}"
    subprocess.run(["rustc", "-O", "--edition", "2021", "-o", to, f"{HERE}/plain/{name}.rs"], check=True)
    return [to]


def run(program, words):
    """Runs a program, and gives the nanoseconds that it tells and the bytes that it took at most."""
    begun = subprocess.Popen([*program, *map(str, words)], stdout=subprocess.PIPE, text=True)
    said = begun.stdout.read()
    _, status, use = os.wait4(begun.pid, 0)
    begun.returncode = status
    found = re.search(r": (\d+) ns each", said)
    if begun.returncode or not found:
        sys.exit(f"{program} {words}: {said!r}")
    return int(found[1]), use.ru_maxrss * 1024


def medians(pairs, rounds):
    """The medians of what each pair of a program and its words takes, measured in turns."""
    runs = [[run(*pair)[0] for pair in pairs] for _ in range(rounds)]
    return [statistics.median(it) for it in zip(*runs)]


def ratio(one, other):
    return f"{one / other:.2f}" if other else ""


def main():
    if len(sys.argv) != 3:
        sys.exit(__doc__)
    program, rounds = [sys.argv[1], "speed"], int(sys.argv[2])
    head = name_of_run(sys.argv[1])
    os.sched_setaffinity(0, {max(os.sched_getaffinity(0))})
    with tempfile.TemporaryDirectory() as folder:
        lines, state = plain("lines", folder), plain("state", folder)
        print(f"{head} Medians of {rounds} rounds.\n")
        rows = [(what, ratio(*medians([(program, words), (lines, words)], rounds)), goal) for what, words, goal in LINES]
        print(table(("pieces of", "proved : plain Rust", "goal"), rows), flush=True)
        rows = []
        for what, many, few, goal in STATES:
            pairs = [(program, many), (state, many), *([(program, few)] if few else [])]
            ours, theirs, *little = medians(pairs, rounds)
            rows.append((what, f"{ours / 1000:.1f} us", ratio(ours, little[0]) if few else "", ratio(ours, theirs), goal))
        print("\n" + table(("what", "takes", "with much held : with little", "proved : plain Rust", "goal"), rows), flush=True)
        words = ("newest", MOST, 0)
        ours, theirs = (round(run(it, words)[1] / MOST) for it in (program, state))
        print("\n" + table(("a message of 40 bytes in memory", "plain Rust"), [(f"{ours} bytes", f"{theirs} bytes")]))


if __name__ == "__main__":
    main()
