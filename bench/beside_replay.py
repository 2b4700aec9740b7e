#!/usr/bin/env python3
"""Measures `bnc replay` beside the same in plain Rust (bench/plain/replay.rs): a script of 1,000,000 posts, and questions over
10,000 buffers of one account. Both programs get the same scripts, and have to print the same bytes.

    bench/beside_replay.py PROGRAM [ROUNDS]      5 rounds if nothing else is said

It needs rustc. In each round the programs run one right after the other, on one processor; of all rounds the least counts.
What questions take is the processor time of a script with them less that of the same script without them.
"""
import hashlib
import os
import random
import subprocess
import sys
import tempfile
from datetime import datetime, timezone

from beside_plain import plain
from machine import name_of_run, table

WORDS = ["replay", "demo", "net", "al"]
BODY = "a body of forty bytes, as many lines are"
POSTS, BUFFERS, EACH = 1_000_000, 10_000, 10
# Some moments in milliseconds: of the first post, of the last one where each of many buffers has one, and one behind all.
FIRST, END = 1_763_912_345_678, 1_800_000_000_000
LAST = FIRST + BUFFERS - 1


def time_of(ms):
    """A moment as a selector has it."""
    return f"timestamp={datetime.fromtimestamp(ms // 1000, timezone.utc):%Y-%m-%dT%H:%M:%S}.{ms % 1000:03}Z"


def post(number, buffer):
    return f"C POST demo net {buffer} n1-{FIRST}-{1_000_000_000_000 + number} {FIRST + number} P {buffer} bob!b@h :{BODY}\n"


def buffers():
    """The targets of the buffers, in no order."""
    names = [f"#room{number}" for number in range(BUFFERS)]
    random.Random(1).shuffle(names)
    return names


def targets(one, other, limit, count=200):
    return [f"CHATHISTORY TARGETS {time_of(one)} {time_of(other)} {limit}\n"] * count


def latest(names, count=50_000):
    anywhere = random.Random(2)
    return [f"CHATHISTORY LATEST {anywhere.choice(names)} * 100\n" for _ in range(count)]


def asked_of(names):
    """What is asked: in words, of how many messages in each buffer, and the lines."""
    return (
        (f"TARGETS: the first 100 of {BUFFERS:,}", 1, targets(FIRST - 1, END, 100)),
        (f"TARGETS: the last 100 of {BUFFERS:,}", 1, targets(END, FIRST - 1, 100)),
        ("TARGETS: the last one of them", 1, targets(END, FIRST - 1, 1)),
        ("TARGETS: 100 that had a message lately", 1, targets(LAST - 100, END, 100)),
        ("TARGETS: none that had one since", 1, targets(LAST, END, 100)),
        (f"LATEST: {EACH} messages of a buffer anywhere", EACH, latest(names)),
    )


def write(path, *parts):
    with open(path, "w", encoding="ascii") as file:
        for part in parts:
            file.writelines(part)
    return path


def run(program, script):
    """The processor seconds of a run, and the bytes that it took at most."""
    with open(script, "rb") as file:
        begun = subprocess.Popen([*program, *WORDS], stdin=file, stdout=subprocess.DEVNULL)
        _, status, use = os.wait4(begun.pid, 0)
    begun.returncode = status
    if status:
        sys.exit(f"{program}: status {status}")
    return use.ru_utime + use.ru_stime, use.ru_maxrss * 1024


def printed(program, script):
    """What a program prints, by its digest."""
    with open(script, "rb") as file:
        ran = subprocess.run([*program, *WORDS], stdin=file, stdout=subprocess.PIPE, check=True)
    return hashlib.sha256(ran.stdout).digest()


def print_alike(programs, script):
    ours, theirs = (printed(it, script) for it in programs)
    if ours != theirs:
        sys.exit(f"the two programs print different bytes for {script}")


def least(programs, scripts, rounds):
    """The least seconds and bytes of each program over each script, by rounds in which all of them run."""
    rows = [[[run(program, script) for script in scripts] for program in programs] for _ in range(rounds)]
    return [[[min(figure) for figure in zip(*cell)] for cell in zip(*row)] for row in zip(*rows)]


def whole_script(programs, folder, rounds):
    """Rows on a script of posts to one channel and a page of them."""
    page = ["CHATHISTORY LATEST #a * 100\n"]
    script = write(f"{folder}/posts", (post(number, "#a") for number in range(POSTS)), page)
    print_alike(programs, script)
    ((ours, our_room),), ((theirs, their_room),) = least(programs, [script], rounds)
    return [
        (f"{POSTS:,} posts to one channel and a page of 100", f"{ours:.2f} s", f"{theirs:.2f} s", f"{ours / theirs:.2f}", ""),
        (".. memory at most", f"{our_room / 1e6:.0f} MB", f"{their_room / 1e6:.0f} MB", f"{our_room / their_room:.2f}", ""),
    ]


def questions(programs, folder, rounds):
    """A row for each kind of question over many buffers."""
    names = buffers()
    for what, each, lines in asked_of(names):
        many = [post(number, names[number % BUFFERS]) for number in range(BUFFERS * each)]
        bare = write(f"{folder}/bare", many)
        script = write(f"{folder}/asked", many, lines)
        print_alike(programs, script)
        runs = least(programs, [bare, script], rounds)
        ours, theirs = ((asked[0] - posted[0]) * 1e6 / len(lines) for posted, asked in runs)
        yield what, f"{ours:.1f} us", f"{theirs:.1f} us", f"{ours / theirs:.2f}", 1.3


def main():
    program = [os.path.abspath(sys.argv[1])]
    rounds = int(sys.argv[2]) if len(sys.argv) > 2 else 5
    head = name_of_run(program[0])
    os.sched_setaffinity(0, {max(os.sched_getaffinity(0))})
    heads = ("bnc replay", "plain Rust", "ratio", "goal")
    with tempfile.TemporaryDirectory() as folder:
        programs = program, plain("replay", folder)
        print(f"{head} The least of {rounds} rounds by turns.\n")
        print(table(("a script", *heads), whole_script(programs, folder, rounds)), flush=True)
        print("\n" + table(("a question", *heads), questions(programs, folder, rounds)), flush=True)


if __name__ == "__main__":
    main()
