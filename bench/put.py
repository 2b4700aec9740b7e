#!/usr/bin/env python3
"""Counts the instructions by which a message is put into a shared node, and those by which one state takes it; and what a
relayed line takes, part by part, where each comes alone and where many come at once.

    bench/put.py PROGRAM

It needs valgrind. Of `bnc serve` it counts what `SharedNode::put` takes with all that it calls, for each message of the network's
server; of `bnc replay` what `State::absorb` takes, for each post of a script. The texts are the same, and the ids are of one
length. Messages behind as many others are counted. Instructions are no time: what waits for memory isn't seen.
"""
import os
import re
import subprocess
import sys
import tempfile

from beside_znc import Clients, begin, flood, message
from machine import name_of_run, table

LINES = 5000
# How many lines come at once, as a line of the table says it.
AT_ONCE = ((1, "one at a time"), (200, "200 at once"))
# What is counted goes by the names of functions, each with its crate first. The compiler may put a function into its callers: the
# first is taken that the program has, and those behind it do a little more or less. Names of one crate that stand together are one
# function by turns.
PUT = (("shared_node", "put", "put_now"), ("worker_pass", "put"), ("hosted_network", "put"))
ABSORB = (("chat_state", "absorb", "absorb_copy"), ("chat_state", "absorb_by_form"), ("chat_state", "absorb_new"))
# What a line that is relayed to one client comes to, each part with all that it calls. A message waits for the turn's end, and is
# told then with those behind it.
PARTS = (
    ("it is read, and its session takes it",
     (("network_server", "hear"), ("hosted_network", "server_hears"), ("hosted_network", "server_step"), ("upstream_session", "step"),
      ("upstream_session", "serve"), ("upstream_session", "message"), ("upstream_session", "serve_message"),
      ("upstream_session", "post"))),
    ("it is put into the node", PUT),
    ("it is told to the client", (("hosted_network", "tell_all"), ("hosted_network", "tell_parts"), ("hosted_network", "tell_at"))),
)
ALL = (("bnc_work", "try_work", "turn"), ("bnc_work", "work"))
# (where none of these is there: what comes of a server's line stands within its turn)
SERVED = (*ALL, ("bnc_work", "serve_server", "server_turn"))


def functions(log):
    """The functions in a file of callgrind, each with its instructions and those of all that it calls."""
    words = ["callgrind_annotate", "--inclusive=yes", "--threshold=100", log]
    told = subprocess.run(words, capture_output=True, text=True, check=True)
    rows = re.findall(r"^\s*([\d,]+) .*?:(\S.*?)(?: \[[^\]]*\])?$", told.stdout, re.MULTILINE)
    # (a name may end with what tells it from others of its name)
    return [(re.sub(r"::h[0-9a-f]{16}|\.llvm\.\d+|\.cold|'\d+", "", name), int(count.replace(",", ""))) for count, name in rows]


def is_of(name, crate, calls):
    """Whether it is one of these functions of a crate, for whatever types. What stands within one is none."""
    return re.fullmatch(rf"\W*{crate}\b.*::(?:{'|'.join(calls)})(?:::<.*>)?", name)


def first_of(wanted, log):
    """The first of the functions that the program has, as it is shown, and its instructions with all that it calls."""
    rows = functions(log)
    for crate, *calls in wanted:
        counts = [count for name, count in rows if is_of(name, crate, calls)]
        if counts:
            return f"{' or '.join(calls)} of {crate}", max(counts)
    crates = {crate for crate, *_ in wanted}
    there = [name for name, _ in rows if re.match(rf"\W*(?:{'|'.join(crates)})\b", name)]
    sys.exit("\n    ".join([
        f"{log} has none of these functions:", *(f"{' or '.join(calls)} of {crate}" for crate, *calls in wanted),
        "These of the crates are there, the greatest first; one of them has to stand in bench/put.py:", *(there[:40] or ["none"]),
    ]))


def instructions(wanted, log):
    """The instructions of the first of the functions that the program has."""
    return first_of(wanted, log)[1]


def callgrind(log):
    return ["valgrind", "--quiet", "--tool=callgrind", f"--callgrind-out-file={log}"]


def served(program, log, say):
    """Lines of the server or of one client are said to a node whose instructions are counted."""
    bouncer, server = begin("bnc", program, before=callgrind(log))
    try:
        clients = Clients(bouncer, 1)
        clients.settle(2)
        clients.reset()
        say(server, clients)
        bouncer.process.terminate()
        bouncer.process.wait()
    finally:
        bouncer.stop()
        server.close()


def serve(program, log, count, at_once):
    """The server says so many messages, so many of them at once."""
    served(program, log, lambda server, clients: flood(server, clients, count, at_once))


def replay(program, log, count, _at_once):
    """A state takes so many posts."""
    first, serial = 1_763_912_345_678, 1_000_000_000_000
    posts = []
    for number in range(count):
        source, _, target, text = message(number).decode().rstrip("\r\n")[1:].split(" ", 3)
        posts.append(f"C POST demo net {target} n1-{first}-{serial + number} {first + number} P {target} {source} {text}\n")
    subprocess.run([*callgrind(log), program, "replay", "demo", "net", "al"], input="".join(posts).encode(), check=True)


def each(run, program, folder, at_once, *parts):
    """Of each of these parts the function that was counted, and its instructions for a message behind as many others."""
    logs = [(f"{folder}/{run.__name__}-{at_once}-{count}", count) for count in (LINES, 2 * LINES)]
    for log, count in logs:
        run(program, log, count, at_once)
    for wanted in parts:
        (name, less), (other, more) = (first_of(wanted, log) for log, _ in logs)
        if name != other:
            sys.exit(f"{name} was counted first, and then {other}")
        yield name, (more - less) / LINES


def parts_of(program, folder, at_once):
    """The functions and the instructions of a relayed line, by its parts, the rest and as a whole."""
    (name, whole), *parts = each(serve, program, folder, at_once, SERVED, *(wanted for _, wanted in PARTS))
    return [*parts, ("", whole - sum(count for _, count in parts)), (name, whole)]


def main():
    program = os.path.abspath(sys.argv[1])
    with tempfile.TemporaryDirectory() as folder:
        # (the bouncer isn't run by root)
        os.chmod(folder, 0o777)
        lines = [parts_of(program, folder, at_once) for at_once, _ in AT_ONCE]
        [(_, taken)] = each(replay, program, folder, 1, ABSORB)
    _, put = lines[0][[wanted for _, wanted in PARTS].index(PUT)]
    print(f"{name_of_run(program)} Over {LINES:,} messages after as many others.\n")
    print(table(["put into a shared node", "taken by one state", "ratio", "goal"], [
        [f"{put:,.0f} instructions a message", f"{taken:,.0f}", f"{put / taken:.2f}", 1.6],
    ]) + "\n")
    heads = ["a line that is relayed to one client", "function"]
    for _, how in AT_ONCE:
        heads += [f"instructions, {how}", "of all"]
    rows = []
    for what, *counted in zip([*(what for what, _ in PARTS), "the rest", "all"], *lines):
        names = dict.fromkeys(name for name, _ in counted)
        cells = (cell for (_, count), parts in zip(counted, lines) for cell in (f"{count:,.0f}", f"{100 * count / parts[-1][1]:.0f} %"))
        rows.append([what, ", then ".join(names), *cells])
    print(table(heads, rows))


if __name__ == "__main__":
    main()
