#!/usr/bin/env python3
"""Makes the table of goals that aren't reached, at the head of docs/PERFORMANCE.md, from the tables below it, as the other scripts
print them.

    bench/goals.py            writes it anew
    bench/goals.py --check    says whether it is as it would be written, by the status
"""

import os
import re
import sys

PAGE = os.path.join(os.path.dirname(os.path.dirname(os.path.abspath(__file__))), "docs", "PERFORMANCE.md")
BEGIN, END = "<!-- bench/goals.py makes what follows -->\n", "<!-- to here -->\n"

# What has a goal: its name, the first head of its table, the column, a pattern for its rows, and the goal with its unit. A goal
# is a greatest figure, but for those that begin with `at least`.
GOALS = (
    ("relay to 1 client by turns, lines for a processor second : ZNC's", "clients", "ZNC : bnc", "1", "at least 6"),
    ("relay to 10 clients : ZNC's", "clients", "ZNC : bnc", "10", "at least 10"),
    ("relay to 100 clients : ZNC's", "clients", "ZNC : bnc", "100", "at least 20"),
    ("a line beside 1,500 silent clients of another account : beside none", "a line", "ratio", ".*1,500.*", "1.1"),
    ("lines with four workers : with one", "workers", "lines a second : one worker's", "4", "at least 2.2"),
    ("playback, lines for a processor second : ZNC's", "what", "ratio of the medians", "playback.*", "at least 14"),
    ("99 of 100 lines to 10 clients take at most : ZNC's", "a line to one of 10 clients", "99 of 100 : ZNC's", "bnc", "0.5"),
    ("a line that comes alone : a loop in C", "lines at once", "ratio, and its range", "1", "4"),
    ("20 lines at once : a loop in C", "lines at once", "ratio, and its range", "20", "4"),
    ("200 lines at once : a loop in C", "lines at once", "ratio, and its range", "200", "4"),
    ("a message that a running node holds", "messages that are held", "each", "100,000", "450 bytes"),
    ("an idle client that was sent more than its ring, 20 lines at once", "lines at once", "all in all", "20", "2.5 kB"),
    ("the same, 200 lines at once", "lines at once", "all in all", "200", "2.5 kB"),
    ("a put into a shared node : a change of one state", "put into a shared node", "ratio", ".*", "1.6"),
    ("a change of a packet that brings nothing new", "what", "figure", "a change of a packet.*", "1 us"),
    ("a node that joins 1,000,000 messages is level", "what", "figure", "a second node.*", "10 s"),
    ("the longest wait for a PONG while a node joins", "what", "figure", "the longest wait.*", "50 ms"),
    ("`CHATHISTORY TARGETS` of 10,000 buffers : plain Rust", "a question", "ratio", "TARGETS.*", "1.3"),
    ("`CHATHISTORY LATEST` of one of them : plain Rust", "a question", "ratio", "LATEST.*", "1.3"),
    ("a server's line with five tags : one without", "line", "to the line before it", ".*with five", "1.4"),
    ("a line with a random id : one with a rising id, 1,000,000 held", "held", "ratio", "1,000,000", "2"),
    ("lines with random ids, 1,000,000 held, for a processor second : ZNC's", "held", "ZNC : random ids", "1,000,000", "at least 4"),
    ("a floor that lets 1,000,000 messages with rising ids go", "a floor that lets 1,000,000 messages go", "processor time", "rising.*",
     "0.1 s"),
    ("the same with random ids", "a floor that lets 1,000,000 messages go", "processor time", "random.*", "0.15 s"),
    ("the longest put while 1 to 4 million messages are taken", "while 1 to 4 million messages are taken", "the longest put", ".*", "1 ms"),
    ("a keeper appends 1,000,000 messages", "what", "figure", "1,000,000 messages of 40.*", "60 s"),
    ("a keeper reads them at its start", "what", "figure", "read at the start", "5 s"),
    ("in its file, a message", "what", "figure", "in the file.*", "200 bytes"),
    ("a keeper's memory : that of one state", "what", "figure", "memory : .*", "1.2"),
    ("a node with a keeper, restarted alone, is level", "what", "figure", "a node restarted alone.*", "5 s"),
)


def cells_of(line):
    return [it.strip() for it in line.strip().strip("|").split("|")]


def tables_of(text):
    """Each table's heads, and its rows."""
    tables, rows = [], []
    for line in [*text.splitlines(), ""]:
        if line.startswith("|"):
            rows.append(cells_of(line))
        elif rows:
            tables.append((rows[0], rows[2:]))
            rows = []
    return tables


def figures(tables, first, column, pattern):
    """The cells of a column in the rows whose first cell has that form, each without its range."""
    found = []
    for heads, rows in tables:
        if heads[0] == first and column in heads:
            at = heads.index(column)
            found += [re.sub(r" \(.*\)", "", row[at]) for row in rows if re.fullmatch(pattern, row[0])]
    return found


def number_in(text):
    return float(re.search(r"[0-9]+(\.[0-9]+)?", text.replace(",", ""))[0])


def row_of(tables, goal):
    """The row of a goal that isn't reached."""
    name, first, column, pattern, wanted = goal
    found = sorted(figures(tables, first, column, pattern), key=number_in)
    if not found:
        sys.exit(f"goals: no table has {name!r}")
    # (of several rows the first and the last figure are told, and each has to reach the goal)
    told = found[0] if len(found) == 1 else f"{found[0]} to {found[-1]}"
    least = wanted.startswith("at least")
    is_reached = number_in(found[0]) >= number_in(wanted) if least else number_in(found[-1]) <= number_in(wanted)
    return None if is_reached else f"| {name} | {told} | {wanted} |"


def main(words):
    with open(PAGE, encoding="utf-8") as it:
        text = it.read()
    before, _, rest = text.partition(BEGIN)
    _, _, behind = rest.partition(END)
    tables = tables_of(behind)
    missed = filter(None, (row_of(tables, it) for it in GOALS))
    rows = ["", "| what | figure | goal |", "|---|---|---|", *missed, ""]
    made = before + BEGIN + "\n".join([*rows, ""]) + END + behind
    if words == ["--check"]:
        sys.exit(made != text)
    if words:
        sys.exit(__doc__)
    with open(PAGE, "w", encoding="utf-8") as it:
        it.write(made)


if __name__ == "__main__":
    main(sys.argv[1:])
