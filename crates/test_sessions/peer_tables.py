#!/usr/bin/env python3
"""Writes the tables of peer lines in data/, each with what arrives with the line by the plain reader of
tests/harness/peer_lines.py. The gate doesn't run it; it plays what it wrote.

    ./peer_tables.py     writes data/peer_limits, data/peer_gathers, data/peer_exchanges
"""

import os
import sys

FOLDER = os.path.dirname(os.path.abspath(__file__))
sys.path.insert(0, os.path.join(FOLDER, "..", "..", "tests"))
sys.dont_write_bytecode = True

from harness.peer_lines import GREATEST, GREATEST_MOMENT, LINE_LIMIT, LINES, WORD, arrivals, head, probe  # noqa: E402


# ---- limits

def post(network="net", target="#a", id="m1", ms=1, to="#a", source="bob!b@h", body="hi"):
    return f"C POST demo {network} {target} {id} {ms} P {to} {source} :{body}"


def tagged(tags):
    return f"C TPOST demo net #a m1 1 P {tags} #a bob!b@h :hi"


def longest_body(source, to):
    return LINE_LIMIT - len(f":{source} PRIVMSG {to} :")


def limit_lines():
    yield from LINES
    for n in (64, 65):
        yield "W " + "w" * n
    yield "W w w"
    for n in (32, 33):
        yield f"H 1 {'n' * n} 1"
        yield f"A {'n' * n} 1 n2 1 0"
        yield f"A n1 1 {'n' * n} 1 0"
        yield f"C MARK {'d' * n} net #a 1"
        yield f"C MARK demo {'n' * n} #a 1"
        yield f"C AFLOOR {'d' * n} 1"
    for n in (GREATEST, GREATEST + 1, 10 ** 20, 2 ** 128):
        yield f"H 1 n1 {n}"
        yield f"A n1 {n} n2 1 0"
        yield f"A n1 1 n2 {n} 0"
        yield f"A n1 1 n2 1 {n}"
        yield f"D n1 1 n2 1 0 {n} 1"
        yield f"D n1 1 n2 1 {n} {n} 1"
        yield f"D n1 1 n2 1 0 2 {n}"
    yield f"D n1 1 n2 1 {GREATEST - 1} {GREATEST} 1"
    yield f"D n1 1 n2 1 {GREATEST} {GREATEST} 1"
    yield f"D n1 1 n2 1 {GREATEST} 0 1"
    for span in ("0 1", "1 1", "2 1", "255 256", "256 256"):
        yield f"D n1 1 n2 1 {span} 1"
    for n in (0, 1, 255, 256, 257, 512):
        yield f"D n1 1 n2 1 0 300 {n}"
    for n in (GREATEST_MOMENT, GREATEST_MOMENT + 1, GREATEST):
        yield f"C MARK demo net #a {n}"
        yield f"C FLOOR demo net #a {n}"
        yield f"C AFLOOR demo {n}"
        yield f"C REDACT demo net #a m1 {n}"
        yield post(ms=n)
    for n in (200, 201):
        yield f"C MARK demo net {'#' * n} 1"
        yield post(target="#" * n)
        yield post(to="#" * n)
    for n in (255, 256):
        yield f"C REDACT demo net #a {'m' * n} 1"
        yield post(id="m" * n)
        yield post(source="s" * n)
    for n in (4094, 4095):
        yield tagged("+" + "x" * (n - 1))
    for text in ("+", "+x=1;+y", "+x=\\:\\s\\\\\\r\\n", "+x==y", "+y=", "y=1", "+x;+x=1", "+x;", ";+x", "+x=\\",
                 "+x=\\b", "", "+x +y"):
        yield tagged(text)
    for source, to in (("bob!b@h", "#a"), ("s" * 255, "#" * 200)):
        for more in (0, 1):
            yield post(source=source, to=to, body="b" * (longest_body(source, to) + more))
    for version_text in ("", "0", "1", "2", "3", "4", "9", "00", "01", "02", "03", "10", "11", "12", "13", "20", "21", "22",
                         "30", "33", "+1", "-1", "+2", "+3", "1.0", "2.", "3.0", "0x2", "0x3", "0b1", "*", "1_", "a", "n1",
                         str(2 ** 8 + 1), str(2 ** 8 + 3), str(2 ** 32 + 1), str(2 ** 32 + 3), str(2 ** 64 + 1),
                         str(2 ** 64 + 3)):
        yield f"H {version_text} n1 1"
    for number in ("00", "01", "+1", "-1", "1.0", "0x1", "1_0", "1e1"):
        yield f"H 1 n1 {number}"
        yield f"C MARK demo net #a {number}"
        yield f"C AFLOOR demo {number}"
        yield f"D n1 1 n2 1 0 2 {number}"
    for other in ("", " ", "W", "W ", "H", "H 1", "H 3", "H 1 n1", "H 3 n1", "H n1 1", "H 1 n1 1 1", "H 3 n1 1 1", "H 1 3 n1 1", "h 1 n1 1", "D",
                  "D n1 1 n2 1 0 2", "D n1 1 n2 1 0 2 2 2", "A n1 1 n2 1", "A n1 1 n2 1 0 0", "C", "C POST", "C MARK",
                  "C PART demo net #a 1", "C mark demo net #a 1", "C MARK demo net #A 1", "C MARK demo net #a 1 ",
                  "C MARK demo net  1", "C REDACT demo net #a m1", "C REDACT demo net #a m1 **", "C FLOOR demo net * 1",
                  "C AFLOOR", "C AFLOOR demo", "C AFLOOR demo ", "C AFLOOR  1", "C AFLOOR demo  1", "C AFLOOR demo 1 ",
                  "C AFLOOR demo 1 2", "C AFLOOR demo net #a 1", "C AFLOOR Demo 1", "C AFLOOR de.mo 1", "C AFLOOR demo *",
                  "C afloor demo 1", "C FLOOR demo 1", "C TPOST demo net #a m1 1 P #a bob!b@h :hi",
                  "C POST demo net #a m1 1 P +x #a bob!b@h :hi",
                  "X n1 1", "WW green", "W\tgreen"):
        yield other


def rows(lines):
    """Each line with what arrives with it."""
    return (f"{letter} {line}".encode() for letter, line in zip(arrivals(lines), lines))


def limits_table():
    yield b"== limits"
    yield from rows([other for line in limit_lines() for other in probe(line)])


# ---- lines that come over one connection

MARK = "C MARK demo net #a 1"
HELLO, ACK = "H 3 n1 1", "A n2 1 n1 1 5"

CONNECTIONS = {
    "words, hellos and acknowledgements arrive by themselves": [WORD, HELLO, ACK, WORD],
    "a packet arrives with the last of its changes": [head(3), MARK, MARK, MARK, WORD],
    "a change without a head": [MARK, head(1), MARK, MARK],
    "no change is missing behind 256 of them": [head(256)] + [MARK] * 256 + [HELLO],
    "a head of 256 changes, and a hello behind it": [head(256), HELLO, MARK, head(1), MARK],
    "a head that is refused opens no packet": [head(257), MARK, head(1), MARK],
    "a head from where it ends opens no packet": ["D n1 1 n2 1 5 5 1", MARK, head(1), MARK],
    "a packet of each kind of change": ["D n1 12 n2 3 0 8 8"] + [*LINES[3:11]] + [MARK, ACK],
    "two packets in turn": [head(2), MARK, MARK, head(1), MARK],
}
for word, line in (("word", WORD), ("hello", HELLO), ("head", head(1)), ("acknowledgement", ACK)):
    CONNECTIONS[f"a {word} in place of the first change, and then a whole packet"] = \
        [head(2), line, head(2), MARK, MARK]
    CONNECTIONS[f"a {word} in place of the last change, and then a whole packet"] = \
        [head(2), MARK, line, head(2), MARK, MARK]


# ---- packets of which a byte is replaced, or that are cut off; behind each comes a word, and then the packet as it is

PACKETS = (
    ["D n2 1 n1 7 0 2 2", "C MARK demo net #a 1", "C MARK demo net #b 1"],
    ["D n2 1 n1 7 0 2 2", "C TPOST demo net #a m1 1 P +x #a b :hi", "C AFLOOR demo 1"],
)
REPLACED = "\0\r\n "


def broken_packets():
    for lines in PACKETS:
        text = "\n".join(lines)
        for at in range(len(text)):
            for front in [text[:at]] + [text[:at] + byte + text[at + 1:] for byte in REPLACED]:
                # (a CR at the end of a line is its ending)
                if "\r\n" not in front and not front.endswith("\r"):
                    yield [*front.split("\n"), WORD, *lines]
    for version in "123":
        hello = f"H {version} n1 1"
        for at in range(len(hello)):
            for byte in ["", *REPLACED]:
                front = hello[:at] + byte + hello[at + 1:] if byte else hello[:at]
                if not front.endswith("\r"):
                    yield [*front.split("\n"), WORD, *PACKETS[0]]


def gathers_table():
    for name, lines in CONNECTIONS.items():
        yield f"== {name}".encode()
        yield from rows(lines)
    # (a case ends with a whole packet, so the next one begins with a gather that is empty)
    yield b"== broken packets, each with a whole one behind it"
    for lines in broken_packets():
        assert list(arrivals(lines))[-len(PACKETS[0]):] == [".", ".", "P"]
        yield from rows(lines)


# ---- two nodes that are connected, as the part "Between nodes" of docs/PROTOCOL.md has them

DELTA_LIMIT = 256


class Node:
    """A node in a life, and each of whose changes is a marker of a buffer of its own. What it hears comes to a word, and to what it
    sends."""

    def __init__(self, me, peer, changes):
        self.me, self.peer, self.changes = me, peer, list(changes)
        self.acked = 0
        self.is_known = self.is_due = False
        self.under_way = None
        self.missing, self.end = 0, None

    def greeting(self):
        return [WORD, f"H 3 {self.me}"]

    def next_packet(self):
        if not self.is_known or not self.is_due or self.under_way is not None:
            return []
        self.is_due = False
        newer = self.changes[self.acked:self.acked + DELTA_LIMIT]
        if not newer:
            return []
        self.under_way = self.acked + len(newer)
        return [f"D {self.me} {self.peer} {self.acked} {self.under_way} {len(newer)}"] + newer

    def acknowledge(self, upto):
        self.acked, self.is_due = max(self.acked, upto), True
        if upto == self.under_way:
            self.under_way = None

    def take(self, change):
        if change not in self.changes:
            self.changes.append(change)
        self.missing -= 1
        if self.missing:
            return "", []
        self.is_due = True
        return "taken", [f"A {self.me} {self.peer} {self.end}"]

    def hear(self, line, greets):
        words, word, sent = line.split(" "), "", []
        if words[0] == "H":
            word, sent = "known", self.greeting() if greets else []
            self.is_known = self.is_due = True
        elif words[0] == "D":
            self.end, self.missing = words[6], int(words[7])
        elif words[0] == "C":
            word, sent = self.take(line)
        elif words[0] == "A":
            word = "known"
            self.acknowledge(int(words[5]))
        return word, sent + self.next_packet()


def exchanged(node, other, opens):
    """What a node hears from the other one until both are silent, line by line, each with what comes of it. One of them opens the
    connection."""
    to_other = node.greeting() if opens else []
    to_node = [] if opens else other.greeting()
    yield ("open", "", to_other) if opens else ("accept", "", [])
    while to_other or to_node:
        for line in to_node:
            word, sent = node.hear(line, not opens)
            yield f"< {line}", word, sent
            to_other += sent
        to_node = [reply for line in to_other for reply in other.hear(line, opens)[1]]
        to_other = []
    yield "?", "", []


def exchanges_table():
    for first, second in ((0, 0), (1, 0), (300, 0), (300, 10)):
        ours = [f"C MARK demo net #a-{i} 5" for i in range(first)]
        theirs = [f"C MARK demo net #b-{i} 5" for i in range(second)]
        for opens, held, others in ((True, ours, theirs), (False, theirs, ours)):
            node, other = Node("n1 7", "n2 1", held), Node("n2 1", "n1 7", others)
            turns = list(exchanged(node, other, opens))
            yield f"== {len(held)} changes of the node that {'opens' if opens else 'accepts'}, and {len(others)}".encode()
            yield from (f". {change}".encode() for change in held)
            yield from (line.encode() for line, _, _ in turns)
            yield b"--"
            for _, word, sent in turns:
                yield from (line.encode() for line in ([word] if word else []) + [f"> {it}" for it in sent])
            assert sorted(node.changes) == sorted(other.changes) == sorted(ours + theirs)
            yield f"front {len(node.changes)}".encode()


TABLES = {"limits": limits_table, "gathers": gathers_table, "exchanges": exchanges_table}


def main():
    for name, table in TABLES.items():
        with open(os.path.join(FOLDER, "data", f"peer_{name}"), "wb") as out:
            for row in table():
                out.write(row + b"\n")


if __name__ == "__main__":
    main()
