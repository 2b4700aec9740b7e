#!/usr/bin/env python3
"""Writes the tables of queries of this folder, each with the answers of a plain program: filter, sort and cut over a list of
changes, as the IRCv3 specification draft/chathistory words them. tests/run doesn't run it; it plays what it wrote.

    ./tables.py          writes pages, between, targets, refusals, lengths, orders, limits, extents, escapes
"""

import os
import random
from datetime import datetime, timedelta

CLUSTER = ":bnc.example"
MAXIMUM = 100


def time_text(ms):
    moment = datetime(1970, 1, 1) + timedelta(milliseconds=ms)
    return moment.strftime("%Y-%m-%dT%H:%M:%S.") + "%03dZ" % (ms % 1000)


class History:
    """Changes, as they were given."""

    def __init__(self):
        self.lines = []
        self.posts = []
        self.redactions = []
        self.floors = {}
        self.account_floors = [0]

    def post(self, target, id, ms, body):
        self.lines.append(f"C POST demo net {target} {id} {ms} P {target} bob!b@h :{body}")
        self.posts.append((target, id, ms, body))

    def redact(self, target, id, ms=None):
        self.lines.append(f"C REDACT demo net {target} {id} {'*' if ms is None else ms}")
        self.redactions.append((target, id, ms))

    def floor(self, target, ms):
        self.lines.append(f"C FLOOR demo net {target} {ms}")
        self.floors[target] = max(ms, self.floors.get(target, 0))

    def account_floor(self, ms, account="demo"):
        self.lines.append(f"C AFLOOR {account} {ms}")
        if account == "demo":
            self.account_floors.append(ms)

    def floor_of(self, target):
        """The floor in force: the greater of the buffer's own and its account's."""
        return max(self.account_floors + [self.floors.get(target, 0)])

    def visible(self, target):
        """The records that a session sees: of each id the latest post at or above the floor, unless it is redacted."""
        gone = {id for t, id, _ in self.redactions if t == target}
        shown = {}
        for t, id, ms, body in self.posts:
            if t == target and id not in gone and ms >= self.floor_of(target):
                if id not in shown or ms > shown[id][0]:
                    shown[id] = (ms, body)
        return sorted((ms, id.encode(), body) for id, (ms, body) in shown.items())

    def position(self, target, id):
        """Where a message stands, or stood: None where nothing says so."""
        moments = [ms for t, i, ms, _ in self.posts if (t, i) == (target, id)]
        moments += [ms for t, i, ms in self.redactions if (t, i) == (target, id) and ms is not None]
        moments = [ms for ms in moments if ms >= self.floor_of(target)]
        return max(moments) if moments else None


def point(history, target, selector):
    """A selector as a place between records: its moment, and its id if it names one. None for an unknown message."""
    key, value = selector
    if key == "timestamp":
        return (value, None)
    ms = history.position(target, value)
    return None if ms is None else (ms, value.encode())


def is_before(record, at):
    ms, id, _ = record
    return ms < at[0] if at[1] is None else (ms, id) < at


def is_after(record, at):
    ms, id, _ = record
    return ms > at[0] if at[1] is None else (ms, id) > at


def last(n, records):
    return records[max(0, len(records) - n):]


def page(history, sub, target, selectors, limit):
    n = min(limit, MAXIMUM)
    records = history.visible(target)
    points = [point(history, target, s) for s in selectors]
    if None in points:
        return None
    if sub == "LATEST":
        return last(n, [r for r in records if not points or is_after(r, points[0])])
    if sub == "BEFORE":
        return last(n, [r for r in records if is_before(r, points[0])])
    if sub == "AFTER":
        return [r for r in records if is_after(r, points[0])][:n]
    if sub == "AROUND":
        before = [r for r in records if is_before(r, points[0])]
        rest = [r for r in records if not is_before(r, points[0])]
        return last(n // 2, before) + rest[: n - n // 2]
    a, b = points
    rising = [r for r in records if is_after(r, a) and is_before(r, b)]
    if rising:
        return rising[:n]
    return last(n, [r for r in records if is_after(r, b) and is_before(r, a)])


def selector_text(selector):
    key, value = selector
    return f"timestamp={time_text(value)}" if key == "timestamp" else f"msgid={value}"


class Session:
    """The lines of one case, and what they are to print."""

    def __init__(self, history):
        self.history = history
        self.asked = []
        self.printed = []
        self.reference = 1

    def batch(self, kind, members):
        self.printed.append(f"{CLUSTER} BATCH +r{self.reference} {kind}")
        self.printed += [f"@batch=r{self.reference}{m}" for m in members]
        self.printed.append(f"{CLUSTER} BATCH -r{self.reference}")
        self.reference += 1

    def ask(self, sub, target, selectors, limit):
        words = [selector_text(s) for s in selectors] or ["*"]
        self.asked.append(f"CHATHISTORY {sub} {target} {' '.join(words)} {limit}")
        found = page(self.history, sub, target, selectors, limit)
        if found is None:
            self.printed.append(f"{CLUSTER} FAIL CHATHISTORY MESSAGE_ERROR {sub} {target} :No such message")
        else:
            self.batch(
                f"chathistory {target}",
                [f";msgid={id.decode()};time={time_text(ms)} :bob!b@h PRIVMSG {target} :{body}" for ms, id, body in found],
            )

    def ask_targets(self, a, b, limit):
        self.asked.append(f"CHATHISTORY TARGETS timestamp={time_text(a)} timestamp={time_text(b)} {limit}")
        latest = []
        for target in sorted({t for t, _, _, _ in self.history.posts}):
            records = self.history.visible(target)
            if records:
                latest.append((records[-1][0], target.encode()))
        low, high = min(a, b), max(a, b)
        found = sorted((ms, t) for ms, t in latest if low < ms < high)
        n = min(limit, MAXIMUM)
        found = found[:n] if a < b else last(n, found)
        self.batch(
            "draft/chathistory-targets",
            [f" {CLUSTER} CHATHISTORY TARGETS {t.decode()} {time_text(ms)}" for ms, t in found],
        )

    def refused(self, line, code, context, text):
        self.asked.append(line)
        words = " ".join(["FAIL", line.split(" ")[0].upper(), code] + context)
        self.printed.append(f"{CLUSTER} {words} :{text}")

    def case(self, name):
        return "\n".join([f"== {name}"] + self.history.lines + self.asked + ["--"] + self.printed) + "\n"


def channel():
    """Records of equal moments, one redacted, one redacted that was never posted, one below the floor."""
    history = History()
    for id, ms, body in [
        ("m1", 1000, "a"), ("m2", 1000, "b"), ("m10", 2000, "c"), ("m3", 2000, "d"), ("m4", 3000, "e"),
        ("gone", 2500, "z"), ("low", 500, "y"),
    ]:
        history.post("#a", id, ms, body)
    history.post("#b", "m1", 1500, "other")
    history.redact("#a", "gone")
    history.redact("#a", "never", 1000)
    history.redact("#a", "nowhere")
    history.floor("#a", 800)
    return history


SELECTORS = (
    [("timestamp", ms) for ms in [0, 999, 1000, 1500, 2000, 2500, 3000, 3001]]
    + [("msgid", id) for id in ["m1", "m2", "m10", "m3", "m4", "gone", "never", "nowhere", "low", "unknown"]]
)


def pages():
    for sub in ["LATEST", "BEFORE", "AFTER", "AROUND"]:
        for selector in SELECTORS:
            session = Session(channel())
            for limit in [1, 2, 5, 6, 101]:
                session.ask(sub, "#a", [selector], limit)
            yield session.case(f"{sub.lower()} {selector_text(selector)}")
    session = Session(channel())
    for limit in [1, 2, 5, 6, 101]:
        session.ask("LATEST", "#a", [], limit)
    yield session.case("latest of all")
    session = Session(History())
    for sub in ["LATEST", "BEFORE", "AFTER", "AROUND"]:
        session.ask(sub, "#none", [("timestamp", 1000)], 5)
        session.ask(sub, "#none", [("msgid", "m1")], 5)
    yield session.case("a channel without records")
    session = Session(full_channel())
    for sub, selectors in [
        ("LATEST", []), ("LATEST", [("timestamp", 1000)]), ("BEFORE", [("timestamp", 9000)]),
        ("AFTER", [("timestamp", 0)]), ("AROUND", [("msgid", "m060")]),
        ("BETWEEN", [("timestamp", 0), ("timestamp", 9000)]), ("BETWEEN", [("timestamp", 9000), ("timestamp", 0)]),
    ] + 5 * [
        ("LATEST", []),
    ]:
        session.ask(sub, "#a", selectors, 101)
    yield session.case("no more than a hundred records")


def full_channel():
    history = History()
    for i in range(150):
        history.post("#a", "m%03d" % i, 1000 + i, "x")
    return history


def between():
    for a in SELECTORS:
        session = Session(channel())
        for b in SELECTORS:
            for limit in [2, 9]:
                session.ask("BETWEEN", "#a", [a, b], limit)
        yield session.case(f"between {selector_text(a)} and others")


def targets():
    history = History()
    for target, id, ms in [
        ("#a", "m1", 1000), ("#b", "m2", 2000), ("#c", "m3", 3000), ("bob", "m4", 2000), ("#d", "m5", 4000),
        ("#gone", "m6", 2500), ("#low", "m7", 100),
    ]:
        history.post(target, id, ms, "x")
    history.post("#a", "m8", 1500, "later")
    history.redact("#gone", "m6")
    history.redact("#d", "m5")
    history.post("#d", "m9", 2000, "left")
    history.floor("#low", 101)
    session = Session(history)
    moments = [0, 1000, 1500, 1501, 2000, 2999, 3000, 4000]
    for a in moments:
        for b in moments:
            for limit in [1, 2, 101]:
                session.ask_targets(a, b, limit)
    yield session.case("buffers between two moments, both ways")
    session = Session(History())
    session.ask_targets(0, 1000, 1)
    yield session.case("no buffers")
    yield more_buffers_than_a_list_has()
    yield from buffers_in_each_order()
    yield from buffers_among_those_of_others()
    yield targets_of_each_length()


def more_buffers_than_a_list_has():
    """101 buffers. The first two have one moment, and so have the last two: at either end the target decides which one a list
    of 100 leaves out."""
    history = History()
    for number in range(101):
        history.post(f"#c{number:03}", f"m{number}", 1000 + (number + (number > 50)) // 2, "x")
    session = Session(history)
    for a, b in [(0, 9000), (9000, 0)]:
        for limit in [99, 100, 101, 1000]:
            session.ask_targets(a, b, limit)
    return session.case("a list of more buffers than it may have, both ways")


def targets_of_each_length():
    """Targets of one moment, up to the most bytes, of which each begins with the shorter ones, or differs in its last byte."""
    history = History()
    lengths = [1, 2, 14, 15, 16, 17, 28, 29, 30, 31, 32, 33, 199, 200]
    names = ["#" + "a" * (length - 1) for length in lengths] + ["#" + "a" * (length - 2) + "b" for length in lengths[1:]]
    for at, target in enumerate(names):
        history.post(target, f"m{at}", 1000, "x")
    session = Session(history)
    for limit in (1, 10, len(names) - 1, len(names), len(names) + 1):
        session.ask_targets(0, 2000, limit)
        session.ask_targets(2000, 0, limit)
    return session.case("targets of each length")


def buffers_in_each_order():
    """Twelve buffers, three of each moment, whose moments rise or fall with their targets, or do neither: whichever way they are
    come upon, a list has those that are first, or last."""
    for name, place in [
        ("rise with", lambda number: number), ("fall with", lambda number: 11 - number),
        ("go up and down with", lambda number: number * 7 % 12),
    ]:
        history = History()
        for number in range(12):
            history.post(f"#c{number:02}", f"m{number}", 1000 + place(number) // 3, "x")
        session = Session(history)
        for a, b in [(0, 9000), (9000, 0), (1000, 1003), (1003, 1000)]:
            for limit in [1, 2, 5, 6, 7, 11, 12, 13]:
                session.ask_targets(a, b, limit)
        yield session.case(f"buffers whose moments {name} their targets, cut at either end")


def buffers_among_those_of_others():
    """Buffers of other accounts and networks on both sides of those that are asked for, with early and late messages: a list has
    those of its own account and network alone, however many others it goes past."""
    for count in [1, 15, 16, 17, 33]:
        history = History()
        for account, network in [("a", "net"), ("demo", "a"), ("demo", "z"), ("z", "net")]:
            for number in range(40):
                target, ms = f"#c{number:02}", 1000 + number % 3 * 4000
                history.lines.append(f"C POST {account} {network} {target} o{number} {ms} P {target} eve!e@h :another's")
        for number in range(count):
            history.post(f"#c{number:02}", f"m{number}", 1000 if number % 8 else 5000, "x")
        session = Session(history)
        for a, b in [(0, 9999), (999, 1001), (1000, 9999), (4999, 5001), (5000, 9999), (9000, 9999)]:
            for limit in [1, 3, 100]:
                session.ask_targets(a, b, limit)
                session.ask_targets(b, a, limit)
        yield session.case(f"{count} buffers among those of other accounts and networks")


# What may be wrong with each parameter of a query, in the order in which it is told.
WORDS = {
    "target": [("a,b", True), ("*", True), ("#" + "a" * 200, True), ("#" + "a" * 199, False), ("#a", False)],
    "selector": [
        ("id=1", True), ("MSGID=m1", True), ("m1", True), ("*", True), ("timestamp", True), ("msgid=m1", False),
        ("timestamp=1970-01-01T00:00:01.000Z", False),
    ],
    "moment": [
        ("timestamp=", True), ("timestamp=1970-01-01T00:00:01Z", True), ("timestamp=1970-02-30T00:00:01.000Z", True),
        ("msgid=", True), ("msgid=:m", True), ("msgid=" + "m" * 256, True),
    ],
    "limit": [("0", True), ("x", True), ("-1", True), ("1x", True), ("00", True), ("1", False), ("0001", False)],
}


def refusals():
    """One or two faults in a line: the first in the order of the checks is told."""
    sub = "BEFORE"
    session = Session(History())
    for target, bad_target in WORDS["target"]:
        for selector, bad_selector in WORDS["selector"]:
            for limit, bad_limit in WORDS["limit"]:
                line = f"CHATHISTORY {sub} {target} {selector} {limit}"
                if bad_target:
                    session.refused(line, "INVALID_TARGET", [sub], "Invalid target")
                elif bad_selector:
                    session.refused(line, "INVALID_MSGREFTYPE", [sub], "Invalid message reference type")
                elif bad_limit:
                    session.refused(line, "INVALID_PARAMS", [sub], "Invalid parameters")
    yield session.case("a target goes before a selector, and a selector before a limit")
    session = Session(History())
    for value, _ in WORDS["moment"]:
        for limit, bad_limit in WORDS["limit"]:
            session.refused(f"CHATHISTORY BEFORE #a {value} {limit}", "INVALID_PARAMS", [sub], "Invalid parameters")
    yield session.case("a bad value of a selector, with good and bad limits")
    session = Session(History())
    for sub, words in [
        ("LATEST", []), ("LATEST", ["#a"]), ("LATEST", ["#a", "*"]), ("BEFORE", ["#a", "msgid=m1"]),
        ("AFTER", ["a,b"]), ("AROUND", ["#a", "id=1"]), ("BETWEEN", ["#a", "msgid=m1", "msgid=m2"]),
        ("TARGETS", ["timestamp=1970-01-01T00:00:01.000Z", "timestamp=1970-01-01T00:00:01.000Z"]), ("TARGETS", []),
    ]:
        for spelled in [sub, sub.lower()]:
            line = " ".join(["CHATHISTORY", spelled] + words)
            session.refused(line, "INVALID_PARAMS", [sub], "Missing parameters")
    session.refused("CHATHISTORY", "INVALID_PARAMS", [], "Missing parameters")
    yield session.case("missing parameters")
    session = Session(History())
    for word, echoed in [
        ("NEXT", "NEXT"), ("next", "NEXT"), ("n" * 64, "N" * 64), ("n" * 65, "*"), (":", "*"), (": a", "*"), (":a b", "*"),
        (":NEXT", "NEXT"), ("::", "*"),
    ]:
        session.refused(f"CHATHISTORY {word}", "INVALID_PARAMS", [echoed], "Unknown command")
    yield session.case("a subcommand that is echoed where it may stand")
    session = Session(History())
    for words in [
        "msgid=m1 timestamp=1970-01-01T00:00:01.000Z 1", "timestamp=1970-01-01T00:00:01.000Z msgid=m1 1", "* * 1",
    ]:
        session.refused(f"CHATHISTORY TARGETS {words}", "INVALID_MSGREFTYPE", ["TARGETS"], "Invalid message reference type")
    session.refused(
        "CHATHISTORY TARGETS timestamp=1970-01-01T00:00:01.000Z timestamp=x 1", "INVALID_PARAMS", ["TARGETS"], "Invalid parameters")
    yield session.case("buffers are asked for by moments alone")


def lengths():
    """Lines at the most bytes that are served, and one beyond."""
    too_long = f"{CLUSTER} 417 al :Input line was too long"
    for name, line, printed in [
        ("tags of the most bytes", "@" + "a" * 4094 + " PING x", [f"{CLUSTER} PONG bnc.example :x"]),
        ("tags of one byte more", "@" + "a" * 4095 + " PING x", [too_long]),
        ("a line of the most bytes", "PING " + "a" * 505, [f"{CLUSTER} PONG bnc.example :" + "a" * 300]),
        ("a line of one byte more", "PING " + "a" * 506, [too_long]),
        ("an over-long line of a change", "C " + "a" * 8701, [too_long]),
        ("an over-long line about nodes", "%" + "a" * 8702, [too_long]),
        ("after a close an over-long line is not answered", "QUIT\n%" + "a" * 8702, ["ERROR :Closing link"]),
        ("a word of the most bytes that is told again", "CHATHISTORY " + "n" * 64,
         [f"{CLUSTER} FAIL CHATHISTORY INVALID_PARAMS {'N' * 64} :Unknown command"]),
    ]:
        yield "\n".join([f"== {name}", line, "--"] + printed) + "\n"


def questions(session):
    for sub in ["BEFORE", "AFTER", "AROUND", "LATEST"]:
        for selector in SELECTORS[::3]:
            session.ask(sub, "#a", [selector], 3)
    session.ask("LATEST", "#a", [], 5)
    session.ask("BETWEEN", "#a", [("timestamp", 0), ("timestamp", 9000)], 4)
    session.ask_targets(0, 9000, 5)


def asked_of_all(name, lines, history=None):
    """The lines, and then every node is asked the same and answers alike."""
    asked, printed = list(lines), []
    for node in range(1, 10):
        session = Session(history or channel())
        questions(session)
        asked += [f"%{node}"] + session.asked
        printed += session.printed
    return "\n".join([f"== {name}"] + asked + ["--"] + printed) + "\n"


def in_orders(changes):
    """Each node takes all of them, in an order of its own, and some of them again."""
    lines = []
    for node in range(1, 10):
        chosen = random.Random(node)
        mine = changes + chosen.sample(changes, node)
        chosen.shuffle(mine)
        lines += [f"%{node}"] + mine
    return lines


def in_parts(changes, seed):
    """Each node takes a part of them, and packets carry the rest."""
    chosen = random.Random(100 + seed)
    lines = []
    for node in range(1, 10):
        lines += [f"%{node}"] + [c for i, c in enumerate(changes) if (i + seed) % 9 + 1 == node]
    for _ in range(40):
        a, b = chosen.sample(range(1, 10), 2)
        lines.append(chosen.choice([f"%{a}>{b}", f"%{a}>{b}!", f"%{a}>{b}-", f"%{a}<{b}"]))
    # a ring, twice around: then each has all
    return lines + 2 * [f"%{a}>{a % 9 + 1}" for a in range(1, 10)]


def orders():
    """One set of changes, which nine nodes take in other orders, with repeats, in other parts."""
    changes = channel().lines
    yield asked_of_all("each node takes all, in an order of its own, some of it again", in_orders(changes))
    for seed in range(4):
        yield asked_of_all(f"each node takes a part, and packets carry the rest, {seed}", in_parts(changes, seed))
    lines = changes + [f"%1>{a}" for a in range(2, 10)] + ["%5*", "%7*", "%5>7", "%7>5", "%2>5", "%3>7", "%1*", "%9>1"]
    yield asked_of_all("nodes begin again with nothing and are filled by others", lines)


# A change line up to a text, the most bytes that the text may have, and what stands behind it. `:bob PRIVMSG #a :` has 17
# bytes and `:bob NOTICE #a :` 16, and a line has at most 510 of them.
FIELDS = [
    ("C MARK ", 32, " net #a 0"),
    ("C MARK demo ", 32, " #a 0"),
    ("C MARK demo net ", 200, " 0"),
    ("C POST demo net #a ", 255, " 0 P #a bob :"),
    ("C POST demo net #a m 0 P ", 200, " bob :"),
    ("C POST demo net #a m 0 P #a ", 255, " :"),
    ("C POST demo net #a m 0 P #a bob :", 493, ""),
    ("C POST demo net #a m 0 N #a bob :", 494, ""),
    ("C AFLOOR ", 32, " 0"),
]

MOMENTS = [0, 253402300799999, 253402300800000, 18446744073709551616]


def fields():
    """Each field at its limit, and with a byte more; and moments at both ends."""
    for number, (before, most, behind) in enumerate(FIELDS):
        for count in (most, most + 1):
            wanted = ["% BadField"] if count > most else []
            title = f"== field {number} of {count} bytes"
            yield "\n".join([title, before + "a" * count + behind, "--"] + wanted) + "\n"
    for ms in MOMENTS:
        wanted = []
        if ms < 253402300800000:
            wanted.append(f"{CLUSTER} MARKREAD #a timestamp={time_text(ms)}")
        else:
            wanted += ["% BadField", f"{CLUSTER} MARKREAD #a *"]
        yield "\n".join([f"== moment {ms}", f"C MARK demo net #a {ms}", "MARKREAD #a", "--"] + wanted) + "\n"


def largest_pages():
    """A dozen pages of the most messages, then smaller ones; and pages of two messages."""
    history = History()
    for i in range(150):
        history.post("#a", f"m{i}", i, f"text {i}")
    session = Session(history)
    for number in range(1, 13):
        session.ask("LATEST", "#a", [], 100 if number % 2 == 0 else 101)
    for limit in (99, 1):
        session.ask("LATEST", "#a", [], limit)
    yield session.case("a dozen pages of the most messages, and smaller ones of the last")
    history = History()
    history.post("#a", "m1", 1000, "x")
    history.post("#a", "m2", 2000, "x")
    session = Session(history)
    session.ask("LATEST", "#a", [], 10)
    session.ask("AFTER", "#a", [("msgid", "m1")], 9)
    session.ask("BETWEEN", "#a", [("msgid", "m2"), ("msgid", "m1")], 2)
    session.ask("AROUND", "#a", [("msgid", "m2")], 4)
    yield session.case("pages of two messages")


def longest_ids():
    """An id of 255 bytes in each place where a line names a message, and one of 256 bytes there. A BETWEEN with two of them
    would be too long a line."""
    longest = "i" * 255
    history = History()
    for id, ms in [("h", 1000), (longest, 2000), ("j", 3000)]:
        history.post("#a", id, ms, "x")
    session = Session(history)
    for sub in ["LATEST", "BEFORE", "AFTER", "AROUND"]:
        session.ask(sub, "#a", [("msgid", longest)], 5)
    session.ask("BETWEEN", "#a", [("msgid", longest), ("timestamp", 9000)], 5)
    session.ask("BETWEEN", "#a", [("timestamp", 9000), ("msgid", longest)], 5)
    session.refused(f"REDACT #a {longest}", "REDACT_FORBIDDEN", ["#a"], "Not allowed here")
    for sub, words in [
        ("LATEST", f"msgid={longest}i"), ("BEFORE", f"msgid={longest}i"), ("AFTER", f"msgid={longest}i"),
        ("AROUND", f"msgid={longest}i"), ("BETWEEN", f"msgid={longest}i msgid=h"), ("BETWEEN", f"msgid=h msgid={longest}i"),
    ]:
        session.refused(f"CHATHISTORY {sub} #a {words} 5", "INVALID_PARAMS", [sub], "Invalid parameters")
    session.refused(f"REDACT #a {longest}i", "UNKNOWN_MSGID", ["#a"], "No such message")
    yield session.case("an id of the most bytes, and one of one byte more")


def limits():
    yield from fields()
    yield from largest_pages()
    yield from longest_ids()


LAST_MOMENT = 253402300799999


def floored(floors, are_first):
    """Records of two buffers, some of them redacted, and floors of the account and of the first buffer, before or after them.
    A floor is spelled as its target, or `*` for the account, and its moment."""
    history = History()

    def set_floors():
        for target, ms in floors:
            if target == "*":
                history.account_floor(ms)
            else:
                history.floor(target, ms)

    if are_first:
        set_floors()
    for target, id, ms in [
        ("#a", "m1", 1000), ("#a", "m2", 1300), ("#a", "m3", 1500), ("#a", "m4", 1800), ("#a", "gone", 1600), ("#b", "m1", 1300),
        ("#b", "m2", 1500), ("bob", "m1", 1100), ("#a", "m5", 1250),
    ]:
        history.post(target, id, ms, "x")
    history.redact("#a", "gone")
    history.redact("#a", "low", 1300)
    history.redact("#b", "low", 1300)
    history.redact("#a", "m5", 1700)
    history.redact("#a", "nowhere")
    history.account_floor(LAST_MOMENT, "demos")
    if not are_first:
        set_floors()
    return history


# Floors of the account (`*`) and of buffers, as they come: the own one below its account's, at it and above it, each of them
# first.
FLOORS = [
    [("*", 1500), ("#a", 1200)],
    [("#a", 1200), ("*", 1500)],
    [("*", 1200), ("#a", 1500)],
    [("#a", 1500), ("*", 1200)],
    [("*", 1500), ("#a", 1500)],
    [("*", 0), ("#a", 1301)],
    [("*", 1301), ("*", 1100), ("#b", 1400)],
    [("#b", 1400), ("*", 1100), ("*", 1801)],
    [("*", LAST_MOMENT)],
]


def floor_questions(session):
    for id in ["m1", "m2", "m3", "m4", "m5", "gone", "low", "nowhere"]:
        session.ask("AFTER", "#a", [("msgid", id)], 5)
    session.ask("LATEST", "#a", [("timestamp", 1000)], 5)
    session.ask("AROUND", "#a", [("timestamp", 1500)], 2)
    session.ask("BETWEEN", "#a", [("timestamp", 1900), ("timestamp", 0)], 9)
    session.ask("LATEST", "#b", [], 5)
    session.ask("BEFORE", "#b", [("msgid", "low")], 5)
    session.ask("LATEST", "bob", [], 5)
    session.ask_targets(0, 9000, 5)


def extents():
    """Floors of the account and of its buffers."""
    for floors in FLOORS:
        for are_first in (True, False):
            session = Session(floored(floors, are_first))
            floor_questions(session)
            spelled = " ".join(f"{target} {ms}" for target, ms in floors)
            yield session.case(f"floors {'before' if are_first else 'after'} the posts: {spelled}")
    for floors in FLOORS[1], FLOORS[2]:
        history = floored(floors, False)
        for seed in range(2):
            yield asked_of_all(f"parts and packets with floors of an account, {floors[0][0]} first, {seed}",
                               in_parts(history.lines, seed), history)
        yield asked_of_all(f"orders with floors of an account, {floors[0][0]} first", in_orders(history.lines), history)


def escapes():
    """Ids with a byte that a tag's value escapes (IRCv3 message-tags, "Escaping values"), at each place of ids of several
    lengths: such as one look at 16 bytes, or two, see whole, and one byte less and more."""
    spelled = {";": "\\:", "\\": "\\\\"}
    for length in (1, 2, 15, 16, 17, 31, 32, 33, 48):
        asked, printed = [], []
        for number, (target, byte) in enumerate(zip(("#a", "#b"), spelled), 1):
            ids = ["a" * length, *("a" * place + byte + "a" * (length - place - 1) for place in range(length))]
            printed.append(f"{CLUSTER} BATCH +r{number} chathistory {target}")
            for at, id in enumerate(ids):
                asked.append(f"C POST demo net {target} {id} {1000 + at} P {target} bob!b@h :{at}")
                value = "".join(spelled.get(it, it) for it in id)
                printed.append(f"@batch=r{number};msgid={value};time={time_text(1000 + at)} :bob!b@h PRIVMSG {target} :{at}")
            asked.append(f"CHATHISTORY LATEST {target} * 100")
            printed.append(f"{CLUSTER} BATCH -r{number}")
        yield "\n".join([f"== ids of {length} bytes", *asked, "--", *printed]) + "\n"


def write(name, cases):
    path = os.path.join(os.path.dirname(os.path.abspath(__file__)), name)
    with open(path, "w", encoding="utf-8", newline="\n") as file:
        file.writelines(cases)


if __name__ == "__main__":
    write("pages", pages())
    write("between", between())
    write("targets", targets())
    write("refusals", refusals())
    write("lengths", lengths())
    write("orders", orders())
    write("limits", limits())
    write("extents", extents())
    write("escapes", escapes())
