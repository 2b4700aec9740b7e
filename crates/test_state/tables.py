#!/usr/bin/env python3
"""Writes the files of rows in data/, each with the answers of a plain and slow model (model.py). The gate doesn't run it; it
runs what it wrote.

    ./tables.py          writes data/looks, data/orders, data/long, data/short, data/steps, data/limits, data/floors,
                         data/pages, data/states_refused, data/delta_refused, data/pages_refused
"""

import itertools
import os
import random
import sys

sys.dont_write_bytecode = True

from model import (
    DAY, LAST_MOMENT, LAST_NUMBER, PACKET, Model, Post, account_floor, floor, floor_of, is_gone, line_of,
    mark, marker_of, message, net, position_of, redact,
)

# ---- rows


def lines(changes):
    return "".join(line_of(change) + ";" for change in changes)


def numbered_lines(pieces):
    return "".join(f"{number} {line_of(change)};" for number, change in pieces)


def or_dash(at):
    return "-" if at is None else str(at)


def fate(model, buffer, id):
    gone = is_gone(model.changes(buffer), buffer, id)
    shown = any(post.id == id for post in model.visible(buffer))
    return {(1, 1): "gone and shown", (1, 0): "gone", (0, 1): "shown", (0, 0): "unknown"}[gone, shown]


def view_of(model, channels, ids):
    out = ""
    for channel in channels:
        buffer = net(channel)
        changes = model.changes(buffer)
        out += f"{channel} {or_dash(marker_of(changes, buffer))} {floor_of(changes, buffer)}"
        for id in ids:
            out += f", {id} {fate(model, buffer, id)} {or_dash(position_of(changes, buffer, id))}"
        rising = model.visible(buffer)
        out += f": {lines(rising)} | {lines(reversed(rising))} / "
    return out


def shown_by(model, channels, ids):
    """What stands where a row is refused: the front, the view, and all that is held."""
    first, end, changes = model.delta(0)
    return f"{model.front} {view_of(model, channels, ids)}{first} {end} {lines(changes)}"


def stands_after(post, cut):
    """Whether a record stands after a cut, and not before it."""
    side, *place = cut.split(":")
    if side in ("bottom", "top"):
        return side == "bottom"
    at = int(place[0])
    if side in ("under", "over"):
        return post.at >= at if side == "under" else post.at > at
    here = (post.at, post.id.encode())
    # no id stands before all ids of the moment
    there = (at, place[1].encode() if len(place) > 1 else b"")
    return here >= there if side == "before" else here > there


def walks_of(model, channel, cuts):
    posts = model.visible(net(channel))
    counts = [sum(stands_after(post, cut) for post in posts) for cut in cuts]
    return "".join(f"{count} {len(posts) - count};" for count in counts)


class Case:
    """The rows of a case. Its calls play them on models as the program is to play them on states, and write the answers."""

    def __init__(self, name, channels, ids, cuts=()):
        self.rows = [f"== {name}", "channels " + " ".join(channels), "ids " + " ".join(ids)]
        if cuts:
            self.rows.append("cuts " + " ".join(cuts))
        self.channels, self.ids, self.cuts = channels, ids, cuts
        self.changes = []
        self.state, self.other = Model(), Model()
        self.wanted = None

    def text(self):
        return "\n".join(self.rows) + "\n"

    def row(self, words, answer=""):
        self.rows.append(f"{words} = {answer}" if answer else words)

    def learn(self, changes):
        """Rows of changes, and their numbers."""
        first = len(self.changes)
        self.changes += changes
        self.rows += [line_of(change) for change in changes]
        return list(range(first, len(self.changes)))

    def of(self, numbers):
        return [self.changes[number] for number in numbers]

    # ---- acts

    def new(self, start=0):
        self.state = Model(start)
        self.row(f"new {start}")

    def absorb(self, numbers):
        self.row("absorb " + words(numbers), "".join(self.state.absorb(c) for c in self.of(numbers)))

    def take(self, numbers):
        self.row("take " + words(numbers), self.state.take(self.of(numbers)))

    def run(self, lists):
        self.state = Model()
        for numbers in lists:
            self.state.take(self.of(numbers))
        self.row("run " + " | ".join(words(numbers) for numbers in lists))

    def swap(self):
        self.state, self.other = self.other, self.state
        self.row("swap")

    def copy(self):
        self.other = self.state.copy()
        self.row("copy")

    def merge(self):
        self.row("merge", self.state.merge(self.other))

    # ---- questions

    def front(self):
        self.row("front", str(self.state.front))

    def view(self):
        wanted = view_of(self.state, self.channels, self.ids)
        if wanted != self.wanted:
            self.wanted = wanted
            self.rows.append("wanted " + wanted)
        self.row("view")

    def walks(self):
        for channel in self.channels:
            self.row(f"walks {channel}", walks_of(self.state, channel, self.cuts))

    def latest(self, account="demo", network="net"):
        found = self.state.latest(account, network)
        self.row(f"latest {account} {network}", "".join(f"{target} {at};" for target, at in found))

    def due(self, now, days):
        found = self.state.due(now, days)
        self.row(f"due {now} {days}", lines(found))
        return found

    def newer(self, start, limit):
        self.row(f"newer {start} {limit}", numbered_lines(self.state.newer(start, limit)))

    def delta(self, start):
        first, end, changes = self.state.delta(start)
        self.row(f"delta {start}", f"{first} {end} {lines(changes)}")

    def parts(self):
        pieces = self.state.pieces()
        assert len(pieces) <= PACKET
        self.row("parts " + numbered_lines(pieces))

    def look(self):
        self.view()
        self.front()

    def all(self):
        self.look()
        if self.cuts:
            self.walks()
        self.parts()
        self.latest()


class Refused(Case):
    """A case each of whose rows may be refused memory. In front of it stands what the state shows then, and, where the row
    takes a list of changes, what it shows after each beginning of the list."""

    def __init__(self, *given):
        super().__init__(*given)
        self.standing, self.is_told = None, False

    def stand(self, changes=()):
        state = self.state.copy()
        shown = [shown_by(state, self.channels, self.ids)]
        for change in changes:
            state.absorb(change)
            shown.append(shown_by(state, self.channels, self.ids))
        standing = "stands " + " then ".join(shown)
        if standing != self.standing:
            self.standing = standing
            self.rows.append(standing)
        self.is_told = True

    def row(self, words, answer=""):
        if not self.is_told:
            self.stand()
        self.is_told = False
        super().row(words, answer)

    def learn(self, changes):
        self.stand()
        self.is_told = False
        return super().learn(changes)

    def absorb(self, numbers):
        for number in numbers:
            self.stand()
            super().absorb([number])

    def take(self, numbers):
        self.stand(self.of(numbers))
        super().take(numbers)

    def merge(self):
        self.stand([change for _, change in self.other.pieces()])
        super().merge()

    def run(self, lists):
        self.stand()
        super().run(lists)


def words(numbers):
    return " ".join(str(number) for number in numbers)


def cuts_at(moments, ids):
    """Every cut at these moments, and at these ids of them."""
    cuts = ["bottom", "top"]
    for at in moments:
        cuts += [f"under:{at}", f"over:{at}", f"before:{at}", f"after:{at}"]
        cuts += [f"{side}:{at}:{id}" for id in ids for side in ("before", "after")]
    return cuts


# ---- each look-up, by examples


def markers():
    case = Case("the greatest marker counts", ["#a", "#b"], ["m1"])
    case.absorb(case.learn([mark("#a", 5000), mark("#a", 3000), mark("#a", 5000), mark("#b", 0)]))
    case.all()
    return case


def messages():
    case = Case("a message is found in its channel", ["#a", "#b", "#none"], ["m1", "m", "m11"])
    case.absorb(case.learn([message("#a", "m1", 1000, "hi")]))
    case.all()
    case.newer(0, LAST_NUMBER)
    return case


def latest_records():
    case = Case("buffers come by target", ["#a", "#b"], ["m1", "m2", "m3"])
    posts = [message("#a", "m1", 1000, "hi"), message("#b", "m2", 2000, "hi"), message("#a", "m3", 3000, "hi")]
    others = [Post((account, network, "#c"), "m1", 9000, "P", "al", "#c", "")
              for account, network in [("demo", "ne"), ("demo", "nets"), ("dem", "net"), ("demos", "net")]]
    case.absorb(case.learn(posts + others + [redact("#z", "m1", 1000), mark("#y", 1), floor("#x", 1)]))
    for account, network in [("demo", "net"), ("demo", "ne"), ("demo", "other"), ("dem", "net"), ("de", "net")]:
        case.latest(account, network)
    case.absorb(case.learn([redact("#b", "m2"), floor("#a", 3000)]))
    case.latest()
    case.absorb(case.learn([floor("#a", 3001)]))
    case.latest()
    return case


def walks():
    ids = ["m1", "m2", "m3", "m4", "m9"]
    cuts = cuts_at([0, 999, 1000, 1001, 1500, 2000, 2001], ids)
    case = Case("walks from each cut", ["#a", "#b", "#none"], ids, cuts)
    rows = [("#a", "m3", 1000), ("#a", "m1", 1000), ("#b", "m9", 1500), ("#a", "m4", 2000), ("#a", "m2", 1000)]
    for number in case.learn([message(channel, id, at, "hi") for channel, id, at in rows]):
        case.take([number])
        case.all()
    case.absorb(case.learn([redact("#a", "m2", 1000), floor("#b", 1501)]))
    case.all()
    return case


def repeated_posts():
    case = Case("a repeated post is decided by moment, kind and body", ["#a"], ["m1"])
    a = message("#a", "m1", 1000, "a")
    b, c = message("#a", "m1", 2000, "b"), message("#a", "m1", 2000, "c")
    case.absorb([case.learn([change])[0] for change in (c, b, c, message("#a", "m1", 2000, "z", "N"), a)])
    case.all()
    case.newer(0, LAST_NUMBER)
    return case


def merges():
    case = Case("states merge to the same either way", ["#a"], ["m1", "m2"])
    a, f, b, r, m = case.learn([message("#a", "m1", 1000, "a"), floor("#a", 1500), message("#a", "m1", 2000, "b"),
                                redact("#a", "m2"), mark("#a", 5000)])
    for one, other in [([a, f], [b, r]), ([b, r], [a, f]), ([a, b, f, m], [m, f, b, a]), ([], [a, b, r]), ([b], [])]:
        case.new()
        if other:
            case.take(other)
        case.swap()
        case.new()
        if one:
            case.take(one)
        case.merge()
        case.all()
        # whichever takes the other once more has all of it
        case.merge()
        case.look()
        case.swap()
        case.merge()
        case.all()
    return case


def copies():
    case = Case("a copy stays as it was", ["#a"], ["m1", "m2"])
    first = case.learn([message("#a", "m1", 1000, "a"), mark("#a", 1000), redact("#a", "m2", 500)])
    later = case.learn([floor("#a", 2000), message("#a", "m2", 3000, "b"), mark("#a", 2000)])
    case.take(first)
    case.copy()
    case.absorb(later)
    case.all()
    case.swap()
    case.all()
    case.absorb(later)
    case.all()
    return case


def due_floors():
    now = DAY + 2000
    case = Case("floors that are due are due once", ["#a", "#b"], ["m1", "m2"])
    case.take(case.learn([message("#b", "m1", 1000, "a"), message("#a", "m1", 1999, "b"), message("#a", "m2", 2000, "c")]))
    for days in (0, 2, 366):
        case.due(now, days)
    case.due(DAY - 1, 1)
    case.due(DAY, 1)
    case.due(DAY + 1000, 1)
    case.due(now + 365 * DAY, 366)
    case.take(case.learn(case.due(now, 1)))
    case.all()
    case.due(now, 1)
    case.due(now + 1, 1)
    return case


def young_records():
    case = Case("no floor is due for a young record, a redaction or a marker", ["#a", "#b", "#c"], ["m1"])
    case.take(case.learn([redact("#a", "m1", 1000), message("#b", "m1", 2000, "a"), mark("#c", 1)]))
    case.due(DAY + 2000, 1)
    case.due(DAY + 2001, 1)
    return case


def numbers():
    case = Case("pieces come by number", ["#a"], ["m1"])
    case.take(case.learn([message("#a", "m1", 1000, "a"), message("#a", "m1", 2000, "b"), mark("#a", 5000)]))
    case.newer(1, 3)
    case.newer(2, 3)
    case.newer(3, 3)
    case.newer(LAST_NUMBER, 3)
    case.delta(LAST_NUMBER)
    case.parts()
    return case


def records_come_and_go():
    """Records are kept, redacted, and taken below a floor. After each step: which number each piece has, and the first and
    the last record."""
    steps = [floor("#b", 9000), message("#a", "m2", 2000, "hi"), message("#a", "m1", 2000, "hi"),
             message("#a", "m3", 1000, "hi"), message("#a", "m3", 3000, "hi"), redact("#a", "m1"), redact("#a", "m9"),
             floor("#a", 2000), floor("#a", 2001), message("#a", "m3", 3000, "ha"), redact("#a", "m3"),
             message("#a", "m9", 500, "hi"), message("#a", "m9", 5000, "hi"), message("#a", "m2", 4000, "hi")]
    ids = ["m1", "m2", "m3", "m9"]
    case = Case("records come and go", ["#a", "#b"], ids, cuts_at([1000, 2000, 3000], ids))
    for number in case.learn(steps):
        case.absorb([number])
        case.newer(0, 300)
        case.all()
    return case


def looks():
    return [markers(), messages(), latest_records(), walks(), repeated_posts(), merges(), copies(), due_floors(),
            young_records(), numbers(), records_come_and_go()]


# ---- five changes in every order

SETS = [
    ("a notice goes before a private message, and a smaller source before a smaller body", [
        message("#a", "m1", 1000, "b"), message("#a", "m1", 1000, "a"), message("#a", "m1", 1000, "z", "P", "al!a@h"),
        message("#a", "m1", 1000, "z", "N", "cy!c@h"), message("#a", "m1", 1000, "zz", "N", "cy!c@h", "#A")]),
    ("the later post is kept, whatever it says, and not where it is below the floor", [
        message("#a", "m1", 999, "", "N", "al"), message("#a", "m1", 2000, "b"), message("#a", "m1", 2000, "ba"),
        floor("#a", 1500), message("#a", "m1", 1000, "a")]),
    ("floors at and above posts", [
        message("#a", "m1", 2000, "a"), floor("#a", 2000), message("#a", "m2", 1999, "b"), message("#b", "m1", 1, "c"),
        floor("#b", 2)]),
    ("the later floor takes away what the first one left", [
        floor("#a", 1000), message("#a", "m1", 1000, "a"), floor("#a", 2000), message("#a", "m2", 2000, "b"),
        redact("#a", "m10", 1999)]),
    ("redactions with moments", [
        message("#a", "m1", 1000, "a"), redact("#a", "m1", 500), redact("#a", "m1"), redact("#a", "m1", 1500),
        floor("#a", 700)]),
    ("a message that was never shown still has the moment of its late post", [
        redact("#a", "m1"), message("#a", "m1", 2000, "a"), message("#a", "m1", 3000, "b"), floor("#a", 2500),
        message("#a", "m2", 2500, "c")]),
    ("a floor takes away the place of a redacted message, and not that it was redacted", [
        redact("#a", "m1", 1000), message("#a", "m1", 2000, "a"), floor("#a", 2001), mark("#a", 600), mark("#a", 400)]),
    ("a floor of 0 says nothing, and a marker at 0 is one", [
        floor("#a", 0), message("#a", "m1", 0, "a"), mark("#a", 0), redact("#a", "m2", 0), redact("#b", "m2")]),
    ("records stand by moment and then by id, and another channel's redaction is of another message", [
        message("#a", "m2", 1000, "c"), message("#a", "m1", 1000, "a"), message("#a", "m10", 1000, "b"),
        message("#b", "m1", 1000, "d"), redact("#b", "m1")]),
    ("the greatest moment is the last millisecond of the year 9999", [
        message("#a", "m1", LAST_MOMENT, "a"), floor("#a", LAST_MOMENT), mark("#a", LAST_MOMENT),
        message("#a", "m2", LAST_MOMENT - 1, "b"), redact("#a", "m10", LAST_MOMENT)]),
]

CHANNELS = ["#a", "#b"]
IDS = ["m1", "m10", "m2"]


def every_order(name, changes):
    """Each order one by one and then once more, in two lists, in two that share a change, and merged."""
    case = Case(name, CHANNELS, IDS)
    for turn in itertools.permutations(case.learn(changes)):
        case.new()
        case.absorb(turn + turn)
        case.view()
        for first, second in [(turn[:1], turn[1:]), (turn[:3], turn[2:])]:
            case.run([first, second])
            case.view()
        case.new()
        case.take(turn[2:])
        case.swap()
        case.new()
        case.take(turn[:2])
        case.merge()
        case.look()
    return case


# ---- histories drawn at random, with fixed seeds

MOMENTS = [0, 1, 999, 1000, 1001, 2000, 2001, LAST_MOMENT]
# A high floor would leave nothing to compare.
FLOORS = [0, 1, 999, 1000]
SOURCES = ["al!a@h", "bob!b@h", "bo"]
BODIES = ["", "a", "aa", "b", "\u00ff"]


def drawn_change(draw):
    channel, id = draw.choice(CHANNELS), draw.choice(IDS)
    case = draw.randrange(100)
    if case == 0:
        return redact(channel, id)
    if case == 1:
        return redact(channel, id, draw.choice(MOMENTS))
    if case <= 6:
        return mark(channel, draw.choice(MOMENTS))
    if case <= 8:
        return floor(channel, draw.choice(FLOORS))
    return message(channel, id, draw.choice(MOMENTS), draw.choice(BODIES), draw.choice("PN"), draw.choice(SOURCES),
                   draw.choice(CHANNELS))


def shuffled(draw, numbers):
    """The numbers in another order, a fifth of them twice."""
    turn = []
    for number in numbers:
        turn.insert(draw.randrange(len(turn) + 1), number)
        if draw.randrange(5) == 0:
            turn.append(number)
    return turn


def in_groups(case, draw, numbers):
    turn = shuffled(draw, numbers)
    most = draw.randrange(1, 40)
    case.run([turn[i:i + most] for i in range(0, len(turn), most)])
    case.look()


def in_merge(case, draw, numbers):
    """Two states take parts that overlap, and one then takes the other."""
    turn = shuffled(draw, numbers)
    low, high = sorted([draw.randrange(1, len(turn)), draw.randrange(1, len(turn))])
    case.new()
    case.take(turn[low:])
    case.swap()
    case.new()
    case.take(turn[:high])
    case.merge()
    case.look()


def random_orders(seed, count, drawn=drawn_change):
    """In turn, looked at after each tenth; and three times in other orders, in groups and merged."""
    draw = random.Random(seed)
    case = Case(f"seed {seed}", CHANNELS, IDS)
    numbers = case.learn([drawn(draw) for _ in range(count)])
    for i in range(0, count, 10):
        case.absorb(numbers[i:i + 10])
        case.look()
    for _ in range(3):
        in_groups(case, draw, numbers)
        in_merge(case, draw, numbers)
    return case


CUT_MOMENTS = [0, 1, 2, 998, 999, 1000, 1001, 2000, 2001, 2002, LAST_MOMENT]


def random_steps(seed, count, drawn=drawn_change):
    """Numbers, deltas and walks after each step."""
    draw = random.Random(seed)
    case = Case(f"seed {seed}", CHANNELS, IDS, cuts_at(CUT_MOMENTS, IDS))
    for number in case.learn([drawn(draw) for _ in range(count)]):
        case.absorb([number])
        case.all()
        case.latest("demo", "ne")
    return case


# ---- limits


def numbered_change(number):
    target = f"#{number}"
    if number % 2 == 0:
        return mark(target, number)
    return message(target, "m1", 1000, "hi", to="#a")


def many_changes():
    case = Case("3,000 changes", ["#0", "#1", "#2998", "#2999"], ["m1"])
    case.absorb(case.learn([numbered_change(number) for number in range(3000)]))
    case.look()
    case.newer(2990, LAST_NUMBER)
    case.newer(0, 3)
    for start in (0, 2743, 2744, 2745, 2999, 3000):
        case.delta(start)
    case.copy()
    case.swap()
    case.look()
    case.newer(2995, LAST_NUMBER)
    # which reaches one message of 1,500
    case.absorb(case.learn([floor("#2999", 1001), floor("#2997", 1000)]))
    case.look()
    case.newer(2995, LAST_NUMBER)
    return case


def many_pieces():
    case = Case("a merge of 300 pieces, and a copy", ["#0", "#1", "#299", "#309"], ["m1"])
    changes = case.learn([numbered_change(number) for number in range(310)])
    case.take(changes[:300])
    case.newer(0, LAST_NUMBER)
    case.swap()
    case.new()
    case.take(changes[290:])
    case.merge()
    case.look()
    case.newer(0, LAST_NUMBER)
    case.swap()
    case.copy()
    case.swap()
    case.look()
    case.newer(298, LAST_NUMBER)
    case.delta(0)
    case.delta(44)
    return case


def dozen_floors():
    case = Case("a dozen floors are due", ["#1", "#23"], ["m1"])
    case.take(case.learn([numbered_change(number) for number in range(24)]))
    floors = case.due(DAY + 2000, 1)
    assert len(floors) == 12
    case.absorb(case.learn(floors))
    case.all()
    case.due(DAY + 2000, 1)
    return case


def last_number():
    case = Case("no change is taken past the last number", CHANNELS, IDS)
    m, r, f, p = case.learn([mark("#a", 0), redact("#a", "m1"), floor("#a", 0), message("#b", "m1", 5, "a")])
    case.new(LAST_NUMBER)
    case.absorb([m, r, f, p])
    case.look()
    case.take([f, m])
    case.take([p])
    case.look()
    case.new(LAST_NUMBER - 3)
    case.absorb([m, m, r, f, p, p, f, m, r])
    case.look()
    case.newer(LAST_NUMBER - 2, 300)
    case.newer(0, 300)
    case.delta(LAST_NUMBER - 3)
    case.delta(LAST_NUMBER - 1)
    case.delta(LAST_NUMBER)
    case.absorb(case.learn([mark("#a", 1), message("#b", "m1", 4, "z"), message("#b", "m1", 5, "")]))
    case.look()
    return case


def last_number_of_a_list():
    case = Case("what was taken before the last number stands", CHANNELS, IDS)
    steps = case.learn([mark("#a", 1000), message("#a", "m1", 1000, "a")])
    case.new(LAST_NUMBER - 1)
    case.take(steps)
    case.look()
    case.take(steps)
    case.look()
    case.newer(0, 300)
    return case


def last_number_of_a_merge():
    case = Case("a merge goes by number up to the last", CHANNELS, IDS)
    early, redaction, marker, late = case.learn([message("#a", "m1", 1000, "a"), redact("#a", "m2"), mark("#a", 1000),
                                                 message("#a", "m1", 2000, "b")])
    case.take([early, redaction, marker, late])
    case.newer(0, 300)
    case.swap()
    case.new(LAST_NUMBER - 1)
    # of the pieces the redaction has the least number
    case.merge()
    case.look()
    case.newer(0, 300)
    case.swap()
    case.new()
    case.take([redaction])
    case.swap()
    case.merge()
    case.look()
    return case


def limits():
    return [many_changes(), many_pieces(), dozen_floors(), last_number(), last_number_of_a_list(),
            last_number_of_a_merge()]


# ---- floors of accounts


def elsewhere(account, network, id, at):
    return Post((account, network, "#a"), id, at, "P", "al", "#a", "")


def step_by_step(case, steps):
    """Takes changes one by one, with every look-up after each."""
    for number in case.learn(steps):
        case.absorb([number])
        case.newer(0, 300)
        case.all()


def floors_among_posts():
    """Floors of an account before, between and after posts, redactions, markers and own floors of its buffers, and those of
    other networks and accounts."""
    ids = ["m1", "m2", "m3", "m9"]
    case = Case("a floor of an account holds in all of its buffers", ["#a", "#b", "#c", "#d"], ids, cuts_at([1500], ["m2"]))
    step_by_step(case, [
        account_floor(900), message("#a", "m1", 899, "hi"), message("#a", "m1", 900, "hi"), message("#a", "m2", 1500, "hi"),
        message("#b", "m1", 1499, "hi"), message("#b", "m2", 2000, "hi"), message("#c", "m3", 1000, "hi"),
        redact("#b", "m9", 1200), redact("#a", "m2", 1700), mark("#a", 100), mark("#c", 0), floor("#d", 1400),
        elsewhere("demo", "-", "m1", 1499), elsewhere("demo", "-", "m2", 1500), elsewhere("demo", "two", "m1", 1499),
        elsewhere("demo", "two", "m2", 1500), elsewhere("dem", "net", "m1", 1000),
        elsewhere("demos", "net", "m1", 1000), elsewhere("demos", "net", "m2", 2000), account_floor(1500),
        message("#a", "m3", 1499, "late"), message("#b", "m3", 1500, "late"), message("#d", "m1", 1499, "late"),
        redact("#c", "m9", 1499), redact("#c", "m9", 1500), account_floor(1001, "demos"), account_floor(1, "none"),
        account_floor(1499), account_floor(1700), account_floor(1701), floor("#d", 1702), mark("#d", 1)])
    networks = [("demo", "-"), ("demo", "net"), ("demo", "two"), ("dem", "net"), ("demos", "net"), ("none", "net")]
    for account, network in networks:
        case.latest(account, network)
    for start in range(6, 24, 4):
        case.delta(start)
    return case


def own_floors():
    """Below, at and above the floor of the account, before it and after it."""
    channels = ["#a", "#b", "#c"]
    case = Case("an own floor counts where it is above its account's", channels, ["m1", "m2"])
    posts = [message(target, id, at, "hi") for target in channels for id, at in [("m1", 1500), ("m2", 1501)]]
    step_by_step(case, [
        floor("#a", 1499), floor("#b", 1500), floor("#c", 1501), *posts, account_floor(1500), floor("#a", 1499),
        floor("#b", 1500), floor("#c", 1501), floor("#a", 1501), account_floor(1501), floor("#c", 1501), floor("#b", 1502),
        account_floor(1501), account_floor(1500), floor("#b", 1503), account_floor(1503)])
    return case


def either_floor_first():
    """An own floor that the account's reaches is no piece, and counts where it came first."""
    case = Case("two floors make one normal form in either order", ["#a", "#b"], ["m1", "m2"])
    a, b, account, own = case.learn([message("#a", "m1", 1000, "a"), message("#b", "m2", 2000, "b"), account_floor(1500),
                                     floor("#a", 1200)])
    for turn in [(a, b, account, own), (a, b, own, account), (account, own, a, b), (own, account, b, a)]:
        case.new()
        case.absorb(turn)
        case.all()
        case.newer(0, LAST_NUMBER)
        for start in range(6):
            case.delta(start)
    return case


def floors_at_both_ends():
    """A floor of 0 says nothing, and at the greatest moment nothing below it is left."""
    case = Case("floors of an account at 0 and at the greatest moment", ["#a", "#b"], ["m1", "m2", "m3"])
    step_by_step(case, [
        account_floor(0), floor("#a", 0), message("#a", "m1", 0, "a"), account_floor(0), floor("#b", 1),
        message("#b", "m1", LAST_MOMENT, "b"), message("#b", "m2", LAST_MOMENT - 1, "c"), redact("#a", "m2", LAST_MOMENT),
        redact("#a", "m3", LAST_MOMENT - 1), floor("#a", LAST_MOMENT - 1), account_floor(1), account_floor(LAST_MOMENT),
        floor("#b", LAST_MOMENT), message("#a", "m1", LAST_MOMENT - 1, "d"), message("#a", "m1", LAST_MOMENT, "e")])
    return case


def redactions_and_two_floors():
    """The place of a redacted message is at or above both floors, and neither gives its redaction another number."""
    ids = ["m1", "m2", "m3"]
    case = Case("a redaction forgets a moment below either floor", ["#a", "#b"], ids)
    redactions = [redact(target, id, at) for target in ("#a", "#b") for id, at in [("m1", 1300), ("m2", 1600), ("m3", None)]]
    posts = [message(target, "m3", 1400, "hi") for target in ("#a", "#b")]
    step_by_step(case, [
        *redactions, *posts, account_floor(1200), floor("#a", 1350), account_floor(1350), redact("#b", "m1", 1349),
        redact("#b", "m1", 1350), floor("#b", 1500), account_floor(1450), message("#b", "m3", 1499, "hi"),
        message("#a", "m3", 1499, "hi"), account_floor(1601)])
    return case


def merges_with_account_floors():
    case = Case("states with floors of an account merge to the same either way", ["#a", "#b"], ["m1", "m2", "m3"])
    a, b, c, account, below, above, higher, gone = case.learn([
        message("#a", "m1", 1000, "a"), message("#b", "m2", 2000, "b"), message("#b", "m3", 1600, "c"), account_floor(1500),
        floor("#a", 1200), floor("#b", 1700), account_floor(1700), redact("#a", "m2", 1550)])
    pairs = [([a, below, b], [account]), ([account, b, c], [above, a, gone]), ([account, above], [higher, c]),
             ([a, b, c, gone], [higher]), ([below, account], [account, below])]
    for one, other in pairs + [(other, one) for one, other in pairs]:
        case.new()
        case.take(other)
        case.swap()
        case.new()
        case.take(one)
        case.merge()
        case.all()
        # whichever takes the other once more has all of it
        case.merge()
        case.front()
        case.swap()
        case.merge()
        case.all()
    return case


def copies_with_account_floors():
    case = Case("a copy has the floors of accounts as they were", ["#a", "#b"], ["m1", "m2"])
    case.take(case.learn([account_floor(500), floor("#b", 700), message("#a", "m1", 600, "a"), message("#b", "m2", 1000, "b")]))
    case.copy()
    later = case.learn([account_floor(800), message("#a", "m1", 600, "a"), floor("#b", 750)])
    case.absorb(later)
    case.all()
    case.swap()
    case.all()
    case.absorb(later)
    case.all()
    return case


def due_beside_account_floors():
    """Floors are due for buffers that hold an older record, and a floor of the account may have left none."""
    now = DAY + 2000
    case = Case("floors are due beside a floor of an account", ["#a", "#b", "#c"], ["m1", "m2"])
    case.take(case.learn([message("#a", "m1", 1000, "a"), message("#b", "m1", 1800, "b"), message("#c", "m1", 2000, "c"),
                          elsewhere("demos", "net", "m1", 1), account_floor(1500)]))
    for at in (DAY + 1499, DAY + 1500, DAY + 1800, DAY + 1801):
        case.due(at, 1)
    case.absorb(case.learn(case.due(now, 1)))
    case.all()
    case.due(now, 1)
    case.absorb(case.learn([account_floor(2000)]))
    case.all()
    case.due(now + 1, 1)
    case.absorb(case.learn([account_floor(2001)]))
    case.due(now + 1, 1)
    case.all()
    return case


def last_number_of_account_floors():
    case = Case("a floor of an account is taken up to the last number", CHANNELS, IDS)
    none, account, own, post = case.learn([account_floor(0), account_floor(5), floor("#a", 4), message("#a", "m1", 4, "a")])
    case.new(LAST_NUMBER)
    case.absorb([none, account, none])
    case.look()
    case.take([none, account])
    case.new(LAST_NUMBER - 2)
    # the floor of the account takes the own one and the post away where a number is left, and neither where none is
    case.absorb([post, own, none, account])
    case.look()
    case.newer(0, 300)
    case.new(LAST_NUMBER - 3)
    case.absorb([post, own, account, own, post, account, none])
    case.look()
    case.newer(0, 300)
    for start in (LAST_NUMBER - 3, LAST_NUMBER - 1, LAST_NUMBER):
        case.delta(start)
    case.absorb(case.learn([account_floor(6)]))
    case.look()
    case.swap()
    case.new(LAST_NUMBER)
    case.merge()
    case.swap()
    case.merge()
    return case


def floor_of_many_buffers():
    """A floor takes half of 520 messages away, from 130 buffers, so that 260 pieces and the floor are left."""
    case = Case("a floor of an account of many buffers", ["#0", "#1", "#129", "#130"], ["m1", "m4"])
    posts = case.learn([message(f"#{n % 130}", f"m{n // 130}", n // 130, "", source="b", to="#a") for n in range(520)])
    case.take(posts)
    case.absorb(case.learn([account_floor(2)]))
    case.look()
    case.newer(515, 300)
    for start in (0, 519):
        case.delta(start)
    return case


ACCOUNT_SETS = [
    ("an own floor below its account's, and a redaction between the two", [
        account_floor(1500), floor("#a", 1200), message("#a", "m1", 1400, "a"), message("#b", "m2", 2000, "b"),
        redact("#a", "m1", 1300)]),
    ("an own floor above its account's, and redactions in and beside its buffer", [
        account_floor(1200), floor("#a", 1500), message("#a", "m1", 1600, "a"), redact("#a", "m1", 1300),
        redact("#b", "m1", 1300)]),
    ("an own floor above its account's, and posts between the two", [
        account_floor(1200), floor("#a", 1500), message("#a", "m1", 1400, "a"), message("#b", "m2", 1400, "b"),
        redact("#b", "m2", 1300)]),
    ("an own floor at its account's", [
        account_floor(1500), floor("#b", 1500), message("#b", "m1", 1500, "a"), message("#a", "m2", 1499, "b"),
        redact("#b", "m10", 1500)]),
    ("two floors of an account, and an own one between them", [
        account_floor(1000), account_floor(2000), floor("#b", 1500), message("#a", "m1", 1500, "a"), redact("#b", "m2", 1700)]),
]


def drawn_of_accounts(draw):
    """As `drawn_change`, with more floors, those of accounts among them, and with buffers of other networks and accounts."""
    case = draw.randrange(20)
    if case <= 1:
        return account_floor(draw.choice(FLOORS + [2000]), draw.choice(["demo", "demo", "demo", "demos"]))
    if case <= 3:
        return floor(draw.choice(CHANNELS), draw.choice(FLOORS + [1001, 2000]))
    if case == 4:
        return redact(draw.choice(CHANNELS), draw.choice(IDS), draw.choice(MOMENTS))
    change = drawn_change(draw)
    if case <= 6:
        return change._replace(buffer=draw.choice([("demos", "net", "#a"), ("demo", "two", "#b")]))
    return change


def floors():
    return [
        floors_among_posts(), own_floors(), either_floor_first(), floors_at_both_ends(), redactions_and_two_floors(),
        merges_with_account_floors(), copies_with_account_floors(), due_beside_account_floors(),
        last_number_of_account_floors(), floor_of_many_buffers(),
        *(every_order(name, changes) for name, changes in ACCOUNT_SETS),
        *(random_orders(seed, 30, drawn_of_accounts) for seed in range(301, 313)),
        *(random_steps(seed, 25, drawn_of_accounts) for seed in range(401, 403)),
    ]


# ---- more messages than lie side by side in memory

COUNT = 150


def numbered(number, at):
    """A message whose id rises with its number."""
    return message("#a", f"m{number:03}", at, "")


def outside_in(count):
    """The first, the last, the second, and so on."""
    return [number // 2 if number % 2 == 0 else count - 1 - number // 2 for number in range(count)]


COMING = {
    "in the order of their moments": list(range(COUNT)),
    "the latest first": list(range(COUNT))[::-1],
    "from both ends": outside_in(COUNT),
    "from the middle": outside_in(COUNT)[::-1],
    "in no order": [67 * number % COUNT for number in range(COUNT)],
}


def many_come(name, order, falling):
    """Messages come in that order, some are redacted, some take another moment, and floors take the rest away part by part.
    Where `falling`, the ids fall as the moments rise."""
    moments = [1000 * number for number in range(COUNT)]
    cuts = cuts_at([0, 63000, 64000, 64500, 128000, 149000], ["m000", "m064", "m085", "m149"])
    case = Case(f"{COUNT} messages come {name}{', with falling ids' if falling else ''}", ["#a"], ["m000", "m064", "m149"], cuts)
    posts = [numbered(COUNT - 1 - number if falling else number, moments[number]) for number in order]
    numbers = case.learn(posts)
    for first, end in ((0, 63), (63, 64), (64, 65), (65, 128), (128, 129), (129, COUNT)):
        case.take(numbers[first:end])
        case.walks()
        case.front()
    case.all()
    case.take(case.learn([redact("#a", post.id) for post in posts[::3]]))
    case.take(case.learn([post._replace(at=post.at + 200500) for post in posts[1::9]]))
    case.all()
    case.newer(COUNT + 20, 300)
    for at in (500, 40000, 64000, 128000, 149500, 290000):
        case.absorb(case.learn([floor("#a", at)]))
        case.walks()
    case.all()
    case.take(case.learn([numbered(number + 200, 400000 - number) for number in range(70)]))
    case.all()
    return case


def pages():
    return [many_come(name, order, falling) for name, order in COMING.items() for falling in (False, True)]


# ---- rows that are refused memory


def each_change_grows():
    """Each kind of change, one by one, and more posts than a node of a map has room for."""
    case = Refused("a change that is refused changes nothing", ["#a", "#b"], ["m1", "m2"])
    posts = [message("#a", f"m{number}", 1000 * number, "hi") for number in range(1, 14)]
    case.absorb(case.learn(posts + [
        message("#b", "m1", 1000, "hi"), message("#b", "m2", 2000, "hi", tags="+x=1"), mark("#a", 1500), mark("#a", 2500),
        message("#a", "m1", 1200, "again"), redact("#a", "m2", 2000), redact("#b", "m9"), floor("#b", 1500),
        account_floor(2500)]))
    case.look()
    case.latest()
    case.newer(0, 300)
    case.delta(0)
    case.delta(18)
    return case


def lists_are_taken_in_part():
    case = Refused("of a list that is refused the first changes stand", ["#a", "#b"], ["m1", "m2"])
    first = case.learn([message("#a", "m1", 1000, "hi"), mark("#a", 1000), message("#b", "m2", 2000, "hi"),
                        redact("#a", "m2"), floor("#a", 500), message("#a", "m3", 3000, "hi")])
    later = case.learn([account_floor(1500), message("#b", "m1", 1600, "hi", tags="+x=1"), mark("#b", 5)])
    case.take(first)
    case.take(later)
    case.look()
    case.run([first[:3], later])
    case.look()
    case.delta(0)
    return case


def merges_are_taken_in_part():
    """The two states of the worked example, either way round, and each merge once more."""
    case = Refused("of a merge that is refused the first changes stand", ["#a"], ["m1", "m2"])
    a, f, b, r = case.learn([message("#a", "m1", 1000, "a"), floor("#a", 1500), message("#a", "m1", 2000, "b"),
                             redact("#a", "m2")])
    for one, other in [([a, f], [b, r]), ([b, r], [a, f])]:
        case.new()
        case.take(other)
        case.swap()
        case.new()
        case.take(one)
        case.merge()
        case.look()
        case.merge()
        case.look()
        case.delta(0)
    return case


def copies_are_refused():
    case = Refused("a state that is copied stays as it was", ["#a", "#b"], ["m1", "m2"])
    case.take(case.learn([message("#a", "m1", 1000, "a"), mark("#b", 1000), redact("#a", "m2", 500), account_floor(400)]))
    case.copy()
    case.look()
    case.swap()
    case.look()
    case.due(DAY + 2000, 1)
    return case


def more_than_lie_together():
    """Messages of which 64 lie side by side in memory: the next ones, and some between them."""
    case = Refused("a message that comes to many is refused", ["#a"], ["m000", "m063"])
    numbers = case.learn([numbered(number, 1000 * number) for number in range(0, 126, 2)])
    case.run([numbers])
    later = [numbered(number, 1000 * number) for number in (126, 128, 63, 130, 1)]
    case.absorb(case.learn(later + [redact("#a", "m064"), numbered(2, 500000)]))
    case.delta(60)
    return case


def delta_of_many():
    """A state with one marker more than a delta has changes, as in the worked example."""
    case = Refused("deltas of 257 markers", ["#0", "#256"], ["m1"])
    case.run([case.learn([mark(f"#{number}", 1) for number in range(PACKET + 1)])])
    for start in (0, PACKET, PACKET + 1):
        case.delta(start)
    return case


def main():
    files = {
        "looks": looks(),
        "orders": [every_order(name, changes) for name, changes in SETS],
        "long": [random_orders(seed, 250) for seed in range(1, 9)],
        "short": [random_orders(seed, 20) for seed in range(101, 151)],
        "steps": [random_steps(seed, 40) for seed in range(201, 213)],
        "limits": limits(),
        "floors": floors(),
        "pages": pages(),
        "states_refused": [each_change_grows(), lists_are_taken_in_part(), merges_are_taken_in_part(), copies_are_refused()],
        "delta_refused": [delta_of_many()],
        "pages_refused": [more_than_lie_together()],
    }
    here = os.path.dirname(os.path.abspath(__file__))
    for name, cases in files.items():
        with open(os.path.join(here, "data", name), "w", encoding="utf-8", newline="\n") as file:
            file.write("".join(case.text() for case in cases))
    with open(os.path.join(here, "args"), "w") as file:
        file.write("".join(name + "\n" for name in files))
    with open(os.path.join(here, "stdout"), "w") as file:
        file.write("".join(f"{name}: {len(cases)} cases, 0 rows wrong\n" for name, cases in files.items()))


if __name__ == "__main__":
    main()
