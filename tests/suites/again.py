"""Requests for memory that are refused while a node is at work: some of them in a row, at each place in turn (docs/OPERATING.md,
"What it logs" and "Servers"; docs/PROTOCOL.md, "Lives and numbers"). What can be done later is done."""

import mmap
import struct
import time
from collections import Counter

from harness.clocks import Clocks
from harness.failure import Failed, expect
from harness.keeper import Keeper, PlayedNode, payloads_of
from harness.node import Node
from harness.peer import Peer
from harness.readable import readable
from harness.refusals import UNREFUSED
from harness.registry import add, test
from harness.server import Server

NOBODY = ("127.0.0.1", 1)
PAST = "batch draft/chathistory"
# More requests than a node ever makes.
MANY = 1 << 62
# So many requests at most are made because of a line or a packet.
REQUESTS = 60
# After so many seconds it is over, and what waits to be published is tried again.
OVER, LATER = 0.1, 1
# Floors that are due are looked for once an hour.
HOUR = 3600


class Refusals:
    """The file by which the library is told which requests to refuse, and the node's clocks."""

    def __init__(self, fixture):
        path, self.clocks = fixture.write("rate", bytes(32)), Clocks(fixture)
        with open(path, "r+b") as file:
            self.map = mmap.mmap(file.fileno(), 32)
        libraries = f"LD_PRELOAD={fixture.shims.path('refuse')}:{self.clocks.library}"
        self.front = ["env", libraries, f"RATE={path}", self.clocks.setting]

    def set(self, passed, refused):
        """From now on so many requests pass, and then so many are refused."""
        self.map[8:] = struct.pack("=QQQ", MANY - passed - 1, 0, refused)
        self.map[:8] = struct.pack("=Q", MANY)

    def count(self):
        """How many were refused."""
        return struct.unpack("=Q", self.map[16:24])[0]

    def end(self):
        """Refuses nothing more, and answers how many were refused."""
        self.map[:8] = bytes(8)
        return self.count()


def note(fixture, counts, words=str):
    """Notes how often each outcome came, of which there has to be one."""
    if not counts:
        raise Failed(UNREFUSED)
    fixture.notes.append(", ".join(f"{count} {words(came)}" for came, count in sorted(counts.items())))


def outcome(refusals, peer, refused):
    """What came of a packet with one change: it was acknowledged, or the connection was closed, or so many requests were refused
    and nothing came."""
    end = over = time.monotonic() + peer.fixture.patience()
    while time.monotonic() < over:
        if over == end and refusals.count() == refused:
            over = time.monotonic() + OVER
        if not readable([peer.socket], 0.01):
            continue
        came = peer.receive()
        if not came:
            return "closed"
        expect("what came of a packet", f"A {peer.other} {peer.life} 1\r\n", came.decode())
        return "acknowledged"
    return "nothing"


def is_there(client):
    """Whether the page has the message, though nothing else is put."""
    return bool(client.ask("CHATHISTORY LATEST #a * 1"))


def taken(fixture, refusals, name, passed, refused):
    """What comes of a packet of a message for a node that has had none, while so many requests in a row are refused behind so
    many. None where fewer are made."""
    # (one of an older version is told nothing else but acknowledgements)
    node = Node(fixture, name, peers=[("n0", NOBODY, ("version", 2))], servers=[NOBODY], workers=1, front=refusals.front).begin()
    fixture.logs.pop()
    client, peer = node.client().register(PAST), Peer.dial(node, version=2, told=2).greet()
    refusals.set(passed, refused)
    peer.give(0, "C POST demo net #a m1 1000 P #a bob!b@h :hi")
    came = outcome(refusals, peer, refused)
    was_refused = refusals.end()
    if came == "nothing" and not is_there(client):
        refusals.clocks.skip(LATER)
        came = "published later" if is_there(client) else "not taken"
    if came != "acknowledged":
        peer.close()
        peer = Peer.dial(node, version=2, told=2).greet()
        peer.give(0, "C POST demo net #a m1 1000 P #a bob!b@h :hi")
        peer.hear_acknowledged(1)
    if not is_there(client):
        raise Failed(f"a packet is acknowledged, and its message isn't there: {refused} refused behind {passed}")
    node.kill()
    return came if was_refused else None


@test
def what_a_peer_brings_is_published_though_memory_was_short(fixture):
    """Two requests in a row are refused, at each place in turn. The packet is acknowledged; or the connection is closed, or
    nothing is said, and the packet is taken when it comes again. Where its message only waits to be published, that is done a
    second later though nothing else is put."""
    refusals, counts = Refusals(fixture), Counter()
    for passed in range(REQUESTS):
        came = taken(fixture, refusals, f"x{passed}", passed, 2)
        if not came:
            break
        counts[came] += 1
    note(fixture, counts)
    expect("whether some waited", True, "published later" in counts)


# So many floors fall due at once. Their messages come in two packets, so that the node's room for what one put brings has to grow.
TARGETS = ("#a", "#b", "#c", "#d", "#e", "#f")
HALF = len(TARGETS) // 2


def shown(node):
    """In how many of the buffers a message is there. A client's first question reads what is published."""
    client = node.client("a client that asks").register(PAST)
    count = sum(bool(client.ask(f"CHATHISTORY LATEST {target} * 1")) for target in TARGETS)
    client.close()
    return count


def floors_told(node):
    """How many floors the operator was told of."""
    told = [line.partition(" ")[2] for line in node.log()]
    return sum(int(line.split(" ")[2].rstrip(",")) for line in told if line.startswith("floors put: "))


def floors_put(fixture, name, passed, refused):
    """How many floors of six the operator is told of at first, and in how many buffers the message is gone by then, while so
    many requests in a row are refused behind so many. What was told is so a second later though nothing else is put, and an
    hour later all is. None where fewer are made."""
    refusals = Refusals(fixture)
    node = Node(
        fixture, name, peers=[("n0", NOBODY, ("version", 2))], servers=[NOBODY], workers=1, retain_days=30, front=refusals.front
    ).begin()
    fixture.logs.pop()
    peer = Peer.dial(node, version=2, told=2).greet()
    at = refusals.clocks.now() - (30 * 24 * 60 - 30) * 60_000
    posts = [f"C POST demo net {target} m1 {at} P {target} bob!b@h :hi" for target in TARGETS]
    for first in (0, HALF):
        peer.give(first, *posts[first : first + HALF])
        peer.hear_acknowledged(first + HALF)
    peer.close()
    expect("how many messages are there", len(TARGETS), shown(node))
    refusals.set(passed, refused)
    refusals.clocks.skip(HOUR)
    fixture.until("floors are put, or memory is refused", lambda: refusals.count() or floors_told(node))
    was_refused, gone = refusals.end(), len(TARGETS) - shown(node)
    refusals.clocks.skip(LATER)
    told, where = floors_told(node), f"{refused} refused behind {passed}"
    if gone > told:
        raise Failed(f"{gone} floors hold, and {told} were told: {where}")
    fixture.until(f"{told} floors hold that were told: {where}", lambda: len(TARGETS) - shown(node) == told)
    refusals.clocks.skip(HOUR)
    fixture.until(f"all floors hold an hour later: {where}", lambda: shown(node) == 0)
    node.kill()
    return (told, gone) if was_refused else None


@test
def floors_that_the_operator_is_told_of_hold_though_memory_was_short(fixture):
    """Two requests in a row are refused, at each place in turn. Where some floors only wait to be published, that is done a second
    later though nothing else is put. The others are put an hour later."""
    counts = Counter()
    for passed in range(REQUESTS):
        came = floors_put(fixture, f"x{passed}", passed, 2)
        if came is None:
            break
        counts[came] += 1
    note(fixture, counts, lambda came: "times {} told and {} there".format(*came))
    expect("whether some waited", True, any(gone < told for told, gone in counts))
    expect("whether a part of them was told", True, any(0 < told < len(TARGETS) for told, _ in counts))


def told(fixture, name, passed, line, refused):
    """What a client is told of a server's line while so many requests in a row are refused behind so many: the line, or nothing
    where the client was closed. None where fewer are made. The session stays."""
    server, refusals = Server(fixture), Refusals(fixture)
    node = Node(fixture, name, servers=[server.address], workers=1, front=refusals.front).begin()
    fixture.logs.pop()
    session = server.register()
    client = node.client().register()
    refusals.set(passed, refused)
    session.say(line)
    server.settled(session)
    was_refused = refusals.end()
    came = client.receive().decode()
    expect(f"whether the session ended with {refused} refused behind {passed}", False, node.told("upstream down"))
    if came not in (f"{line}\r\n", ""):
        raise Failed(f"a client was told {came!r} with {refused} refused behind {passed}")
    node.kill()
    return came if was_refused else None


@test
def a_line_of_a_server_is_read_again_where_memory_was_short(fixture):
    """Nine requests in a row are refused, at each place in turn. The session stays, and the line is told as if nothing had been. A
    client for which there was no memory is closed, without a part of a line."""
    counts = Counter()
    for kind in ("TOPIC", "PRIVMSG"):
        for passed in range(REQUESTS):
            came = told(fixture, f"{kind.lower()}{passed}", passed, f":bob!b@h {kind} #a :hi", 9)
            if came is None:
                break
            what = "told" if came else "closed"
            counts[what] += 1
            if passed == 0:
                expect(f"whether a {kind} was told", "told", what)
    note(fixture, counts)


def without_memory(fixture, name, line, refused):
    """A node for whose server's line so many requests in a row are refused, and its session, a client and the server."""
    server, refusals = Server(fixture), Refusals(fixture)
    node = Node(fixture, name, servers=[server.address], workers=1, front=refusals.front).begin()
    session = server.register()
    client = node.client().register()
    refusals.set(0, refused)
    session.say(line)
    return node, server, session, client


# A line is tried so often. A try for which there is no memory makes one request.
TRIES = 10


@test
def a_line_that_is_only_passed_on_is_dropped_where_there_is_no_memory(fixture):
    """Once it was tried ten times. The session stays, and the next line is told. One try earlier it is told."""
    first, second = ":bob!b@h TOPIC #a :first", ":bob!b@h TOPIC #a :second"
    for refused, is_told in ((TRIES - 1, True), (TRIES, False)):
        node, server, session, client = without_memory(fixture, f"x{refused}", first, refused)
        server.settled(session)
        session.say(second)
        for line in (first, second) if is_told else (second,):
            expect(f"what is told with {refused} refused", line, client.line("a line"))
        expect("whether the session ended", False, node.told("upstream down"))
        node.kill()


@test
def a_message_for_which_there_is_no_memory_ends_the_session(fixture):
    """Once it was tried ten times. No client is told it. One try earlier it is told, and the session stays."""
    line = ":bob!b@h PRIVMSG #a :hi"
    node, server, session, client = without_memory(fixture, "x1", line, TRIES - 1)
    server.settled(session)
    expect("what is told", line, client.line("a line"))
    expect("whether the session ended", False, node.told("upstream down"))
    node.kill()
    node, _, session, client = without_memory(fixture, "x2", line, TRIES)
    session.hear_end()
    node.wait_for("upstream down: demo/net: no memory")
    client.ping()


# Messages of a server that come at once.
MESSAGES = tuple(f":bob!b@h PRIVMSG #a :{number}" for number in range(12))


def heard(client):
    """What a client is told before a PING is answered. None where the client was closed."""
    lines = []
    try:
        client.say("PING here")
        while not lines or lines[-1] != ":bnc.example PONG bnc.example :here":
            lines.append(client.line())
    except Failed:
        return None
    return tuple(lines[:-1])


def is_settled(session):
    """Whether the node takes all that the server said. Else it closes the connection."""
    try:
        session.hear("PONG :settled")
    except Failed:
        return False
    return True


def told_at_once(fixture, name, passed, refused):
    """How many of the messages, which come at once, a client is told while so many requests in a row are refused behind so many.
    None where fewer are made. The node has what the client is told: all of them, or the first ones, where the session ends."""
    server, refusals = Server(fixture), Refusals(fixture)
    node = Node(fixture, name, servers=[server.address], workers=1, front=refusals.front).begin()
    fixture.logs.pop()
    session, where = server.register(), f"with {refused} refused behind {passed}"
    client = node.client().register()
    refusals.set(passed, refused)
    session.say(*MESSAGES, "PING :settled")
    is_there = is_settled(session)
    was_refused, told = refusals.end(), heard(client)
    refusals.clocks.skip(LATER)
    page = node.client("a client that asks").register(PAST).ask("CHATHISTORY LATEST #a * 50")
    has = tuple(line.partition(" ")[2] for line in page)
    expect(f"which messages the node has {where}", MESSAGES[:len(has)], has)
    expect(f"whether the session stays {where}", len(has) == len(MESSAGES), is_there)
    if told is not None:
        expect(f"what a client was told {where}", has, told)
    node.kill()
    return len(has) if was_refused else None


@test
def messages_that_come_at_once_are_told_as_far_as_the_node_has_them(fixture):
    """Requests in a row are refused, at each place in turn. A client is told those messages that the node has, and where that isn't
    all of them the session ends."""
    counts = Counter()
    for refused in (1, TRIES + 1):
        for passed in range(REQUESTS):
            count = told_at_once(fixture, f"x{refused}x{passed}", passed, refused)
            if count is None:
                break
            counts[count] += 1
    note(fixture, counts, "times {} told".format)


@test
def connections_that_are_closed_for_want_of_memory_are_counted(fixture):
    """The operator is told how many there were, a minute later."""
    server, refusals = Server(fixture), Refusals(fixture)
    node = Node(fixture, servers=[server.address], workers=1, front=refusals.front).begin()
    server.register()
    for number in range(3):
        refusals.set(0, MANY - 1)
        client = node.client(f"client {number}")
        client.hear_end()
        refusals.end()
    refusals.clocks.skip(60)
    line = "out of memory: 3 connections were closed within a minute"
    fixture.until(f"'{line}' is told", lambda: line in [it.partition(" ")[2] for it in node.log()] or node.is_over())
    node.client("one that comes later").register()


# ---- a keeper

POSTS = ("C POST demo net #a m1 1000 P #a bob!b@h :hi", "C POST demo net #a m2 2000 P #a bob!b@h :hi")
# A file that was let go is opened again after a minute.
REOPENED = 61


def came_of(keeper, played):
    """What came of a packet for a keeper: it was acknowledged, or the connection was closed, or the file was let go."""
    end = time.monotonic() + keeper.fixture.patience()
    while time.monotonic() < end:
        if keeper.told("not kept: "):
            return "file let go"
        if not readable([played.socket], 0.01):
            continue
        try:
            played.step()
        except Failed:
            return "closed"
        if played.acknowledged:
            return "acknowledged"
    raise Failed("a packet isn't acknowledged, the connection stays, and the file isn't let go")


def kept(fixture, passed, refused):
    """What comes of a packet of a message for a keeper, while so many requests in a row are refused behind so many. None where
    fewer are made. In the end it is acknowledged, and stands in the file once."""
    refusals, node = Refusals(fixture), PlayedNode(fixture)
    keeper = Keeper(fixture, [node.peer], front=refusals.front)
    fixture.logs.pop()
    keeper.write(["L 0keep 5"], POSTS[:1])
    keeper.begin()
    played = node.meet()
    played.hear_changes(POSTS[0])
    keeper.wait_for("peer greeted: ")
    refusals.set(passed, refused)
    played.give(0, POSTS[1])
    came = came_of(keeper, played)
    was_refused = refusals.end()
    if came == "file let go":
        refusals.clocks.skip(REOPENED)
        keeper.wait_for("file open again: ")
    if came != "acknowledged":
        played.close()
        node.keep(POSTS[1])
    keeper.kill()
    changes = b"".join(payloads_of(keeper.data())).decode().split("\r\n")
    expect(f"how often each message stands in the file, with {refused} refused behind {passed}", [1, 1], list(map(changes.count, POSTS)))
    return came if was_refused else None


# (each test has as many places as its time allows)
PARTS = 4


def packets_for_a_keeper(part):
    def call(fixture):
        """Some requests in a row are refused, at each place in turn. What a node brings is acknowledged, or the connection is closed,
        or the file is let go; and then it is kept when it comes again."""
        counts = Counter()
        for refused in (1, 3):
            for passed in range(part, REQUESTS, PARTS):
                came = kept(fixture, passed, refused)
                if not came:
                    break
                counts[came] += 1
        note(fixture, counts)

    add(f"again: what a node brings a keeper is kept though memory was short, {part + 1} of {PARTS}", call)


for part in range(PARTS):
    packets_for_a_keeper(part)
