"""Floors of accounts (docs/OPERATING.md, "From when on an account is kept"; docs/PROTOCOL.md, "Changes"): where one node has
`keep_from` for an account, no node of the cluster keeps anything older of it."""

from harness.failure import expect
from harness.node import TwoAccounts
from harness.peer import Peer
from harness.registry import add, test
from harness.server import Server

PAST = "batch draft/chathistory draft/read-marker message-tags server-time"
OFFERED = "draft/message-redaction message-tags server-time"
NOBODY = ("127.0.0.1", 1)
TARGETS = "CHATHISTORY TARGETS timestamp=1970-01-01T00:00:00.000Z timestamp=9999-12-31T23:59:59.999Z 100"

# A moment, as a configuration, a line between nodes and a page have it; the millisecond before it; and a later one.
FROM, FROM_MS = "2026-01-01T00:00:00.000Z", 1767225600000
BEFORE, BEFORE_MS = "2025-12-31T23:59:59.999Z", FROM_MS - 1
LATER, LATER_MS = "2026-01-01T00:00:00.001Z", FROM_MS + 1
AHEAD = "9999-12-31T23:59:59.999Z"

FLOOR = f"C AFLOOR demo {FROM_MS}"


def said(id, time, target="#a", who="bob"):
    """What a server says, which is a line of a page too."""
    return f"@msgid={id};time={time} :{who}!b@h PRIVMSG {target} :{id}"


def post(id, ms):
    return f"C POST demo net #a {id} {ms} P #a old!o@h :{id}"


class Home(TwoAccounts):
    """A node with the accounts demo and eve, each with a session on a network net. A test sets from when on they are kept."""

    kept = {}

    def accounts(self):
        return [{**account, **self.kept.get(account["name"], {})} for account in super().accounts()]

    def keeping(self, **kept):
        """From now on these accounts are kept from those times on."""
        self.kept = {name: {"keep_from": time} for name, time in kept.items()}
        return self

    def floors(self):
        """What the operator was told of floors."""
        return [told for told in (line.partition(" ")[2] for line in self.log()) if told.startswith("floor put")]


class Place:
    """A node, and its sessions with a server of each account."""

    def __init__(self, fixture, name, peers, **kept):
        self.fixture, self.name, self.nick = fixture, name, f"al-{name}"
        self.servers = [Server(fixture), Server(fixture)]
        addresses = [server.address for server in self.servers]
        self.node = Home(fixture, name, addresses, peers, nick=self.nick).keeping(**kept)
        self.begin()

    def begin(self):
        self.node.begin()
        self.up = [server.register(OFFERED) for server in self.servers]

    def say(self, *lines, account=0):
        """A server says this, and the node has taken it."""
        self.up[account].say(*lines)
        self.servers[account].settled(self.up[account])

    def end(self):
        """Ends the node with SIGKILL, and its sessions."""
        self.node.kill()
        self.node.forget_log()
        for session in self.up:
            session.close()

    def client(self, account="demo"):
        client, nick = self.node.client(f"a client of {account} at {self.name}"), self.nick if account == "demo" else None
        return client.register(PAST, nick, account=account)

    def shows(self, wanted, target="#a", account="demo"):
        """Comes to show that page, and then shows just that."""
        client = self.client(account)
        self.fixture.until(f"{self.name} shows {target} of {account}", lambda: client.latest(target) == wanted)
        client.ping()


OLD, FIRST, NEW = said("m1", BEFORE), said("m2", FROM), said("m3", LATER)


@test
def what_is_older_goes_from_each_node(fixture):
    """A node whose peer has an older past already joins it, and has `keep_from`. The other account keeps all."""
    second = Place(fixture, "n2", [("n1", NOBODY)])
    second.say(OLD, FIRST, NEW, said("m4", BEFORE, "#b"), said("m5", "2001-01-01T00:00:00.000Z", "#c"), said("m6", FROM, "#c"))
    second.say(OLD, NEW, account=1)
    second.shows([OLD, FIRST, NEW])
    second.shows([OLD, NEW], account="eve")
    first = Place(fixture, "n1", [("n2", second.node.peers)], demo=FROM)
    first.node.wait_for("peer greeted: n2")
    for place in (first, second):
        place.shows([FIRST, NEW])
        place.shows([], "#b")
        place.shows([said("m6", FROM, "#c")], "#c")
        place.shows([OLD, NEW], account="eve")
        targets = [f":bnc.example CHATHISTORY TARGETS #c {FROM}", f":bnc.example CHATHISTORY TARGETS #a {LATER}"]
        expect("the buffers", targets, [line.partition(" ")[2] for line in place.client().ask(TARGETS)])
    expect("what n1 told", [f"floor put: demo keeps nothing before {FROM}"], first.node.floors())
    expect("what n2 told", [], second.node.floors())


@test
def what_comes_late_is_let_go_too(fixture):
    """At the node that has `keep_from`, and at the one that heard of it."""
    second = Place(fixture, "n2", [("n1", NOBODY)])
    first = Place(fixture, "n1", [("n2", second.node.peers)], demo=FROM)
    second.say(OLD, FIRST)
    second.shows([FIRST])
    first.shows([FIRST])
    second.say(said("m5", BEFORE, "#b"))
    first.say(said("m6", BEFORE, "#b"), NEW)
    for place in (first, second):
        place.shows([FIRST, NEW])
        place.shows([], "#b")
        client = place.client()
        client.say("CHATHISTORY AFTER #a msgid=m1 5")
        client.hear(":bnc.example FAIL CHATHISTORY MESSAGE_ERROR AFTER #a :No such message")


@test
def a_floor_outlives_the_node_that_put_it(fixture):
    """It goes on to a node that never met that one, and comes back when that one starts again with an earlier time, or with
    none."""
    third = Place(fixture, "n3", [("n2", NOBODY)])
    second = Place(fixture, "n2", [("n1", NOBODY), ("n3", third.node.peers)])
    third.say(OLD, FIRST, NEW)
    second.shows([OLD, FIRST, NEW])
    first = Place(fixture, "n1", [("n2", second.node.peers)], demo=FROM)
    third.shows([FIRST, NEW])
    for number, kept in enumerate([{"demo": BEFORE}, {}]):
        first.end()
        third.say(said(f"o{number}", BEFORE, "#b"))
        first.node.keeping(**kept)
        first.begin()
        first.shows([FIRST, NEW])
        first.say(said(f"p{number}", BEFORE, "#b"))
        for place in (first, second, third):
            place.shows([FIRST, NEW])
            place.shows([], "#b")
        told = [f"floor put: {account} keeps nothing before {time}" for account, time in kept.items()]
        expect("what n1 told", told, first.node.floors())


@test
def of_two_times_the_later_counts(fixture):
    """Each node has its own for the one account, and one of them one for the other account."""
    second = Place(fixture, "n2", [("n1", NOBODY)], demo=LATER)
    first = Place(fixture, "n1", [("n2", second.node.peers)], demo=FROM, eve=FROM)
    first.say(OLD, FIRST, NEW)
    second.say(OLD, FIRST, account=1)
    for place in (first, second):
        place.shows([NEW])
        place.shows([FIRST], account="eve")


@test
def nodes_of_older_versions_beside_a_floor(fixture):
    """What a node of version 1 or 2 posts reaches the others, as far as the floor lets it. No packet is made for it, of the
    floor or of anything else."""
    older = [(f"a{version}", NOBODY, ("version", version)) for version in (1, 2)]
    second = Place(fixture, "n2", [*older, ("n1", NOBODY)])
    second.say(OLD, FIRST)
    second.shows([OLD, FIRST])
    first = Place(fixture, "n1", [*older, ("n2", second.node.peers)], demo=FROM)
    peers, wanted = [], [FIRST]
    for version in (1, 2):
        for place in (first, second):
            peer = Peer.dial(place.node, f"a{version}", version=version, told=version).greet()
            place.node.wait_for(f"peer greeted: a{version}")
            id = f"p{version}-{place.name}"
            peer.give(0, post(id, FROM_MS), post(f"old-{id}", BEFORE_MS))
            peer.hear_acknowledged(2)
            wanted += [f"@msgid={id};time={FROM} :old!o@h PRIVMSG #a :{id}"]
            peers.append(peer)
    # (of one moment they stand by their ids)
    wanted = [FIRST, *sorted(wanted[1:])]
    for place in (first, second):
        place.shows(wanted)
    for peer in peers:
        peer.give(2, f"C FLOOR demo net #b {BEFORE_MS}")
        peer.hear_acknowledged(3)
    for place in (first, second):
        place.shows(wanted)


# ---- one node, line by line


@test
def a_peer_is_sent_the_floors_of_accounts(fixture):
    """As a piece like any other: in the order of the accounts, and first of all, since they are put as the node starts. A peer
    puts a higher one, and a lower one changes nothing."""
    node = Home(fixture, "n1", peers=[("n0", NOBODY)], servers=[NOBODY, NOBODY]).keeping(demo=FROM, eve=LATER).begin()
    peer = Peer.dial(node).greet()
    peer.hear_packet(0, 2, FLOOR, f"C AFLOOR eve {LATER_MS}")
    peer.acknowledge(2)
    higher = f"C AFLOOR demo {FROM_MS + 60000}"
    peer.give(0, f"C AFLOOR demo {BEFORE_MS}", post("m1", LATER_MS), f"C FLOOR demo net #a {LATER_MS}", higher)
    peer.hear_acknowledged(4)
    # (the post and the own floor are pieces no more)
    peer.hear_packet(2, 5, higher)
    peer.close()
    node.wait_for("peer down: n0")
    Peer.dial(node, incarnation=6).greet().hear_packet(0, 5, f"C AFLOOR eve {LATER_MS}", higher)


REFUSED = (
    "C AFLOOR demo", "C AFLOOR demo 1 x", "C AFLOOR demo net #a 1", "C AFLOOR Demo 1", "C AFLOOR demo 01", "C AFLOOR demo *",
    "C AFLOOR demo 253402300800000", "C AFLOOR  demo 1", "C AFLOOR demo 1 ",
)


def is_refused(line):
    """A test that a peer that sends such a line is closed, and nothing is taken of its packet."""

    def call(fixture):
        node = Home(fixture, "n1", peers=[("n0", NOBODY)], servers=[NOBODY, NOBODY]).begin()
        peer = Peer.dial(node).greet()
        peer.give(0, post("m1", FROM_MS), line)
        peer.hear_end()
        node.wait_for("peer down: n0: it sent a line that is refused")
        peer = Peer.dial(node, incarnation=6).greet()
        peer.give(0, post("m2", FROM_MS))
        peer.hear_acknowledged(1)
        peer.hear_packet(0, 1, post("m2", FROM_MS))

    return call


for number, line in enumerate(REFUSED):
    add(f"floors: a peer sends a floor of an account that is refused, {number + 1}", is_refused(line))


@test
def the_operator_is_told_of_each_floor(fixture):
    """In the order of the accounts, with the time as the node understood it, and whether that lies ahead."""
    node = Home(fixture, "n1", servers=[NOBODY, NOBODY])
    for kept, told in [
        ({}, []),
        ({"eve": FROM}, [f"eve keeps nothing before {FROM}"]),
        ({"demo": AHEAD, "eve": FROM},
         [f"demo keeps nothing before {AHEAD}, which lies ahead", f"eve keeps nothing before {FROM}"]),
        ({"demo": "2016-12-31T23:59:60.000Z"}, ["demo keeps nothing before 2016-12-31T23:59:59.999Z"]),
        ({"demo": "1970-01-01T00:00:00.000Z"}, ["demo keeps nothing before 1970-01-01T00:00:00.000Z"]),
    ]:
        node.keeping(**kept).begin()
        node.wait_for("upstream down")
        expect(f"what is told of {kept}", [f"floor put: {line}" for line in told], node.floors())
        node.kill()
        node.forget_log()


@test
def a_floor_that_lies_ahead_hides_what_is_said(fixture):
    """A client hears it as it is said, and no page has it. The other account's is there."""
    place = Place(fixture, "n1", [], demo=AHEAD)
    client = place.client()
    client.ping()
    place.say(NEW)
    place.say(NEW, account=1)
    client.hear(NEW)
    place.shows([])
    place.shows([NEW], account="eve")


@test
def a_floor_at_the_start_of_1970_says_nothing(fixture):
    """Pages have all, and peers are sent no floor."""
    place = Place(fixture, "n1", [("n0", NOBODY)], demo="1970-01-01T00:00:00.000Z")
    place.say(said("m0", "1970-01-01T00:00:00.000Z"), NEW)
    place.shows([said("m0", "1970-01-01T00:00:00.000Z"), NEW])
    posts = [f"C POST demo net #a {id} {ms} P #a bob!b@h :{id}" for id, ms in (("m0", 0), ("m3", LATER_MS))]
    Peer.dial(place.node).greet().hear_packet(0, 2, *posts)
