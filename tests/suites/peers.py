"""Connections between nodes, line by line (docs/PROTOCOL.md, "Between nodes")."""

from harness.client import page
from harness.connection import Listener, connect, spelled
from harness.failure import Failed, expect
from harness.identities import OTHER_WORD, WORD
from harness.node import Node
from harness.peer import Peer
from harness.registry import add, test

NOBODY = ("127.0.0.1", 1)
POST_ONE = "C POST demo net #a z1 6000 N #a bob!b@h :one"
POST_TWO = "C POST demo net #a z2 7000 P #A bob!b@h :two"
PAST = "batch draft/chathistory message-tags server-time"
ONE = "@msgid=z1;time=1970-01-01T00:00:06.000Z :bob!b@h NOTICE #a :one"
TWO = "@msgid=z2;time=1970-01-01T00:00:07.000Z :bob!b@h PRIVMSG #A :two"


def begun(fixture, **how):
    """The node n1 of a cluster. Its peer n0, of a smaller name, connects to it."""
    return Node(fixture, peers=[("n0", NOBODY)], servers=[NOBODY], **how).begin()


def shows(node, *lines):
    """A client that comes gets a page of these lines."""
    client = node.client().register(PAST)
    client.say("CHATHISTORY LATEST #a * 10")
    client.hear(*page(1, "#a", *lines))


def stranger(node):
    """A connection that has said nothing yet."""
    return Peer(node.fixture, connect(node.fixture, node.peers), "n0")


@test
def a_peer_is_greeted(fixture):
    """The side that opened the connection says its word and its hello first."""
    node = begun(fixture)
    peer = Peer.dial(node).greet()
    node.wait_for(f"peer greeted: n0 at {spelled(peer.socket.getsockname())} (incarnation 5)")


# What closes a connection before the hello of a peer. By then the node has said nothing.
CLOSING = (
    ("a wrong word", ["W red"]),
    ("a wrong word and then the right one", ["W red", "W green"]),
    ("the word of another cluster", [f"W {OTHER_WORD}", "H 3 n0 5"]),
    ("a part of the word", ["W gree"]),
    ("a word that goes on", ["W greens"]),
    ("the word in capitals", ["W GREEN"]),
    ("the word behind two spaces", ["W  green"]),
    ("an empty line", [""]),
    ("a line of a client", ["NICK al"]),
    ("a hello without a word", ["H 3 n0 5"]),
    ("a line that is too long", ["W " + "g" * 9000]),
    ("a node that is no peer", ["W green", "H 3 n9 5"]),
    ("the node's own name", ["W green", "H 3 n1 5"]),
    ("a version that there isn't", ["W green", "H 4 n0 5"]),
    ("a version of two digits", ["W green", "H 33 n0 5"]),
    ("version 0", ["W green", "H 0 n0 5"]),
    ("a version with a leading zero", ["W green", "H 03 n0 5"]),
    ("a hello without a version", ["W green", "H n0 5"]),
    ("an incarnation with a leading zero", ["W green", "H 3 n0 05"]),
    ("a second word in place of a hello", ["W green", "W green"]),
    ("garbage in place of a hello", ["W green", "\x01\x02"]),
)


def closes(lines):
    """A test that the connection is closed by these lines. No stranger is told the word."""

    def call(fixture):
        node = begun(fixture)
        peer = stranger(node)
        peer.say(*lines)
        peer.hear_end()
        Peer.dial(node).greet().close()

    return call


for name, lines in CLOSING:
    add(f"peers: closed by {name}", closes(lines))

# What closes a connection after the hello.
CLOSING_LATER = (
    ("a second word", ["W green"]),
    ("a hello of another node", ["H 3 n2 5"]),
    ("a change without a packet", [POST_ONE]),
    ("a line that can't be read", ["X"]),
    ("a packet of no changes", ["D n0 5 n1 1 0 1 0"]),
    ("a packet of 257 changes", ["D n0 5 n1 1 0 257 257"]),
    ("a packet that doesn't rise", ["D n0 5 n1 1 1 1 1"]),
    ("an acknowledgement with a sign", ["A n0 5 n1 1 +1"]),
    ("a number beyond 64 bits", ["A n0 5 n1 1 18446744073709551616"]),
    ("a change with a refused field", ["D n0 5 n1 1 0 1 1", "C POST Demo net #a z1 0 P #a bob :x"]),
    ("another line within a packet", ["D n0 5 n1 1 0 2 2", POST_ONE, "A n0 5 n1 1 0"]),
    ("a line that is too long", ["A " + "1" * 9000]),
)


def closes_later(lines):
    """A test that these lines close the connection, and that no change of a packet that wasn't whole is taken."""

    def call(fixture):
        node = begun(fixture)
        client = node.client().register(PAST)
        peer = Peer.dial(node).greet()
        peer.say(*lines)
        peer.hear_end()
        client.say("CHATHISTORY LATEST #a * 10")
        client.hear(*page(1, "#a"))
        Peer.dial(node).greet()

    return call


for name, lines in CLOSING_LATER:
    add(f"peers: closed after the hello by {name}", closes_later(lines))


@test
def who_answers_by_the_word_of_another_cluster_is_closed(fixture):
    """The node opened the connection. What comes behind the word isn't taken."""
    listener = Listener(fixture)
    node = Node(fixture, name="n1", peers=[("n2", listener.address)], servers=[NOBODY]).begin()
    peer = Peer(fixture, listener.accept("the peer n2").socket, "n2", word=OTHER_WORD)
    peer.hear(f"W {WORD}")
    peer.hear_hello()
    peer.say(f"W {peer.word}", peer.hello())
    peer.give(0, POST_ONE)
    node.wait_for(f"peer refused: n2 at 127.0.0.1:{listener.address[1]}: it sent another word than the shared one")
    shows(node)


@test
def two_clusters_of_two_words_stay_apart(fixture):
    """Two nodes of each cluster, of the same accounts and networks. The first node of each has the second of the other one as a
    peer too, as after a slip in its configuration. Each cluster shows what was said to it, and no node knows one of the other."""
    words, clusters = (WORD, OTHER_WORD), []
    seconds = [Node(fixture, f"n{3 + at}", peers=[("n1", NOBODY), ("n2", NOBODY)], servers=[NOBODY], peer_word=word).begin()
               for at, word in enumerate(words)]
    for at, word in enumerate(words):
        known = [(second.name, second.peers) for second in seconds]
        clusters.append((Node(fixture, f"n{1 + at}", peers=known, servers=[NOBODY], peer_word=word).begin(), seconds[at]))
    for at, (first, second) in enumerate(clusters):
        other = seconds[1 - at]
        first.wait_for(f"peer greeted: {second.name}")
        first.wait_for(f"peer refused: {other.name} at {spelled(other.peers)}")
        second.wait_for(f"peer greeted: {first.name}")
        fixture.until("the other cluster's node refuses it", lambda other=other: any(
            line.endswith("it sent another word than the shared one") for line in other.log()))
    knowing = [[node.client(node.name).register("draft/read-marker") for node in cluster] for cluster in clusters]
    for at, clients in enumerate(knowing):
        clients[0].say(f"MARKREAD #a {moment(5 + at)}")
        for client in clients:
            client.hear(f":bnc.example MARKREAD #a {moment(5 + at)}")
    for clients in knowing:
        for client in clients:
            client.ping()
    for cluster, others in (clusters, clusters[::-1]):
        for node in cluster:
            expect(f"what {node.name} was told of the others", [], [
                line for line in node.log() for other in others if f"peer greeted: {other.name}" in line])


@test
def the_word_alone_is_not_answered(fixture):
    """The node that was connected to says its own word once it knows from which peer the connection comes."""
    node = begun(fixture)
    peer = stranger(node)
    peer.say("W green")
    Peer.dial(node).greet().close()
    peer.say(peer.hello())
    peer.hear("W green")
    peer.hear_hello()


def tells_nothing_more(version):
    """A test that a peer of that older version is greeted in it where the configuration says so. What it brings is taken and
    acknowledged; it is made no packet, in this life."""

    def call(fixture):
        node = Node(fixture, peers=[("n0", NOBODY, ("version", version))], servers=[NOBODY]).begin()
        peer = Peer.dial(node, version=version, told=version).greet()
        node.wait_for("peer greeted: n0")
        peer.give(0, POST_ONE)
        peer.hear_acknowledged(1)
        client = node.client().register(f"{PAST} draft/read-marker")
        client.say("CHATHISTORY LATEST #a * 10", "MARKREAD #a timestamp=1970-01-01T00:00:06.000Z")
        client.hear(*page(1, "#a", ONE), ":bnc.example MARKREAD #a timestamp=1970-01-01T00:00:06.000Z")
        # (a later hello of that life in a greater version changes nothing)
        peer.say("H 3 n0 5")
        peer.give(1, POST_TWO)
        peer.hear_acknowledged(2)
        peer.close()
        node.wait_for("peer down: n0")
        newer = Peer.dial(node, incarnation=6, told=version).greet()
        newer.hear_packet(0, 3, POST_ONE, "C MARK demo net #a 6000", POST_TWO)

    return call


for older in (1, 2):
    add(f"peers: a peer of version {older} is told nothing more", tells_nothing_more(older))


@test
def the_hello_bears_the_version_for_the_peer(fixture):
    """Whichever of the two opened the connection. A peer without the key is told version 3."""
    configured = {"n2": [("version", 1)], "n3": [("version", 2)], "n4": [("version", 3)], "n5": []}
    listeners = {name: Listener(fixture) for name in configured}
    peers = [(name, listeners[name].address, *more) for name, more in configured.items()]
    peers += [("m1", NOBODY, ("version", 1)), ("m2", NOBODY, ("version", 2)), ("m3", NOBODY)]
    node = Node(fixture, name="n1", peers=peers).begin()
    for name, version in (("n2", 1), ("n3", 2), ("n4", 3), ("n5", 3)):
        peer = Peer(fixture, listeners[name].accept(f"the peer {name}").socket, name, told=version)
        peer.hear("W green")
        peer.hear_hello()
    for name, version in (("m1", 1), ("m2", 2), ("m3", 3)):
        Peer.dial(node, name, told=version).greet()


@test
def a_packet_is_taken_and_acknowledged(fixture):
    """What a peer brings is in the pages, and goes on to it, as to any peer, until it is acknowledged."""
    node = begun(fixture)
    peer = Peer.dial(node).greet()
    peer.give(0, POST_TWO, POST_ONE)
    peer.hear_acknowledged(2)
    peer.hear_packet(0, 2, POST_TWO, POST_ONE)
    peer.acknowledge(2)
    shows(node, ONE, TWO)


@test
def a_packet_that_comes_twice_changes_nothing(fixture):
    node = begun(fixture)
    peer = Peer.dial(node).greet()
    peer.give(0, POST_ONE)
    peer.hear_acknowledged(1)
    peer.hear_packet(0, 1, POST_ONE)
    peer.acknowledge(1)
    peer.give(0, POST_ONE)
    peer.hear_acknowledged(1)
    peer.give(1, POST_TWO)
    peer.hear_acknowledged(2)
    peer.hear_packet(1, 2, POST_TWO)
    shows(node, ONE, TWO)


@test
def one_packet_is_under_way(fixture):
    """The next is made after the acknowledgement. It begins at the acknowledged number, and has what was published since."""
    node = begun(fixture)
    peer = Peer.dial(node).greet()
    client = node.client().register("draft/read-marker")
    for moment in (1, 2, 3):
        client.say(f"MARKREAD #m{moment} timestamp=1970-01-01T00:00:0{moment}.000Z")
        client.hear(f":bnc.example MARKREAD #m{moment} timestamp=1970-01-01T00:00:0{moment}.000Z")
    peer.hear_packet(0, 1, "C MARK demo net #m1 1000")
    client.ping()
    peer.acknowledge(1)
    peer.hear_packet(1, 3, "C MARK demo net #m2 2000", "C MARK demo net #m3 3000")
    peer.acknowledge(3)
    client.say("MARKREAD #m1 timestamp=1970-01-01T00:00:09.000Z")
    peer.hear_packet(3, 4, "C MARK demo net #m1 9000")


@test
def a_packet_has_at_most_256_changes(fixture):
    """The others come in the next one, after the acknowledgement."""
    node = begun(fixture)
    changes = [f"C MARK demo net #m{number} {number + 1}" for number in range(300)]
    giver = Peer.dial(node, incarnation=5).greet()
    giver.give(0, *changes[:256])
    giver.hear_acknowledged(256)
    giver.hear_packet(0, 256, *changes[:256])
    giver.give(256, *changes[256:])
    giver.hear_acknowledged(300)
    giver.close()
    node.wait_for("peer down: n0")
    again = Peer.dial(node, incarnation=6).greet()
    again.hear_packet(0, 256, *changes[:256])
    again.acknowledge(256)
    again.hear_packet(256, 300, *changes[256:])


@test
def a_peer_that_started_again_gets_all_of_it(fixture):
    """A greater incarnation is known with both numbers 0; what a life acknowledged counts for that life alone."""
    node = begun(fixture)
    peer = Peer.dial(node, incarnation=5).greet()
    peer.give(0, POST_ONE)
    peer.hear_acknowledged(1)
    peer.hear_packet(0, 1, POST_ONE)
    peer.acknowledge(1)
    peer.close()
    node.wait_for("peer down: n0")
    Peer.dial(node, incarnation=6).greet().hear_packet(0, 1, POST_ONE)


@test
def a_hello_that_comes_again_changes_nothing(fixture):
    """It is no news: it brings no packet where nothing is newer, and none while one is under way."""
    node = begun(fixture)
    peer = Peer.dial(node).greet()
    peer.say(peer.hello())
    peer.give(0, POST_ONE)
    peer.hear_acknowledged(1)
    peer.hear_packet(0, 1, POST_ONE)
    peer.say(peer.hello())
    peer.acknowledge(1)
    peer.say(peer.hello())
    peer.give(1, POST_TWO)
    peer.hear_acknowledged(2)
    peer.hear_packet(1, 2, POST_TWO)
    expect("how often the peer was greeted", 1, sum("peer greeted: n0" in line for line in node.log()))


def level(node, name="n0"):
    """How often the node told that it and that peer are level."""
    return sum(f"peer level: {name}: each has what the other had" in line for line in node.log())


@test
def a_node_and_its_peer_are_level_once(fixture):
    """Once the peer has acknowledged all, and its last packet had fewer changes than one may have. Over a later connection that
    is not told again."""
    node = begun(fixture)
    first = Peer.dial(node).greet()
    first.give(0, POST_ONE)
    first.hear_acknowledged(1)
    first.hear_packet(0, 1, POST_ONE)
    expect("how often it was told before the acknowledgement", 0, level(node))
    first.acknowledge(1)
    node.wait_for("peer level: n0: each has what the other had")
    first.close()
    node.wait_for("peer down: n0")
    again = Peer.dial(node).greet()
    again.give(1, POST_TWO)
    again.hear_acknowledged(2)
    again.hear_packet(1, 2, POST_TWO)
    again.acknowledge(2)
    again.give(2, "C MARK demo net #a 1")
    again.hear_acknowledged(3)
    expect("how often it was told", 1, level(node))


@test
def a_peer_with_more_to_give_is_not_level(fixture):
    """Its packet of 256 changes may be followed by another. Nor is one that hasn't acknowledged all."""
    node, marker = begun(fixture), "C MARK demo net #c 7000"
    changes = [f"C MARK demo net #m{number} {number + 1}" for number in range(300)]
    client, peer = node.client().register("draft/read-marker"), Peer.dial(node).greet()
    peer.give(0, *changes[:256])
    peer.hear_acknowledged(256)
    peer.hear_packet(0, 256, *changes[:256])
    peer.acknowledge(256)
    client.say(f"MARKREAD #c {moment(7)}")
    # (a packet is made once the one before it is acknowledged)
    peer.hear_packet(256, 257, marker)
    expect("how often it was told of a peer with more to give", 0, level(node))
    peer.give(256, *changes[256:])
    peer.hear_acknowledged(300)
    expect("how often it was told before the acknowledgement", 0, level(node))
    peer.acknowledge(257)
    peer.hear_packet(257, 301, *changes[256:])
    peer.acknowledge(301)
    node.wait_for("peer level: n0: each has what the other had")


@test
def who_can_not_be_reached_is_told(fixture):
    """With the name and the address of the peer."""
    node = Node(fixture, name="n1", peers=[("n2", NOBODY)], servers=[NOBODY]).begin()
    node.wait_for("peer unreachable: n2 at 127.0.0.1:1: connection refused")


OWN_NAME = "it said hello by this node's own name: give each node a name of its own"


@test
def two_nodes_of_one_name_that_meet_are_told_so(fixture):
    """The one that is dialed, and the one that dials."""
    listener = Listener(fixture)
    node = Node(fixture, name="n1", peers=[("n2", listener.address)], servers=[NOBODY]).begin()
    caller = Peer.dial(node, "n1")
    caller.say("W green", caller.hello())
    node.wait_for(f"peer refused: {spelled(caller.socket.getsockname())}: {OWN_NAME}")
    called = Peer(fixture, listener.accept("the peer n2").socket, "n1")
    called.say("W green", called.hello())
    node.wait_for(f"peer refused: n2 at {spelled(listener.address)}: {OWN_NAME}")


@test
def a_node_whose_name_another_bears_is_told_by_a_third(fixture):
    """Which knows a life of that name that began later, and by now: no clock is wrong."""
    node = begun(fixture)
    peer = Peer.dial(node).greet()
    later = int(peer.other.split(" ")[1]) + 1
    peer.say(f"A n0 5 n1 {later} 0")
    node.wait_for(f"node behind: n0 knows a later life of this node (incarnation {later}): another node has its name, "
                  "or its clock was behind as it started: give each node a name of its own, or start it again")


@test
def a_peer_that_ends_before_its_hello_is_told_by_name(fixture):
    """Where the node opened the connection."""
    listener = Listener(fixture)
    node = Node(fixture, name="n1", peers=[("n2", listener.address)], servers=[NOBODY]).begin()
    peer = Peer(fixture, listener.accept("the peer n2").socket, "n2")
    peer.hear("W green")
    peer.hear_hello()
    peer.close()
    node.wait_for(f"peer refused: n2 at 127.0.0.1:{listener.address[1]}: the other end closed it")


@test
def a_peer_that_is_behind_is_told(fixture):
    """Its clock was set back: it says a smaller incarnation. It learns which one is known and is sent no packet; what it brings
    is taken and acknowledged."""
    node = begun(fixture)
    first = Peer.dial(node, incarnation=9).greet()
    first.give(0, POST_ONE)
    first.hear_acknowledged(1)
    first.hear_packet(0, 1, POST_ONE)
    first.close()
    node.wait_for("peer down: n0")
    peer = Peer.dial(node, incarnation=8).greet()
    peer.hear(f"A {peer.other} n0 9 0")
    node.wait_for("peer behind: n0: its clock is behind its last life (incarnation 9)")
    peer.say(peer.hello())
    peer.give(0, POST_TWO)
    peer.hear_acknowledged(1)
    peer.give(1, POST_TWO)
    peer.hear_acknowledged(2)
    shows(node, ONE, TWO)
    for kind in ("peer greeted", "peer behind"):
        expect(f"how often '{kind}' was told", 1, sum(f"{kind}: n0" in line for line in node.log()))


MOST = 2**64 - 1
LATER = f"knows a later life of this node (incarnation {MOST}): set the clock right and start again"


@test
def a_node_that_is_behind_is_told(fixture):
    """By a packet or an acknowledgement to a greater incarnation of its own, once a connection. The packet is passed over."""
    node = begun(fixture)
    for number, lines in enumerate(([f"D n0 5 n1 {MOST} 0 1 1", POST_ONE], [f"A n0 5 n1 {MOST} 0"])):
        peer = Peer.dial(node).greet()
        peer.say(*lines, f"A n0 5 n1 {MOST} 1")
        marker = f"C MARK demo net #a {number + 1}"
        peer.give(number, marker)
        peer.hear_acknowledged(number + 1)
        peer.hear_packet(number, number + 1, marker)
        peer.acknowledge(number + 1)
        peer.close()
        fixture.until("the peer is down", lambda: sum("peer down: n0" in it for it in node.log()) > number)
        expect("how often it was told", number + 1, sum(f"node behind: n0 {LATER}" in it for it in node.log()))
    shows(node)


@test
def both_nodes_tell_that_one_is_behind(fixture):
    """The one learns it by the other's hello, and the other by what it is answered. What it brings reaches the first."""
    second = Node(fixture, name="n2", peers=[("n1", NOBODY)], servers=[NOBODY]).begin()
    Peer.dial(second, "n1", incarnation=MOST).greet().close()
    second.wait_for("peer down: n1")
    first = Node(fixture, name="n1", peers=[("n2", second.peers)], servers=[NOBODY]).begin()
    second.wait_for(f"peer behind: n1: its clock is behind its last life (incarnation {MOST})")
    first.wait_for("peer greeted: n2")
    first.wait_for(f"node behind: n2 {LATER}")
    client = second.client().register("draft/read-marker")
    first.client().register("draft/read-marker").say("MARKREAD #a timestamp=1970-01-01T00:00:05.000Z")
    client.hear(":bnc.example MARKREAD #a timestamp=1970-01-01T00:00:05.000Z")


@test
def an_acknowledgement_of_what_was_not_sent_is_passed_over(fixture):
    """And so is one between other lives."""
    node = begun(fixture)
    peer = Peer.dial(node).greet()
    peer.acknowledge(7)
    peer.say(f"A n0 4 {peer.other} 0", "A n0 5 n1 1 0")
    peer.give(0, POST_ONE)
    peer.hear_acknowledged(1)
    peer.hear_packet(0, 1, POST_ONE)


@test
def a_packet_to_another_life_is_passed_over(fixture):
    node = begun(fixture)
    peer = Peer.dial(node).greet()
    peer.say("D n0 5 n1 1 0 1 1", POST_ONE, "D n2 5 " + peer.other + " 0 1 1", POST_ONE)
    peer.give(0, POST_TWO)
    peer.hear_acknowledged(1)
    peer.hear_packet(0, 1, POST_TWO)


@test
def a_marker_that_a_peer_brings_is_told(fixture):
    """To the sessions that know markers, of both workers."""
    node = begun(fixture)
    clients = [node.client(f"client {number}").register("draft/read-marker") for number in range(2)]
    peer = Peer.dial(node).greet()
    peer.give(0, "C MARK demo net #a 5000")
    peer.hear_acknowledged(1)
    for client in clients:
        client.hear(":bnc.example MARKREAD #a timestamp=1970-01-01T00:00:05.000Z")
        client.ping()


def moment(seconds):
    return f"timestamp=1970-01-01T00:00:{seconds:02}.000Z"


@test
def each_new_marker_of_a_packet_is_told_once(fixture):
    """In the packet's order, by the last of its values for a conversation. One that is no further than before isn't told."""
    node = begun(fixture)
    clients = [node.client(f"client {number}").register("draft/read-marker") for number in range(2)]
    peer = Peer.dial(node).greet()
    peer.give(0, *(f"C MARK demo net #m{number} 5000" for number in range(200)))
    for client in clients:
        client.hear(*(f":bnc.example MARKREAD #m{number} {moment(5)}" for number in range(200)))
    same = [f"C MARK demo net #m{number} {5000 - number % 2}" for number in range(100)]
    more = [f"C MARK demo {place}" for place in ("net #b 7000", "net #b 8000", "net #b 2000", "net #m7 9000", "two #a 9000")]
    peer.give(200, *same, *more, *same, "C MARK demo net #end 1000")
    for client in clients:
        client.hear(
            f":bnc.example MARKREAD #b {moment(8)}", f":bnc.example MARKREAD #m7 {moment(9)}",
            f":bnc.example MARKREAD #end {moment(1)}",
        )
        client.ping()


# So many messages, and how long a packet's marker may take beside them, in seconds of the node's processor time.
MANY, SOON = 20000, 1


@test
def markers_are_told_at_once_however_much_is_held(fixture):
    """Which of a peer's markers are new is found by their conversations, so the first of them and later ones take no longer
    where the node holds many messages. No client waits for it."""
    node = Node(fixture, peers=[("n0", NOBODY, ("version", 2))], servers=[NOBODY]).begin()
    # (one of an older version is told nothing, so what it hears is acknowledgements alone)
    peer = Peer.dial(node, version=2, told=2).greet()
    for first in range(0, MANY, 250):
        peer.give(first, *(f"C POST demo net #a m{number} {number} P #a bob!b@h :hi" for number in range(first, first + 250)))
        peer.hear_acknowledged(first + 250)
    clients = [node.client(f"client {number}").register("draft/read-marker") for number in range(2)]
    others = [node.client(f"client {number} without markers").register() for number in range(2)]
    for first in range(2):
        before = node.processor_seconds()
        peer.give(MANY + first, f"C MARK demo net #a {first + 5}000")
        for client in others:
            client.ping()
        for client in clients:
            client.hear(f":bnc.example MARKREAD #a {moment(first + 5)}")
        took = node.processor_seconds() - before
        if took > SOON:
            raise Failed(f"marker {first + 1} took {took:.1f} seconds, with {MANY} messages held")


@test
def redactions_and_floors_that_a_peer_brings_hold(fixture):
    """Whenever they come: before the posts that they take away, or after them."""
    node = begun(fixture)
    peer = Peer.dial(node).greet()
    low = ["C FLOOR demo net #b 10", "C POST demo net #b y 9 P #b bob :low"]
    peer.give(0, "C REDACT demo net #a z1 *", POST_ONE, POST_TWO, *low)
    peer.hear_acknowledged(5)
    client = node.client().register(PAST)
    client.say("CHATHISTORY LATEST #a * 10", "CHATHISTORY LATEST #b * 10")
    client.hear(*page(1, "#a", TWO), *page(2, "#b"))


@test
def the_node_opens_the_connection_to_a_peer_of_a_greater_name(fixture):
    """Of two nodes the one with the smaller name opens the connection, and says its word and its hello first."""
    listener = Listener(fixture)
    node = Node(fixture, name="n1", peers=[("n2", listener.address)]).begin()
    peer = Peer(fixture, listener.accept("the peer n2").socket, "n2")
    peer.hear("W green")
    peer.hear_hello()
    peer.say("W green", "H 3 n2 5")
    node.wait_for("peer greeted: n2")
    peer.give(0, POST_ONE)
    peer.hear_acknowledged(1)
    peer.hear_packet(0, 1, POST_ONE)
