"""What is owed to servers and peers (docs/OPERATING.md, "Servers"; docs/PROTOCOL.md, "Between nodes" and "A session with a
server"). Who reads gets all of it, however much comes at once; a peer that never reads is closed, and what clients say to such a
server waits with them."""

import signal
import socket
import struct
import threading
import time

from harness.failure import Failed, expect
from harness.node import Node
from harness.peer import Peer
from harness.registry import add, test
from harness.server import Server, begun
from suites.limits import greeted, post, with_tags

NOBODY = ("127.0.0.1", 1)
UNREAD = "it did not read what was owed to it"
# So many changes has a packet at most, and so many bytes with them; so many bytes has a change with tags at most.
MOST, GREATEST_PACKET, GREATEST_CHANGE = 256, 1_318_045, 5_148
# The most client-only tags that a client's line may have (IRCv3 message-tags).
TAGS = "+x=" + "x" * 4091


def is_open(node, kind):
    """Fails where a connection of that kind was closed because of what it didn't read."""
    expect(f"whether a {kind} was closed", [], [line for line in node.log() if UNREAD in line])


# Packets of the greatest size


def posts(kind, first=0):
    """As many changes as a packet has, each of the greatest size that a post has, with tags or without."""
    plain = [post(id=f"{number:03}{'i' * 252}") for number in range(first, first + MOST)]
    return [with_tags(line) for line in plain] if kind == "TPOST" else plain


def redactions(first=0):
    """The same of redactions."""
    return [f"C REDACT {' '.join(line.split(' ')[2:7])}" for line in posts("POST", first)]


def changes_of(kind, first=0):
    return redactions(first) if kind == "REDACT" else posts(kind, first)


def goes_both_ways(kind):
    """A test that a node takes a packet of the most changes of that kind, each of the greatest size, and sends one."""

    def call(fixture):
        node, peer = greeted(fixture)
        changes = changes_of(kind)
        if kind == "TPOST":
            expect("the bytes of a change", [GREATEST_CHANGE], sorted({len(line) + 2 for line in changes}))
            expect("whether a packet of them is the greatest", True, MOST * GREATEST_CHANGE + 157 == GREATEST_PACKET)
        peer.give(0, *changes)
        peer.hear_acknowledged(MOST)
        peer.hear_packet(0, MOST, *changes)
        peer.acknowledge(MOST)
        node.wait_for("peer level: n0")
        is_open(node, "peer")

    return call


def comes_after_the_link_was_down(kind):
    """A test that a peer which was away gets such a packet as it comes back, while it sends one of its own and reads late."""

    def call(fixture):
        front = ["env", f"LD_PRELOAD={fixture.shims.path('sockets')}", "MOUTHFUL=500"]
        node, giver = greeted(fixture, front=front)
        theirs, ours = changes_of(kind), changes_of(kind, MOST)
        giver.give(0, *theirs)
        giver.hear_acknowledged(MOST)
        giver.close()
        node.wait_for("peer down: n0: the other end closed it")
        peer = Peer.dial(node, incarnation=6).greet()
        peer.give(0, *ours)
        time.sleep(1)
        heard = [peer.line("what the node says") for _ in range(2 + MOST)]
        acknowledged = f"A {peer.other} {peer.life} {MOST}"
        expect("how often all was acknowledged", 1, heard.count(acknowledged))
        heard.remove(acknowledged)
        expect("the packet of what was there", [f"D {peer.other} {peer.life} 0 {MOST} {MOST}", *theirs], heard)
        peer.acknowledge(MOST)
        peer.hear_packet(MOST, 2 * MOST, *ours)
        is_open(node, "peer")

    return call


for kind in ("POST", "TPOST", "REDACT"):
    add(f"owed: a packet of the greatest {kind} goes both ways", goes_both_ways(kind))
    add(f"owed: a packet of the greatest {kind} comes after the link was down", comes_after_the_link_was_down(kind))


@test
def a_node_that_starts_gets_messages_with_many_tags(fixture):
    """Three hundred messages, each with 4,094 bytes of tags: anybody in a channel can send such. Gossip doesn't stop at them."""
    servers = [Server(fixture), Server(fixture)]
    told = Node(fixture, "n2", [servers[0].address], [("n1", NOBODY)]).begin()
    session = servers[0].register("message-tags")
    body = "b" * 400
    for first in range(0, 300, 30):
        session.say(*(f"@msgid=m{number:03};{TAGS} :bob!b@h PRIVMSG #a :{number} {body}" for number in range(first, first + 30)))
        servers[0].settled(session)
    node = Node(fixture, "n1", [servers[1].address], [("n2", told.peers)]).begin()
    servers[1].register("message-tags")
    for it, other in ((told, "n1"), (node, "n2")):
        it.wait_for(f"peer level: {other}: each has what the other had")
    client = node.client().register("batch draft/chathistory message-tags")
    shown = client.ask("CHATHISTORY LATEST #a * 100")
    expect("the last of a hundred", f"m299;{TAGS} :bob!b@h PRIVMSG #a :299 {body}", shown[-1].partition("msgid=")[2])
    is_open(told, "peer")


# Servers that read


def a_paste_of_lines_with_tags(workers):
    """A test that fifteen lines of 4.6 kB, which a client sends in one piece, reach the server."""

    def call(fixture):
        node, _, session = begun(fixture, "message-tags", workers=workers)
        client = node.client().register()
        lines = [f"@{TAGS} PRIVMSG #a :{number:02} {'y' * 480}" for number in range(15)]
        client.say(*lines)
        session.hear(*lines)
        client.ping()
        is_open(node, "server")

    return call


# So many clients have so many lines each: more than fits into one turn of the server, and as many as fit into one of a client.
PASTING, PASTED = 10, 50


def pastes_at_once(workers):
    """A test that what many clients of a network paste while the node does something else reaches the server, in each one's
    order."""

    def call(fixture):
        node, _, session = begun(fixture, "message-tags", workers=workers)
        clients = [node.client(f"client {number}").register() for number in range(PASTING)]
        node.process.send_signal(signal.SIGSTOP)
        for name, client in enumerate(clients):
            client.say(*(f"TOPIC #a :{name} {number:02} {'y' * 480}" for number in range(PASTED)))
        node.process.send_signal(signal.SIGCONT)
        came = [session.line("a line that was pasted") for _ in range(PASTING * PASTED)]
        for name in range(PASTING):
            theirs = [line for line in came if line.startswith(f"TOPIC #a :{name} ")]
            expect(f"what client {name} pasted", [f"TOPIC #a :{name} {number:02} {'y' * 480}" for number in range(PASTED)], theirs)
        is_open(node, "server")

    return call


for workers in (1, 2):
    add(f"owed: a paste of lines with many tags reaches the server, with workers={workers}", a_paste_of_lines_with_tags(workers))
    add(f"owed: what many clients paste at once reaches the server, with workers={workers}", pastes_at_once(workers))


# So many other networks of the worker have something to say.
OTHERS = 8


class ManyNetworks(Node):
    """A node with a network, and others beside it."""

    networks = ("net", *(f"other{number}" for number in range(OTHERS)))


@test
def a_paste_reaches_a_server_while_other_networks_are_busy(fixture):
    """Each server of a worker has its turn in its order, and a client pastes two hundred lines meanwhile."""
    servers = [Server(fixture) for _ in range(1 + OTHERS)]
    node = ManyNetworks(fixture, servers=[it.address for it in servers], workers=1).begin()
    session, *others = [it.register() for it in servers]
    client = node.client().register()
    lines = [f"PRIVMSG #a :{number:03} {'y' * 430}" for number in range(200)]
    for other in others:
        other.say(*(f":bob!b@h PRIVMSG #a :{number} {'z' * 60}" for number in range(200)))
    client.say(*lines)
    session.hear(*lines)
    is_open(node, "server")
    for server, other in zip(servers[1:], others):
        server.settled(other)


def joins(fixture, count, length, **how):
    """A node that joins so many channels at 001, whose names have so many bytes; and its session with the server, which was
    greeted."""
    channels = [f"#{number:04}{'c' * (length - 5)}" for number in range(count)]
    server = Server(fixture)
    node = Node(fixture, servers=[server.address], channels=channels, **how).begin()
    session = server.greeted()
    session.say(":irc.example CAP * LS :")
    session.hear("CAP END")
    return node, session, channels


@test
def five_hundred_channels_are_joined(fixture):
    """At 001 the JOINs of all are sent, 83 kB, and the server hears each."""
    node, session, channels = joins(fixture, 500, 160)
    session.say(":irc.example 001 al :Welcome", "PING :up")
    session.hear(*(f"JOIN {channel}" for channel in channels), "PONG :up")
    is_open(node, "server")


@test
def any_number_of_channels_is_joined_as_the_server_reads(fixture):
    """Six thousand of the longest names, 1.2 MB of JOIN, while each write takes 500 bytes. What is said meanwhile stands behind
    them."""
    front = ["env", f"LD_PRELOAD={fixture.shims.path('sockets')}", "MOUTHFUL=500"]
    node, session, channels = joins(fixture, 6000, 200, front=front, workers=1)
    session.say(":irc.example 001 al :Welcome")
    session.hear("JOIN " + channels[0])
    session.say(*(f"PING :{number}" for number in range(300)))
    session.hear(*(f"JOIN {channel}" for channel in channels[1:]), *(f"PONG :{number}" for number in range(300)))
    is_open(node, "server")


# The least bound with which what comes at once is told together (docs/DECISIONS.md), and the one below it.
TOGETHER = 17_406


def a_burst_is_told_whole(bound):
    """A test that three hundred lines of a server which come in one piece reach a client that reads, and it stays."""

    def call(fixture):
        node, _, session = begun(fixture, "message-tags", workers=1, bound=bound)
        client = node.client().register()
        lines = [f":bob!b@h PRIVMSG #a :{number:03} {'y' * 480}" for number in range(300)]
        session.say(*lines)
        client.hear(*lines)
        client.ping()

    return call


for bound in (TOGETHER - 1, TOGETHER):
    add(f"owed: a burst of a server is told whole, with bound={bound}", a_burst_is_told_whole(bound))


# Servers that don't


# So many lines are poured in, some 30 MB; and by so many bytes the node may grow meanwhile.
POURED, GROWN = 60_000, 16 << 20


def resident(node):
    """How many bytes of memory the node has."""
    with open(f"/proc/{node.process.pid}/status", encoding="ascii") as file:
        return next(int(line.split()[1]) << 10 for line in file if line.startswith("VmRSS"))


@test
def what_a_client_says_waits_in_its_own_socket_while_its_server_does_not_read(fixture):
    """While more than half of what may be owed to the server is owed. The node takes no more in, and the session stays. Nobody else
    waits: no other client of the network, and nobody at the next one, which the same worker has. Once the server reads, it hears each
    line, in order."""
    slow, other = Server(fixture), Server(fixture)
    node = Node(fixture, servers=[slow.address, other.address], workers=1).begin()
    session, quick = slow.register(), other.register()
    speaker, beside = (node.client(f"client {number}").register() for number in range(2))
    stranger = node.client("a client of the next network").register(network=node.networks[1])
    before = resident(node)
    lines = [f"TOPIC #a :{number:05} {'y' * 480}" for number in range(POURED)]
    pasted = "".join(f"{line}\r\n" for line in lines).encode()
    speaker.socket.settimeout(None)
    paste = threading.Thread(target=lambda: speaker.socket.sendall(pasted), daemon=True)
    paste.start()
    time.sleep(2)
    expect("whether all of it is taken", True, paste.is_alive())
    slowest = 0
    for number in range(20):
        began = time.monotonic()
        beside.ping()
        stranger.say(f"TOPIC #a :{number}")
        quick.hear(f"TOPIC #a :{number}")
        slowest = max(slowest, time.monotonic() - began)
    grown = resident(node) - before
    if grown > GROWN:
        raise Failed(f"the node grew by {grown} bytes")
    expect("whether the session ended", False, node.told("upstream down"))
    session.hear(*lines)
    paste.join()
    speaker.ping()
    fixture.notes.append(f"the node grew by {grown >> 20} MB, and others were answered within {slowest * 1000:.1f} ms")


# What came before the end


# So many messages come before the end: more than are taken in one turn of a server.
LAST = 500


def last_words(fixture, workers):
    """The server says a lot, ends the session, and its machine refuses what comes for it from then on. So a write fails before
    all of it is read. All of it is told all the same, and the operator reads why the server ended the session."""
    node, _, session = begun(fixture, "message-tags", workers=workers)
    clients = [node.client(f"client {number}").register("message-tags") for number in range(2)]
    lines = [f"@msgid=m{number:03} :bob!b@h PRIVMSG #a :{number}" for number in range(LAST)]
    node.process.send_signal(signal.SIGSTOP)
    session.say("PING :first", *lines, "ERROR :Closing Link: al (K-lined)")
    # (it closes at once, and the system refuses what comes later)
    session.socket.setsockopt(socket.SOL_SOCKET, socket.SO_LINGER, struct.pack("ii", 1, 0))
    session.close()
    node.process.send_signal(signal.SIGCONT)
    for client in clients:
        client.hear(*lines)
    node.wait_for("upstream down: demo/net: it ended as the protocol says; the server said: Closing Link: al (K-lined)")


for workers in (1, 2):
    add(f"owed: what a server said before a write failed is heard, with workers={workers}",
        lambda fixture, workers=workers: last_words(fixture, workers))
