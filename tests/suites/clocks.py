"""What is due later, and clocks that are set, over the clocks of the system (docs/OPERATING.md, "What a clock can do" and "What it
logs"; docs/PROTOCOL.md, "A connection"). A library before the C library has the node's clocks go ahead."""

import datetime
import os
import re
import socket
import time

from harness.client import greeting, page
from harness.clocks import Clocks
from harness.connection import Listener, connect, spelled
from harness.failure import Failed, expect
from harness.node import Node
from harness.peer import Peer
from harness.readable import readable
from harness.registry import test
from harness.scripts import TESTS
from harness.server import Server

NOBODY = ("127.0.0.1", 1)
PAST = "batch draft/chathistory message-tags"
DAY = 86400
MINUTES = 60


def has_come(listener):
    """Whether somebody waits to be taken in."""
    return bool(readable([listener.socket]))


def is_silent(connection):
    """Nothing came, and the connection is open."""
    expect(f"what came to {connection.name}", b"", connection.held)
    if readable([connection.socket]):
        raise Failed(f"{connection.name}: expected nothing, came {connection.receive()!r}")


def count_of(node, text):
    return sum(text in line for line in node.log())


@test
def a_client_has_60_seconds_to_register(fixture):
    """However the wall clock is set meanwhile. One that is registered may stay silent."""
    clocks = Clocks(fixture)
    node = Node(fixture, servers=[NOBODY], front=clocks.front).begin()
    registered, waits = node.client("a registered client").register(), node.client("a client that waits")
    waits.ping()
    clocks.set_ahead(6 * MINUTES)
    clocks.skip(57)
    waits.ping()
    clocks.skip(3)
    waits.hear_end()
    node.wait_for(f"client refused: {spelled(waits.address)}: ")
    registered.ping()


@test
def sixty_seconds_are_those_of_the_monotonic_clock(fixture):
    """With 59 of them gone at once, a stranger has one second more: not a millisecond less, and not much more."""
    clocks = Clocks(fixture)
    node = Node(fixture, servers=[NOBODY], front=clocks.front).begin()
    for number in range(3):
        begun = time.monotonic()
        stranger = node.client(f"stranger {number}")
        stranger.ping()
        clocks.go(59)
        stranger.hear_end()
        took = time.monotonic() - begun
        # (a millisecond is cut off, and on a busy machine the node is late)
        if not 0.999 <= took < 10:
            raise Failed(f"stranger {number} had 59 seconds and {took:.4f} more")


@test
def a_message_has_the_time_of_the_wall_clock(fixture):
    """To the millisecond, however that is set."""
    clocks, server = Clocks(fixture), Server(fixture)
    node = Node(fixture, servers=[server.address], front=clocks.front).begin()
    session = server.register()
    client = node.client().register("server-time")
    for ahead in (0, 0.75, DAY, -2 * DAY, 0.25):
        clocks.set_ahead(ahead)
        for number in range(20):
            before = clocks.now()
            session.say(f":bob!b@h PRIVMSG #a :{number}")
            told = re.fullmatch(rf"@time=([^;]+)Z :bob!b@h PRIVMSG #a :{number}", client.line())
            after = clocks.now()
            moment = datetime.datetime.fromisoformat(told[1]).replace(tzinfo=datetime.timezone.utc).timestamp() if told else 0
            if not before <= round(moment * 1000) <= after:
                raise Failed(f"a message between {before} and {after} has the time {told and told[1]}")


@test
def a_server_is_tried_again_after_60_seconds(fixture):
    """Though the wall clock was set back by an hour."""
    clocks, server = Clocks(fixture), Server(fixture)
    node = Node(fixture, servers=[server.address], front=clocks.front).begin()
    server.register().close()
    node.wait_for("upstream down: demo/net: ")
    clocks.set_ahead(-60 * MINUTES)
    clocks.skip(57)
    expect("whether it is tried before", False, has_come(server))
    clocks.skip(3)
    server.register()


def full(fixture):
    """A port whose queue is full. Who connects there waits, and is refused once the port is closed."""
    it = socket.socket()
    fixture.at_end(it.close)
    it.bind(("127.0.0.1", 0))
    it.listen(0)
    fixture.at_end(connect(fixture, it.getsockname()).close)
    return it


@test
def who_is_not_there_is_tried_again_each_60_seconds(fixture):
    """A server and a peer refuse the first connection at once, and one of each late. Who is there by then is reached."""
    clocks, server, peer = Clocks(fixture), Server(fixture, is_there=False), Listener(fixture, is_there=False)
    late = [full(fixture) for _ in range(2)]
    addresses = [it.getsockname() for it in late]
    node = Node(fixture, servers=[server.address, addresses[0]], peers=[("n2", peer.address), ("n3", addresses[1])],
                front=clocks.front).begin()
    at_once = [f"upstream down: demo/net: it could not be reached at {spelled(server.address)}: connection refused",
               f"peer unreachable: n2 at {spelled(peer.address)}: connection refused"]
    others = [f"upstream down: demo/two: it could not be reached at {spelled(addresses[0])}: connection refused",
              f"peer unreachable: n3 at {spelled(addresses[1])}: connection refused"]

    def are_told(lines, times):
        fixture.until(f"{lines} are told {times} times", lambda: [count_of(node, it) for it in lines] == len(lines) * [times])

    are_told(at_once, 1)
    time.sleep(0.5)
    expect("how often the others were told before", [0, 0], [count_of(node, it) for it in others])
    for it in late:
        it.close()
    are_told(others, 1)
    for times in range(1, 4):
        # (those who refuse late did so some seconds after the others)
        clocks.skip(50)
        are_told(at_once + others, times)
        if times == 3:
            server.listen()
            peer.listen()
        clocks.skip(15)
    server.register()
    reached = Peer(fixture, peer.accept("the peer n2").socket, "n2")
    reached.hear("W green")
    reached.hear_hello()
    reached.say("W green", reached.hello())
    node.wait_for("peer greeted: n2")
    are_told(at_once, 3)
    are_told(others, 4)


@test
def a_server_is_given_up_once_it_was_silent_for_5_minutes(fixture):
    """A wall clock that is set six minutes ahead, or back, gives none up that lives. One that is given up is dialed again a minute
    later."""
    clocks, server = Clocks(fixture), Server(fixture)
    node = Node(fixture, servers=[server.address], front=clocks.front).begin()
    session = server.register()
    for seconds in (6 * MINUTES, -12 * MINUTES):
        clocks.set_ahead(seconds)
        clocks.skip(2 * MINUTES)
        server.settled(session)
    clocks.skip(5 * MINUTES - 5)
    server.settled(session)
    clocks.skip(5 * MINUTES)
    node.wait_for("upstream down: demo/net: it was silent for too long")
    session.hear_end()
    clocks.skip(MINUTES - 5)
    expect("whether it is dialed before", False, has_come(server))
    clocks.skip(5)
    server.register()


@test
def timers_of_different_lengths_are_on_time(fixture):
    """Clients that come at different times have 60 seconds each, and between them a server is tried again."""
    clocks, server = Clocks(fixture), Server(fixture)
    node = Node(fixture, servers=[server.address], workers=1, front=clocks.front).begin()
    session = server.register()
    first = node.client("the first client")
    first.ping()
    clocks.skip(15)
    later = [node.client(f"client {number}") for number in (2, 3)]
    for client in later:
        client.ping()
    session.close()
    node.wait_for("upstream down: demo/net: ")
    clocks.skip(15)
    # (30 seconds are left to the one, and 45 to the others and to the server)
    clocks.skip(25)
    first.ping()
    clocks.skip(5)
    first.hear_end()
    clocks.skip(10)
    for client in later:
        client.ping()
    expect("whether the server is tried before", False, has_come(server))
    clocks.skip(5)
    for client in later:
        client.hear_end()
    server.register()


@test
def a_client_is_told_the_nick_that_a_later_session_has(fixture):
    """The server changes it, and the next session has another spelling of it. Whoever knows another one is told so, once."""
    clocks, server = Clocks(fixture), Server(fixture)
    node = Node(fixture, servers=[server.address], front=clocks.front).begin()
    session = server.register()
    clients = [node.client(f"client {number}").register() for number in range(2)]
    session.say(":al!a@h NICK bo")
    for client in clients:
        client.hear(":al!a@h NICK bo")
        client.ping()
    session.close()
    node.wait_for("upstream down: demo/net: ")
    clients.append(node.client("a client that comes meanwhile"))
    clients[2].say("PASS s3cret", "NICK al", "USER demo/net 0 * :Al")
    knows = clients[2].line("a welcome").split(" ")[2]
    clients[2].hear(*greeting(knows)[1:])
    clocks.skip(60)
    session = server.greeted()
    session.say(":irc.example 001 BO :Welcome")
    server.settled(session)
    for client, known in zip(clients, ("bo", "bo", knows)):
        client.hear(f":{known} NICK BO")
        client.ping()
    node.client("a later client").register(nick="BO")


@test
def a_hello_is_said_again_and_a_peer_that_is_silent_is_gone(fixture):
    """After 60 seconds in which nothing else was sent, and after five minutes in which nothing came."""
    clocks = Clocks(fixture)
    node = Node(fixture, peers=[("n0", NOBODY, ("version", 2))], servers=[NOBODY], front=clocks.front).begin()
    # (one of an older version is told nothing else but acknowledgements)
    peer = Peer.dial(node, version=2, told=2).greet()
    for _ in range(4):
        clocks.skip(57)
        is_silent(peer)
        clocks.skip(4)
        peer.hear(f"H 2 {peer.other}")
    peer.give(0, "C MARK demo net #a 5000")
    peer.hear_acknowledged(1)
    clocks.skip(5 * MINUTES - 5)
    peer.hear(f"H 2 {peer.other}")
    is_silent(peer)
    clocks.skip(5)
    node.wait_for("peer down: n0: nothing came from it for five minutes, so it is taken for gone")


def next_but_hellos(peer):
    """What the peer hears next beside hellos, which may be due at the same moment. None is the connection's end."""
    while True:
        try:
            line = peer.line("a packet")
        except Failed as failure:
            if str(failure).endswith("the connection was closed"):
                return None
            raise
        if line != f"H 3 {peer.other}":
            return line


@test
def a_packet_is_sent_again_after_60_seconds(fixture):
    """And the connection is closed once the third one has waited so long."""
    clocks = Clocks(fixture)
    node = Node(fixture, peers=[("n0", NOBODY)], servers=[NOBODY], front=clocks.front).begin()
    peer = Peer.dial(node).greet()
    node.client().register("draft/read-marker").say("MARKREAD #a timestamp=1970-01-01T00:00:05.000Z")
    for _ in range(3):
        expect("the head of a packet", f"D {peer.other} {peer.life} 0 1 1", next_but_hellos(peer))
        peer.hear("C MARK demo net #a 5000")
        clocks.skip(57)
        is_silent(peer)
        clocks.skip(4)
    expect("what comes behind the third packet", None, next_but_hellos(peer))
    node.wait_for("peer down: n0: it acknowledged nothing for too long")


@test
def a_peer_with_a_newer_connection_is_not_dialed_again(fixture):
    """This node opens the connections with n2, which has opened one itself. Once that ended it is dialed again."""
    clocks, listener = Clocks(fixture), Listener(fixture)
    node = Node(fixture, peers=[("n2", listener.address)], servers=[NOBODY], front=clocks.front).begin()
    first = Peer(fixture, listener.accept("the peer n2").socket, "n2")
    first.hear("W green")
    first.hear_hello()
    first.say("W green", first.hello())
    node.wait_for("peer greeted: n2")
    newer = Peer.dial(node, "n2").greet()
    first.hear_end()
    node.wait_for("peer down: n2: a newer connection took its place")
    clocks.skip(3 * MINUTES)
    expect("whether it is dialed again", False, has_come(listener))
    expect("how often it was told to be absent", 0, count_of(node, "peer absent"))
    newer.hear(f"H 3 {newer.other}")
    newer.give(0, "C MARK demo net #a 5000")
    newer.hear_acknowledged(1)
    newer.close()
    fixture.until("the peer is down", lambda: count_of(node, "peer down: n2") == 2)
    clocks.skip(57)
    expect("whether it is dialed before", False, has_come(listener))
    clocks.skip(4)
    listener.accept("the peer n2").hear("W green")


@test
def a_peer_without_a_connection_is_told_once(fixture):
    clocks = Clocks(fixture)
    node = Node(fixture, peers=[("n2", NOBODY)], servers=[NOBODY], front=clocks.front).begin()
    clocks.skip(115)
    expect("how often it was told before", 0, count_of(node, "peer absent"))
    for _ in range(3):
        clocks.skip(2 * MINUTES)
    expect("how often it was told", 1, count_of(node, "peer absent: n2: no connection for two minutes"))


@test
def a_node_whose_clock_was_set_back_gets_nothing_until_it_is_set_right(fixture):
    """Both operators are told. What it publishes reaches the other node all the same."""
    clocks = Clocks(fixture)
    second = Node(fixture, name="n2", peers=[("n1", NOBODY)], servers=[NOBODY]).begin()
    first = Node(fixture, name="n1", peers=[("n2", second.peers)], servers=[NOBODY], front=clocks.front).begin()
    second.wait_for("peer greeted: n1")
    first.kill()
    second.wait_for("peer down: n1")
    told = second.client().register("draft/read-marker")
    told.say("MARKREAD #a timestamp=1970-01-01T00:00:05.000Z")
    told.hear(":bnc.example MARKREAD #a timestamp=1970-01-01T00:00:05.000Z")
    clocks.set_ahead(-60 * MINUTES)
    first.forget_log()
    first.begin()
    second.wait_for("peer behind: n1: its clock is behind its last life")
    first.wait_for("node behind: n2 knows a later life of this node")
    client = first.client().register("draft/read-marker")
    client.say("MARKREAD #b timestamp=1970-01-01T00:00:06.000Z", "MARKREAD #a")
    client.hear(":bnc.example MARKREAD #b timestamp=1970-01-01T00:00:06.000Z", ":bnc.example MARKREAD #a *")
    told.hear(":bnc.example MARKREAD #b timestamp=1970-01-01T00:00:06.000Z")
    first.kill()
    clocks.set_ahead(60 * MINUTES)
    first.forget_log()
    first.begin()
    client = first.client("a client of the next life")
    client.say("CAP REQ :draft/read-marker", "PASS s3cret", "NICK al", "USER demo/net 0 * :Al", "CAP END", "MARKREAD #a")
    # (it is told once the node has the marker, or is answered so)
    while client.line("the marker") != ":bnc.example MARKREAD #a timestamp=1970-01-01T00:00:05.000Z":
        pass


def retaining(fixture, hours=24):
    """A node that keeps messages for 30 days, with a message that will be as old in so many hours, and a client that asks for it."""
    clocks, server = Clocks(fixture), Server(fixture)
    node = Node(fixture, servers=[server.address], retain_days=30, front=clocks.front).begin()
    node.wait_for("retention: messages are kept for 30 days at most, here and on every node of the cluster")
    session = server.register("message-tags server-time")
    time_tag = time.strftime("%Y-%m-%dT%H:%M:%S.000Z", time.gmtime(time.time() - 30 * DAY + hours * 60 * MINUTES))
    session.say(f"@msgid=m1;time={time_tag} :bob!b@h PRIVMSG #a :hi")
    server.settled(session)
    client = node.client().register(PAST)
    return clocks, node, client


def shows(client, reference, *lines):
    client.say("CHATHISTORY LATEST #a * 10")
    client.hear(*page(reference, "#a", *lines))


SHOWN = "@msgid=m1 :bob!b@h PRIVMSG #a :hi"


@test
def a_clock_that_is_40_days_ahead_for_four_seconds_takes_nothing(fixture):
    """It is told of both times that it leapt. Nothing that is due is dropped: an hour in which both clocks went alike lets it
    go."""
    clocks, node, client = retaining(fixture)
    clocks.skip(60 * MINUTES - 10)
    clocks.set_ahead(40 * DAY)
    clocks.skip(12)
    node.wait_for("clock leapt: ")
    clocks.set_ahead(-40 * DAY)
    shows(client, 1, SHOWN)
    clocks.skip(60 * MINUTES)
    shows(client, 2, SHOWN)
    clocks.set_ahead(2 * DAY)
    clocks.skip(60 * MINUTES)
    shows(client, 3, SHOWN)
    expect("how often it leapt", 3, count_of(node, "clock leapt: "))
    expect("how often floors were put", 0, count_of(node, "floors put: "))
    clocks.skip(60 * MINUTES)
    node.wait_for("floors put: 1, and what is older than ")
    shows(client, 4)


@test
def what_is_older_than_30_days_is_let_go_once_an_hour(fixture):
    clocks, node, client = retaining(fixture, 5)
    for hour in range(1, 6):
        clocks.skip(60 * MINUTES)
        if node.told("floors put: "):
            break
        shows(client, hour, SHOWN)
    expect("after how many hours", 5, hour)
    shows(client, hour)


@test
def the_unit_of_systemd_waits_for_the_clock(fixture):
    """Since a node believes the clock that it starts with."""
    with open(os.path.join(os.path.dirname(TESTS), "examples", "bnc.service"), encoding="utf-8") as file:
        keys = dict(line.strip().split("=", 1) for line in file if "=" in line and not line.startswith("#"))
    for key in ("After", "Wants"):
        expect(f"whether {key} has it", True, "time-sync.target" in keys[key].split())
