"""Sockets that take little, are interrupted, are read late, or aren't there (docs/CLIENTS.md, "Clients that are slow, or gone";
docs/OPERATING.md, "What it logs" and "Size"). What comes over them is whole."""

import os
import socket
import time

from harness.client import greeting, page
from harness.connection import connect, spelled
from harness.failure import Failed, expect
from harness.node import Node
from harness.peer import Peer
from harness.readable import readable
from harness.registry import add, test
from harness.server import Server, begun

NOBODY = ("127.0.0.1", 1)
BODY = "x" * 440
OFFERED = "message-tags"


def said(number):
    return f"@msgid=m{number:04} :bob!b@h PRIVMSG #a :{number} {BODY}"


def everybody_is_served(**faults):
    """A test that a server, a client and a peer are served whole by a node whose sockets have these faults."""

    def call(fixture):
        front = ["env", f"LD_PRELOAD={fixture.shims.path('sockets')}", *(f"{name}={value}" for name, value in faults.items())]
        server = Server(fixture)
        node = Node(fixture, servers=[server.address], channels=["#a"], peers=[("n0", NOBODY)], bound=1024, front=front).begin()
        session = server.register(OFFERED, channels=["#a"])
        clients = [node.client(f"client {number}") for number in range(2)]
        for client in clients:
            client.register("batch draft/chathistory message-tags", channels=["#a"])
        lines = [said(number) for number in range(30)]
        session.say(*lines)
        for client in clients:
            client.hear(*lines)
            client.say("CHATHISTORY LATEST #a * 100", "TOPIC #a :" + BODY, "PING end")
            client.hear(*page(1, "#a", *lines), ":bnc.example PONG bnc.example :end")
        session.hear(*2 * ["TOPIC #a :" + BODY])
        peer = Peer.dial(node).greet()
        head = peer.line("a packet").split(" ")
        expect("a packet of all", ["0", "30", "30"], head[5:])
        changes = [peer.line("a change") for _ in lines]
        expect("the changes", [f":{number} {BODY}" for number in range(30)], [line.split(" ", 10)[10] for line in changes])
        peer.acknowledge(30)
        peer.give(0, *(f"C MARK demo net #m{number} 5000" for number in range(200)))
        peer.hear_acknowledged(200)

    return call


for what, faults in (
    ("take 50 bytes of each write", {"MOUTHFUL": 50}),
    ("take a byte of each write", {"MOUTHFUL": 1}),
    ("are interrupted at each second read and write", {"INTERRUPTED": 1}),
    ("are interrupted, and take 50 bytes of each write", {"INTERRUPTED": 1, "MOUTHFUL": 50}),
):
    add(f"sockets: some that {what}", everybody_is_served(**faults))


# So much is asked for before anything is read: nine pages of a thousand messages.
PAGES, MOST, LATE = 9, 1000, 4 << 20


@test
def four_megabytes_reach_a_late_reader_whole(fixture):
    """It asks for pages of so much, and reads them a second later. Nothing is missing, and nothing comes twice."""
    node, server, session = begun(fixture, OFFERED, maximum=MOST, bound=1024)
    lines = [said(number) for number in range(MOST)]
    session.say(*lines)
    server.settled(session)
    client = node.client("the late reader", room=4096).register("batch draft/chathistory message-tags", maximum=MOST)
    client.say(*(f"CHATHISTORY LATEST #a * {MOST}" for _ in range(PAGES)), "PING end")
    wanted = [*(line for number in range(PAGES) for line in page(number + 1, "#a", *lines)), ":bnc.example PONG bnc.example :end"]
    wanted = "".join(f"{line}\r\n" for line in wanted).encode()
    if len(wanted) < LATE:
        raise Failed(f"that is no more than {len(wanted)} bytes")
    time.sleep(1)
    came = bytearray(client.held)
    while len(came) < len(wanted):
        more = client.receive(1 << 20)
        if not more:
            raise Failed(f"the connection was closed behind {len(came)} bytes of {len(wanted)}")
        came += more
    if came != wanted:
        at = next(at for at in range(len(wanted)) if came[:at + 1] != wanted[:at + 1])
        raise Failed(f"byte {at}: expected {wanted[at:at + 80]!r}, came {bytes(came[at:at + 80])!r}")
    fixture.notes.append(f"{len(wanted)} bytes")
    client.ping()


@test
def a_client_that_asks_while_a_page_is_owed_waits(fixture):
    """Its lines are taken in their order: nobody hears the marker that it set behind its questions before it has read the
    answers."""
    node, server, session = begun(fixture, OFFERED, maximum=MOST, bound=1024)
    lines = [said(number) for number in range(MOST)]
    session.say(*lines)
    server.told(session)
    others = [node.client(f"client {number}").register("draft/read-marker", maximum=MOST) for number in range(2)]
    slow = node.client("the slow client", room=4096)
    slow.register("batch draft/chathistory draft/read-marker message-tags", maximum=MOST)
    mark = "MARKREAD #a timestamp=1970-01-01T00:00:05.000Z"
    slow.say(*(f"CHATHISTORY LATEST #a * {MOST}" for _ in range(2 * PAGES)), mark)
    time.sleep(1)
    for other in others:
        other.ping()
        expect("what came before", b"", other.held)
    for number in range(2 * PAGES):
        slow.hear(*page(number + 1, "#a", *lines))
    for client in (slow, *others):
        client.hear(f":bnc.example {mark}")
        client.ping()


# So many descriptors a node has, so many connect, and so long nothing changes while there is none left. Once there are some again,
# those who wait are let in a second later, or somewhat more where the machine is busy.
DESCRIPTORS, GUESTS, WHILE, SOON = 20, 40, 2.5, 10


@test
def without_descriptors_nobody_spins_and_everybody_is_served_in_the_end(fixture):
    """Whoever finds none left waits, and is served once others have left. The operator is told once. The others are served
    meanwhile."""
    server = Server(fixture)
    front = ["sh", "-c", f'ulimit -n {DESCRIPTORS}; exec "$@"', "sh"]
    node = Node(fixture, servers=[server.address], places=2 * GUESTS, front=front).begin()
    session = server.register()
    guests = [node.client(f"guest {number}") for number in range(GUESTS)]
    for guest in guests:
        guest.say("PASS s3cret", "NICK al", "USER demo/net 0 * :Al", "PING in")
    node.wait_for("accept failed: tried again in a second")
    fixture.until("some are in", lambda: sum("client in: " in line for line in node.log()) >= 5)
    time.sleep(0.3)
    inside = [guest for guest in guests if readable([guest.socket])]
    if not 5 <= len(inside) < DESCRIPTORS:
        raise Failed(f"{len(inside)} guests are in")
    for guest in inside:
        guest.hear(*greeting(), ":bnc.example PONG bnc.example :in")
    before = node.processor_seconds()
    time.sleep(WHILE)
    used = node.processor_seconds() - before
    if used > WHILE / 5:
        raise Failed(f"the node took {used:.2f} seconds of processor time in {WHILE} seconds in which nothing happened")
    expect("how often it is told", 1, sum("accept failed" in line for line in node.log()))
    session.say(":bob!b@h PRIVMSG #a :hi")
    for guest in inside:
        guest.hear(":bob!b@h PRIVMSG #a :hi")
        guest.ping()
    outside, rounds = [guest for guest in guests if guest not in inside], 0
    while inside:
        # (those that are in leave, and as many of the others come in)
        for guest in inside:
            guest.close()
        began = time.monotonic()
        fixture.until("the next are in", lambda: not outside or readable([it.socket for it in outside]))
        if time.monotonic() - began > SOON:
            raise Failed(f"who waited was let in after {time.monotonic() - began:.1f} seconds")
        time.sleep(0.3)
        inside = [guest for guest in outside if readable([guest.socket])]
        outside = [guest for guest in outside if guest not in inside]
        for guest in inside:
            guest.hear(*greeting(), ":bnc.example PONG bnc.example :in")
        rounds += 1
    expect("who is still let wait", [], [guest.name for guest in outside])
    node.client("one that comes later").register()
    server.settled(session)
    fixture.notes.append(f"{rounds} rounds, {used:.2f} seconds of processor time in {WHILE}")


@test
def who_comes_while_no_further_socket_can_be_waited_for_is_closed(fixture):
    """As where the system lets a user wait for so many and no more. The others are served meanwhile, and its place is free."""
    unwatched = fixture.path("unwatched")
    front = ["env", f"LD_PRELOAD={fixture.shims.path('waits')}", f"UNWATCHED={unwatched}"]
    node = Node(fixture, servers=[NOBODY], workers=1, places=2, front=front).begin()
    first = node.client("the first client").register()
    fixture.write("unwatched", b"")
    node.client("a client that comes meanwhile").hear_end()
    first.ping()
    node.wait_for("client refused: ")
    os.remove(unwatched)
    second = node.client("a client that comes later").register()
    node.client("a client beyond the places").hear_end()
    for client in (first, second):
        client.ping()


# So many strangers come to the peers' port of a node that has so many descriptors.
STRANGERS, LIMIT = 150, 40


@test
def strangers_at_the_door_of_peers_leave_descriptors_for_clients(fixture):
    """Of those who say no hello ten stay, of a node with one peer. So a client gets in, and the peer."""
    front = ["sh", "-c", f'ulimit -n {LIMIT}; exec "$@"', "sh"]
    node = Node(fixture, peers=[("n0", NOBODY)], servers=[NOBODY], front=front).begin()
    strangers = [connect(fixture, node.peers) for _ in range(STRANGERS)]
    client = node.client().register()
    Peer.dial(node).greet()
    client.ping()
    for stranger in strangers:
        stranger.close()


# So many packets at most come from a peer before it is closed, and so many at once.
REPEATED, AT_ONCE = 400000, 1000


@test
def a_peer_that_repeats_a_packet_and_reads_nothing_is_closed(fixture):
    """Once more than 2,366,621 bytes wait for it, beyond what the system's own buffers hold. Clients are served meanwhile."""
    node = Node(fixture, peers=[("n0", NOBODY, ("version", 2))], servers=[NOBODY]).begin()
    client = node.client().register()
    peer = Peer(fixture, connect(fixture, node.peers, room=2048), "n0", version=2, told=2).greet()
    packet = f"D {peer.life} {peer.other} 0 {2**64 - 1} 1\r\nC MARK demo net #a 5000\r\n".encode()
    end = "peer down: n0: it did not read what was owed to it"
    for number in range(0, REPEATED, AT_ONCE):
        try:
            peer.send(AT_ONCE * packet)
        except ConnectionError:
            break
        client.ping()
        if node.told(end):
            break
    node.wait_for(end)
    client.ping()
    again = Peer.dial(node, version=2, told=2).greet()
    again.give(0, "C MARK demo net #a 6000")
    again.hear_acknowledged(1)
    fixture.notes.append(f"{number + AT_ONCE} packets at most")


# So often a connection is closed by the node, and so many lines lie unread then.
TRIALS, UNREAD = 60, 3000
# So many bytes are asked for that a client reads late, by PINGs of 300 bytes.
ASKED = 200


def heard_to_the_end(client):
    """All that comes until the connection ends. It has to end as the node closes it, and not by a reset, with which a system may
    throw away what wasn't read yet."""
    came = b""
    client.socket.settimeout(client.fixture.patience())
    while True:
        try:
            more = client.socket.recv(65536)
        except ConnectionResetError:
            raise Failed(f"{client.name}: the connection was reset, behind {came[-80:]!r}") from None
        if not more:
            return came.decode().splitlines()
        came += more


@test
def the_last_words_arrive_though_lines_lie_unread(fixture):
    """A client says QUIT and many lines behind it, which nobody reads, over and over."""
    node = Node(fixture, servers=[NOBODY]).begin()
    for number in range(TRIALS):
        client = node.client(f"client {number}")
        client.send(b"QUIT\r\n" + b"PING unread\r\n" * UNREAD)
        expect(client.name, ["ERROR :Closing link"], heard_to_the_end(client))


@test
def a_refusal_arrives_though_lines_lie_unread(fixture):
    """A node tells a second later that a secret is wrong, and reads nothing meanwhile. Eight clients wait for it at once."""
    node = Node(fixture, servers=[NOBODY]).begin()
    for turn in range(TRIALS // 20):
        clients = [node.client(f"client {number} of turn {turn}") for number in range(8)]
        for client in clients:
            client.say("PASS swordfish", "NICK al", "USER demo/net 0 * :Al")
        time.sleep(0.3)
        for client in clients:
            client.send(b"PING unread\r\n" * UNREAD)
        for client in clients:
            expect(client.name, [":bnc.example 464 * :Password incorrect", "ERROR :Closing link"], heard_to_the_end(client))


# So many connections that a worker has closed are kept for who may still read, each for so many seconds at most.
LINGERING, STAYS = 16, 1
# What a client says at once behind its QUIT, and how much of that the node and the system take at most.
PIECE, TAKEN = b"PING unread\r\n" * 100000, 64 << 20


@test
def who_is_closed_hears_of_it_at_once(fixture):
    """The quickest of five counts, since other tests may have the processors meanwhile: none waits until the node lets it go."""
    node, took = Node(fixture).begin(), []
    for number in range(5):
        client = node.client(f"client {number}")
        began = time.monotonic()
        client.say("QUIT")
        client.hear("ERROR :Closing link")
        client.hear_end()
        took.append(time.monotonic() - began)
    if min(took) > 0.9 * STAYS:
        raise Failed(f"the end was heard after {min(took):.2f} seconds")


def with_another(fixture, **how):
    """A node, a client that stays there, and how many sockets it has then."""
    node = Node(fixture, **how).begin()
    other = node.client("another client")
    other.ping()
    return node, other, node.sockets()


@test
def few_whom_the_node_has_closed_are_kept_and_not_for_long(fixture):
    """They don't close their ends. A worker keeps 16 of them for a second."""
    node, other, before = with_another(fixture, workers=1, places=64)
    clients = [node.client(f"client {number}") for number in range(3 * LINGERING)]
    for client in clients:
        client.say("QUIT")
    for client in clients:
        client.hear("ERROR :Closing link")
        client.hear_end()
    # (the last of them was closed before that is answered)
    other.ping()
    count = node.sockets() - before
    if count > LINGERING:
        raise Failed(f"{count} are kept")
    fixture.notes.append(f"{count} were kept")
    fixture.until("none is kept", lambda: node.sockets() == before)


def speaks_on(client, other):
    """Says QUIT and hears the end. Once the node has looked at its connections again, it says more."""
    client.say("QUIT")
    client.hear("ERROR :Closing link")
    client.hear_end()
    other.ping()
    client.say(*UNREAD * ["PING unread"])
    other.ping()


def is_not_reset(call):
    """The connection of a call's client isn't reset, once at least of five times: a node keeps those that it has closed for a
    second alone, and other tests may have the processors for longer."""
    for _ in range(5):
        try:
            if call().socket.getsockopt(socket.SOL_SOCKET, socket.SO_ERROR) == 0:
                return
        except ConnectionError:
            pass
    raise Failed("each connection was reset")


@test
def who_speaks_on_behind_its_end_is_not_reset(fixture):
    """Nor is it as the node lets it go."""
    node, other, before = with_another(fixture, workers=1)

    def call():
        client = node.client()
        speaks_on(client, other)
        fixture.until("the node lets it go", lambda: node.sockets() == before)
        return client

    is_not_reset(call)


@test
def of_many_whom_the_node_has_closed_the_latest_are_kept(fixture):
    """Sixteen that were closed don't close their ends. The next one speaks on, and isn't reset: the first makes way for it."""
    node, other, before = with_another(fixture, workers=1, places=64)

    def call():
        fixture.until("none is kept", lambda: node.sockets() == before)
        kept = [node.client(f"client {number}") for number in range(LINGERING)]
        for client in kept:
            client.say("QUIT")
        for client in kept:
            client.hear("ERROR :Closing link")
            client.hear_end()
        client = node.client()
        speaks_on(client, other)
        return client

    is_not_reset(call)


@test
def who_goes_on_speaking_behind_its_end_is_cut_off(fixture):
    """The node reads little of that, and others are served meanwhile."""
    node = Node(fixture, workers=1).begin()
    client, other = node.client(), node.client("another client")
    client.say("QUIT")
    client.hear("ERROR :Closing link")
    taken = 0
    while taken < TAKEN:
        try:
            client.send(PIECE)
        except ConnectionError:
            break
        taken += len(PIECE)
        other.ping()
    expect("whether it was cut off", True, taken < TAKEN)
    fixture.notes.append(f"{taken >> 20} MB were taken")


def reads_late(fixture, lines, *words):
    """A client reads all only after the node has closed it: answers that waited for it in the system, and the last words behind
    them. It said more than the node has read."""
    node = Node(fixture, servers=[NOBODY]).begin()
    client = node.client("a client that reads late", room=2048)
    client.say(*(f"PING {number:0300}" for number in range(ASKED)), *lines, *UNREAD * ["PING unread"])
    node.wait_for(f"client refused: {spelled(client.address)}: ")
    time.sleep(0.2)
    expect("what came", [*(f":bnc.example PONG bnc.example :{number:0300}" for number in range(ASKED)), *words],
           heard_to_the_end(client))


@test
def a_late_reader_hears_a_refusal_behind_its_answers(fixture):
    reads_late(fixture, ("PASS swordfish", "NICK al", "USER demo/net 0 * :Al"),
               ":bnc.example 464 * :Password incorrect", "ERROR :Closing link")


@test
def a_late_reader_hears_the_answer_of_quit_behind_its_answers(fixture):
    reads_late(fixture, ["QUIT"], "ERROR :Closing link")
