"""Strangers at a node's doors hold nobody up who knows the secret or the shared word (docs/OPERATING.md, "Strangers and
firewalls")."""

import collections
import os
import signal
import subprocess
import sys
import threading
import time

from harness import processes
from harness.client import greeting
from harness.clocks import Clocks
from harness.connection import Connection, connect, spelled
from harness.failure import Failed, expect
from harness.node import Node
from harness.peer import Peer
from harness.registry import add, test
from harness.server import Server
from suites.turns import reads_all, says_without_pause

# So many strangers come in a second, and in all; so many of their connections are kept open on this side.
RATE, STRANGERS, KEPT = 200, 10000, 400
# Within so many seconds a client is let in.
LET_IN = 5
NOBODY = ("127.0.0.1", 1)


class Strangers:
    """Connections on which nothing is said, which come at that rate in a thread of its own."""

    def __init__(self, fixture, address):
        self.fixture, self.address, self.kept = fixture, address, collections.deque()
        self.is_over, self.count, self.why = False, 0, None
        self.thread = threading.Thread(target=self.run, daemon=True)
        fixture.at_end(self.end)
        self.thread.start()

    def run(self):
        begun = time.monotonic()
        try:
            while not self.is_over and self.count < STRANGERS:
                self.come()
                time.sleep(max(0, begun + self.count / RATE - time.monotonic()))
        except (OSError, Failed) as failure:
            self.why = failure

    def come(self):
        self.kept.append(connect(self.fixture, self.address))
        self.count += 1
        if len(self.kept) > KEPT:
            self.kept.popleft().close()

    def end(self):
        self.is_over = True
        self.thread.join(5)
        while self.kept:
            self.kept.popleft().close()


@test
def who_knows_the_secret_gets_in_while_strangers_take_each_place(fixture):
    """10,000 strangers come at 200 a second, say nothing and stay. Who sends its lines at once is let in within 5 seconds, and
    stays."""
    server = Server(fixture)
    # (so many that a second goes by before a client gives way, also where this test waits for a processor)
    node = Node(fixture, servers=[server.address], places=256).begin()
    server.register()
    strangers, longest = Strangers(fixture, node.clients), 0.0
    fixture.until("each place is taken", lambda: strangers.count > 300)
    clients = []
    while strangers.thread.is_alive():
        begun = time.monotonic()
        client = node.client(f"client {len(clients)}")
        client.say("PASS s3cret", "NICK al", "USER demo/net 0 * :Al", "PING here")
        client.hear(*greeting(), ":bnc.example PONG bnc.example :here")
        longest = max(longest, time.monotonic() - begun)
        clients.append(client)
        # (some leave, so that strangers have places)
        if len(clients) > 20:
            clients.pop(0).close()
        time.sleep(0.5)
    expect("why strangers stayed away", None, strangers.why)
    expect("how many came", STRANGERS, strangers.count)
    if longest > LET_IN:
        raise Failed(f"a client was let in after {longest:.2f} seconds")
    for client in clients:
        client.ping()
    node.wait_for("clients refused: ")
    lines = sum("client refused: " in line for line in node.log())
    if lines > 100:
        raise Failed(f"the operator was told {lines} times of a client that was refused")
    fixture.notes.append(f"{longest:.2f} seconds at most, {lines} lines")


@test
def strangers_who_come_all_at_once_keep_nobody_out(fixture):
    """100 have connected by the time that a node comes to accept them, and there are three places. They give way one after
    another, and nobody is told that each place is taken: who comes behind them waits until it is its turn."""
    node = Node(fixture, servers=[NOBODY], places=3).begin()
    node.process.send_signal(signal.SIGSTOP)
    try:
        strangers = [connect(fixture, node.clients) for _ in range(100)]
        client = node.client("a client behind them")
    finally:
        node.process.send_signal(signal.SIGCONT)
    client.register()
    expect("whether a client was closed since each place is taken", False, any("each place is taken" in it for it in node.log()))
    for stranger in strangers:
        stranger.close()


@test
def who_has_said_who_it_is_stays(fixture):
    """A client has connected and sent its lines by the time that a node comes to accept it, and so have 100 strangers behind it,
    who say nothing. There are three places. It is the first to be asked to go, and what it sent is read before that."""
    node = Node(fixture, servers=[NOBODY], places=3).begin()
    node.process.send_signal(signal.SIGSTOP)
    try:
        client = node.client("a client before them")
        client.say("PASS s3cret", "NICK al", "USER demo/net 0 * :Al", "PING here")
        strangers = [connect(fixture, node.clients) for _ in range(100)]
    finally:
        node.process.send_signal(signal.SIGCONT)
    client.hear(*greeting(), ":bnc.example PONG bnc.example :here")
    for stranger in strangers:
        stranger.close()


@test
def who_has_waited_longest_gives_way(fixture):
    """And nobody who is registered does: where each place is such a client's, the next one is closed."""
    node = Node(fixture, servers=[NOBODY], places=3).begin()
    registered = node.client("a registered client").register()
    first, second = node.client("the first stranger"), node.client("the second stranger")
    for stranger in (first, second):
        stranger.ping()
    others = [node.client("a client that comes late").register()]
    first.hear_end()
    node.wait_for(f"client refused: {spelled(first.address)}: it had waited longest to say who it is")
    second.ping()
    others.append(node.client("one that comes later").register())
    second.hear_end()
    refused = node.client("one that comes too late")
    refused.hear_end()
    node.wait_for(f"client refused: {spelled(refused.address)}: each place is taken")
    for client in (registered, *others):
        client.ping()


@test
def a_peer_says_hello_while_strangers_stay_at_its_door(fixture):
    """A node with one peer has ten strangers there at most. The first of them give way."""
    node = Node(fixture, peers=[("n0", NOBODY)]).begin()
    strangers = []
    for number in range(50):
        strangers.append(Connection(fixture, connect(fixture, node.peers), f"stranger {number}"))
        if number >= 10:
            strangers[number - 10].hear_end()
    Peer.dial(node).greet()
    node.wait_for("peer greeted: n0")


@test
def a_peer_that_has_said_hello_stays(fixture):
    """It has connected and said hello by the time that a node comes to accept it, and so have 100 strangers behind it, who say
    nothing. There are ten of them at most. It is the first to make way, and what it sent is read before that."""
    node = Node(fixture, peers=[("n0", NOBODY)]).begin()
    node.process.send_signal(signal.SIGSTOP)
    try:
        peer = Peer.dial(node)
        peer.say("W green", peer.hello())
        strangers = [connect(fixture, node.peers) for _ in range(100)]
    finally:
        node.process.send_signal(signal.SIGCONT)
    peer.hear("W green")
    peer.hear_hello()
    peer.give(0, "C MARK demo net #a 5000")
    peer.hear_acknowledged(1)
    for stranger in strangers:
        stranger.close()


# So many strangers come to the peers' port while a worker is held up, and so many clients; so many of the strangers wait for the
# worker, and so many are there at once, at a node with one peer.
HELD_UP, GUESTS, WAITING, THERE = 40, 5, 16, 10


@test
def sixteen_wait_for_a_worker_and_the_others_in_the_queue_of_the_system(fixture):
    """The one worker is held up, and strangers come to the peers' port, with a peer behind them: the node takes in 16 of them, and
    no more as clients come to the other port, which it takes in one by one. Once the worker goes on, each of them has its turn. So
    it is again when they have left."""
    held = fixture.path("held")
    front = ["env", f"LD_PRELOAD={fixture.shims.path('waits')}", "WAITS=2", f"HELD={held}"]
    node = Node(fixture, workers=1, peers=[("n0", NOBODY)], front=front).begin()
    before = node.sockets()
    for turn in range(2):
        fixture.write("held", b"")
        fixture.until("the worker is held up", lambda: os.path.exists(f"{held}.here"))
        came = sixteen_wait(fixture, node, before, 5 + turn)
        os.remove(held)
        all_have_their_turn(*came)
        fixture.until("all have left", lambda: node.sockets() == before)
        os.remove(f"{held}.here")


def sixteen_wait(fixture, node, before, incarnation):
    """Strangers, a peer and clients that come to a node whose worker is held up, and that has so many sockets before."""
    strangers = [Connection(fixture, connect(fixture, node.peers), f"stranger {number}") for number in range(HELD_UP)]
    peer, clients = Peer.dial(node, incarnation=incarnation), []
    peer.say("W green", peer.hello())
    for number in range(GUESTS + 1):
        wanted = before + WAITING + number
        fixture.until(f"{wanted} sockets", lambda wanted=wanted: node.sockets() >= wanted)
        expect("sockets of the node", wanted, node.sockets())
        if number < GUESTS:
            clients.append(node.client(f"client {number}"))
    return strangers, peer, clients


def all_have_their_turn(strangers, peer, clients):
    """Of the strangers those go who came first, and the others can stay; the peer and the clients are heard. Then all leave."""
    for stranger in strangers[:HELD_UP - THERE]:
        stranger.hear_end()
    peer.hear("W green")
    peer.hear_hello()
    for client in clients:
        client.ping()
    for it in (*strangers, peer, *clients):
        it.close()


@test
def those_beyond_ten_within_a_minute_are_told_by_their_number(fixture):
    """The first ten of a minute are told one by one, at each door."""
    clocks = Clocks(fixture)
    node = Node(fixture, workers=1, peers=[("n0", NOBODY)], front=clocks.front).begin()
    wanted = []
    for kind, address, line, why in (
        ("peer", node.peers, "W other", "it sent another word than the shared one"),
        ("client", node.clients, "QUIT", "it ended as the protocol says"),
    ):
        for number in range(13):
            stranger = Connection(fixture, connect(fixture, address), f"{kind} {number}")
            stranger.say(line)
            if kind == "client":
                stranger.hear("ERROR :Closing link")
            stranger.hear_end()
            if number < 10:
                wanted.append(f"{kind} refused: {spelled(stranger.socket.getsockname())}: {why}")
        wanted.append(f"{kind}s refused: 3 more within a minute")
    clocks.skip(60)

    def are_told():
        told = [line.partition(" ")[2] for line in node.log() if " refused: " in line]
        return sorted(told) == sorted(wanted) or node.is_over()

    fixture.until("ten of each kind are told, and how many more there were", are_told)


# Strangers who come as fast as the system takes them. Each leaves once a hundred more of its process have come.
CROWD = """
import collections, socket, sys
address, kept, count = (sys.argv[1], int(sys.argv[2])), collections.deque(), 0
print("here", flush=True)
while True:
    try:
        kept.append(socket.create_connection(address, 5))
    except OSError:
        continue
    if len(kept) > 100:
        kept.popleft().close()
"""
# So many processes of them, clients that keep the worker busy, messages of a page, and seconds; and so often a peer comes, within
# so many seconds of the node's own.
CROWDS, ASKING, MESSAGES, LONG = 4, 20, 1000, 5
PEERS, IN_TIME = 5, 10
# So many sockets more a node may have meanwhile: ten strangers, 16 who wait for the worker, the 64 at most that it looks at before
# it closes those that give way, 16 that it has closed, one that is handed to it, and the peer.
MORE = THERE + WAITING + 64 + 16 + 2


def busy_node(fixture):
    """A node of one worker, at which clients ask for the longest pages without pause."""
    server = Server(fixture)
    node = Node(fixture, servers=[server.address], peers=[("n0", NOBODY)], workers=1, places=64, maximum=MESSAGES).begin()
    session = server.register("message-tags")
    session.say(*(f"@msgid=m{number:04} :bob!b@h PRIVMSG #a :{number} {'x' * 400}" for number in range(MESSAGES)))
    server.settled(session)
    clients = [node.client(f"client {number}").register("batch draft/chathistory", maximum=MESSAGES) for number in range(ASKING)]
    for client in clients:
        reads_all(fixture, client)
        says_without_pause(fixture, client, f"CHATHISTORY LATEST #a * {MESSAGES}")
    return node


def crowds_come(fixture, address):
    """Strangers begin to come to that address, from processes of their own."""
    for _ in range(CROWDS):
        crowd = processes.start([sys.executable, "-c", CROWD, *map(str, address)], stdin=subprocess.DEVNULL,
                                stdout=subprocess.PIPE, stderr=subprocess.DEVNULL)
        fixture.at_end(lambda crowd=crowd: processes.end(crowd))
        expect("what strangers say first", b"here\n", crowd.stdout.readline())


def strangers_leave_descriptors(fixture):
    """Strangers come to the peers' port by the thousand while the one worker is busy. Those beyond 16 who wait for it stay in the
    system's queue, so the node's sockets stay bounded. A peer gets in while the node takes ten seconds of processor time (a
    slow machine's takes four), of which it has less than there are where other tests have the processors. The quickest of
    five counts, since the system may ask a peer to come again."""
    node = busy_node(fixture)
    before, most, took = node.sockets(), 0, []
    crowds_come(fixture, node.peers)
    for number in range(PEERS):
        end = time.monotonic() + LONG / PEERS
        while time.monotonic() < end:
            most = max(most, node.sockets())
            time.sleep(0.01)
        if most > before + MORE:
            raise Failed(f"the node had {before} sockets before the strangers came, and {most} meanwhile")
        begun = node.processor_seconds()
        peer = Peer.dial(node, incarnation=5 + number).greet()
        took.append(node.processor_seconds() - begun)
        peer.close()
    fixture.notes.append(f"{before} sockets before, {most} at most; a peer in {max(took):.2f} seconds of the node's at most")
    if min(took) > IN_TIME:
        raise Failed(f"peers were let in after {min(took):.2f} to {max(took):.2f} seconds of the node's processor time")


add("strangers: by the thousand at the peers' port, while the worker is busy", strangers_leave_descriptors)
