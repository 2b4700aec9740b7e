"""Several workers, and what they tell each other (docs/OPERATING.md, "Size": clients go to the workers in turn, network i is served
by worker i modulo `workers`)."""

import statistics
import subprocess
import sys
import time

from harness import processes
from harness.clocks import Clocks
from harness.connection import connect
from harness.failure import Failed, expect
from harness.identities import identity_of
from harness.node import Node
from harness.peer import Peer
from harness.registry import test
from harness.server import Server
from suites.turns import Ear, reads_all, says_without_pause

NOBODY = ("127.0.0.1", 1)


@test
def three_workers_pass_on_each_line_once(fixture):
    """Lines of either network's server, of any kind, reach the clients of each worker, in their order. So does what a client
    says reach its server."""
    servers = [Server(fixture), Server(fixture)]
    node = Node(fixture, servers=[it.address for it in servers], workers=3).begin()
    sessions = [it.register("draft/message-redaction message-tags") for it in servers]
    for network, server, session in zip(node.networks, servers, sessions):
        nick = server.identity().nick
        clients = [node.client(f"client {number} of {network}") for number in range(6)]
        for client in clients:
            client.register("draft/message-redaction message-tags", network=network)
        lines = []
        for number in range(50):
            lines += [f":bob!b@h TOPIC #a :{number}", f"@msgid=m{number} :bob!b@h PRIVMSG #a :{number}",
                      f":irc.example 372 {nick} :- {number}", f":bob!b@h REDACT #a m{number}"]
        lines += [f":{nick}!a@h JOIN #c", f":{nick}!a@h NICK bo", f":bo!a@h NICK {nick}", f":{nick}!a@h PART #c"]
        session.say(*lines)
        for number, client in enumerate(clients):
            client.hear(*lines)
            client.say(f"MODE #a +{number}", f"PRIVMSG #a :from {number}", f"WHOIS {number}")
            session.hear(f"MODE #a +{number}", f"PRIVMSG #a :from {number}", f"WHOIS {number}")
        server.settled(session)
        for client in clients:
            client.ping()
            client.close()


# What the server of a network offers, and what clients of it hold.
OFFERED = "draft/message-redaction message-tags server-time"
HOLDING = "draft/message-redaction draft/read-marker message-tags"
ECHOING = "echo-message"
AT_FIVE = "timestamp=1970-01-01T00:00:05.000Z"
AT_SIX = "timestamp=1970-01-01T00:00:06.000Z"


def is_told(client, line, answer):
    """Says that line, and then whether the client was told this and nothing else, or nothing."""
    client.say(line, "PING done")
    done = ":bnc.example PONG bnc.example :done"
    heard = client.line("an answer")
    if heard == done:
        return False
    expect(client.name, answer, heard)
    client.hear(done)
    return True


class Two:
    """A node of two workers, each with the server of a network. The network of the worker `serving` is looked at. No server has
    welcomed anybody yet."""

    def __init__(self, fixture, serving, peers=()):
        self.fixture, self.serving = fixture, serving
        self.servers = [Server(fixture), Server(fixture)]
        self.node = Node(fixture, servers=[it.address for it in self.servers], peers=peers, workers=2).begin()
        self.network = self.node.networks[serving]
        self.nick = self.servers[serving].identity().nick
        self.came = 0

    def client(self, worker, capabilities="", **how):
        """A registered client at that worker. Clients go to the workers in turn, so one that is silent may come before it."""
        while True:
            at, self.came = self.came % 2, self.came + 1
            client = self.node.client(f"client {self.came} at worker {at}")
            if at == worker:
                return client.register(capabilities, **{"network": self.network, "channels": (), **how})

    def welcome(self, nick=None):
        """The network's server offers its capabilities, and gives that nick, or the one that was asked for. No channel is joined.
        Answers the session."""
        server = self.servers[self.serving]
        session = server.greeted()
        session.say(f":irc.example CAP * LS :{OFFERED}")
        session.hear(f"CAP REQ :{OFFERED}")
        session.say(f":irc.example CAP * ACK :{OFFERED}")
        session.hear("CAP END")
        session.say(f":irc.example 001 {nick or self.nick} :Welcome")
        session.hear(*(f"JOIN {channel}" for channel in server.identity().channels))
        return session


class Across(Two):
    """Clients of the network at either worker, and clients of the other network, who hear nothing of it. They are told nothing but
    what is heard here, and each of it once."""

    def __init__(self, fixture, serving):
        super().__init__(fixture, serving)
        places, elsewhere = (serving, 1 - serving), self.node.networks[1 - serving]
        self.holding = [self.client(worker, HOLDING) for worker in places]
        self.echoing = [self.client(worker, ECHOING) for worker in places]
        self.strangers = [self.client(worker, HOLDING, network=elsewhere) for worker in places]
        self.everybody = [*self.holding, *self.echoing]
        self.session = None

    def hear(self, *lines, by=()):
        """All clients of the network hear these lines next, or those."""
        for client in by or self.everybody:
            client.hear(*lines)

    def nothing_more(self):
        """Nobody hears anything else. What was told before comes before this line of the server."""
        self.session.say(":irc.example 372 al :- all")
        self.hear(":irc.example 372 al :- all")
        for client in (*self.everybody, *self.strangers):
            client.ping()

    def says(self, client, line):
        """What a client says reaches the server."""
        client.say(line)
        self.session.hear(line)

    def up(self):
        """The network is up under another nick, which no line of the server tells."""
        for client in self.everybody:
            client.say("JOIN #a")
            client.hear(f":bnc.example NOTICE {self.nick} :Not connected to {self.network}")
        self.session = self.welcome("bo")
        self.hear(f":{self.nick} NICK bo")
        self.nothing_more()
        for client in self.everybody:
            self.says(client, "JOIN #a")

    def lines(self):
        """Messages and other lines of the server. Those that echo get what the session's own nick said."""
        self.session.say("@msgid=z1;time=1970-01-01T00:00:05.000Z :bob!b@h PRIVMSG #A :hi")
        self.hear("@msgid=z1 :bob!b@h PRIVMSG #A :hi", by=self.holding)
        self.hear(":bob!b@h PRIVMSG #A :hi", by=self.echoing)
        self.session.say("@msgid=z2;time=1970-01-01T00:00:06.000Z :bo!a@h PRIVMSG #a :mine")
        self.hear(":bo!a@h PRIVMSG #a :mine", by=self.echoing)
        self.session.say(":bo!a@h JOIN #b")
        self.hear(":bo!a@h JOIN #b")
        self.hear(":bnc.example MARKREAD #b *", by=self.holding)
        self.session.say(":bob!b@h TOPIC #b :x", ":bo!a@h NICK cy")
        self.hear(":bob!b@h TOPIC #b :x", ":bo!a@h NICK cy")
        self.nothing_more()

    def of_clients(self):
        """Markers, messages and redactions of clients at either worker."""
        for client, at in zip(self.holding, (AT_FIVE, AT_SIX)):
            client.say(f"MARKREAD #a {at}")
            self.hear(f":bnc.example MARKREAD #a {at}", by=self.holding)
        for client in self.echoing:
            self.says(client, f"PRIVMSG #a :from {client.name}")
            self.hear(f":cy PRIVMSG #a :from {client.name}", by=self.echoing)
        for client in self.holding:
            self.says(client, "REDACT #a z1")
        self.session.say(":bob!b@h REDACT #a z1")
        self.hear(":bob!b@h REDACT #a z1", by=self.holding)
        self.nothing_more()

    def come_late(self):
        """Whoever comes now is told the nick and the channel, at either worker."""
        for worker in (0, 1):
            self.client(worker, "draft/read-marker", nick="cy", channels=["#b"]).close()

    def down(self):
        """The network is down, and the other one never was up."""
        self.session.close()
        for client in self.everybody:
            answer = f":bnc.example NOTICE cy :Not connected to {self.network}"
            self.fixture.until(f"{client.name} is told {answer}", lambda client=client: is_told(client, "JOIN #a", answer))
        other = self.node.networks[1 - self.serving]
        for client in self.strangers:
            client.say("JOIN #a")
            client.hear(f":bnc.example NOTICE {identity_of('demo', other).nick} :Not connected to {other}")
            client.ping()


def across(fixture, serving):
    """Clients at the worker that has the network's server, and at the other one, hear the same and are heard."""
    it = Across(fixture, serving)
    it.up()
    it.lines()
    it.of_clients()
    it.come_late()
    it.down()


@test
def clients_of_both_workers_hear_the_same_of_the_first_workers_network(fixture):
    across(fixture, 0)


@test
def clients_of_both_workers_hear_the_same_of_the_second_workers_network(fixture):
    across(fixture, 1)


@test
def the_peer_gets_what_the_second_worker_puts(fixture):
    """The first worker has the peers. They get a message of the other worker's server, and a marker of a client there."""
    two = Two(fixture, 1, peers=[("n0", NOBODY)])
    peer = Peer.dial(two.node).greet()
    session = two.welcome()
    session.say("@msgid=m1;time=1970-01-01T00:00:07.000Z :bob!b@h PRIVMSG #a :hi")
    peer.hear_packet(0, 1, "C POST demo two #a m1 7000 P #a bob!b@h :hi")
    peer.acknowledge(1)
    client = two.client(1, "draft/read-marker")
    client.say(f"MARKREAD #a {AT_FIVE}")
    client.hear(f":bnc.example MARKREAD #a {AT_FIVE}")
    peer.hear_packet(1, 2, "C MARK demo two #a 5000")


@test
def a_line_that_is_under_way_to_a_server_that_is_gone_reaches_nobody_else(fixture):
    """A client of the other worker speaks while the session ends. Those who come then have the numbers of what is gone: they hear
    their own answers alone, and so does the next session."""
    clocks, server = Clocks(fixture), Server(fixture)
    node = Node(fixture, servers=[server.address], workers=2, front=clocks.front).begin()
    session = server.register()
    node.client("a client of the first worker").register()
    speaker = node.client("the speaker").register()
    for turn in range(4):
        speaker.say(*300 * [f"TOPIC #a :{turn}"])
        session.close()
        guests = [node.client(f"guest {number}").register() for number in range(6)]
        peers = [connect(fixture, node.peers) for _ in range(2)]
        speaker.say("PING over")
        while speaker.line("an answer") != ":bnc.example PONG bnc.example :over":
            pass
        # (a minute counts from when the node has seen the end)
        fixture.until("the session is over", lambda: sum("upstream down" in line for line in node.log()) == turn + 1)
        clocks.skip(60)
        session = server.register()
        for guest in guests:
            guest.ping()
            guest.close()
        for peer in peers:
            peer.close()


# How often an answer is waited for, and for how many seconds at most.
ROUNDS, SOON = 15, 1


def soon(what, took):
    """Fails where one of these waits took too long."""
    if max(took) > 3 * SOON or statistics.median(took) > SOON:
        raise Failed(f"{what} took {statistics.median(took):.2f} seconds, and once {max(took):.2f}")


def answered(fixture, which):
    """A server of that worker says lines without pause, which six clients hear. At the other worker a client is answered, another
    one registers, and a peer is greeted and acknowledged."""
    servers = [Server(fixture), Server(fixture)]
    node = Node(fixture, servers=[it.address for it in servers], peers=[("n0", NOBODY)], bound=1 << 20, places=64).begin()
    sessions = [server.register("message-tags") for server in servers]
    network = node.networks[which]
    beside = [node.client(f"client {number}").register(network=network) for number in range(6)]
    quiet = [node.client(f"client {number} of the other network") for number in range(2)]
    for client in quiet:
        client.register(network=node.networks[1 - which])
    for client in beside:
        reads_all(fixture, client)
    says_without_pause(fixture, sessions[which], ":bob!b@h PRIVMSG #a :hi")
    Ear(sessions[which], "nothing").beside()
    pings, entries, packets = [], [], []
    for number in range(ROUNDS):
        for client in quiet:
            began = time.monotonic()
            client.ping()
            pings.append(time.monotonic() - began)
        began = time.monotonic()
        newcomer = node.client("a newcomer").register(network=node.networks[1 - which])
        entries.append(time.monotonic() - began)
        newcomer.close()
        began = time.monotonic()
        peer = Peer.dial(node, incarnation=5 + number).greet()
        peer.give(0, "C MARK demo net #a 5000")
        while peer.line("an acknowledgement") != f"A {peer.other} {peer.life} 1":
            pass
        packets.append(time.monotonic() - began)
        peer.close()
    for what, took in (("a PING", pings), ("a registration", entries), ("a hello and a packet", packets)):
        soon(what, took)
    fixture.notes.append("; ".join(f"{what} {max(took):.3f} seconds at most" for what, took in
                                   (("a PING", pings), ("a registration", entries), ("a hello and a packet", packets))))


@test
def all_are_answered_beside_a_server_without_pause_at_the_first_worker(fixture):
    answered(fixture, 0)


@test
def all_are_answered_beside_a_server_without_pause_at_the_second_worker(fixture):
    answered(fixture, 1)


# So many clients hear each line.
MANY = 30


def times(calls):
    """How many seconds each of these calls takes."""
    took = []
    for call in calls:
        began = time.monotonic()
        call()
        took.append(time.monotonic() - began)
    return took


def sockets_are_looked_at(fixture, which):
    """A server of that worker says lines without pause, which many clients hear. As many are of the other network, whose worker is
    the other one. There a client is answered, another one registers, and those who read what they hear stay."""
    servers = [Server(fixture), Server(fixture)]
    node = Node(fixture, servers=[it.address for it in servers], bound=1 << 20, places=2 * MANY + 8).begin()
    sessions, network, other = [it.register() for it in servers], node.networks[which], node.networks[1 - which]
    quiet = [node.client(f"client {number} of the other network").register(network=other) for number in range(2)]
    for number in range(2 * MANY):
        client = node.client(f"client {number}").register(network=other if number % 2 == which else network)
        if number % 2 != which:
            reads_all(fixture, client)
    says_without_pause(fixture, sessions[which], ":irc.example 372 al :- hi")
    Ear(sessions[which], "nothing").beside()
    # (until more is said than the clients have read)
    time.sleep(1)
    pings, entries = [], []
    for _ in range(ROUNDS):
        pings += times(client.ping for client in quiet)
        entries += times(lambda: node.client("a newcomer").register(network=other).close() for _ in range(2))
    soon("a PING", pings)
    soon("a registration", entries)
    expect("who was closed", [], [line for line in node.log() if "it did not read what was owed to it" in line])
    fixture.notes.append(f"a PING {max(pings):.3f} seconds at most; a registration {max(entries):.3f} seconds at most")


@test
def sockets_are_looked_at_while_the_first_worker_has_much_to_tell(fixture):
    sockets_are_looked_at(fixture, 0)


@test
def sockets_are_looked_at_while_the_second_worker_has_much_to_tell(fixture):
    sockets_are_looked_at(fixture, 1)


# So many strangers connect again and again, for so many seconds, and what each of them does.
STRANGERS, SECONDS = 8, 3
STRANGER = """
import socket, sys
print("here", flush=True)
while True:
    try:
        socket.create_connection((sys.argv[1], int(sys.argv[2])), 5).close()
    except OSError:
        continue
"""


@test
def strangers_that_connect_again_and_again_hold_nobody_up(fixture):
    """Eight of them do so at either port as fast as they are taken in. A client's PING is answered meanwhile, and a line of the
    server is heard."""
    server = Server(fixture)
    node = Node(fixture, servers=[server.address], peers=[("n0", NOBODY)], places=64).begin()
    session = server.register()
    clients = [node.client(f"client {number}").register() for number in range(2)]
    for number in range(STRANGERS):
        host, port = node.clients if number % 2 else node.peers
        words = [sys.executable, "-c", STRANGER, host, str(port)]
        stranger = processes.start(words, stdin=subprocess.DEVNULL, stdout=subprocess.PIPE, stderr=subprocess.DEVNULL)
        fixture.at_end(lambda stranger=stranger: processes.end(stranger))
        expect("what a stranger says first", b"here\n", stranger.stdout.readline())
    took, end = [], time.monotonic() + SECONDS
    while time.monotonic() < end:
        for client in clients:
            began = time.monotonic()
            client.ping()
            session.say(":bob!b@h PRIVMSG #a :hi")
            for other in clients:
                other.hear(":bob!b@h PRIVMSG #a :hi")
            took.append(time.monotonic() - began)
    soon("an answer", took)
    node.wait_for("peer refused: ")
    fixture.notes.append(f"{max(took):.3f} seconds at most, {len(took)} answers")
