"""Bad lines between nodes (docs/PROTOCOL.md, "A connection"; README.md: each device sees the same past, whichever server it
reaches). A relay between the nodes loses, repeats and holds back what they say, as connections do that break."""

import random
import time

from harness.clocks import Clocks
from harness.failure import Failed, expect
from harness.node import Node
from harness.peer import Peer
from harness.registry import test
from harness.relay import Relay
from harness.server import Server

PAST = "batch draft/chathistory message-tags server-time"
OFFERED = "draft/message-redaction message-tags server-time"
NOBODY = ("127.0.0.1", 1)


def said(number):
    moment = f"2026-11-23T00:{number // 60:02}:{number % 60:02}.000Z"
    return f"@msgid=m{number:04};time={moment} :bob!b@h PRIVMSG #a :{number}"


@test
def a_connection_whose_far_end_is_gone_is_noticed(fixture):
    """By the node that opened it and has nothing to say. It gets what was said at the other node meanwhile."""
    clocks, relay, server = Clocks(fixture), Relay(fixture), Server(fixture)
    second = Node(fixture, "n2", [server.address], [("n1", NOBODY)]).begin()
    relay.target = second.peers
    first = Node(fixture, "n1", [NOBODY], [("n2", relay.address)], front=clocks.front).begin()
    session = server.register(OFFERED)
    first.wait_for("peer greeted: n2")
    client = first.client().register(PAST)
    relay.lose_far_end()
    second.wait_for("peer down: n1")
    lines = [said(number) for number in range(21)]
    session.say(*lines)
    server.settled(session)
    clocks.skip(280)
    expect("whether it was noticed before five minutes", False, first.told("peer down: n2"))
    expect("what came to n1", [], client.latest(most=1000))
    clocks.skip(20)
    first.wait_for("peer down: n2: nothing came from it for five minutes, so it is taken for gone")
    clocks.skip(60)
    fixture.until("n1 shows all", lambda: client.latest(most=1000) == lines)
    expect("how often n1 was greeted", 2, sum("peer greeted: n1" in line for line in second.log()))


# So many packets of so many markers are measured, beside so few messages and beside so many.
PACKETS, MARKERS, FEW, MANY = 40, 50, 250, 30000


class Taking:
    """A node with a client and a peer, which has taken so many messages of that peer."""

    def __init__(self, fixture, messages):
        # (one of an older version is told nothing else but acknowledgements)
        self.node = Node(fixture, peers=[("n0", NOBODY, ("version", 2))], servers=[NOBODY], workers=1).begin()
        self.node.client().register("draft/read-marker")
        self.peer, self.front = Peer.dial(self.node, version=2, told=2).greet(), 0
        for first in range(0, messages, 250):
            self.give([f"C POST demo net #a m{first + number} {number} P #a bob!b@h :hi" for number in range(250)])

    def give(self, changes):
        self.peer.give(self.front, *changes)
        self.front += len(changes)
        self.peer.hear_acknowledged(self.front)

    def seconds(self):
        """The processor time that packets of markers take."""
        before = self.node.processor_seconds()
        for _ in range(PACKETS):
            self.give([f"C MARK demo net #m{number} {self.front + 1}" for number in range(MARKERS)])
        return self.node.processor_seconds() - before


@test
def a_packet_of_markers_costs_the_same_however_much_is_held(fixture):
    """Which of them are new is found by their conversations. Beside 30,000 messages it takes less than twice the processor time."""
    few, many = Taking(fixture, FEW), Taking(fixture, MANY)
    # (by turns, since the machine may be slower for a while)
    times = [(few.seconds(), many.seconds()) for _ in range(20)]
    least, most = min(time for time, _ in times), min(time for _, time in times)
    fixture.notes.append(f"{most / least:.2f} times the time beside {FEW} messages")
    if most > 2 * least:
        raise Failed(f"{PACKETS} packets take {most:.4f} seconds beside {MANY} messages, and {least:.4f} beside {FEW}")


# How many messages there are, how many seconds lie between two of them, and the seconds after which a minute is over.
MESSAGES, PACE, MINUTE = 1000, 0.008, 0.5
SEED = 36
NAMES = ("n1", "n2", "n3")


class Trio:
    """Three nodes, each with a session on the network, and a relay between each two of them."""

    def __init__(self, fixture, seed):
        self.fixture, self.clocks, self.chance = fixture, Clocks(fixture), random.Random(seed)
        self.servers, self.sessions, self.minute = [Server(fixture) for _ in NAMES], [None] * 3, 0
        self.relays = {(a, b): Relay(fixture, seed * 100 + 10 * a + b) for a in range(3) for b in range(a + 1, 3)}
        self.nodes = [Node(fixture, name, [self.servers[at].address], self.peers(at), nick=f"al{at + 1}", maximum=MESSAGES,
                           bound=1 << 20, front=self.clocks.front) for at, name in enumerate(NAMES)]
        for at in (2, 1, 0):
            self.begin(at)
        self.told, self.gone = [], set()

    def peers(self, at):
        """The peers of that node. It opens the connections with those behind it."""
        return [(NAMES[other], self.relays[at, other].address if at < other else NOBODY) for other in range(3) if other != at]

    def begin(self, at):
        """Starts a node, and takes its session in."""
        self.nodes[at].begin()
        for (_, far), relay in self.relays.items():
            if far == at:
                relay.target = self.nodes[at].peers
        self.sessions[at] = self.servers[at].register(OFFERED, f"al{at + 1}")

    def end(self, at):
        """Ends a node by SIGKILL."""
        self.nodes[at].kill()
        self.sessions[at].close()
        self.sessions[at] = None

    def say_next(self):
        """Two of the servers say the next message, and sometimes that an earlier one is redacted."""
        number = len(self.told)
        self.told.append(said(number))
        lines = [said(number)]
        if number % 50 == 49:
            self.gone.add(number - 30)
            lines.append(f":bob!b@h REDACT #a m{number - 30:04}")
        there = [session for session in self.sessions if session]
        for session in self.chance.sample(there, 2):
            session.say(*lines)

    def wanted(self):
        return [line for number, line in enumerate(self.told) if number not in self.gone]

    def go_on(self):
        """A minute is over now and then, so that nodes connect again."""
        if time.monotonic() > self.minute + MINUTE:
            self.minute = time.monotonic()
            self.clocks.go(60)
            for session in self.sessions:
                if session:
                    session.say("PING :still")

    def settle(self, at):
        """Waits until a node has taken all that its server said, so that whoever registers then isn't told of it as it comes."""
        session = self.sessions[at]
        session.say("PING :settled")
        while session.line("PONG") != "PONG :settled":
            # (other PINGs were said before)
            continue

    def is_level(self, at):
        """Whether a node shows all that was said, each message once."""
        client = self.nodes[at].client(f"a client of {NAMES[at]}")
        client.register(PAST, f"al{at + 1}", maximum=MESSAGES)
        lines = client.latest(most=MESSAGES)
        client.close()
        expect(f"what {NAMES[at]} shows twice", [], sorted({line for line in lines if lines.count(line) > 1}))
        return lines == self.wanted()

    def wait_until_level(self, at):
        """As an operator does who restarts nodes one at a time."""
        self.settle(at)
        end = time.monotonic() + 20
        while not self.is_level(at):
            self.go_on()
            time.sleep(0.05)
            if time.monotonic() > end:
                raise Failed(f"{NAMES[at]} doesn't show all that was said")


@test
def three_nodes_over_bad_lines_show_the_same(fixture):
    """Each is killed and started again in turn while 1,000 messages are said, each to two of them, and the lines between them
    break, repeat and come late. In the end their pages are equal, with each message once and without those that were
    redacted."""
    fixture.notes.append(f"seed {SEED}")
    trio = Trio(fixture, SEED)
    for number in range(MESSAGES):
        turn, at = divmod(number, 300)
        if turn < 3 and at == 100:
            trio.end(turn)
        if turn < 3 and at == 200:
            trio.begin(turn)
        if turn < 3 and at == 290:
            trio.wait_until_level(turn)
        trio.say_next()
        trio.go_on()
        time.sleep(PACE)
    for relay in trio.relays.values():
        relay.calm()
    for at in range(3):
        trio.wait_until_level(at)
    for (near, far), relay in trio.relays.items():
        counts = ", ".join(f"{count} {what}" for what, count in sorted(relay.counts.items()))
        fixture.notes.append(f"{NAMES[near]} to {NAMES[far]}: {counts}")
