"""Nodes that gossip (README.md: each device sees the same past, whichever server it reaches; docs/OPERATING.md, "Start and
stop": a node that starts again is filled by its peers)."""

from harness.failure import expect
from harness.node import Node
from harness.peer import Peer
from harness.registry import add, test
from harness.server import Server

PAST = "batch draft/chathistory draft/read-marker message-tags server-time"
OFFERED = "draft/message-redaction message-tags server-time"


def said(number, who="bob"):
    return f"@msgid={who}{number:03};time=2026-11-23T00:00:{number:02}.000Z :{who}!b@h PRIVMSG #a :{number}"


class Cluster:
    """The nodes n1 and n2, each with a nick and a session of its own on the network."""

    def __init__(self, fixture):
        self.fixture = fixture
        self.servers = [Server(fixture), Server(fixture)]
        # (n1 has the smaller name, so it connects, as it begins)
        self.second = Node(fixture, "n2", [self.servers[1].address], [("n1", ("127.0.0.1", 1))], nick="al2").begin()
        self.first = Node(fixture, "n1", [self.servers[0].address], [("n2", self.second.peers)], nick="al1")
        self.at_first = self.begin_first()
        self.at_second = self.servers[1].register(OFFERED, "al2")

    def say_first(self, *lines):
        """n1's server says this, and n1 has taken it."""
        self.at_first.say(*lines)
        self.servers[0].settled(self.at_first)

    def say_second(self, *lines):
        self.at_second.say(*lines)
        self.servers[1].settled(self.at_second)

    def begin_first(self):
        """Begins n1, and answers its session with its server."""
        self.first.begin()
        session = self.servers[0].register(OFFERED, "al1")
        self.first.wait_for("peer greeted: n2")
        return session

    def shows(self, node, nick, wanted):
        """Both come to show that page. A client asks until the other node has told all of it."""
        client = node.client(f"a client of {node.name}").register(PAST, nick)
        self.fixture.until(f"{node.name} shows all", lambda: client.latest() == wanted or not wanted)
        expect(client.name, wanted, client.latest())
        client.ping()
        return client

    def both_show(self, wanted):
        return self.shows(self.first, "al1", wanted), self.shows(self.second, "al2", wanted)


@test
def each_node_shows_what_the_server_of_the_other_said(fixture):
    cluster = Cluster(fixture)
    ours, theirs = [said(number) for number in range(0, 30)], [said(number, "eve") for number in range(15, 45)]
    cluster.say_first(*ours)
    cluster.say_second(*theirs)
    # (by moment and then by id)
    cluster.both_show(sorted(ours + theirs, key=lambda line: (line.partition("time=")[2].split(" ")[0], line.split(";")[0])))


@test
def a_message_that_both_servers_told_is_there_once(fixture):
    """With one `msgid` and one time."""
    cluster = Cluster(fixture)
    lines = [said(number) for number in range(10)]
    cluster.say_first(*lines)
    cluster.say_second(*lines[5:], *lines[:5])
    cluster.both_show(lines)


@test
def a_redaction_at_one_node_holds_at_the_other(fixture):
    cluster = Cluster(fixture)
    cluster.say_first(said(1), said(2))
    cluster.both_show([said(1), said(2)])
    cluster.say_second(":bob!b@h REDACT #a bob001")
    cluster.both_show([said(2)])


@test
def a_marker_at_one_node_is_told_at_the_other(fixture):
    cluster = Cluster(fixture)
    first, second = cluster.both_show([])
    first.say("MARKREAD #a timestamp=2026-11-23T00:00:05.000Z")
    for client in (first, second):
        client.hear(":bnc.example MARKREAD #a timestamp=2026-11-23T00:00:05.000Z")


@test
def a_node_that_was_killed_gets_its_past_back(fixture):
    """By SIGKILL, and with more said at the other node before it is started again."""
    cluster = Cluster(fixture)
    lines = [said(number) for number in range(60)]
    cluster.say_first(*lines[:30])
    cluster.both_show(lines[:30])
    cluster.first.kill()
    cluster.at_first.close()
    cluster.say_second(*lines[30:])
    cluster.shows(cluster.second, "al2", lines)
    cluster.first.forget_log()
    cluster.at_first = cluster.begin_first()
    cluster.both_show(lines)


@test
def nodes_tell_when_they_are_level(fixture):
    """Each of the two, so that the next may be restarted; and where neither has anything, ten seconds after the hello."""
    cluster = Cluster(fixture)
    cluster.say_first(said(1))
    for node, other in ((cluster.first, "n2"), (cluster.second, "n1")):
        node.wait_for(f"peer level: {other}: each has what the other had")


@test
def nodes_that_have_nothing_are_level(fixture):
    """Ten seconds after they greeted each other."""
    cluster = Cluster(fixture)
    for node, other in ((cluster.first, "n2"), (cluster.second, "n1")):
        node.wait_for(f"peer level: {other}: each has what the other had")


@test
def more_than_a_packet_comes_across(fixture):
    """A packet has at most 256 changes; the page shows the last hundred of a thousand messages."""
    cluster = Cluster(fixture)
    lines = [f"@msgid=m{n:04};time=2026-11-23T00:{n // 60:02}:{n % 60:02}.000Z :bob!b@h PRIVMSG #a :{n}" for n in range(1000)]
    cluster.say_first(*lines)
    cluster.both_show(lines[-100:])


def live_together(version):
    """A test that nodes of that older version and of this one live together. One of three nodes is older: its peers have its
    version for it. What it posts reaches the others, what they post reaches each other, and once it is the newer version too
    it gets all of it."""

    def call(fixture):
        older = ("n1", ("127.0.0.1", 1), ("version", version))
        servers = [Server(fixture), Server(fixture)]
        third = Node(fixture, "n3", [servers[1].address], [older, ("n2", ("127.0.0.1", 1))], nick="al3").begin()
        second = Node(fixture, "n2", [servers[0].address], [older, ("n3", third.peers)], nick="al2").begin()
        sessions = [servers[0].register(OFFERED, "al2"), servers[1].register(OFFERED, "al3")]
        second.wait_for("peer greeted: n3")
        old = [Peer.dial(node, "n1", 5, version=version, told=version).greet() for node in (second, third)]
        ours, theirs = [said(number) for number in range(0, 20)], [said(number, "eve") for number in range(20, 40)]
        sessions[0].say(*ours, "@+r=1;msgid=t;time=2026-11-23T00:00:41.000Z :bob!b@h PRIVMSG #a :t")
        sessions[1].say(*theirs)
        posts = [f"C POST demo net #a old{n} {1795392050000 + n * 1000} P #a old!o@h :{n}" for n in range(2)]
        for peer, post in zip(old, posts):
            peer.give(0, post)
            peer.hear_acknowledged(1)
        wanted = ours + theirs + ["@msgid=t;time=2026-11-23T00:00:41.000Z;+r=1 :bob!b@h PRIVMSG #a :t"]
        wanted += [f"@msgid=old{n};time=2026-11-23T00:00:5{n}.000Z :old!o@h PRIVMSG #a :{n}" for n in range(2)]
        for node, nick in ((second, "al2"), (third, "al3")):
            client = node.client(f"a client of {node.name}").register(PAST, nick)
            fixture.until(f"{node.name} shows all", lambda: client.latest() == wanted)
            client.ping()
        for peer, node in zip(old, (second, third)):
            peer.close()
            node.wait_for("peer down: n1")
            newer = Peer.dial(node, "n1", 6, told=version).greet()
            head = newer.line("a packet").split(" ")
            expect("a packet of all", ["0", "43", "43"], head[5:])
            told = [newer.line("a change") for _ in range(43)]
            expect("a post with tags", 1, sum(line.startswith("C TPOST demo net #a t ") for line in told))

    return call


for older_version in (1, 2):
    add(f"cluster: nodes of versions {older_version} and 3 live together", live_together(older_version))
