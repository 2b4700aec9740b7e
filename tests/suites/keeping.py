"""A cluster with a keeper: what it acknowledged survives every crash (README.md; docs/OPERATING.md, "A keeper"; bnc-keep(1))."""

import itertools
import os
import random
import re
import resource
import time

from harness.clocks import Clocks
from harness.disk import Disk
from harness.failure import Failed, expect
from harness.keeper import NOWHERE, Keeper, PlayedNode, kept_in, payloads_of, posts
from harness.node import Node
from harness.piped import Piped
from harness.registry import add, test
from harness.relay import Relay
from harness.server import Server

PAST = "batch draft/chathistory draft/message-redaction message-tags server-time"
OFFERED = "draft/message-redaction message-tags server-time"
REDACTION = "C REDACT demo net #a m{0} {0}"
MINUTE, HOUR = 60, 3600
# How often one cluster is killed; a test has as many as its time allows.
KILLS = 5


def said(number, text="hi"):
    return f"@msgid=m{number};time=2026-11-23T{number // 3600:02}:{number // 60 % 60:02}:{number % 60:02}.000Z " \
        f":bob!b@h PRIVMSG #a :{text} {number}"


class Tap(Relay):
    """The way from a keeper to a node, which notes what the keeper acknowledged."""

    def __init__(self, fixture, target):
        super().__init__(fixture)
        self.target, self.acknowledged, self.given = target, set(), {}

    def pass_on(self, line, way):
        head, _, rest = way.messages[0].partition(b"\r\n")
        words = head.split(b" ")
        if words[0] == b"D" and way is line.ways[1]:
            self.given.setdefault(words[2], []).append((int(words[6]), rest.split(b"\r\n")[:-1]))
        elif words[0] == b"A" and way is line.ways[0]:
            for upto, changes in self.given.get(words[4], []):
                if upto <= int(words[5]):
                    self.acknowledged.update(changes)
        super().pass_on(line, way)


class Cluster:
    """The nodes n1 and n2, each with a session of its own on the network, and a keeper of both."""

    def __init__(self, fixture, names=("0keep",)):
        self.fixture, self.servers = fixture, [Server(fixture), Server(fixture)]
        known = [(name, NOWHERE) for name in names]
        self.second = Node(fixture, "n2", [self.servers[1].address], [("n1", NOWHERE), *known], nick="al2", maximum=1000)
        self.first = Node(fixture, "n1", [self.servers[0].address], [("n2", self.second.peers), *known], nick="al1", maximum=1000)
        self.nodes, self.sessions = [self.first, self.second], []
        self.begin_nodes()
        self.taps = [Tap(fixture, node.peers) for node in self.nodes]
        peers = [(node.name, tap.address) for node, tap in zip(self.nodes, self.taps)]
        self.keepers = [Keeper(fixture, peers, name) for name in names]

    def begin_nodes(self):
        """Starts the nodes. The second one is there for the first one to dial."""
        for node in reversed(self.nodes):
            node.forget_log()
            node.begin()
        self.sessions = [server.register(OFFERED, node.nick) for server, node in zip(self.servers, self.nodes)]

    def begin(self):
        for keeper in self.keepers:
            keeper.begin()
        return self

    def say(self, *lines, place=0):
        """That node's server says this, and the node has taken it."""
        self.sessions[place].say(*lines)
        self.servers[place].settled(self.sessions[place])

    def kill_all(self):
        for it in (*self.nodes, *self.keepers):
            it.process.kill()
        for it in (*self.nodes, *self.keepers):
            it.kill()
        for tap in self.taps:
            with tap.lock:
                tap.cut_all()

    def acknowledged(self):
        """Each change that the keeper acknowledged to a node."""
        return set.union(*(tap.acknowledged for tap in self.taps))


def page_of(node):
    """The messages that a node shows, of which a test has less than 1,000: their ids with what each says."""
    client = node.client(f"a client of {node.name}").register(PAST, node.nick, maximum=1000)
    found = [re.fullmatch(r"@batch=\w+;msgid=(\S+?);time=\S+ :bob!b@h PRIVMSG #a :(.*)", line)
             for line in client.ask("CHATHISTORY LATEST #a * 1000")]
    client.close()
    return [it.groups() for it in found]


def shows(fixture, node, *wanted):
    """The node comes to show just these messages, each once."""
    fixture.until(f"{node.name} shows all", lambda: len(page_of(node)) >= len(wanted))
    expect(f"what {node.name} shows", sorted(wanted), sorted(page_of(node)))


def messages(*numbers):
    return [(f"m{number}", f"hi {number}") for number in numbers]


# ---- kills


def killed_at_random(fixture, seed):
    """Nodes and keeper are killed together while a server speaks, and started again with nothing but the keeper's file. What was
    acknowledged is there, each message once."""
    chance, cluster, number = random.Random(seed), Cluster(fixture), 0
    for _ in range(KILLS):
        cluster.begin()
        if chance.random() < 0.7:
            for keeper, node in itertools.product(cluster.keepers, cluster.nodes):
                keeper.wait_for(f"peer greeted: {node.name} ")
        end = time.monotonic() + chance.uniform(0, 0.7)
        while time.monotonic() < end:
            for _ in range(chance.randrange(1, 8)):
                cluster.sessions[number % 2].say(said(number))
                number += 1
            time.sleep(chance.uniform(0, 0.04))
        cluster.kill_all()
        wanted = {(line.split(b" ")[5].decode(), line.rpartition(b" :")[2].decode()) for line in cluster.acknowledged()}
        cluster.begin_nodes()
        for keeper in cluster.keepers:
            keeper.begin()
        for node in cluster.nodes:
            fixture.until(f"{node.name} has all that was acknowledged", lambda node=node: wanted <= set(page_of(node)))
            ids = [ident for ident, _ in page_of(node)]
            expect(f"ids that {node.name} shows twice", [], [it for it in set(ids) if ids.count(it) > 1])
        for keeper in cluster.keepers:
            keeper.kill()
    if not cluster.acknowledged():
        raise Failed("nothing was acknowledged before a kill")
    fixture.notes.append(f"{len(cluster.acknowledged())} of {number} messages were acknowledged before a kill")


for seed in range(max(1, Keeper.kills // KILLS)):
    add(f"keeping: nodes and keeper are killed at random, {seed + 1}", lambda fixture, seed=seed: killed_at_random(fixture, seed))


@test
def a_node_that_restarts_alone(fixture):
    """It is level some seconds after its start."""
    server = Server(fixture)
    node = Node(fixture, servers=[server.address], peers=[("0keep", NOWHERE)], maximum=1000).begin()
    session = server.register(OFFERED)
    Keeper(fixture, [("n1", node.peers)]).begin()
    session.say(*map(said, range(300)))
    server.settled(session)
    node.wait_for("peer level: 0keep")
    node.kill()
    node.forget_log()
    begun = time.monotonic()
    node.begin()
    server.register(OFFERED)
    shows(fixture, node, *messages(*range(300)))
    took = time.monotonic() - begun
    node.wait_for("peer level: 0keep")
    expect("whether it took at most ten seconds", True, took < 10)


@test
def two_keepers_in_one_cluster(fixture):
    """Each has all, and fills the cluster alone."""
    cluster = Cluster(fixture, ("0a", "0b")).begin()
    cluster.say(*map(said, range(40)))
    cluster.say(*map(said, range(40, 60)), place=1)
    for keeper in cluster.keepers:
        fixture.until(f"{keeper.name} has all", lambda keeper=keeper: sum(" :hi " in it for it in kept_in(keeper.file)) == 60)
    for keeper in cluster.keepers:
        cluster.kill_all()
        cluster.begin_nodes()
        keeper.begin()
        for node in cluster.nodes:
            shows(fixture, node, *messages(*range(60)))


def older(fixture, version):
    """A node that speaks an earlier version is told that one. What it sends is kept, and it gets nothing, while a newer one gets
    all."""
    old, new = PlayedNode(fixture, "n1", version=version, told=version), PlayedNode(fixture, "n2")
    keeper = Keeper(fixture, [old.peer, new.peer]).begin()
    first, second = old.meet(), new.meet()
    first.keep(*posts(1, 2))
    second.hear_changes(*posts(1, 2))
    second.keep(*posts(3))
    first.keep(*posts(4))
    expect("what the older one got", [], first.changes)
    keeper.kill()
    keeper.begin()
    new.meet().hear_changes(*posts(1, 2, 3, 4))


for version in (1, 2):
    add(f"keeping: a node that speaks version {version}", lambda fixture, version=version: older(fixture, version))


@test
def a_clock_that_is_set_back(fixture):
    """The life is above the last one all the same, so nodes that run go on to send."""
    clocks, node = Clocks(fixture), PlayedNode(fixture)
    keeper, lives = Keeper(fixture, [node.peer], front=clocks.front), []
    for back in (0, 100 * 24 * HOUR, 0):
        clocks.set_ahead(-back)
        keeper.begin()
        played = node.meet()
        lives.append(int(played.other.split(" ")[1]))
        played.keep(*posts(len(lives)))
        keeper.kill()
    expect("the lives", sorted(set(lives)), lives)
    keeper.begin()
    node.meet().hear_changes(*posts(1, 2, 3))


# ---- what is to be forgotten


def file_is_rewritten(clocks, keeper, seconds):
    """So many seconds go by, and then the file is written anew."""
    count = sum("rewritten: " in line for line in keeper.log())
    clocks.skip(seconds)
    keeper.fixture.until("the file is written anew", lambda: sum("rewritten: " in line for line in keeper.log()) > count)


@test
def a_redacted_text_leaves_the_folder(fixture):
    """Within a minute, and never comes again."""
    clocks, node = Clocks(fixture), PlayedNode(fixture)
    keeper = Keeper(fixture, [node.peer], front=clocks.front).begin()
    played = node.meet()
    played.keep(*posts(1, 2, 3))
    played.keep(REDACTION.format(2))
    expect("where the text is", ["history"], keeper.holds(":hi 2"))
    file_is_rewritten(clocks, keeper, MINUTE - 2)
    expect("where the text is then", [], keeper.holds(":hi 2"))
    played.keep(*posts(2, 4))
    expect("where the text is when it comes again", [], keeper.holds(":hi 2"))
    keeper.kill()
    keeper.begin()
    node.meet().hear_changes(*posts(1, 3, 4), REDACTION.format(2))


@test
def what_is_below_a_floor_leaves_the_folder(fixture):
    """Within a day."""
    clocks, node = Clocks(fixture), PlayedNode(fixture)
    keeper = Keeper(fixture, [node.peer], front=clocks.front).begin()
    played = node.meet()
    played.keep(*posts(10, 20, 30))
    played.keep("C FLOOR demo net #a 20")
    file_is_rewritten(clocks, keeper, 24 * HOUR - 2)
    expect("where the texts are", [[], ["history"], ["history"]], [keeper.holds(f":hi {number}\r\n") for number in (10, 20, 30)])
    expect("where the floor is", ["history"], keeper.holds("C FLOOR demo net #a 20"))


@test
def a_redaction_before_the_start_is_not_forgotten(fixture):
    """A keeper that ended before it wrote its file anew does so after its next start."""
    clocks, node = Clocks(fixture), PlayedNode(fixture)
    keeper = Keeper(fixture, [node.peer], front=clocks.front)
    keeper.write(["L 0keep 5"], posts(1, 2), [REDACTION.format(2)])
    keeper.begin()
    played = node.meet()
    keeper.wait_for("peer greeted: ")
    file_is_rewritten(clocks, keeper, MINUTE - 2)
    expect("where the text is", [], keeper.holds(":hi 2"))
    expect("where the other is", ["history"], keeper.holds(":hi 1"))
    played.keep(*posts(3))


@test
def a_file_that_is_half_of_no_use(fixture):
    """It is written anew, and no connection is lost."""
    node, last = PlayedNode(fixture), 2500
    edits = [f"C POST demo net #a m2 {number} P #a bob!b@h :{number} {'x' * 400}" for number in range(last)]
    keeper = Keeper(fixture, [node.peer])
    keeper.write(["L 0keep 5"], posts(1), *(edits[first:first + 250] for first in range(0, last, 250)))
    keeper.begin()
    played = node.meet()
    keeper.wait_for("rewritten: ")
    played.keep(*posts(3))
    expect("whether it is small", True, len(keeper.data()) < 1000)
    keeper.kill()
    keeper.begin()
    node.meet().hear_changes(*posts(1, 3), edits[-1])


# ---- a disk that is full or fails


def limit_file(keeper, most=resource.RLIM_INFINITY):
    """The keeper's files may have so many bytes from now on."""
    resource.prlimit(keeper.process.pid, resource.RLIMIT_FSIZE, (most, resource.RLIM_INFINITY))


def reasons(keeper):
    """What the operator was told of a file in which nothing is kept."""
    start = f"not kept: {keeper.file}: "
    return [line.partition(" ")[2][len(start):] for line in keeper.log() if line.partition(" ")[2].startswith(start)]


@test
def a_disk_that_is_full(fixture):
    """For three minutes. Nothing is acknowledged, what is held is given out, and the log says once a minute what the system says;
    the file is read no more often. Once there is room all is kept and acknowledged."""
    clocks, nodes = Clocks(fixture), [PlayedNode(fixture, name) for name in ("n1", "n2")]
    disk = Disk(fixture, clocks)
    keeper = Keeper(fixture, [it.peer for it in nodes], front=["sh", "-c", 'trap "" XFSZ; exec "$@"', "sh", *disk.front])
    keeper.write(["L 0keep 5"], *(posts(*range(first, first + 250)) for first in range(1, 1001, 250)))
    keeper.begin()
    first, readings = nodes[0].meet(), disk.readings()
    first.keep(*posts(3001))
    first.hear_changes(*posts(*range(1, 1001), 3001))
    limit_file(keeper, len(keeper.data()))
    first.give(1, *posts(3002))
    keeper.wait_for("not kept: ")
    second = nodes[1].meet()
    second.hear_changes(*posts(*range(1, 1001), 3001))
    for minutes in (1, 2, 3):
        clocks.skip(MINUTE + 1)
        fixture.until("it says so again", lambda minutes=minutes: len(reasons(keeper)) > minutes)
        first.say(first.hello())
    expect("how often the file was read", True, disk.readings() - readings <= 3)
    expect("acknowledged", 1, first.acknowledged)
    limit_file(keeper)
    clocks.skip(MINUTE + 1)
    keeper.wait_for("file open again: ")
    nodes[0].keep(*posts(3002))
    keeper.kill()
    nodes[0].forget()
    keeper.begin()
    nodes[0].meet().hear_changes(*posts(*range(1, 1001), 3001, 3002))


def refused(fixture, number):
    """That call is refused. Nothing is acknowledged then that isn't on the disk; a minute later all is."""
    clocks, node = Clocks(fixture), PlayedNode(fixture)
    keeper = Keeper(fixture, [node.peer], front=Disk(fixture, clocks, FAILS=number).front)
    keeper.write(["L 0keep 5"], posts(1))
    keeper.forget_log()
    keeper.start()
    fixture.until("it ends or has read its file", lambda: keeper.process.poll() is not None or keeper.told("read: "))
    if keeper.process.poll() is not None:
        expect("the status", 4, keeper.process.returncode)
        expect("whether it says of which file", True, f"\n{keeper.file}: " in "\n".join(keeper.log()))
    else:
        played = node.meet()
        played.give(0, *posts(2))
        keeper.wait_for("not kept: ")
        expect("acknowledged", 0, played.acknowledged)
        clocks.skip(MINUTE + 1)
        keeper.wait_for("file open again: ")
        node.keep(*posts(2))
        keeper.kill()
    keeper.front = []
    node.forget()
    keeper.begin()
    node.meet().keep(*posts(3))
    keeper.kill()
    payloads = b"".join(payloads_of(keeper.data())).decode()
    for change in posts(1, 3):
        expect(f"how often {change} stands in the file", 1, payloads.count(change))


@test
def each_call_is_refused_in_turn(fixture):
    """Of those that write, cut, sync and rename the file, at the start and with a packet."""
    node, disk = PlayedNode(fixture), Disk(fixture)
    keeper = Keeper(fixture, [node.peer], front=disk.front)
    keeper.write(["L 0keep 5"], posts(1))
    keeper.begin()
    node.meet().keep(*posts(2))
    keeper.kill()
    for number in range(1, disk.calls() + 1):
        refused(fixture, number)


# ---- what the operator reads


@test
def what_the_log_says(fixture):
    """What was read; each peer, with its address; how much is kept, once an hour. No line has the shared word or a message."""
    clocks, node = Clocks(fixture), PlayedNode(fixture)
    keeper = Keeper(fixture, [node.peer, ("n2", NOWHERE)], front=clocks.front)
    keeper.write(["L 0keep 5"], posts(1, 2), ["C MARK demo net #b 1", "C AFLOOR demo 1"])
    keeper.begin()
    address = f"127.0.0.1:{node.address[1]}"
    played = node.meet()
    played.hear_changes(*posts(1, 2), "C MARK demo net #b 1", "C AFLOOR demo 1")
    played.keep(*posts(3))
    played.hear_changes(*posts(1, 2, 3), "C MARK demo net #b 1", "C AFLOOR demo 1")
    keeper.wait_for(f"peer greeted: n1 at {address} (incarnation 5)")
    keeper.wait_for("peer level: n1: each has what the other had")
    keeper.wait_for("peer unreachable: n2 at 127.0.0.1:1: connection refused")
    played.close()
    keeper.wait_for(f"peer lost: n1 at {address}: the other end closed it")
    clocks.skip(HOUR)
    keeper.wait_for("kept: 5 changes in ")
    log = "\n".join(keeper.log())
    begins = r"\S+Z starting: bnc-keep \S+, logic [0-9a-f]{16}\n\S+Z read: 4 changes of 2 conversations in [0-9.]+ seconds\n"
    expect("how it begins", True, re.match(begins, log) is not None)
    expect("what it mustn't say", [], [it for it in ("green", "hi 1", "hi 3") if it in log])


@test
def a_peer_that_cannot_be_reached_is_told_once_a_minute(fixture):
    clocks = Clocks(fixture)
    keeper = Keeper(fixture, [("n1", NOWHERE)], front=clocks.front).begin()
    keeper.wait_for("peer unreachable: n1 at 127.0.0.1:1: ")
    count = lambda: sum("peer unreachable: " in line for line in keeper.log())
    for minutes in (2, 3):
        clocks.skip(MINUTE)
        fixture.until("it is said again", lambda minutes=minutes: count() >= minutes)
    time.sleep(1)
    expect("how often it is said", 3, count())


@test
def a_peer_of_another_cluster(fixture):
    """Its word is another one: it gets nothing of what is held."""
    node = PlayedNode(fixture)
    keeper = Keeper(fixture, [node.peer])
    keeper.write(["L 0keep 5"], posts(1))
    keeper.begin()
    connection = node.accept("the node")
    connection.hear("W green")
    connection.line("a hello")
    connection.say("W olive", "H 3 n1 5")
    connection.hear_end()
    keeper.wait_for(f"peer lost: n1 at 127.0.0.1:{node.address[1]}: it sent another word than the shared one")


@test
def a_hello_each_minute(fixture):
    """To a peer to which nothing else was said."""
    clocks, node = Clocks(fixture), PlayedNode(fixture)
    keeper = Keeper(fixture, [node.peer], front=clocks.front).begin()
    played = node.meet()
    keeper.wait_for("peer greeted: ")
    for _ in range(2):
        clocks.skip(MINUTE)
        played.hear(f"H 3 {played.other}")


@test
def a_peer_that_was_away_for_an_hour(fixture):
    """It is dialed within seconds after it is there again."""
    clocks, node = Clocks(fixture), PlayedNode(fixture)
    keeper = Keeper(fixture, [node.peer], front=clocks.front).begin()
    node.meet().close()
    node.leave()
    keeper.wait_for("peer unreachable: n1 ")
    clocks.skip(HOUR)
    node.come_back()
    begun = time.monotonic()
    node.meet()
    expect("whether it took at most eight seconds", True, time.monotonic() - begun < 8)


class PipedKeeper(Piped, Keeper):
    """A keeper whose standard error is a pipe with room for a page, which is read as the test asks for the log."""

    def __init__(self, *given, **how):
        super().__init__(*given, **how)
        self.has_room_for(PAGE)


# What a pipe has room for at least, and peers that can't be reached, whose lines need more.
PAGE = 4096
ABSENT = [f"n{number:02}{'n' * 29}" for number in range(60)]


@test
def a_log_that_nobody_reads_stops_no_thread(fixture):
    """Standard error is a pipe that is full, and more lines wait. Packets are acknowledged, and the file is written anew, all the
    same. Once the pipe is read, each line is there."""
    clocks, node = Clocks(fixture), PlayedNode(fixture)
    peers = [(name, NOWHERE) for name in ABSENT]
    keeper = PipedKeeper(fixture, [*peers, node.peer], front=clocks.front).start()
    fixture.until("the pipe is full", lambda: keeper.waiting() > PAGE - 200)
    played = node.meet()
    played.keep(*posts(1, 2))
    played.keep(REDACTION.format(2))
    clocks.skip(MINUTE - 2)
    fixture.until("the text has left the file", lambda: not keeper.holds(":hi 2"))
    played.keep(*posts(3))
    expect("whether the pipe is full", True, keeper.waiting() > PAGE - 200)
    wanted = ("peer greeted: n1 ", "rewritten: ", *(f"peer unreachable: {name} " for name in ABSENT))
    fixture.until("each line is there", lambda: all(map(keeper.told, wanted)) or keeper.is_over())
    expect("whether lines were lost", False, keeper.told("lines lost: "))


@test
def a_keeper_that_fails_ends_though_nobody_reads_its_log(fixture):
    """Its file is damaged: it has a block that is no entry."""
    keeper = PipedKeeper(fixture)
    keeper.write(["L 0keep 5"], ["no entry"])
    os.write(keeper.theirs, bytes(PAGE))
    keeper.start()
    expect("the status", 4, keeper.process.wait(fixture.patience()))


# ---- words and configurations

SMALLER = "a name smaller than each peer's by its bytes, since a keeper opens every connection"
WHOLE = 'node = "0keep"\npeer_word = "green"\nfile = "history"\n'
PEER = '[[peer]]\nname = "n1"\naddress = "127.0.0.1:1"\n'
KNOWN = "no keys but name, address, version"
REFUSED = (
    ("no TOML", "node", "line 1: not a TOML text"),
    ("no file", WHOLE.replace('file = "history"\n', "") + PEER, "file: missing"),
    ("an empty file name", WHOLE.replace("history", "") + PEER, "file: the path of a file"),
    ("a name with a hyphen", WHOLE.replace("0keep", "a-keeper") + PEER, "node: 1 to 32 bytes of a-z and 0-9"),
    ("a name above a peer's", WHOLE.replace("0keep", "n2") + PEER, f"node: {SMALLER}"),
    ("the name of a peer", WHOLE.replace("0keep", "n1") + PEER, "peer 1 (n1), name: not the name of this node"),
    ("a key of a node", WHOLE + 'listen = "127.0.0.1:1"\n' + PEER, "top level: no keys but node, peer_word, file, peer"),
    ("a peer twice", WHOLE + PEER + PEER, "peer 2 (n1), name: a name that no entry before has"),
    ("a peer's version", WHOLE + PEER + "version = 4\n", "peer 1 (n1), version: a number from 1 to 3"),
    ("a peer that has no address", WHOLE + PEER + '[[peer]]\nname = "n3"\n', "peer 2 (n3), address: missing"),
    ("a peer's address that is a name", WHOLE + PEER + PEER.replace("n1", "n3").replace("127.0.0.1", "n3"),
     "peer 2 (n3), address: an IP address and a port"),
    ("a key that no peer has", WHOLE + PEER.replace("n1", "n3") + "odd = 1\n" + PEER, f"peer 1 (n3): {KNOWN}"),
    ("a peer whose name has an escape", WHOLE + PEER.replace("n1", "n\\u0033") + "odd = 1\n", f"peer 1 (n3): {KNOWN}"),
    ("a peer whose name has a space", WHOLE + PEER.replace("n1", "n 1"), "peer 1 (n 1), name: 1 to 32 bytes of a-z and 0-9"),
    ("a peer whose name has 64 bytes", WHOLE + PEER.replace("n1", 64 * "n") + "odd = 1\n", f"peer 1 ({64 * 'n'}): {KNOWN}"),
    ("a peer whose name has 65 bytes", WHOLE + PEER.replace("n1", 65 * "n") + "odd = 1\n", f"peer 1: {KNOWN}"),
    ("a peer whose name has a line feed", WHOLE + PEER.replace("n1", "n\\n3") + "odd = 1\n", f"peer 1: {KNOWN}"),
    ("a peer whose name is a number", WHOLE + PEER.replace('"n1"', "3") + "odd = 1\n", f"peer 1: {KNOWN}"),
    ("a peer without a name", WHOLE + PEER + '[[peer]]\naddress = "127.0.0.1:1"\n', "peer 2, name: missing"),
)


def refused_configuration(fixture, text, words):
    path = fixture.write("bnc-keep.toml", text.encode())
    fixture.run(path, program=Keeper.program).expect(5, b"", f"config refused\n{words}\n".encode())


for what, text, words in REFUSED:
    add(f"keeping: a configuration with {what}", lambda fixture, it=(text, words): refused_configuration(fixture, *it))


@test
def wrong_words(fixture):
    for words in ((), ("a.toml", "b.toml"), ("--help",), ("-h",), ("--version",), ("-",), ("a.toml", "--help")):
        fixture.run(*words, program=Keeper.program).expect(2, b"", b"usage: bnc-keep <config>\n")


@test
def a_configuration_that_is_not_there(fixture):
    for path in ("no/such.toml", "./--help"):
        wanted = f"read or write failed\ncan't read {path}: no such file\n".encode()
        fixture.run(path, program=Keeper.program).expect(4, b"", wanted)
