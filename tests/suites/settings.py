"""What a configuration says is what a node does (docs/OPERATING.md, "Start and stop" and "Size"; docs/PROTOCOL.md, "A session with
a server" and "Lives and numbers")."""

import time

from harness.connection import spelled
from harness.failure import Failed, expect
from harness.node import Node
from harness.peer import Peer
from harness.registry import test
from harness.server import Server

NOBODY = ("127.0.0.1", 1)
CHANNELS = ["#a", "#b"]


class Configured(Node):
    """A node with two workers, two channels and a peer."""

    def __init__(self, fixture, server, **limits):
        super().__init__(fixture, servers=[server.address], channels=CHANNELS, peers=[("n0", NOBODY)], workers=2, **limits)


@test
def the_user_and_both_channels_reach_the_server(fixture):
    server = Server(fixture)
    node = Configured(fixture, server).begin()
    server.register(channels=CHANNELS)
    for number in range(2):
        node.client(f"client {number}").register("draft/read-marker", channels=CHANNELS)


def incarnation_of(node):
    """The incarnation in the node's hello, with which it is to name itself."""
    name, number = Peer.dial(node).greet().other.split(" ")
    expect("the node's name", "n1", name)
    return int(number)


@test
def an_incarnation_is_the_clock_at_the_start(fixture):
    """In milliseconds. So it rises with each start."""
    server, before = Server(fixture), 0
    node = Configured(fixture, server)
    for _ in range(3):
        begun = time.time_ns() // 10**6
        node.begin()
        number = incarnation_of(node)
        if not max(begun, before + 1) <= number <= time.time_ns() // 10**6:
            raise Failed(f"a node that began at {begun}, after the incarnation {before}, has the incarnation {number}")
        before = number
        node.kill()
        node.forget_log()


def worker_of(node, client):
    """The thread that answers a client."""
    before = node.times()
    for _ in range(10):
        client.say(*200 * ["PING x"])
        client.hear(*200 * [":bnc.example PONG bnc.example :x"])
    after = node.times()
    return max(after, key=lambda thread: after[thread] - before.get(thread, 0))


@test
def a_client_is_served_by_the_worker_of_its_network(fixture):
    """To whichever worker it came: clients of one network have one worker, and those of the next network another one. Each hears
    what is said, and what it says reaches its server."""
    servers = [Server(fixture), Server(fixture)]
    node = Node(fixture, servers=[it.address for it in servers], workers=2).begin()
    sessions, workers = [server.register() for server in servers], []
    for network, session in zip(node.networks, sessions):
        clients = [node.client(f"client {number} of {network}").register(network=network) for number in range(4)]
        workers.append({worker_of(node, client) for client in clients})
        for number, client in enumerate(clients):
            client.say(f"TOPIC #a :{number}")
            session.hear(f"TOPIC #a :{number}")
        session.say(":bob!b@h TOPIC #a :hi")
        for client in clients:
            client.hear(":bob!b@h TOPIC #a :hi")
    expect("how many workers a network has", [1, 1], [len(it) for it in workers])
    expect("how many workers there are", 2, len(set.union(*workers)))


@test
def a_marker_of_the_second_worker_reaches_the_peer(fixture):
    """Peers are with the first worker. So does a message of a network that the second one has."""
    servers = [Server(fixture), Server(fixture)]
    node = Node(fixture, servers=[it.address for it in servers], peers=[("n0", NOBODY)], workers=2).begin()
    sessions = [server.register("message-tags server-time") for server in servers]
    clients = [node.client(f"client of {network}").register("draft/read-marker", network=network) for network in node.networks]
    if worker_of(node, clients[0]) == worker_of(node, clients[1]):
        raise Failed("both clients have the same worker")
    peer, count = Peer.dial(node).greet(), 0
    changes = []
    for network, client in zip(node.networks, clients):
        count += 1
        client.say(f"MARKREAD #m{count} timestamp=1970-01-01T00:00:0{count}.000Z")
        changes.append(f"C MARK demo {network} #m{count} {count}000")
        peer.hear_packet(count - 1, count, changes[-1])
        peer.acknowledge(count)
    for network, session in zip(node.networks, sessions):
        count += 1
        session.say(f"@msgid=m{count};time=1970-01-01T00:00:0{count}.000Z :bob!b@h PRIVMSG #a :hi")
        peer.hear_packet(count - 1, count, f"C POST demo {network} #a m{count} {count}000 P #a bob!b@h :hi")
        peer.acknowledge(count)


# The least and the greatest `bound`, and the bytes of a line.
LEAST, MOST, LINE = 1024, 1 << 20, 400


def bytes_until_closed(fixture, bound):
    """How much is said until a client that never reads is closed."""
    server = Server(fixture)
    node = Node(fixture, servers=[server.address], bound=bound).begin()
    session = server.register()
    deaf = node.client("the client that never reads", room=2048).register()
    end = f"client out: demo/net from {spelled(deaf.address)}: it did not read what was owed to it"
    line = ":bob!b@h TOPIC #a :"
    line += "x" * (LINE - 2 - len(line))
    count = 0
    while not node.told(end):
        session.say(*40 * [line], "PING :settled")
        session.hear("PONG :settled")
        count += 40 * LINE
        if count > 32 << 20:
            raise Failed(f"a client with a bound of {bound} was owed {count} bytes")
    node.kill()
    return count


@test
def so_much_may_be_owed_to_a_client_as_bound_says(fixture):
    """Beyond what the system's own buffers hold."""
    least, most = (bytes_until_closed(fixture, bound) for bound in (LEAST, MOST))
    fixture.notes.append(f"{least} bytes, and {most - least} more for a bound that is {MOST - LEAST} greater")
    if not (MOST - LEAST) // 2 < most - least < 2 * (MOST - LEAST):
        raise Failed(f"with a bound of {LEAST} it is closed behind {least} bytes, and with one of {MOST} behind {most}")


# The bytes of the longest line, with its ending: 8,191 of tags (IRCv3 message-tags) and 512 of the rest (RFC 2812).
LONGEST = 8703


def tag_line(size):
    """A line of so many bytes with its ending, which a client that holds message-tags hears as it is."""
    rest = ":bob!b@h TAGMSG #a :" + "x" * 490
    return f"@+x={'x' * (size - len(f'@+x= {rest}') - 2)} {rest}"


@test
def a_line_that_is_longer_than_bound_closes_a_client_that_reads(fixture):
    """With 8,703 it hears the longest line. Where it is closed the operator reads both causes."""
    for bound, size in ((LEAST, LEAST), (4096, 4096), (LONGEST, LONGEST)):
        server = Server(fixture)
        node = Node(fixture, name=f"n{bound}", servers=[server.address], bound=bound).begin()
        session = server.register("message-tags")
        client = node.client().register("message-tags")
        session.say(tag_line(size))
        client.hear(tag_line(size))
        if size == LONGEST:
            continue
        session.say(tag_line(size + 1))
        client.hear_end()
        node.wait_for(f"client out: demo/net from {spelled(client.address)}: it did not read what was owed to it, "
                      "or a line was longer than its bound")


@test
def for_how_long_messages_are_kept_is_told_at_the_start(fixture):
    """Once, and not where they are kept for ever."""
    for days, told in ((0, None), (1, "1 day"), (36500, "36500 days")):
        node = Node(fixture, name=f"n{days}", retain_days=days).begin()
        wanted = [f"messages are kept for {told} at most, here and on every node of the cluster"] if told else []
        expect("what is told", wanted, [line.partition("retention: ")[2] for line in node.log() if "retention: " in line])
