"""Clients that read slowly, late or never (docs/CLIENTS.md, "Clients that are slow, or gone"; docs/OPERATING.md, "Size";
docs/PROTOCOL.md, "CHATHISTORY")."""

import resource
import time

from harness.client import login, page
from harness.connection import connect, spelled
from harness.failure import Failed
from harness.node import TwoAccounts
from harness.registry import test
from harness.server import Server, begun

BODY = "x" * 400
NOBODY = ("127.0.0.1", 1)
# So many clients are silent beside the one that is told lines, and so many lines are measured so often.
SILENT, LINES, ROUNDS = 1500, 500, 5
# What a turn brings a client goes out from where it was written if it has so many bytes, and no more than the client may be owed
# (docs/PERFORMANCE.md, "Memory of clients and messages").
LONG = 2048


def said(number):
    return f"@msgid=m{number:04} :bob!b@h PRIVMSG #a :{number} {BODY}"


def node_with(fixture, messages, **limits):
    """A node that has heard so many messages."""
    node, server, session = begun(fixture, "message-tags", **limits)
    for number in range(messages):
        session.say(said(number))
    server.settled(session)
    return node, server, session


@test
def a_slow_reader_gets_a_page_of_100_whole(fixture):
    """The page is far longer than what may be owed to the client. It takes a hundred bytes at once."""
    node, _, _ = node_with(fixture, 150, bound=1024)
    client = node.client("the slow client", room=2048).register("batch draft/chathistory message-tags")
    client.say("CHATHISTORY LATEST #a * 100", "PING end")
    wanted = [*page(1, "#a", *(said(number) for number in range(50, 150))), ":bnc.example PONG bnc.example :end"]
    most = sum(len(line) + 2 for line in wanted)
    while len(client.held) < most:
        more = client.receive(100)
        if not more:
            break
        client.held += more
        time.sleep(0.0005)
    client.hear(*wanted)
    client.ping()


@test
def many_pages_at_once_reach_a_slow_reader(fixture):
    """Ten questions in one piece, whose answers come in their order."""
    node, _, _ = node_with(fixture, 100, bound=1024)
    client = node.client("the slow client", room=2048).register("batch draft/chathistory message-tags")
    client.say(*10 * ["CHATHISTORY LATEST #a * 100"])
    time.sleep(0.5)
    for number in range(1, 11):
        client.hear(*page(number, "#a", *(said(number) for number in range(100))))
    client.ping()


@test
def a_client_that_never_reads_is_closed_and_others_get_their_lines(fixture):
    """Once `bound` bytes are owed to it beyond what the system's own buffers hold."""
    node, server, session = node_with(fixture, 0, bound=65536)
    reads = node.client("the client that reads").register("message-tags")
    deaf = node.client("the client that never reads", room=2048).register("message-tags")
    heard = 0
    end = f"client out: demo/net from {spelled(deaf.address)}: it did not read what was owed to it"
    while not node.told(end) and heard < 40000:
        session.say(*(said(number) for number in range(heard, heard + 100)))
        reads.hear(*(said(number) for number in range(heard, heard + 100)))
        heard += 100
    node.wait_for(end)
    reads.ping()
    node.client("the next client").register()


@test
def a_client_that_leaves_in_the_middle_of_a_page_harms_nobody(fixture):
    node, _, _ = node_with(fixture, 100, bound=1024)
    stays = node.client("the client that stays").register("batch draft/chathistory message-tags")
    for number in range(20):
        guest = node.client("a guest", room=2048).register("batch draft/chathistory message-tags")
        guest.say(*5 * ["CHATHISTORY LATEST #a * 100"])
        guest.receive(100)
        guest.close()
        node.wait_for(f"client out: demo/net from {spelled(guest.address)}: ")
    stays.say("CHATHISTORY LATEST #a * 100")
    stays.hear(*page(1, "#a", *(said(number) for number in range(100))))
    stays.ping()


@test
def a_server_that_sends_much_at_once_is_heard_whole(fixture):
    """Two thousand messages in one piece, in their order, and the last hundred of them as a page."""
    node, server, session = node_with(fixture, 0)
    client = node.client().register("message-tags batch draft/chathistory")
    session.say(*(said(number) for number in range(2000)))
    client.hear(*(said(number) for number in range(2000)))
    client.say("CHATHISTORY LATEST #a * 100")
    client.hear(*page(1, "#a", *(said(number) for number in range(1900, 2000))))


def messages_of(first, size):
    """Messages from that number on, whose lines have so many bytes together with their endings."""
    count = size // 400
    heads = [f"@msgid=m{number:04} :bob!b@h PRIVMSG #a :" for number in range(first, first + count)]
    left = size - sum(len(head) + 2 for head in heads)
    return [head + "x" * (left // count + (at < left % count)) for at, head in enumerate(heads)]


@test
def messages_of_a_turn_are_told_whole_at_each_length(fixture):
    """As many bytes as go out from where they were written, and as a client may be owed, each with one less and one more. A
    client that holds `message-tags` is told so many; beside it is one that holds nothing, whose lines are shorter."""
    for bound in (1024, LONG, 4096):
        node, _, session = node_with(fixture, 0, bound=bound)
        tagged, plain = node.client().register("message-tags"), node.client().register()
        number = 0
        for size in sorted({*range(LONG - 1, LONG + 2), *range(bound - 1, bound + 2)}):
            messages = messages_of(number, size)
            number += len(messages)
            session.say(*messages)
            tagged.hear(*messages)
            plain.hear(*(message.split(" ", 1)[1] for message in messages))
        tagged.ping()
        plain.ping()


@test
def a_line_costs_nothing_for_the_clients_of_another_account(fixture):
    """Beside 1,500 of them that are silent, a line takes less than twice the processor time."""
    more_descriptors(2 * SILENT)
    server = Server(fixture)
    node = TwoAccounts(fixture, servers=[server.address, NOBODY], workers=1, places=2 * SILENT, bound=1024).begin()
    session = server.register("message-tags")
    client = node.client().register("message-tags")
    alone = least_seconds(node, session, client)
    for _ in range(SILENT):
        register_silent(fixture, node)
    beside = least_seconds(node, session, client)
    fixture.notes.append(f"{beside / alone:.2f} times the time of a client that is alone")
    if beside > 2 * alone:
        raise Failed(f"{LINES} lines take {beside:.4f} seconds beside {SILENT} clients, and {alone:.4f} without them")


def more_descriptors(count):
    """Lets this process and those that it starts have so many descriptors."""
    soft, hard = resource.getrlimit(resource.RLIMIT_NOFILE)
    if soft != resource.RLIM_INFINITY and soft < count:
        resource.setrlimit(resource.RLIMIT_NOFILE, (count if hard == resource.RLIM_INFINITY else min(count, hard), hard))


def register_silent(fixture, node):
    """A client of the other account that is registered, and says and reads nothing more."""
    it = connect(fixture, node.clients)
    fixture.at_end(it.close)
    it.sendall("".join(f"{line}\r\n" for line in (*login(account="eve"), "PING here")).encode())
    held = b""
    while b"PONG" not in held:
        more = it.recv(4096)
        if not more:
            raise Failed(f"a client of the other account isn't let in: {held!r}")
        held += more


def least_seconds(node, session, client):
    """The least processor time in which so many lines reach the client."""
    return min(seconds_of(node, session, client) for _ in range(ROUNDS))


def seconds_of(node, session, client):
    before = node.processor_seconds()
    # (topics, which the node doesn't keep)
    line = f":bob!b@h TOPIC #a :{'x' * 40}"
    for _ in range(LINES // 10):
        session.say(*10 * [line])
        client.hear(*10 * [line])
    return node.processor_seconds() - before
