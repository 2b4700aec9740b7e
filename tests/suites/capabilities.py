"""What a session is answered and told by its capabilities, with each of the 128 sets of them (docs/PROTOCOL.md, "A client's session"
and "A session with a server"; the IRCv3 specifications batch, message-tags, server-time, draft/chathistory, draft/read-marker,
echo-message and draft/message-redaction)."""

from harness.node import Node, TwoAccounts
from harness.registry import add, test
from harness.server import Server

# In byte order. A set is a number, whose lowest bit is the first name.
NAMES = ("batch", "draft/chathistory", "draft/message-redaction", "draft/read-marker", "echo-message", "message-tags", "server-time")
BATCH, CHATHISTORY, REDACTION, READ_MARKER, ECHO, TAGS, TIME = (1 << bit for bit in range(7))
SETS, AT_ONCE = 128, 16
OFFERS = "draft/message-redaction echo-message message-tags server-time"

PAGE = "CHATHISTORY LATEST #a * 5"
TARGETS = "CHATHISTORY TARGETS timestamp=1970-01-01T00:00:00.000Z timestamp=1970-01-01T00:00:09.000Z 5"


class Message:
    """A message of the channel #a, so many seconds after 1970 began, maybe with client-only tags."""

    def __init__(self, number, source="bob!b@h", tags=""):
        self.number, self.source, self.tags = number, source, tags

    def time(self):
        return f"1970-01-01T00:00:{self.number:02}.000Z"

    def tagged(self, tags):
        return ("@" + ";".join(tags) + " " if tags else "") + f":{self.source} PRIVMSG #a :hi"

    def said(self):
        """As the server says it."""
        return self.tagged([f"msgid=m{self.number}", f"time={self.time()}", *([self.tags] if self.tags else [])])

    def told(self, held, batch=()):
        """As a session with these capabilities is told of it, maybe in a batch."""
        tags = [f"msgid=m{self.number}"] if held & TAGS else []
        tags += [f"time={self.time()}"] if held & TIME else []
        return self.tagged([*batch, *tags, *([self.tags] if self.tags and held & TAGS else [])])


class Session:
    """A client with a set of capabilities, and the number of its next batch."""

    def __init__(self, node, held):
        self.held, self.reference = held, 1
        self.client = node.client(f"the client with the set {held}")
        self.client.register(" ".join(name for bit, name in enumerate(NAMES) if held >> bit & 1))

    def hear_batch(self, kind, lines):
        """Hears lines, which are those of a batch where it holds `batch`."""
        if not self.held & CHATHISTORY:
            return self.client.hear(":bnc.example 421 al CHATHISTORY :Unknown command")
        if not self.held & BATCH:
            return self.client.hear(*lines([]))
        told = lines([f"batch=r{self.reference}"])
        self.client.hear(
            f":bnc.example BATCH +r{self.reference} {kind}", *told, f":bnc.example BATCH -r{self.reference}")
        self.reference += 1

    def ask(self, latest, messages):
        """Asks for a page, targets and a marker."""
        self.client.say(PAGE, TARGETS, "MARKREAD #a")
        self.hear_batch("chathistory #a", lambda batch: [it.told(self.held, batch) for it in messages])
        line = f":bnc.example CHATHISTORY TARGETS #a {latest.time()}"
        self.hear_batch("draft/chathistory-targets", lambda batch: [f"@{batch[0]} {line}" if batch else line])
        marker = "MARKREAD #a *" if self.held & READ_MARKER else "421 al MARKREAD :Unknown command"
        self.client.hear(f":bnc.example {marker}")

    def hear(self, *told):
        """Hears of these what its capabilities let it, and nothing else before the answer of a PING. With each stands what has to
        be held, 0 for nothing."""
        self.client.hear(*(line for needs, line in told if not needs or self.held & needs))
        self.client.ping()


def answered(first):
    """A test of so many sets, from that one on, each with its own client."""

    def call(fixture):
        servers = [Server(fixture), Server(fixture)]
        node = TwoAccounts(fixture, servers=[it.address for it in servers], places=AT_ONCE + 1).begin()
        server, session = servers[0], servers[0].register(OFFERS)
        servers[1].register(OFFERS)
        one = Message(1)
        session.say(one.said())
        server.settled(session)
        sessions = [Session(node, held) for held in range(first, first + AT_ONCE)]
        stranger = node.client("a client of another account")
        stranger.register(" ".join(NAMES), account="eve")
        for it in sessions:
            it.ask(one, [one])
        two, own, bare, other = Message(2, tags="+x=1"), Message(3, "al!a@h"), Message(4, "AL"), Message(5, "alan!a@h")
        redaction, topic = ":bob!b@h REDACT #a m1 :oops", ":bob!b@h TOPIC #a :hi"
        session.say(two.said(), own.said(), bare.said(), other.said(), "@+x=1;msgid=t1 :bob!b@h TAGMSG #a", redaction, topic)
        server.settled(session)
        for it in sessions:
            it.hear(
                (0, two.told(it.held)), (ECHO, own.told(it.held)), (ECHO, bare.told(it.held)), (0, other.told(it.held)),
                (TAGS, "@+x=1 :bob!b@h TAGMSG #a"), (REDACTION, redaction), (0, topic))
        stranger.ping()
        for it in sessions:
            it.ask(other, [two, own, bare, other])
            # (no answer of the node's)
            it.client.say(f"PRIVMSG #a :{it.held}")
            session.hear(f"PRIVMSG #a :{it.held}")

    return call


for first in range(0, SETS, AT_ONCE):
    add(f"capabilities: the sets {first} to {first + AT_ONCE - 1}", answered(first))


@test
def another_network_of_the_account_is_not_told(fixture):
    """Nor is another account. Both have a network of that name."""
    servers = [Server(fixture), Server(fixture)]
    node = Node(fixture, servers=[it.address for it in servers]).begin()
    sessions = [it.register(OFFERS) for it in servers]
    clients = [node.client(network).register(" ".join(NAMES), network=network) for network in node.networks]
    for at, session in enumerate(sessions):
        said = (":bob!b@h TOPIC #a :hi", "@+x=1 :bob!b@h TAGMSG #a", Message(at + 1).said())
        session.say(*said)
        servers[at].settled(session)
        clients[at].hear(*said)
        clients[1 - at].ping()
