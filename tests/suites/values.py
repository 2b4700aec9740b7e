"""What a configuration says is what a node does, value by value (docs/OPERATING.md, "Start and stop", "What it logs" and "Size";
docs/PROTOCOL.md, "A client's session", "A session with a server" and "Between nodes"). `configurations` shows which are refused."""

import datetime
import os
import re
import resource

from harness.client import Client
from harness.configurations import told
from harness.connection import Listener, spelled
from harness.failure import Failed, expect
from harness.node import Node
from harness.registry import add
from harness.server import Server


class Reader(Node):
    """A node of a configuration's text. Its two addresses are free ones, if they aren't to be seen."""

    def __init__(self, fixture, text, keeps=()):
        super().__init__(fixture)
        self.words, self.keeps = text.decode(), keeps

    def text(self):
        text = self.words
        for key, address in (("listen", self.clients), ("peer_listen", self.peers)):
            if key not in self.keeps:
                text = re.sub(rf'(?m)^{key} = ".*"$', f'{key} = "{spelled(address)}"', text)
        return text

    def has(self, text):
        """Appends this to the configuration."""
        self.words += text
        return self

    def value(self, key):
        """The text of a key of the top."""
        return re.search(rf'(?m)^{key} = "(.*)"$', self.words)[1]

    def secret_of(self, account):
        """The secret of an account, as it is spelled."""
        return re.search(rf'name = "{account}"\nsecret = "(.*)"', self.words)[1]

    def is_told(self, *lines):
        """Waits until the operator is told of just these lines."""
        for line in lines:
            self.fixture.until(f"'{line}' is told", lambda: line in self.events() or self.is_over())

    def events(self):
        return [line.partition(" ")[2] for line in self.log()]

    def greet(self, name, version=3):
        """A peer of that name greets the node, which tells it that version: the connection, and the node's name."""
        peer = Client(self.fixture, self.peers, f"the peer {name}")
        peer.say(f"W {self.value('peer_word')}", f"H 3 {name} 5")
        peer.hear(f"W {self.value('peer_word')}")
        found = re.fullmatch(rf"H {version} (\w+) [0-9]+", peer.line("a hello"))
        if not found:
            raise Failed(f"the peer {name} was told another hello")
        self.is_told(f"peer greeted: {name} at {spelled(peer.address)} (incarnation 5)")
        return found[1]

    def register(self, account, network, secret):
        """A client that registers: the connection, and the first line that it is told."""
        client = self.client()
        client.say(f"PASS :{secret}", "NICK somebody", f"USER {account}/{network} 0 * :Al")
        return client, client.line("001")


def name_is(reader, words):
    """The cluster's name stands before each line to a client."""
    _, line = reader.begin().register("demo", "net", "s3cret")
    expect("the first line", f":{words} 001 al :Welcome to net", line)


def node_is(reader, words):
    expect("the node's name", words, reader.begin().greet("n2"))


def word_is(reader, words):
    """A node says the word to a peer that said it."""
    expect("the configuration's word", words, reader.value("peer_word"))
    reader.begin().greet("n2")


def listens(key, name):
    """The operator is told where the node listens, or that it can't listen there."""

    def shown(reader, words):
        reader.keeps = (key,)
        reader.start()
        # (the system chooses a port in place of 0)
        wanted = re.escape(words.replace(":0", ":")) + ("[1-9][0-9]*" if words.endswith(":0") else "")
        line = re.compile(rf"(.* listening: .*\b{name} on {wanted}(,.*)?)|(can't listen at {wanted}: .*)")
        reader.fixture.until(f"{wanted} is told", lambda: any(line.fullmatch(it) for it in reader.log()))

    return shown


# The descriptors of a node that has no connection: three standard ones, one for each of the two addresses, and the accepting
# thread's.
ALONE = 6


def workers_are(reader, words):
    """Each has two descriptors."""
    reader.begin()
    wanted, path = ALONE + 2 * int(words), f"/proc/{reader.process.pid}/fd"
    reader.fixture.until(f"there are {wanted} descriptors", lambda: len(os.listdir(path)) == wanted or reader.is_over())


def may_open(count):
    """So many descriptors this process and those that it begins may have, where the system lets it."""
    soft, hard = resource.getrlimit(resource.RLIMIT_NOFILE)
    if 0 <= soft < count:
        resource.setrlimit(resource.RLIMIT_NOFILE, (min(count, hard) if hard >= 0 else count, hard))


def places_are(reader, words):
    """So many clients are registered at once, and there is no place for another."""
    may_open(int(words) + 1000)
    reader.begin()
    clients = []
    for number in range(int(words)):
        client, line = reader.register("demo", "net", "s3cret")
        expect(f"client {number}", ":bnc.example 001 al :Welcome to net", line)
        clients.append(client)
    late = reader.client("one that comes too late")
    late.hear_end()
    reader.wait_for(f"client refused: {spelled(late.address)}: each place is taken")


def days_are(reader, words):
    """The operator is told of them, and of none where messages are kept for ever."""
    reader.begin().wait_for("upstream down: demo/net")
    wanted = [] if words == "0" else [f"retention: messages are kept for {words} days at most, here and on every node of the cluster"]
    expect("what is told", wanted, [it for it in reader.events() if it.startswith("retention")])


def maximum_is(reader, words):
    client, _ = reader.begin().register("demo", "net", "s3cret")
    client.hear(f":bnc.example 005 al CASEMAPPING=ascii CHATHISTORY={words} MSGREFTYPES=msgid,timestamp :are supported by this server")


def peer_is(reader, words):
    """A node connects to a peer whose name is greater than its own, at its address, and lets it in."""
    name, address = words.split(" ")
    # (so that it is greater, and that nobody else is asked)
    reader.words = reader.words.replace('node = "n1"', 'node = "0"').replace("10.0.0.1:", "127.0.0.9:")
    reader.begin().is_told(f"peer unreachable: {name} at {address.replace('10.0.0.1:', '127.0.0.9:')}: connection refused")
    reader.greet(name, "[123]")


def named_is(reader, words):
    """A peer of that name is let in."""
    reader.begin().greet(words)


def version_is(reader, words):
    name, version = words.split(" ")
    reader.begin().greet(name, version)


def account_is(reader, words):
    """Its secret lets in to a network of its own, and a longer one doesn't."""
    name, secret = words.split(" ", 1)
    reader.has(f'[[network]]\naccount = "{name}"\nname = "last"\naddress = "127.0.0.1:1"\nnick = "zz"\nuser = "z"\nchannels = []\n').begin()
    _, line = reader.register(name, "last", secret)
    expect("the first line", ":bnc.example 001 zz :Welcome to last", line)
    _, line = reader.register(name, "last", secret + "x")
    expect("the first line", ":bnc.example 464 * :Password incorrect", line)


def floor_is(reader, words):
    """The operator is told from when on an account is kept."""
    name, ms = words.split(" ")
    reader.begin().wait_for("upstream down: ")
    found = [it for it in reader.events() if it.startswith(f"floor put: {name} ")]
    if ms == "missing":
        return expect("what is told", [], found)
    time = (datetime.datetime(1970, 1, 1) + datetime.timedelta(milliseconds=int(ms))).isoformat(timespec="milliseconds")
    line = f"floor put: {name} keeps nothing before {time}Z"
    if found not in ([line], [f"{line}, which lies ahead"]):
        raise Failed(f"expected {line}, came {found}")


class At(Server):
    """A server at an address of that host."""

    def __init__(self, fixture, host):
        Listener.__init__(self, fixture, host)


def network_is(reader, words):
    """A node comes to its server by its nick and its user, and joins each channel in turn."""
    account, network, address, nick, user, *channels = words.split(" ")
    host, _ = address.rsplit(":", 1)
    server = At(reader.fixture, host)
    reader.words = reader.words.replace(f'"{address}"', f'"{spelled(server.address)}"')
    reader.begin()
    session = server.accept("the server")
    session.hear("CAP LS 302", f"NICK {nick}", f"USER {user} 0 * :{user}")
    session.say(":irc.example CAP * LS :")
    session.hear("CAP END")
    session.say(f":irc.example 001 {nick} :Welcome")
    session.hear(*(f"JOIN {channel}" for channel in channels))
    reader.is_told(f"upstream up: {account}/{network} as {nick}")
    server.settled(session)


def entry_is(reader, words):
    """A network that isn't up has the configured nick, and takes no line."""
    account, network, nick, is_up = words.split(" ")
    client, line = reader.begin().register(account, network, reader.secret_of(account))
    expect("whether it is up", "false", is_up)
    expect("the first line", f":bnc.example 001 {nick} :Welcome to {network}", line)
    client.line("005"), client.line("422")
    client.say("x")
    client.hear(f":bnc.example NOTICE {nick} :Not connected to {network}")


SHOWN = {
    "name": name_is, "node": node_is, "listen": listens("listen", "clients"), "peer_listen": listens("peer_listen", "peers"),
    "peer_word": word_is, "workers": workers_are, "places": places_are, "retain_days": days_are, "maximum": maximum_is,
    "peer": peer_is, "named": named_is, "version": version_is, "account": account_is, "keep_from": floor_is,
    "network": network_is, "entry": entry_is,
}
# (`bound` is measured by `settings`)
PASSED_OVER = ("read", "bound", "BadKey", "BadValue", "BadText")


def shown(text, kind, words):
    return lambda fixture: SHOWN[kind](Reader(fixture, text), words)


for name, text, line in told():
    kind, _, words = line.decode().partition(" ")
    if kind not in PASSED_OVER:
        add(f"values/{name}: {kind} {words[:60]}", shown(text, kind, words))
