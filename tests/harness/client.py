"""A client of a node (docs/PROTOCOL.md, "A client's session")."""

from harness.connection import Connection, connect
from harness.failure import Failed
from harness.identities import SECRETS, identity_of


def login(network="net", account="demo"):
    """What a client says to be let in. Any nick may be given."""
    return f"PASS {SECRETS[account]}", "NICK al", f"USER {account}/{network} 0 * :Al"


def greeting(nick=None, network="net", maximum=100, account="demo"):
    """What a session is told once it is registered, by a node whose pages have so many messages at most. The nick is the one that
    the network has."""
    nick = nick or identity_of(account, network).nick
    return (
        f":bnc.example 001 {nick} :Welcome to {network}",
        f":bnc.example 005 {nick} CASEMAPPING=ascii CHATHISTORY={maximum} MSGREFTYPES=msgid,timestamp "
        ":are supported by this server",
        f":bnc.example 422 {nick} :MOTD File is missing",
    )


def page(reference, target, *lines):
    """A page as a batch: each line has its tags but the batch's."""
    return (
        f":bnc.example BATCH +r{reference} chathistory {target}",
        *(f"@batch=r{reference}{';' if line.startswith('@') else ' '}{line.lstrip('@')}" for line in lines),
        f":bnc.example BATCH -r{reference}",
    )


class Client(Connection):
    """The other end of a client's connection."""

    def __init__(self, fixture, address, name, room=None):
        super().__init__(fixture, connect(fixture, address, room), name)
        self.address = self.socket.getsockname()

    def register(self, capabilities="", nick=None, channels=None, network="net", maximum=100, account="demo"):
        """Registers, and hears the whole greeting and nothing else. The nick and the channels are those that the network has, by
        harness/identities.py where none are given."""
        who = identity_of(account, network)
        nick, channels = nick or who.nick, who.channels if channels is None else channels
        if capabilities:
            self.say(f"CAP REQ :{capabilities}")
            self.hear(f":bnc.example CAP * ACK :{capabilities}")
        self.say(*login(network, account), *(["CAP END"] if capabilities else []))
        self.hear(*greeting(nick, network, maximum))
        for channel in channels:
            self.hear(f":{nick} JOIN {channel}")
            if "draft/read-marker" in capabilities:
                self.hear(f":bnc.example MARKREAD {channel} *")
        self.ping()
        return self

    def ping(self, word="here"):
        """Hears nothing before the answer of a PING."""
        self.say(f"PING {word}")
        self.hear(f":bnc.example PONG bnc.example :{word}")

    def ask(self, question):
        """Asks for a page, and answers the lines of its batch. The session holds batch."""
        self.say(question)
        first = self.line("a batch")
        if " BATCH +" not in first:
            raise Failed(f"{self.name}: expected a batch for {question}, came {first!r}")
        end = first.split(" ")[2].replace("+", "-", 1)
        lines = []
        while True:
            line = self.line("the end of a batch")
            if line == f":bnc.example BATCH {end}":
                return lines
            lines.append(line)

    def latest(self, target="#a", most=100):
        """The lines of a latest page without their batch, whose reference is the session's own."""
        return ["@" + line.partition(";")[2] for line in self.ask(f"CHATHISTORY LATEST {target} * {most}")]
