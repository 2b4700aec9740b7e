"""An IRC server with sessions of nodes (docs/PROTOCOL.md, "A session with a server")."""

import time

from harness.connection import Listener
from harness.identities import EXAMPLE, user_of
from harness.node import Node


class Server(Listener):
    """Where nodes find a network."""

    def identity(self):
        """Who is to come, by the configuration of the node that finds this server."""
        return self.fixture.identities.get(self.address, EXAMPLE)

    def greeted(self, nick=None):
        """The next session, of which the first three lines were heard."""
        who, session = self.identity(), self.accept("the server")
        nick = nick or who.nick
        user = who.user if nick == who.nick else user_of(nick)
        session.hear("CAP LS 302", f"NICK {nick}", f"USER {user} 0 * :{user}")
        return session

    @staticmethod
    def offer(session, offers):
        """The session asks for what the server offers, and gets it."""
        session.say(f":irc.example CAP * LS :{offers}")
        if offers:
            session.hear(f"CAP REQ :{offers}")
            session.say(f":irc.example CAP * ACK :{offers}")
        session.hear("CAP END")

    def register(self, offers="", nick=None, channels=None):
        """Takes in the next session, which asks for what the server offers. The network is up then, since the node has
        answered what came after the welcome. The nick and the channels are those of the configuration, where none are given."""
        who = self.identity()
        nick, channels = nick or who.nick, who.channels if channels is None else channels
        session = self.greeted(nick)
        self.offer(session, offers)
        session.say(f":irc.example 001 {nick} :Welcome", "PING :up")
        session.hear(*(f"JOIN {channel}" for channel in channels), "PONG :up")
        for channel in channels:
            session.say(f":{nick}!{nick}@host JOIN {channel}")
        self.settled(session)
        return session

    def settled(self, session):
        """Waits until the node has taken all that the server said."""
        session.say("PING :settled")
        session.hear("PONG :settled")

    def told(self, session):
        """Waits until all that the server said is told, by the other workers too. These read it as mail, which nobody outside
        sees, so they get a second for it: who comes by then may hear of what was said before."""
        self.settled(session)
        time.sleep(1)


def begun(fixture, offers="message-tags server-time", **how):
    """A node whose network is up, its server and its session there."""
    server = Server(fixture)
    node = Node(fixture, servers=[server.address], **how).begin()
    return node, server, server.register(offers)
