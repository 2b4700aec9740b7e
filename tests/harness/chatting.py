"""What stands in for a chat client with a script: it takes a connection to a node, and keeps what it would show."""

import re
from dataclasses import dataclass

from harness.failure import Failed, expect

# How a script that can't put a line in its place says that it came late.
LATE = re.compile(r" \[late: said at [^]]*\]$")
# The present of the tests, by the clocks that are right.
NOW = 1780315200000


@dataclass
class Shown:
    """A message in a window: when and by whom it was said, and whether it looks as one's own and catches the eye."""

    time: str
    nick: str
    text: str
    is_own: bool = False
    is_highlight: bool = False


class Chatting:
    """A client with a script over one server, called bnc. Those of a kind know its interface; here is what all have."""

    # the capabilities for which the client itself asks
    capabilities = "message-tags server-time"

    def __init__(self, client, clock=NOW):
        """The clock is the client's own, in milliseconds."""
        self.client, self.clock = client, clock
        self.sent, self.windows, self.pings = [], {}, 0
        # the windows that lost their activity, and lines of the protocol that were shown as they are
        self.read, self.raw = [], []

    # -- what those of a kind do

    def hear(self, line):
        """A line of the server: the script hears it, and it is shown where the script lets it."""
        raise NotImplementedError

    def minute(self):
        """A minute is over."""
        raise NotImplementedError

    def type(self, target, text):
        """A person types a message, which is shown at once."""
        raise NotImplementedError

    def command(self, words):
        """A person types /bnc_history with these words."""
        raise NotImplementedError

    def leave(self, window):
        """A person leaves a window for another one."""
        raise NotImplementedError

    def set_own_nicks(self, nicks):
        raise NotImplementedError

    def disconnected(self):
        """The connection is over. What was shown is kept in a file."""
        raise NotImplementedError

    def lines(self, window):
        """What a window shows, in the order in which it was said."""
        raise NotImplementedError

    # -- what all do

    def say(self, line):
        """Sends what the script says."""
        self.sent.append(line)
        self.client.say(line)

    def attach(self, nick="al"):
        self.client.say(f"CAP REQ :{self.capabilities}", "PASS s3cret", f"NICK {nick}", "USER demo/net 0 * :al", "CAP END")
        return self.settle()

    def settle(self):
        """Hears what comes, until all that the script asked is answered and it asks nothing more."""
        while True:
            self.pings, count = self.pings + 1, len(self.sent)
            self.client.say(f"PING settled{self.pings}")
            end = f":bnc.example PONG bnc.example :settled{self.pings}"
            while True:
                line = self.client.line(end)
                if line == end:
                    break
                self.hear(line)
            if len(self.sent) == count:
                return self

    def minutes(self, count):
        """So many minutes are over, and the own clock has gone on."""
        for _ in range(count):
            self.clock += 60_000
            self.minute()
            self.settle()
        return self

    def texts(self, window):
        return [it.text for it in self.lines(window)]

    def expect(self, window, *texts):
        """The window shows just these, in the order in which they were said."""
        expect(f"{type(self).__name__}: {window}", list(texts), self.texts(window))

    def line_of(self, window, text):
        """The one line of a window with that text."""
        found = [it for it in self.lines(window) if it.text == text]
        if len(found) != 1:
            raise Failed(f"{type(self).__name__}: {window} shows {text!r} {len(found)} times")
        return found[0]
