"""Stands in for irssi: runs one of its Perl scripts, under a stand-in for its module (harness/irssi), over a connection to a
node."""

import os
import subprocess

from harness import processes
from harness.chatting import LATE, NOW, Chatting, Shown
from harness.failure import Failed

HERE = os.path.dirname(os.path.abspath(__file__))


class Irssi(Chatting):
    """A script over one server, called bnc."""

    capabilities = "server-time"

    def __init__(self, script, folder, client, clock=NOW):
        super().__init__(client, clock)
        fixture, player = client.fixture, os.path.join(HERE, "irssi", "play.pl")
        self.process = processes.start(["perl", player, script, folder], stdin=subprocess.PIPE, stdout=subprocess.PIPE,
                                       stderr=subprocess.STDOUT, encoding="utf-8")
        fixture.at_end(lambda: processes.end(self.process))
        self.take()

    def take(self):
        """Takes what the script does, until it is done."""
        for line in self.process.stdout:
            line = line.rstrip("\n")
            if line == "done":
                return
            what, _, words = line.partition(" ")
            if what == "send":
                self.say(words)
            elif what == "show":
                window, moment, nick, is_own, is_highlight, text = words.split("\t", 5)
                shown = Shown(moment, nick, text, is_own == "1", is_highlight == "1")
                self.windows.setdefault(window.lower(), []).append(shown)
            elif what == "closed":
                del self.windows[words.lower()]
            elif what in ("read", "raw"):
                getattr(self, what).append(words)
            else:
                raise Failed(f"irssi: {line}")
        raise Failed("irssi: the script ended")

    def happen(self, what, words=""):
        self.process.stdin.write(f"clock {self.clock}\n")
        self.process.stdin.flush()
        self.take()
        self.process.stdin.write(f"{what} {words}\n")
        self.process.stdin.flush()
        self.take()

    def hear(self, line):
        self.happen("line", line)

    def minute(self):
        self.happen("minute")

    def type(self, target, text):
        self.client.say(f"PRIVMSG {target} :{text}")
        self.happen("typed", f"{target} {text}")
        return self.settle()

    def command(self, words):
        self.happen("command", words)
        self.settle()

    def set_own_nicks(self, nicks):
        self.happen("nicks", nicks)

    def leave(self, window):
        self.happen("leave", window)
        self.settle()

    def disconnected(self):
        self.happen("gone")
        self.happen("minute")

    def lines(self, window):
        """A line that came after later ones says so."""
        shown, latest = self.windows.get(window.lower(), []), ""
        for it in shown:
            is_late = bool(it.time) and it.time < latest
            if is_late != bool(LATE.search(it.text)):
                raise Failed(f"irssi: {window}: a line of {it.time} behind one of {latest}: {it.text!r}")
            latest = max(latest, it.time)
        placed = sorted(shown, key=lambda it: it.time or latest)
        return [Shown(it.time, it.nick, LATE.sub("", it.text), it.is_own, it.is_highlight) for it in placed]
