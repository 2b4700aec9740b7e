"""A node at the limit of its memory, as `LimitAS` of examples/bnc.service sets it (docs/OPERATING.md, "A node at the limit of its
memory"): it closes what it can't serve, says so, and goes on with the rest."""

import re
import subprocess
import time

from harness.client import login
from harness.failure import Failed
from harness.node import TwoAccounts
from harness.registry import test
from harness.server import Server

# The bytes of address space that the node may have, of which the heaps of three threads take 192 MB; and what the unit has in its
# environment.
LIMIT = 400 << 20
ENVIRONMENT = ("MALLOC_ARENA_MAX=16", "MALLOC_MMAP_THRESHOLD_=131072")
# The seconds in which the node comes to its limit, and those in which each question is answered then.
REACHED, ANSWERED = 90, 5
# How often the client comes at the limit, and the seconds before it comes again.
ROUNDS = 10
AWAY = 0.1
HOLDS = "batch draft/chathistory draft/read-marker"


def has_sanitizer(program):
    """Whether the program was built with the sanitizer, which needs more address space than a limit leaves."""
    with open(program, "rb") as file:
        return b"__asan_init" in file.read()


def limited(fixture, servers):
    """A node with two accounts under the limit."""
    front = ["env", *ENVIRONMENT, "sh", "-c", f'ulimit -v {LIMIT >> 10}; exec "$@"', "sh"]
    return TwoAccounts(fixture, servers=[it.address for it in servers], front=front, places=64).begin()


def says_without_pause(fixture, session):
    """A server that says one long message again and again, as fast as it is read, until its connection ends."""
    session.socket.settimeout(None)
    process = subprocess.Popen(["yes", f":bob!b@h PRIVMSG #a :{'x' * 400}\r"], stdin=subprocess.DEVNULL,
                               stdout=session.socket.fileno(), stderr=subprocess.DEVNULL)
    fixture.at_end(process.wait)
    fixture.at_end(process.kill)


class Eve:
    """A client of the other account, which comes again where the node closes it."""

    def __init__(self, fixture, node):
        self.fixture, self.node, self.client, self.came, self.heard = fixture, node, None, 0, ""

    def comes(self):
        self.client = self.node.client("a client of the other account")
        self.client.say(f"CAP REQ :{HOLDS}", *login(account="eve"), "CAP END")
        self.came += 1

    def goes(self):
        if self.client:
            self.client.close()
        self.client = None
        time.sleep(AWAY)

    def hears(self, question, answer):
        """Asks, and hears a line that has this in it, within some seconds."""
        begun = time.monotonic()
        while time.monotonic() < begun + ANSWERED:
            try:
                if self.client is None:
                    self.comes()
                self.client.say(question)
                while True:
                    self.heard = self.client.line(answer)
                    if re.search(answer, self.heard):
                        return time.monotonic() - begun
            except (Failed, OSError):
                self.goes()
        raise Failed(f"{question}: not answered within {ANSWERED} seconds")


def about_memory(node):
    """The lines that say that there was no memory: those that count, and those of one connection each."""
    lines = [line.partition(" ")[2] for line in node.log()]
    return [it for it in lines if it.startswith("out of memory: ")], [it for it in lines if it.endswith(": no memory")]


def is_served(eve, second):
    """Asks for all that a client asks for, and gives the seconds that it took."""
    moment = f"2026-11-23T00:00:{second:02}.000Z"
    return [
        eve.hears("PING here", "PONG bnc.example :here"),
        eve.hears("CHATHISTORY LATEST #a * 10", "PRIVMSG #a :hello 19$"),
        eve.hears(f"MARKREAD #a timestamp={moment}", f":bnc.example MARKREAD #a timestamp={moment}"),
    ]


@test
def a_node_at_the_limit_of_its_memory_serves_the_others(fixture):
    """A server speaks without pause until the node has no memory left. The node closes that session and says so; pages, markers
    and pings of another account are answered, clients come, and what its server says is passed on and kept, or that session is
    closed too and the operator is told."""
    if has_sanitizer(fixture.program):
        fixture.notes.append("not played, since the sanitizer of the unproved program needs more than the limit")
        return
    servers = [Server(fixture), Server(fixture)]
    node = limited(fixture, servers)
    flood, quiet = [it.register("message-tags server-time") for it in servers]
    for number in range(20):
        quiet.say(said(number))
    servers[1].settled(quiet)
    eve = Eve(fixture, node)
    is_served(eve, 0)
    says_without_pause(fixture, flood)
    fixture.until("the node has no memory left", lambda: node.told("upstream down: demo/net: no memory") or node.is_over(), REACHED)
    took = []
    for second in range(1, ROUNDS + 1):
        took += is_served(eve, second)
        # (another connection of the same client)
        eve.goes()
        node.is_over()
    is_served(eve, 59)
    # (now that nobody speaks without pause)
    quiet.say(said(20))
    fixture.until("a line is passed on and kept, or the operator is told",
                  lambda: is_kept(eve) or node.told("upstream down: eve/net: no memory") or node.is_over(), ANSWERED)
    counted, single = about_memory(node)
    # (each worker says at most once a minute how many there were, and each network's session ends at most once a minute)
    if len(counted) > 2 or len(single) > 2:
        raise Failed(f"the operator is told too often: {counted} {single}")
    fixture.notes.append(f"{max(took):.2f} seconds at most, {eve.came} connections, {len(counted)} and {len(single)} lines of memory")


def said(number):
    """A message of the quiet server."""
    return f"@msgid=m{number:02};time=2026-11-23T00:00:{number:02}.000Z :bob!b@h PRIVMSG #a :hello {number}"


def is_kept(eve):
    """Whether the last message is on a page."""
    try:
        # (the page may be asked for before the line has come)
        eve.hears("CHATHISTORY LATEST #a * 1", "^@batch=.* PRIVMSG #a :hello [0-9]+$")
    except Failed:
        return False
    return eve.heard.endswith(" PRIVMSG #a :hello 20")
