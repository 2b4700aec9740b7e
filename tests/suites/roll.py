"""`bnc-roll`: nodes are restarted one after another, each once the one before is level with all its peers (docs/THREE-MACHINES.md,
"Restart and upgrade")."""

import os
import re
import sys

from harness import companions
from harness.connection import free_addresses
from harness.failure import expect
from harness.node import Node
from harness.registry import test

NOBODY = ("127.0.0.1", 1)
NAMES = ("n1", "n2", "n3")
LISTENING = "{} listening: clients on 127.0.0.1:6670, peers on 127.0.0.1:7000"
# Writes down which node is restarted, as which the journal has a new life of it.
RESTART = """import sys
name = sys.argv[1]
open("restarts", "a").write(name + "\\n")
open(name + ".log", "a").write(open(name + ".next").read())
"""


class Journals:
    """Journals of nodes that aren't there, and what a restart adds to each."""

    def __init__(self, fixture):
        self.fixture = fixture
        self.commands = ["--restart", f"{sys.executable} restart.py {{}}", "--journal", "cat {}.log"]
        fixture.write("restart.py", RESTART.encode())
        fixture.write("restarts", b"")

    def add(self, name, lines, later=()):
        self.fixture.write(f"{name}.log", self.text(lines, 1))
        self.fixture.write(f"{name}.next", self.text(later, 2))

    @staticmethod
    def text(lines, minute):
        """As the journal has it: with systemd's own lines, too."""
        stamp = f"2026-11-30T03:0{minute}:00.000Z"
        told = [LISTENING.format(stamp), *(f"{stamp} {line}" for line in lines)] if lines is not None else []
        return "".join(f"{line}\n" for line in ("Started bnc.service - bnc, an IRC bouncer.", *told)).encode()

    def roll(self, *words):
        return companions.run(self.fixture, "bnc-roll", *self.commands, *words)

    def restarted(self):
        with open(self.fixture.path("restarts"), encoding="utf-8") as file:
            return file.read().split()


def met(*names):
    """The events of a node that greeted these, and is level with them."""
    return [line for name in names for line in (f"peer greeted: {name} at 10.0.0.9:7000 (incarnation 5)",
                                                 f"peer level: {name}: each has what the other had")]


def without_seconds(output):
    """The lines that are told, without how long each node took."""
    return [re.sub(r" after \d+ seconds$", "", line) for line in output.decode().splitlines()]


@test
def each_node_once_the_one_before_is_level(fixture):
    """In the order of the words, whatever the nodes are called among themselves."""
    journals = Journals(fixture)
    for host, peers in (("host1", ("n2", "n3")), ("host2", ("n1", "n3")), ("host3", ("n1", "n2"))):
        journals.add(host, met(*peers), met(*peers))
    ended = journals.roll("host3", "host1", "host2")
    expect("the end", (0, b""), (ended.status, ended.errors))
    expect("what is told", ["host3: level with n1 and n2", "host1: level with n2 and n3", "host2: level with n1 and n3"],
           without_seconds(ended.output))
    expect("the restarts", ["host3", "host1", "host2"], journals.restarted())


def stops(name, first, later, why, restarted=(), words=()):
    """A test that no further node is restarted. The journal of n2 is that of a node that is level with all."""

    def call(fixture):
        journals = Journals(fixture)
        journals.add("n1", first, later)
        journals.add("n2", met("n1", "n3"), met("n1", "n3"))
        ended = journals.roll("--seconds", "0", *words, "n1", "n2")
        ended.expect(1, b"", f"bnc-roll: n1: {why}; no further node is restarted\n".encode())
        expect("the restarts", list(restarted), journals.restarted())

    call.__module__ = "suites.roll"
    call.__name__ = name
    test(call)


stops("nothing is restarted where a peer is gone", [*met("n2", "n3"), "peer down: n3: the other end closed it"], (),
      "it isn't level with n3")
stops("nothing is restarted where a peer was greeted and is not level",
      [*met("n2"), "peer greeted: n3 at 10.0.0.9:7000 (incarnation 5)"], (), "it isn't level with n3")
stops("nothing is restarted where a node is behind",
      [*met("n2", "n3"), "node behind: n3 knows a later life of this node (incarnation 9): set the clock right and start again"], (),
      "it isn't level with n3")
stops("nothing is restarted where no peer was ever there", [], (), "no peer has greeted it, so nothing would fill it again")
stops("nothing is restarted without a start in the journal", None, (),
      "its journal has no start of the node, so nobody knows with whom it is level")
stops("nothing is restarted where a named peer is not there", met("n2"), (), "it isn't level with n3", words=["--peers", "n1=n2,n3"])
stops("the next one waits for all peers of the one before", met("n2", "n3"), met("n2"),
      "after 0 seconds it isn't level with n3", restarted=["n1"])
stops("greeted isn't level", met("n2", "n3"), [*met("n2"), "peer greeted: n3 at 10.0.0.9:7000 (incarnation 6)"],
      "after 0 seconds it isn't level with n3", restarted=["n1"])
stops("a node that does not come back", met("n2", "n3"), None, "after 0 seconds it isn't level with n2 and n3", restarted=["n1"])


@test
def all_nodes_are_looked_at_first(fixture):
    """Where the second one isn't level, the first one isn't restarted either."""
    journals = Journals(fixture)
    journals.add("n1", met("n2", "n3"), met("n2", "n3"))
    journals.add("n2", [*met("n1", "n3"), "peer down: n3: the other end closed it"], met("n1", "n3"))
    ended = journals.roll("n1", "n2")
    ended.expect(1, b"", b"bnc-roll: n2: it isn't level with n3; no further node is restarted\n")
    expect("the restarts", [], journals.restarted())


@test
def a_peer_that_is_gone_for_good(fixture):
    """It isn't waited for where the peers are named."""
    journals = Journals(fixture)
    journals.add("n1", [*met("n2", "n3"), "peer down: n3: the other end closed it"], met("n2"))
    ended = journals.roll("--peers", "n1=n2", "n1")
    expect("the end", (0, ["n1: level with n2"], b""), (ended.status, without_seconds(ended.output), ended.errors))


@test
def a_node_that_cannot_be_reached(fixture):
    ended = companions.run(fixture, "bnc-roll", "--journal", "sh -c 'echo no route to {} >&2; exit 255'", "n1")
    ended.expect(4, b"", b"bnc-roll: 'sh -c 'echo no route to n1 >&2; exit 255'' ended with status 255: no route to n1\n")


# Kills a node by the number of its process, and starts it again with the same configuration and log. (The sockets are closed once
# each thread has ended, of which the first one is left until somebody asks for the status.)
RESTART_NODE = """import os, signal, subprocess, sys, time
program, name = sys.argv[1:]
number = int(open(name + ".pid").read())

def is_there():
    try:
        threads, state = os.listdir(f"/proc/{number}/task"), open(f"/proc/{number}/stat").read().rpartition(")")[2].split()[0]
    except (FileNotFoundError, ProcessLookupError):
        return False
    return len(threads) > 1 or state != "Z"

os.kill(number, signal.SIGKILL)
while is_there():
    time.sleep(0.01)
log = open(name + ".log", "ab")
process = subprocess.Popen([program, "serve", name + ".toml"], stdin=subprocess.DEVNULL, stdout=log, stderr=log, start_new_session=True)
open(name + ".pid", "w").write(str(process.pid))
"""


class Cluster:
    """Three nodes, of which each restart goes on in the same log."""

    def __init__(self, fixture):
        self.fixture = fixture
        addresses = dict(zip(NAMES, free_addresses(len(NAMES))))
        self.nodes = {}
        # (the node of the greatest name first, so that none waits a minute for another)
        for name in reversed(NAMES):
            node = Node(fixture, name, servers=[NOBODY], peers=[(it, addresses[it]) for it in NAMES if it != name])
            node.peers = addresses[name]
            self.nodes[name] = node.begin()
            fixture.write(f"{name}.pid", str(node.process.pid).encode())
        fixture.write("restart.py", RESTART_NODE.encode())
        fixture.at_end(self.end)

    def end(self):
        """Ends the lives that the restarts began."""
        for name in NAMES:
            with open(self.fixture.path(f"{name}.pid"), encoding="utf-8") as file:
                try:
                    os.kill(int(file.read()), 9)
                except ProcessLookupError:
                    pass


@test
def a_node_is_filled_again(fixture):
    """A marker that all nodes have stands at the node that was restarted, by SIGKILL, as soon as the command has ended."""
    cluster = Cluster(fixture)
    for name, node in cluster.nodes.items():
        for other in sorted({*NAMES} - {name}):
            node.wait_for(f"peer level: {other}: ")
    client = cluster.nodes["n2"].client().register("draft/read-marker")
    client.say("MARKREAD #a timestamp=2026-01-02T03:04:05.678Z")
    client.hear(":bnc.example MARKREAD #a timestamp=2026-01-02T03:04:05.678Z")
    restart = f"{sys.executable} restart.py {fixture.program} {{}}"
    ended = companions.run(fixture, "bnc-roll", "--restart", restart, "--journal", "cat {}.log", "n1")
    expect("the end", (0, ["n1: level with n2 and n3"], b""), (ended.status, without_seconds(ended.output), ended.errors))
    client = cluster.nodes["n1"].client().register("draft/read-marker")
    client.say("MARKREAD #a")
    client.hear(":bnc.example MARKREAD #a timestamp=2026-01-02T03:04:05.678Z")
