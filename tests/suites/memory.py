"""Requests for memory that are refused, one in each run: the first, then the second, and so on, until a run asks for no more
(docs/OPERATING.md, the table of statuses). The C library that refuses them is harness/refuse.c."""

import os
import subprocess
import time

from harness import processes
from harness.client import Client, greeting, page
from harness.configurations import contents
from harness.failure import Failed, expect
from harness.keeper import CLOSED, NOWHERE, Keeper, payloads_of
from harness.node import Node
from harness.readable import readable
from harness.refusals import Refusals
from harness.registry import add
from harness.scripts import case_of

NO_MEMORY = b"no memory\n"


def answers(script, printed):
    """A test of `bnc replay`: each run answers all with status 0, or the beginning of it with status 3 and `no memory`."""

    def call(fixture):
        refusals = Refusals.of(fixture)

        def run(number, environment):
            ran = fixture.replay(script, env=environment)
            if (ran.status, ran.output, ran.errors) == (0, printed, b""):
                return "answered all"
            if (ran.status, ran.errors) == (3, NO_MEMORY) and printed.startswith(ran.output):
                return "ended for want of memory"
            raise Failed(f"request {number} refused: status {ran.status}, {ran.errors!r}, {ran.output[-200:]!r}")

        fixture.notes.append(refusals.told(refusals.each(run)))

    return call


README = (
    b"C POST demo net #a m1 1000 P #a bob!b@h :hi\nCHATHISTORY LATEST #a * 10\n",
    b":bnc.example BATCH +r1 chathistory #a\r\n@batch=r1;msgid=m1;time=1970-01-01T00:00:01.000Z :bob!b@h PRIVMSG #a :hi\r\n"
    b":bnc.example BATCH -r1\r\n",
)
add("memory: the worked script of the readme", answers(*README))

# Posts, redactions, floors, markers, packets and nodes that start again; and sessions.
SCRIPTS = (
    ("examples", "an id is written with the escapes of a tag"),
    ("nodes", "a redaction behind its post on one node and before it on another, and then a floor above both"),
    ("nodes", "a restart between a packet's loss, an acknowledgement held back, and its coming"),
    ("nodes", "a marker of a session reaches the others"),
    ("floors", "posts below the floor of an account come from a node that hasn't it, and the floor comes back"),
    ("lines", "each kind of question and of refusal in one session"),
    ("sessions", "capabilities are given up and asked for"),
    ("tags", "every escape comes through a packet"),
    ("orders", "nodes begin again with nothing and are filled by others"),
)


def add_scripts():
    for file, name in SCRIPTS:
        case = case_of(file, name)
        add(f"memory: {name}", answers(case.script, case.printed))


add_scripts()


def starts(fixture):
    """A test of `bnc serve`: as a request is refused while the node begins, it ends with status 3 or 4 in the words of
    docs/OPERATING.md, or says that it listens."""
    refusals = Refusals.of(fixture)

    def run(number, environment):
        begun = Begun(fixture, environment, peers=[("n2", ("127.0.0.1", 1))], channels=["#a"])
        word = begun.word(number)
        processes.end(begun.process)
        return word

    fixture.notes.append(refusals.told(refusals.each(run)))


class Begun:
    """A node that was begun under these conditions, and has ended or listens. Where somebody else took one of its ports, it is
    begun again at others."""

    def __init__(self, fixture, environment, **how):
        self.told = b"address in use"
        while b"address in use" in self.told:
            node = Node(fixture, servers=[("127.0.0.1", 1)], **how)
            fixture.logs.pop()
            self.address = node.clients
            path = fixture.write("bnc.toml", node.text().encode())
            self.process = fixture.start("serve", path, stdout=subprocess.DEVNULL, stderr=subprocess.PIPE, env=environment)
            self.told = until_it_listens(fixture, self.process)

    def word(self, number):
        """What the node came to."""
        status = self.process.poll()
        if status is None:
            return "listened"
        self.told += self.process.stderr.read()
        if status == 3 and NO_MEMORY in self.told:
            return "ended with status 3"
        if status == 4 and b"read or write failed" in self.told.splitlines():
            return "ended with status 4"
        raise Failed(f"request {number} refused: status {status}, {self.told!r}")


def until_it_listens(fixture, process):
    """What a node tells until it has ended, or has said that it listens and that its server can't be reached."""
    told, pipe = b"", process.stderr.fileno()
    end = time.monotonic() + fixture.patience()
    while True:
        ready = readable([pipe], end - time.monotonic())
        more = os.read(pipe, 65536) if ready else b""
        if not more:
            break
        told += more
        if b" listening: " in told:
            # (what follows is not waited for long: a refused request may have taken it)
            end = min(end, time.monotonic() + 0.2)
        if b" listening: " in told and b"upstream down" in told:
            break
    if not ready and b" listening: " not in told:
        raise Failed(f"the node neither ended nor listened: {told!r}")
    if not more and ready:
        process.wait(fixture.patience())
    return told


add("memory: the start of a node", starts)


def refuses(text, told, *words, program=lambda: None):
    """A test of a configuration that is refused: as a request for memory is refused too, the refusal is told whole, with the name
    of the entry, or the program ends with status 3."""

    def call(fixture):
        refusals, path = Refusals.of(fixture), fixture.write("refused.toml", text)

        def run(number, environment):
            ran = fixture.run(*words, path, program=program() or fixture.program, env=environment)
            if (ran.status, ran.output, ran.errors) == (5, b"", told):
                return "refused by name"
            if (ran.status, ran.output, ran.errors) == (3, b"", NO_MEMORY):
                return "ended for want of memory"
            raise Failed(f"request {number} refused: status {ran.status}, {ran.errors!r}")

        fixture.notes.append(refusals.told(refusals.each(run)))

    return call


NOWHERE_TO_DIAL = b"config refused\npeer 1 (n2), address: an IP address and a port\n"
add("memory: a configuration that is refused",
    refuses(contents("example").replace(b"127.0.0.1:7001", b"nowhere"), NOWHERE_TO_DIAL, "serve"))
add("memory: a configuration of a keeper that is refused",
    refuses(b'node = "0keep"\npeer_word = "green"\nfile = "history"\n[[peer]]\nname = "n2"\naddress = "nowhere"\n', NOWHERE_TO_DIAL,
            program=lambda: Keeper.program))


class Starts:
    """The starts of a keeper, whose peer isn't there, over a file with a life and two changes."""

    def __init__(self, fixture):
        self.fixture, self.keeper = fixture, Keeper(fixture, [("n1", NOWHERE)])
        self.keeper.write(["L 0keep 5"], ["C MARK demo net #a 1", "C AFLOOR demo 1"])
        self.whole = self.keeper.data()[:-len(CLOSED)]

    def run(self, number, environment):
        """Starts it anew under these conditions. What it came to: it ended, in the words of docs/OPERATING.md, or goes on, and has
        tried to reach its peer."""
        keeper = self.keeper
        with open(keeper.file, "wb") as file:
            file.write(self.whole + CLOSED)
        keeper.forget_log()
        keeper.front = ["env", *(f"{name}={value}" for name, value in environment.items())]
        process = keeper.start().process
        self.fixture.until("it ends, or goes on", lambda: process.poll() is not None or keeper.told("peer unreachable: "))
        status, told = process.poll(), keeper.log()
        keeper.kill()
        self.look()
        if status is None:
            return "went on"
        if (status, told[-1:]) == (3, ["no memory"]) or (status, told[-2:-1]) == (4, ["read or write failed"]):
            return f"ended with status {status}"
        raise Failed(f"request {number} refused: status {status}, {told}")

    def look(self):
        """The file has what it had, and behind that at most the life that was begun."""
        found = self.keeper.data()
        expect("how the file begins", self.whole, found[:len(self.whole)])
        more = payloads_of(found[len(self.whole):])
        if len(more) > 1 or any(not payload.startswith(b"L 0keep ") for payload in more):
            raise Failed(f"behind the file stands {more}")


def keeper_starts(fixture):
    """A test of `bnc-keep`: as a request is refused while it begins, it ends with status 3 or 4, or goes on. Nothing is lost."""
    refusals, starts = Refusals.of(fixture), Starts(fixture)
    fixture.notes.append(refusals.told(refusals.each(starts.run)))


add("memory: the start of a keeper", keeper_starts)

LOGIN = ("CAP REQ :batch draft/chathistory draft/read-marker", "PASS s3cret", "NICK al", "USER demo/net 0 * :Al", "CAP END")
MARK = "MARKREAD #a timestamp=1970-01-01T00:00:05.000Z"
ANSWERS = (
    ":bnc.example CAP * ACK :batch draft/chathistory draft/read-marker", *greeting(), f":bnc.example {MARK}",
    *page(1, "#a"), ":bnc.example PONG bnc.example :here",
)


def serves(fixture):
    """A test of `bnc serve`: three clients come one after another. As a request is refused, at most one of them is closed, after
    the beginning of its answers, and the others are answered all. A worker that could not go on ends the node with status 4."""
    refusals = Refusals.of(fixture)

    def run(number, environment):
        begun = Begun(fixture, environment, workers=1)
        word = begun.word(number)
        if word == "listened":
            closed = sum(answered_to(fixture, begun.address) != WANTED for _ in range(3))
            word = "closed a client" if closed else "answered all"
            if begun.process.poll() is not None:
                word = begun.word(number)
            elif closed > 1:
                raise Failed(f"request {number} refused: {closed} of three clients weren't answered all")
        processes.end(begun.process)
        return word

    fixture.notes.append(refusals.told(refusals.each(run)))


WANTED = "".join(f"{line}\r\n" for line in ANSWERS).encode()


def answered_to(fixture, address):
    """What a client is answered, up to all of it or the connection's end. It is the beginning of the answers."""
    try:
        client = Client(fixture, address, "a client")
    except Failed:
        return b""
    try:
        client.say(*LOGIN, MARK, "CHATHISTORY LATEST #a * 10", "PING here")
    except OSError:
        pass
    while len(client.held) < len(WANTED):
        more = client.receive()
        if not more:
            break
        client.held += more
    client.close()
    if not WANTED.startswith(client.held):
        raise Failed(f"a client was answered {client.held!r}")
    return client.held


add("memory: a node and its clients", serves)
