"""What the operator is told of servers and clients (docs/OPERATING.md, "What it logs"). No line has a secret, the shared word or a
message."""

import os
import re
import threading
import time

from harness.client import greeting
from harness.connection import spelled
from harness.failure import Failed, expect
from harness.node import Node
from harness.piped import Piped
from harness.registry import add, test
from harness.scripts import TESTS
from harness.server import Server

# Which no line may have.
HIDDEN = ("s3cret", "swordfish", "green", "a message that nobody is told")
NOBODY = ("127.0.0.1", 1)
# A client has so many seconds to register.
PATIENCE = 60
CLOSED, ENDED = "the other end closed it", "it ended as the protocol says"


def check(node):
    for line in node.log():
        for text in HIDDEN:
            if text in line:
                raise Failed(f"a line with {text!r}: {line}")


def is_told(fixture, node, line):
    """Waits until the operator is told of just this."""
    fixture.until(f"{node.name} tells '{line}'", lambda: line in [it.partition(" ")[2] for it in node.log()] or node.is_over())
    check(node)


def said_before_the_end(name, lines, why, words):
    """A test of a server that says these lines and ends the session: the operator is told why, and in which words the server
    refused it."""

    def call(fixture):
        server = Server(fixture)
        node = Node(fixture, servers=[server.address], channels=["#a"]).begin()
        session = server.register(channels=["#a"])
        session.say(f":bob!b@h PRIVMSG #a :{HIDDEN[-1]}")
        server.settled(session)
        session.send(b"".join(line + b"\r\n" for line in lines))
        if not any(line.startswith(b"ERROR") for line in lines):
            server.settled(session)
            session.close()
        is_told(fixture, node, f"upstream down: demo/net: {why}" + (f"; the server said: {words}" if words else ""))

    add(f"log: {name}", call)


said_before_the_end("a server that says nothing at its end", [], CLOSED, None)
said_before_the_end("the text of ERROR", [b"ERROR :Closing Link: al (K-lined)"], ENDED, "Closing Link: al (K-lined)")
said_before_the_end("ERROR of one word", [b"ERROR bye"], ENDED, "bye")
said_before_the_end("465, and then the end", [b":irc.example 465 al :You are banned from this server"], CLOSED,
                    "You are banned from this server")
said_before_the_end("of 465 and ERROR the later one", [b":irc.example 465 al :You are banned", b"ERROR :Closing Link"], ENDED,
                    "Closing Link")
said_before_the_end("bytes that aren't printable are shown as question marks", ["ERROR :caf\u00e9 \u0007 end".encode()], ENDED,
                    "caf?? ? end")
said_before_the_end("the first 200 bytes of a text", [b"ERROR :" + b"a" * 199 + b"bc"], ENDED, "a" * 199 + "b")
said_before_the_end("messages and notices are no refusals",
                    [b":bob!b@h PRIVMSG #a :ERROR :bye", b":irc.example NOTICE al :465 al :banned",
                     b":irc.example 372 al :You are banned"], CLOSED, None)


@test
def the_text_of_432_before_the_welcome(fixture):
    """A server that doesn't take the nick."""
    server = Server(fixture)
    node = Node(fixture, servers=[server.address]).begin()
    session = server.greeted()
    session.say(":irc.example 432 * al :Erroneous nickname")
    session.say("PING :heard")
    fixture.until("the node has taken it", lambda: "heard" in session.line("PONG") or node.is_over())
    session.close()
    fixture.until("the operator is told", lambda: any(
        "upstream down: demo/net: " in line and line.endswith("; the server said: Erroneous nickname") for line in node.log()))
    check(node)


@test
def a_server_that_is_not_there_said_nothing(fixture):
    node = Node(fixture, servers=[NOBODY]).begin()
    is_told(fixture, node, f"upstream down: demo/net: it could not be reached at {spelled(NOBODY)}: connection refused")


@test
def a_server_to_which_the_system_makes_no_connection(fixture):
    """Since no descriptor is left: a node with two workers takes ten, with the three standard ones, before it dials."""
    node = Node(fixture, servers=[NOBODY], workers=2, front=["sh", "-c", 'ulimit -n 10; exec "$@"', "sh"]).begin()
    is_told(fixture, node, f"upstream down: demo/net: it could not be reached at {spelled(NOBODY)}: too many open files")


@test
def a_wrong_secret_and_one_who_leaves_at_once(fixture):
    """Who gave a wrong secret is told so a second later. Who doesn't wait for that gave it all the same."""
    node = Node(fixture).begin()
    for waits in (True, False):
        client = node.client()
        client.say("PASS swordfish", "NICK al", "USER demo/net 0 * :Al")
        if waits:
            client.hear(":bnc.example 464 * :Password incorrect", "ERROR :Closing link")
            client.hear_end()
        else:
            time.sleep(0.3)
            client.close()
        is_told(fixture, node, f"client refused: {spelled(client.address)}: its account, its network or its secret is wrong")


@test
def a_client_that_quits_before_it_registered_gave_no_wrong_secret(fixture):
    node = Node(fixture).begin()
    client = node.client()
    client.say("PASS swordfish", "QUIT :bye")
    client.hear("ERROR :Closing link")
    client.hear_end()
    is_told(fixture, node, f"client refused: {spelled(client.address)}: {ENDED}")


@test
def a_client_that_does_not_register_in_time(fixture):
    """It is closed after a minute, and one that registered isn't."""
    node = Node(fixture, servers=[NOBODY]).begin()
    stranger, client = node.client("a stranger"), node.client().register()
    begun = time.monotonic()
    stranger.say("NICK al", "PING here")
    stranger.hear(":bnc.example PONG bnc.example :here")
    line = f"client refused: {spelled(stranger.address)}: it did not say in time who it is"
    fixture.until("the operator is told", lambda: line in [it.partition(" ")[2] for it in node.log()], PATIENCE + 30)
    expect("whether a minute went by", True, time.monotonic() - begun >= PATIENCE - 1)
    stranger.hear_end()
    client.ping()
    check(node)


@test
def each_reason_of_the_documents_stands_in_the_program(fixture):
    """The reasons for which a connection ends are told word for word by rows of test_worker and by other suites, but for one that
    no test brings about: that the node let no question in. So it is looked for in the program, and so are the others."""
    with open(os.path.join(os.path.dirname(TESTS), "docs", "OPERATING.md"), encoding="utf-8") as file:
        listed = re.search(r"^Why a connection ended is one of these: .*$", file.read(), re.M)[0]
    reasons = [text for text in re.findall(r"`([^`]*)`", listed) if " " in text]
    expect("whether the last one is listed", True, "the node let no question in" in reasons)
    with open(fixture.program, "rb") as file:
        program = file.read()
    expect("reasons that aren't in the program", [], [text for text in reasons if text.encode() not in program])


# ---- where nobody reads standard error, or not fast


class PipedNode(Piped, Node):
    """A node whose standard error is a pipe. It is read as the test asks for the log, or slowly beside the test."""

    # (names as long as they may be, so that the lines are long)
    account, networks = "a" * 32, ("n" * 32,)

    def __init__(self, fixture, **how):
        super().__init__(fixture, **how)
        self.is_done, self.beside = threading.Event(), None

    def end(self):
        self.is_done.set()
        if self.beside:
            self.beside.join(5)
        super().end()

    def log(self):
        return Node.log(self) if self.beside else super().log()

    def is_read_slowly(self):
        """From now on so much is read each hundredth of a second, of a pipe that has room for eight times as much."""
        self.has_room_for(8 * PIECE)
        self.beside = threading.Thread(target=self.read_beside, daemon=True)
        self.beside.start()

    def read_beside(self):
        while not self.is_done.wait(0.01):
            self.read(PIECE)

    def guests_come_and_go(self, count, at_once=20):
        """So many clients come, and leave once they are served."""
        lines = (f"PASS {self.secret}", "NICK al", f"USER {self.account}/{self.networks[0]} 0 * :Al", "PING here")
        for first in range(0, count, at_once):
            guests = [self.client(f"client {first + number}") for number in range(at_once)]
            for guest in guests:
                guest.say(*lines)
            for guest in guests:
                guest.hear(*greeting(network=self.networks[0]), ":bnc.example PONG bnc.example :here")
                guest.close()


def piped(fixture, **how):
    """Such a node of four workers, and its session with its server. What is told of both is read."""
    server = Server(fixture)
    node = PipedNode(fixture, servers=[server.address], workers=WORKERS, places=256, **how).begin()
    session = server.register()
    node.wait_for("upstream up: ")
    return node, server, session


def events_of(node, *kinds):
    """How often these kinds of events were told."""
    told = [line.partition(" ")[2] for line in node.log()]
    return [sum(it.startswith(kind) for it in told) for kind in kinds]


LEFT_OUT = re.compile(r"\S+ lines lost: ([0-9]+), for which the log had no room")
# More clients than those whose lines have room, and those of a log that is read; and so many bytes are read at a time.
CROWD, GUESTS, PIECE = 3000, 400, 512
# So many bytes of lines wait at least, which are some 5,000 lines.
WAITING = 500000
# So many workers a node has.
WORKERS = 4
# The lines before the first client comes: the node starts, listens, and is in its network.
BEGINNING = 3


@test
def a_log_that_nobody_reads_stops_nobody(fixture):
    """Standard error is a pipe that nobody reads, and clients come and go by the hundred. All are served, and those who stay hear
    what is said. Once the pipe is read, each line is there."""
    node, server, session = piped(fixture)
    stays = [node.client(f"a client of worker {number}") for number in range(4)]
    for client in stays:
        client.say(f"PASS {node.secret}", "NICK al", f"USER {node.account}/{node.networks[0]} 0 * :Al")
        client.hear(*greeting(network=node.networks[0]))
    node.guests_come_and_go(GUESTS)
    session.say(":bob!b@h PRIVMSG #a :hi")
    for client in stays:
        client.hear(":bob!b@h PRIVMSG #a :hi")
        client.ping()
    wanted = [len(stays) + GUESTS, GUESTS, 0]
    kinds = ("client in", "client out", "lines lost")
    fixture.until("each line is there", lambda: events_of(node, *kinds) == wanted or node.is_over())


@test
def how_many_lines_were_left_out_is_told(fixture):
    """Nobody reads while more lines come than those for which there is room. Once the pipe is read, one line says how many were
    left out: with those that are there, it makes all. Then nothing is lost any more."""
    node, _, _ = piped(fixture)
    node.guests_come_and_go(CROWD)
    wanted = BEGINNING + 2 * CROWD

    def counted():
        """The lines that were told, and those that were left out, once that is all."""
        lines = node.log()
        left = [int(found[1]) for found in map(LEFT_OUT.fullmatch, lines) if found]
        return (lines, left) if len(lines) - len(left) + sum(left) >= wanted else node.is_over()

    lines, left = fixture.until("all lines are told, or counted", counted, 90)
    expect("how many lines were told and left out", wanted, len(lines) - len(left) + sum(left))
    expect("how often it is told how many were left out", 1, len(left))
    told = sum(len(line) + 1 for line in lines)
    if told < WAITING:
        raise Failed(f"{told} bytes were told, of more that waited")
    behind = lines[next(at for at, line in enumerate(lines) if LEFT_OUT.fullmatch(line)):]
    expect("who came in before that is told and is told behind it", 0, sum(" client in: " in line for line in behind))
    node.guests_come_and_go(20)
    fixture.until("those that come then are told", lambda: len(node.log()) >= len(lines) + 40 or node.is_over())
    expect("how many lines there are then", len(lines) + 40, len(node.log()))
    fixture.notes.append(f"{left[0]} of {wanted} lines were left out")


def fails_with_full_log(fixture):
    """A node whose log nobody reads, and a worker of which has failed when more lines waited than a pipe has room for. Its other
    workers have ended too."""
    failure = fixture.path("failure")
    front = ["env", f"LD_PRELOAD={fixture.shims.path('waits')}", "WAITS=2", f"FAILS={failure}"]
    node, _, _ = piped(fixture, front=front)
    sockets, threads = node.sockets(), node.threads()
    node.guests_come_and_go(GUESTS)
    fixture.until("all have left", lambda: node.sockets() == sockets)
    fixture.write("failure", b"")
    fixture.until("the workers have ended", lambda: node.threads() == threads - WORKERS)
    return node


@test
def a_node_that_fails_tells_first_what_waits(fixture):
    """Its log is read only as it ends. Each line that waited is there, and the last two say why it ended."""
    node = fails_with_full_log(fixture)
    # (little at a time, so that it doesn't all go before the node looks whether it is written)
    fixture.until("the node ends", lambda: not node.read(4 * PIECE) and node.process.poll() is not None)
    lines = node.log()
    expect("the status", 4, node.process.returncode)
    expect("who came and who left", [GUESTS, GUESTS], events_of(node, "client in", "client out"))
    expect("the last lines", ["read or write failed", "a worker failed"], lines[-2:])


@test
def a_node_that_fails_ends_though_nobody_reads_its_log(fixture):
    node = fails_with_full_log(fixture)
    expect("the status", 4, node.process.wait(fixture.patience()))


@test
def a_log_that_is_read_slowly_has_each_line(fixture):
    """Each client comes and leaves, in this order, and no line is torn. Some lines are read at a time, of a pipe that has no room
    for more than thirty."""
    node, _, _ = piped(fixture)
    node.is_read_slowly()
    node.guests_come_and_go(GUESTS)
    fixture.until("all is told", lambda: events_of(node, "client in", "client out") == [GUESTS, GUESTS] or node.is_over())
    inside, pattern = set(), re.compile(
        rf"20\S+Z client (in|out): {node.account}/{node.networks[0]} from ([0-9.:]+)(: the other end closed it)?")
    for line in node.log()[BEGINNING:]:
        found = pattern.fullmatch(line)
        if not found or (found[1] == "in") == (found[2] in inside) or (found[1] == "out") != bool(found[3]):
            raise Failed(f"a line that is torn, or not in its place: {line}")
        (inside.add if found[1] == "in" else inside.remove)(found[2])
    expect("who is still in", set(), inside)
