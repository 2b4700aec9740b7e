"""A node for which one request for memory in so many is refused, for 20 seconds, while clients of two accounts, the servers of
their networks and a peer are at work (docs/OPERATING.md: a connection for which there is no memory is closed; a server is tried
again after 60 seconds). The node lives; no line is torn, comes twice or is of another account; then all are served."""

import mmap
import os
import re
import socket
import struct
import time

from harness.beside import Beside
from harness.client import greeting, login
from harness.failure import Failed, shortened
from harness.identities import SECRETS, identity_of
from harness.node import TwoAccounts
from harness.refusals import UNREFUSED
from harness.registry import add
from harness.server import Server

# The seconds of refusals, and those after which all are served again.
SECONDS, SERVED = 20, 10
# Of so many requests one is refused.
RATES = (1000, 60, 4)
# The seconds between two messages of a server, and before a client comes again.
PACE, AWAY = 0.02, 0.1
# So many messages are there, which are said again and again.
MESSAGES = 100
HELD = "batch draft/chathistory draft/read-marker message-tags server-time"
ASK = "CHATHISTORY LATEST #a * 10\r\nMARKREAD #a\r\nPING here\r\n"


class Rate:
    """The file by which the library is told how often to refuse."""

    def __init__(self, fixture):
        self.path = fixture.write("rate", bytes(24))
        with open(self.path, "r+b") as file:
            self.map = mmap.mmap(file.fileno(), 24)
        self.front = ["env", f"LD_PRELOAD={fixture.shims.path('refuse')}", f"RATE={self.path}"]

    def set(self, one_of):
        self.map[:8] = struct.pack("=Q", one_of)

    def counts(self):
        """How many requests were made while some were refused, and how many were."""
        return struct.unpack("=QQ", self.map[8:])


class Work(Beside):
    """What goes on beside the node until it is over."""

    def __init__(self, fixture, node):
        super().__init__()
        self.fixture, self.node = fixture, node

    def end(self):
        self.is_over = True
        for thread in self.threads:
            thread.join(30)

    def check(self):
        if self.why:
            raise Failed("; ".join(self.why[:3]))
        if self.node.process.poll() is not None:
            raise Failed(f"the node ended with status {self.node.process.returncode}: {self.node.log()[-3:]}")


class Lines:
    """The lines of a socket, as they come within some seconds. A line ends with CR LF."""

    def __init__(self, address, wait=0.2):
        self.socket = socket.create_connection(address, 5) if isinstance(address, tuple) else address
        self.socket.settimeout(wait)
        self.held, self.is_open = b"", True

    def say(self, text):
        try:
            self.socket.sendall(text.encode())
        except OSError:
            self.is_open = False

    def come(self):
        """The lines that came by now."""
        try:
            more = self.socket.recv(65536)
            self.is_open = self.is_open and bool(more)
        except socket.timeout:
            return []
        except OSError:
            self.is_open = False
            return []
        *lines, self.held = (self.held + more).split(b"\n")
        if any(not line.endswith(b"\r") for line in lines):
            raise Failed(f"a torn line: {lines[:3]!r}")
        return [line[:-1].decode() for line in lines]

    def close(self):
        self.socket.close()


def said(letter, number):
    """The message of that number. It has the id and the moment of each hundredth one before it."""
    at = number % MESSAGES
    return f"@msgid={letter}{at:02};time=2026-11-23T00:00:{at % 60:02}.{at:03}Z :{letter}!b@h PRIVMSG #a :{letter} {number:08}"


def entry_of(account):
    """What a client of the account says to be let in."""
    return "".join(f"{line}\r\n" for line in (f"CAP REQ :{HELD}", *login(account=account), "CAP END"))


def server(work, listener, letter):
    """Lets the node in whenever it comes, and says one message after another."""
    listener.socket.settimeout(0.2)
    nick, number = listener.identity().nick, 0
    while not work.is_over:
        try:
            it = Lines(listener.socket.accept()[0], PACE)
        except socket.timeout:
            continue
        work.count(f"sessions of {letter}")
        it.say(f":irc.example CAP * LS :message-tags server-time\r\n:irc.example CAP * ACK :message-tags server-time\r\n"
               f":irc.example 001 {nick} :Welcome\r\n:{nick} JOIN #{letter}\r\n")
        while it.is_open and not work.is_over:
            it.say(said(letter, number) + "\r\n")
            number += 1
            for line in it.come():
                if line.startswith("PING "):
                    it.say(f"PONG {line[5:]}\r\n")
        it.close()


def greetings(account):
    """The lines that a client of the account hears as it comes, and its PONG. Its channel has the account's first letter."""
    nick, letter = identity_of(account, "net").nick, account[0]
    return {*greeting(account=account), f":{nick} JOIN #{letter}", f":bnc.example MARKREAD #{letter} *",
            f":bnc.example NOTICE {nick} :Not connected to net", ":bnc.example PONG bnc.example :here",
            f":bnc.example CAP * ACK :{HELD}"}


GREETINGS = {account[0]: greetings(account) for account in SECRETS}
FORMS = re.compile(r":bnc\.example (BATCH [+-]r\d+( chathistory #a)?|MARKREAD #a (\*|timestamp=[0-9TZ:.-]{24}))|"
                   r"ERROR :Closing link")
MESSAGE = re.compile(r"@(?:batch=(r\d+);)?(msgid=(\w)\d\d;time=2026-11-23T00:00:\d\d\.\d{3}Z) "
                     r":(\w)!b@h PRIVMSG #a :(\w) (\d{8})")


class Heard:
    """What a client heard over one connection: only what is its own, each message once and in order."""

    def __init__(self, letter):
        self.letter, self.latest, self.places = letter, -1, {}

    def hear(self, line):
        found = MESSAGE.fullmatch(line)
        if not found:
            if line not in GREETINGS[self.letter] and not FORMS.fullmatch(line):
                raise Failed(f"{self.letter}: a line that nobody said: {shortened(line)}")
            return
        batch, place, *letters, number = found.groups()
        if set(letters) != {self.letter} or said(self.letter, int(number)) != re.sub(r"batch=r\d+;", "", line):
            raise Failed(f"{self.letter}: a message of somebody else, or another one: {shortened(line)}")
        if batch:
            at = place.partition("time=")[2]
            if self.places.get(batch, "") >= at:
                raise Failed(f"{self.letter}: a page that isn't in order, or has a message twice: {shortened(line)}")
            self.places[batch] = at
        elif int(number) <= self.latest:
            raise Failed(f"{self.letter}: a message twice, or too late: {shortened(line)} behind {self.latest}")
        else:
            self.latest = int(number)


def client(work, account, letter, stays):
    """Registers, asks and listens, and comes again where it is closed, or each time after some seconds."""
    while not work.is_over:
        try:
            it = Lines(work.node.clients)
        except OSError:
            time.sleep(AWAY)
            continue
        heard, end = Heard(letter), time.monotonic() + stays
        it.say(entry_of(account) + ASK)
        while it.is_open and not work.is_over and time.monotonic() < end:
            for line in it.come():
                heard.hear(line)
                if line.endswith("PONG bnc.example :here"):
                    work.count("answers")
                    time.sleep(0.02)
                    it.say(ASK)
        work.count("connections of clients")
        it.close()
        time.sleep(AWAY)


def peer(work):
    """Says hello, gives a packet of the same markers again and again, and hears its acknowledgement."""
    while not work.is_over:
        try:
            it = Lines(work.node.peers)
        except OSError:
            time.sleep(0.05)
            continue
        it.say("W green\r\nH 3 n0 5\r\n")
        life = None
        while it.is_open and not work.is_over:
            for line in it.come():
                found = re.fullmatch(r"H 3 (n1 \d+)", line)
                life = found[1] if found else life
                if not re.match(r"(W green|H 3 n1 \d+|D n1 \d+ n0 5 .*|C .*|A n1 \d+ n0 5 2)$", line):
                    raise Failed(f"a line that no node says: {shortened(line)}")
                if line.startswith("A "):
                    work.count("packets")
                    time.sleep(0.05)
                if life and (found or line.startswith("A ")):
                    it.say(f"D n0 5 {life} 0 2 2\r\nC MARK demo net #a 5000\r\nC MARK eve net #a 6000\r\n")
                if line.startswith("D "):
                    it.say(f"A n0 5 {life} {line.split(' ')[6]}\r\n")
        it.close()


def used(process):
    """The kilobytes of memory and the descriptors that a process has."""
    with open(f"/proc/{process.pid}/status") as file:
        kilobytes = int(re.search(r"VmRSS:\s+(\d+)", file.read())[1])
    return kilobytes, len(os.listdir(f"/proc/{process.pid}/fd"))


def served(fixture, node, account, letter):
    """A new client is let in, and its questions are answered with its own past."""
    it, heard, lines = Lines(node.clients), Heard(letter), []
    it.say(entry_of(account) + ASK)
    end = time.monotonic() + SERVED
    while ":bnc.example PONG bnc.example :here" not in lines:
        for line in it.come():
            heard.hear(line)
            lines.append(line)
        if not it.is_open or time.monotonic() > end:
            raise Failed(f"{account} isn't served within {SERVED} seconds: {lines[-3:]}")
    if len(heard.places) != 1 or sum("batch=r" in line for line in lines) != 10:
        raise Failed(f"{account} is answered another page: {lines}")
    it.close()


def scarce(one_of):
    def call(fixture):
        rate, servers = Rate(fixture), [Server(fixture), Server(fixture)]
        node = TwoAccounts(fixture, servers=[it.address for it in servers], peers=[("n0", ("127.0.0.1", 1))],
                           front=rate.front, places=64).begin()
        work = Work(fixture, node)
        fixture.at_end(work.end)
        for listener, account in zip(servers, SECRETS):
            work.begin(server, listener, account[0])
        for account in SECRETS:
            for stays in (1.5, 4, 3600):
                work.begin(client, account, account[0], stays)
        work.begin(peer)
        fixture.until("messages are there", lambda: work.why or work.counts.get("answers", 0) > 200)
        time.sleep(3)
        before = used(node.process)
        rate.set(one_of)
        end = time.monotonic() + SECONDS
        while time.monotonic() < end:
            work.check()
            time.sleep(0.1)
        rate.set(0)
        packets = work.counts.get("packets", 0)
        for account in SECRETS:
            served(fixture, node, account, account[0])
        fixture.until("the peer is served", lambda: work.why or work.counts.get("packets", 0) > packets, SERVED)
        work.check()
        fixture.until("memory and descriptors come back", lambda: work.why or is_back(before, used(node.process)), SERVED)
        after = used(node.process)
        work.end()
        work.check()
        made, refused = rate.counts()
        if not refused:
            raise Failed(UNREFUSED)
        counts = ", ".join(f"{count} {what}" for what, count in sorted(work.counts.items()))
        fixture.notes.append(f"{refused} of {made} requests refused; {counts}; kB and descriptors {before} before, {after} after")

    add(f"scarce: one request in {one_of} is refused for {SECONDS} seconds", call)


def is_back(before, after):
    return all(now <= then * 1.1 for then, now in zip(before, after))


for one_of in RATES:
    scarce(one_of)
