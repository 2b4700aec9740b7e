#!/usr/bin/env python3
"""Measures a running bouncer: what it relays and plays back for each second of processor time, and what a message and an idle
client cost in memory. It plays the network's server and the clients itself, over loopback. How long a line takes is measured by
bench/latency.py.

    bench/beside_znc.py bnc PROGRAM            starts PROGRAM serve with a configuration of its own, in the environment
                                               that examples/bnc.service gives it
    bench/beside_znc.py znc                    starts Debian's znc with a configuration of its own
    bench/beside_znc.py both PROGRAM ROUNDS    one after the other, so many times, and then the median and the range of each
    bench/beside_znc.py turns PROGRAM ROUNDS [RUNS]
                                               both at once: relays lines by one and then by the other, so many times, and
                                               takes the median of the ratios; then again with both started anew, 3 runs if
                                               nothing else is said

`both` and `turns` print the tables of docs/PERFORMANCE.md, the other two a line for each measure. Figures are of use beside
those of the other bouncer in the same run of the machine alone. Where the machine is now faster and now slower, `turns`
compares what was measured one right after the other. On a machine with other work let root run it at real-time priority, which
the bouncers inherit:

    chrt --rr 40 bench/beside_znc.py both PROGRAM 5
"""
import os
import selectors
import socket
import statistics
import subprocess
import sys
import tempfile
import time

from machine import name_of_run, table
from nodes import SECRET, Process, configuration, leave, unit_environment

# where the network's server listens for each bouncer, and where the bouncer does
SERVER_PORTS = {"bnc": 16700, "znc": 16710}
BOUNCER_PORTS = {"bnc": 16667, "znc": 16677}
PEER_PORT = 17000

ZNC = """Version = 1.8.2
AnonIPLimit = 5000
ConnectDelay = 0
MaxBufferSize = 100000
ProtectWebSessions = true
<Listener l>
    Port = {bouncer}
    IPv4 = true
    IPv6 = false
    SSL = false
    AllowIRC = true
    AllowWeb = false
</Listener>
<User demo>
    Admin = true
    Nick = al
    AltNick = al_
    Ident = al
    RealName = al
    ChanBufferSize = 1000
    QueryBufferSize = 1000
    AutoClearChanBuffer = false
    MultiClients = true
    NoTrafficTimeout = 3600
    <Network net>
        FloodBurst = 9999
        FloodRate = 999
        JoinDelay = 0
        Server = 127.0.0.1 {server}
        <Chan #a>
        </Chan>
    </Network>
    <Pass password>
        Method = plain
        Hash = {secret}
        Salt = x
    </Pass>
</User>
"""


class Bouncer(Process):
    """The bouncer under measure, as a process."""

    def __init__(self, kind, program, workers=1, environment=(), before=()):
        """The words before are those of a command that runs it. What the environment is to have goes before what the unit
        gives."""
        self.kind = kind
        self.server_port = SERVER_PORTS[kind]
        self.port = BOUNCER_PORTS[kind]
        # what was measured: figures by their names
        self.figures = {}
        self.home = tempfile.mkdtemp(prefix="bench-")
        unit = unit_environment() if kind == "bnc" else {}
        environment = {**os.environ, **unit, **dict(environment)}
        if kind == "bnc":
            path = os.path.join(self.home, "one.toml")
            text = self.configured(workers)
            command = [program, "serve", path]
        else:
            path = os.path.join(self.home, "configs", "znc.conf")
            os.makedirs(os.path.dirname(path))
            text = ZNC.format(bouncer=self.port, server=self.server_port, secret=SECRET)
            command = ["znc", "--foreground", "--datadir", self.home]
        with open(path, "w") as file:
            file.write(text)
        self.log = open(os.path.join(self.home, "log"), "w")
        # znc run by root waits for half a minute, so neither is run by root.
        nobody = {"user": 65534, "group": 65534} if os.getuid() == 0 else {}
        if nobody:
            for folder, _, files in os.walk(self.home):
                for name in [folder] + [os.path.join(folder, file) for file in files]:
                    os.chown(name, 65534, 65534)
        self.process = subprocess.Popen([*before, *command], stdout=self.log, stderr=self.log, env=environment, **nobody)

    def configured(self, workers):
        """The configuration of a node."""
        return configuration("n1", "al", self.port, PEER_PORT, f"127.0.0.1:{self.server_port}", workers)

    def tell(self, measure, figure, unit):
        """Prints a figure, and keeps it."""
        self.figures[f"{measure}, {unit}"] = figure
        print(f"{self.kind} {measure}: {figure:.0f} {unit}", flush=True)

    def login(self):
        if self.kind == "bnc":
            return f"CAP REQ :batch server-time message-tags draft/chathistory\r\nPASS {SECRET}\r\nNICK al\r\nUSER demo/net 0 * :al\r\nCAP END\r\n"
        return f"PASS demo/net:{SECRET}\r\nCAP REQ :batch server-time message-tags\r\nNICK al\r\nUSER al 0 * :al\r\nCAP END\r\n"

    def stop(self):
        self.process.kill()
        self.process.wait()
        leave(self.home)


class Server:
    """The network's server: it takes one connection and greets it."""

    def __init__(self, port):
        self.listener = socket.create_server(("127.0.0.1", port))
        self.socket = None

    def accept(self):
        self.listener.settimeout(30)
        self.socket, _ = self.listener.accept()
        self.socket.settimeout(30)
        held = b""
        while True:
            held += self.socket.recv(4096)
            *lines, held = held.split(b"\n")
            for line in lines:
                words = line.strip().split(b" ")
                if words[:2] == [b"CAP", b"LS"]:
                    self.send(b":srv CAP * LS :server-time message-tags\r\n")
                elif words[:2] == [b"CAP", b"REQ"]:
                    self.send(b":srv CAP * ACK :" + line.split(b":", 1)[1].strip() + b"\r\n")
                elif words[:2] == [b"CAP", b"END"]:
                    self.send(b":srv 001 al :Welcome\r\n:srv 422 al :No MOTD\r\n")
                elif words[0] == b"JOIN":
                    self.send(b":al!al@h JOIN #a\r\n:srv 353 al = #a :al bob\r\n:srv 366 al #a :End\r\n")
                    return

    def send(self, data):
        self.socket.sendall(data)

    def close(self):
        if self.socket:
            self.socket.close()
        self.listener.close()


def line(number, body):
    return b":bob!bob@host.example PRIVMSG #a :%08d %s\r\n" % (number, body)


class Clients:
    """Attached clients, and how many messages each has had."""

    def __init__(self, bouncer, count, word=b" PRIVMSG #a "):
        self.selector = selectors.DefaultSelector()
        # what each line has that counts
        self.word = word
        self.seen = {}
        self.tail = {}
        self.sockets = []
        self.bouncer = bouncer
        for _ in range(count):
            self.add()

    def add(self):
        client = socket.create_connection(("127.0.0.1", self.bouncer.port))
        client.sendall(self.bouncer.login().encode())
        client.setblocking(False)
        self.selector.register(client, selectors.EVENT_READ)
        self.seen[client] = 0
        self.tail[client] = b""
        self.sockets.append(client)

    def turn(self, patience):
        """Reads what is there, and answers whether anything was."""
        ready = self.selector.select(patience)
        for key, _ in ready:
            client = key.fileobj
            data = client.recv(1 << 18)
            if not data:
                raise SystemExit("the bouncer closed a client")
            data = self.tail[client] + data
            end = data.rfind(b"\n") + 1
            self.tail[client] = data[end:]
            self.seen[client] += data[:end].count(self.word)
        return bool(ready)

    def settle(self, quiet=0.5):
        """Reads until nothing comes for a while."""
        while self.turn(quiet):
            pass

    def wait_for(self, count, limit=120):
        until = time.monotonic() + limit
        while min(self.seen.values()) < count:
            self.turn(1)
            if time.monotonic() > until:
                raise SystemExit(f"only {min(self.seen.values())} of {count} messages came")

    def reset(self):
        for client in self.seen:
            self.seen[client] = 0

    def close(self):
        for client in self.sockets:
            client.close()


def wait_for_port(port):
    for _ in range(600):
        try:
            socket.create_connection(("127.0.0.1", port)).close()
            return
        except OSError:
            time.sleep(0.1)
    raise SystemExit(f"nothing listens at {port}")


def message(number):
    return line(number, b"x" * 40)


def flood(server, clients, count, piece=200, spelled=message):
    """Sends lines, spelled by their numbers, in pieces, and waits for each piece, so that nobody overruns."""
    for first in range(0, count, piece):
        data = b"".join(spelled(i) for i in range(first, min(first + piece, count)))
        server.send(data)
        clients.wait_for(min(first + piece, count))


def flood_seconds(bouncer, server, clients, count):
    """The processor seconds that a flood takes."""
    clients.reset()
    before = bouncer.seconds()
    flood(server, clients, count)
    return bouncer.seconds() - before


def relay(bouncer, server, attached, count):
    clients = Clients(bouncer, attached)
    clients.settle()
    spent = flood_seconds(bouncer, server, clients, count)
    clients.close()
    time.sleep(0.5)
    bouncer.tell(f"relay to {attached} clients", count * attached / spent, "lines a processor second")


def playback(bouncer, rounds=100):
    """Reads the newest messages again and again: pages of 100, or, of znc, what it plays at each attach."""
    if bouncer.kind == "bnc":
        clients = Clients(bouncer, 1)
        clients.settle()
        clients.reset()
        before = bouncer.seconds()
        for done in range(rounds * 10):
            clients.sockets[0].sendall(b"CHATHISTORY LATEST #a * 100\r\n")
            clients.wait_for((done + 1) * 100)
        spent = bouncer.seconds() - before
        played = rounds * 10 * 100
        clients.close()
    else:
        before = bouncer.seconds()
        played = 0
        for _ in range(rounds):
            clients = Clients(bouncer, 1)
            clients.wait_for(1000)
            played += min(clients.seen.values())
            clients.close()
        spent = bouncer.seconds() - before
    bouncer.tell("playback", played / spent, "lines a processor second")


def idle_clients(bouncer, count=500):
    before = bouncer.resident()
    clients = Clients(bouncer, count)
    clients.settle(1)
    after = bouncer.resident()
    bouncer.tell("idle client", (after - before) / count, "bytes resident")
    clients.close()
    time.sleep(1)


def message_memory(bouncer, server, count=20000):
    """What a message costs. Of znc only what its buffer of 1,000 keeps."""
    clients = Clients(bouncer, 1)
    clients.settle()
    clients.reset()
    before = bouncer.resident()
    flood(server, clients, count)
    after = bouncer.resident()
    bouncer.tell("message", (after - before) / count, "bytes resident")
    clients.close()


def begin(kind, program, **how):
    """A bouncer with its server, once it listens."""
    server = Server(SERVER_PORTS[kind])
    bouncer = Bouncer(kind, program, **how)
    try:
        server.accept()
        wait_for_port(bouncer.port)
        time.sleep(0.5)
    except BaseException:
        bouncer.stop()
        server.close()
        raise
    return bouncer, server


def measure(kind, program):
    """All figures of one bouncer, by their names."""
    bouncer, server = begin(kind, program)
    try:
        if kind == "bnc":
            idle_clients(bouncer)
        relay(bouncer, server, 1, 20000)
        relay(bouncer, server, 10, 10000)
        relay(bouncer, server, 100, 4000)
        playback(bouncer)
        if kind == "znc":
            idle_clients(bouncer)
        message_memory(bouncer, server)
    finally:
        bouncer.stop()
        server.close()
    return bouncer.figures


def summary(figures, digits=0):
    """The median, and the least and the greatest."""
    figures = sorted(figures)
    median, least, greatest = (round(it, digits) for it in (figures[len(figures) // 2], figures[0], figures[-1]))
    return figures[len(figures) // 2], f"{median:.{digits}f} ({least:.{digits}f} to {greatest:.{digits}f})"


# What the ratios of some figures should be at least; a message should take so many bytes at most.
GOALS = {
    "relay to 1 clients, lines a processor second": 6,
    "relay to 10 clients, lines a processor second": 10,
    "relay to 100 clients, lines a processor second": 20,
    "playback, lines a processor second": 14,
    "message, bytes resident": "450 bytes",
}


def measure_both(program, rounds):
    head = name_of_run(program)
    runs = [(measure("bnc", program), measure("znc", None)) for _ in range(rounds)]
    rows = []
    for name in runs[0][0]:
        ours, our_text = summary(bnc[name] for bnc, _ in runs)
        theirs, their_text = summary(znc[name] for _, znc in runs)
        rows.append((name, our_text, their_text, f"{ours / theirs:.2f}" if theirs else "", GOALS.get(name, "")))
    print(f"{head} Medians and ranges of {rounds} rounds.\n")
    print(table(("what", "bnc", "ZNC", "ratio of the medians", "goal"), rows), flush=True)


def relay_by_turns(ours, theirs, attached, lines, rounds):
    """Floods both in turns, so many rounds after two that warm up: the medians of what a line takes, and of the ratios."""
    clients = [Clients(bouncer, attached) for bouncer, _ in (ours, theirs)]
    for each in clients:
        each.settle()
    spent = []
    for _ in range(rounds + 2):
        seconds = [flood_seconds(*pair, each, lines) for pair, each in zip((ours, theirs), clients)]
        spent.append([it * 1e9 / lines / attached for it in seconds])
    for each in clients:
        each.close()
    time.sleep(1)
    bnc, znc = zip(*spent[2:])
    return [statistics.median(it) for it in (bnc, znc, [their / our for our, their in spent[2:]])]


# To how many clients lines are relayed by turns, how many lines, and how many times as many bnc should relay in the same time.
BY_TURNS = ((1, 2000, 6), (10, 200, 10), (100, 200, 20))


def run_by_turns(program, rounds):
    """Relay to 1, 10 and 100 clients by both bouncers, in turns."""
    pairs = []
    try:
        for kind in ("bnc", "znc"):
            pairs.append(begin(kind, program))
        return [relay_by_turns(*pairs, clients, lines, rounds) for clients, lines, _ in BY_TURNS]
    finally:
        for bouncer, server in pairs:
            bouncer.stop()
            server.close()


def measure_by_turns(program, rounds, runs):
    head = name_of_run(program)
    found = zip(*[run_by_turns(program, rounds) for _ in range(runs)])
    rows = []
    for (attached, _, goal), of_runs in zip(BY_TURNS, found):
        bnc, znc, ratio = zip(*of_runs)
        rows.append((attached, summary(bnc)[1], summary(znc)[1], summary(ratio, 1)[1], goal))
    print(f"{head} Medians and ranges of {runs} runs, each of {rounds} rounds by turns.\n")
    print(table(("clients", "ns a line, bnc", "ns a line, ZNC", "ZNC : bnc", "goal"), rows), flush=True)


def main():
    kind = sys.argv[1]
    if kind == "turns":
        measure_by_turns(sys.argv[2], int(sys.argv[3]), int(sys.argv[4]) if len(sys.argv) > 4 else 3)
    elif kind == "both":
        measure_both(sys.argv[2], int(sys.argv[3]))
    else:
        measure(kind, sys.argv[2] if kind == "bnc" else None)


if __name__ == "__main__":
    main()
