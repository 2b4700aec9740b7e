"""Three nodes, their network's server and the links between them, which are cut, held up, killed and started again: what
bench/soak.py stands on."""

import os
import re
import signal
import socket
import subprocess
import tempfile
import threading
import time

from nodes import SECRET, WORD, Process, configuration, leave, unit_environment

BODY = "x" * 40
LOGIN = "CAP REQ :batch server-time message-tags draft/chathistory draft/read-marker\r\nPASS {}\r\nNICK al\r\n" \
    "USER demo/net 0 * :al\r\nCAP END\r\n"


def free_ports(count):
    """Ports of this machine at which nobody listens just now."""
    sockets = [socket.create_server(("127.0.0.1", 0)) for _ in range(count)]
    ports = [it.getsockname()[1] for it in sockets]
    for it in sockets:
        it.close()
    return ports


def connected(port, seconds=5):
    it = socket.create_connection(("127.0.0.1", port), seconds)
    it.settimeout(seconds)
    return it


def end(sockets):
    """Ends connections. Who waits for something there wakes."""
    for it in sockets:
        try:
            it.shutdown(socket.SHUT_RDWR)
        except OSError:
            pass


class Logging(Process):
    """A process that is killed, and whose log is a file."""

    # (the path of the log)
    told = None

    def kill(self):
        self.process.send_signal(signal.SIGKILL)
        self.process.wait()

    def log(self):
        with open(self.told, encoding="utf-8", errors="replace") as file:
            return file.read()


class Node(Logging):
    """A node as a process, in the environment of the unit, but for what is set already."""

    def __init__(self, home, program, number, server, peers):
        self.name, self.nick, self.program = f"n{number}", f"al{number}", program
        self.clients, self.peers = free_ports(2)
        self.path, self.told = os.path.join(home, f"{self.name}.toml"), os.path.join(home, f"{self.name}.log")
        self.server, self.known, self.process = server, peers, None

    def write(self):
        """Writes the configuration. The peers are known by then, with the ports at which they are reached."""
        text = configuration(self.name, self.nick, self.clients, self.peers, f"127.0.0.1:{self.server}", known=self.known)
        with open(self.path, "w", encoding="utf-8") as file:
            file.write(text)

    def start(self):
        with open(self.told, "ab") as log:
            self.process = subprocess.Popen([self.program, "serve", self.path], stdin=subprocess.DEVNULL, stdout=log, stderr=log,
                                            env={**unit_environment(), **os.environ}, cwd=os.path.dirname(self.path))

    def is_up(self):
        return self.process.poll() is None

    def descriptors(self):
        return len(os.listdir(f"/proc/{self.process.pid}/fd"))


class Link:
    """A way to a port, over which connections are cut or held up."""

    def __init__(self, to):
        self.to, self.passes, self.lock = to, threading.Event(), threading.Lock()
        # (connections, each with those of its two directions that still carry something)
        self.pairs = {}
        # (how many bytes went over it)
        self.carried = 0
        self.passes.set()
        self.listener = socket.create_server(("127.0.0.1", 0))
        self.port = self.listener.getsockname()[1]
        threading.Thread(target=self.accept, daemon=True).start()

    def accept(self):
        while True:
            here, _ = self.listener.accept()
            try:
                there = socket.create_connection(("127.0.0.1", self.to), 5)
            except OSError:
                here.close()
                continue
            there.settimeout(None)
            with self.lock:
                self.pairs[here, there] = 2
            for way in ((here, there), (there, here)):
                threading.Thread(target=self.carry, args=((here, there), *way), daemon=True).start()

    def carry(self, pair, source, target):
        """Passes on what comes, while the link isn't held up, up to the end."""
        try:
            while True:
                data = source.recv(1 << 16)
                self.passes.wait()
                if not data:
                    break
                target.sendall(data)
                with self.lock:
                    self.carried += len(data)
                    self.note(data, source is pair[0])
            target.shutdown(socket.SHUT_WR)
        except OSError:
            end(pair)
        with self.lock:
            self.pairs[pair] -= 1
            if not self.pairs[pair]:
                del self.pairs[pair]
                for it in pair:
                    it.close()

    def note(self, data, is_ahead):
        """This was carried: on from whoever connected, or back."""

    def hold_up(self):
        """From now on nothing goes over it, and neither end hears of that."""
        self.passes.clear()

    def go_on(self):
        self.passes.set()

    def cut(self):
        with self.lock:
            for pair in self.pairs:
                end(pair)
        self.passes.set()


class Network:
    """The network's server. It has a session with each node, and says each message in all of them."""

    def __init__(self):
        (self.port,), self.lock = free_ports(1), threading.Lock()
        self.sessions, self.listener = {}, None

    def open(self):
        self.listener = socket.create_server(("127.0.0.1", self.port))
        threading.Thread(target=self.accept, args=(self.listener,), daemon=True).start()

    def accept(self, listener):
        while True:
            try:
                it, _ = listener.accept()
            except OSError:
                return
            threading.Thread(target=self.serve, args=(it,), daemon=True).start()

    def serve(self, it):
        """Lets a node in and answers its pings, up to the session's end."""
        nick, held, it_is_up = None, b"", False
        try:
            while True:
                data = it.recv(1 << 16)
                if not data:
                    break
                *lines, held = (held + data).split(b"\r\n")
                for line in lines:
                    head, _, rest = line.decode().partition(" ")
                    if head == "NICK":
                        nick = rest
                    it.sendall(self.answer(head, rest, nick).encode())
                    if head == "JOIN":
                        with self.lock:
                            self.sessions[nick], it_is_up = it, True
        except OSError:
            pass
        with self.lock:
            if it_is_up and self.sessions.get(nick) is it:
                del self.sessions[nick]
        it.close()

    def answer(self, head, rest, nick):
        answers = {
            "CAP LS": ":srv CAP * LS :server-time message-tags\r\n",
            "CAP REQ": f":srv CAP * ACK :{rest.partition(':')[2]}\r\n",
            "CAP END": f":srv 001 {nick} :Welcome\r\n:srv 422 {nick} :No MOTD\r\n",
            "JOIN": f":{nick}!al@host JOIN #a\r\n",
            "PING": f":srv PONG srv {rest}\r\n",
        }
        return answers.get(head, answers.get(f"{head} {rest.split(' ')[0]}", ""))

    def is_up(self, nick):
        with self.lock:
            return nick in self.sessions

    def say(self, line, nick):
        """Says a line in all sessions, if there is one with that nick, where one is given. Whether it did."""
        with self.lock:
            if nick and nick not in self.sessions:
                return False
            for it in self.sessions.values():
                try:
                    it.sendall(line)
                except OSError:
                    # (a node that was killed)
                    pass
        return True

    def close(self):
        """Ends each session behind what was said in it, and lets nobody in."""
        end([self.listener])
        self.listener.close()
        with self.lock:
            sessions, self.sessions = self.sessions, {}
        for it in sessions.values():
            try:
                it.shutdown(socket.SHUT_WR)
            except OSError:
                pass


class Cluster:
    """Three nodes with links between them. Of two, the one with the smaller name opens the connection."""

    def __init__(self, program):
        self.home = tempfile.mkdtemp(prefix="bench-")
        self.network = Network()
        self.network.open()
        self.nodes = [Node(self.home, os.path.abspath(program), number, self.network.port, []) for number in (1, 2, 3)]
        self.links = []
        for at, node in enumerate(self.nodes):
            for other in self.nodes[at + 1:]:
                link = Link(other.peers)
                self.links.append(link)
                node.known.append((other.name, link.port))
                other.known.append((node.name, node.peers))
        for node in self.nodes:
            node.write()
        # (a node of the greatest name begins, so that each finds those that it dials)
        for node in reversed(self.nodes):
            node.start()

    def is_whole(self):
        """Whether the server has a session with each node, and each node has greeted both others since it started last."""
        return all(self.network.is_up(node.nick) for node in self.nodes) and all(greeted(node) for node in self.nodes)

    def stop(self):
        for node in self.nodes:
            if node.is_up():
                node.kill()
        leave(self.home)


def greeted(node):
    """Whether both peers are there, by what the node told since it started last."""
    told = node.log().rpartition(" listening: ")[2]
    last = {}
    for word, name, why in re.findall(r" peer (greeted|down): (n\d)(.*)", told):
        # (one of two connections ended)
        if "a newer connection took its place" not in why:
            last[name] = word
    return len(last) == 2 and set(last.values()) == {"greeted"}


class Session:
    """A client of a node that asks, and reads what it is answered."""

    def __init__(self, port, seconds=5):
        self.socket, self.held = connected(port, seconds), b""

    def say(self, text):
        self.socket.sendall(f"{text}\r\n".encode())

    def login(self, secret=SECRET):
        self.socket.sendall(LOGIN.format(secret).encode())
        return self

    def lines(self):
        """The lines that came, of which there is at least one. None once the connection has ended."""
        while b"\r\n" not in self.held:
            data = self.socket.recv(1 << 18)
            if not data:
                return None
            self.held += data
        *lines, self.held = self.held.split(b"\r\n")
        return [line.decode() for line in lines]

    def until(self, end):
        """All lines up to one with that text in it. None where the connection ended before."""
        found = []
        while not found or not any(end in line for line in found[-1]):
            lines = self.lines()
            if lines is None:
                return None
            found.append(lines)
        return [line for lines in found for line in lines]

    def page(self, question):
        """The lines of a page, without the number of its batch. None where the connection ended before."""
        self.say(question)
        self.say("PING page")
        lines = self.until("PONG bnc.example :page")
        return lines and [re.sub(r"^@batch=r\d+;", "@", line) for line in lines if line.startswith("@batch=")]

    def close(self):
        self.socket.close()


def waits(what, call, seconds, pause=0.2):
    """Waits until the answer is true, and says in how many seconds it was."""
    begun = time.monotonic()
    while not call():
        if time.monotonic() > begun + seconds:
            raise SystemExit(f"{what}: not so within {seconds} seconds")
        time.sleep(pause)
    return time.monotonic() - begun
