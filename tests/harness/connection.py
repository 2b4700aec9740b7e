"""A connection, as its other end hears and speaks."""

import itertools
import random
import socket
import threading

from harness.failure import Failed, expect, shortened

# Programs of tests listen from this port on.
FIRST = 10240


class Connection:
    """Lines over a socket. Each wait has an end."""

    def __init__(self, fixture, it, name):
        self.fixture, self.socket, self.name = fixture, it, name
        self.held = b""
        fixture.at_end(self.close)

    def send(self, data):
        """Sends these bytes."""
        self.socket.settimeout(self.fixture.patience())
        try:
            self.socket.sendall(data)
        except socket.timeout:
            raise Failed(f"{self.name}: nobody takes what is sent") from None

    def say(self, *lines):
        """Sends these lines."""
        self.send("".join(f"{line}\r\n" for line in lines).encode())

    def receive(self, most=65536):
        """The next bytes, or none once the other end has closed the connection."""
        self.socket.settimeout(self.fixture.patience())
        try:
            return self.socket.recv(most)
        except socket.timeout:
            raise Failed(f"{self.name}: nothing more comes, after {shortened(self.held)}") from None
        except ConnectionError:
            return b""

    def line(self, wanted="a line"):
        """The next line, which must end with CR LF."""
        while b"\n" not in self.held:
            try:
                more = self.receive()
            except Failed:
                raise Failed(f"{self.name}: expected {shortened(wanted)}, and nothing more came") from None
            if not more:
                raise Failed(f"{self.name}: expected {shortened(wanted)}, and the connection was closed")
            self.held += more
        line, self.held = self.held.split(b"\n", 1)
        if not line.endswith(b"\r"):
            raise Failed(f"{self.name}: a line ends with LF alone: {shortened(line)}")
        return line[:-1].decode("utf-8", "surrogateescape")

    def hear(self, *lines):
        """Hears exactly these lines next."""
        for wanted in lines:
            expect(self.name, wanted, self.line(wanted))

    def hear_end(self):
        """Hears nothing more: the other end closes the connection."""
        data = self.held or self.receive()
        if data:
            raise Failed(f"{self.name}: expected the connection's end, came {shortened(data)}")

    def close(self):
        self.socket.close()


def connect(fixture, address, room=None):
    """A socket connected to the address, which the system gives so many bytes for what comes."""
    it = socket.socket()
    if room:
        it.setsockopt(socket.SOL_SOCKET, socket.SO_RCVBUF, room)
    it.settimeout(fixture.patience())
    try:
        it.connect(address)
    except OSError as error:
        it.close()
        raise Failed(f"no connection to {address[0]}:{address[1]}: {error}") from None
    return it


class Listener:
    """A port of this machine where others connect."""

    def __init__(self, fixture, host="127.0.0.1", is_there=True):
        self.fixture = fixture
        self.socket = socket.socket()
        self.socket.bind((host, 0))
        self.address = self.socket.getsockname()
        fixture.at_end(self.socket.close)
        if is_there:
            self.listen()

    def listen(self):
        """Takes connections from now on. Before that they are refused."""
        self.socket.listen(16)

    def next_socket(self, name):
        """The socket of the next connection."""
        self.socket.settimeout(self.fixture.patience())
        try:
            it, _ = self.socket.accept()
        except socket.timeout:
            raise Failed(f"{name}: nobody connected") from None
        return it

    def accept(self, name):
        """The next connection."""
        return Connection(self.fixture, self.next_socket(name), name)


class Ports:
    """Ports for programs that tests start. They lie below those that the system gives to whoever asks for any, so no connection
    takes one before its program listens there, or while that starts again. Each is given once before one is given twice."""

    def __init__(self):
        with open("/proc/sys/net/ipv4/ip_local_port_range", encoding="ascii") as file:
            end = int(file.read().split()[0])
        # (where the system gives nearly all, there are none that it doesn't)
        ports = range(FIRST, end if end >= 2 * FIRST else 1 << 16)
        # (in another order in each run, since two may go on at once)
        self.ports, self.lock = itertools.cycle(random.sample(ports, len(ports))), threading.Lock()

    def free(self):
        """The next one that nobody has just now."""
        with self.lock:
            return next(port for port in self.ports if is_free(port))


def is_free(port):
    it = socket.socket()
    try:
        it.bind(("127.0.0.1", port))
    except OSError:
        return False
    finally:
        it.close()
    return True


_ports = Ports()


def free_addresses(count):
    """Addresses of this machine at which nobody listens just now."""
    return [("127.0.0.1", _ports.free()) for _ in range(count)]


def spelled(address):
    return f"{address[0]}:{address[1]}"
