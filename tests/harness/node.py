"""A node: `bnc serve` with a configuration of its own."""

import json
import os

from harness.client import Client
from harness.connection import free_addresses, spelled
from harness.failure import Failed
from harness.identities import SECRETS, WORD, Identity, identity_of
from harness.told import Told

# How often other ports are tried where somebody else took one.
TRIES = 5


def configuration(top, peers=(), accounts=(), networks=()):
    """The TOML text of a configuration (examples/one-node.toml shows one)."""

    def values(table):
        return "".join(f"{key} = {json.dumps(value)}\n" for key, value in table.items())

    text = values(top)
    for header, tables in (("peer", peers), ("account", accounts), ("network", networks)):
        text += "".join(f"\n[[{header}]]\n{values(table)}" for table in tables)
    return text


class Node(Told):
    """A node of a test. Its account is demo with the secret s3cret, and its networks net and two are at the servers' addresses.
    The nick and the channels are those of the first one; the second one has its own. Where no name is given, it is n1, or the next
    one that no other node of the test has."""

    # how many workers a node has where a test doesn't say (tests/run --workers)
    workers = 2
    # (a test may have nodes of other names)
    cluster, account, secret, networks = "bnc.example", "demo", SECRETS["demo"], ("net", "two")

    def __init__(self, fixture, name=None, servers=(), peers=(), nick="al", channels=(), front=(), **limits):
        self.fixture, self.name, self.front = fixture, fixture.name_of_node(name), list(front)
        self.clients, self.peers = free_addresses(2)
        self.servers, self.known, self.nick, self.channels = servers, peers, nick, channels
        # (nothing is let go, so a message may have any moment)
        self.limits = {"workers": self.workers, "places": 16, "bound": 65536, "retain_days": 0, **limits}
        self.process = None
        fixture.logs.append((self.name, self.log))

    def text(self):
        top = {
            "name": self.cluster, "node": self.name, "listen": spelled(self.clients),
            "peer_listen": spelled(self.peers), "peer_word": WORD, **self.limits,
        }
        peers = [{"name": name, "address": spelled(address), **dict(more)} for name, address, *more in self.known]
        return configuration(top, peers, self.accounts(), self.sessions())

    def accounts(self):
        """The tables of accounts in the configuration."""
        return [{"name": self.account, "secret": self.secret}]

    def sessions(self):
        """The tables of networks."""
        return [self.session(self.account, name, address) for name, address in zip(self.networks, self.servers)]

    def session(self, account, name, address):
        """The table of a network. Its server is told who is to come."""
        is_first = (account, name) == (self.account, self.networks[0])
        who = Identity(self.nick, self.channels) if is_first else identity_of(account, name)
        self.fixture.identities[address] = who
        return {"account": account, "name": name, "address": spelled(address), "nick": who.nick, "user": who.user,
                "channels": list(who.channels)}

    def begin(self):
        """Starts the program, and waits until it says that it listens. Where a port was taken meanwhile, others are tried."""
        for _ in range(TRIES):
            self.start()
            self.fixture.until(f"{self.name} listens", lambda: self.told("listening: ") or self.process.poll() is not None)
            if self.process.poll() is None:
                self.wait_for(f"listening: clients on {spelled(self.clients)}, peers on {spelled(self.peers)}")
                return self
            if "address in use" not in "\n".join(self.log()):
                break
            self.clients, self.peers = free_addresses(2)
        raise Failed(f"{self.name} ended with status {self.process.returncode} as it began: {self.log()}")

    def start(self):
        """Starts the program."""
        path = self.fixture.write(f"{self.name}.toml", self.text().encode())
        with self.errors() as errors, open(self.fixture.path(f"{self.name}.out"), "ab") as out:
            self.process = self.fixture.start("serve", path, stdin=None, stdout=out, stderr=errors, front=self.front)

    def sockets(self):
        """How many of its descriptors are sockets."""
        folder, count = f"/proc/{self.process.pid}/fd", 0
        for name in os.listdir(folder):
            try:
                count += os.readlink(f"{folder}/{name}").startswith("socket:")
            except FileNotFoundError:
                # (it was closed meanwhile)
                pass
        return count

    def threads(self):
        """How many threads the node has."""
        return len(os.listdir(f"/proc/{self.process.pid}/task"))

    def times(self):
        """The nanoseconds that each of its threads has taken of a processor."""
        threads, times = f"/proc/{self.process.pid}/task", {}
        for thread in os.listdir(threads):
            with open(f"{threads}/{thread}/schedstat") as file:
                times[thread] = int(file.read().split()[0])
        return times

    def processor_seconds(self):
        """The processor time that the threads which the node has now have taken."""
        return sum(self.times().values()) / 1e9

    def client(self, name="a client", **how):
        """A client that connects to the node."""
        return Client(self.fixture, self.clients, name, **how)


class TwoAccounts(Node):
    """A node with two accounts, each with a network of its own."""

    def accounts(self):
        return [{"name": name, "secret": secret} for name, secret in SECRETS.items()]

    def sessions(self):
        return [self.session(name, "net", address) for name, address in zip(SECRETS, self.servers)]
