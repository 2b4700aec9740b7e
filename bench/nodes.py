"""How a node under measure is configured, the environment that its unit gives it, and what its process takes."""

import os
import shutil

NODE = """name = "bnc.example"
node = "{name}"
listen = "127.0.0.1:{clients}"
peer_listen = "127.0.0.1:{peers}"
peer_word = "{word}"
workers = {workers}
places = {places}
bound = {bound}
retain_days = 0

[[account]]
name = "demo"
secret = "{secret}"

[[network]]
account = "demo"
name = "net"
address = "{server}"
nick = "{nick}"
user = "al"
channels = ["#a"]
"""
PEER = """
[[peer]]
name = "{name}"
address = "127.0.0.1:{port}"
"""
SECRET, WORD = "s3cret", "green"


def configuration(name, nick, clients, peers, server, workers=2, places=4096, bound=1048576, known=()):
    """A configuration with one network: the ports of this machine at which clients and peers come, and the address of the server.
    The known peers are their names and ports."""
    text = NODE.format(name=name, nick=nick, clients=clients, peers=peers, server=server, workers=workers, places=places, bound=bound,
                       word=WORD, secret=SECRET)
    return text + "".join(PEER.format(name=name, port=port) for name, port in known)


def unit_environment():
    """The environment that the unit of systemd gives `bnc`."""
    unit = os.path.join(os.path.dirname(os.path.realpath(__file__)), "..", "examples", "bnc.service")
    with open(unit, encoding="utf-8") as file:
        words = [line.strip().removeprefix("Environment=") for line in file if line.startswith("Environment=")]
    return dict(word.split("=", 1) for word in words)


class Process:
    """A process under measure, and what it takes."""

    # (who starts it sets this)
    process = None

    def seconds(self):
        """Processor seconds of its threads so far."""
        threads = f"/proc/{self.process.pid}/task"
        nanoseconds = 0
        for thread in os.listdir(threads):
            try:
                with open(f"{threads}/{thread}/schedstat", encoding="ascii") as file:
                    nanoseconds += int(file.read().split()[0])
            except FileNotFoundError:
                # a thread that ended in between
                continue
        return nanoseconds / 1e9

    def resident(self):
        """Resident memory in bytes."""
        with open(f"/proc/{self.process.pid}/statm", encoding="ascii") as file:
            return int(file.read().split()[1]) * os.sysconf("SC_PAGE_SIZE")


def leave(home):
    """A run is done with its folder, which stays where the environment has KEEP."""
    if os.environ.get("KEEP"):
        print(home)
    else:
        shutil.rmtree(home, ignore_errors=True)
