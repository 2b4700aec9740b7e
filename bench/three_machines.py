#!/usr/bin/env python3
"""Three machines as docs/THREE-MACHINES.md sets them up, in network namespaces, of which the first goes away while somebody speaks:
when its client is at the next one, and which lines it never shows. The table of that document.

    bench/three_machines.py [--top FOLDER] [PROGRAM]      as root

It needs iproute2, stunnel4, ngircd, inspircd, weechat-headless with weechat-python, irssi and tmux. --top says where `companions`
and `examples` are.
"""

import argparse
import os
import re
import shutil
import signal
import subprocess
import sys
import tempfile
import time
from functools import partial

from cluster import waits
from machine import name_of_run, table
from nodes import SECRET, configuration, leave

HERE = os.path.dirname(os.path.dirname(os.path.abspath(__file__)))
PROGRAM = os.path.join(HERE, "crates", "bnc", "out", "bnc")
NAMES, NETWORK, PHONE = ("n1", "n2", "n3"), "network", "phone"
ADDRESSES = {"n1": "10.99.0.1", "n2": "10.99.0.2", "n3": "10.99.0.3", NETWORK: "10.99.0.10", PHONE: "10.99.0.20"}
CLIENTS = ("WeeChat", "irssi")
BRIDGE = "bnctrial"
# So long somebody speaks after the client has moved (the scripts ask once a minute), and at such a pace.
AFTERWARDS, PAUSE = 75, 0.5

WAY = """
[{name}]
client = yes
accept = 127.0.0.1:710{number}
connect = {address}:7001
"""
WAY_TO_DOORS = """
[network]
client = yes
accept = 127.0.0.1:6700
connect = 10.99.0.1:6690
connect = 10.99.0.2:6690
failover = prio
TIMEOUTconnect = 5
"""
DOOR = """name = "door-{name}"
[nodes]
listen = "0.0.0.0:6690"
certificate = "bnc.pem"
authority = "peers.crt"

[network]
servers = ["10.99.0.10:6667"]
tls = false
nick = "al"
channels = ["#a"]
"""
RESERVE = """
[reserve]
first = "10.99.0.1:6690"
tls = true
authority = "peers.crt"
certificate = "bnc.pem"
tls_name = "n1"
"""
NGIRCD = """[Global]
Name = irc.example
Info = trial
AdminInfo1 = trial
Listen = 10.99.0.10
Ports = 6667
ServerUID = root
ServerGID = root
[Limits]
MaxConnectionsIP = 0
MaxPenaltyTime = 0
[Options]
DNS = no
Ident = no
PAM = no
"""
INSPIRCD = """<server name="irc.example" description="trial" network="Trial" id="1AA">
<admin name="a" nick="a" email="a@b">
<bind address="10.99.0.10" port="6667" type="clients">
<connect name="main" allow="*" timeout="60" localmax="50" globalmax="50" threshold="100000" commandrate="1000000" fakelag="off"
 useident="no" resolvehostnames="no">
<pid file="{home}/ircd.pid">
<module name="cap"><module name="ircv3_ctctags"><module name="ircv3_msgid"><module name="ircv3_servertime">
<module name="ircv3_echomessage">
"""
SPEAKER = """import socket, time
it = socket.create_connection(("10.99.0.10", 6667))
it.sendall(b"NICK bob\\r\\nUSER bob 0 * :bob\\r\\n")
lines = it.makefile("rb")
while b" 001 " not in (line := lines.readline()):
    if line.startswith(b"PING"):
        it.sendall(b"PONG" + line[4:])
it.sendall(b"JOIN #a\\r\\n")
number = 0
while True:
    number += 1
    it.sendall(b"PRIVMSG #a :line %d\\r\\n" % number)
    print(number, flush=True)
    time.sleep({pause})
"""
WEECHAT = (
    "/set logger.level.irc 9", "/set logger.file.flush_delay 0",
    "/server add bnc 10.99.0.1/6697,10.99.0.2/6697,10.99.0.3/6697 -ssl -nicks=al",
    f"/set irc.server.bnc.password {SECRET}", "/set irc.server.bnc.username demo/net",
    "/set irc.server.bnc.ssl_fingerprint {fingerprints}", "/set irc.server.bnc.autoreconnect_delay 2",
    "/set irc.server.bnc.connection_timeout 10", "/set irc.network.lag_check 10", "/set irc.network.lag_reconnect 20", "/connect bnc",
)
IRSSI_SETTINGS = """settings = {{ "fe-common/core" = {{ autolog = "yes"; autolog_path = "{home}/irssi/$0.log"; }}; }};
"""
IRSSI = """network add -user demo/net -nick al bnc
server add -auto -network bnc -tls -tls_verify -tls_cafile {home}/n1/peers.crt n1 6697 {secret}
server add -network bnc -tls -tls_verify -tls_cafile {home}/n1/peers.crt n2 6697 {secret}
server add -network bnc -tls -tls_verify -tls_cafile {home}/n1/peers.crt n3 6697 {secret}
set server_reconnect_time 2s
set server_connect_timeout 10s
set lag_check_time 10s
set lag_max_before_disconnect 20s
"""


def run(*words, **how):
    return subprocess.run(words, check=True, capture_output=True, text=True, **how).stdout


class Machines:
    """The namespaces, on one bridge, and the processes in them."""

    def __init__(self):
        self.processes = []
        run("ip", "link", "add", BRIDGE, "type", "bridge")
        run("ip", "link", "set", BRIDGE, "up")
        for name, address in ADDRESSES.items():
            self.add(name, address)

    def add(self, name, address):
        space, outside, inside = self.space(name), self.outside(name), f"i{name}"
        run("ip", "netns", "add", space)
        run("ip", "link", "add", outside, "type", "veth", "peer", "name", inside)
        run("ip", "link", "set", inside, "netns", space)
        run("ip", "link", "set", outside, "master", BRIDGE)
        run("ip", "link", "set", outside, "up")
        for words in (("addr", "add", f"{address}/24", "dev", inside), ("link", "set", inside, "up"), ("link", "set", "lo", "up")):
            run("ip", "netns", "exec", space, "ip", *words)
        os.makedirs(f"/etc/netns/{space}", exist_ok=True)
        with open(f"/etc/netns/{space}/hosts", "w", encoding="ascii") as file:
            file.write("127.0.0.1 localhost\n" + "".join(f"{ADDRESSES[it]} {it}\n" for it in NAMES))

    @staticmethod
    def space(name):
        return f"bnctrial-{name}"

    @staticmethod
    def outside(name):
        return f"o{name}"

    def start(self, name, folder, log, *words, **more):
        """Starts a command on a machine."""
        with open(os.path.join(folder, log), "ab") as file:
            process = subprocess.Popen(["ip", "netns", "exec", self.space(name), *words], cwd=folder, stdin=subprocess.DEVNULL,
                                       stdout=file, stderr=file, start_new_session=True, env={**os.environ, **more})
        self.processes.append(process)
        return process

    def cut(self, name):
        """From now on nothing reaches the machine."""
        run("ip", "link", "set", self.outside(name), "down")

    def end(self):
        for process in self.processes:
            kill(process)
        for name in ADDRESSES:
            for words in (("link", "del", self.outside(name)), ("netns", "del", self.space(name))):
                subprocess.run(["ip", *words], check=False, capture_output=True)
            shutil.rmtree(f"/etc/netns/{self.space(name)}", ignore_errors=True)
        subprocess.run(["ip", "link", "del", BRIDGE], check=False, capture_output=True)


def kill(process):
    try:
        os.killpg(process.pid, signal.SIGKILL)
    except ProcessLookupError:
        pass
    process.wait()


def text_of(path):
    try:
        with open(path, encoding="utf-8", errors="replace") as file:
            return file.read()
    except FileNotFoundError:
        return ""


def write(path, text, mode=0o600):
    with open(path, "w", encoding="utf-8") as file:
        file.write(text)
    os.chmod(path, mode)


# Waits until it is so, and says in how many seconds it was.
wait = partial(waits, seconds=200, pause=0.05)


class Trial:
    """Three nodes, a network, somebody who speaks, and a client at the first node."""

    def __init__(self, program, top, has_doors, client):
        self.program, self.top, self.has_doors, self.client = program, top, has_doors, client
        self.home = tempfile.mkdtemp(prefix="bnc-machines-")
        self.machines = Machines()
        self.nodes = {}

    def path(self, *names):
        return os.path.join(self.home, *names)

    def begin(self):
        self.begin_network()
        for name in NAMES:
            os.mkdir(self.path(name))
            run("sh", f"{self.top}/examples/tls/make-certificate", name, "3650", cwd=self.path(name))
        certificates = "".join(text_of(self.path(name, "bnc.crt")) for name in NAMES)
        for name in NAMES:
            write(self.path(name, "peers.crt"), certificates)
            self.begin_tunnels(name)
        if self.has_doors:
            self.begin_door("n1", DOOR.format(name="n1"))
            self.begin_door("n2", DOOR.format(name="n2") + RESERVE)
        for name in reversed(NAMES):
            self.begin_node(name)
        wait("all nodes are level", lambda: all(self.log(name).count(" peer level: ") == 2 for name in NAMES))
        wait("the network is up", lambda: all(" upstream up: " in self.log(name) for name in NAMES))
        self.machines.start(NETWORK, self.home, "spoken", sys.executable, "-c", SPEAKER.format(pause=PAUSE))
        self.begin_weechat() if self.client == "WeeChat" else self.begin_irssi()
        wait("the client shows what is said", lambda: len(self.shown()) > 10)

    def begin_network(self):
        """Behind doors a server without message ids, and else one that has them."""
        if self.has_doors:
            write(self.path("ircd.conf"), NGIRCD)
            self.machines.start(NETWORK, self.home, "ircd.log", "ngircd", "-n", "-f", "ircd.conf")
        else:
            write(self.path("ircd.conf"), INSPIRCD.format(home=self.home))
            self.machines.start(NETWORK, self.home, "ircd.log", "inspircd", "--nofork", "--runasroot", "--config",
                                self.path("ircd.conf"))
        time.sleep(1)

    def begin_tunnels(self, name):
        others = [it for it in NAMES if it != name]
        head = text_of(f"{self.top}/examples/tls/peers.conf").partition("[n2]")[0]
        ways = "".join(WAY.format(name=it, number=it[1:], address=ADDRESSES[it]) for it in others)
        write(self.path(name, "peers.conf"), head + ways + (WAY_TO_DOORS if self.has_doors else ""))
        shutil.copy(f"{self.top}/examples/tls/clients.conf", self.path(name))
        for file in ("peers", "clients"):
            self.machines.start(name, self.path(name), f"{file}.log", "stunnel4", f"{file}.conf")

    def begin_door(self, name, text):
        write(self.path(name, "door.toml"), text)
        self.machines.start(name, self.path(name), "door.log", sys.executable, "-B", f"{self.top}/companions/bnc-door", "door.toml")

    def begin_node(self, name):
        peers = [(it, 7100 + int(it[1:])) for it in NAMES if it != name]
        server, nick = ("127.0.0.1:6700", "al") if self.has_doors else ("10.99.0.10:6667", f"al{name[1:]}")
        write(self.path(name, "bnc.toml"), configuration(name, nick, 6670, 7000, server, places=64, bound=65536, known=peers))
        self.nodes[name] = self.machines.start(name, self.path(name), "log", self.program, "serve", "bnc.toml")
        wait(f"{name} listens", lambda: " listening: " in self.log(name))

    def begin_weechat(self):
        folder = self.path("weechat")
        os.makedirs(f"{folder}/python/autoload")
        shutil.copy(f"{self.top}/examples/clients/bnc_history.py", f"{folder}/python/autoload")
        prints = [run("openssl", "x509", "-in", self.path(name, "bnc.crt"), "-noout", "-fingerprint", "-sha256") for name in NAMES]
        prints = ",".join(it.strip().partition("=")[2].replace(":", "").lower() for it in prints)
        words = [word for it in WEECHAT for word in ("-r", it.replace("{fingerprints}", prints))]
        self.machines.start(PHONE, self.home, "weechat.log", "weechat-headless", "-d", folder, *words)

    def begin_irssi(self):
        folder = self.path("irssi")
        os.makedirs(f"{folder}/scripts/autorun")
        shutil.copy(f"{self.top}/examples/clients/bnc_history.pl", f"{folder}/scripts/autorun")
        write(f"{folder}/config", IRSSI_SETTINGS.format(home=self.home))
        write(f"{folder}/startup", IRSSI.format(home=self.home, secret=SECRET))
        self.machines.start(PHONE, self.home, "irssi.log", "tmux", "-S", self.path("tmux"), "-f", "/dev/null", "-D", TERM="xterm")
        wait("tmux", lambda: os.path.exists(self.path("tmux")))
        subprocess.run(["ip", "netns", "exec", Machines.space(PHONE), "tmux", "-S", self.path("tmux"), "new-session", "-d", "-x", "150",
                        f"irssi --home={folder}"], check=True, env={**os.environ, "TERM": "xterm"})

    def log(self, name):
        return text_of(self.path(name, "log"))

    def shown(self):
        """The numbers of the lines that the client has shown, some of them as late."""
        path = ("weechat", "logs", "irc.bnc.#a.weechatlog") if self.client == "WeeChat" else ("irssi", "#a.log")
        return [int(it) for it in re.findall(r"\bline (\d+)(?: \[late: said at [^]]*\])?$", text_of(self.path(*path)), re.MULTILINE)]

    def lose(self, is_machine):
        """The first node goes away, alone or with its machine: the seconds until the client is at the next one, and until it shows
        what is said; and how many lines it never shows, and how many twice."""
        last = max(self.shown())
        if is_machine:
            self.machines.cut("n1")
        else:
            kill(self.nodes["n1"])
        begun = time.monotonic()
        wait("the client moves", lambda: " client in: " in self.log("n2"))
        moved = time.monotonic() - begun
        wait("it shows what is said", lambda: max(self.shown()) > last + 1)
        shows = time.monotonic() - begun
        spoken = int(text_of(self.path("spoken")).split()[-1])
        # (a node whose own session is still down shows what others hear once a minute)
        time.sleep(AFTERWARDS)
        shown = self.shown()
        missing = [it for it in range(min(shown), spoken) if it not in shown]
        return moved, shows, len(missing), len(shown) - len(set(shown))

    def end(self):
        subprocess.run(["tmux", "-S", self.path("tmux"), "kill-server"], check=False, capture_output=True)
        self.machines.end()
        leave(self.home)


def lost(program, top, has_doors, is_machine, client):
    """What the loss of the first node comes to for a client."""
    trial = Trial(program, top, has_doors, client)
    try:
        trial.begin()
        came = trial.lose(is_machine)
    finally:
        trial.end()
    print(f"{client}, {'doors' if has_doors else 'no doors'}, {'machine' if is_machine else 'program'}: {came}", file=sys.stderr,
          flush=True)
    return came


def row(has_doors, is_machine, them):
    """A row of the table, by what came of it for each client."""
    cells = [f"{moved:.0f} s, {shows:.0f} s" for moved, shows, _, _ in them]
    never, twice = (", ".join(str(it) for it in counts) if any(counts) else "none" for counts in list(zip(*them))[2:])
    return ("two doors" if has_doors else "a session each", "machine" if is_machine else "program", *cells, never, twice)


def main():
    given = argparse.ArgumentParser(description=__doc__, formatter_class=argparse.RawDescriptionHelpFormatter)
    given.add_argument("--top", default=HERE, help="where `companions` and `examples` are")
    given.add_argument("program", nargs="?", default=PROGRAM)
    words = given.parse_args()
    # (what was begun is ended at a signal, too)
    for number in (signal.SIGTERM, signal.SIGINT):
        signal.signal(number, lambda *_: sys.exit("ended by a signal"))
    program, top = os.path.abspath(words.program), os.path.abspath(words.top)
    name = name_of_run(program)
    rows = [row(has_doors, is_machine, [lost(program, top, has_doors, is_machine, client) for client in CLIENTS])
            for has_doors in (False, True) for is_machine in (False, True)]
    heads = ["with the network", "n1 loses its", *CLIENTS, "lines never shown", "lines shown twice"]
    print(f"{name}\n\n{table(heads, rows)}")


if __name__ == "__main__":
    main()
