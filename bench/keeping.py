#!/usr/bin/env python3
"""Measures a keeper: how long it takes until what a node holds is on the disk, how long it reads at its start, what it takes of
disk and memory, and when a node that restarts alone is level.

    bench/keeping.py PROGRAM KEEPER [MESSAGES]           1,000,000 where nothing else is said
    bench/keeping.py --full PROGRAM KEEPER               says what a disk does that is full for three minutes
    bench/keeping.py --rewriting PROGRAM KEEPER [MESSAGES]   says how long an acknowledgement waits while the file is rewritten
    bench/keeping.py --soak SECONDS PROGRAM KEEPER       keeps two nodes and a keeper at work for so long (600 in the table)

PROGRAM is crates/bnc/out/bnc, and KEEPER crates/bnc_keep/out/bnc_keep. The keeper's file lies in a folder of the working
directory, so its disk is the one that counts. One state is what `bnc replay` takes that is given the same changes.

In a soak a server speaks all the while, messages are redacted, and nodes and keeper are killed together or alone, now and then
while the keeper's disk is full. After each kill of the keeper its file has all that it had before but what was redacted. In the
end nodes and file have the same messages, each once. It prints the tables of docs/PERFORMANCE.md; the status is 1 where something
is otherwise.
"""
import os
import random
import re
import resource
import shutil
import subprocess
import sys
import tempfile
import threading
import time

from cluster import WORD, Link, Logging, Network, Node, Session, waits
from joining import fill, has
from machine import name_of_run, table

PATIENCE, FEWER, ROUNDS, PACKET = 900, 200_000, 300, 256
NAME, NOWHERE = "0keep", 9
# A message is redacted of so many, and so many are said in a second.
ONE_OF, PACE = 50, 100
MINUTE = 60


class Keeper(Logging):
    """A keeper as a process, with its file."""

    def __init__(self, home, program, peers):
        self.home, self.program, self.process = home, program, None
        self.file, self.told, self.path = (os.path.join(home, it) for it in ("history", "keeper.log", "bnc-keep.toml"))
        with open(self.path, "w", encoding="utf-8") as file:
            file.write(f'node = "{NAME}"\npeer_word = "{WORD}"\nfile = "{self.file}"\n')
            for name, port in peers:
                file.write(f'\n[[peer]]\nname = "{name}"\naddress = "127.0.0.1:{port}"\n')

    def start(self):
        """Starts it in the environment of its unit; what it wrote is forgotten."""
        words = ["sh", "-c", 'trap "" XFSZ; exec "$@"', "sh", self.program, self.path]
        with open(self.told, "wb") as log:
            self.process = subprocess.Popen(words, stdin=subprocess.DEVNULL, stdout=log, stderr=log,
                                            env={**os.environ, "MALLOC_ARENA_MAX": "1"})

    def size(self):
        return os.path.getsize(self.file) if os.path.exists(self.file) else 0

    def memory(self, what):
        """A figure of /proc, in bytes."""
        with open(f"/proc/{self.process.pid}/status", encoding="ascii") as file:
            return int(re.search(rf"{what}:\s+(\d+) kB", file.read())[1]) * 1024


def changes_of(path):
    """The lines of changes in the whole blocks of a file (docs/PROTOCOL.md, "A keeper's file")."""
    with open(path, "rb") as file:
        while (head := file.read(11))[:1] == b"+" and len(payload := file.read(int(head[1:9]))) == int(head[1:9]):
            yield from (line for line in payload.split(b"\r\n") if line.startswith(b"C "))


def one_state(program, path):
    """The most memory that one state takes which takes these changes, in bytes."""
    with tempfile.TemporaryFile() as script:
        script.writelines(line + b"\r\n" for line in changes_of(path))
        script.seek(0)
        process = subprocess.Popen([program, "replay", "demo", "net", "al"], stdin=script, stdout=subprocess.DEVNULL)
        _, _, used = os.wait4(process.pid, 0)
    return used.ru_maxrss * 1024


def sync_time(home, size):
    """Seconds that the disk takes for a block of a packet with its two syncs: the median."""
    path, taken = os.path.join(home, "sync"), []
    file = os.open(path, os.O_CREAT | os.O_WRONLY, 0o600)
    for number in range(ROUNDS):
        begun = time.monotonic()
        for data, at in ((bytes(size), number * size), (b"+", number * size)):
            os.pwrite(file, data, at)
            os.fdatasync(file)
        taken.append(time.monotonic() - begun)
    os.close(file)
    os.remove(path)
    return sorted(taken)[ROUNDS // 2]


def append(keeper, node):
    """Starts a keeper with no file beside a node that holds much, and says after how many seconds its file grew no more."""
    begun = grew = time.monotonic()
    size = 0
    keeper.start()
    while f"peer level: {NAME}" not in node.log():
        if keeper.size() > size:
            size, grew = keeper.size(), time.monotonic()
        if time.monotonic() > begun + PATIENCE or keeper.process.poll() is not None:
            raise SystemExit(f"the keeper isn't level: {keeper.log()[-500:]}")
        time.sleep(0.05)
    return grew - begun


class Machine:
    """A node and a keeper, with the network's server."""

    def __init__(self, home, program, keeper, network=None):
        self.network = network or Network()
        self.network.open()
        self.node = Node(home, program, 1, self.network.port, [(NAME, NOWHERE)])
        self.node.write()
        self.keeper = Keeper(home, keeper, [(self.node.name, self.node.peers)])

    def fill(self, count):
        self.node.start()
        waits("the node", lambda: self.network.is_up(self.node.nick), 30)
        fill(self.network, self.node, count)

    def end(self):
        for it in (self.node, self.keeper):
            if it.process and it.process.poll() is None:
                it.kill()


def read_again(keeper):
    """What the keeper says of reading its file, in seconds."""
    keeper.kill()
    keeper.start()
    waits("the file was read", lambda: " read: " in keeper.log(), PATIENCE, 0.05)
    return float(re.search(r" read: .* in ([0-9.]+) seconds", keeper.log())[1])


def restarted(machine):
    """After how many seconds a node that was killed is level with the keeper."""
    machine.node.kill()
    os.remove(machine.node.told)
    begun = time.monotonic()
    machine.node.start()
    waits("level", lambda: f"peer level: {NAME}" in machine.node.log(), PATIENCE, 0.05)
    return time.monotonic() - begun


def measure(home, program, keeper, count):
    """The rows of the table."""
    head, machine = name_of_run(keeper), Machine(home, program, keeper)
    try:
        machine.fill(count)
        appended = append(machine.keeper, machine.node)
        read, size = read_again(machine.keeper), machine.keeper.size()
        synced = sync_time(home, size * PACKET // count) * (count / PACKET)
        memory, state = machine.keeper.memory("VmRSS"), one_state(program, machine.keeper.file)
    finally:
        machine.end()
    machine = Machine(tempfile.mkdtemp(dir=home), program, keeper)
    try:
        machine.fill(min(FEWER, count))
        append(machine.keeper, machine.node)
        level = restarted(machine)
    finally:
        machine.end()
    return head, [
        [f"{count:,} messages of 40 bytes: appended and acknowledged", f"{appended:.1f} s", "60 s"],
        [".. of which the disk takes for the syncs alone", f"{synced:.1f} s", ""],
        ["read at the start", f"{read:.1f} s", "5 s"],
        ["in the file, a message", f"{size / count:.0f} bytes", "200 bytes"],
        ["memory : that of one state", f"{memory / state:.2f}", "1.2"],
        [f"a node restarted alone, with {min(FEWER, count):,} messages held: level", f"{level:.1f} s", "5 s"],
    ]


# ---- a full disk


def full(home, program, keeper):
    """A disk that is full for three minutes, while another node joins, and then has room again. The rows of the table."""
    head, machine = name_of_run(keeper), Machine(home, program, keeper)
    other = Node(home, program, 2, machine.network.port, [(NAME, NOWHERE)])
    other.write()
    machine.keeper = Keeper(home, keeper, [(it.name, it.peers) for it in (machine.node, other)])
    it = machine.keeper
    try:
        machine.fill(FEWER)
        append(it, machine.node)
        resource.prlimit(it.process.pid, resource.RLIMIT_FSIZE, (it.size(), resource.RLIM_INFINITY))
        for number in range(PACKET):
            machine.network.say(f":bob!b@h PRIVMSG #a :late {number}\r\n".encode(), machine.node.nick)
        waits("the disk is full", lambda: " not kept: " in it.log(), MINUTE)
        begun = time.monotonic()
        other.start()
        joined = waits("the other node has all", lambda: has(other, f"{FEWER - 1:08d}"), PATIENCE)
        time.sleep(max(0, begun + 3 * MINUTE - time.monotonic()))
        failed = it.log().count(" not kept: ")
        resource.prlimit(it.process.pid, resource.RLIMIT_FSIZE, (resource.RLIM_INFINITY,) * 2)
        kept = waits("all is acknowledged", lambda: b":late %d" % (PACKET - 1) in b"".join(changes_of(it.file)), 2 * MINUTE + 5)
    finally:
        machine.end()
        if other.process and other.is_up():
            other.kill()
    return head, [
        [f"a disk that is full for three minutes, with {FEWER:,} messages held: the file is read", f"{failed - 1} times", "3"],
        [".. a node that joins meanwhile has all", f"after {joined:.1f} s", ""],
        [".. all is acknowledged", f"{kept:.0f} s after there is room", "120 s"],
    ]


# ---- the file is rewritten


class Watched(Link):
    """The way from a keeper to a node, which notes how long each packet of the node waited for its acknowledgement."""

    def __init__(self, to):
        self.rests, self.given, self.waited = {}, {}, []
        super().__init__(to)

    def note(self, data, is_ahead):
        *lines, self.rests[is_ahead] = (self.rests.get(is_ahead, b"") + data).split(b"\n")
        now = time.monotonic()
        for words in (line.split(b" ") for line in lines):
            if words[0] == b"D" and not is_ahead:
                self.given.setdefault(int(words[6]), now)
            elif words[0] == b"A" and is_ahead:
                for upto in [it for it in self.given if it <= int(words[5])]:
                    self.waited.append(now - self.given.pop(upto))


def rewriting(home, program, keeper, count):
    """A message is redacted of a file that holds much, and more is said until the file is rewritten. The rows of the table."""
    head, machine = name_of_run(keeper), Machine(home, program, keeper, Forgetting())
    way = Watched(machine.node.peers)
    it = machine.keeper = Keeper(home, keeper, [(machine.node.name, way.port)])

    def say(line):
        machine.network.say(line.encode() + b"\r\n", machine.node.nick)

    def is_rewritten():
        say(":bob!b@h PRIVMSG #a :hi")
        return " rewritten: " in it.log()

    try:
        machine.fill(count)
        append(it, machine.node)
        say("@msgid=s1;time=2026-11-30T00:00:00.000Z :bob!b@h PRIVMSG #a :to be redacted")
        way.waited.clear()
        say(":bob!b@h REDACT #a s1")
        waits("the file is rewritten", is_rewritten, PATIENCE, 0.1)
        waits("all is acknowledged", lambda: not way.given, MINUTE)
        took, lost = re.search(r" rewritten: .* in ([0-9.]+) seconds", it.log())[1], it.log().count(" peer lost: ")
    finally:
        machine.end()
    return head, [
        [f"a file of {count:,} messages is rewritten: an acknowledgement waits at most", f"{max(way.waited):.1f} s", "30 s"],
        [".. in which the new file is written and takes the old one's place", f"{took} s", ""],
        [".. half of all that is said until then waits at most", f"{1000 * sorted(way.waited)[len(way.waited) // 2]:.1f} ms", ""],
        [".. connections that are lost", f"{lost}", "0"],
    ]


# ---- the soak


def ids_in(path):
    """The ids of the messages that a file has, and of those that are redacted."""
    posted, redacted = set(), set()
    for line in changes_of(path):
        words = line.split(b" ", 6)
        if words[1:2] in ([b"POST"], [b"TPOST"]):
            posted.add(words[5])
        elif words[1:2] == [b"REDACT"]:
            redacted.add(words[5])
    return posted - redacted, redacted


class Forgetting(Network):
    """A network whose server takes messages back."""

    def answer(self, head, rest, nick):
        return super().answer(head, rest, nick).replace("CAP * LS :", "CAP * LS :draft/message-redaction ")


class Soak:
    """Two nodes and a keeper at work."""

    def __init__(self, home, program, keeper, seconds):
        self.network, self.end = Forgetting(), time.monotonic() + seconds
        self.network.open()
        self.nodes = [Node(home, program, number, self.network.port, [(NAME, NOWHERE)]) for number in (1, 2)]
        self.nodes[0].known.append(("n2", self.nodes[1].peers))
        self.nodes[1].known.append(("n1", self.nodes[0].peers))
        for node in self.nodes:
            node.write()
        self.keeper = Keeper(home, keeper, [(node.name, node.peers) for node in self.nodes])
        self.said, self.counts, self.why, self.kept = 0, {}, [], (set(), set())
        self.is_over = False

    def count(self, what, number=1):
        self.counts[what] = self.counts.get(what, 0) + number

    def speak(self):
        """The server says a message, and now and then takes one back."""
        while not self.is_over:
            stamp = time.strftime("%Y-%m-%dT%H:%M:%S.000Z", time.gmtime())
            self.network.say(f"@msgid=s{self.said};time={stamp} :bob!b@h PRIVMSG #a :message {self.said}\r\n".encode(), None)
            self.said += 1
            if self.said % ONE_OF == 0:
                self.network.say(f":bob!b@h REDACT #a s{random.randrange(self.said)}\r\n".encode(), None)
            time.sleep(1 / PACE)

    def start(self):
        for node in reversed(self.nodes):
            if not node.process or not node.is_up():
                node.start()
        if not self.keeper.process or self.keeper.process.poll() is not None:
            self.keeper.start()

    def kill_keeper(self):
        """Kills the keeper, and looks at what its file has."""
        self.keeper.kill()
        posted, redacted = ids_in(self.keeper.file)
        lost = self.kept[0] - posted - redacted
        if lost or self.kept[1] - redacted:
            self.why.append(f"{len(lost)} messages and {len(self.kept[1] - redacted)} redactions are no longer in the file")
        self.kept = posted, redacted

    def fault(self):
        kind = random.choice(("all", "all", "keeper", "node", "full"))
        self.count({"all": "kills of all", "keeper": "kills of the keeper", "node": "kills of a node", "full": "full disks"}[kind])
        if kind == "node":
            self.nodes[random.randrange(2)].kill()
        elif kind == "full":
            resource.prlimit(self.keeper.process.pid, resource.RLIMIT_FSIZE, (self.keeper.size() + 5000, resource.RLIM_INFINITY))
            time.sleep(random.uniform(1, 2))
            if random.random() < 0.5:
                self.kill_keeper()
            else:
                resource.prlimit(self.keeper.process.pid, resource.RLIMIT_FSIZE, (resource.RLIM_INFINITY,) * 2)
        else:
            for node in self.nodes if kind == "all" else ():
                node.process.kill()
            self.kill_keeper()
            for node in self.nodes if kind == "all" else ():
                node.kill()

    def run(self):
        self.start()
        threading.Thread(target=self.speak, daemon=True).start()
        while time.monotonic() < self.end:
            time.sleep(random.choice((random.uniform(0, 1), random.uniform(1, 8))))
            for it in (self.keeper, *self.nodes):
                if it.process.poll() is not None:
                    self.why.append(f"a program ended with status {it.process.returncode}: {it.log()[-300:]}")
            self.fault()
            self.count("rewritings", self.keeper.log().count(" rewritten: "))
            self.start()
        self.is_over = True
        return self.compare()

    def compare(self):
        """Waits until all have the same, each message once."""
        def is_equal():
            posted, _ = ids_in(self.keeper.file)
            pages = [ids_of(node) for node in self.nodes]
            return all(len(page) == len(set(page)) and set(page) == {it.decode() for it in posted} for page in pages)

        return waits("nodes and file have the same", is_equal, 4 * MINUTE, 2)


def ids_of(node):
    """The ids of all messages that a node shows."""
    try:
        it, found = Session(node.clients, 30).login(), []
        page = it.page("CHATHISTORY LATEST #a * 100")
        while page:
            ids = [re.search("msgid=([^; ]+)", line)[1] for line in page]
            found += ids
            page = it.page(f"CHATHISTORY BEFORE #a msgid={ids[0]} 100")
        it.close()
        return found
    except OSError:
        return []


def soak(home, program, keeper, seconds):
    head, it = name_of_run(keeper), Soak(home, program, keeper, seconds)
    try:
        took = it.run()
        posted, redacted = ids_in(it.keeper.file)
        rows = [["seconds", f"{seconds:,}"], ["messages said, kept, redacted", f"{it.said:,}, {len(posted):,}, {len(redacted):,}"],
                *([what, f"{count:,}"] for what, count in sorted(it.counts.items())),
                ["until nodes and file had the same, each message once", f"{took:.0f} seconds"],
                ["the keeper's file and memory", f"{it.keeper.size() / 1e6:.1f} and {it.keeper.memory('VmRSS') / 1e6:.1f} MB"]]
    finally:
        it.is_over = True
        for process in (it.keeper, *it.nodes):
            if process.process and process.process.poll() is None:
                process.kill()
        for why in it.why[:10]:
            print(f"FAILED: {why}")
    print(f"{head}\n\n{table(['', ''], rows)}")
    return 1 if it.why else 0


def main():
    words = sys.argv[1:]
    home = tempfile.mkdtemp(prefix="bench-", dir=os.getcwd())
    try:
        if words[:1] == ["--soak"] and len(words) == 4:
            return soak(home, os.path.abspath(words[2]), os.path.abspath(words[3]), int(words[1]))
        if words[:1] == ["--full"] and len(words) == 3:
            head, rows = full(home, *map(os.path.abspath, words[1:]))
        elif words[:1] == ["--rewriting"] and len(words) in (3, 4):
            head, rows = rewriting(home, *map(os.path.abspath, words[1:3]), int(words[3]) if len(words) > 3 else 1_000_000)
        elif len(words) in (2, 3) and not words[0].startswith("-"):
            head, rows = measure(home, *map(os.path.abspath, words[:2]), int(words[2]) if len(words) > 2 else 1_000_000)
        else:
            sys.exit(__doc__)
        print(f"{head}\n\n{table(['what', 'figure', 'goal'], rows)}")
        return 0
    finally:
        shutil.rmtree(home, ignore_errors=True)


if __name__ == "__main__":
    sys.exit(main())
