#!/usr/bin/env python3
"""Keeps three nodes of a cluster at work with clients, strangers, faults and restarts at once, and says whether it ends as it
began.

    bench/soak.py PROGRAM [SECONDS [CLIENTS]]      3,600 seconds and 300 clients, where nothing else is said

Clients come and go: some ask for pages and set markers, some leave in the middle of a page, some send garbage, some say nothing,
some give a wrong secret, and some never read. Strangers come to both ports of each node at a rate, and stay. The network's server
speaks all the while; now and then it closes all sessions and comes again. The second and the third node are killed by turns and
started again. Links between nodes are cut, held up and let go, or held up and cut; one is held up until the nodes give it up,
where there is time for that.

The messages' ids are as many as the server says in the first quarter, and come again and again, so that each node holds the same
then. After the first quarter, and in the end, clients and strangers leave, and the first node is looked at: its descriptors, and
its resident memory. In the end the pages and markers of all nodes are equal and have each message once; and who listened all the
while heard each message that the server said to the first node, once and in order.

It prints the table of docs/PERFORMANCE.md. The status is 1 where something is otherwise. PROGRAM has the environment that
examples/bnc.service gives it, but for what is set already: MALLOC_ARENA_MAX=1 measures with one heap.
"""
import collections
import os
import random
import re
import socket
import sys
import threading
import time

sys.path.insert(1, os.path.join(os.path.dirname(os.path.dirname(os.path.realpath(__file__))), "tests"))

from cluster import BODY, SECRET, WORD, Cluster, Session, connected, waits
from harness.beside import Beside
from machine import name_of_run, table

# How many messages are said in a second, and how many strangers come to each port of a node.
PACE, RATE = 60, 15
# So many connections of strangers are kept open at each port.
KEPT = 200
# The most messages that there are.
MOST = 30000
# The seconds in which clients and strangers have left, and those in which what was cut is mended.
LEAVE, MENDED = 15, 300
# The first node's memory may be a tenth above what it was.
TENTH = 1.1
# After so many seconds a node gives up a peer from which nothing comes.
GIVEN_UP = 330
WRONG = "wr0ng"


class Run(Beside):
    """What goes on until it is over, and what came of it."""

    def __init__(self, cluster, seconds, clients):
        super().__init__()
        self.cluster, self.clients, self.seconds = cluster, clients, seconds
        self.messages = min(MOST, max(200, seconds * PACE // 5))
        self.until, self.said = time.monotonic() + seconds, 0
        self.works = threading.Event()
        self.works.set()

    def goes_on(self):
        return not self.is_over and time.monotonic() < self.until

    def pause(self, seconds):
        """Waits, but not beyond the end. Whether it goes on then."""
        end = min(time.monotonic() + seconds, self.until)
        while not self.is_over and time.monotonic() < end:
            time.sleep(min(0.2, max(0, end - time.monotonic())))
        return self.goes_on()


def note(text):
    """Says what goes on, beside the table."""
    print(time.strftime("%H:%M:%S"), text, file=sys.stderr, flush=True)


def id_of(number, count):
    return f"m{number % count:05}"


def message(number, count):
    """The message of that number. One of the same id is the same."""
    at = number % count
    return f"@msgid={id_of(number, count)};time=2026-11-23T{at // 3600:02}:{at // 60 % 60:02}:{at % 60:02}.000Z " \
           f":bob!bob@host PRIVMSG #a :{at:05} {BODY}\r\n".encode()


def speak(run):
    """The server says one message after another, while the first node hears it."""
    while run.goes_on():
        if run.cluster.network.say(message(run.said, run.messages), run.cluster.nodes[0].nick):
            run.said += 1
        time.sleep(1 / PACE)


def pings(run):
    """The server says something at least now and then, as a node gives up one that says nothing."""
    while not run.is_over:
        run.cluster.network.say(b"PING :srv\r\n", None)
        time.sleep(20)


class Listener:
    """A client of the first node that stays all the while, and hears each message once and in order."""

    def __init__(self, run):
        self.run, self.heard = run, 0
        self.session = Session(run.cluster.nodes[0].clients).login()
        self.session.until(" JOIN #a")
        self.session.socket.settimeout(1)

    def listen(self, run):
        while not run.is_over:
            try:
                lines = self.session.lines()
            except socket.timeout:
                continue
            if lines is None and run.is_over:
                return
            if lines is None:
                raise EOFError("the first node closed a client that reads")
            for line in lines:
                found = re.match(r"@msgid=(\w+);time=\S+ :bob!bob@host PRIVMSG #a :(\d+) x+$", line)
                if found:
                    wanted = id_of(self.heard, run.messages)
                    if found[1] != wanted or found[1] != f"m{found[2]}":
                        raise ValueError(f"heard {line[:60]}, and not {wanted}")
                    self.heard += 1


def visit(run, node, kind):
    """One client's visit. What the node closes is no failure here."""
    it = Session(node.clients)
    try:
        if kind == "garbage":
            it.socket.sendall(random.randbytes(random.randint(1, 20000)))
            it.socket.recv(4096)
        elif kind == "silent":
            run.pause(random.random() * 3)
        elif kind == "wrong":
            return "refused" if it.login(WRONG).until(" 464 ") else "closed"
        else:
            it.login()
            return asks(run, it, kind)
    except OSError:
        pass
    finally:
        it.close()
    return "left"


def asks(run, it, kind):
    """A registered client's visit."""
    question = "CHATHISTORY LATEST #a * 100"
    if kind == "leaves":
        it.say(question)
        it.socket.recv(100)
    elif kind == "deaf":
        it.socket.sendall(f"{question}\r\n".encode() * 50)
        run.pause(random.random() * 3)
    else:
        begun = time.monotonic()
        lines = it.page(question)
        if lines is None:
            return "closed"
        ids = [re.search("msgid=(\\w+)", line)[1] for line in lines]
        if ids != sorted(set(ids)):
            run.fail(f"a page that isn't in order, or has a message twice: {ids}")
        it.say(f"MARKREAD #a timestamp=2026-11-23T00:00:{run.said // PACE % 60:02}.000Z")
        it.say("QUIT")
        return "answered" if time.monotonic() < begun + 5 else "answered late"
    return "left"


def visitor(run):
    kinds = ("whole", "whole", "leaves", "garbage", "silent", "deaf", "wrong")
    while run.goes_on():
        run.works.wait()
        node, kind = random.choice(run.cluster.nodes[:1] * 8 + run.cluster.nodes[1:]), random.choice(kinds)
        try:
            end = visit(run, node, kind)
        except OSError:
            end = "not let in"
        run.count(("visits", kind, end, node.name))
        run.pause(random.random())


def strangers(run, port):
    """They come at the rate, say nothing or garbage, and stay until others take their places."""
    kept = collections.deque()
    while run.goes_on():
        if run.works.is_set():
            try:
                kept.append(connected(port))
                if random.random() < 0.2:
                    kept[-1].sendall(random.randbytes(100))
                run.count(("strangers",))
            except OSError:
                run.count(("strangers that weren't let in",))
        while len(kept) > (KEPT if run.works.is_set() else 0):
            kept.popleft().close()
        time.sleep(1 / RATE)
    while kept:
        kept.popleft().close()


def restarts(run):
    """The second and the third node are killed by turns, and started again."""
    nodes, turn = run.cluster.nodes[1:], 0
    while run.pause(min(100, run.seconds / 4)):
        node, turn = nodes[turn % 2], turn + 1
        node.kill()
        run.pause(random.uniform(1, min(20, run.seconds / 20)))
        node.start()
        run.count(("restarts",))


def cuts(run):
    """Links are cut, held up and let go, or held up and cut."""
    links, turn = run.cluster.links, 0
    while run.pause(min(45, run.seconds / 6)):
        link, kind, turn = links[turn % len(links)], ("cut", "held up", "held up and cut")[turn // len(links) % 3], turn + 1
        if kind != "cut":
            link.hold_up()
            run.pause(min(20, run.seconds / 10))
        link.go_on() if kind == "held up" else link.cut()
        run.count(("links", kind))
        if turn == 10 and run.until - time.monotonic() > 2 * GIVEN_UP:
            link.hold_up()
            run.pause(GIVEN_UP)
            link.cut()
            run.count(("links", "held up until they were given up"))


def closes(run):
    """The server closes all sessions, and comes again."""
    while run.pause(min(240, run.seconds / 2.5)):
        run.cluster.network.close()
        run.pause(random.uniform(1, min(20, run.seconds / 20)))
        run.cluster.network.open()
        run.count(("times that the server went away",))


def at_rest(run):
    """The megabytes of the first node once clients and strangers have left: the least of some seconds."""
    run.works.clear()
    time.sleep(LEAVE)
    least = min(sample(run) for _ in range(20))
    run.works.set()
    return least


def sample(run):
    time.sleep(0.25)
    return run.cluster.nodes[0].resident() / 1e6


def whole_past(node):
    """All messages of a node, page by page, and its marker."""
    it, lines = Session(node.clients, 30).login(), []
    page = it.page("CHATHISTORY LATEST #a * 100")
    while page:
        lines = page + lines
        page = it.page(f"CHATHISTORY BEFORE #a msgid={re.search('msgid=([^; ]+)', lines[0])[1]} 100")
    it.say("MARKREAD #a")
    marker = [line for line in it.until(":bnc.example MARKREAD #a ") if " MARKREAD #a " in line][-1]
    it.close()
    return lines, marker


def whole_pasts(run):
    """Whether all nodes have each message once and the same marker."""
    wanted, pasts = [id_of(number, run.messages) for number in range(min(run.messages, run.said))], []
    for node in run.cluster.nodes:
        try:
            pasts.append(whole_past(node))
        except OSError as failure:
            note(f"{node.name} isn't asked: {failure}")
            return False
        ids = [re.search("msgid=(\\w+)", line)[1] for line in pasts[-1][0]]
        if ids != wanted or pasts[-1] != pasts[0]:
            note(f"{node.name} has {len(ids)} messages of {len(wanted)}, {len({*ids})} different ones, and the marker {pasts[-1][1]}")
            return False
    return True


def check_logs(run):
    """No line has a secret, the shared word or a message."""
    for node in run.cluster.nodes:
        told = node.log()
        for text in (SECRET, WRONG, WORD, BODY):
            if text in told:
                run.fail(f"{node.name} told {text!r}")


def check_first(run):
    """The first node lives, and nothing failed so far."""
    first = run.cluster.nodes[0]
    if not first.is_up():
        raise SystemExit(f"{first.name} ended with {first.process.returncode}:\n{first.log()[-2000:]}")
    if run.why:
        raise SystemExit(1)


def until_it_ends(run):
    """Looks at the first node while all is at work. Gives its megabytes at rest after the first quarter, and those at work."""
    quarter, samples, begun = None, [], time.monotonic()
    while run.goes_on():
        check_first(run)
        if quarter is None and time.monotonic() > begun + run.seconds / 4:
            quarter = at_rest(run)
            note(f"at rest: {quarter:.1f} MB, {run.said} messages said")
        samples.append(sample(run))
        time.sleep(min(5, run.seconds / 60))
    return quarter, samples


def tell(head, run, rows):
    """Prints what came of it."""
    visits = {key[1:]: count for key, count in run.counts.items() if key[0] == "visits"}
    ends = {end: sum(count for key, count in visits.items() if key[1] == end) for end in sorted({key[1] for key in visits})}
    others = {" ".join(key): count for key, count in run.counts.items() if key[0] != "visits"}
    rows = (
        ("seconds, clients at once", f"{run.seconds:,}, {run.clients:,}"),
        ("visits", f"{sum(visits.values()):,}: " + ", ".join(f"{count:,} {end}" for end, count in ends.items())),
        *((name, f"{count:,}") for name, count in sorted(others.items())),
        ("messages that the server said, and different ones", f"{run.said:,}, {min(run.messages, run.said):,}"),
        *rows,
    )
    print(f"{head}\n\n{table(('', ''), rows)}")


def soak(run):
    """The whole run. Gives the rows of what was looked at."""
    first = run.cluster.nodes[0]
    waits("the cluster is whole", run.cluster.is_whole, 90)
    note("the cluster is whole")
    listeners = [Listener(run) for _ in range(3)]
    descriptors = first.descriptors()
    run.until = time.monotonic() + run.seconds
    for listener in listeners:
        run.begin(listener.listen)
    for call in (speak, pings, restarts, cuts, closes, *[visitor] * run.clients):
        run.begin(call)
    for node in run.cluster.nodes:
        run.begin(strangers, node.clients)
        run.begin(strangers, node.peers)
    quarter, samples = until_it_ends(run)
    note(f"{run.said} messages said; waiting until what was cut is mended")
    mended = waits("the cluster is whole again", run.cluster.is_whole, MENDED)
    waits("the pages of all nodes are equal", lambda: whole_pasts(run), MENDED, 5)
    waits("the listeners heard all", lambda: run.why or all(it.heard == run.said for it in listeners), 30)
    waits(f"the first node has its {descriptors} descriptors again", lambda: first.descriptors() == descriptors, MENDED)
    check_first(run)
    after = at_rest(run)
    run.is_over = True
    if after > quarter * TENTH:
        run.fail(f"{after:.1f} MB resident, and {quarter:.1f} MB after the first quarter")
    check_logs(run)
    lines = {node.name: node.log().count("\n") for node in run.cluster.nodes}
    return (
        ("descriptors of the first node before and after", f"{descriptors} and {first.descriptors()}"),
        ("its resident memory after the first quarter, at work and after",
         f"{quarter:.1f} MB, {min(samples):.0f} to {max(samples):.0f} MB, {after:.1f} MB"),
        ("until the cluster was whole again", f"{mended:.0f} seconds"),
        ("after it", "the pages and markers of all nodes were equal, with each message once"),
        ("who listened all the while", f"heard {listeners[0].heard:,} messages, each once and in order"),
        ("lines of the logs", ", ".join(f"{count:,} of {name}" for name, count in lines.items())),
    )


def main():
    program = sys.argv[1]
    seconds = int(sys.argv[2]) if len(sys.argv) > 2 else 3600
    clients = int(sys.argv[3]) if len(sys.argv) > 3 else 300
    head, cluster = name_of_run(program), Cluster(program)
    run = Run(cluster, seconds, clients)
    try:
        tell(head, run, soak(run))
    finally:
        run.is_over = True
        cluster.stop()
        for why in run.why[:10]:
            print(f"FAILED: {why}")
    sys.exit(1 if run.why else 0)


if __name__ == "__main__":
    main()
