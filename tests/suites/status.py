"""`bnc-status`: what it says of a node by the journal and /proc (companions/bnc-status.1; docs/THREE-MACHINES.md, "What to
watch")."""

import re

from harness import companions
from harness.failure import Failed, expect
from harness.node import Node
from harness.peer import Peer
from harness.registry import test
from harness.server import Server

# 2026-11-30T03:00:00Z, in seconds
THREE = 1796007600
# A journal of two lives, of which the second counts.
FIRST = """Started bnc.service - bnc, an IRC bouncer.
2026-11-30T01:00:00.000Z listening: clients on 127.0.0.1:6670, peers on 127.0.0.1:7000
2026-11-30T01:00:01.000Z client in: demo/net from 127.0.0.1:49040
2026-11-30T01:00:02.000Z peer level: n4: each has what the other had
"""
SECOND = """bnc.service: Main process exited, code=killed, status=9/KILL
2026-11-30T03:00:00.000Z retention: messages are kept for 30 days at most, here and on every node of the cluster
2026-11-30T03:00:00.000Z listening: clients on 127.0.0.1:6670, peers on 127.0.0.1:7000
2026-11-30T03:00:01.500Z upstream up: demo/net as al
2026-11-30T03:00:02.000Z upstream down: eve/two at 192.0.2.1:6667: it could not be reached: connection refused
2026-11-30T03:00:03.000Z peer greeted: n2 at 10.0.0.2:7000 (incarnation 5)
2026-11-30T03:00:04.000Z peer level: n2: each has what the other had
2026-11-30T03:00:04.500Z peer greeted: n2 at 10.0.0.2:7000 (incarnation 5)
2026-11-30T03:00:04.500Z peer down: n2: a newer connection took its place
2026-11-30T03:00:05.000Z peer greeted: n3 at 10.0.0.3:7000 (incarnation 6)
2026-11-30T03:00:06.000Z client in: demo/net from 127.0.0.1:49040
2026-11-30T03:00:07.000Z client in: demo/net from 127.0.0.1:49041
2026-11-30T03:00:08.000Z client out: demo/net from 127.0.0.1:49040: the other end closed it
2026-11-30T03:00:09.000Z client refused: 192.0.2.7:1: its account, its network or its secret is wrong
2026-11-30T03:00:10.000Z client refused: 192.0.2.7:2: its account, its network or its secret is wrong
2026-11-30T03:00:11.000Z clients refused: 1990 more within a minute
2026-11-30T03:00:12.000Z peer refused: 192.0.2.8:1: it sent another word than the shared one
2026-11-30T03:00:13.000Z peer level: n3: each has what the other had
2026-11-30T03:00:14.000Z peer down: n3: the other end closed it
2026-11-30T03:01:02.000Z upstream down: eve/two at 192.0.2.1:6667: it could not be reached: connection refused
2026-11-30T03:01:03.000Z out of memory: 17 connections were closed within a minute
2026-11-30T03:01:04.000Z clock leapt: 3456000 seconds ahead, so no floor is put before it has kept time for an hour
2026-11-30T03:01:04.000Z lines lost: 120, for which the log had no room
2026-11-30T03:01:05.000Z peer greeted: n5 at 10.0.0.5:7000 (incarnation 6)
2026-11-30T03:01:05.000Z peer behind: n5: its clock is behind its last life (incarnation 7)
"""
SAMPLES = {
    "bnc_up": 0, "bnc_start_time_seconds": THREE, "bnc_starts": 2,
    'bnc_network_up{account="demo",network="net"}': 1, 'bnc_network_up{account="eve",network="two"}': 0,
    'bnc_network_changed_timestamp_seconds{account="demo",network="net"}': THREE + 1.5,
    'bnc_network_changed_timestamp_seconds{account="eve",network="two"}': THREE + 2,
    'bnc_network_downs_total{account="demo",network="net"}': 0, 'bnc_network_downs_total{account="eve",network="two"}': 2,
    'bnc_peer_connected{peer="n2"}': 1, 'bnc_peer_connected{peer="n3"}': 0, 'bnc_peer_connected{peer="n5"}': 1,
    'bnc_peer_level{peer="n2"}': 1, 'bnc_peer_level{peer="n3"}': 1, 'bnc_peer_level{peer="n5"}': 0,
    'bnc_peer_level_timestamp_seconds{peer="n2"}': THREE + 4, 'bnc_peer_level_timestamp_seconds{peer="n3"}': THREE + 13,
    'bnc_peer_behind{peer="n2"}': 0, 'bnc_peer_behind{peer="n3"}': 0, 'bnc_peer_behind{peer="n5"}': 1,
    "bnc_clients": 1, 'bnc_clients_refused_total{reason="its account, its network or its secret is wrong"}': 2,
    'bnc_clients_refused_total{reason="more within a minute"}': 1990,
    'bnc_peers_refused_total{reason="it sent another word than the shared one"}': 1,
    "bnc_closed_for_memory_total": 17, "bnc_clock_leaps_total": 1, "bnc_log_lines_lost_total": 120,
}
PROCESS = ("bnc_memory_resident_bytes", "bnc_memory_addresses_bytes", "bnc_descriptors", "bnc_descriptors_limit", "bnc_threads",
           "bnc_processor_seconds_total")


# The system counts a process's time in hundredths of a second.
COUNTED = 0.02


def samples(text):
    """The samples of a text file of Prometheus, each of whose metrics has its type and its help before it, once."""
    found, named = {}, []
    for line in text.splitlines():
        if line.startswith("# "):
            named.append(tuple(line.split(" ", 3)[1:3]))
            continue
        name, _, value = line.rpartition(" ")
        metric = name.partition("{")[0]
        if ("TYPE", metric) != named[-1] or ("HELP", metric) != named[-2]:
            raise Failed(f"no type and help of {metric}")
        found[name] = float(value)
    expect("whether each metric stands once", len(set(named)), len(named))
    return found


def status(fixture, *words):
    ended = companions.run(fixture, "bnc-status", *words)
    expect("the end", (0, b""), (ended.status, ended.errors))
    return ended.output.decode()


@test
def what_a_journal_has(fixture):
    """What happened since the node's latest start counts, and the number of starts."""
    fixture.write("log", (FIRST + SECOND).encode())
    expect("the samples", SAMPLES, samples(status(fixture, "--journal", "cat log", "--pid", "0")))


@test
def a_network_that_came_back(fixture):
    """And a peer that was down."""
    fixture.write("log", (SECOND + "2026-11-30T03:02:00.000Z upstream up: eve/two as eve\n"
                          "2026-11-30T03:02:00.000Z peer greeted: n3 at 10.0.0.3:7000 (incarnation 8)\n").encode())
    found = samples(status(fixture, "--journal", "cat log", "--pid", "0"))
    labels = '{account="eve",network="two"}'
    expect("the network", [1, THREE + 120, 2],
           [found[f"bnc_network_{it}{labels}"] for it in ("up", "changed_timestamp_seconds", "downs_total")])
    expect("the peer", 1, found['bnc_peer_connected{peer="n3"}'])


@test
def a_journal_without_a_start(fixture):
    """As the first minute of a machine has it."""
    fixture.write("log", b"-- No entries --\n")
    wanted = {"bnc_up": 0, "bnc_starts": 0, "bnc_clients": 0, "bnc_closed_for_memory_total": 0, "bnc_clock_leaps_total": 0,
              "bnc_log_lines_lost_total": 0}
    expect("the samples", wanted, samples(status(fixture, "--journal", "cat log", "--pid", "0")))


@test
def a_journal_that_cannot_be_read(fixture):
    """The file that was there stays as it was."""
    fixture.write("bnc.prom", b"as before\n")
    ended = companions.run(fixture, "bnc-status", "--journal", "cat none", "--pid", "0", "--output", "bnc.prom")
    expect("the status", 4, ended.status)
    with open(fixture.path("bnc.prom"), encoding="utf-8") as file:
        expect("the file", "as before\n", file.read())
    ended = companions.run(fixture, "bnc-status", "--journal", "true", "--pid", "0", "--output", "none/bnc.prom")
    ended.expect(4, b"", b"bnc-status: can't write none/bnc.prom: no such file or directory\n")


@test
def words_of_strangers_stay_words(fixture):
    """What a server said stands in the page, and is no part of it; neither does it end a label."""
    words = '<script>alert("x")</script>'
    fixture.write("log", (SECOND + f"2026-11-30T03:02:00.000Z upstream down: demo/net: it ended as the protocol says; the server said: "
                          f"{words}\n2026-11-30T03:02:00.000Z client refused: 192.0.2.7:2: a \"reason\" \\\n").encode())
    text = status(fixture, "--journal", "cat log", "--pid", "0", "--html", "bnc.html", "--title", "<n1>")
    expect("the label", 1, samples(text)['bnc_clients_refused_total{reason="a \\"reason\\" \\\\"}'])
    with open(fixture.path("bnc.html"), encoding="utf-8") as file:
        shown = file.read()
    expect("whether it stands there as it is", [False, False], ["<script" in shown, "<n1>" in shown])
    expect("whether it is shown", True, "&lt;script&gt;alert(&quot;x&quot;)" in shown)


def works(client):
    """Has the client's node answer for a while."""
    client.say(*1000 * ["PING here"])
    client.hear(*1000 * [":bnc.example PONG bnc.example :here"])


@test
def a_node_that_runs(fixture):
    """Its network, a peer, a client and its process, in the text and on the page."""
    server = Server(fixture)
    node = Node(fixture, servers=[server.address], peers=[("n0", ("127.0.0.1", 1))]).begin()
    server.register()
    client = node.client().register("draft/read-marker")
    # (so the peer, which acknowledges nothing, doesn't come to be level)
    client.say("MARKREAD #a timestamp=2026-01-02T03:04:05.678Z")
    client.hear(":bnc.example MARKREAD #a timestamp=2026-01-02T03:04:05.678Z")
    Peer.dial(node).greet()
    for event in ("upstream up: ", "client in: ", "peer greeted: "):
        node.wait_for(event)
    fixture.until("the node took so much time that the system counts it", lambda: works(client) or node.processor_seconds() > COUNTED)
    words = ["--journal", "cat n1.log", "--pid", str(node.process.pid), "--html", "bnc.html", "--title", "n1"]
    found = samples(status(fixture, *words))
    wanted = {"bnc_up": 1, "bnc_starts": 1, 'bnc_network_up{account="demo",network="net"}': 1, "bnc_clients": 1,
              'bnc_peer_connected{peer="n0"}': 1, 'bnc_peer_level{peer="n0"}': 0}
    expect("the samples", wanted, {name: found.get(name) for name in wanted})
    expect("those of the process that aren't above 0", [], [name for name in PROCESS if not found.get(name, 0) > 0])
    with open(fixture.path("bnc.html"), encoding="utf-8") as file:
        text = re.sub(r"<[^>]*>", " ", file.read())
    expect("what the page hasn't", [], [it for it in ("bnc: n1", "runs", "demo/net", "n0", "connected") if it not in text])


@test
def the_man_page_has_each_metric(fixture):
    """And no other one."""
    with open(companions.path_of("bnc-status.1"), encoding="utf-8") as file:
        listed = set(re.findall(r"\bbnc_[a-z_]+\b", file.read()))
    told = {name.partition("{")[0] for name in SAMPLES} | {*PROCESS, "bnc_memory_addresses_limit_bytes"}
    expect("the metrics", sorted(told), sorted(listed))
