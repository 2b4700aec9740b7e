"""`bnc-import`: logs of ZNC, irssi and WeeChat become a node's past (docs/MOVING.md, "Logs of other programs";
companions/bnc-import.1)."""

import hashlib
import os
import re
import time

from harness import companions
from harness.connection import Listener, spelled
from harness.failure import Failed, expect
from harness.node import Node
from harness.registry import add, test

NOBODY = ("127.0.0.1", 1)
NAME = "0import"
# 2026-01-02T03:04:05Z, and the same time in Berlin's winter
SECOND = 1767323045000
HOUR = 3600_000
MOST_OF_PACKET = 256


class Importer:
    """A node that has the importer as a peer, and its configuration."""

    def __init__(self, fixture, **how):
        self.fixture = fixture
        self.node = Node(fixture, peers=[(NAME, NOBODY)], servers=[NOBODY], **how).begin()
        self.address = []

    def run(self, log, *files, zone="UTC", **more):
        """Runs the command over these files to its end."""
        words = [word for name, value in more.items() for word in (f"--{name}", value)]
        return companions.run(self.fixture, "bnc-import", "--config", "n1.toml", "--account", "demo", "--network", "net",
                              "--format", log, "--zone", zone, *words, *self.address, *files)

    def hands_over(self, log, *files, says, **more):
        self.run(log, *files, **more).expect(0, "".join(f"{line}\n" for line in says).encode(), b"")

    def page(self, target):
        """What the node has of a conversation: for each message its id, its moment and its line."""
        client = self.node.client().register("batch draft/chathistory message-tags server-time")
        lines = client.ask(f"CHATHISTORY LATEST {target} * 100")
        client.close()
        return [re.fullmatch(r"@batch=r\d+;msgid=([^;]+);time=(\S+) (.*)", line).groups() for line in lines]


def file(fixture, path, *lines):
    os.makedirs(os.path.dirname(fixture.path(path)), exist_ok=True)
    return fixture.write(path, b"".join(line.encode() + b"\n" for line in lines))


def ident(target, written, source, body, before=0, network="net"):
    """The id of a line, as the man page says."""
    text = "\0".join((network, target, str(written), source, body, str(before)))
    return "log-" + hashlib.sha256(text.encode()).hexdigest()[:32]


def stamp(milliseconds):
    return time.strftime("%Y-%m-%dT%H:%M:%S", time.gmtime(milliseconds // 1000)) + f".{milliseconds % 1000:03}Z"


def row(target, written, place, source, rest, before=0):
    """A message of a page: the line of the log stands for the moment `written`, and is the one at that place in it."""
    body = rest.partition(" :")[2]
    return ident(target, written, source, body, before), stamp(written + place), f":{source} {rest}"


ZNC = ("[03:04:05] *** Joins: bob (b@h)", "[03:04:05] <bob> hi", "[03:04:05] <bob> hi", "[03:04:05] <al> hello, bob",
       "[03:04:06] * bob waves", "[03:04:06] -bob- a note", "[03:04:07] *** bob sets mode: +o al", "[03:04:07] *** Quits: bob (b@h) (x)",
       "[03:04:08] *** Quits: eve (e@h) (x)", "what is that?", "[25:00:00] <bob> a time that there isn't")
ZNC_PAGE = [
    row("#a", SECOND, 0, "bob", "PRIVMSG #a :hi"), row("#a", SECOND, 1, "bob", "PRIVMSG #a :hi", 1),
    row("#a", SECOND, 2, "al", "PRIVMSG #a :hello, bob"), row("#a", SECOND + 1000, 0, "bob", "PRIVMSG #a :\x01ACTION waves\x01"),
    row("#a", SECOND + 1000, 1, "bob", "NOTICE #a :a note"),
]


@test
def a_log_of_znc_twice(fixture):
    """It becomes the channel's past, the lines of one second in their order. Two equal ones stay two, and the second time nothing
    is added."""
    it = Importer(fixture)
    path = file(fixture, "net/#a/2026-01-02.log", *ZNC)
    for _ in range(2):
        it.hands_over("znc", path, says=[
            "handed over: 5 messages of 1 conversation",
            "not kept: 1 changes of modes, 1 joins, 2 lines that can't be read, 2 quits"])
        expect("the page", ZNC_PAGE, it.page("#a"))


@test
def a_copy_of_a_log_adds_nothing(fixture):
    it = Importer(fixture)
    paths = [file(fixture, f"{folder}/#a/2026-01-02.log", *ZNC) for folder in ("net", "copy")]
    it.hands_over("znc", *paths, paths[0], says=[
        "handed over: 10 messages of 1 conversation",
        "not kept: 2 changes of modes, 2 joins, 4 lines that can't be read, 4 quits"])
    expect("the page", ZNC_PAGE, it.page("#a"))


@test
def a_log_that_grew(fixture):
    """What came since is added, also within the last second."""
    it = Importer(fixture)
    path = file(fixture, "net/#a/2026-01-02.log", *ZNC[:3])
    it.hands_over("znc", path, says=["handed over: 2 messages of 1 conversation", "not kept: 1 joins"])
    expect("the page", ZNC_PAGE[:2], it.page("#a"))
    file(fixture, "net/#a/2026-01-02.log", *ZNC)
    expect("the status", 0, it.run("znc", path).status)
    expect("the page then", ZNC_PAGE, it.page("#a"))


@test
def private_conversations(fixture):
    """What the other said went to one's own nick, and all else to the other. ZNC's own windows and the server's are left out."""
    it = Importer(fixture)
    paths = [file(fixture, f"net/{who}/2026-01-02.log", "[03:04:05] <Bob> psst", "[03:04:06] <al_> yes?") for who in ("bob", "*status", "irc.example")]
    ended = it.run("znc", *paths)
    ended.expect(0, b"handed over: 2 messages of 1 conversation\n",
                 "".join(f"bnc-import: {path}: no conversation by its name, so it is left out\n" for path in paths[1:]).encode())
    expect("the page", [row("bob", SECOND, 0, "Bob", "PRIVMSG al :psst"), row("bob", SECOND + 1000, 0, "al_", "PRIVMSG bob :yes?")],
           it.page("bob"))
    other = file(fixture, "net/eve/2026-01-02.log", "[03:04:05] <eve> psst")
    it.hands_over("znc", other, nick="alice", says=["handed over: 1 message of 1 conversation"])
    expect("with another nick", [row("eve", SECOND, 0, "eve", "PRIVMSG alice :psst")], it.page("eve"))


IRSSI = ("--- Log opened Fri Jan 02 03:04:05 2026", "03:04 -!- bob [b@h] has joined #a", "03:04 <@bob> hi", "03:04 < al> hello",
         "03:04 <@bob> hi", "03:05  * bob waves", "03:05 -bob:#a- a note", "03:05 -!- mode/#a [+o al] by bob",
         "--- Day changed Sat Jan 03 2026", "00:00 <+bob> next day", "--- Log closed Sat Jan 03 00:01:00 2026",
         "--- Log opened Mon Jan 05 00:00:00 2026", "00:00:07 <al> with seconds", "00:00:08<al> a time without a space",
         "24:01 <al> a time that there isn't")
MINUTE = SECOND - 5000


@test
def a_log_of_irssi(fixture):
    """Its times are of minutes, and its days have lines of their own."""
    it = Importer(fixture)
    it.hands_over("irssi", file(fixture, "net/#a.log", *IRSSI), says=[
        "handed over: 8 messages of 1 conversation", "not kept: 1 changes of modes, 1 joins, 1 lines that can't be read"])
    third = 1767398400000
    expect("the page", [
        row("#a", MINUTE, 0, "bob", "PRIVMSG #a :hi"), row("#a", MINUTE, 1, "al", "PRIVMSG #a :hello"),
        row("#a", MINUTE, 2, "bob", "PRIVMSG #a :hi", 1), row("#a", MINUTE + 60000, 0, "bob", "PRIVMSG #a :\x01ACTION waves\x01"),
        row("#a", MINUTE + 60000, 1, "bob", "NOTICE #a :a note"), row("#a", third, 0, "bob", "PRIVMSG #a :next day"),
        row("#a", third + 48 * HOUR + 7000, 0, "al", "PRIVMSG #a :with seconds"),
        row("#a", third + 48 * HOUR + 8000, 0, "al", "PRIVMSG #a :a time without a space"),
    ], it.page("#a"))


WEECHAT = ("2026-01-02 03:04:05\t-->\tbob (b@h) has joined #a", "2026-01-02 03:04:05\t@bob\thi", "2026-01-02 03:04:05\t@bob\thi",
           "2026-01-02 03:04:06\t *\tbob waves", "2026-01-02 03:04:06\t--\tNotice(bob) -> #a: a note",
           "2026-01-02 03:04:07\t<--\tbob (b@h) has quit (x)", "2026-01-02 03:04:07\t--\tMode #a [+o al] by bob",
           "2026-01-02T03:04:08.123456Z\tal\tnewer, in UTC", "2026-02-31 03:04:05\tal\ta day that there isn't")


@test
def a_log_of_weechat(fixture):
    """Times without a zone are those of the argument; newer versions write them in UTC."""
    it = Importer(fixture)
    server = file(fixture, "logs/irc.server.net.weechatlog", WEECHAT[0])
    ended = it.run("weechat", file(fixture, "logs/irc.net.#a.weechatlog", *WEECHAT), server, zone="Europe/Berlin")
    ended.expect(0, b"handed over: 5 messages of 1 conversation\nnot kept: 1 changes of modes, 1 joins, 1 lines that can't be read, 1 quits\n",
                 f"bnc-import: {server}: no conversation by its name, so it is left out\n".encode())
    winter = SECOND - HOUR
    expect("the page", [
        row("#a", winter, 0, "bob", "PRIVMSG #a :hi"), row("#a", winter, 1, "bob", "PRIVMSG #a :hi", 1),
        row("#a", winter + 1000, 0, "bob", "PRIVMSG #a :\x01ACTION waves\x01"),
        row("#a", winter + 1000, 1, "bob", "NOTICE #a :a note"), row("#a", SECOND + 3123, 0, "al", "PRIVMSG #a :newer, in UTC"),
    ], it.page("#a"))


@test
def the_hour_that_comes_twice(fixture):
    """In Berlin 02:30 came twice on 2025-10-26: first in summer, and an hour later in winter."""
    it = Importer(fixture)
    path = file(fixture, "net/#a/2025-10-26.log", "[02:30:00] <bob> summer", "[02:59:59] <bob> late", "[02:30:00] <bob> winter",
                "[03:00:00] <bob> three")
    it.hands_over("znc", path, zone="Europe/Berlin", says=["handed over: 4 messages of 1 conversation"])
    half = 1761438600000  # 2025-10-26T00:30:00Z
    expect("the page", [
        row("#a", half, 0, "bob", "PRIVMSG #a :summer"), row("#a", half + HOUR // 2 - 1000, 0, "bob", "PRIVMSG #a :late"),
        row("#a", half + HOUR, 0, "bob", "PRIVMSG #a :winter"), row("#a", half + HOUR * 3 // 2, 0, "bob", "PRIVMSG #a :three"),
    ], it.page("#a"))


@test
def a_line_that_is_too_long(fixture):
    """It becomes several messages, none of which ends within a letter, and none is too long for the node."""
    it = Importer(fixture)
    text = "é" * 300
    path = file(fixture, "net/#a/2026-01-02.log", f"[03:04:05] <bob> {text}", f"[03:04:05] * bob {text}")
    it.hands_over("znc", path, says=["handed over: 4 messages of 1 conversation"])
    said = [line.partition(" :")[2] for _, _, line in it.page("#a")]
    expect("the text", text, said[0] + said[1])
    described = [it.removeprefix("\x01ACTION ").removesuffix("\x01") for it in said[2:]]
    expect("what bob does", text, "".join(described))
    expect("whether each is an action", 2 * 9 + 600, sum(len(it.encode()) for it in said[2:]))


@test
def what_is_older_than_is_kept(fixture):
    """It is said how many messages the node lets go."""
    it = Importer(fixture, retain_days=30)
    today = time.strftime("%Y-%m-%d", time.gmtime())
    paths = [file(fixture, f"net/#a/{day}.log", "[00:00:00] <bob> hi") for day in ("2001-02-03", today)]
    it.hands_over("znc", *paths, says=[
        "handed over: 2 messages of 1 conversation",
        "`retain_days` is 30 here: the node lets go what is older, which is 1 of these"])


@test
def a_dry_run_hands_nothing_over(fixture):
    it = Importer(fixture)
    path = file(fixture, "net/#a/2026-01-02.log", *ZNC[:3])
    it.address = ["--dry-run"]
    it.hands_over("znc", path, says=["read, and nothing handed over: 2 messages of 1 conversation", "not kept: 1 joins"])
    expect("the page", [], it.page("#a"))


@test
def bytes_that_are_not_utf8(fixture):
    it = Importer(fixture)
    path = file(fixture, "net/#a/2026-01-02.log", "x")
    fixture.write(path, b"[03:04:05] <bob> caf\xe9\n")
    it.hands_over("znc", path, says=["handed over: 1 message of 1 conversation"])
    expect("the line", [":bob PRIVMSG #a :caf\udce9"], [line for _, _, line in it.page("#a")])


@test
def many_packets(fixture):
    """A node takes packet after packet."""
    it = Importer(fixture)
    lines = [f"[{at // 3600:02}:{at // 60 % 60:02}:{at % 60:02}] <bob> line {at}" for at in range(1_000)]
    path = file(fixture, "net/#a/2026-01-02.log", *lines)
    it.hands_over("znc", path, says=["handed over: 1000 messages of 1 conversation"])
    page = it.page("#a")
    expect("the last lines", [f":bob PRIVMSG #a :line {at}" for at in range(900, 1_000)], [line for _, _, line in page])


class Script:
    """Stands at a node's address: what the importer says is heard line by line."""

    def __init__(self, fixture, lines):
        self.fixture = fixture
        self.listener = Listener(fixture)
        node = Node(fixture, peers=[(NAME, NOBODY)], servers=[NOBODY])
        fixture.write("n1.toml", node.text().encode())
        path = file(fixture, "net/#a/2026-01-02.log", *(f"[00:00:00] <bob> {number}" for number in range(lines)))
        self.process = companions.start(
            fixture, "bnc-import", "--config", "n1.toml", "--account", "demo", "--network", "net", "--format", "znc", "--zone",
            "UTC", "--address", spelled(self.listener.address), path, stdin=None, stdout=-1, stderr=-1)

    def greeted(self):
        """The connection, once both sides said hello."""
        self.it = self.listener.accept("the node")
        self.it.hear("W green")
        found = re.fullmatch(rf"H 3 ({NAME} [1-9][0-9]*)", self.it.line("a hello"))
        if not found:
            raise Failed("no hello came")
        self.life = found[1]
        self.it.say("W green", "H 3 n1 7")
        return self.it

    def hear_packet(self, first, count):
        self.it.hear(f"D {self.life} n1 7 {first} {first + count} {count}")
        return [self.it.line("a change") for _ in range(count)]

    def end(self):
        output, errors = self.fixture.wait(self.process)
        return self.process.returncode, output, errors


@test
def each_packet_waits_for_the_one_before(fixture):
    """A packet has 256 changes at most, and comes once the one before is acknowledged. What the node sends meanwhile is
    acknowledged, so that the node doesn't close the connection."""
    script = Script(fixture, MOST_OF_PACKET + 2)
    it = script.greeted()
    first = script.hear_packet(0, MOST_OF_PACKET)
    it.say(f"D n1 7 {script.life} 3 9 1", "C MARK demo net #a 1001")
    it.hear(f"A {script.life} n1 7 9")
    it.say("H 3 n1 7", f"A n1 7 {script.life} 0")
    it.say(f"D n1 7 {script.life} 9 10 1", "C MARK demo net #a 1002")
    it.hear(f"A {script.life} n1 7 10")
    it.say(f"A n1 7 {script.life} {MOST_OF_PACKET}")
    second = script.hear_packet(MOST_OF_PACKET, 2)
    expect("whether it has ended before all is acknowledged", None, script.process.poll())
    it.say(f"A n1 7 {script.life} {MOST_OF_PACKET + 2}")
    expect("the end", (0, b"handed over: 258 messages of 1 conversation\n", b""), script.end())
    expect("the texts", [str(number) for number in range(MOST_OF_PACKET + 2)], [line.partition(" :")[2] for line in first + second])


@test
def a_node_that_closes_the_connection(fixture):
    """What wasn't acknowledged wasn't handed over, which is a failure."""
    script = Script(fixture, 1)
    it = script.greeted()
    script.hear_packet(0, 1)
    it.close()
    wanted = b"bnc-import: the node closed the connection: its log says why, beside `peer refused` or `peer down`\n"
    expect("the end", (4, b"", wanted), script.end())


@test
def a_log_of_irssi_in_another_language(fixture):
    """Its days can't be read, so none of it is handed over by a guess."""
    it = Importer(fixture)
    path = file(fixture, "net/#a.log", "--- Log opened Fr Jan 02 03:04:05 2026", "03:04 <bob> hi", "--- Day changed Di Mai 05 2026",
                "03:04 <bob> later")
    ended = it.run("irssi", path)
    ended.expect(4, b"", f"bnc-import: {path}: no day in English can be read in '--- Day changed Di Mai 05 2026'\n".encode())


def refused(name, words, wanted):
    """A test of words, or of a configuration, with which nothing can be handed over."""

    def call(fixture):
        node = Node(fixture, peers=[(NAME, NOBODY)], servers=[NOBODY])
        fixture.write("n1.toml", node.text().encode())
        path = file(fixture, "net/#a/2026-01-02.log", *ZNC[:3])
        given = {"--config": "n1.toml", "--account": "demo", "--network": "net", "--format": "znc", "--zone": "UTC", **words}
        ended = companions.run(fixture, "bnc-import", *(word for pair in given.items() for word in pair), path)
        ended.expect(4, b"", f"bnc-import: {wanted}\n".encode())

    add(f"importing: {name}", call)


refused("a node that isn't there", {"--address": "127.0.0.1:1"}, "can't reach the node at 127.0.0.1, port 1: connection refused")
refused("a network that isn't there", {"--network": "other"}, "n1.toml has no network demo/other")
refused("a peer that isn't there", {"--name": "1import"},
        "n1.toml has no [[peer]] with the name 1import: put it in, and restart the node")
refused("a zone that isn't there", {"--zone": "Mars/Base", "--address": "127.0.0.1:1"},
        "there is no zone Mars/Base; one is Europe/Berlin, or UTC")


@test
def a_node_that_does_not_know_the_peer(fixture):
    """Its configuration has the peer, and it wasn't restarted since."""
    node = Node(fixture, peers=[("n0", NOBODY)], servers=[NOBODY]).begin()
    node.known = [(NAME, NOBODY)]
    fixture.write("n1.toml", node.text().encode())
    path = file(fixture, "net/#a/2026-01-02.log", *ZNC[:3])
    ended = companions.run(fixture, "bnc-import", "--config", "n1.toml", "--account", "demo", "--network", "net", "--format", "znc",
                           "--zone", "UTC", path)
    ended.expect(4, b"", b"bnc-import: the node closed the connection: its log says why, beside `peer refused` or `peer down`\n")
    node.wait_for("peer refused: 127.0.0.1:")
