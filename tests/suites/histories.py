"""The scripts of examples/clients show whatever a client missed, each message once (docs/CLIENTS.md, "Scripts"). The clients
are stood in for (harness/weechat.py, harness/irssi_script.py), the node is a real one, and its peer hands it what other nodes
heard."""

import os
import time

from harness.chatting import NOW
from harness.client import Client
from harness.failure import expect
from harness.irssi_script import Irssi
from harness.node import Node
from harness.peer import Peer
from harness.registry import add
from harness.server import Server
from harness.weechat import WeeChat

CLIENTS = os.path.join(os.path.dirname(os.path.dirname(os.path.dirname(os.path.abspath(__file__)))), "examples", "clients")
SCRIPTS = ((WeeChat, "bnc_history.py"), (Irssi, "bnc_history.pl"))
NOBODY = ("127.0.0.1", 1)
MINUTE, HOUR = 60_000, 3_600_000
# The most changes of a packet.
PACKET = 256


def time_of(moment):
    """The time of a moment of the day of the tests, 2026-06-01 at noon, and of two days before and behind it."""
    hours, rest = divmod(moment - NOW + 60 * HOUR, HOUR)
    day = ("2026-05-30", "2026-05-31", "2026-06-01", "2026-06-02", "2026-06-03")[hours // 24]
    return f"{day}T{hours % 24:02}:{rest // MINUTE:02}:{rest // 1000 % 60:02}.{rest % 1000:03}Z"


def post(target, name, moment, text, nick="bob", to=None):
    """A change: what another node heard."""
    return f"C POST demo net {target} {name} {moment} P {to or target} {nick}!{nick[0]}@h :{text}"


class Network:
    """A node, its server, and a peer that stands for all other nodes of the cluster."""

    def __init__(self, fixture):
        self.fixture, self.server = fixture, Server(fixture)
        self.node = Node(fixture, servers=[self.server.address], peers=[("n0", NOBODY)], channels=("#a",)).begin()
        self.session = self.server.register(channels=("#a",))
        self.peer, self.given = Peer.dial(self.node).greet(), 0
        # what clients asked the server
        self.asked = []

    def hear_elsewhere(self, *changes):
        """The other nodes heard these, and the node has them now."""
        for begin in range(0, len(changes), PACKET):
            part = changes[begin:begin + PACKET]
            self.peer.give(self.given, *part)
            self.given += len(part)
            while self.peer.line("an acknowledgement") != f"A {self.peer.other} {self.peer.life} {self.given}":
                pass

    def hear(self, target, name, moment, text, nick="bob"):
        """The node's own server says this, now."""
        self.say(f"@msgid={name};time={time_of(moment)} :{nick}!{nick[0]}@h PRIVMSG {target} :{text}")

    def say(self, line):
        """The node's own server says this, and the node has taken it, and whatever clients said before."""
        self.session.say(line, "PING :settled")
        while True:
            heard = self.session.line("PONG :settled")
            if heard == "PONG :settled":
                return
            self.asked.append(heard)

    def client(self, kind, script, name="a client", clock=NOW):
        """A client with a script, which keeps its file in the test's folder."""
        return kind(os.path.join(CLIENTS, script), self.fixture.folder, Client(self.fixture, self.node.clients, name), clock)


def for_each_script(what):
    """Has a test run with each of the scripts."""

    def take(call):
        for kind, script in SCRIPTS:
            add(f"histories: {script}: {what}", lambda fixture, kind=kind, script=script: call(
                Network(fixture), lambda network, *words, **how: network.client(kind, script, *words, **how)))
        return call

    return take


@for_each_script("all of 150 missed lines, and not again by the next client")
def shows_all_that_was_missed(network, client):
    """More than a page, in a channel and in private; and what is asked for as a client attaches. The state is kept in a file."""
    lines = [f"line {n}" for n in range(150)]
    network.hear_elsewhere(*(post("#a", f"m{n:03}", NOW - 2 * HOUR + n, text) for n, text in enumerate(lines)),
                           post("bob", "p1", NOW - HOUR, "psst", to="al"))
    first = client(network).attach()
    first.expect("#a", *lines)
    first.expect("bob", "psst")
    network.say("PING :now")
    expect("what is asked of the channel", ["NAMES #a", "TOPIC #a", "PONG :now"], network.asked)
    first.minutes(3).expect("#a", *lines)
    first.disconnected()
    first.client.close()
    network.hear_elsewhere(post("#a", "m200", NOW, "later"))
    second = client(network, "the next client").attach()
    second.expect("#a", "later")
    second.expect("bob")


@for_each_script("250 conversations, of which many end at one moment")
def shows_each_conversation(network, client):
    """Three pages of conversations; at the end of each page there are more of the last one's moment."""
    names = [f"friend{n:03}" for n in range(250)]
    network.hear_elsewhere(*(post(nick, f"m{n:03}", NOW - HOUR + n // 7, f"from {nick}", nick, "al")
                             for n, nick in enumerate(names)))
    it = client(network).attach()
    for nick in names:
        it.expect(nick, f"from {nick}")
    asked = [line for line in it.sent if line.startswith("CHATHISTORY TARGETS ")]
    expect("the end of each window", {"timestamp=9999-12-31T23:59:59.999Z"}, {line.split(" ")[3] for line in asked})


@for_each_script("conversations of one moment, more than a page has")
def goes_past_a_crowd(network, client):
    """The protocol lists 100 conversations of one moment and no more. Those that are known are asked for all the same, and so is
    whatever comes later."""
    names = [f"friend{n:03}" for n in range(150)]
    network.hear_elsewhere(*(post(nick, f"m{n:03}", NOW - HOUR + n, f"first from {nick}", nick, "al")
                             for n, nick in enumerate(names)))
    it = client(network).attach()
    network.hear_elsewhere(*(post(nick, f"n{n:03}", NOW, f"then from {nick}", nick, "al") for n, nick in enumerate(names)),
                           post("carol", "late", NOW + 1, "hello", "carol", "al"))
    it.minutes(1)
    for nick in names:
        it.expect(nick, f"first from {nick}", f"then from {nick}")
    it.expect("carol", "hello")


@for_each_script("40 messages of one moment across the end of a page")
def shows_messages_of_one_moment(network, client):
    lines = [f"line {n:03}" for n in range(200)]
    moments = [NOW - HOUR + min(n, 80) + max(n - 120, 0) for n in range(200)]
    network.hear_elsewhere(*(post("#a", f"m{n:03}", moment, text) for n, (moment, text) in enumerate(zip(moments, lines))))
    client(network).attach().expect("#a", *lines)


@for_each_script("lines that come before the script holds its capabilities")
def shows_early_lines_once(network, client):
    """They come as they are said, and stand on a page too. irssi sees no ids by then."""
    it = client(network)
    say = it.say

    def say_behind_lines(line):
        if line.startswith("CAP REQ "):
            network.hear("#a", "m1", NOW, "hi")
            network.hear("#a", "m2", NOW, "hi", "eve")
            network.hear("al", "m3", NOW, "psst")
        say(line)

    it.say = say_behind_lines
    it.attach().minutes(1).expect("#a", "hi", "hi")
    it.expect("bob", "psst")


@for_each_script("a message that is let go while its conversation is paged")
def goes_on_behind_a_floor(network, client):
    """The second page would begin after its id, which the node refuses. What is left is shown."""
    lines = [f"line {n:03}" for n in range(150)]
    network.hear_elsewhere(*(post("#a", f"m{n:03}", NOW - HOUR + n, text) for n, text in enumerate(lines)))
    it = client(network)
    say = it.say

    def say_behind_a_floor(line):
        if line == "CHATHISTORY AFTER #a msgid=m099 100":
            network.hear_elsewhere(f"C FLOOR demo net #a {NOW - HOUR + 120}")
        say(line)

    it.say = say_behind_a_floor
    it.attach().expect("#a", *lines[:100], *lines[120:])
    expect("the question that was refused", 1, it.sent.count("CHATHISTORY AFTER #a msgid=m099 100"))


@for_each_script("a question that is never answered")
def asks_once_more(network, client):
    """It is asked anew, with the whole window of then."""
    network.hear_elsewhere(post("#a", "m1", NOW - 40 * HOUR, "hi"))
    it = client(network).attach()
    say, lost = it.say, []

    def lose_the_first(line):
        if line.startswith("CHATHISTORY ") and not lost:
            lost.append(line)
        else:
            say(line)

    it.say = lose_the_first
    it.command("2d")
    it.expect("#a")
    it.minutes(2).expect("#a", "hi")


@for_each_script("a node that was cut off from the others for an hour while the client sat at it")
def shows_the_hour_of_the_others(network, client):
    """Its own network went on, so the last asking is now. What others heard shows within a minute where it is at most ten minutes
    old, and within an hour where it is older: each in its place, or marked as late."""
    it = client(network, clock=NOW - HOUR).attach()
    for minute in range(60):
        network.hear("#a", f"own{minute:02}", NOW - HOUR + minute * MINUTE, f"heard {minute:02}")
        it.settle().minutes(1)
    network.hear_elsewhere(*(post("#a", f"other{n:02}", NOW - HOUR + n * MINUTE + 1, f"other {n:02}") for n in range(60)))
    it.minutes(1)
    texts = it.texts("#a")
    expect("what others heard", [f"other {n:02}" for n in range(49, 60)], [it for it in texts if it.startswith("other")])
    expect("what is in its place", sorted(texts, key=lambda text: text.split(" ")[1]), texts)
    it.minutes(60)
    both = [text for n in range(60) for text in (f"heard {n:02}", f"other {n:02}")]
    it.expect("#a", *both)


@for_each_script("a node that heard nothing for an hour while the client sat at it")
def shows_the_hour_of_silence(network, client):
    """No line came over the connection, so the last asking is an hour ago, and the next minute shows all of it."""
    it = client(network, clock=NOW - HOUR).attach()
    network.hear("#a", "before", NOW - HOUR, "before")
    it.settle().minutes(59)
    network.hear_elsewhere(*(post("#a", f"other{n:02}", NOW - HOUR + n * MINUTE + 1, f"other {n:02}") for n in range(60)))
    it.minutes(1).expect("#a", "before", *(f"other {n:02}" for n in range(60)))


def wrong_clock(hours):
    def call(network, client):
        it = client(network, clock=NOW + hours * HOUR).attach()
        network.hear("#a", "m1", NOW, "hi")
        it.settle().minutes(2)
        network.hear("#a", "m3", NOW + 2 * MINUTE, "and on")
        it.settle()
        network.hear_elsewhere(post("#a", "m2", NOW - 7 * MINUTE, "a little before"),
                               post("carol", "m0", NOW - 6 * MINUTE, "are you there?", "carol", "al2"))
        it.minutes(1).expect("#a", "a little before", "hi", "and on")
        it.expect("carol", "are you there?")
        # (and with nothing that came)
        network.hear_elsewhere(post("carol", "m4", NOW + 2 * MINUTE, "hm", "carol", "al2"))
        it.minutes(1).expect("carol", "are you there?", "hm")

    return call


for _hours, _words in ((1, "an hour ahead"), (-1, "an hour behind"), (24 * 400, "a year ahead"), (-24 * 400, "a year behind")):
    for_each_script(f"a client whose clock is {_words}")(wrong_clock(_hours))


@for_each_script("a line that bears a time to come hides nothing")
def trusts_no_time_to_come(network, client):
    it = client(network).attach()
    network.hear("al", "far", NOW + 40 * HOUR, "from the future", "carol")
    it.settle().minutes(2)
    network.hear_elsewhere(post("#a", "m1", NOW - MINUTE, "now"))
    it.minutes(1).expect("#a", "now")
    it.disconnected()
    it.client.close()
    network.hear_elsewhere(post("#a", "m2", NOW + HOUR, "while it was away"))
    client(network, "three days later", clock=NOW + 72 * HOUR).attach().expect("#a", "while it was away")


@for_each_script("a client whose clock was ahead and is set right")
def takes_a_clock_that_is_set_back(network, client):
    """A line that bore a time to come was then thought to be of now."""
    it = client(network, clock=NOW + 24 * HOUR).attach()
    network.hear("al", "far", NOW + 10 * HOUR, "from the future", "carol")
    it.settle().minutes(2)
    it.clock = NOW
    network.hear_elsewhere(post("#a", "m1", NOW - MINUTE, "now"))
    it.minutes(1).expect("#a", "now")


@for_each_script("what was written to the nick of another node")
def shows_what_another_node_was_told(network, client):
    """And meanwhile a channel goes on."""
    it = client(network).attach()
    network.hear_elsewhere(post("carol", "c1", NOW, "hello", "carol", "al2"))
    network.hear("#a", "m1", NOW + 5000, "on it goes")
    it.settle().minutes(1).expect("carol", "hello")


@for_each_script("one's own lines of another node stand in their conversation, and highlight nothing")
def files_own_lines(network, client):
    it = client(network).attach()
    network.hear_elsewhere(post("carol", "c1", NOW, "hello", "carol", "al2"), post("carol", "c2", NOW + 1, "hi carol", "al2"),
                           post("#a", "a1", NOW + 2, "al: to myself", "al2"), post("#a", "a2", NOW + 3, "al: to you", "bob"))
    network.hear_elsewhere(f"C POST demo net carol c3 {NOW + 4} N carol al2!a@h :a notice")
    it.minutes(1).expect("carol", "hello", "hi carol", "a notice")
    it.expect("al2")
    expect("whose", [False, True, True], [line.is_own for line in it.lines("carol")])
    looks = {text: it.line_of(window, text).is_highlight for window, text in (
        ("carol", "hello"), ("carol", "hi carol"), ("#a", "al: to myself"), ("#a", "al: to you"))}
    expect("what catches the eye", {"hello": True, "hi carol": False, "al: to myself": False, "al: to you": True}, looks)


@for_each_script("own nicks that are set")
def takes_own_nicks(network, client):
    """Where none are set, they are the own one with other digits; else just those, in any case."""
    for turn, (nicks, wanted) in enumerate((("", [False, True, True]), ("AL_work else", [True, False, False]))):
        network.hear_elsewhere(*(post("#a", f"{nick}{turn}", NOW, f"al: {nick} {nicks}", nick)
                                 for nick in ("al2", "al_work", "else")))
        it = client(network, f"a client with {nicks}")
        it.set_own_nicks(nicks)
        it.attach()
        found = [it.line_of("#a", f"al: {nick} {nicks}").is_highlight for nick in ("al2", "al_work", "else")]
        expect(f"what catches the eye with {nicks!r}", wanted, found)
        it.disconnected()


@for_each_script("what is typed here isn't shown again, and the same words of another device are")
def shows_typed_lines_once(network, client):
    now = int(time.time() * 1000)
    it = client(network, clock=now).attach()
    it.type("#a", "ok").type("#a", "fine").type("carol", "psst").minutes(2)
    typed = (("#a", "ok"), ("#a", "fine"), ("carol", "psst"))
    expect("how often they are shown", [1, 1, 1], [it.texts(window).count(text) for window, text in typed])
    network.hear_elsewhere(post("#a", "again", now + MINUTE, "ok", "al"))
    it.minutes(1)
    expect("with those of another device", 2, it.texts("#a").count("ok"))


@for_each_script("a channel that is joined again")
def asks_as_it_joins_again(network, client):
    """What other nodes heard there meanwhile, however long ago it was left."""
    it = client(network, clock=NOW - 30 * HOUR).attach()
    network.hear("#a", "m1", NOW - 30 * HOUR, "before")
    it.settle().minutes(2)
    network.hear("bob", "p1", NOW, "elsewhere")
    it.clock = NOW
    it.settle().minutes(2)
    network.hear_elsewhere(post("#a", "m2", NOW - 29 * HOUR, "between"))
    it.minutes(1).expect("#a", "before")
    network.say(":al!al@h JOIN #a")
    it.settle().expect("#a", "before", "between")


@for_each_script("as far back as wanted")
def goes_back_as_wanted(network, client):
    network.hear_elsewhere(post("#a", "m1", NOW - 47 * HOUR, "two days ago"), post("#a", "m2", NOW - HOUR, "an hour ago"))
    it = client(network).attach()
    it.expect("#a", "an hour ago")
    for words, texts in (("30h", ["an hour ago"]), ("2d", ["two days ago", "an hour ago"])):
        it.command(words)
        it.expect("#a", *texts)
    network.hear_elsewhere(post("#a", "m0", NOW - 49 * HOUR, "before"))
    it.command("2026-05-30")
    it.expect("#a", "before", "two days ago", "an hour ago")


@for_each_script("read markers of a conversation that is left")
def sets_markers(network, client):
    """As a window is left, the other devices hear how far it was read. What the script takes of the protocol isn't shown."""
    network.hear("#a", "m1", NOW, "hi")
    other = Client(network.fixture, network.node.clients, "a phone").register("draft/read-marker message-tags", channels=("#a",))
    it = client(network).attach()
    it.leave("#a")
    other.hear(f":bnc.example MARKREAD #a timestamp={time_of(NOW)}")
    it.settle().read.clear()
    other.say(f"MARKREAD #a timestamp={time_of(NOW + 1)}")
    other.hear(f":bnc.example MARKREAD #a timestamp={time_of(NOW + 1)}")
    # (the client is at the other worker, which is told of it by a mail)
    network.fixture.until("the client hears of it", lambda: it.settle().read)
    expect("windows that another device has read to the end", ["#a"], it.read)
    expect("what the script takes and yet is shown", [], it.raw)
