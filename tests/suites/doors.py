"""bnc-door: one session with a network for all nodes (companions/README.md; companions/bnc-door.1)."""

import os
import re
import time

from harness.client import login
from harness.clocks import Clocks
from harness.service import FOLDER, Service, certificate
from harness.connection import Connection, connect, spelled
from harness.failure import Failed, expect
from harness.line import Line
from harness.networks import TlsConnection, TlsServer, client_context
from harness.node import Node
from harness.readable import readable
from harness.registry import add, test
from harness.server import Server

GIVEN = "echo-message message-tags server-time"
# An id and a time that a door gives.
STAMP = r"@msgid=(\S+?);time=\d{4}-\d\d-\d\dT\d\d:\d\d:\d\d\.\d{3}Z"
PAST = "batch draft/chathistory echo-message message-tags server-time"
# A burst of five lines, then a line each 0.7 seconds.
BURST, PACE = 5, 0.7
# What came within so many seconds before a door in reserve left is held.
HELD = 3


def settings(server, name="door1", channels=(), more=""):
    """The configuration of a door whose network is at the server's address."""
    names = ", ".join(f'"{it}"' for it in channels)
    tls = "" if isinstance(server, TlsServer) else "tls = false\n"
    host = f"localhost:{server.address[1]}"
    return (f'name = "{name}"\n[nodes]\nlisten = "{{listen}}"\n'
            f'[network]\nservers = ["{host}"]\n{tls}nick = "al"\nchannels = [{names}]\n{more}')


def door(fixture, server, name="door1", **how):
    """A door that is being started."""
    return Service(fixture, "bnc-door", settings(server, name, **how), name).begin()


def welcome(session, *lines, nick="al"):
    """The network lets the door in, which then says these lines."""
    session.say(f":irc.example 001 {nick} :Welcome")
    session.hear(*lines)


def network(fixture, offers="", channels=("#a",), **how):
    """A server, a door at it, and the door's session, which is in the channels."""
    server = Server(fixture)
    it = door(fixture, server, channels=channels, **how)
    session = server.greeted()
    server.offer(session, offers)
    welcome(session, *([f"JOIN {','.join(channels)}"] if channels else []))
    for channel in channels:
        session.say(f":al!al@host JOIN {channel}")
    return server, it, session


class Attached(Connection):
    """What stands in for a node at a door: it says what a node says, and hears what a node hears."""

    def __init__(self, fixture, address, name="a node", room=None):
        super().__init__(fixture, connect(fixture, address, room), name)

    def register(self, channels=("#a",), nick="al", by="door1", mask="al!al@host", given=GIVEN):
        self.say("CAP LS 302", "NICK other", "USER other 0 * :other")
        self.hear(f":{by} CAP * LS :{given}")
        self.say(f"CAP REQ :{given}")
        self.hear(f":{by} CAP * ACK :{given}")
        self.say("CAP END")
        self.hear(f":{by} 001 {nick} :Welcome", *(f":{mask} JOIN {it}" for it in channels))
        return self

    def settled(self):
        """Hears nothing but PINGs, which a node answers, before its own is answered."""
        self.say("PING :settled")
        self.heard(r":\S+ PONG \S+ :settled")

    def heard(self, wanted):
        """The next line that is no PING, which has to match, and what matched."""
        while True:
            line = self.line(wanted)
            if line.startswith("PING :"):
                self.say(f"PONG {line[5:]}")
                continue
            found = re.fullmatch(wanted, line)
            if not found:
                raise Failed(f"{self.name}: expected {wanted!r}, came {line!r}")
            return found


def settled(session, *meanwhile):
    """The network asks whether the door is there, and hears its answer, before which these lines may come."""
    session.say("PING :settled")
    while True:
        line = session.line("PONG :settled")
        if line == "PONG :settled":
            return
        if line not in meanwhile:
            raise Failed(f"expected PONG :settled, came {line!r}")


def attached(fixture, it, session, name="a node", channels=("#a",)):
    """A node at the door. The door asks for the members of its channels."""
    node = Attached(fixture, it.address, name).register(channels)
    for channel in channels:
        session.hear(f"NAMES {channel}")
        session.say(f":irc.example 353 al = {channel} :al bob", f":irc.example 366 al {channel} :End of /NAMES list")
        node.heard(f":irc.example 353 al = {channel} :al bob")
        node.heard(f":irc.example 366 al {channel} :End of /NAMES list")
    return node


# -- with nodes


@test
def three_nodes_are_one_user_and_each_line_stands_once(fixture):
    """Over a network that has neither ids, nor times, nor echoes: a message to a channel, a private one, and one's own."""
    _, it, session = network(fixture, channels=())
    nodes = [Node(fixture, f"n{number}", servers=[it.address], channels=["#a"]) for number in (1, 2, 3)]
    for node in nodes:
        node.known = [(other.name, other.peers) for other in nodes if other is not node]
    for node in nodes:
        node.begin()
        node.wait_for("upstream up: demo/net as al")
    # (all three ask for the channel, and the network is asked once)
    session.hear("JOIN #a")
    session.say(":al!al@host JOIN #a")
    clients = [node.client(f"a client of {node.name}") for node in nodes]
    for client, node in zip(clients, nodes):
        fixture.until("each node is in the channel", lambda: is_in_channel(node, "#a"))
        client.register(PAST, channels=("#a",))
    said = (":bob!b@h PRIVMSG #a :to all", ":bob!b@h PRIVMSG al :in private", ":al!al@host PRIVMSG #a :from one node")
    session.say(*said[:2])
    told = [[client.line(wanted) for wanted in said[:2]] for client in clients]
    # (what the network said is with all of them before one of them speaks, so the order of the three is known)
    clients[0].say("PRIVMSG #a :from one node")
    session.hear("PRIVMSG #a :from one node")
    for client, lines in zip(clients, told):
        lines.append(client.line(said[2]))
    for lines in told:
        expect("what a client is told, with its tags", told[0], lines)
        expect("what a client is told", list(said), [line.partition(" ")[2] for line in lines])
        for line in lines:
            if not re.match(STAMP + " ", line):
                raise Failed(f"a message without an id and a time: {line!r}")
    for client in clients:
        pages = {target: client.ask(f"CHATHISTORY LATEST {target} * 10") for target in ("#a", "bob")}
        expect("the channel's page", [said[0], said[2]], [line.partition(" ")[2] for line in pages["#a"]])
        expect("the page of the private conversation", [said[1]], [line.partition(" ")[2] for line in pages["bob"]])


def looks(node, *words):
    """What a client of the node hears that says these words and leaves."""
    it, lines = node.client("a client that looks"), []
    it.say(f"CAP REQ :{PAST}", *login(), "CAP END", *words, "PING :x")
    while not lines or " PONG " not in lines[-1]:
        lines.append(it.line())
    it.close()
    return lines


def is_in_channel(node, channel):
    """Whether a client of the node would be told that it is in the channel."""
    return f":al JOIN {channel}" in looks(node)


def page_of(node, channel):
    """What a client of the node is shown of the channel's past, whatever comes meanwhile."""
    return [line.partition(" ")[2] for line in looks(node, f"CHATHISTORY LATEST {channel} * 5") if line.startswith("@batch=")]


@test
def ids_times_and_tags_of_the_network_stay(fixture):
    """Where the network gives them, a door makes none; client-only tags pass both ways, and an echo is the network's own."""
    _, it, session = network(fixture, GIVEN)
    node = attached(fixture, it, session)
    session.say("@time=2026-01-02T03:04:05.678Z;msgid=m1;account=bob;+draft/reply=m0 :bob!b@h PRIVMSG #a :hi")
    node.heard(re.escape("@msgid=m1;time=2026-01-02T03:04:05.678Z;+draft/reply=m0 :bob!b@h PRIVMSG #a :hi"))
    node.say("@+draft/reply=m1;label=x PRIVMSG #a :an answer", "@+typing=active TAGMSG #a")
    session.hear("@+draft/reply=m1 PRIVMSG #a :an answer", "@+typing=active TAGMSG #a")
    session.say("@msgid=m2;time=2026-01-02T03:04:06.000Z;+draft/reply=m1 :al!al@host PRIVMSG #a :an answer",
                "@msgid=m3;+typing=active :bob!b@h TAGMSG #a")
    node.heard(re.escape("@msgid=m2;time=2026-01-02T03:04:06.000Z;+draft/reply=m1 :al!al@host PRIVMSG #a :an answer"))
    node.heard(re.escape("@+typing=active :bob!b@h TAGMSG #a"))
    # (each node would make an id or a time of its own in place of these)
    session.say(f"@msgid={'x' * 256};time=yesterday :bob!b@h PRIVMSG #a :odd")
    found = node.heard(f"{STAMP} :bob!b@h PRIVMSG #a :odd")
    expect("an id of the door", "door1-", found[1][:6])


@test
def a_redaction_goes_where_the_network_has_them(fixture):
    """`draft/message-redaction` is given to nodes where the network gives it to the door."""
    offers = "draft/message-redaction echo-message message-tags server-time"
    _, it, session = network(fixture, offers, channels=())
    node = Attached(fixture, it.address).register((), given=offers)
    node.say("REDACT #a m1 :spam")
    session.hear("REDACT #a m1 :spam")
    session.say(":al!al@host REDACT #a m1 :spam")
    node.heard(f"{STAMP} :al!al@host REDACT #a m1 :spam")


@test
def an_echo_is_what_others_see(fixture):
    """Where the network sends none, the door does as the line goes out: to each target, and no longer than a line may be."""
    _, it, session = network(fixture)
    node = attached(fixture, it, session)
    front = ":al!al@host PRIVMSG #a :"
    fits = "x" * (509 - len(front))
    node.say("NOTICE #a,bob :psst", f"PRIVMSG #a :{fits}é")
    session.hear("NOTICE #a,bob :psst", f"PRIVMSG #a :{fits}é")
    node.heard(f"{STAMP} :al!al@host NOTICE #a :psst")
    node.heard(f"{STAMP} :al!al@host NOTICE bob :psst")
    # (a byte is left, and the letter has two)
    node.heard(f"{STAMP} {front}{fits}")


@test
def numerics_go_to_who_asked(fixture):
    """Two nodes ask at once. What nobody asked for goes to both."""
    _, it, session = network(fixture)
    one, two = attached(fixture, it, session, "one node"), attached(fixture, it, session, "another node")
    one.say("WHOIS bob")
    session.hear("WHOIS bob")
    two.say("WHOIS carol", "MODE #a", "FROB", "NICK bob")
    session.hear("WHOIS carol", "MODE #a", "FROB", "NICK bob")
    session.say(":irc.example 311 al bob b h * :Bob", ":irc.example 318 al bob :End of /WHOIS list",
                ":irc.example 401 al carol :No such nick/channel", ":irc.example 318 al carol :End of /WHOIS list",
                ":irc.example 324 al #a +n", ":irc.example 421 al FROB :Unknown command",
                ":irc.example 433 al bob :Nickname is already in use", ":irc.example 306 al :marked as away")
    for line in ("311 al bob b h [*] :Bob", "318 al bob :.*", "306 al :.*"):
        one.heard(f":irc.example {line}")
    for line in ("401 al carol :.*", "318 al carol :.*", "324 al #a [+]n", "421 al FROB :.*", "433 al bob :.*", "306 al :.*"):
        two.heard(f":irc.example {line}")


@test
def what_no_node_had_is_told_to_the_next(fixture):
    """And once only: what a node has taken isn't told again."""
    _, it, session = network(fixture)
    session.say(":bob!b@h PRIVMSG #a :nobody is here", "PING :heard")
    session.hear("PONG :heard")
    first = Attached(fixture, it.address, "the first node").register()
    told = first.heard(f"{STAMP} :bob!b@h PRIVMSG #a :nobody is here")
    # (the door asks whether the node has it, and it says so)
    first.settled()
    first.settled()
    second = Attached(fixture, it.address, "the second node").register()
    second.settled()
    first.close()
    second.close()
    fixture.until("both are out", lambda: sum(" node out: " in line for line in it.log()) == 2)
    session.say(":bob!b@h PRIVMSG #a :gone again")
    # (each node wanted to know who is there, and the door asks once or twice, when it may)
    settled(session, "NAMES #a")
    third = Attached(fixture, it.address, "the third node").register()
    if told[1] >= third.heard(f"{STAMP} :bob!b@h PRIVMSG #a :gone again")[1]:
        raise Failed("ids that were made one after another aren't ordered so")


# -- what goes to the network


@test
def nothing_floods_the_network(fixture):
    """A burst of five, then a line each 0.7 seconds; a PONG comes before all else, and a node's line isn't kept waiting by
    another's hundred."""
    _, it, session = network(fixture)
    one, two = attached(fixture, it, session, "one node"), attached(fixture, it, session, "another node")
    time.sleep(BURST * PACE)
    begun = time.monotonic()
    one.say(*(f"PRIVMSG bob :{number}" for number in range(100)))
    lines = [session.line() for _ in range(BURST)]
    took = time.monotonic() - begun
    expect(f"the burst goes out at once, and took {took:.2f} seconds", True, took < (BURST - 1) * PACE)
    two.say("PRIVMSG bob :mine")
    session.say("PING :now")
    while lines[-1] != "PONG :now":
        lines.append(session.line())
    # (what is due by then may come before it)
    before, due = len(lines) - 1 - BURST, int((time.monotonic() - begun) / PACE) + 1
    expect(f"a PONG goes out before what waits, and {before} lines came before it", True, before <= due)
    lines += [session.line() for _ in range(4)]
    took, least = time.monotonic() - begun, (len(lines) - BURST) * PACE
    expect(f"{len(lines)} lines take {least:.1f} seconds at least, and took {took:.2f}", True, took > least - 0.2)
    lines.remove("PONG :now")
    expect("the other node's line goes in turn", True, lines.index("PRIVMSG bob :mine") <= BURST + due + 1)
    lines.remove("PRIVMSG bob :mine")
    expect("what the one node said", [f"PRIVMSG bob :{number}" for number in range(len(lines))], lines)


@test
def too_many_lines_are_refused_to_who_sent_them(fixture):
    """200 lines of a node wait at most. It is told of each further one."""
    _, it, session = network(fixture, GIVEN)
    one, begun = attached(fixture, it, session), time.monotonic()
    one.say(*(f"PRIVMSG bob :{number}" for number in range(220)))
    one.say("PING :after")
    refused = 0
    while one.heard(":door1 (263 al PRIVMSG :Not sent, since too many lines wait .*|PONG door1 :after)")[1][:3] == "263":
        refused += 1
    # (a burst of five went out meanwhile, or less of it, and what was due since)
    least = 15 - int((time.monotonic() - begun) / PACE)
    expect(f"of 220 lines {least} to 20 are refused, and {refused} were", True, least <= refused <= 20)


# -- the network


@test
def the_nick_is_regained(fixture):
    """Where it is taken another one is used, and the wanted one as soon as its owner leaves."""
    server = Server(fixture)
    it = door(fixture, server)
    session = server.greeted()
    session.say(":irc.example 433 * al :Nickname is already in use")
    session.hear("NICK al_")
    session.say(":irc.example CAP * LS :")
    session.hear("CAP END")
    welcome(session, nick="al_")
    it.wait_for(f"network up: localhost:{server.address[1]} as al_")
    node = Attached(fixture, it.address).register((), nick="al_")
    session.say(":al!x@h QUIT :gone")
    session.hear("NICK al")
    node.heard(":al!x@h QUIT :gone")
    session.say(":al_!al@host NICK al")
    node.heard(":al_!al@host NICK al")
    # (another nick that a node asks for, and gets, isn't taken back)
    node.say("NICK alfred")
    session.hear("NICK alfred")
    session.say(":al!al@host NICK :alfred", ":al!x@h QUIT :gone", "PING :x")
    session.hear("PONG :x")
    node.say("PRIVMSG bob :next")
    session.hear("PRIVMSG bob :next")


@test
def channels_have_keys(fixture):
    """Those of the configuration, and those that a node gives; a channel that refuses is named to the operator."""
    server = Server(fixture)
    it = door(fixture, server, channels=("#open", "#k sesame"))
    session = server.greeted()
    session.say(":irc.example CAP * LS :")
    session.hear("CAP END")
    welcome(session, "JOIN #k,#open sesame")
    session.say(":al!al@host JOIN #open", ":irc.example 475 al #k :Cannot join channel (+k)")
    it.wait_for("channel refused: #k: Cannot join channel (+k)")
    node = Attached(fixture, it.address).register(("#open",))
    session.hear("NAMES #open")
    node.say("JOIN #open,#k,#own x,y,z")
    session.hear("JOIN #k y", "JOIN #own z")
    session.say(":irc.example 475 al #own :Cannot join channel (+k)")
    node.heard(":irc.example 475 al #own :.*")
    if "sesame" in "".join(it.log()):
        raise Failed("a channel's key stands in the log")


@test
def it_logs_in_by_sasl_plain_over_tls(fixture):
    """The network's certificate is checked, and an answer of 400 bytes or more goes in parts."""
    server, password = TlsServer(fixture), "p" * 300
    more = (f'authority = "{certificate("authority")}"\npassword = "door"\n'
            f'[sasl]\nmechanism = "PLAIN"\nuser = "al"\npassword = "{password}"\n')
    it = Service(fixture, "bnc-door", settings(server, more=more), "door1").begin()
    session = server.accept("the server")
    session.hear("PASS :door", "CAP LS 302", "NICK al", "USER al 0 * :al")
    session.say(":irc.example CAP * LS * :multi-prefix server-time", ":irc.example CAP * LS :sasl=EXTERNAL,PLAIN")
    session.hear("CAP REQ :server-time", "CAP REQ :sasl")
    session.say(":irc.example CAP * ACK :server-time", ":irc.example CAP * ACK :sasl")
    session.hear("AUTHENTICATE PLAIN")
    session.say("AUTHENTICATE +")
    expect("the answer", f"al\0al\0{password}".encode(), server.sasl_answer(session))
    session.say(":irc.example 900 * * al :You are now logged in", ":irc.example 903 * :SASL authentication successful")
    session.hear("CAP END")
    welcome(session)
    it.wait_for("network up: ")
    with open(f"/proc/{it.process.pid}/cmdline", "rb") as words:
        told = words.read() + "".join(it.log()).encode()
    if password.encode() in told:
        raise Failed("the password stands in the log or among the words")


@test
def it_logs_in_by_sasl_external(fixture):
    """By its certificate, which the network asks for."""
    server = TlsServer(fixture, authority="authority")
    more = (f'authority = "{certificate("authority")}"\ncertificate = "{certificate("client")}"\n'
            '[sasl]\nmechanism = "EXTERNAL"\n')
    Service(fixture, "bnc-door", settings(server, more=more), "door1").begin()
    session = server.logged_in("EXTERNAL", b"")
    names = [value for field in session.socket.getpeercert()["subject"] for _, value in field]
    expect("the certificate's name", ["al"], names)
    session.say(":irc.example 903 * :SASL authentication successful")
    session.hear("CAP END")


SASL = '[sasl]\nmechanism = "PLAIN"\nuser = "al"\npassword = "s3cret"\n'
WITHOUT_LOGIN = (
    ("a network without SASL", [":irc.example CAP * LS :server-time"], "the network offers no SASL"),
    ("a network without PLAIN", [":irc.example CAP * LS :sasl=EXTERNAL"], "the network offers SASL by EXTERNAL"),
    ("a network that lets it in at once", [":irc.example 001 al :Welcome"], "the network let the door in without its login"),
    ("a banned address", [":irc.example 465 al :You are banned"], "the network has banned this address: You are banned"),
    ("a nick that isn't taken", [":irc.example 432 * al :Erroneous nickname"], "the network doesn't take the nick al"),
    ("a throttled address", ["ERROR :Trying to reconnect too fast"], "the server said: Trying to reconnect too fast"),
)


def stays_out(fixture, lines, why):
    """The door leaves, says why, and stays away for a while."""
    server = Server(fixture)
    it = door(fixture, server, more=SASL)
    session = server.greeted()
    session.say(*lines)
    it.wait_for(f"network down: localhost:{server.address[1]}: {why}")
    line = next(line for line in it.log() if why in line)
    seconds = int(re.search(r"tried again in (\d+) seconds", line)[1])
    expect(f"the door stays away for a minute or more: {line}", True, seconds >= 60)


for what, lines, why in WITHOUT_LOGIN:
    add(f"doors: stays out of {what}", lambda fixture, lines=lines, why=why: stays_out(fixture, lines, why))


@test
def a_certificate_that_nobody_knows_is_refused(fixture):
    """And one of another name."""
    for certificate_name, tls_name in (("unknown", ""), ("server", 'tls_name = "irc.example.net"\n')):
        server = TlsServer(fixture, name=certificate_name)
        name = f"door-{certificate_name}"
        more = f'authority = "{certificate("authority")}"\n{tls_name}'
        it = Service(fixture, "bnc-door", settings(server, name, more=more), name).begin()
        try:
            session = server.accept("the server")
            came = session.receive()
        except Failed:
            came = b""
        expect("what came over a connection that isn't trusted", b"", came)
        it.wait_for(f"network down: localhost:{server.address[1]}: its certificate is refused")


@test
def a_network_that_goes_away_is_told_and_tried_again(fixture):
    """The nodes hear why, what waited isn't sent, and the channels are joined again, one more that a node joined included."""
    server, it, session = network(fixture)
    node = attached(fixture, it, session)
    node.say("JOIN #b key")
    session.hear("JOIN #b key")
    session.say(":al!al@host JOIN #b")
    node.heard(":al!al@host JOIN #b")
    session.say("ERROR :Closing link: (restart)")
    node.heard(re.escape("ERROR :the network went away: the server said: Closing link: (restart)"))
    node.hear_end()
    # (a node that dials meanwhile waits)
    waiting = Attached(fixture, it.address)
    waiting.say("CAP LS 302", "NICK al", "USER al 0 * :al", "PING :x")
    waiting.hear(":door1 PONG door1 :x")
    again = server.greeted()
    again.say(":irc.example CAP * LS :")
    again.hear("CAP END")
    welcome(again, "JOIN #b,#a key")
    waiting.hear(f":door1 CAP * LS :{GIVEN}")


# -- nodes


@test
def a_node_that_does_not_read_is_closed(fixture):
    """And others aren't held up: a megabyte waits for it at most."""
    _, it, session = network(fixture)
    slow = Attached(fixture, it.address, "a node that doesn't read", room=4096).register()
    session.hear("NAMES #a")
    quick = Attached(fixture, it.address, "a node that reads").register()
    session.hear("NAMES #a")
    text = "x" * 400
    for _ in range(40):
        session.say(*(f":bob!b@h PRIVMSG #a :{text}" for _ in range(200)))
        for _ in range(200):
            quick.heard(f"{STAMP} :bob!b@h PRIVMSG #a :{text}")
        if any("it did not read" in line for line in it.log()):
            break
    it.wait_for(f"node out: {spelled(slow.socket.getsockname())}: it did not read what was owed to it")
    quick.settled()


@test
def lines_that_cannot_be_read_do_no_harm(fixture):
    """From the network and from a node: bytes that are no text, lines that are too long, none that ends."""
    _, it, session = network(fixture)
    node = attached(fixture, it, session)
    for end in (session, node):
        end.send(b"\xff\xfe\r\n \r\n@\r\n:\r\n@a b\r\nPRIVMSG\r\nJOIN\r\nNICK\r\nCAP\r\nDOOR\r\n" + b"x" * 30000 + b"\r\n")
        end.send(b":a!b@c 353\r\n:a 433\r\n:a KICK\r\n999\r\n:a 303 al\r\n\x00\r\nPRIVMSG #a :\xff\r\nJOIN #\xff \xff\r\n")
    session.say(":bob!b@h PRIVMSG #a :still here")
    while True:
        line = node.line(":bob!b@h PRIVMSG #a :still here")
        if line.endswith(":bob!b@h PRIVMSG #a :still here"):
            return


@test
def who_is_no_node_is_sent_away(fixture):
    """A client that didn't ask for what the door gives, and one that says nothing at once."""
    _, it, _ = network(fixture, channels=())
    client = Attached(fixture, it.address, "a client")
    client.say("NICK al", "USER al 0 * :al")
    client.heard("ERROR :it is no node: .*")
    client.hear_end()


@test
def nodes_come_by_tls_with_certificates(fixture):
    """Who has none of the authority's doesn't get in."""
    server = Server(fixture)
    text = settings(server).replace("[network]", f'certificate = "{certificate("server")}"\n'
                                    f'authority = "{certificate("authority")}"\n[network]')
    it = Service(fixture, "bnc-door", text, "door1").begin()
    session = server.greeted()
    session.say(":irc.example CAP * LS :")
    session.hear("CAP END")
    welcome(session)
    for name, is_in in (("client", True), (None, False), ("unknown", False)):
        plain = connect(fixture, it.address)
        try:
            node = TlsConnection(fixture, client_context(name).wrap_socket(plain, server_hostname="localhost"), "a node")
            node.say("PING :x")
            came = node.receive()
        except OSError:
            came = b""
        expect(f"an answer to who has the certificate {name}", b":door1 PONG door1 :x\r\n" if is_in else b"", came)


# -- a door in reserve


def reserve_of(fixture, server, address):
    """A second door, whose first one is at that address."""
    more = f'[reserve]\nfirst = "{spelled(address)}"\n'
    return door(fixture, server, "door2", channels=("#a",), more=more)


def goes_in(session, nick="al"):
    """The network lets a door in, whose nick may be taken."""
    session.hear("CAP LS 302", "NICK al", "USER al 0 * :al")
    if nick != "al":
        session.say(":irc.example 433 * al :Nickname is already in use")
        session.hear(f"NICK {nick}")
    session.say(":irc.example CAP * LS :")
    session.hear("CAP END")
    welcome(session, "JOIN #a", nick=nick)
    session.say(f":{nick}!al@host JOIN #a")


def nobody_comes(server, seconds):
    if readable([server.socket], seconds):
        raise Failed(f"somebody connected to the network within {seconds} seconds")


@test
def a_door_in_reserve_goes_in_and_gives_way(fixture):
    """The first one is killed, and the one in reserve is in the network within ten seconds. Once the first one is in it again,
    the other leaves it."""
    server, first, session = network(fixture)
    second = reserve_of(fixture, server, first.address)
    second.wait_for("in reserve: ")
    node = attached(fixture, first, session)
    session.say(":bob!b@h PRIVMSG #a :one")
    one = node.heard(f"{STAMP} :bob!b@h PRIVMSG #a :one")
    nobody_comes(server, 3)
    killed = time.monotonic()
    first.process.kill()
    first.process.wait()
    later = server.accept("the second session")
    expect("it went in within ten seconds", True, time.monotonic() - killed < 10)
    goes_in(later)
    node = Attached(fixture, second.address, "the node at the other door").register(by="door2")
    later.hear("NAMES #a")
    later.say(":bob!b@h PRIVMSG #a :two")
    two = node.heard(f"{STAMP} :bob!b@h PRIVMSG #a :two")
    expect("ids of two doors", ["door1", "door2"], [it[1].partition("-")[0] for it in (one, two)])
    first.begin()
    back = server.accept("the first door's second session")
    # (both hear this, and a node has it of the second door, which leaves at any time once the first one is in)
    later.say(":bob!b@h PRIVMSG #a :three")
    node.heard(f"{STAMP} :bob!b@h PRIVMSG #a :three")
    goes_in(back, "al_")
    back.say(":bob!b@h PRIVMSG #a :three")
    node.heard("ERROR :the door ends, or gives way to the first one")
    later.hear("QUIT :bnc-door")
    second.wait_for("giving way: ")
    first.wait_for("the door in reserve at ")
    back.hear("NICK al")
    back.say(":al_!al@host NICK :al", "PING :x")
    back.hear("PONG :x")
    Attached(fixture, first.address, "the node that is back").register()
    nobody_comes(server, 3)


@test
def what_the_other_door_told_is_not_told_again(fixture):
    """A door in reserve that leaves says until when its nodes have everything. What came within the second before is held still:
    rather twice than not at all."""
    _, it, session = network(fixture)
    reserve = Attached(fixture, it.address, "a door in reserve")
    reserve.say("DOOR other ASK")
    reserve.heard("DOOR [0-9a-f]+ IN")
    session.say(":bob!b@h PRIVMSG #a :told by the other", "PING :x")
    session.hear("PONG :x")
    # (its nodes have what came until two seconds ago, so what came within the last three is held)
    time.sleep(HELD + 1)
    session.say(":bob!b@h PRIVMSG #a :just now", "PING :x")
    session.hear("PONG :x")
    reserve.say(f"DOOR other LEFT {1000 * (HELD - 1)}")
    it.wait_for("the door in reserve at ")
    node = Attached(fixture, it.address).register()
    node.heard(f"{STAMP} :bob!b@h PRIVMSG #a :just now")
    node.settled()


@test
def a_door_in_reserve_goes_in_where_the_line_is_cut(fixture):
    """Nothing comes over the line between the doors, and nobody closes it. Both are in the network then, until it is mended."""
    server, first, session = network(fixture)
    line = Line(fixture, first.address)
    second = reserve_of(fixture, server, line.address)
    nobody_comes(server, 3)
    line.is_cut, cut = True, time.monotonic()
    later = server.accept("the second session")
    expect("it went in within ten seconds", True, time.monotonic() - cut < 10)
    goes_in(later, "al_")
    line.is_cut = False
    later.hear("QUIT :bnc-door")
    second.wait_for("giving way: ")
    # (the first one never left)
    session.say("PING :x")
    session.hear("PONG :x")
    nobody_comes(server, 2)


@test
def a_node_goes_over_to_the_door_in_reserve(fixture):
    """A node of the program loses the first door, and dials again a minute later, by a clock that goes ahead. What was said
    meanwhile reaches it."""
    server, first, session = network(fixture, channels=("#a",))
    second = reserve_of(fixture, server, first.address)
    clocks = Clocks(fixture)
    road = Line(fixture, first.address)
    node = Node(fixture, servers=[road.address], channels=["#a"], front=clocks.front).begin()
    node.wait_for("upstream up: demo/net as al")
    first.process.kill()
    node.wait_for("upstream down: demo/net")
    later = server.accept("the second session")
    goes_in(later)
    later.say(":bob!b@h PRIVMSG #a :while the node was away", "PING :x")
    later.hear("PONG :x")
    road.to = second.address
    clocks.skip(61)
    fixture.until("the node is up again", lambda: sum("upstream up" in it for it in node.log()) == 2)
    fixture.until("the node has what was said meanwhile", lambda: page_of(node, "#a"))
    expect("the page", [":bob!b@h PRIVMSG #a :while the node was away"], page_of(node, "#a"))


# -- configurations


BASE = """\
name = "door1"
[nodes]
listen = "127.0.0.1:6690"
[network]
servers = ["irc.example.net:6697"]
nick = "al"
"""
REFUSALS = (
    ("a key that there isn't", ("nick =", "nik ="), "network.nick is missing: the nick on the network"),
    ("an address without a port", (":6697", ""), "network.servers must be a host and a port, as irc.example.net:6697"),
    ("an unknown key", ("nick = \"al\"", "nick = \"al\"\nnickname = \"al\""),
     "network.nickname is no key that there is; see the man page"),
    ("an address that is open to all", ("127.0.0.1:6690", "0.0.0.0:6690"), "nodes.listen is open to others"),
    ("a password that would be readable", ("nick = \"al\"", "nick = \"al\"\ntls = false\npassword = \"x\""),
     "network.tls is false, so the password would go to irc.example.net:6697 readable"),
    ("EXTERNAL without a certificate", ("nick = \"al\"", "nick = \"al\"\n[sasl]\nmechanism = \"EXTERNAL\""),
     "sasl.mechanism EXTERNAL logs in by network.certificate, which is missing"),
    ("a nick with a space", ("\"al\"", "\"a l\""), "network.nick must be a word without spaces"),
    ("no TOML", ("[network]", "[network"), "{file} is no TOML"),
    ("a file that isn't there", ("nick = \"al\"", "nick = \"al\"\nauthority = \"none.pem\""), "can't read {folder}/none.pem"),
)


def refuses(fixture, change, why):
    """The configuration with a change is refused, with status 5 and these words."""
    it = Service(fixture, "bnc-door", BASE.replace(*change), "door")
    status, said = it.refusal("--check")
    wanted = f"bnc-door: config refused: {why.replace('{file}', it.file()).replace('{folder}', fixture.folder)}"
    expect("the status", 5, status)
    expect("what it says", wanted, said[:len(wanted)])


for what, change, why in REFUSALS:
    add(f"doors: refuses {what}", lambda fixture, change=change, why=why: refuses(fixture, change, why))


@test
def statuses_are_as_documented(fixture):
    """0 where nothing is wrong and where it is told to end, 2 for wrong words, 4 where the file isn't there."""
    it = Service(fixture, "bnc-door", BASE, "door")
    expect("a right configuration", (0, ""), it.refusal("--check"))
    expect("wrong words", 2, it.refusal("--chek")[0])
    os.unlink(it.file())
    gone = fixture.run(os.path.join(FOLDER, "bnc-door"), it.path, program=it.python)
    expect("a file that isn't there", (4, True), (gone.status, b"can't read" in gone.errors))
    running = door(fixture, Server(fixture), "running")
    expect("told to end", 0, running.end())
