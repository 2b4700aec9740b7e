"""A node between its IRC server and its clients (docs/PROTOCOL.md, "A session with a server"; docs/OPERATING.md, "Servers";
the IRCv3 specifications of server-time, message-tags, echo-message, chathistory, read-marker and message-redaction)."""

import re

from harness.client import page
from harness.failure import Failed, expect
from harness.identities import NETWORKS, Identity
from harness.node import Node, TwoAccounts
from harness.registry import test
from harness.server import Server, begun

ASKED = "draft/message-redaction echo-message message-tags server-time"
PAST = "batch draft/chathistory message-tags server-time"
SAID = "@time=2026-11-23T00:00:07.000Z;msgid=zz :bob!b@h PRIVMSG #a :hi there"
SHOWN = "@msgid=zz;time=2026-11-23T00:00:07.000Z :bob!b@h PRIVMSG #a :hi there"


@test
def a_node_registers_with_its_server(fixture):
    """It asks for those of the four capabilities that the server offers, whatever else it offers and in however many lines, and
    joins the configured channels."""
    server = Server(fixture)
    Node(fixture, servers=[server.address], channels=["#a", "#b"]).begin()
    session = server.greeted()
    session.say(":s CAP * LS * :multi-prefix server-time=x", f":s CAP * LS :sasl=PLAIN {ASKED}")
    session.hear(f"CAP REQ :{ASKED}")
    session.say(f":s CAP * ACK :{ASKED}")
    session.hear("CAP END")
    session.say("PING :before", ":s 001 al :Welcome", ":s 002 al :x", ":s 005 al :x")
    session.hear("PONG :before", "JOIN #a", "JOIN #b")
    server.settled(session)


@test
def a_refused_request_ends_the_negotiation(fixture):
    server = Server(fixture)
    Node(fixture, servers=[server.address]).begin()
    session = server.greeted()
    session.say(":s CAP * LS :echo-message")
    session.hear("CAP REQ :echo-message")
    session.say(":s CAP * NAK :echo-message")
    session.hear("CAP END")


@test
def a_nick_that_is_taken_gets_an_underline_three_times(fixture):
    server = Server(fixture)
    node = Node(fixture, servers=[server.address]).begin()
    session = server.greeted()
    for nick in ("al_", "al__", "al___"):
        session.say(":s 433 * x :Nickname is already in use")
        session.hear(f"NICK {nick}")
    session.say(":s 433 * x :Nickname is already in use")
    session.hear_end()
    node.wait_for("upstream down: demo/net")


@test
def many_clients_hear_a_piece_of_lines_in_its_order(fixture):
    """Each of several clients hears the messages and what is passed on between them as the server said them in one piece, also
    where these are more lines than a turn of the server has, and a marker after them."""
    node, server, session = begun(fixture, "")
    clients = [node.client(f"client {number}").register() for number in range(2)]
    knows = node.client("knows markers").register("draft/read-marker")
    said = []
    for number in range(150):
        said += [f":bob!b@h PRIVMSG #a :{number}", f":bob!b@h NOTICE #a :{number}"]
        if number % 50 == 20:
            said += [f":eve{number}!e@h JOIN #a", f":bob!b@h PRIVMSG #a :after {number}"]
    said += [":al!a@h NICK bo", ":bob!b@h PRIVMSG #a :last"]
    session.say(*said)
    for client in [*clients, knows]:
        client.hear(*said)
    knows.say("MARKREAD #a timestamp=2026-11-23T00:00:07.000Z")
    knows.hear(":bnc.example MARKREAD #a timestamp=2026-11-23T00:00:07.000Z")
    session.say(":bob!b@h PRIVMSG #a :one more")
    for client in [*clients, knows]:
        client.hear(":bob!b@h PRIVMSG #a :one more")


@test
def answers_of_any_length_go_out_whole(fixture):
    """Answers of a byte less and of a byte more than those that go out from where they wait (2,048 bytes), each as it is said."""
    node, _, session = begun(fixture, "")
    witness, sizes, answers = node.client("the witness").register(), range(2046, 2051), []
    for number, size in enumerate(sizes, 1):
        target = f"#s{size}"
        said = [f":bob!b@h PRIVMSG {target} :{letter * 350}" for letter in "abcd"]
        empty = "".join(f"{line}\r\n" for line in page(number, target, *said, f":bob!b@h PRIVMSG {target} :"))
        said.append(f":bob!b@h PRIVMSG {target} :{'e' * (size - len(empty))}")
        session.say(*said)
        witness.hear(*said)
        answers.append((target, page(number, target, *said)))
    client = node.client().register("batch draft/chathistory")
    for size, (target, answer) in zip(sizes, answers):
        expect("the answer's length", size, sum(len(line) + 2 for line in answer))
        client.say(f"CHATHISTORY LATEST {target} * 5")
        client.hear(*answer)


@test
def a_client_has_the_nick_that_the_server_gave(fixture):
    server = Server(fixture)
    node = Node(fixture, servers=[server.address]).begin()
    session = server.greeted()
    session.say(":s 433 * al :Nickname is already in use")
    session.hear("NICK al_")
    session.say(":s 001 al_ :Welcome")
    server.settled(session)
    node.wait_for("upstream up: demo/net as al_")
    client = node.client().register(nick="al_")
    client.say("NICK bo")
    session.hear("NICK bo")
    session.say(":al_!a@h NICK bo")
    client.hear(":al_!a@h NICK bo")
    node.client("another").register(nick="bo")


@test
def what_is_said_is_told_and_kept(fixture):
    """Each session is told it as its capabilities have it, and finds it in the past with the server's own id and time."""
    node, server, session = begun(fixture, "message-tags server-time")
    plain = node.client("a plain client").register()
    tagged = node.client("a client with tags").register(PAST)
    session.say(SAID)
    plain.hear(":bob!b@h PRIVMSG #a :hi there")
    tagged.hear(SHOWN)
    tagged.say("CHATHISTORY LATEST #a * 10")
    tagged.hear(*page(1, "#a", SHOWN))
    late = node.client("a client that comes later").register(PAST)
    late.say("CHATHISTORY LATEST #a * 10", "CHATHISTORY BEFORE #A msgid=zz 10", "CHATHISTORY AFTER #a msgid=nope 10")
    late.hear(*page(1, "#a", SHOWN), *page(2, "#A"))
    late.hear(":bnc.example FAIL CHATHISTORY MESSAGE_ERROR AFTER #a :No such message")
    plain.ping()


@test
def a_message_without_an_id_gets_one(fixture):
    """`<node>-<incarnation>-<serial>`, with serial numbers that rise from 1000000000000; its time is now."""
    node, server, session = begun(fixture, "")
    client = node.client().register(PAST)
    session.say(":bob!b@h PRIVMSG #a :one", ":bob!b@h NOTICE #a :two")
    pattern = r"@msgid=n1-([0-9]+)-(1[0-9]{12});time=20[-0-9]+T[0-9:]+\.[0-9]{3}Z :bob!b@h (.*)"
    first, second = (re.fullmatch(pattern, client.line()) for _ in range(2))
    if not first or not second:
        raise Failed("an id or a time isn't of the form")
    expect("the texts", ("PRIVMSG #a :one", "NOTICE #a :two"), (first[3], second[3]))
    expect("the serials", ("1000000000000", "1000000000001"), (first[2], second[2]))
    expect("the incarnation", first[1], second[1])


@test
def a_private_conversation_is_asked_for_by_the_other_nick(fixture):
    """A message to the present nick belongs to the conversation with whoever sent it."""
    node, server, session = begun(fixture, "message-tags server-time")
    client = node.client().register(PAST)
    said = "@msgid=p1;time=2026-11-23T00:00:07.000Z :Bob!b@h PRIVMSG al :psst"
    session.say(said)
    client.hear(said)
    client.say("CHATHISTORY LATEST bob * 10")
    client.hear(*page(1, "bob", said))


@test
def conversations_are_listed(fixture):
    node, server, session = begun(fixture, "message-tags server-time")
    client = node.client().register("batch draft/chathistory")
    session.say(SAID, "@time=2026-11-23T00:00:09.000Z :bob!b@h PRIVMSG #B :x")
    client.hear(":bob!b@h PRIVMSG #a :hi there", ":bob!b@h PRIVMSG #B :x")
    client.say("CHATHISTORY TARGETS timestamp=2026-11-23T00:00:00.000Z timestamp=2026-11-24T00:00:00.000Z 10")
    client.hear(
        ":bnc.example BATCH +r1 draft/chathistory-targets",
        "@batch=r1 :bnc.example CHATHISTORY TARGETS #a 2026-11-23T00:00:07.000Z",
        "@batch=r1 :bnc.example CHATHISTORY TARGETS #b 2026-11-23T00:00:09.000Z",
        ":bnc.example BATCH -r1",
    )


@test
def what_a_client_says_goes_to_the_server(fixture):
    """Without its tags and its source. Where the server doesn't echo, it is kept, and told to those that hold echo-message."""
    node, server, session = begun(fixture, "")
    speaker = node.client("the speaker").register()
    echoes = node.client("a client with echo-message").register("echo-message batch draft/chathistory")
    silent = node.client("a client without it").register()
    speaker.say("@+x=1 :me PRIVMSG #a :hello")
    session.hear("PRIVMSG #a :hello")
    echoes.hear(":al PRIVMSG #a :hello")
    echoes.say("CHATHISTORY LATEST #a * 10", "JOIN #c")
    echoes.hear(*page(1, "#a", ":al PRIVMSG #a :hello"))
    session.hear("JOIN #c")
    for client in (speaker, echoes, silent):
        client.ping()


@test
def a_server_that_echoes_is_waited_for(fixture):
    """What a client said is kept and told once the server sends it back, with the server's id."""
    node, server, session = begun(fixture, "echo-message message-tags")
    speaker = node.client("the speaker").register("echo-message message-tags batch draft/chathistory")
    silent = node.client("a client without echo-message").register()
    speaker.say("PRIVMSG #a :hello")
    session.hear("PRIVMSG #a :hello")
    speaker.say("CHATHISTORY LATEST #a * 10")
    speaker.hear(*page(1, "#a"))
    session.say("@msgid=e1 :al!a@h PRIVMSG #a :hello")
    speaker.hear("@msgid=e1 :al!a@h PRIVMSG #a :hello")
    speaker.say("CHATHISTORY LATEST #a * 10")
    speaker.hear(*page(2, "#a", "@msgid=e1 :al!a@h PRIVMSG #a :hello"))
    silent.ping()


@test
def a_marker_is_told_to_sessions_of_the_other_worker(fixture):
    """Clients go to the workers in turn. A marker is told as it was asked for to whoever set it, and to others by the folded
    target; it never falls."""
    node, server, session = begun(fixture, "", workers=2)
    first, second, third = (node.client(f"client {number}").register("draft/read-marker") for number in range(3))
    without = node.client("a client without markers").register()
    first.say("MARKREAD #A timestamp=1970-01-01T00:00:05.000Z")
    first.hear(":bnc.example MARKREAD #A timestamp=1970-01-01T00:00:05.000Z")
    for other in (second, third):
        other.hear(":bnc.example MARKREAD #a timestamp=1970-01-01T00:00:05.000Z")
    second.say("MARKREAD #a timestamp=1970-01-01T00:00:06.000Z", "MARKREAD #b")
    second.hear(":bnc.example MARKREAD #a timestamp=1970-01-01T00:00:06.000Z", ":bnc.example MARKREAD #b *")
    for other in (first, third):
        other.hear(":bnc.example MARKREAD #a timestamp=1970-01-01T00:00:06.000Z")
    for client in (first, second, third, without):
        client.ping()
    # (no document says whether the others are told again of a marker that stays)
    second.say("MARKREAD #a timestamp=1970-01-01T00:00:04.000Z")
    second.hear(":bnc.example MARKREAD #a timestamp=1970-01-01T00:00:06.000Z")


@test
def questions_of_both_workers_are_answered_at_once(fixture):
    """Eight clients, four of each worker, ask again and again while the server goes on. Each has its answers in order."""
    node, server, session = begun(fixture, "", workers=2)
    clients = [node.client(f"client {number}").register("batch draft/chathistory") for number in range(8)]
    for turn in range(20):
        for client in clients:
            client.say("CHATHISTORY LATEST #none * 10", f"PING {turn}")
        session.say(f":bob!b@h PRIVMSG #b{turn} :x")
    for client in clients:
        got = [client.line() for _ in range(20 * 4)]
        mine = [line for line in got if "PRIVMSG" not in line]
        want = []
        for turn in range(20):
            want += [*page(turn + 1, "#none"), f":bnc.example PONG bnc.example :{turn}"]
        while len(mine) < len(want):
            line = client.line()
            got.append(line)
            mine += [line] if "PRIVMSG" not in line else []
        expect(client.name, want[:len(mine)], mine)
        told = [line for line in got if "PRIVMSG" in line]
        while len(told) < 20:
            told.append(client.line())
        expect(client.name, [f":bob!b@h PRIVMSG #b{turn} :x" for turn in range(20)], told)


@test
def a_channel_that_is_joined_is_told_with_its_marker(fixture):
    """A JOIN or a PART of the present nick changes the list of channels that a later client is told."""
    node, server, session = begun(fixture, "")
    knows = node.client("a client with markers").register("draft/read-marker")
    plain = node.client("a plain client").register()
    session.say(":AL!a@h JOIN #b", ":bob!b@h JOIN #b")
    knows.hear(":AL!a@h JOIN #b", ":bnc.example MARKREAD #b *", ":bob!b@h JOIN #b")
    plain.hear(":AL!a@h JOIN #b", ":bob!b@h JOIN #b")
    node.client("a later client").register("draft/read-marker", channels=["#b"])
    session.say(":al!a@h PART #b", ":al!a@h JOIN #c", ":op!o@h KICK #c al :out")
    plain.hear(":al!a@h PART #b", ":al!a@h JOIN #c", ":op!o@h KICK #c al :out")
    node.client("the last client").register()


@test
def a_redaction_takes_a_message_from_the_page(fixture):
    """It goes to the sessions that hold the capability. A client's REDACT goes to the server with its reason, and one of a
    message that isn't shown is refused."""
    node, server, session = begun(fixture, "draft/message-redaction message-tags")
    client = node.client().register("draft/message-redaction message-tags batch draft/chathistory")
    plain = node.client("a plain client").register()
    session.say("@msgid=m1 :bob!b@h PRIVMSG #a :one", "@msgid=m2 :bob!b@h PRIVMSG #a :two")
    client.hear("@msgid=m1 :bob!b@h PRIVMSG #a :one", "@msgid=m2 :bob!b@h PRIVMSG #a :two")
    session.say(":bob!b@h REDACT #a m1")
    client.hear(":bob!b@h REDACT #a m1")
    plain.hear(":bob!b@h PRIVMSG #a :one", ":bob!b@h PRIVMSG #a :two")
    client.say("CHATHISTORY LATEST #a * 10", "REDACT #a m1", "REDACT #a m2 :oops")
    client.hear(*page(1, "#a", "@msgid=m2 :bob!b@h PRIVMSG #a :two"))
    client.hear(":bnc.example FAIL REDACT UNKNOWN_MSGID #a :No such message")
    session.hear("REDACT #a m2 :oops")
    plain.ping()


@test
def a_redaction_is_refused_where_the_server_knows_none(fixture):
    node, server, session = begun(fixture, "message-tags")
    client = node.client().register("draft/message-redaction")
    session.say("@msgid=m1 :bob!b@h PRIVMSG #a :one")
    client.hear(":bob!b@h PRIVMSG #a :one")
    client.say("REDACT #a m1")
    client.hear(":bnc.example FAIL REDACT REDACT_FORBIDDEN #a :Not allowed here")


@test
def garbage_of_a_server_is_dropped(fixture):
    """A line that can't be read is dropped, and what follows is told."""
    node, server, session = begun(fixture, "")
    client = node.client().register()
    session.send(b"\x00\xfe\r\n:bob!b@h PRIVMSG #a :o\x00ne\r\n:only.a.source\r\n\r\n:s PRIVMSG\r\n" + b"x" * 20000 + b"\r\n")
    session.say(":bob!b@h PRIVMSG #a :after")
    line = client.line()
    if line == ":s PRIVMSG":
        line = client.line()
    expect("the client", ":bob!b@h PRIVMSG #a :after", line)
    server.settled(session)


@test
def clients_stay_where_the_server_ends(fixture):
    """They aren't told, and what they then say is answered. The past stays."""
    node, server, session = begun(fixture, "message-tags server-time")
    client = node.client().register(PAST)
    session.say(SAID)
    client.hear(SHOWN)
    session.close()
    node.wait_for("upstream down: demo/net: the other end closed it")
    client.say("PRIVMSG #a :hi", "CHATHISTORY LATEST #a * 10")
    client.hear(":bnc.example NOTICE al :Not connected to net", *page(1, "#a", SHOWN))


@test
def a_server_that_can_not_be_reached_is_told(fixture):
    """Clients come in meanwhile."""
    node = Node(fixture, servers=[("127.0.0.1", 1)]).begin()
    node.wait_for("upstream down: demo/net: it could not be reached at 127.0.0.1:1: connection refused")
    node.client().register()


class AllNetworks(TwoAccounts):
    """A node with each account and each network of it, by harness/identities.py."""

    def sessions(self):
        return [self.session(*names, address) for names, address in zip(NETWORKS, self.servers)]


@test
def each_network_is_dialed_by_its_own_nick_user_and_channel(fixture):
    """Two networks of one account, and one of another account. Each server hears what the configuration has for it, and clients
    are told the nick and the channel of their own network, at either worker."""
    servers = [Server(fixture) for _ in NETWORKS]
    node = AllNetworks(fixture, servers=[it.address for it in servers], channels=["#a"]).begin()
    for (account, network), server, who in zip(NETWORKS, servers, (Identity("al", ["#a"]), *list(NETWORKS.values())[1:])):
        session = server.accept(f"the server of {account}/{network}")
        session.hear("CAP LS 302", f"NICK {who.nick}", f"USER {who.user} 0 * :{who.user}")
        session.say(":irc.example CAP * LS :")
        session.hear("CAP END")
        session.say(f":irc.example 001 {who.nick} :Welcome", "PING :up")
        session.hear(*(f"JOIN {channel}" for channel in who.channels), "PONG :up")
        session.say(*(f":{who.nick}!{who.user}@host JOIN {channel}" for channel in who.channels))
        server.settled(session)
        for number in range(2):
            client = node.client(f"client {number} of {account}/{network}")
            client.register("draft/read-marker", account=account, network=network, nick=who.nick, channels=who.channels)


@test
def networks_are_kept_apart(fixture):
    """Network i is served by worker i modulo workers. What is said on one is told on that one alone, and is in
    its page alone."""
    servers = [Server(fixture), Server(fixture)]
    node = Node(fixture, servers=[it.address for it in servers]).begin()
    sessions = [it.register() for it in servers]
    # (a client is told of a network from either worker)
    ones = [node.client(f"client {number} of net").register("batch draft/chathistory") for number in range(2)]
    twos = [node.client(f"client {number} of two") for number in range(2)]
    for client in twos:
        client.register("batch draft/chathistory", network="two")
    sessions[0].say(":bob!b@h PRIVMSG #a :in net")
    sessions[1].say(":eve!e@h PRIVMSG #a :in two")
    for clients, text in ((ones, ":bob!b@h PRIVMSG #a :in net"), (twos, ":eve!e@h PRIVMSG #a :in two")):
        for client in clients:
            client.hear(text)
            client.say("CHATHISTORY LATEST #a * 10")
            client.hear(*page(1, "#a", text))
            client.ping()
    twos[1].say("PRIVMSG #b :hello")
    sessions[1].hear("PRIVMSG #b :hello")
    servers[0].settled(sessions[0])
