"""Each documented limit through the program's connections, at the limit and one past it (docs/PROTOCOL.md; the bounds of
`tests/configurations`; RFC 2812 for a line's 512 bytes; the IRCv3 specification message-tags for 8,191 bytes of tags)."""

import re

from harness.client import Client, greeting, page
from harness.connection import spelled
from harness.failure import Failed, expect
from harness.node import Node
from harness.peer import Peer
from harness.registry import add, test
from harness.server import Server, begun

NOBODY = ("127.0.0.1", 1)
PAST = "batch draft/chathistory message-tags server-time"
NAMES = "batch draft/chathistory draft/message-redaction draft/read-marker echo-message message-tags server-time"
TIME = "time=2026-11-23T00:00:07.000Z"
TOO_LONG = ":bnc.example 417 al :Input line was too long"

# A line without its CR LF and its tags, and the tags of a server's line with their `@` and their space.
LINE, TAGS = 510, 8191


def filled(head, most=LINE):
    """A line of so many bytes that begins so."""
    return head + "x" * (most - len(head))


def tagged(line, last, most=TAGS):
    """The line behind so many bytes of tags. They end with this tag, so all of them have to be read."""
    return f"@x={'x' * (most - len(f'@x=; {last}'))};{last} {line}"


# Lines of a server


@test
def the_most_tags_of_a_server(fixture):
    """A line with 8,191 bytes of tags, which may be the longest one too, is read like any other. With a byte more of tags or of
    the line it can't be read, and is dropped."""
    node, server, session = begun(fixture)
    plain = node.client("a plain client").register()
    knows = node.client("a client with tags").register(PAST)
    said, topic = filled(":bob!b@h PRIVMSG #a :"), filled(":bob!b@h TOPIC #a :")
    session.say(
        tagged(":bob!b@h PRIVMSG #a :no", "msgid=m0", TAGS + 1), tagged(":bob!b@h TOPIC #a :no", "msgid=m0", TAGS + 1),
        tagged(said, "msgid=m0", TAGS + 1), tagged(topic, "msgid=m0", TAGS + 1),
        tagged(said + "x", "msgid=m0"), tagged(topic + "x", "msgid=m0"),
        tagged(said, f"{TIME};msgid=m1"), tagged(topic, "msgid=m0"),
        tagged(":bob!b@h PRIVMSG #a :yes", f"{TIME};msgid=m2"), tagged(":bob!b@h TOPIC #a :yes", "msgid=m0"),
    )
    shown = [f"@msgid=m1;{TIME} {said}", f"@msgid=m2;{TIME} :bob!b@h PRIVMSG #a :yes"]
    plain.hear(said, topic, ":bob!b@h PRIVMSG #a :yes", ":bob!b@h TOPIC #a :yes")
    knows.hear(shown[0], topic, shown[1], ":bob!b@h TOPIC #a :yes")
    knows.say("CHATHISTORY LATEST #a * 10")
    knows.hear(*page(1, "#a", *shown))


@test
def the_longest_line_of_a_server_reaches_clients_of_both_workers(fixture):
    """Whatever its command, as it came; a line of one byte more is dropped."""
    node, server, session = begun(fixture, workers=2)
    clients = [node.client(f"client {number}").register() for number in range(4)]
    for head in ("PRIVMSG #a :", "NOTICE #a :", "PRIVMSG al :", "TOPIC #a :", "353 al = #a :", "REDACT #a m1 :", "WHATEVER "):
        line = filled(f":bob!b@h {head}")
        session.say(line + "x", line)
        for client in clients:
            client.hear(line)
    for client in clients:
        client.ping()


@test
def a_message_whose_record_is_too_long_is_passed_on(fixture):
    """The record's line `:<source> PRIVMSG <to-target> :<body>` has at most 510 bytes. A message that has no colon or no source
    of its own makes a longer record than it is itself; one that can't be kept is passed on as it came."""
    node, server, session = begun(fixture)
    clients = [node.client(f"client {number}").register("batch draft/chathistory") for number in range(2)]
    kept = []
    for head, record in ((":bob!b@h PRIVMSG #a ", ":bob!b@h PRIVMSG #a :"), ("NOTICE #a :", ":net NOTICE #a :")):
        longer = len(record) - len(head)
        session.say(filled(head, LINE - longer), filled(head, LINE - longer + 1))
        kept.append(filled(record))
        for client in clients:
            client.hear(kept[-1], filled(head, LINE - longer + 1))
    for client in clients:
        client.say("CHATHISTORY LATEST #a * 10")
        client.hear(*page(1, "#a", *kept))


@test
def a_message_with_a_field_that_is_too_long_is_passed_on(fixture):
    """A source has up to 255 bytes, a target 200, and so the nick whose conversation a message to the present nick belongs to."""
    node, server, session = begun(fixture)
    client = node.client().register(PAST)
    long, source = "n" * 200, "b!" + "s" * 253
    fields = ((source, "#a"), ("bob!b@h", "#" + "t" * 199), (f"{long}!b@h", "al"))
    kept = [f"@msgid=m{number};{TIME} :{source} PRIVMSG {to} :hi" for number, (source, to) in enumerate(fields)]
    passed_on = [f":{source}s PRIVMSG #a :hi", f":bob!b@h PRIVMSG #{'t' * 200} :hi", f":{long}n!b@h PRIVMSG al :hi"]
    for kept_one, other in zip(kept, passed_on):
        session.say(kept_one, f"@msgid=x;{TIME} {other}")
        client.hear(kept_one, other)
    for number, target in enumerate(("#a", "#" + "t" * 199, long)):
        client.say(f"CHATHISTORY LATEST {target} * 5")
        client.hear(*page(number + 1, target, kept[number]))
    listed = client.ask("CHATHISTORY TARGETS timestamp=2026-11-23T00:00:00.000Z timestamp=2026-11-24T00:00:00.000Z 5")
    expect("the buffers", ["#a", "#" + "t" * 199, long], [line.split(" ")[4] for line in listed])


@test
def the_longest_message_of_a_client(fixture):
    """Of 510 bytes, it reaches the server. It is kept and told where its record's line, which has the source `:al ` more, still
    has 510 bytes. A line of 511 bytes is refused."""
    node, server, session = begun(fixture, "")
    speaker = node.client("the speaker").register()
    # (no document says whether the others are told of one that can't be kept, so they come later)
    for most in (LINE - len(":al ") + 1, LINE):
        speaker.say(filled("PRIVMSG #a :", most))
        session.hear(filled("PRIVMSG #a :", most))
    speaker.say(filled("PRIVMSG #a :", LINE + 1))
    speaker.hear(TOO_LONG)
    other = node.client("the other").register("echo-message batch draft/chathistory")
    speaker.say(filled("PRIVMSG #a :", LINE - len(":al ")))
    session.hear(filled("PRIVMSG #a :", LINE - len(":al ")))
    other.hear(filled(":al PRIVMSG #a :"))
    other.say("CHATHISTORY LATEST #a * 10")
    other.hear(*page(1, "#a", filled(":al PRIVMSG #a :")))
    server.settled(session)


@test
def the_longest_message_id_of_a_server(fixture):
    """An id has up to 255 bytes. It selects its message and takes it away; for a longer one the node makes an id."""
    node, server, session = begun(fixture, "draft/message-redaction message-tags")
    client = node.client().register("batch draft/chathistory draft/message-redaction message-tags")
    longest = "i" * 255
    line = f"@msgid={longest} :bob!b@h PRIVMSG #a :one"
    session.say(line, f"@msgid={longest}i :bob!b@h PRIVMSG #a :two")
    client.hear(line)
    made = re.fullmatch(r"@msgid=(n1-[0-9]+-1[0-9]{12}) :bob!b@h PRIVMSG #a :two", client.line())
    if not made:
        raise Failed("expected an id that the node made")
    client.say(
        f"CHATHISTORY AROUND #a msgid={longest} 1", f"CHATHISTORY AROUND #a msgid={longest}i 1",
        f"REDACT #a {longest} :oops", f"REDACT #a {longest}i", f"REDACT #a {made[1]}",
    )
    client.hear(
        *page(1, "#a", line), ":bnc.example FAIL CHATHISTORY INVALID_PARAMS AROUND :Invalid parameters",
        ":bnc.example FAIL REDACT UNKNOWN_MSGID #a :No such message",
    )
    session.hear(f"REDACT #a {longest} :oops", f"REDACT #a {made[1]}")
    session.say(f":bob!b@h REDACT #a {longest}")
    client.hear(f":bob!b@h REDACT #a {longest}")
    client.say("CHATHISTORY LATEST #a * 10")
    client.hear(*page(2, "#a", f"@msgid={made[1]} :bob!b@h PRIVMSG #a :two"))


@test
def the_first_and_the_last_moment(fixture):
    """A time that the server gives is that of the message from 1970 to 9999, and any other isn't one. A marker and a selector
    may name the last moment."""
    node, server, session = begun(fixture)
    client = node.client().register(f"{PAST} draft/read-marker")
    first, last = "1970-01-01T00:00:00.000Z", "9999-12-31T23:59:59.999Z"
    lines = [f"@msgid={id};time={time} :bob!b@h PRIVMSG #a :{id}" for id, time in (("m1", first), ("m2", last))]
    session.say(*lines)
    client.hear(*lines)
    for id, time in (("m3", "1969-12-31T23:59:59.999Z"), ("m4", "10000-01-01T00:00:00.000Z")):
        session.say(f"@msgid={id};time={time} :bob!b@h PRIVMSG #b :{id}")
        line = client.line()
        if not re.fullmatch(f"@msgid={id};time=20[-0-9]+T[0-9:.]+Z :bob!b@h PRIVMSG #b :{id}", line):
            raise Failed(f"expected a message of now, came {line}")
    client.say(f"CHATHISTORY BETWEEN #a timestamp={first} timestamp={last} 5", f"CHATHISTORY AROUND #a timestamp={last} 5")
    client.hear(*page(1, "#a"), *page(2, "#a", *lines))
    client.say(f"MARKREAD #a timestamp={last}", "MARKREAD #b timestamp=10000-01-01T00:00:00.000Z")
    client.hear(f":bnc.example MARKREAD #a timestamp={last}", ":bnc.example FAIL MARKREAD INVALID_PARAMS :Invalid parameters")


# Channels, conversations and changes of a session

# A target has up to 200 bytes.
CHANNELS = [f"#{number:03}{'c' * 196}" for number in range(200)]


def joins(client):
    """The channels that a client that attaches is told, each with its marker. No document says in which order they come."""
    told = []
    while True:
        line = client.line("a JOIN, or the end of the greeting")
        if not line.startswith(":al JOIN "):
            expect(client.name, ":bnc.example PONG bnc.example :told", line)
            return sorted(told)
        told.append(line.partition(" JOIN ")[2])
        client.hear(f":bnc.example MARKREAD {told[-1]} *")


def attached(node, name):
    """A client that knows markers, and the channels that it was told."""
    client = node.client(name)
    client.say("CAP REQ :draft/read-marker", "PASS s3cret", "NICK al", "USER demo/net 0 * :Al", "CAP END", "PING told")
    client.hear(":bnc.example CAP * ACK :draft/read-marker", *greeting())
    return joins(client)


@test
def two_hundred_channels_are_told_to_a_client_that_attaches(fixture):
    """And those that are left are told no more. A name of 201 bytes is no target, so such a channel isn't told. The least bound
    is enough for a client that reads, however long the greeting is."""
    node, server, session = begun(fixture, bound=1024)
    for first in range(0, 200, 50):
        session.say(*(f":al!a@h JOIN {channel}" for channel in CHANNELS[first:first + 50]), f":al!a@h JOIN #{'d' * 200}")
        server.settled(session)
    server.told(session)
    expect("the channels", CHANNELS, attached(node, "a client"))
    session.say(*(f":al!a@h PART {channel}" for channel in CHANNELS[:100]))
    server.told(session)
    expect("the channels", CHANNELS[100:], attached(node, "a later client"))


@test
def pages_of_two_hundred_conversations(fixture):
    """Each has two messages, of which the second was said after the first of all others. The list has the latest message of a
    hundred of them, from either end."""
    node, server, session = begun(fixture)

    def said(number, turn):
        moment = f"2026-11-23T{turn:02}:{number // 60:02}:{number % 60:02}.000Z"
        return f"@msgid=m{number}.{turn};time={moment} :bob!b@h PRIVMSG #c{number:03} :{number} {turn}"

    session.say(*(said(number, turn) for turn in range(2) for number in range(200)))
    server.settled(session)
    client = node.client().register(PAST)
    client.say(*(f"CHATHISTORY LATEST #c{number:03} * 100" for number in range(200)))
    for number in range(200):
        client.hear(*page(number + 1, f"#c{number:03}", said(number, 0), said(number, 1)))
    first, last = "timestamp=2026-11-23T00:00:00.000Z", "timestamp=2026-11-24T00:00:00.000Z"
    for moments, numbers in ((f"{first} {last}", range(100)), (f"{last} {first}", range(100, 200))):
        came = client.ask(f"CHATHISTORY TARGETS {moments} 1000")
        wanted = [f"#c{number:03} 2026-11-23T01:{number // 60:02}:{number % 60:02}.000Z" for number in numbers]
        expect("the list", wanted, [line.partition(" CHATHISTORY TARGETS ")[2] for line in came])


@test
def pages_of_the_greatest_maximum(fixture):
    """A thousand messages and a thousand conversations. A client is told the number as it registers; where it asks for more it
    gets so many."""
    node, server, session = begun(fixture, maximum=1000)

    def time(n):
        return f"2026-11-23T00:{n // 60:02}:{n % 60:02}.000Z"

    messages = [f"@msgid=m{n};time={time(n)} :bob!b@h PRIVMSG #a :{n}" for n in range(1200)]
    session.say(*messages, *(f"@msgid=c{n};time={time(n)} :bob!b@h PRIVMSG #c{n:04} :{n}" for n in range(1200)))
    server.settled(session)
    client = node.client().register(PAST, maximum=1000)
    client.say("CHATHISTORY LATEST #a * 5000", "CHATHISTORY AFTER #a msgid=m9 1000")
    client.hear(*page(1, "#a", *messages[200:]), *page(2, "#a", *messages[10:1010]))
    came = client.ask("CHATHISTORY TARGETS timestamp=2026-11-23T00:00:00.000Z timestamp=2026-11-24T00:00:00.000Z 5000")
    expect("how many conversations", 1000, len(came))


@test
def a_page_of_the_least_maximum(fixture):
    """A hundred of 1,200 messages, for a client that asks for more."""
    node, server, session = begun(fixture, maximum=100)
    client = node.client().register(NAMES)
    messages = [f"@msgid=m{n};time=2026-11-23T00:{n // 60:02}:{n % 60:02}.000Z :bob!b@h PRIVMSG #a :hi" for n in range(1200)]
    session.say(*messages)
    client.hear(*messages)
    client.say("CHATHISTORY LATEST #a * 5000")
    client.hear(*page(1, "#a", *messages[1100:]))


@test
def two_thousand_messages_with_questions_in_between(fixture):
    """Each page is right at its moment: it is of the messages that the client had heard by then."""
    node, server, session = begun(fixture, workers=2)
    clients = [node.client(f"client {number}").register(PAST) for number in range(2)]
    lines = [
        f"@msgid=m{n:04};time=2026-11-23T00:{n // 60:02}:{n % 60:02}.000Z :bob!b@h PRIVMSG #a :{n}" for n in range(2000)
    ]
    for turn in range(100):
        held = 20 * (turn + 1)
        session.say(*lines[held - 20:held])
        middle = held // 2
        questions = (
            ("LATEST #a * 30", lines[max(held - 30, 0):held]),
            (f"BEFORE #a msgid=m{middle:04} 10", lines[middle - 10:middle]),
            (f"AFTER #a msgid=m{middle:04} 10", lines[middle + 1:held][:10]),
            (f"AROUND #a msgid=m{middle:04} 10", lines[middle - 5:middle + 5]),
            (f"BETWEEN #a msgid=m{held - 1:04} msgid=m{middle:04} 10", lines[middle + 1:held - 1][-10:]),
        )
        question, wanted = questions[turn % 5]
        for client in clients:
            client.hear(*lines[held - 20:held])
            client.say(f"CHATHISTORY {question}")
            client.hear(*page(turn + 1, "#a", *wanted))


@test
def the_most_workers_and_places(fixture):
    """16 workers, 4,096 places and a bound of 1,048,576 bytes: a client of each worker hears what is said."""
    node, server, session = begun(fixture, workers=16, places=4096, bound=1048576, retain_days=36500)
    clients = [node.client(f"client {number}").register() for number in range(17)]
    session.say(":bob!b@h PRIVMSG #a :hi", ":bob!b@h TOPIC #a :new")
    for client in clients:
        client.hear(":bob!b@h PRIVMSG #a :hi", ":bob!b@h TOPIC #a :new")
        client.ping()


# The longest line that a client is told: 8,191 bytes of tags, and 512 with its CR LF.
LONGEST_LINE = TAGS + LINE + 2


def told_the_longest_line(fixture, bound):
    """A node of that `bound` whose server has said the longest typing notice, a client of each worker that reads all, and the
    notice."""
    node, server, session = begun(fixture, bound=bound, workers=2)
    clients = [node.client(f"client {number}").register("message-tags") for number in range(2)]
    tag = "+x=" + "x" * (TAGS - len("@+x= "))
    notice = f"@{tag} {filled(':bob!b@h TAGMSG #a :')}"
    expect("the bytes of the longest line", LONGEST_LINE, len(notice) + 2)
    session.say(notice)
    return node, session, clients, notice


@test
def a_bound_as_long_as_the_longest_line_takes_it(fixture):
    """Over and over, and also where several such lines come at once."""
    _, session, clients, notice = told_the_longest_line(fixture, LONGEST_LINE)
    for client in clients:
        client.hear(notice)
    for count in (1, 5):
        session.say(*count * [notice])
        for client in clients:
            client.hear(*count * [notice])
            client.ping()


@test
def a_bound_of_one_byte_less_takes_all_but_the_longest_line(fixture):
    """Who is told it is closed, even if it reads all the time; and a line of a byte less is told."""
    node, session, clients, notice = told_the_longest_line(fixture, LONGEST_LINE - 1)
    for client in clients:
        client.hear_end()
        node.wait_for(f"client out: demo/net from {spelled(client.address)}: it did not read what was owed to it")
    later = node.client("a client that comes later").register("message-tags")
    session.say(notice[:-1])
    later.hear(notice[:-1])
    later.ping()


# Names at their limits

CLUSTER, ACCOUNT, NETWORK, NICK = "c" * 63, "a" * 32, "n" * 32, "k" * 200
# `PASS ` and this make a line of 510 bytes.
SECRET = ("0123456789" * 51)[:505]
TARGET = "#" + "t" * 199


class Longest(Node):
    """A node of an account, a network and a cluster of the longest names."""

    cluster, account, secret, networks = CLUSTER, ACCOUNT, SECRET, (NETWORK,)


class Guest(Client):
    """A client of such a node. What it is to hear is written with the cluster's name as bnc.example."""

    def hear(self, *lines):
        super().hear(*(line.replace("bnc.example", CLUSTER) for line in lines))

    def line(self, wanted="a line"):
        """The next line. But for its tags no line is longer than 512 bytes with its CR LF (RFC 2812)."""
        line = super().line(wanted)
        if len(re.sub("^@[^ ]* ", "", line)) > LINE:
            raise Failed(f"{self.name}: a line of more than {LINE} bytes: {line}")
        return line

    def say_who(self, secret=SECRET, account=ACCOUNT, network=NETWORK):
        self.say(f"PASS {secret}", "NICK al", f"USER {account}/{network} 0 * :Al")

    def hear_answers(self, rows):
        """Says each row's line, and hears its answers."""
        for line, *answers in rows:
            self.say(line)
            self.hear(*(f":bnc.example {answer}" for answer in answers))


def longest(fixture, servers=(NOBODY,), **how):
    return Longest(fixture, servers=servers, nick=NICK, **how).begin()


def guest(node, name="a client"):
    return Guest(node.fixture, node.clients, name)


@test
def the_longest_secret_and_names_let_a_client_in(fixture):
    """A secret has the 505 bytes that a line of PASS has room for, and account and network have 32 bytes each."""
    client = guest(longest(fixture))
    client.say_who()
    client.hear(*greeting(NICK, NETWORK))
    client.ping()


# What differs from these in one byte, or has one more or one less.
OTHERS = (
    ("another first byte of the secret", {"secret": "x" + SECRET[1:]}),
    ("another last byte of the secret", {"secret": SECRET[:-1] + "x"}),
    ("the secret without its first byte", {"secret": SECRET[1:]}),
    ("the secret without its last byte", {"secret": SECRET[:-1]}),
    ("another last byte of the account", {"account": ACCOUNT[:-1] + "b"}),
    ("another last byte of the network", {"network": NETWORK[:-1] + "b"}),
    ("an account of 33 bytes", {"account": ACCOUNT + "a"}),
    ("a network of 33 bytes", {"network": NETWORK + "n"}),
)


@test
def other_secrets_and_names_at_their_limits_let_nobody_in(fixture):
    """One byte decides, be it the first or the last."""
    node = longest(fixture)
    for name, words in OTHERS:
        client = guest(node, name)
        client.say_who(**words)
        client.hear(":bnc.example 464 * :Password incorrect", "ERROR :Closing link")
        client.hear_end()


@test
def a_secret_that_no_line_has_room_for_lets_nobody_in(fixture):
    """`PASS` with 506 bytes is too long a line, so no secret came."""
    client = guest(longest(fixture))
    client.say_who(secret=SECRET + "5")
    client.hear(":bnc.example 417 * :Input line was too long")
    client.hear(":bnc.example 464 * :Password incorrect", "ERROR :Closing link")
    client.hear_end()


# The longest list of capabilities that is acknowledged, and one byte more of a list like it.
LIST = " ".join(30 * ["batch"] + 3 * ["-batch"])
LONGER_LIST = " ".join(29 * ["batch"] + 4 * ["-batch"])


def words_of(nick):
    """The rows that are answered alike before registration and after it."""
    return (
        ("CAP", f"461 {nick} CAP :Not enough parameters"),
        (f"CAP {'w' * 64}", f"410 {nick} {'w' * 64} :Invalid CAP command"),
        (f"CAP {'w' * 65}", f"410 {nick} * :Invalid CAP command"),
        ("CAP LS 302", f"CAP {nick} LS :{NAMES}"),
        (f"CAP REQ :{LIST}", f"CAP {nick} ACK :{LIST}"),
        (f"CAP REQ :{LONGER_LIST}", f"CAP {nick} NAK :{LONGER_LIST[:200]}"),
        (f"CAP REQ :{'w' * 200}", f"CAP {nick} NAK :{'w' * 200}"),
        (f"CAP REQ :{'w' * 201}", f"CAP {nick} NAK :{'w' * 200}"),
        ("CAP LIST", f"CAP {nick} LIST :"),
        ("PASS", f"461 {nick} PASS :Not enough parameters"),
        ("PING", f"461 {nick} PING :Not enough parameters"),
        (f"PING {'w' * 300}", f"PONG bnc.example :{'w' * 300}"),
        (f"PING {'w' * 301}", f"PONG bnc.example :{'w' * 300}"),
        ("USER demo/net 0 *", f"461 {nick} USER :Not enough parameters"),
        ("NICK", f"431 {nick} :No nickname given"),
        (f"NICK {',' * 64}", f"432 {nick} {',' * 64} :Erroneous nickname"),
        (f"NICK {',' * 65}", f"432 {nick} * :Erroneous nickname"),
        (f"NICK {'w' * 201}", f"432 {nick} * :Erroneous nickname"),
        (":source", f"421 {nick} * :Unknown command"),
        ("w" * (LINE + 1), f"417 {nick} :Input line was too long"),
        (f"@{'w' * 4095} PING x", f"417 {nick} :Input line was too long"),
    )


@test
def the_longest_cluster_name_before_registration(fixture):
    """It is the source of each answer to a client that waits."""
    client = guest(longest(fixture))
    client.hear_answers(words_of("*"))
    client.hear_answers([("JOIN #a", "451 * :You have not registered")])


@test
def the_longest_cluster_name_after_registration(fixture):
    """It is the source of each answer to a registered client, whose nick and channel have 200 bytes, and whose network was
    up."""
    server = Server(fixture)
    node = longest(fixture, [server.address])
    session = server.register("message-tags server-time", NICK)
    line = f":{NICK}!k@h PRIVMSG {TARGET} :"
    session.say(f":{NICK}!k@h JOIN {TARGET}", f"@msgid=m1;{TIME} {filled(line)}")
    server.settled(session)
    client = guest(node)
    client.say("CAP REQ :draft/read-marker")
    client.say_who()
    client.say("CAP END")
    client.hear(":bnc.example CAP * ACK :draft/read-marker", *greeting(NICK, NETWORK))
    client.hear(f":{NICK} JOIN {TARGET}", f":bnc.example MARKREAD {TARGET} *")
    session.close()
    node.wait_for(f"upstream down: {ACCOUNT}/{NETWORK}: ")
    client.hear_answers([("CAP REQ :-draft/read-marker", f"CAP {NICK} ACK :-draft/read-marker")])
    client.hear_answers(words_of(NICK))
    fail = "FAIL CHATHISTORY"
    client.hear_answers((
        ("PASS x", f"462 {NICK} :You may not reregister"),
        ("USER a/b 0 * :x", f"462 {NICK} :You may not reregister"),
        ("JOIN #a", f"NOTICE {NICK} :Not connected to {NETWORK}"),
        ("NICK other", f"NOTICE {NICK} :Not connected to {NETWORK}"),
        ("CHATHISTORY", f"421 {NICK} CHATHISTORY :Unknown command"),
        ("MARKREAD", f"421 {NICK} MARKREAD :Unknown command"),
        ("REDACT", f"421 {NICK} REDACT :Unknown command"),
        (f"CAP REQ :{NAMES}", f"CAP {NICK} ACK :{NAMES}"),
        ("CAP LIST", f"CAP {NICK} LIST :{NAMES}"),
        ("CHATHISTORY", f"{fail} INVALID_PARAMS :Missing parameters"),
        (f"CHATHISTORY {'n' * 64}", f"{fail} INVALID_PARAMS {'N' * 64} :Unknown command"),
        (f"CHATHISTORY {'n' * 65}", f"{fail} INVALID_PARAMS * :Unknown command"),
        (f"CHATHISTORY BETWEEN {TARGET}", f"{fail} INVALID_PARAMS BETWEEN :Missing parameters"),
        (f"CHATHISTORY BETWEEN {TARGET}t * * 5", f"{fail} INVALID_TARGET BETWEEN :Invalid target"),
        (f"CHATHISTORY BETWEEN {TARGET} * * 5", f"{fail} INVALID_MSGREFTYPE BETWEEN :Invalid message reference type"),
        (f"CHATHISTORY BETWEEN {TARGET} msgid=m1 msgid=m1 0", f"{fail} INVALID_PARAMS BETWEEN :Invalid parameters"),
        (f"CHATHISTORY BETWEEN {TARGET} msgid=m2 msgid=m1 5", f"{fail} MESSAGE_ERROR BETWEEN {TARGET} :No such message"),
        ("MARKREAD", "FAIL MARKREAD NEED_MORE_PARAMS :Missing parameters"),
        (f"MARKREAD {TARGET}t", "FAIL MARKREAD INVALID_PARAMS :Invalid parameters"),
        (f"MARKREAD {TARGET}", f"MARKREAD {TARGET} *"),
        (f"MARKREAD {TARGET} {TIME.replace('time', 'timestamp')}", f"MARKREAD {TARGET} {TIME.replace('time', 'timestamp')}"),
        ("REDACT", "FAIL REDACT NEED_MORE_PARAMS :Missing parameters"),
        (f"REDACT {TARGET}t m1", "FAIL REDACT INVALID_TARGET :Invalid target"),
        (f"REDACT {TARGET} m2", f"FAIL REDACT UNKNOWN_MSGID {TARGET} :No such message"),
        (f"REDACT {TARGET} m1", f"FAIL REDACT REDACT_FORBIDDEN {TARGET} :Not allowed here"),
    ))
    client.say(f"CHATHISTORY LATEST {TARGET} * 5")
    client.hear(*page(1, TARGET, f"@msgid=m1;{TIME} {filled(line)}"))
    client.say("CHATHISTORY TARGETS timestamp=2026-11-23T00:00:00.000Z timestamp=2026-11-24T00:00:00.000Z 5")
    client.hear(
        ":bnc.example BATCH +r2 draft/chathistory-targets",
        f"@batch=r2 :bnc.example CHATHISTORY TARGETS {TARGET} 2026-11-23T00:00:07.000Z",
        ":bnc.example BATCH -r2",
    )
    client.ping()


# Lines between nodes


def post(account=ACCOUNT, network=NETWORK, target=TARGET, id="i" * 255, ms="253402300799999", kind="N", to=TARGET.upper(),
         source="s" * 255, body=None):
    """A change `C POST` with each field at its limit, but for those given. The record's line has 510 bytes."""
    if body is None:
        words = f":{source} {'NOTICE' if kind == 'N' else 'PRIVMSG'} {to} :"
        body = "b" * (LINE - len(words))
    return f"C POST {account} {network} {target} {id} {ms} {kind} {to} {source} :{body}"


# The most client-only tags of a record, and the line of a post with them (docs/PROTOCOL.md, "Changes").
RECORD_TAGS = "+x=" + "x" * 4091


def with_tags(post, tags=RECORD_TAGS):
    """That change `C POST` with tags, as a `C TPOST`."""
    head, kind, rest = re.fullmatch("C POST (.* [0-9]+) ([NP]) (.*)", post).groups()
    return f"C TPOST {head} {kind} {tags} {rest}"


def greeted(fixture, incarnation=5, **limits):
    """A node with the longest names, and its peer n0."""
    node = longest(fixture, peers=[("n0", NOBODY)], **limits)
    return node, Peer.dial(node, incarnation=incarnation).greet()


def line_of(post):
    """A post's message as a page has it. Its moment is the last one."""
    words, _, body = post.partition(" :")
    _, _, _, _, _, id, _, kind, to, source = words.split(" ")
    return f"@msgid={id};time=9999-12-31T23:59:59.999Z :{source} {'NOTICE' if kind == 'N' else 'PRIVMSG'} {to} :{body}"


def reader(node):
    """A client that asks for pages."""
    client = guest(node)
    client.say(f"CAP REQ :{PAST}")
    client.say_who()
    client.say("CAP END")
    client.hear(f":bnc.example CAP * ACK :{PAST}", *greeting(NICK, NETWORK))
    return client


def brings(node, peer, posts):
    """A peer's posts are taken, and go on to it. The client asks for pages then."""
    peer.give(0, *posts)
    peer.hear_acknowledged(len(posts))
    peer.hear_packet(0, len(posts), *posts)
    return reader(node)


@test
def the_longest_posts_that_a_peer_brings(fixture):
    """They go on to the peer, as to any, and are on a page."""
    node, peer = greeted(fixture)
    posts = [post(kind=kind, id=kind + "i" * 254) for kind in "NP"]
    client = brings(node, peer, posts)
    client.say(f"CHATHISTORY LATEST {TARGET} * 5")
    client.hear(*page(1, TARGET, *map(line_of, posts)))


@test
def the_longest_posts_with_tags_that_a_peer_brings(fixture):
    """Each field at its limit, and 4,094 bytes of tags."""
    node, peer = greeted(fixture)
    plain = [post(kind=kind, id=kind + "i" * 254) for kind in "NP"]
    posts = [with_tags(line) for line in plain]
    client = brings(node, peer, posts)
    client.say(f"CHATHISTORY LATEST {TARGET} * 5")
    client.hear(*page(1, TARGET, *(line_of(line).replace(" ", f";{RECORD_TAGS} ", 1) for line in plain)))


@test
def a_packet_of_the_most_changes_and_pages_of_the_longest_messages(fixture):
    """256 posts, each of the longest. A client gets the last hundred of them at once, with the least bound."""
    node, peer = greeted(fixture, bound=1024)
    posts = [post(id=f"{number:03}{'i' * 252}") for number in range(256)]
    client = brings(node, peer, posts)
    client.say(f"CHATHISTORY LATEST {TARGET} * 101")
    client.hear(*page(1, TARGET, *map(line_of, posts[-100:])))


# A field of one byte more than it may have, in a change that a peer brings, or a number of one more.
BEYOND = (
    ("an account of 33 bytes", post(account="a" * 33)),
    ("a network of 33 bytes", post(network="n" * 33)),
    ("a target of 201 bytes", post(target="#" + "t" * 200)),
    ("an id of 256 bytes", post(id="i" * 256)),
    ("a moment after the last", post(ms="253402300800000")),
    ("a target as it was spelled of 201 bytes", post(to="#" + "T" * 200)),
    ("a source of 256 bytes", post(source="s" * 256)),
    ("a notice whose line has 511 bytes", post() + "b"),
    ("a message whose line has 511 bytes", post(kind="P") + "b"),
    ("tags of 4,095 bytes", with_tags(post(), RECORD_TAGS + "x")),
    ("a redaction of an id of 256 bytes", f"C REDACT {ACCOUNT} {NETWORK} {TARGET} {'i' * 256} *"),
    ("a redaction after the last moment", f"C REDACT {ACCOUNT} {NETWORK} {TARGET} i 253402300800000"),
    ("a marker of a target of 201 bytes", f"C MARK {ACCOUNT} {NETWORK} {TARGET}t 0"),
    ("a marker after the last moment", f"C MARK {ACCOUNT} {NETWORK} {TARGET} 253402300800000"),
    ("a floor of an account of 33 bytes", f"C FLOOR {ACCOUNT}a {NETWORK} {TARGET} 0"),
    ("a floor after the last moment", f"C FLOOR {ACCOUNT} {NETWORK} {TARGET} 253402300800000"),
    ("a name of 33 bytes in a floor of an account", f"C AFLOOR {ACCOUNT}a 0"),
    ("a floor of an account after the last moment", f"C AFLOOR {ACCOUNT} 253402300800000"),
)


def closed_by(change):
    """A test that a packet closes the connection if its last change is this one, and that nothing of it is taken."""

    def call(fixture):
        node, peer = greeted(fixture)
        mark = f"C MARK {ACCOUNT} {NETWORK} {TARGET} 1"
        peer.give(0, mark, change)
        peer.hear_end()
        again = Peer.dial(node, incarnation=6).greet()
        again.give(0, f"C MARK {ACCOUNT} {NETWORK} #z 1")
        again.hear_acknowledged(1)
        again.hear_packet(0, 1, f"C MARK {ACCOUNT} {NETWORK} #z 1")

    return call


for name, change in BEYOND:
    add(f"limits: a peer's connection is closed by {name}", closed_by(change))


@test
def other_changes_of_a_peer_at_their_limits(fixture):
    """A redaction, a marker and floors have fields of the same lengths, and moments up to the last one."""
    node, peer = greeted(fixture)
    last = "253402300799999"
    changes = [
        f"C REDACT {ACCOUNT} {NETWORK} {TARGET} {'i' * 255} {last}", f"C MARK {ACCOUNT} {NETWORK} {TARGET} {last}",
        f"C FLOOR {ACCOUNT} {NETWORK} {TARGET} {last}", f"C AFLOOR {'b' * 32} {last}",
    ]
    peer.give(0, *changes)
    peer.hear_acknowledged(4)
    peer.hear_packet(0, 4, *changes)


@test
def the_greatest_numbers_between_nodes(fixture):
    """An incarnation and the number that is acknowledged have 64 bits."""
    most = 2 ** 64 - 1
    node, peer = greeted(fixture, incarnation=most)
    mark = f"C MARK {ACCOUNT} {NETWORK} {TARGET} 1"
    peer.give(most - 1, mark, upto=most)
    peer.hear_acknowledged(most)
    peer.hear_packet(0, 1, mark)
    peer.close()
    node.wait_for("peer down: n0")
    other = Peer.dial(node)
    other.say("W green", f"H 3 n0 {most + 1}")
    other.hear_end()
    for head in (f"D n0 {most + 1} {peer.other} 0 1 1", f"D n0 5 {peer.other} {most} {most + 1} 1"):
        other = Peer.dial(node).greet()
        # (it is behind the life of the greatest incarnation)
        other.hear(f"A {other.other} n0 {most} 0")
        other.say(head)
        other.hear_end()


@test
def the_longest_word_and_names_of_nodes(fixture):
    """The word has up to 64 bytes, and a node's name up to 32. The node's name stands in the ids that it makes."""
    word, name, other = "w" * 64, "n" * 32, "m" * 32
    server = Server(fixture)
    node = Node(fixture, name, [server.address], [(other, NOBODY)], peer_word=word).begin()
    for wrong in (word + "w", word[:-1], word[:-1] + "x"):
        stranger = Peer.dial(node, other)
        stranger.say(f"W {wrong}")
        stranger.hear_end()
    stranger = Peer.dial(node, other)
    stranger.say(f"W {word}", f"H 3 {other}m 5")
    stranger.hear_end()
    peer = Peer.dial(node, other)
    peer.say(f"W {word}", f"H 3 {other} 5")
    peer.hear(f"W {word}")
    peer.hear_hello()
    session = server.register()
    client = node.client().register("message-tags")
    session.say(":bob!b@h PRIVMSG #a :hi")
    if not re.fullmatch(f"@msgid={name}-[0-9]+-1000000000000 :bob!b@h PRIVMSG #a :hi", client.line()):
        raise Failed("expected an id that begins with the node's name")
    expect("the packet", f"D {peer.other} {peer.life} 0 1 1", peer.line())
