"""Client-only tags: kept with their message, passed on, and told to sessions that hold `message-tags` (the IRCv3 specification
message-tags, "Client-only tags", "Escaping values" and "Size limit"; docs/PROTOCOL.md)."""

import array
import time

from harness.client import page
from harness.failure import Failed, expect
from harness.keys import most_keys
from harness.node import Node
from harness.peer import Peer
from harness.registry import add, test
from harness.server import Server, begun

NOBODY = ("127.0.0.1", 1)
PAST = "batch draft/chathistory message-tags server-time"
TIME = "time=2026-11-23T00:00:07.000Z"
MS = 1795392007000
TOO_LONG = ":bnc.example 417 al :Input line was too long"

# Client-only tags of a record, or of a client's line.
MOST = 4094

# Each escape of a value, and none where it isn't needed.
ESCAPES = r"+e=a\:b\sc\\d\re\nf;+plain=ü,:=x"


def shown(tags, text="hi", id="m1"):
    """A message as a session with all tags is told it."""
    return f"@msgid={id};{TIME}{';' if tags else ''}{tags} :bob!b@h PRIVMSG #a :{text}"


# What a server's tags come to in the record of its line.
KEPT = (
    ("one tag", "+r=1", "+r=1"),
    ("no client-only tag", "account=b;label=7", ""),
    ("tags that are not client-only", "+r=1;account=b;-x;+y", "+r=1;+y"),
    ("the last value of a key, in its first place", "+b=2;a=1;+c;+b=3", "+b=3;+c"),
    ("an empty value", "+y=;+z=\\", "+y;+z"),
    ("the key + alone", "+;+=x;x", "+=x"),
    ("tags with an empty key", "=x;;+a", "+a"),
    ("every escape", ESCAPES, ESCAPES),
    ("escapes that aren't needed", r"+a=\b\\\x;+b=1\ ", r"+a=b\\x;+b=1"),
)


def keeps(tags, kept):
    """A test that a message with these tags is told and kept with those."""

    def call(fixture):
        node, server, session = begun(fixture)
        knows = node.client("a client with tags").register(PAST)
        plain = node.client("a plain client").register("server-time")
        session.say(f"@{tags.rstrip()};msgid=m1;{TIME} :bob!b@h PRIVMSG #a :hi")
        knows.hear(shown(kept))
        plain.hear(f"@{TIME} :bob!b@h PRIVMSG #a :hi")
        knows.say("CHATHISTORY LATEST #a * 10")
        knows.hear(*page(1, "#a", shown(kept)))
        late = node.client("a client without tags").register("batch draft/chathistory server-time")
        late.say("CHATHISTORY LATEST #a * 10")
        late.hear(*page(1, "#a", f"@{TIME} :bob!b@h PRIVMSG #a :hi"))

    return call


for name, tags, kept in KEPT:
    add(f"tags: kept of {name}", keeps(tags, kept))


@test
def the_most_tags_of_a_record(fixture):
    """A record has up to 4,094 bytes of client-only tags, whatever the length of its line. With a byte more the message is kept
    without tags."""
    node, server, session = begun(fixture)
    client = node.client().register(PAST)
    most = "+x=" + "x" * (MOST - 3)
    body = "b" * (510 - len(":bob!b@h PRIVMSG #a :"))
    session.say(f"@{most};msgid=m1;{TIME} :bob!b@h PRIVMSG #a :{body}", f"@{most}x;msgid=m2;{TIME} :bob!b@h PRIVMSG #a :{body}")
    client.hear(shown(most, body), shown("", body, "m2"))
    client.say("CHATHISTORY LATEST #a * 10")
    client.hear(*page(1, "#a", shown(most, body), shown("", body, "m2")))


@test
def the_longest_tags_of_a_page(fixture):
    """The most client-only tags behind an id of 255 bytes, each of which is written as two."""
    node, server, session = begun(fixture)
    client = node.client().register(PAST)
    most, id = "+x=" + "x" * (MOST - 3), r"\:" * 255
    session.say(f"@{most};msgid={id};{TIME} :bob!b@h PRIVMSG #a :hi")
    client.hear(shown(most, id=id))
    client.say("CHATHISTORY LATEST #a * 10")
    client.hear(*page(1, "#a", shown(most, id=id)))


@test
def tags_take_a_detour_over_a_peer(fixture):
    """A post with tags has a line of its own, which is read back byte for byte."""
    node, server, session = begun(fixture, peers=[("n0", NOBODY)])
    peer = Peer.dial(node).greet()
    session.say(f"@{ESCAPES};msgid=m1;{TIME} :bob!b@h PRIVMSG #a :hi")
    first = f"C TPOST demo net #a m1 {MS} P {ESCAPES} #a bob!b@h :hi"
    peer.hear_packet(0, 1, first)
    session.say(f"@msgid=m2;{TIME} :bob!b@h PRIVMSG #a :plain")
    peer.acknowledge(1)
    peer.hear_packet(1, 2, f"C POST demo net #a m2 {MS} P #a bob!b@h :plain")
    other = Node(fixture, servers=[NOBODY], peers=[("n0", NOBODY)]).begin()
    giver = Peer.dial(other).greet()
    giver.give(0, first)
    giver.hear_acknowledged(1)
    client = other.client().register(PAST)
    client.say("CHATHISTORY LATEST #a * 10")
    client.hear(*page(1, "#a", shown(ESCAPES)))


# More tags than are looked at without memory.
MANY = ";".join(f"+key{number}" for number in range(40))
# Lines of a post with tags that close a connection between nodes.
REFUSED = (
    ("an empty value behind =", "+y="),
    ("a key without +", "y=1"),
    ("a key twice", "+x;+x"),
    ("a key twice among many", f"+x;{MANY};+x"),
    ("an empty value behind = among many", f"{MANY};+y="),
    ("a key without + among many", f"{MANY};y=1"),
    ("a byte too many", "+x=" + "x" * (MOST - 2)),
)


def closes(tags):
    def call(fixture):
        node = Node(fixture, servers=[NOBODY], peers=[("n0", NOBODY)]).begin()
        peer = Peer.dial(node).greet()
        peer.give(0, f"C TPOST demo net #a m1 {MS} P {tags} #a bob!b@h :hi")
        peer.hear_end()

    return call


for name, tags in REFUSED:
    add(f"tags: a peer's post is refused for {name}", closes(tags))


@test
def the_most_tags_of_a_peer(fixture):
    node = Node(fixture, servers=[NOBODY], peers=[("n0", NOBODY)]).begin()
    peer = Peer.dial(node).greet()
    most = "+x=" + "x" * (MOST - 3)
    peer.give(0, f"C TPOST demo net #a m1 {MS} P {most} #a bob!b@h :hi")
    peer.hear_acknowledged(1)
    client = node.client().register(PAST)
    client.say("CHATHISTORY LATEST #a * 10")
    client.hear(*page(1, "#a", shown(most)))


@test
def of_two_posts_of_one_moment_that_with_the_greater_tags_is_kept(fixture):
    """In whatever order they come, and whatever they say."""
    lines = [
        f"C TPOST demo net #a m1 {MS} P +x=1 #a bob!b@h :a",
        f"C TPOST demo net #a m1 {MS} P +y #a bob!b@h :z",
        f"C POST demo net #a m1 {MS} N #a bob!b@h :a",
    ]
    for order in (lines, lines[::-1], lines[1:] + lines[:1]):
        node = Node(fixture, servers=[NOBODY], peers=[("n0", NOBODY)]).begin()
        peer = Peer.dial(node).greet()
        peer.give(0, *order)
        peer.hear_acknowledged(3)
        client = node.client().register(PAST)
        client.say("CHATHISTORY LATEST #a * 10")
        client.hear(*page(1, "#a", shown("+y", "z")))
        node.kill()


@test
def a_typing_notice_goes_to_those_that_know_tags(fixture):
    """A TAGMSG of the server, with its client-only tags in front. It isn't kept, and `echo-message` doesn't decide who hears it."""
    node, server, session = begun(fixture, workers=2)
    knows = [node.client(f"a client with tags {number}").register(PAST) for number in range(3)]
    plain = node.client("a plain client").register("server-time")
    session.say(
        "@+typing=active;account=b;msgid=t1 :bob!b@h TAGMSG #a", "@account=b :bob!b@h TAGMSG #a", ":al!a@h TAGMSG #a",
        "@+x :bob!b@h TAGMSG", f"@{'+x=' + 'x' * (8189 - 3)} :bob!b@h TAGMSG #a",
    )
    for client in knows:
        client.hear("@+typing=active :bob!b@h TAGMSG #a", ":bob!b@h TAGMSG #a", ":al!a@h TAGMSG #a", "@+x :bob!b@h TAGMSG")
        client.hear(f"@{'+x=' + 'x' * (8189 - 3)} :bob!b@h TAGMSG #a")
        client.say("CHATHISTORY LATEST #a * 10")
        client.hear(*page(1, "#a"))
    plain.ping()


@test
def who_sends_a_typing_notice_gets_it_back_where_the_server_echoes(fixture):
    """With `echo-message` and without it: a TAGMSG is no live line. Of a message the one without it hears nothing."""
    node, server, session = begun(fixture, "echo-message message-tags")
    echoes = node.client("a client with echo-message").register("echo-message message-tags")
    silent = node.client("a client without it").register("message-tags")
    plain = node.client("a client without tags").register("echo-message")
    for number, speaker in enumerate((echoes, silent)):
        speaker.say(f"@+typing=active;+at={number} TAGMSG #a", "PRIVMSG #a :hi")
        session.hear(f"@+typing=active;+at={number} TAGMSG #a", "PRIVMSG #a :hi")
        session.say(f"@+typing=active;+at={number} :al!a@h TAGMSG #a", f"@msgid=e{number} :al!a@h PRIVMSG #a :hi")
        server.told(session)
        for client in (echoes, silent):
            client.hear(f"@+typing=active;+at={number} :al!a@h TAGMSG #a")
        echoes.hear(f"@msgid=e{number} :al!a@h PRIVMSG #a :hi")
        plain.hear(":al!a@h PRIVMSG #a :hi")
        for client in (echoes, silent, plain):
            client.ping()


@test
def nothing_is_passed_on_before_the_network_is_up(fixture):
    server = Server(fixture)
    node = Node(fixture, servers=[server.address]).begin()
    session = server.greeted()
    client = node.client().register(PAST)
    session.say("@+typing=active :bob!b@h TAGMSG #a", "PING :x")
    session.hear("PONG :x")
    client.ping()


@test
def what_a_client_says_goes_to_the_server_with_its_client_only_tags(fixture):
    """Where that server was asked for `message-tags`; and so do replies and typing notices. Any other line goes without tags."""
    node, server, session = begun(fixture)
    speaker = node.client("the speaker").register()
    speaker.say(
        "@+r=m1;x=1 :me!u@h PRIVMSG #b :hi", "@x=1 NOTICE #b :hi", "@+typing=active;label=7 TAGMSG #b", "TAGMSG #b",
        "@+r=1 JOIN #b", f"@{ESCAPES} NOTICE #b :x", f"@{'+x=' + 'x' * (MOST - 3)} PRIVMSG #b :x",
    )
    session.hear(
        "@+r=m1 PRIVMSG #b :hi", "NOTICE #b :hi", "@+typing=active TAGMSG #b", "TAGMSG #b",
        "JOIN #b", f"@{ESCAPES} NOTICE #b :x", f"@{'+x=' + 'x' * (MOST - 3)} PRIVMSG #b :x",
    )
    speaker.say(f"@{'+x=' + 'x' * (MOST - 2)} PRIVMSG #b :x")
    speaker.hear(TOO_LONG)
    speaker.ping()


@test
def a_server_without_tags_gets_none(fixture):
    """And no TAGMSG. What is kept here then has no tags either."""
    node, server, session = begun(fixture, "server-time")
    speaker = node.client("the speaker").register()
    other = node.client("another").register("batch draft/chathistory echo-message message-tags")
    speaker.say("@+typing=active TAGMSG #a", "@+r=m1 PRIVMSG #a :hi")
    session.hear("PRIVMSG #a :hi")
    line = other.line()
    expect("the other", True, line.startswith("@msgid=n1-") and line.endswith(" :al PRIVMSG #a :hi") and ";+" not in line)
    other.say("CHATHISTORY LATEST #a * 10")
    other.hear(*page(1, "#a", line))


@test
def what_is_kept_here_has_the_tags_that_the_server_got(fixture):
    """Where the server doesn't echo."""
    node, server, session = begun(fixture, "message-tags")
    speaker = node.client("the speaker").register()
    other = node.client("another").register("batch draft/chathistory echo-message message-tags")
    speaker.say("@+r=m1;x=2 PRIVMSG #a :hi", "@+typing=active TAGMSG #a")
    session.hear("@+r=m1 PRIVMSG #a :hi", "@+typing=active TAGMSG #a")
    line = other.line()
    expect("the other", True, line.startswith("@msgid=n1-") and line.endswith(";+r=m1 :al PRIVMSG #a :hi"))
    other.say("CHATHISTORY LATEST #a * 10")
    other.hear(*page(1, "#a", line))


@test
def a_typing_notice_to_a_network_that_is_not_up(fixture):
    """Is answered like anything else that would go there."""
    node = Node(fixture, servers=[NOBODY]).begin()
    client = node.client().register()
    client.say("TAGMSG #a", "@+typing=active TAGMSG #a", "TAGMSG")
    client.hear(*3 * [":bnc.example NOTICE al :Not connected to net"])


# Ten tags with those of an id and a moment, of which two are kept.
TEN = "account=b;+draft/reply=abcdefgh;label=7;{};batch=x9;example.com/a=1;+r=1;example.com/b=2;bot"
TWO = "+draft/reply=abcdefgh;+r=1"
LINES = 100


def lines_of(tags, command="PRIVMSG", text=" :hi"):
    """Lines of the server with these tags, among which are an id and a moment of each."""
    ids = (f"msgid=m{n:03};time=2026-11-23T00:{n // 60:02}:{n % 60:02}.000Z" for n in range(2 * LINES))
    return [f"@{tags.format(id)} :bob!b@h {command} #a{text}" for id in ids]


def asked_for(fixture, lines):
    """How many requests for memory of each size a node makes for the second half of these lines, each of which comes by itself.
    The sizes that it asks for whenever something comes are left out."""
    front = ["env", f"LD_PRELOAD={fixture.shims.path('count')}", f"COUNTS={fixture.path('counts')}"]
    node, _, session = begun(fixture, workers=1, front=front)
    counted = []
    for part in (lines[:LINES], lines[LINES:], LINES * [":irc.example 002 al :hi"]):
        for line in part:
            # (in one packet, since a second one would wait until the first is acknowledged)
            session.say(line, "PING :taken")
            session.hear("PONG :taken")
        counted.append(counts(fixture))
    node.kill()
    first, second, idle = counted
    if first == idle:
        raise Failed("no request for memory was counted: is the program built with a sanitizer, which has its own malloc?")
    both = enumerate(zip(first, second, idle))
    return {size: then - before for size, (before, then, after) in both if then > before and after == then}


def counts(fixture):
    """How many requests of each size there were so far."""
    with open(fixture.path("counts"), "rb") as file:
        return array.array("Q", file.read())


def asked_for_records(fixture, tags):
    """The same of messages with these tags, without what typing notices with the same tags ask for: the map of the tags. (For a
    notice alone there is a block more, of the text that clients are told.)"""
    message, notice = (asked_for(fixture, lines_of(tags, *how)) for how in ((), ("TAGMSG", "")))
    beside = {size: message.get(size, 0) - notice.get(size, 0) for size in {*message, *notice}}
    return {size: count for size, count in beside.items() if count > 0}


@test
def a_line_asks_for_the_memory_of_its_record_and_of_the_map_of_its_tags(fixture):
    """Whatever tags it has: those that aren't kept ask for no more, and those that are for their bytes in a block that is there
    without them."""
    ten, two, none = (asked_for_records(fixture, tags) for tags in (TEN, "{};" + TWO, "{}"))
    expect("requests by their sizes", two, ten)
    expect("requests", sum(none.values()), sum(two.values()))
    more = sum(size * (two.get(size, 0) - none.get(size, 0)) for size in {*two, *none})
    expect("bytes for what is kept", LINES * len(TWO), more)


@test
def the_map_of_few_tags_is_four_blocks(fixture):
    """And the text that clients are told is one. A line without tags asks for that alone."""
    notice = asked_for(fixture, lines_of("{};" + TWO, "TAGMSG", ""))
    expect("at most five blocks for a line", True, sum(notice.values()) <= 5 * LINES)
    bare = asked_for(fixture, 2 * LINES * [":bob!b@h TAGMSG #a"])
    expect("requests without tags", LINES, sum(bare.values()))


# What a line costs is measured so often, over so many hundred lines.
ROUNDS, HUNDREDS = 5, 2
# Within so many seconds a PING is answered, which is tried so often at most.
SOON, MOST_ROUNDS = 0.02, 200
# The most bytes of tags that a server's line has.
SERVERS = 8189


@test
def a_line_of_the_most_keys_holds_up_nobody(fixture):
    """While a client sends 14 of them, another's PING at the same worker is answered within 20 ms: the quickest answer counts,
    since other tests may have the processors meanwhile."""
    node, server, session = begun(fixture, workers=1)
    speaker, other = node.client("the speaker").register(), node.client("another").register()
    line = b"@" + most_keys(MOST) + b" PRIVMSG #a :hi\r\n"
    answered = []
    while len(answered) < ROUNDS or min(answered) > SOON and len(answered) < MOST_ROUNDS:
        speaker.send(14 * line)
        began = time.monotonic()
        other.ping()
        answered.append(time.monotonic() - began)
        speaker.ping()
        for _ in range(14):
            session.line("a line of the speaker")
    fixture.notes.append(f"answered within {1000 * min(answered):.1f} ms")
    if min(answered) > SOON:
        raise Failed(f"another client's PING was answered after {min(answered):.3f} seconds")


@test
def the_most_keys_of_a_servers_line(fixture):
    """Take at most ten times the processor time of one tag of as many bytes."""
    node, server, session = begun(fixture, workers=1)
    keys = most_keys(SERVERS)
    one = b"+x=" + (len(keys) - 3) * b"x"
    many, single = (least_seconds(node, session, b"@" + tags + b" :bob!b@h PRIVMSG #a :hi\r\n") for tags in (keys, one))
    fixture.notes.append(f"{many / single:.1f} times the time of one tag")
    if many > 10 * single:
        raise Failed(f"{HUNDREDS} hundred lines take {many:.3f} seconds with {keys.count(b';') + 1} keys, {single:.3f} with one tag")


def least_seconds(node, session, line):
    """The least processor time in which a node takes some hundred such lines of its server."""
    return min(seconds_of(node, session, line) for _ in range(ROUNDS))


def seconds_of(node, session, line):
    before = node.processor_seconds()
    for _ in range(HUNDREDS):
        session.send(100 * line)
        session.say("PING :taken")
        session.hear("PONG :taken")
    return node.processor_seconds() - before
