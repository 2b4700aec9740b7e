"""Lines of the worked examples with one byte replaced, left out or doubled, and each beginning of them: what comes is an answer
of docs/PROTOCOL.md or a refusal by name, and the next line is served. What is expected are the forms of the tables there."""

import re
import socket
import subprocess
import time

from harness.connection import connect
from harness.failure import Failed, expect, shortened
from harness.mutations import mutated, prefixes
from harness.node import Node
from harness.peer import Peer
from harness.peer_lines import LINES as PEER_LINES
from harness.peer_lines import arrivals, probe
from harness.registry import add, test

PLACE = rb"[^ \0\r\n]+"
TAGS = rb"(@" + PLACE + rb" )?"
# What a session of `bnc replay` answers, and the script itself (docs/PROTOCOL.md).
ANSWERS = re.compile(
    rb":bnc\.example (" + rb"|".join((
        rb"BATCH \+r\d+ (chathistory " + PLACE + rb"|draft/chathistory-targets)", rb"BATCH -r\d+",
        rb"CHATHISTORY TARGETS " + PLACE + rb" \d{4}-\d\d-\d\dT\d\d:\d\d:\d\d\.\d{3}Z",
        rb"MARKREAD " + PLACE + rb" (\*|timestamp=\d{4}-\d\d-\d\dT\d\d:\d\d:\d\d\.\d{3}Z)",
        rb"FAIL CHATHISTORY INVALID_PARAMS :Missing parameters",
        rb"FAIL CHATHISTORY INVALID_PARAMS " + PLACE + rb" :(Unknown command|Missing parameters|Invalid parameters)",
        rb"FAIL CHATHISTORY INVALID_TARGET " + PLACE + rb" :Invalid target",
        rb"FAIL CHATHISTORY INVALID_MSGREFTYPE " + PLACE + rb" :Invalid message reference type",
        rb"FAIL CHATHISTORY MESSAGE_ERROR " + PLACE + rb" " + PLACE + rb" :No such message",
        rb"FAIL MARKREAD (NEED_MORE_PARAMS :Missing|INVALID_PARAMS :Invalid) parameters",
        rb"FAIL REDACT (NEED_MORE_PARAMS :Missing parameters|INVALID_TARGET :Invalid target)",
        rb"FAIL REDACT (UNKNOWN_MSGID " + PLACE + rb" :No such message|REDACT_FORBIDDEN " + PLACE + rb" :Not allowed here)",
        rb"CAP al (LS|LIST|ACK|NAK) :[^\0\r\n]*", rb"410 al " + PLACE + rb" :Invalid CAP command",
        rb"417 al :Input line was too long", rb"421 al " + PLACE + rb" :Unknown command", rb"431 al :No nickname given",
        rb"432 al " + PLACE + rb" :Erroneous nickname", rb"461 al [A-Z]+ :Not enough parameters",
        rb"462 al :You may not reregister", rb"NOTICE al :Not connected to net", rb"PONG bnc\.example :[^\0\r\n]*",
    )) + rb")|@batch=r\d+ :bnc\.example CHATHISTORY TARGETS " + PLACE + rb" \d{4}-\d\d-\d\dT\d\d:\d\d:\d\d\.\d{3}Z"
    rb"|" + TAGS + rb":" + PLACE + rb" (PRIVMSG|NOTICE) " + PLACE + rb" :[^\0\r\n]*|% (BadForm|BadField|WrongLife)"
)

POSTS = b"".join(b"C POST demo net #a m%d %d000 P #a bob!b@h :%c\n" % (n, n, 96 + n) for n in range(1, 6))
# The lines of the examples that a script may have.
LINES = (
    b"CHATHISTORY LATEST #a * 10", b"CHATHISTORY AFTER #a msgid=m1 1", b"CHATHISTORY BETWEEN #a msgid=m5 msgid=m1 2",
    b"CHATHISTORY AROUND #a msgid=m3 4", b"CHATHISTORY BEFORE #a timestamp=1970-01-01T00:00:03.000Z 5",
    b"CHATHISTORY TARGETS timestamp=1970-01-01T00:00:09.000Z timestamp=1970-01-01T00:00:00.000Z 1",
    b"CHATHISTORY BEFORE a,b id=1 0", b"MARKREAD #a timestamp=1970-01-01T00:00:05.000Z", b"MARKREAD #b",
    b"REDACT #a m1 :why", b"JOIN #b", b"NICK bo", b"CAP LS 302", b"CAP REQ :batch nope", b"CAP REQ :server-time batch",
    b"CAP END", b"PASS s3cret", b"USER demo/net 0 * :Al", b"@+a=b;c :x PING x", b"@+typing=active TAGMSG #a",
    b"C POST demo net #a m1 1000 P #a bob!b@h :hi", b"C TPOST demo net #a m1 1000 P +x=1 #a bob!b@h :hi",
    b"C REDACT demo net #a m2 *", b"C MARK demo net #a 5000", b"C FLOOR demo net #a 1", b"C AFLOOR demo 1",
    b"%1>2", b"%1>2-", b"%1<2", b"%1>2!", b"%1*", b"%0",
)


def lines_of(what, text):
    """The lines of bytes that were written: each ends with CR LF and has no CR or LF before that."""
    *lines, rest = text.split(b"\r\n")
    if rest or any(b"\n" in line or b"\r" in line or b"\0" in line for line in lines):
        raise Failed(f"{what}: this isn't lines: {shortened(text)}")
    return lines


def is_served(line):
    """A test of `bnc replay` over the line, each time with a question behind it that has its own answer."""

    def call(fixture):
        tried = [*mutated(line), *prefixes(line)]
        script = POSTS + b"".join(b"%s\nPING still-%d\n" % (other, number) for number, other in enumerate(tried))
        ran = fixture.replay(script)
        expect("status", (0, b""), (ran.status, ran.errors))
        rest = ran.output
        for number, other in enumerate(tried):
            answer, mark, rest = rest.partition(b":bnc.example PONG bnc.example :still-%d\r\n" % number)
            if not mark:
                raise Failed(f"behind {other!r} nothing is served: {shortened(answer)}")
            for told in lines_of(other, answer):
                if not ANSWERS.fullmatch(told):
                    raise Failed(f"{other!r} is answered {shortened(told)}")
        expect("the rest", b"", rest)

    add(f"hostile: a script with {line.decode()!r}", call)


for line in LINES:
    is_served(line)


def sessions_are_served(file, cases, judge):
    """A test over the sessions that test_sessions plays. It shows what a case came to where that isn't what is wanted, and
    nothing comes to `!`."""

    def call(fixture):
        tried = list(cases())
        text = "".join(f"== {setting}: {number}\n{script}\n--\n!" for number, (setting, script) in enumerate(tried))
        fixture.write(file, text.encode())
        ran = fixture.play("test_sessions", file, "none", most=100)
        rest = ran.output
        for number, (setting, script) in enumerate(tried):
            told, mark, rest = rest.partition(f"wrong: {setting}: {number}\n{script}\n--\n!\n".encode())
            if not mark:
                raise Failed(f"{script!r} wasn't played: {shortened(told)}, {ran.errors!r}")
            judge(script, told.decode().splitlines())
        rows = text.count("\n") + 1
        expect("the rest", f"{file}: {len(tried)} cases of {rows} rows, {len(tried)} wrong\n".encode(), rest)
        fixture.notes.append(f"{len(tried)} cases")

    add(f"hostile: sessions of {file.partition('_')[0]}s", call)


# (in these files a NUL is spelled so, and a CR; the byte 255 comes over a script and a socket)
SPELLED = ("␀", "␍", "\n", " ", "ÿ")


def spelled(text):
    """A text with one character replaced, left out or doubled."""
    for at in range(len(text)):
        before, here, behind = text[:at], text[at], text[at + 1:]
        yield from (before + other + behind for other in (*SPELLED, "", here + here))


REGISTRATION = ("CAP LS 302", "NICK al", "USER demo/net 0 * :Al", "PASS s3cret", "CAP REQ :batch nope",
                "CAP REQ :server-time batch", "CAP END")


def registrations():
    for at, line in enumerate(REGISTRATION):
        for other in spelled(line):
            yield "new up", "\n".join([*REGISTRATION[:at], other, *REGISTRATION[at + 1:], "PING still"])


REGISTERING = re.compile(
    r":~ (CAP (\*|al) (LS|LIST|ACK|NAK) :.*|410 (\*|al) \S+ :Invalid CAP command|421 (\*|al) \S+ :Unknown command|"
    r"431 \* :No nickname given|432 \* \S+ :Erroneous nickname|451 \* :You have not registered|"
    r"461 (\*|al) [A-Z]+ :Not enough parameters|462 al :You may not reregister|464 \* :Password incorrect|"
    r"001 al :Welcome to net|005 al CASEMAPPING=ascii CHATHISTORY=100 MSGREFTYPES=msgid,timestamp :are supported by this "
    r"server|422 al :MOTD File is missing|PONG ~ :.*|417 (\*|al) :Input line was too long)|ERROR :Closing link|close|"
    r"up [A-Z]\S*( .*)?"
)


def registers(script, told):
    """What a new session tells. It serves the last line, or is closed by a wrong secret and tells nothing more."""
    for line in told:
        if not REGISTERING.fullmatch(line):
            raise Failed(f"{script!r} is answered {line!r}")
    if told[-1:] != [":~ PONG ~ :still"] and told[-3:] != [":~ 464 * :Password incorrect", "ERROR :Closing link", "close"]:
        raise Failed(f"{script!r} isn't served to its end: {told!r}")


sessions_are_served("client_mutated", registrations, registers)

FROM_SERVER = (
    ("up", "@msgid=a\\:b\\;time=1970-01-01T00:00:01.000Z :bob!b@h PRIVMSG #a :hi"), ("up", ":bob!b@h PRIVMSG al :yo"),
    ("tags", "@+r=1;msgid=m9;account=b;time=1970-01-01T00:00:02.000Z :bob!b@h PRIVMSG #a :yo"),
    ("tags", "@+r=1;x=2 :bob!b@h TAGMSG #a"), ("redact", ":bob!b@h REDACT #a m1 :oops"), ("up", ":al JOIN #b"),
    ("up", ":al!u@h NICK bo"), ("up", ":bob!b@h KICK #a al :out"), ("up", ":al PART #a"),
    ("new", "CAP * LS :server-time echo-message=y draft/message-redaction"), ("new", ":irc.example 001 al :Welcome"),
    ("new", ":irc.example 433 * al :Nickname is already in use"),
)


def from_server():
    for setting, line in FROM_SERVER:
        for other in spelled(line):
            lines = "\n".join(f"< {part}" for part in other.split("\n"))
            yield setting, f"{lines}\n< PING :still"


EFFECT = re.compile(
    r"send (CAP (REQ :.*|END)|JOIN \S+|NICK \S+|PONG :.*)|relay (to (message-tags|draft/message-redaction) )?[^\0\r\n]+|"
    r"put C (T?POST demo net \S+ \S+ \d+ [PN] .*|REDACT demo net \S+ \S+ (\*|\d+))|close"
)


def upstream_serves(script, told):
    for line in told:
        if not EFFECT.fullmatch(line):
            raise Failed(f"{script!r} comes to {line!r}")
    if told[-1:] != ["send PONG :still"]:
        raise Failed(f"behind {script!r} nothing is served: {told!r}")


sessions_are_served("upstream_mutated", from_server, upstream_serves)


def changed(line):
    """Each beginning of a line, and the line with one character replaced, left out or doubled. (A CR at its end is its ending.)"""
    for at in range(len(line)):
        before, here, behind = line[:at], line[at], line[at + 1:]
        yield before
        others = (before + other + behind for other in (*SPELLED, *"07zZ:*", "", here + here))
        yield from (other for other in others if not other.endswith("␍"))


@test
def lines_between_nodes_are_read_or_refused(fixture):
    """Lines of each kind through one gather: what arrives is what a plain reader makes of them, and the next line is heard."""
    tried = [other for line in PEER_LINES for other in changed(line)]
    lines = [row for other in tried for part in other.split("\n") for row in probe(part)]
    letters = arrivals([line.replace("␀", "\0").replace("␍", "\r") for line in lines])
    text = "== lines\n" + "".join(f"{letter} {line}\n" for letter, line in zip(letters, lines))
    fixture.write("peer_gathers", text.encode())
    ran = fixture.play("test_sessions", "peer_gathers", most=100)
    expect("what it told", f"peer_gathers: 1 cases of {len(lines) + 1} rows, 0 wrong\n", ran.output.decode()[-300:])
    fixture.notes.append(f"{len(tried)} lines")


@test
def configurations_are_read_or_refused_by_name(fixture):
    """The example with one byte replaced, left out or doubled. The node's address is taken by somebody else, so a configuration
    that is read ends with status 4."""
    node = Node(fixture, peers=[("n0", ("127.0.0.1", 1))], servers=[("127.0.0.1", 1)], channels=["#a"])
    fixture.logs.pop()
    text, counts = node.text().encode(), {}
    with socket.socket() as taken:
        taken.bind(node.clients)
        taken.listen(1)
        for other in [text, *mutated(text, (b"\0", b"\n", b"\xff"))]:
            word = begun_with(fixture, fixture.write("bnc.toml", other))
            counts[word] = counts.get(word, 0) + 1
            if word not in ("status 5, config refused", "status 4, read or write failed", "listens"):
                raise Failed(f"{other!r}: {word}")
    fixture.notes.append(", ".join(f"{count} {word}" for word, count in sorted(counts.items())))


def begun_with(fixture, path):
    """What a node comes to that begins with this configuration."""
    process, end = fixture.start("serve", path, stdin=None, stdout=subprocess.DEVNULL, stderr=subprocess.PIPE), time.monotonic() + 30
    errors = None
    while errors is None:
        try:
            _, errors = process.communicate(timeout=1)
        except subprocess.TimeoutExpired as so_far:
            if b" listening: " in (so_far.stderr or b""):
                # (it read another address)
                process.kill()
                process.communicate()
                return "listens"
            if time.monotonic() > end:
                raise Failed(f"a node neither ended nor listened: {so_far.stderr!r}") from None
    # (the log has a thread of its own, so its first line may come before the end, or not)
    words = re.sub(rb"^(\S+Z )?starting: .*\n", b"", errors)
    return f"status {process.returncode}, {b''.join(words.splitlines()[:1]).decode()}"


PACKET = (b"D n0 5 %s 0 4 4", b"C MARK demo net #a 5000", b"C TPOST demo net #a m1 1000 P +x=1 #a bob!b@h :hi",
          b"C AFLOOR demo 1", b"C REDACT demo net #a m2 *")


@test
def packets_are_taken_or_their_connection_is_closed(fixture):
    """Each beginning of a packet, and each byte of it replaced, over a connection of its own that ends behind it. No more is
    said than the own greeting and an acknowledgement of the whole packet; and then a whole packet is taken."""
    node = Node(fixture, peers=[("n0", ("127.0.0.1", 1))], servers=[("127.0.0.1", 1)]).begin()
    fixture.logs.pop()
    life = Peer.dial(node).greet().other.encode()
    packet = b"\r\n".join(PACKET) % life + b"\r\n"
    greeting, count = [b"W green", b"H 3 %s" % life], 0
    lawful = re.compile(rb"A %s n\d+ \d+ \d+|D %s n0 5 \d+ \d+ \d+|C .*" % (life, life))
    for version in (1, 2, 3):
        for other in [*prefixes(packet), *mutated(packet)] if version == 3 else prefixes(packet):
            answers = answered(fixture, node, version, other)
            if answers[:2] != greeting[:len(answers)] or not all(map(lawful.fullmatch, answers[2:])):
                raise Failed(f"{other!r} is answered {answers!r}")
            count += 1
            if count % 10 == 0:
                whole_is_taken(fixture, node, packet, life)
    whole_is_taken(fixture, node, packet, life)
    fixture.notes.append(f"{count} packets")


def whole_is_taken(fixture, node, packet, life):
    peer = Peer(fixture, connect(fixture, node.peers), "n0").greet()
    peer.send(packet)
    while peer.line("an acknowledgement") != f"A {life.decode()} n0 5 4":
        pass
    peer.close()


def answered(fixture, node, version, data):
    """What the node says over a connection on which a hello and these bytes come, and then a line that closes it."""
    it = connect(fixture, node.peers)
    it.settimeout(fixture.patience())
    held = b""
    try:
        it.sendall(b"W green\r\nH %d n0 5\r\n" % version + data + b"\r\nW red\r\nW red\r\n")
        while True:
            more = it.recv(65536)
            if not more:
                break
            held += more
    except ConnectionError:
        pass
    it.close()
    return held.split(b"\r\n")[:-1]
