"""bnc-porch: clients that can't log in as a node wants it (companions/README.md; companions/bnc-porch.1)."""

import base64
import socket
import time

from harness.client import greeting
from harness.service import Service, certificate, interpreter
from harness.connection import Listener, connect, spelled
from harness.failure import Failed, expect
from harness.networks import TlsConnection, client_context
from harness.node import Node
from harness.readable import readable
from harness.registry import add, test
from harness.server import Server
from harness.websocket import WebSocket

NOBODY = ("127.0.0.1", 1)
# What a node offers (docs/PROTOCOL.md, "Capability negotiation").
OFFERED = "batch draft/chathistory draft/message-redaction draft/read-marker echo-message message-tags server-time"
FAILED = ":porch 904 * :SASL authentication failed"
WRONG = "the account, the network or the secret is wrong"


def porch(fixture, nodes, more="", kind="tls", name="porch", python=None):
    """A porch in front of nodes' addresses."""
    tls = f'certificate = "{certificate("server")}"\n' if kind == "tls" else ""
    names = ", ".join(f'"{spelled(it)}"' for it in nodes)
    text = f'nodes = [{names}]\n{more}[{kind}]\nlisten = "{{listen}}"\n{tls}'
    return Service(fixture, "bnc-porch", text, name, python).begin()


def in_front(fixture, **how):
    """A node whose network is up, with a porch in front of it; and the network's session."""
    server = Server(fixture)
    node = Node(fixture, servers=[server.address], channels=["#a"]).begin()
    session = server.register("echo-message message-tags server-time", channels=("#a",))
    return node, porch(fixture, [node.clients], **how), session


def client_of(fixture, it, name="a client", room=None):
    """A client that connects by TLS, and checks the certificate."""
    plain_socket = connect(fixture, it.address, room)
    return TlsConnection(fixture, client_context().wrap_socket(plain_socket, server_hostname="localhost"), name)


def plain(*parts):
    return base64.b64encode("\0".join(parts).encode()).decode()


def is_in(client, *more, channels=("#a",), nick="al"):
    """The client is let in: it hears the node's greeting, and its answers from then on."""
    client.hear(*greeting(nick), *(f":{nick} JOIN {it}" for it in channels), *more)
    client.say("PING here")
    client.hear(":bnc.example PONG bnc.example :here")


# -- who a client says it is

BY_SASL = (
    ("the account and the network as the user", ("", "demo/net", "s3cret")),
    ("them as who acts", ("demo/net", "demo", "s3cret")),
    ("them as both", ("demo/net", "demo/net", "s3cret")),
    ("the device behind them, as for soju", ("", "demo/net@phone", "s3cret")),
    ("an answer in two parts", ("demo/net", "x" * 300, "s3cret")),
)


def lets_in_by_sasl(fixture, parts):
    """A client by TLS and SASL PLAIN, as HexChat and WeeChat register."""
    _, it, _ = in_front(fixture)
    client = client_of(fixture, it)
    client.say("CAP LS 302", "NICK me", "USER me 0 * :Me")
    client.hear(f":porch CAP * LS :{OFFERED} sasl=PLAIN")
    client.say("CAP REQ :message-tags server-time sasl")
    client.hear(":porch CAP * ACK :message-tags server-time sasl")
    client.say("AUTHENTICATE PLAIN")
    client.hear("AUTHENTICATE +")
    answer = plain(*parts)
    client.say(*(f"AUTHENTICATE {answer[at:at + 400]}" for at in range(0, len(answer), 400)))
    client.hear(":porch 900 me me!*@* demo/net :You are now logged in as demo/net",
                ":porch 903 me :SASL authentication successful")
    client.say("CAP END")
    is_in(client)
    it.wait_for("client in: demo/net from ")
    client.say("CAP LIST")
    client.hear(":bnc.example CAP al LIST :message-tags server-time")
    client.close()
    it.wait_for("client out: demo/net from ")
    expect("the end", 0, it.end())
    expect("what failed", [], [line for line in it.log() if " failed" in line])


for what, parts in BY_SASL:
    add(f"porches: SASL PLAIN with {what}", lambda fixture, parts=parts: lets_in_by_sasl(fixture, parts))


BY_WORDS = (
    ("PASS as for ZNC", ["PASS demo/net:s3cret", "NICK me", "USER me 0 * :Me"]),
    ("PASS as for ZNC, with a device", ["PASS :demo@phone/net:s3cret", "NICK me", "USER me 0 * :Me"]),
    ("PASS as for ZNC, and a user name too", ["PASS demo/net:s3cret", "USER demo/net 0 * :Me", "NICK me"]),
    ("what a node itself takes", ["PASS s3cret", "NICK me", "USER demo/net 0 * :Me"]),
    ("a device as for soju", ["NICK me", "PASS s3cret", "USER demo/net@phone 0 * :Me"]),
    ("lines that end with LF alone", ["PASS s3cret\nNICK me\nUSER demo/net 0 * :Me"]),
)


def lets_in_by_words(fixture, lines):
    """A client that says these lines."""
    _, it, _ = in_front(fixture)
    client = client_of(fixture, it)
    # (what comes right behind is for the node)
    client.say(*lines, "PING behind")
    is_in(client, ":bnc.example PONG bnc.example :behind")


for what, lines in BY_WORDS:
    add(f"porches: {what}", lambda fixture, lines=lines: lets_in_by_words(fixture, lines))


REFUSED = (
    ("a wrong secret", ["PASS demo/net:guess", "NICK me", "USER me 0 * :Me"], WRONG),
    ("an account that there isn't", ["PASS eve/net:s3cret", "NICK me", "USER me 0 * :Me"], WRONG),
    ("another account's login as the secret", ["PASS demo/net:s3cret", "NICK me", "USER eve/net 0 * :Me"], WRONG),
    ("no network", ["PASS demo:s3cret", "NICK me", "USER demo 0 * :Me"],
     "say account/network as the user name, as demo/net, in small letters"),
    ("capital letters", ["PASS s3cret", "NICK me", "USER Demo/net 0 * :Me"],
     "say account/network as the user name, as demo/net, in small letters"),
)


def keeps_out(fixture, lines, why):
    """The client is told why, as a node tells it, and closed; the log has no secret."""
    _, it, _ = in_front(fixture)
    client = client_of(fixture, it)
    client.say(*lines)
    client.hear(f":porch 464 * :Password incorrect: {why}", f"ERROR :{why}")
    client.hear_end()
    it.wait_for("client refused: ")
    if any(word in "".join(it.log()) for word in ("guess", "s3cret")):
        raise Failed("a secret stands in the log")


for what, lines, why in REFUSED:
    add(f"porches: keeps out {what}", lambda fixture, lines=lines, why=why: keeps_out(fixture, lines, why))


@test
def a_wrong_secret_by_sasl_may_be_tried_again(fixture):
    """A client that gives another one is let in. After five wrong ones within a minute an address has to wait."""
    _, it, _ = in_front(fixture)
    client = client_of(fixture, it)
    client.say("CAP REQ sasl", "NICK me", "USER me 0 * :Me")
    client.hear(":porch CAP * ACK :sasl")
    client.say("AUTHENTICATE EXTERNAL")
    client.hear(":porch 908 * PLAIN :are available SASL mechanisms", FAILED)
    for wrong, words in ((plain("", "demo/net", "guess"), f"{FAILED}: {WRONG}"),
                         ("!", f"{FAILED}: this is no answer of SASL PLAIN"),
                         (plain("demo/net", "s3cret"), f"{FAILED}: this is no answer of SASL PLAIN"),
                         (plain("", "demo/net", "s3cret\r\nQUIT"), f"{FAILED}: this can't be a secret")):
        client.say("AUTHENTICATE PLAIN", f"AUTHENTICATE {wrong}")
        client.hear("AUTHENTICATE +", words)
    client.say("AUTHENTICATE PLAIN", "AUTHENTICATE *")
    client.hear("AUTHENTICATE +", ":porch 906 * :SASL authentication aborted")
    client.say("AUTHENTICATE PLAIN", f"AUTHENTICATE {plain('', 'demo/net', 's3cret')}")
    client.hear("AUTHENTICATE +", ":porch 900 me me!*@* demo/net :You are now logged in as demo/net",
                ":porch 903 me :SASL authentication successful")
    client.say("CAP END")
    is_in(client)
    guessing = [client_of(fixture, it, f"guess {number}") for number in range(4)]
    for client in guessing:
        client.say("PASS demo/net:guess", "NICK me", "USER me 0 * :Me")
    for client in guessing:
        client.hear(f":porch 464 * :Password incorrect: {WRONG}")
    late = client_of(fixture, it, "one that knows the secret")
    late.say("PASS demo/net:s3cret", "NICK me", "USER me 0 * :Me")
    late.hear(":porch 464 * :Password incorrect: too many wrong secrets came from your address: wait a minute")


# -- what clients ask for


@test
def it_offers_what_a_node_offers(fixture):
    """And `sasl` besides, without its value where the client doesn't know values."""
    node, it, _ = in_front(fixture)
    itself = node.client()
    itself.say("CAP LS")
    offered = itself.line().partition(" LS :")[2]
    client = client_of(fixture, it)
    client.say("CAP LS", "CAP REQ :cap-notify", "CAP FROB", "JOIN #a")
    client.hear(f":porch CAP * LS :{offered} sasl", ":porch CAP * NAK :cap-notify", ":porch 410 * FROB :Invalid CAP command",
                ":porch 451 * :You have not registered")


@test
def goguma_registers_and_asks_for_the_past(fixture):
    """What it sends (goguma's `lib/client.dart`): capabilities in several requests, one of them once it is logged in, and then
    conversations, a page and markers."""
    _, it, session = in_front(fixture)
    session.say("@msgid=m1;time=2026-01-02T03:04:05.678Z :bob!b@h PRIVMSG #a :hi", "PING :x")
    session.hear("PONG :x")
    client = client_of(fixture, it)
    client.say("CAP LS 302", "NICK me", "USER me 0 * :Me")
    client.hear(f":porch CAP * LS :{OFFERED} sasl=PLAIN")
    client.say("CAP REQ :batch", "CAP REQ :sasl", "AUTHENTICATE PLAIN")
    client.hear(":porch CAP * ACK :batch", ":porch CAP * ACK :sasl", "AUTHENTICATE +")
    client.say(f"AUTHENTICATE {plain('', 'demo/net@goguma', 's3cret')}")
    client.hear(":porch 900 me me!*@* demo/net :You are now logged in as demo/net",
                ":porch 903 me :SASL authentication successful")
    client.say("CAP REQ :draft/chathistory draft/read-marker message-tags server-time echo-message")
    client.hear(":porch CAP * ACK :draft/chathistory draft/read-marker message-tags server-time echo-message")
    client.say("CAP END")
    is_in(client, ":bnc.example MARKREAD #a *")
    client.say("CHATHISTORY TARGETS timestamp=2026-01-01T00:00:00.000Z timestamp=9999-12-31T23:59:59.999Z 100",
               "MARKREAD #a timestamp=2026-01-02T03:04:05.678Z", "CHATHISTORY LATEST #a * 100", "PRIVMSG #a :hello")
    client.hear(":bnc.example BATCH +r1 draft/chathistory-targets",
                "@batch=r1 :bnc.example CHATHISTORY TARGETS #a 2026-01-02T03:04:05.678Z", ":bnc.example BATCH -r1",
                ":bnc.example MARKREAD #a timestamp=2026-01-02T03:04:05.678Z", ":bnc.example BATCH +r2 chathistory #a",
                "@batch=r2;msgid=m1;time=2026-01-02T03:04:05.678Z :bob!b@h PRIVMSG #a :hi", ":bnc.example BATCH -r2")
    session.hear("PRIVMSG #a :hello")


def browser(fixture, protocol):
    """gamja's requests (its `lib/client.js`) over a WebSocket."""
    python = interpreter(websockets=True)
    if python is None:
        fixture.notes.append("left out, since no Python here has the package python3-websockets")
        return
    _, it, session = in_front(fixture, kind="websocket", python=python)
    client = WebSocket(fixture, connect(fixture, it.address), protocol=protocol)
    client.say("CAP LS 302", "NICK me", "USER me 0 * :Me")
    client.hear(f":porch CAP * LS :{OFFERED} sasl=PLAIN")
    names = "batch echo-message message-tags sasl server-time draft/chathistory draft/message-redaction draft/read-marker"
    client.say(f"CAP REQ :{names}")
    client.hear(f":porch CAP * ACK :{names}")
    client.say("AUTHENTICATE PLAIN")
    client.hear("AUTHENTICATE +")
    client.say(f"AUTHENTICATE {plain('', 'demo/net', 's3cret')}")
    client.hear(":porch 900 me me!*@* demo/net :You are now logged in as demo/net",
                ":porch 903 me :SASL authentication successful")
    client.say("CAP END")
    is_in(client, ":bnc.example MARKREAD #a *")
    client.say("CHATHISTORY LATEST #a * 100", "PRIVMSG #a :Grüße", "PRIVMSG #a :two\r\nQUIT :lines")
    client.hear(":bnc.example BATCH +r1 chathistory #a", ":bnc.example BATCH -r1")
    session.hear("PRIVMSG #a :Grüße", "PRIVMSG #a :two  QUIT :lines")
    session.say("@msgid=m1;time=2026-01-02T03:04:05.678Z :bob!b@h PRIVMSG #a :ärger " + "x" * 300)
    client.hear("@msgid=m1;time=2026-01-02T03:04:05.678Z :bob!b@h PRIVMSG #a :ärger " + "x" * 300)
    client.frame(8, b"")
    it.wait_for("client out: demo/net from ")


for protocol in ("text.ircv3.net", "binary.ircv3.net", ""):
    add(f"porches: a browser with {protocol or 'no protocol'}", lambda fixture, protocol=protocol: browser(fixture, protocol))


# -- bad days


@test
def a_node_that_is_away_is_passed_over(fixture):
    """The first node that answers is taken; where none does, the client is told."""
    node = Node(fixture, servers=[NOBODY]).begin()
    it = porch(fixture, [NOBODY, node.clients])
    client = client_of(fixture, it)
    client.say("PASS demo/net:s3cret", "NICK me", "USER me 0 * :Me")
    is_in(client, channels=())
    it.wait_for(f"node unreachable: {spelled(NOBODY)}: connection refused")
    node.kill()
    client.hear_end()
    it.wait_for("client out: demo/net from ")
    client = client_of(fixture, it)
    client.say("PASS demo/net:s3cret", "NICK me", "USER me 0 * :Me")
    client.hear(":porch 464 * :Password incorrect: no node answers", "ERROR :no node answers")


@test
def strangers_take_no_more_than_their_places(fixture):
    """They are counted before TLS begins, and closed ten seconds later where it doesn't."""
    node = Node(fixture, servers=[NOBODY]).begin()
    it = porch(fixture, [node.clients], more="places = 8\neach = 4\n")
    begun = time.monotonic()
    silent = [connect(fixture, it.address) for _ in range(4)]
    fifth = connect(fixture, it.address)
    fifth.settimeout(fixture.patience())
    expect("one more of that address", b"", fifth.recv(1))
    it.wait_for("client refused: ")
    expect("why", True, "its address has 4 connections already" in it.log()[-1])
    expect("who waits stays for a while", [], readable(silent, begun + 8 - time.monotonic()))
    fixture.until("all are closed", lambda: len(readable(silent)) == len(silent))
    client = client_of(fixture, it)
    client.say("PASS demo/net:s3cret", "NICK me", "USER me 0 * :Me")
    is_in(client, channels=())


@test
def lines_that_cannot_be_read_do_no_harm(fixture):
    """Before a client is let in: bytes that are no text, lines that are too long, SASL without an end."""
    _, it, _ = in_front(fixture)
    client = client_of(fixture, it)
    client.send(b"\xff\xfe\r\n \r\n@\r\n:\r\nCAP\r\nCAP REQ\r\nPASS\r\nUSER\r\nNICK\r\nPING\r\n\0\r\n" + b"x" * 60000 + b"\r\n")
    client.say("AUTHENTICATE PLAIN", *["AUTHENTICATE " + "A" * 400] * 11, "PING :x")
    while client.line() != ":porch PONG porch :x":
        pass
    client.say("PASS demo/net:s3cret", "NICK me", "USER me 0 * :Me", "CAP END")
    is_in(client)


@test
def a_client_that_does_not_read_holds_nobody_up(fixture):
    """The porch reads no more of the node than the client takes, so the node can see that it doesn't. Another client goes on, and
    nothing is lost once the first one reads."""
    node = Listener(fixture)
    it = porch(fixture, [node.address])
    slow, quick = client_of(fixture, it, "slow", 4096), client_of(fixture, it, "quick")
    sessions = []
    for client in (slow, quick):
        client.say("PASS demo/net:s3cret", "NICK me", "USER me 0 * :Me")
        sessions.append(node.accept("the node"))
        sessions[-1].hear("PASS :s3cret", "NICK me", "USER demo/net 0 * :me")
        sessions[-1].say(":bnc.example 001 al :Welcome to net")
        client.hear(":bnc.example 001 al :Welcome to net")
    lines = [f":bob!b@h PRIVMSG #a :{number:06} {'x' * 400}".encode() + b"\r\n" for number in range(10000)]
    sessions[0].socket.setsockopt(socket.SOL_SOCKET, socket.SO_SNDBUF, 65536)
    taken = sent_until_full(sessions[0].socket, b"".join(lines))
    expect(f"four megabytes aren't taken, but {taken} bytes", True, taken < 2_000_000)
    sessions[1].say(":bob!b@h PRIVMSG #a :hi")
    quick.hear(":bob!b@h PRIVMSG #a :hi")
    for line in lines[:taken // len(lines[0])]:
        slow.hear(line[:-2].decode())


def sent_until_full(it, data):
    """Sends bytes until none are taken for half a second, and answers how many were."""
    it.settimeout(0.5)
    sent = 0
    try:
        while sent < len(data):
            sent += it.send(data[sent:sent + 65536])
    except socket.timeout:
        pass
    return sent


# -- configurations

REFUSALS = (
    ("no nodes", 'nodes = []\n[tls]\nlisten = "127.0.0.1:6697"\n', "nodes is empty: a list of the nodes' addresses"),
    ("no entrance", 'nodes = ["127.0.0.1:6670"]\n', "nobody could connect: write a table [tls], [websocket] or both"),
    ("no certificate", 'nodes = ["127.0.0.1:6670"]\n[tls]\nlisten = "0.0.0.0:6697"\n',
     "tls.certificate is missing, and without TLS secrets would be readable on the way"),
    ("a certificate without its key", f'nodes = ["127.0.0.1:6670"]\n[tls]\nlisten = "0.0.0.0:6697"\n'
     f'certificate = "{certificate("authority")}"\n', f"{certificate('authority')} has to be PEM, a certificate with its key"),
    ("a number as text", 'nodes = ["127.0.0.1:6670"]\nplaces = "64"\n', "places must be a number from 1 to 4096"),
)


def refuses(fixture, text, why):
    """The configuration is refused, with status 5 and these words."""
    status, said = Service(fixture, "bnc-porch", text, "porch").refusal("--check")
    wanted = f"bnc-porch: config refused: {why}"
    expect("the status", 5, status)
    expect("what it says", wanted, said[:len(wanted)])


for what, text, why in REFUSALS:
    add(f"porches: refuses {what}", lambda fixture, text=text, why=why: refuses(fixture, text, why))


@test
def without_the_package_a_websocket_is_refused(fixture):
    """It says which package is missing. (An empty folder of that name stands before it.)"""
    fixture.write("websockets.py", b"raise ImportError\n")
    it = Service(fixture, "bnc-porch", 'nodes = ["127.0.0.1:6670"]\n[websocket]\nlisten = "{listen}"\n', "porch")
    it.front = ["env", f"PYTHONPATH={fixture.folder}"]
    status, said = it.refusal()
    expect("the status", 5, status)
    expect("what it says", "bnc-porch: config refused: [websocket] needs the package python3-websockets: "
           "apt install python3-websockets", said)


@test
def it_ends_as_it_is_told_to(fixture):
    """At SIGTERM, with status 0, and its clients are closed."""
    node = Node(fixture, servers=[NOBODY]).begin()
    it = porch(fixture, [node.clients])
    client = client_of(fixture, it)
    client.say("PASS demo/net:s3cret", "NICK me", "USER me 0 * :Me")
    is_in(client, channels=())
    begun = time.monotonic()
    expect("the status", 0, it.end())
    expect("it took less than ten seconds", True, time.monotonic() - begun < 10)
    client.hear_end()


@test
def an_address_that_is_taken_is_named(fixture):
    """Status 4, and which address."""
    taken = Listener(fixture)
    it = Service(fixture, "bnc-porch", f'nodes = ["127.0.0.1:6670"]\n[websocket]\nlisten = "{spelled(taken.address)}"\n', "porch")
    python = interpreter(websockets=True)
    if python:
        it.python = python
        expect("the end", (4, f"bnc-porch: can't listen at {spelled(taken.address)}: address already in use"), it.refusal())
