"""Clients of a node (docs/PROTOCOL.md, "Capability negotiation" and "A client's session"; docs/CLIENTS.md)."""

import re
import signal
import time

from harness.client import greeting
from harness.clocks import Clocks
from harness.connection import spelled
from harness.failure import expect
from harness.identities import SECRETS
from harness.node import Node, TwoAccounts
from harness.registry import test
from harness.server import Server, begun

NAMES = "batch draft/chathistory draft/message-redaction draft/read-marker echo-message message-tags server-time"
TOO_LONG = ":bnc.example 417 al :Input line was too long"
NOBODY = ("127.0.0.1", 1)


@test
def registration_word_for_word(fixture):
    """CAP holds registration back, NAK and ACK tell the words as given, and PASS may come late as long as something holds it
    back."""
    node, *_ = begun(fixture, "")
    client = node.client()
    client.say("CAP LS 302", "NICK al", "USER demo/net 0 * :Al", "PASS s3cret")
    client.hear(f":bnc.example CAP * LS :{NAMES}")
    client.say("CAP REQ :batch nope", "CAP REQ :server-time batch", "CAP LIST", "CAP END")
    client.hear(":bnc.example CAP * NAK :batch nope", ":bnc.example CAP * ACK :server-time batch")
    client.hear(":bnc.example CAP * LIST :batch server-time", *greeting())
    client.ping()


@test
def registration_in_one_packet(fixture):
    """All that a client says may come at once: the answers are the same, in the same order. The node has one worker."""
    node, *_ = begun(fixture, "", workers=1, places=1)
    client = node.client()
    client.say("CAP LS 302", "NICK al", "USER demo/net 0 * :Al", "PASS s3cret", "CAP REQ :batch nope",
               "CAP REQ :server-time batch", "CAP END")
    client.hear(f":bnc.example CAP * LS :{NAMES}", ":bnc.example CAP * NAK :batch nope",
                ":bnc.example CAP * ACK :server-time batch", *greeting())
    client.ping()


@test
def a_client_is_told_the_right_nick_and_the_channels(fixture):
    """Any nick may be given. There is a JOIN for each channel, and its marker for those that know markers."""
    server = Server(fixture)
    node = Node(fixture, servers=[server.address], channels=["#a", "#b"], nick="carol").begin()
    server.register(nick="carol", channels=["#a", "#b"])
    client = node.client()
    client.register("draft/read-marker", nick="carol", channels=["#a", "#b"])
    node.client("another").register(nick="carol", channels=["#a", "#b"])


def answers(client, rows):
    """Each line of a client has its answer, or none."""
    for line, answer in rows:
        client.say(line)
        if answer:
            client.hear(f":bnc.example {answer}")
    client.ping()


@test
def what_is_answered_before_registration(fixture):
    """The rows of "Before registration", each with its answer."""
    node = Node(fixture).begin()
    client = node.client()
    answers(client, (
        ("PRIVMSG #a :hi", "451 * :You have not registered"),
        ("PASS", "461 * PASS :Not enough parameters"),
        ("USER demo/net 0 *", "461 * USER :Not enough parameters"),
        ("CAP", "461 * CAP :Not enough parameters"),
        ("NICK", "431 * :No nickname given"),
        ("NICK a,l", "432 * a,l :Erroneous nickname"),
        ("CAP what", "410 * what :Invalid CAP command"),
        ("PING here", "PONG bnc.example :here"),
        (f"PING {'x' * 400}", f"PONG bnc.example :{'x' * 300}"),
        ("PASS s3cret", None), ("PONG x", None), ("", None),
        ("CHATHISTORY LATEST #a * 5", "451 * :You have not registered"),
    ))


@test
def what_is_answered_after_registration(fixture):
    """The rows of "After registration" that need no server."""
    node = Node(fixture, servers=[("127.0.0.1", 1)]).begin()
    client = node.client().register()
    answers(client, (
        ("PASS x", "462 al :You may not reregister"),
        ("USER demo/net 0 * :Al", "462 al :You may not reregister"),
        ("CHATHISTORY LATEST #a * 5", "421 al CHATHISTORY :Unknown command"),
        ("MARKREAD #a", "421 al MARKREAD :Unknown command"),
        ("REDACT #a m1", "421 al REDACT :Unknown command"),
        ("PRIVMSG #a :hi", "NOTICE al :Not connected to net"),
        ("NICK other", "NOTICE al :Not connected to net"),
        ("CAP REQ :draft/message-redaction", "CAP al ACK :draft/message-redaction"),
        ("REDACT #a", "FAIL REDACT NEED_MORE_PARAMS :Missing parameters"),
        ("REDACT a,b m1", "FAIL REDACT INVALID_TARGET :Invalid target"),
        ("REDACT #a m1", "FAIL REDACT UNKNOWN_MSGID #a :No such message"),
        ("TAGMSG", "NOTICE al :Not connected to net"),
        ("@+typing=active TAGMSG #a", "NOTICE al :Not connected to net"),
        ("PONG x", None),
    ))


def refused(fixture, *lines):
    """A client that doesn't get in: it is told so a second later, and closed, and the operator is told who it was."""
    node, *_ = begun(fixture, "")
    client = node.client()
    began = time.monotonic()
    client.say(*lines)
    client.hear(":bnc.example 464 * :Password incorrect", "ERROR :Closing link")
    expect("whether a second went by", True, time.monotonic() - began >= 0.9)
    client.hear_end()
    node.wait_for(f"client refused: {spelled(client.address)}: its account, its network or its secret is wrong")
    node.client("the next client").register()


@test
def a_wrong_secret_lets_nobody_in(fixture):
    refused(fixture, "PASS swordfish", "NICK al", "USER demo/net 0 * :Al")


@test
def the_beginning_of_a_secret_lets_nobody_in(fixture):
    refused(fixture, "PASS s3cre", "NICK al", "USER demo/net 0 * :Al")


@test
def a_secret_with_another_letter_or_more_lets_nobody_in(fixture):
    for word in ("s3creT", "s3cret2", ":"):
        refused(fixture, f"PASS {word}", "NICK al", "USER demo/net 0 * :Al")


class LongSecret(Node):
    """A node whose account has a secret as long as a line of PASS has room for."""

    secret = "".join(f"{number:05}" for number in range(101))


@test
def a_long_secret_is_compared_to_its_end(fixture):
    """One of 505 bytes: another byte anywhere, or one that is missing, lets nobody in."""
    node = LongSecret(fixture, servers=[NOBODY]).begin()
    secret = node.secret
    expect("the bytes of a secret", 505, len(secret))
    others = [secret[:at] + "x" + secret[at + 1:] for at in (0, 1, 252, 503, 504)]
    clients = []
    for word in (*others, secret[1:], secret[:-1], secret[:1], "x" * 505, secret):
        clients.append(node.client(f"a client that says {word}"))
        clients[-1].say(f"PASS {word}", "NICK al", "USER demo/net 0 * :Al")
    for client in clients[:-1]:
        client.hear(":bnc.example 464 * :Password incorrect", "ERROR :Closing link")
        client.hear_end()
    clients[-1].hear(*greeting())


@test
def no_secret_lets_nobody_in(fixture):
    """The secret is the empty one where no PASS came before the last of NICK and USER."""
    refused(fixture, "NICK al", "USER demo/net 0 * :Al", "PASS s3cret")


def lets_in_the_right_secret_alone(fixture, wrong):
    """A node with two accounts. Of the second, and of the first, none of the secrets that `wrong` answers for an account opens it,
    and its own does. (The refusals come at once, since each is told after a second.)"""
    node = TwoAccounts(fixture, servers=[NOBODY, NOBODY], places=64).begin()
    strangers = []
    for account in reversed(SECRETS):
        for lines in wrong(account):
            strangers.append(node.client(f"a client of {account} that says {lines}"))
            strangers[-1].say(*lines, "NICK al", f"USER {account}/net 0 * :Al")
    for stranger in strangers:
        stranger.hear(":bnc.example 464 * :Password incorrect", "ERROR :Closing link")
        stranger.hear_end()
    for account in SECRETS:
        node.client(f"a client of {account} with its own secret").register(account=account, channels=())


@test
def the_secret_of_another_account_lets_nobody_in(fixture):
    """Whichever of the two comes first in the configuration."""
    lets_in_the_right_secret_alone(
        fixture, lambda account: [[f"PASS {secret}"] for other, secret in SECRETS.items() if other != account])


@test
def an_empty_secret_lets_nobody_in(fixture):
    """Nor does no PASS at all, or one that is taken back by an empty one."""
    lets_in_the_right_secret_alone(
        fixture, lambda account: [[], ["PASS :"], [f"PASS {SECRETS[account]}", "PASS :"]])


@test
def no_part_of_the_right_secret_lets_anybody_in(fixture):
    """Neither one of its beginnings nor one of its ends, and not both secrets one behind the other."""

    def wrong(account):
        secret = SECRETS[account]
        parts = [part for at in range(1, len(secret)) for part in (secret[:at], secret[at:])]
        return [[f"PASS {part}"] for part in (*parts, secret + secret, "".join(SECRETS.values()))]

    lets_in_the_right_secret_alone(fixture, wrong)


@test
def an_account_that_is_not_there_lets_nobody_in(fixture):
    refused(fixture, "PASS s3cret", "NICK al", "USER eve/net 0 * :Al")


@test
def a_network_that_is_not_there_lets_nobody_in(fixture):
    refused(fixture, "PASS s3cret", "NICK al", "USER demo/other 0 * :Al")


@test
def the_place_of_a_client_that_left_is_given_to_the_next(fixture):
    """There is one place. While a client has it, another is closed without a word, which is told to the operator."""
    node, *_ = begun(fixture, "", places=1)
    first = node.client("the first client").register()
    other = node.client("the second client")
    other.hear_end()
    node.wait_for(f"client refused: {spelled(other.address)}: each place is taken")
    first.ping()
    first.close()
    node.wait_for(f"client out: demo/net from {spelled(first.address)}: the other end closed it")
    node.client("the next client").register()


# So many places there are, and so many clients come at once: more than wait for a place at a time.
PLACES, AT_ONCE = 8, 24


def come_at_once(node):
    """Clients that have connected and said who they are by the time that a node comes to accept them."""
    node.process.send_signal(signal.SIGSTOP)
    try:
        clients = [node.client(f"client {number} of those who come at once") for number in range(AT_ONCE)]
        for client in clients:
            client.say("PASS s3cret", "NICK al", "USER demo/net 0 * :Al", "PING here")
    finally:
        node.process.send_signal(signal.SIGCONT)
    return clients


def is_let_in(client):
    """Whether it is greeted. Else its connection ends without a word."""
    client.held = client.receive()
    if not client.held:
        return False
    client.hear(*greeting(), ":bnc.example PONG bnc.example :here")
    return True


REFUSED = re.compile(
    r"client refused: (\S+): (?:each place is taken|it had waited longest to say who it is, and gave way to another)")
MORE_REFUSED = re.compile(r"clients refused: ([0-9]+) more within a minute")


def refusals_told(node):
    """The addresses that the operator was told of, and how many more there were."""
    told = [line.partition(" ")[2] for line in node.log()]
    addresses = [found[1] for found in map(REFUSED.fullmatch, told) if found]
    return addresses, sum(int(found[1]) for found in map(MORE_REFUSED.fullmatch, told) if found)


@test
def of_many_who_come_at_once_as_many_get_in_as_places_are_free(fixture):
    """Those beyond are closed: the operator is told of the first ones, and how many more there were. (One whose lines weren't read
    yet may give way to another.) Each place that is left, at either worker, is there for the next."""
    clocks = Clocks(fixture)
    node = Node(fixture, servers=[NOBODY], places=PLACES, front=clocks.front).begin()
    inside, refused, left = [], [], 0
    for leaves in (0, 3, PLACES, 1):
        for client in inside[:leaves]:
            client.close()
        left += leaves
        fixture.until("they have left", lambda: sum("client out: " in line for line in node.log()) == left)
        del inside[:leaves]
        clients, free = come_at_once(node), PLACES - len(inside)
        let_in = [client for client in clients if is_let_in(client)]
        expect("how many got in", free, len(let_in))
        inside += let_in
        refused += [client for client in clients if client not in let_in]
        for client in inside:
            client.ping()
    clocks.skip(60)
    fixture.until("each is told or counted", lambda: len(refusals_told(node)[0]) + refusals_told(node)[1] == len(refused))
    told, more = refusals_told(node)
    expect("who was refused", [], [it for it in told if it not in {spelled(client.address) for client in refused}])
    expect("whether each is told once", len(set(told)), len(told))
    expect("whether some are counted alone", True, len(told) >= 10 and more > 0)


@test
def quit_is_answered_and_closes(fixture):
    """After QUIT nothing is answered."""
    node, *_ = begun(fixture, "")
    client = node.client().register()
    client.say("QUIT :bye", "PING x")
    client.hear("ERROR :Closing link")
    client.hear_end()


# A NUL, a source without a command, and an empty line.
GARBAGE = b"\x00\xfe\x80 x\r\n:only.a.source\r\n\r\n"


@test
def a_client_that_sends_garbage_loses_nothing_else(fixture):
    """Before it registers and after it; and a line that is too long, between whose halves another client registers."""
    node, *_ = begun(fixture, "")
    first = node.client("the first client")
    first.send(GARBAGE)
    first.hear(*2 * [":bnc.example 421 * * :Unknown command"])
    first.register("server-time batch")
    first.send(GARBAGE + b"a" * 600)
    first.hear(*2 * [":bnc.example 421 al * :Unknown command"])
    second = node.client("the second client").register()
    first.send(b"a" * 600 + b"\r\n")
    first.hear(TOO_LONG)
    first.ping()
    second.ping()


@test
def lines_that_are_too_long_are_told(fixture):
    """A line has at most 512 bytes with its CR LF (RFC 1459), and 4,096 bytes of tags before it (message-tags)."""
    node, *_ = begun(fixture, "")
    client = node.client().register()
    tags = b"@" + b"a" * 4094 + b" "
    for line, answer in (
        (b"PING " + b"a" * 505, f":bnc.example PONG bnc.example :{'a' * 300}"),
        (b"PING " + b"a" * 506, TOO_LONG),
        (tags + b"PING x", ":bnc.example PONG bnc.example :x"),
        (b"@a" + tags[1:] + b"PING x", TOO_LONG),
        (b"a" * 100000, TOO_LONG),
    ):
        client.send(line + b"\r\n")
        client.hear(answer)
    client.ping()


@test
def a_line_that_comes_in_parts_is_one_line(fixture):
    """Each byte in a packet of its own, and many lines in one. A CR that ends a packet and no line makes it unreadable."""
    node, *_ = begun(fixture, "")
    client = node.client().register()
    for byte in b"PING parts\r\n":
        client.send(bytes([byte]))
    client.hear(":bnc.example PONG bnc.example :parts")
    for part in (b"PING x", b"\r", b" y\r\n"):
        client.send(part)
    client.hear(":bnc.example 421 al * :Unknown command")
    client.say(*(f"PING {number}" for number in range(1000)))
    client.hear(*(f":bnc.example PONG bnc.example :{number}" for number in range(1000)))


@test
def a_hundred_clients_that_leave_in_mid_line_harm_nobody(fixture):
    """Registered or not, in mid-line and in a page; each place is free again."""
    node, *_ = begun(fixture, "", places=4)
    stays = node.client("the client that stays").register()
    for number in range(100):
        guest = node.client("a guest")
        guest.send((b"PING half", b"PASS s3cret\r\nNICK al\r\nUSER demo/net", b"\r\n\r\n", b"QUIT\r\n")[number % 4])
        guest.close()
    stays.ping()
    for number in range(3):
        fixture.until("a place is free", lambda: comes_in(node))
    stays.ping()


def comes_in(node):
    """Whether a client that connects now has a place, and keeps it."""
    client = node.client("a client that looks for a place")
    client.say("PING here")
    answer = client.receive()
    return answer == b":bnc.example PONG bnc.example :here\r\n"
