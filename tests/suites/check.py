"""`bnc-check`: what it says of configurations that don't fit together (companions/bnc-check.1)."""

import os

from harness import companions
from harness.failure import Failed, expect
from harness.registry import add, test
from harness.scripts import TESTS

EXAMPLES = os.path.join(os.path.dirname(TESTS), "examples", "three-nodes")
NODES = ("n1", "n2", "n3")
WORD, SECRET = "a-word-of-this-test", "a-secret-of-this-test"
OTHER_WORD, OTHER_SECRET = "another-word", "another-secret"
HIDDEN = ("s3cret", '"green"', WORD, SECRET, OTHER_WORD, OTHER_SECRET)


def cluster():
    """The configurations of the three nodes of the examples, with a word and a secret of their own."""
    texts = {}
    for name in NODES:
        with open(os.path.join(EXAMPLES, f"{name}.toml"), encoding="utf-8") as file:
            texts[name] = file.read().replace('"green"', f'"{WORD}"').replace('"s3cret"', f'"{SECRET}"')
    return texts


def checked(fixture, texts):
    """Runs the command over these, and answers its status and what it printed. It never prints a secret."""
    for name, text in texts.items():
        fixture.write(f"{name}.toml", text.encode())
    ended = companions.run(fixture, "bnc-check", *(f"{name}.toml" for name in texts))
    said = (ended.output + ended.errors).decode()
    for text in HIDDEN:
        if text in said:
            raise Failed(f"a secret is told: {said}")
    expect("standard error", b"", ended.errors)
    return ended.status, said.splitlines()


def says(name, changes, *wanted):
    """A test that the command finds just this, where the configurations of some nodes have a text changed. No fault is status 0,
    and any is status 1."""

    def call(fixture):
        texts = cluster()
        for node, before, after in changes:
            if before not in texts[node]:
                raise ValueError(f"{node} has no text {before!r}")
            texts[node] = texts[node].replace(before, after)
        status, lines = checked(fixture, texts)
        expect("what is found", [*wanted, f"3 configurations, {counted(len(wanted))}"], lines)
        expect("the status", 1 if wanted else 0, status)

    add(f"check: {name}", call)


def counted(faults):
    return "1 fault" if faults == 1 else f"{faults} faults"


says("three nodes that fit", [])
says("a name twice", [("n3", 'node = "n3"', 'node = "n2"'), ("n3", 'name = "n2"', 'name = "n3"'),
                      ("n1", '[[peer]]\nname = "n3"\naddress = "127.0.0.1:7003"\n\n', ""),
                      ("n2", '[[peer]]\nname = "n3"\naddress = "127.0.0.1:7003"\n\n', ""),
                      ("n3", '[[peer]]\nname = "n3"\naddress = "127.0.0.1:7002"\n\n', "")],
     "n3.toml: the node's name n2 is also that of n2.toml")
says("a peer that isn't mutual", [("n2", '[[peer]]\nname = "n3"\naddress = "127.0.0.1:7003"\n\n', "")],
     "n2.toml: n3 has n2 as a peer, and n2 hasn't n3")
says("another word", [("n3", WORD, OTHER_WORD)], "n3.toml: `peer_word` is another than in n1.toml: such nodes refuse each other")
says("another name of the cluster", [("n2", '"bnc.example"', '"bnc.net"')],
     "n2.toml: `name`, the cluster's, is another than in n1.toml: clients are told that they are on another server")
says("another number of days", [("n2", "retain_days = 30", "retain_days = 0")],
     "n2.toml: `retain_days` is another than in n1.toml: the least number above 0 counts for all nodes")
says("another secret", [("n2", SECRET, OTHER_SECRET)], "n2.toml: the account demo has another secret than in n1.toml")
says("an account that one node hasn't", [("n1", '[[network]]', f'[[account]]\nname = "eve"\nsecret = "{SECRET}"\n\n[[network]]')],
     "n2.toml: there is no account eve, which n1.toml has", "n3.toml: there is no account eve, which n1.toml has")
says("a network of another name", [("n3", 'name = "net"', 'name = "nat"')],
     "n1.toml: the account demo has no network nat, which it has in n3.toml",
     "n2.toml: the account demo has no network nat, which it has in n3.toml",
     "n3.toml: the account demo has no network net, which it has in n1.toml")
says("other channels", [("n2", '["#a"]', '["#a", "#b"]')], "n2.toml: the channels of demo/net are others than in n1.toml")
says("the word of the examples", [(name, WORD, "green") for name in NODES],
     *(f"{name}.toml: `peer_word` is that of the examples" for name in NODES))
says("the secret of the examples", [(name, SECRET, "s3cret") for name in NODES],
     *(f"{name}.toml: the secret of the account demo is that of the examples" for name in NODES))
says("an empty secret", [(name, SECRET, "") for name in NODES],
     *(f"{name}.toml: the secret of the account demo is empty" for name in NODES))
says("a channel without a prefix", [(name, '["#a"]', '["#a", "rust"]') for name in NODES],
     *(f"{name}.toml: the channel 'rust' of demo/net has no prefix: maybe '#rust'" for name in NODES))
says("a host name that cannot be known", [("n1", '"127.0.0.1:7002"', '"n2..example:7002"')],
     "n1.toml: the address of the peer n2 has the host name n2..example, and the program looks up no names: nobody knows that "
     "name now")
says("addresses of IPv6", [("n1", '"127.0.0.1:6667"', '"[2001:db8::1]:6667"')])
says("an address without a port", [("n1", 'listen = "127.0.0.1:6671"', 'listen = "127.0.0.1"')],
     "n1.toml: `listen` is no IP address with a port, as 192.0.2.1:7000 or [2001:db8::1]:7000")
says("an address of IPv6 without brackets", [("n1", '"127.0.0.1:6667"', '"2001:db8::1:6667"')],
     "n1.toml: the address of demo/net is no IP address with a port, as 192.0.2.1:7000 or [2001:db8::1]:7000")
says("no peers", [("n3", '[[peer]]\nname = "n1"\naddress = "127.0.0.1:7001"\n\n[[peer]]\nname = "n2"\n'
                   'address = "127.0.0.1:7002"\n\n', "")],
     "n3.toml: n1 has n3 as a peer, and n3 hasn't n1", "n3.toml: n2 has n3 as a peer, and n3 hasn't n2",
     "n3.toml: n3 has no peers, so nothing fills it when it starts again")


@test
def a_host_name_with_its_addresses(fixture):
    """A machine's own name may stand for addresses of both kinds."""
    texts = cluster()
    texts["n1"] = texts["n1"].replace('"127.0.0.1:6667"', '"localhost:6667"')
    status, (line, last) = checked(fixture, texts)
    expect("the end", (1, "3 configurations, 1 fault"), (status, last))
    words = "n1.toml: the address of demo/net has the host name localhost, and the program looks up no names: it stands for "
    expect("how the line begins", words, line[:len(words)])
    expect("whether the address is among them", True, "127.0.0.1:6667" in line[len(words):].split(" "))


@test
def a_peer_without_a_file_is_no_fault(fixture):
    texts = cluster()
    status, lines = checked(fixture, {"n1": texts["n1"], "n2": texts["n2"]})
    expect("what is found", (0, [
        "n1.toml: its peer n3 is in none of these files, and wasn't looked at",
        "n2.toml: its peer n3 is in none of these files, and wasn't looked at", "2 configurations, 0 faults"]), (status, lines))


@test
def a_file_that_cannot_be_read(fixture):
    """Neither is a secret told that stands in a file which isn't TOML."""
    ended = companions.run(fixture, "bnc-check", "none.toml")
    ended.expect(4, b"", b"bnc-check: can't read none.toml: no such file or directory\n")
    fixture.write("bad.toml", f'node = "n1"\npeer_word = "{WORD}\n'.encode())
    ended = companions.run(fixture, "bnc-check", "bad.toml")
    ended.expect(4, b"", b"bnc-check: bad.toml: line 2: not a TOML text\n")
    expect("the status of wrong words", 2, companions.run(fixture, "bnc-check").status)
