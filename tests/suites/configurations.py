"""Which configurations are refused, and in which words (docs/OPERATING.md, "Start and stop"). `values` shows what is read of one
that is right."""

import os
import re

from harness.configurations import told
from harness.registry import add
from harness.scripts import TESTS

# Where the example listens, and an address that no machine has (RFC 5737).
LISTEN, NOWHERE = b"127.0.0.1:6667", b"192.0.2.1:6667"


def refused(text, words):
    """A test that a configuration is refused in these words."""

    def call(fixture):
        path = fixture.write("bnc.toml", text)
        fixture.run("serve", path).expect(5, b"", b"config refused\n" + words + b"\n")

    return call


def accepted(text):
    """A test that a configuration is read. A configuration is checked before a socket is opened, so a node that gets as far as
    to fail at its address has read it."""

    def call(fixture):
        path = fixture.write("bnc.toml", text.replace(LISTEN, NOWHERE))
        words = b"read or write failed\ncan't listen at %s: address not available\n" % NOWHERE
        fixture.run("serve", path).expect_begun(4, words)

    return call


def add_cases():
    for name, text, line in told():
        kind, _, words = line.partition(b" ")
        if kind in (b"BadKey", b"BadValue", b"BadText"):
            add(f"configurations/{name}", refused(text, words))
        elif line == b"read" and LISTEN in text:
            add(f"configurations/{name}", accepted(text))


def add_examples():
    """The configurations that README.md and docs/OPERATING.md begin with are right."""
    top = os.path.join(os.path.dirname(TESTS), "examples")
    for file in ("one-node.toml", "three-nodes/n1.toml", "three-nodes/n2.toml", "three-nodes/n3.toml"):
        with open(os.path.join(top, file), "rb") as it:
            text = re.sub(rb'(?m)^listen = ".*"$', b'listen = "%s"' % LISTEN, it.read())
        add(f"configurations/examples: {file}", accepted(text))


add_cases()
add_examples()
