"""Who a client says it is, in each of the spellings that clients have."""

import base64
import re
from dataclasses import dataclass, field

# An account or a network, as a node names it.
NAME = r"[a-z0-9_-]{1,32}"
# `account/network`; with `@client` behind it as soju has it, or behind the account as ZNC has it.
SPELLING = re.compile(rf"({NAME})(?:@[^/:@]*)?/({NAME})(?:@[^/:]*)?")
# The longest secret that fits into a line of PASS.
LONGEST = 500


class Unknown(Exception):
    """Why nobody can be recognized in what a client sent, in words for its user."""


@dataclass(frozen=True)
class Identity:
    """An account, one of its networks, and what the client says is the account's secret."""
    account: str
    network: str
    secret: str = field(repr=False)

    def __str__(self) -> str:
        return f"{self.account}/{self.network}"


def identity_of(spelled: str, secret: str) -> Identity:
    """The identity that a user name spells."""
    found = SPELLING.fullmatch(spelled)
    if not found:
        raise Unknown("say account/network as the user name, as demo/net, in small letters")
    if len(secret.encode("utf-8", "surrogateescape")) > LONGEST or any(it in secret for it in "\r\n\0"):
        raise Unknown("this can't be a secret")
    return Identity(found[1], found[2], secret)


def of_plain(data: bytes) -> Identity:
    """The identity in an answer of SASL PLAIN (RFC 4616): `authzid NUL authcid NUL secret`. Either of the two names may be
    account/network."""
    parts = data.decode("utf-8", "surrogateescape").split("\0")
    if len(parts) != 3:
        raise Unknown("this is no answer of SASL PLAIN")
    authorized, authenticated, secret = parts
    return identity_of(authorized if "/" in authorized else authenticated, secret)


def of_base64(text: str) -> Identity:
    """The same, as AUTHENTICATE has it."""
    try:
        return of_plain(base64.b64decode(text, validate=True))
    except ValueError:
        raise Unknown("this is no answer of SASL PLAIN") from None


def of_words(password: str, user: str) -> Identity:
    """The identity in PASS and USER: `PASS account/network:secret` as for ZNC, or `PASS secret` and `USER account/network`."""
    login, colon, secret = password.partition(":")
    if colon and SPELLING.fullmatch(login) and (not SPELLING.fullmatch(user) or user == login):
        return identity_of(login, secret)
    return identity_of(user, password)
