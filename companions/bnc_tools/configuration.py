"""The configuration of a node (bnc.toml(5)), read as it stands: what the program refuses may be in it."""

import re
import tomllib
from dataclasses import dataclass, field
from typing import Any

from bnc_tools.commands import CommandError, said


@dataclass(frozen=True)
class Peer:
    """Another node, as a configuration names it."""
    name: str
    address: str


@dataclass(frozen=True)
class Account:
    """A user."""
    name: str
    secret: str = field(repr=False)


@dataclass(frozen=True)
class Network:
    """A network of an account."""
    account: str
    name: str
    address: str
    nick: str
    channels: tuple[str, ...]


@dataclass(frozen=True)
class Configuration:
    """A node's configuration, and the file that it came from. A text that is missing, or is no text, is empty."""
    file: str
    cluster: str
    node: str
    listen: str
    peer_listen: str
    peer_word: str = field(repr=False)
    retain_days: int
    peers: tuple[Peer, ...]
    accounts: tuple[Account, ...]
    networks: tuple[Network, ...]

    def account(self, name: str) -> Account | None:
        return next((it for it in self.accounts if it.name == name), None)

    def network(self, account: str, name: str) -> Network | None:
        return next((it for it in self.networks if (it.account, it.name) == (account, name)), None)

    def peer_names(self) -> set[str]:
        return {it.name for it in self.peers}


def text(table: dict[str, Any], key: str) -> str:
    value = table.get(key, "")
    return value if isinstance(value, str) else ""


def tables(top: dict[str, Any], key: str) -> list[dict[str, Any]]:
    value = top.get(key, [])
    return [it for it in value if isinstance(it, dict)] if isinstance(value, list) else []


def network_of(table: dict[str, Any]) -> Network:
    channels = table.get("channels", [])
    return Network(
        account=text(table, "account"), name=text(table, "name"), address=text(table, "address"), nick=text(table, "nick"),
        channels=tuple(it for it in channels if isinstance(it, str)) if isinstance(channels, list) else ())


def configuration_of(file: str, top: dict[str, Any]) -> Configuration:
    days = top.get("retain_days", 0)
    return Configuration(
        file=file, cluster=text(top, "name"), node=text(top, "node"), listen=text(top, "listen"),
        peer_listen=text(top, "peer_listen"), peer_word=text(top, "peer_word"),
        retain_days=days if isinstance(days, int) else 0,
        peers=tuple(Peer(text(it, "name"), text(it, "address")) for it in tables(top, "peer")),
        accounts=tuple(Account(text(it, "name"), text(it, "secret")) for it in tables(top, "account")),
        networks=tuple(network_of(it) for it in tables(top, "network")))


def read_configuration(file: str) -> Configuration:
    """The configuration in a file."""
    try:
        with open(file, "rb") as it:
            return configuration_of(file, tomllib.load(it))
    except OSError as error:
        raise CommandError(f"can't read {file}: {said(error)}") from None
    except (tomllib.TOMLDecodeError, UnicodeDecodeError) as error:
        # (what the parser says may quote the text, and so a secret)
        line = re.search(r"\(at (line \d+)", str(error))
        raise CommandError(f"{file}: {line[1] if line else 'its end'}: not a TOML text") from None
