"""The door's configuration (bnc-door(1))."""

import ipaddress
import ssl
from dataclasses import dataclass, field

from bnc_wire import tls
from bnc_wire.listener import Networks
from bnc_wire.settings import Address, Refused, Table, is_word

LOOPBACK = ("127.0.0.0/8", "::1/128")
MECHANISMS = ("PLAIN", "EXTERNAL")


@dataclass(frozen=True)
class Channel:
    """A channel to be in, and its key, which may be empty."""
    name: str
    key: str = field(default="", repr=False)


@dataclass(frozen=True)
class Login:
    """How the door logs in to the network by SASL."""
    mechanism: str
    user: str = ""
    password: str = field(default="", repr=False)


@dataclass(frozen=True)
class Network:
    """The network, and who the door is there."""
    servers: tuple[Address, ...]
    nick: str
    user: str
    real_name: str
    password: str = field(repr=False)
    channels: tuple[Channel, ...]
    tls: ssl.SSLContext | None
    tls_name: str
    login: Login | None


@dataclass(frozen=True)
class Nodes:
    """Where nodes connect, and from where they may."""
    listen: Address
    allow: Networks
    tls: ssl.SSLContext | None


@dataclass(frozen=True)
class Reserve:
    """The door that this one stands in for, and after how many seconds without its answer."""
    first: Address
    patience: int
    tls: ssl.SSLContext | None
    tls_name: str


@dataclass(frozen=True)
class Settings:
    """All that a door is told."""
    name: str
    nodes: Nodes
    network: Network
    reserve: Reserve | None


def read_settings(table: Table) -> Settings:
    """The settings that a configuration spells."""
    name = table.word("name", "the door's name, as it stands in message ids and in front of its lines")
    if len(name) > 32 or not all(it.isascii() and (it.isalnum() or it in "-_.") for it in name):
        raise Refused("name must have 1 to 32 letters, digits, `-`, `_` and `.`")
    nodes = _needed(table, "nodes")
    network = _needed(table, "network")
    reserve = table.table("reserve")
    return Settings(name, _read_nodes(nodes), _read_network(network, table.table("sasl")),
                    _read_reserve(reserve) if reserve else None)


def _needed(table: Table, key: str) -> Table:
    found = table.table(key)
    if found is None:
        raise Refused(f"[{key}] is missing")
    return found


def _read_nodes(table: Table) -> Nodes:
    listen = table.address("listen", "where nodes connect, as 127.0.0.1:6690")
    certificate = table.file("certificate", "the door's certificate with its key")
    authority = table.file("authority", "whose certificates the nodes show")
    spelled = table.texts("allow", "a list of addresses and networks", [])
    table.end()
    if authority and not certificate:
        raise Refused("nodes.authority needs nodes.certificate, the door's own")
    try:
        allow = tuple(ipaddress.ip_network(it) for it in spelled or ([] if authority else LOOPBACK))
        is_loopback = ipaddress.ip_address(listen.host).is_loopback
    except ValueError as error:
        raise Refused(f"nodes.listen and nodes.allow have numbers alone, as 10.0.0.1 and 10.0.0.0/24: {error}") from None
    if not (is_loopback or spelled or authority):
        raise Refused("nodes.listen is open to others, who could speak under your nick: set nodes.certificate and "
                      "nodes.authority (TLS by certificates), or nodes.allow (the nodes' addresses in a private network)")
    return Nodes(listen, allow, tls.server_context(certificate, authority) if certificate else None)


def _client_tls(table: Table, default: bool) -> tuple[ssl.SSLContext | None, str, bool]:
    """TLS towards another: the context, the name in its certificate, and whether this side has a certificate too."""
    is_on = table.flag("tls", default)
    authority = table.file("authority", "whose certificate the other end shows")
    certificate = table.file("certificate", "a certificate of one's own, with its key")
    name = table.word("tls_name", "the name in the certificate of the other end", "")
    if not is_on and (authority or certificate or name):
        raise Refused(f"{table.name}.tls is false, so authority, certificate and tls_name there mean nothing: take them out")
    return (tls.client_context(authority, certificate) if is_on else None), name, bool(certificate)


def _read_network(table: Table, sasl: Table | None) -> Network:
    servers = table.addresses("servers", "a list of the network's servers, as irc.example.net:6697")
    context, tls_name, has_certificate = _client_tls(table, True)
    nick = table.word("nick", "the nick on the network")
    user = table.word("user", "the user name on the network", nick)
    channels = tuple(_channel_of(it) for it in table.texts("channels", "a list of channels, each with its key behind it", []))
    network = Network(servers, nick, user, table.text("real_name", "the name that others see", user),
                      table.text("password", "the server's password", ""), channels, context, tls_name,
                      _read_login(sasl, has_certificate) if sasl else None)
    table.end()
    clear = [it for it in servers if context is None and not _is_loopback(it.host)]
    if clear and (network.password or network.login):
        raise Refused(f"network.tls is false, so the password would go to {clear[0]} readable: set it true, or go through "
                      "a proxy at 127.0.0.1")
    return network


def _is_loopback(host: str) -> bool:
    try:
        return ipaddress.ip_address(host).is_loopback
    except ValueError:
        return host == "localhost"


def _channel_of(spelled: str) -> Channel:
    name, _, key = spelled.partition(" ")
    if not is_word(name) or "," in name or (key and (not is_word(key) or "," in key)):
        raise Refused("network.channels has what is no channel: write \"#channel\", or \"#channel key\"")
    return Channel(name, key)


def _read_login(table: Table, has_certificate: bool) -> Login:
    mechanism = table.text("mechanism", "PLAIN or EXTERNAL").upper()
    if mechanism not in MECHANISMS:
        raise Refused("sasl.mechanism must be PLAIN or EXTERNAL")
    if mechanism == "EXTERNAL":
        if not has_certificate:
            raise Refused("sasl.mechanism EXTERNAL logs in by network.certificate, which is missing")
        login = Login(mechanism, table.text("user", "an account, where the certificate is of several", ""))
    else:
        login = Login(mechanism, table.text("user", "the account on the network"), table.text("password", "its password"))
    table.end()
    return login


def _read_reserve(table: Table) -> Reserve:
    first = table.address("first", "where the first door listens, as 10.0.0.1:6690")
    patience = table.number("patience", 5, 2, 7)
    context, tls_name, _ = _client_tls(table, False)
    table.end()
    return Reserve(first, patience, context, tls_name)
