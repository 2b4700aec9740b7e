"""The porch's configuration (bnc-porch(1))."""

import ipaddress
import ssl
from dataclasses import dataclass

from bnc_wire import tls
from bnc_wire.settings import Address, Refused, Table

# How clients connect.
LINES, WEBSOCKET = "tls", "websocket"
KINDS = (LINES, WEBSOCKET)


@dataclass(frozen=True)
class Entrance:
    """Where clients connect, and how. Without TLS it is for a proxy on this machine."""
    kind: str
    listen: Address
    tls: ssl.SSLContext | None


@dataclass(frozen=True)
class Settings:
    """All that a porch is told."""
    nodes: tuple[Address, ...]
    places: int
    each: int
    entrances: tuple[Entrance, ...]


def read_settings(table: Table) -> Settings:
    """The settings that a configuration spells."""
    nodes = table.addresses("nodes", "a list of the nodes' addresses for clients, as 127.0.0.1:6670")
    places = table.number("places", 64, 1, 4096)
    each = table.number("each", 16, 1, 4096)
    found = [_read_entrance(kind, it) for kind in KINDS for it in [table.table(kind)] if it]
    if not found:
        raise Refused("nobody could connect: write a table [tls], [websocket] or both")
    return Settings(nodes, places, each, tuple(found))


def _read_entrance(kind: str, table: Table) -> Entrance:
    listen = table.address("listen", "where clients connect, as 0.0.0.0:6697")
    certificate = table.file("certificate", "the certificate with its key")
    table.end()
    try:
        is_loopback = ipaddress.ip_address(listen.host).is_loopback
    except ValueError:
        raise Refused(f"{kind}.listen must be a number, as 0.0.0.0:6697 or [::]:6697") from None
    if not (certificate or is_loopback):
        raise Refused(f"{kind}.certificate is missing, and without TLS secrets would be readable on the way: set it, or listen "
                      "at 127.0.0.1 behind a proxy that speaks TLS")
    return Entrance(kind, listen, tls.server_context(certificate) if certificate else None)
