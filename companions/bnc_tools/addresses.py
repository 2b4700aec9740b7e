"""Addresses of configurations: a host and a port."""

import ipaddress
import socket
from dataclasses import dataclass


@dataclass(frozen=True)
class Address:
    """A host, which may be a name or a number, and a port."""
    host: str
    port: int

    def is_number(self) -> bool:
        """Whether the host is an IP address, as the program needs it."""
        try:
            ipaddress.ip_address(self.host)
        except ValueError:
            return False
        return True


def read_address(spelled: str) -> Address | None:
    """The address that is spelled `host:port`, or `[host]:port` for IPv6."""
    host, colon, port = spelled.rpartition(":")
    if not colon or not host or not (port.isascii() and port.isdigit()) or int(port) > 65535:
        return None
    if host.startswith("[") and host.endswith("]"):
        host = host[1:-1]
    elif ":" in host:
        return None
    return Address(host, int(port))


def spell(host: str, port: int) -> str:
    return f"[{host}]:{port}" if ":" in host else f"{host}:{port}"


def numbers_of(address: Address) -> list[str]:
    """The addresses for which a host name stands now, as the program takes them; none where nobody knows the name."""
    try:
        found = socket.getaddrinfo(address.host, address.port, type=socket.SOCK_STREAM)
    except (OSError, UnicodeError):
        return []
    return sorted({spell(it[4][0], address.port) for it in found})
