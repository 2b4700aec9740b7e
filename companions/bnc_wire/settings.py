"""Configurations, in TOML: read key by key, and refused in words that say what to do."""

import os
import socket
import ssl
import stat
import tomllib
from dataclasses import dataclass
from typing import Any, TypeVar

Value = TypeVar("Value")


class Refused(Exception):
    """What is wrong with a configuration, in words for the operator. It has no secret."""


class Unable(Exception):
    """Why a companion can't begin, in words for the operator."""


def reason_of(error: BaseException) -> str:
    """Why something couldn't be done, in the system's words."""
    if isinstance(error, OSError) and error.errno and not isinstance(error, (socket.gaierror, ssl.SSLError)):
        return os.strerror(error.errno).lower()
    if isinstance(error, TimeoutError):
        return "it took too long"
    return str(getattr(error, "strerror", None) or error or type(error).__name__).lower()


@dataclass(frozen=True)
class Address:
    """A host, which may be a name or a number, and a port."""
    host: str
    port: int

    def __str__(self) -> str:
        return f"[{self.host}]:{self.port}" if ":" in self.host else f"{self.host}:{self.port}"


def address_of(spelled: str, key: str) -> Address:
    """The address that is spelled `host:port`, or `[host]:port` for IPv6."""
    host, colon, port = spelled.rpartition(":")
    if host.startswith("[") and host.endswith("]"):
        host = host[1:-1]
    elif ":" in host:
        raise Refused(f"{key} is an IPv6 address without brackets: write [{host}]:{port}")
    if not (colon and host and port.isascii() and port.isdigit() and int(port) <= 65535):
        raise Refused(f"{key} must be a host and a port, as irc.example.net:6697")
    return Address(host, int(port))


def is_word(text: str) -> bool:
    """Whether a text can be a word of an IRC line."""
    return bool(text) and not text.startswith(":") and not any(it in text for it in " \r\n\0")


class Table:
    """A table of a configuration. Each key is asked for once; `end` refuses those for which nobody asked."""

    def __init__(self, values: dict[str, Any], folder: str, name: str = "") -> None:
        self.values, self.folder, self.name = dict(values), folder, name

    def key(self, key: str) -> str:
        """The key as it is named to the operator."""
        return f"{self.name}.{key}" if self.name else key

    def _take(self, key: str, kind: type[Value], what: str, default: Value | None) -> Value:
        value = self.values.pop(key, default)
        if value is None:
            raise Refused(f"{self.key(key)} is missing: {what}")
        # (`true` is no number)
        if not isinstance(value, kind) or isinstance(value, bool) and kind is not bool:
            raise Refused(f"{self.key(key)} must be {what}")
        return value

    def text(self, key: str, what: str, default: str | None = None) -> str:
        value = self._take(key, str, what, default)
        if any(it in value for it in "\r\n\0"):
            raise Refused(f"{self.key(key)} must be one line: {what}")
        return value

    def word(self, key: str, what: str, default: str | None = None) -> str:
        value = self.text(key, what, default)
        if value and not is_word(value):
            raise Refused(f"{self.key(key)} must be a word without spaces: {what}")
        return value

    def flag(self, key: str, default: bool) -> bool:
        return self._take(key, bool, "true or false", default)

    def number(self, key: str, default: int, least: int, most: int) -> int:
        value = self._take(key, int, f"a number from {least} to {most}", default)
        if not least <= value <= most:
            raise Refused(f"{self.key(key)} must be a number from {least} to {most}")
        return value

    def texts(self, key: str, what: str, default: list[str] | None = None) -> list[str]:
        values = self._take(key, list, what, default)
        if any(type(it) is not str for it in values):
            raise Refused(f"{self.key(key)} must be {what}")
        return values

    def address(self, key: str, what: str) -> Address:
        return address_of(self.text(key, what), self.key(key))

    def addresses(self, key: str, what: str) -> tuple[Address, ...]:
        found = tuple(address_of(it, self.key(key)) for it in self.texts(key, what))
        if not found:
            raise Refused(f"{self.key(key)} is empty: {what}")
        return found

    def file(self, key: str, what: str) -> str:
        """A file's path, or nothing. One without a folder stands beside the configuration, as a credential does."""
        path = self.text(key, what, "")
        return os.path.join(self.folder, path) if path else ""

    def table(self, key: str) -> "Table | None":
        values = self.values.pop(key, None)
        if values is None:
            return None
        if type(values) is not dict:
            raise Refused(f"{self.key(key)} must be a table, [{self.key(key)}]")
        return Table(values, self.folder, self.key(key))

    def end(self) -> None:
        if self.values:
            raise Refused(f"{self.key(min(self.values))} is no key that there is; see the man page")


def read_table(path: str) -> Table:
    """The configuration in a file."""
    try:
        with open(path, "rb") as file:
            mode = stat.S_IMODE(os.fstat(file.fileno()).st_mode)
            values = tomllib.load(file)
    except (tomllib.TOMLDecodeError, UnicodeDecodeError) as error:
        raise Refused(f"{path} is no TOML: {error}") from None
    if mode & 0o007:
        raise Refused(f"{path} can be read by everybody, and is the place of secrets: chmod 600 {path}")
    return Table(values, os.path.dirname(os.path.abspath(path)))
