"""Lines of IRC (RFC 1459, section 2.3.1; IRCv3 message-tags), read and written."""

from dataclasses import dataclass, field

_UPPER = "abcdefghijklmnopqrstuvwxyz"
_TABLES = {
    "ascii": str.maketrans("ABCDEFGHIJKLMNOPQRSTUVWXYZ", _UPPER),
    "rfc1459": str.maketrans("ABCDEFGHIJKLMNOPQRSTUVWXYZ[]\\~", _UPPER + "{}|^"),
    "strict-rfc1459": str.maketrans("ABCDEFGHIJKLMNOPQRSTUVWXYZ[]\\", _UPPER + "{}|"),
}
CASEMAPPINGS = frozenset(_TABLES)


def fold(name: str, casemapping: str = "rfc1459") -> str:
    """A nick or a channel as it is compared."""
    return name.translate(_TABLES[casemapping])


@dataclass(frozen=True)
class Message:
    """A line: its tags as they are spelled, its source, its command in upper case and its parameters; and without its tags."""
    command: str
    parameters: tuple[str, ...]
    source: str = ""
    tags: dict[str, str] = field(default_factory=dict)
    rest: str = ""

    @property
    def nick(self) -> str:
        """The nick of the source."""
        return self.source.partition("!")[0]

    def parameter(self, number: int) -> str:
        """A parameter, or nothing where there are fewer."""
        return self.parameters[number] if number < len(self.parameters) else ""

    @property
    def last(self) -> str:
        """The last parameter, where a server says its words, or nothing."""
        return self.parameters[-1] if self.parameters else ""

    @property
    def body(self) -> str:
        """The line without its tags and its source."""
        return self.rest.partition(" ")[2].lstrip(" ") if self.rest.startswith(":") else self.rest

    @property
    def client_only(self) -> dict[str, str]:
        """The client-only tags."""
        return {key: value for key, value in self.tags.items() if key.startswith("+") and len(key) > 1}


def read_tags(text: str) -> dict[str, str]:
    """Tags as they are spelled. Of equal keys the last value counts."""
    tags = {}
    for tag in text.split(";"):
        key, _, value = tag.partition("=")
        if key:
            tags[key] = value
    return tags


def read_message(line: str) -> Message | None:
    """A line's parts, or none where it has no command or a byte that can't be in a line."""
    if "\0" in line or "\r" in line:
        return None
    tags: dict[str, str] = {}
    rest = line
    if rest.startswith("@"):
        spelled, _, rest = rest[1:].partition(" ")
        tags = read_tags(spelled)
    rest = rest.strip(" ") if not rest.strip(" ") else rest.lstrip(" ")
    source, body = "", rest
    if rest.startswith(":"):
        source, _, body = rest[1:].partition(" ")
        body = body.lstrip(" ")
    front, colon, trailing = (" " + body).partition(" :")
    words = [it for it in front.split(" ") if it]
    if not words:
        return None
    return Message(words[0].upper(), (*words[1:], *((trailing,) if colon else ())), source, tags, rest)


def spell_tags(tags: dict[str, str]) -> str:
    """Tags in front of a line, with the space behind them; nothing where there are none."""
    if not tags:
        return ""
    return "@" + ";".join(f"{key}={value}" if value else key for key, value in tags.items()) + " "


def cut(line: str, most: int = 510) -> str:
    """The line's first so many bytes, as a server cuts it, and no character in two."""
    data = line.encode("utf-8", "surrogateescape")
    if len(data) <= most:
        return line
    while most and data[most] & 0xC0 == 0x80:
        most -= 1
    return data[:most].decode("utf-8", "surrogateescape")
