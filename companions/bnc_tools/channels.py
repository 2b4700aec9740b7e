"""The names of channels (RFC 2812, section 1.3)."""

PREFIXES = ("#", "&", "+", "!")


def is_channel(name: str) -> bool:
    return name.startswith(PREFIXES)
