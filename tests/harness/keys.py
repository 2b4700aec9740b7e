"""Tags of as many keys as there can be."""

# Each byte that may stand in a key.
KEY_BYTES = [bytes([byte]) for byte in range(256) if byte not in b"\0\r\n ;="]


def most_keys(length):
    """Client-only tags of so many bytes, of as many distinct keys as there can be: those of two bytes, and then of three."""
    pairs = [b"+" + byte for byte in KEY_BYTES]
    triples = (b"+" + one + other for one in KEY_BYTES for other in KEY_BYTES)
    left = (length + 1 - 3 * len(pairs)) // 4
    return b";".join(pairs + [next(triples) for _ in range(left)])
