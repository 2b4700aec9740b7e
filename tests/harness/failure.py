"""How a test says that it failed."""


class Failed(Exception):
    """What was expected, and what came."""


def text_of(data):
    """Bytes as a person reads them, whatever they are."""
    return data.decode("utf-8", "backslashreplace") if isinstance(data, bytes) else str(data)


def expect(what, wanted, came):
    """Fails unless what came is what was wanted."""
    if wanted != came:
        raise Failed(f"{what}: expected {shortened(wanted)}, came {shortened(came)}")


def expect_lines(what, wanted, came):
    """Fails at the first line of two texts that differs. Both are bytes, whose line endings count."""
    if wanted == came:
        return
    ours, theirs = wanted.split(b"\n"), came.split(b"\n")
    for number in range(max(len(ours), len(theirs))):
        line = ours[number] if number < len(ours) else b"(no such line)"
        other = theirs[number] if number < len(theirs) else b"(no such line)"
        if line != other:
            raise Failed(f"{what}, line {number + 1}: expected {shortened(line)}, came {shortened(other)}")


def shortened(value, most=600):
    shown = repr(text_of(value) if isinstance(value, bytes) else value)
    return shown if len(shown) <= most else f"{shown[:most]}.. ({len(shown)} characters)"
