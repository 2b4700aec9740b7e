"""Lines that are nearly right."""

# What stands in place of a byte: NUL, CR, LF, a space, and a byte that is in no text of UTF-8.
BYTES = (b"\0", b"\r", b"\n", b" ", b"\xff")


def mutated(line, others=BYTES):
    """The line with each of its bytes replaced by each of these, left out, and doubled."""
    for at in range(len(line)):
        before, here, behind = line[:at], line[at:at + 1], line[at + 1:]
        for other in others:
            yield before + other + behind
        yield before + behind
        yield before + here + here + behind


def prefixes(line):
    return [line[:at] for at in range(len(line))]
