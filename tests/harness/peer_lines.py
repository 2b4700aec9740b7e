"""A plain reader of the lines between nodes: what is read of each, and what arrives with it. It goes by the table of
docs/PROTOCOL.md alone, field by field."""

import re

GREATEST = 18446744073709551615
GREATEST_MOMENT = 253402300799999
LINE_LIMIT = 510


# ---- fields: each is a test of the bytes between two spaces

def number(most):
    return lambda f: re.fullmatch(rb"0|[1-9][0-9]*", f) is not None and int(f) <= most


def plain(f):
    """Bytes that may stand in a word."""
    return not set(f) & set(b"\0\r\n ")


def node(f):
    return re.fullmatch(rb"[a-z0-9]{1,32}", f) is not None


def name(f):
    return re.fullmatch(rb"[a-z0-9_-]{1,32}", f) is not None


def target(f):
    return 1 <= len(f) <= 200 and plain(f) and b"," not in f and f[:1] != b":" and f != b"*"


def folded_target(f):
    return target(f) and not set(f) & set(range(ord("A"), ord("Z") + 1))


def identity(f):
    """A message id, and a source."""
    return 1 <= len(f) <= 255 and plain(f) and f[:1] != b":"


def kind(f):
    return f in (b"P", b"N")


def tags(f):
    """Client-only tags of distinct keys, each alone or with a value, in which five bytes are escaped."""
    parts = f.split(b";")
    keys = {part.split(b"=")[0] for part in parts}
    return 1 <= len(f) <= 4094 and plain(f) and len(keys) == len(parts) and all(
        re.fullmatch(rb"\+[^=]*(=([^\\]|\\[:s\\rn])+)?", part) for part in parts)


def shared_word(f):
    return 1 <= len(f) <= 64 and plain(f)


def version(f):
    return f in (b"1", b"2", b"3")


moment = number(GREATEST_MOMENT)
count = number(GREATEST)
BUFFER = [name, name, folded_target]
LIVES = [node, count, node, count]

SHAPES = {
    b"W": [shared_word],
    b"H": [version, node, count],
    b"D": LIVES + [count, count, number(256)],
    b"A": LIVES + [count],
}
CHANGES = {
    b"REDACT": BUFFER + [identity, lambda f: f == b"*" or moment(f)],
    b"MARK": BUFFER + [moment],
    b"FLOOR": BUFFER + [moment],
    b"AFLOOR": [name, moment],
}
# the words before the body
POSTS = {
    b"POST": BUFFER + [identity, moment, kind, target, identity],
    b"TPOST": BUFFER + [identity, moment, kind, tags, target, identity],
}


def fits(fields, shape):
    return len(fields) == len(shape) and all(test(f) for f, test in zip(fields, shape))


def is_post(line, shape):
    words = line.split(b" ", len(shape) + 2)[2:]
    if not fits(words[:-1], shape) or words[-1][:1] != b":" or set(words[-1]) & set(b"\0\r\n"):
        return False
    command = {b"P": b"PRIVMSG", b"N": b"NOTICE"}[words[5]]
    to, source, body = words[-3:]
    return len(b":%s %s %s %s" % (source, command, to, body)) <= LINE_LIMIT


def letter_of(line):
    """The first word of the line that is read, or `-`."""
    words = line.split(b" ")
    if words[0] == b"C":
        what = b"".join(words[1:2])
        if what in POSTS:
            return "C" if is_post(line, POSTS[what]) else "-"
        return "C" if what in CHANGES and fits(words[2:], CHANGES[what]) else "-"
    shape = SHAPES.get(words[0])
    if shape is None or not fits(words[1:], shape):
        return "-"
    if words[0] == b"D" and not (int(words[5]) < int(words[6]) and 1 <= int(words[7])):
        return "-"
    return words[0].decode()


def arrivals(lines):
    """What arrives with each line, where a line that can't be read doesn't come to the gather."""
    missing = 0
    for line in lines:
        read = letter_of(line.encode())
        if read == "-":
            yield "-"
        elif missing:
            missing = missing - 1 if read == "C" else 0
            yield "-" if read != "C" else ("." if missing else "P")
        elif read == "D":
            missing = int(line.split(" ")[7])
            yield "."
        else:
            yield "-" if read == "C" else read


WORD = "W green"


def head(count):
    return f"D n1 1 n2 1 0 300 {count}"


def probe(line):
    """Lines that show what is read of one: a change stands behind a head, and behind all comes a word, which ends a packet that
    isn't whole."""
    return [*([head(1)] if line.startswith("C") else []), line, WORD]


# Lines of each kind.
LINES = (
    "W green", "H 1 n1 1", "D n1 12 n2 3 0 5 5", "C POST demo net #a m1 1000 P #A bob!b@h :hi  :all",
    "C POST demo net bob m2 0 N al bob!b@h :", "C REDACT demo net #a m1 1000", "C REDACT demo net #a m2 *",
    "C MARK demo net #a 1001", "C FLOOR demo net #a 999", "C TPOST demo net #a m3 0 P +0=\\:;+7 #a bob!b@h :hi",
    "C AFLOOR demo 999", "A n2 3 n1 12 5", "H 3 n1 1", "H 2 n1 1",
)
