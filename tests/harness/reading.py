"""A plain reader of what stands in lines: what tests expect of lines that are nearly right. It follows RFC 1459 and RFC 2812
(section 2.3), IRCv3 message-tags, and docs/PROTOCOL.md."""

import re

# A line has 510 bytes behind its tags, and a stream's line all in all so many, with a CR at its end.
LINE, STREAM = 510, 8702
CLIENT, SERVER = 4094, 8189

ESCAPES = {b";": rb"\:", b" ": rb"\s", b"\\": rb"\\", b"\r": rb"\r", b"\n": rb"\n"}
CHARACTERS = {spelled[1:]: plain for plain, spelled in ESCAPES.items()}


# Tags


def value_of(text):
    """The value that is spelled: a backslash at the end says nothing, and one before any other byte stands for that byte."""
    return re.sub(rb"\\(.?)", lambda found: CHARACTERS.get(found[1], found[1]), text, flags=re.S)


def escaped(value):
    return re.sub(rb"[; \\\r\n]", lambda found: ESCAPES[found[0]], value)


def tags_of(data):
    """The tags of tag data, each at its first place with its last value. A tag without a key is none."""
    tags = {}
    for tag in data.split(b";"):
        key, _, value = tag.partition(b"=")
        if key:
            tags[key] = value_of(value)
    return tags


def kept_of(data):
    """The client-only tags as they are written."""
    tags = ((key, value) for key, value in tags_of(data).items() if key.startswith(b"+"))
    return b";".join(key + (b"=" + escaped(value) if value else b"") for key, value in tags)


# Lines


class Line:
    """What a line says: tag data, source, command and parameters; and its text from the command on."""

    def __init__(self, tags, source, command, text):
        self.tags, self.source, self.command, self.text = tags, source, command, text
        self.parameters, rest = [], text[len(command):]
        while rest := rest.lstrip(b" "):
            if rest[:1] == b":" or len(self.parameters) == 14:
                self.parameters.append(rest.removeprefix(b":"))
                break
            word, _, rest = rest.partition(b" ")
            self.parameters.append(word)


def read_line(text, most_tags):
    """A line, or why it is none: `empty`, `long` or `bad`."""
    tags, rest = None, text
    if text.startswith(b"@"):
        tags, _, rest = text[1:].partition(b" ")
    if not text.strip(b" "):
        return "empty"
    if len(tags or b"") > most_tags or len(rest) > LINE:
        return "long"
    source, command = re.match(rb" *(?::([^ ]*)(?: +|$))?([^ ]*)", rest, re.S).groups()
    if set(text) & {0, 10, 13} or source == b"" or not re.fullmatch(rb"[A-Za-z]+|[0-9]{3}", command):
        return "bad"
    return Line(tags, source, command, rest[re.match(rb" *(?::[^ ]* +)?", rest, re.S).end():])


def lines_of(stream):
    """The lines of a stream, and None for each that is too long. What is behind the last LF is none, unless it is too long."""
    *lines, rest = stream.split(b"\n")
    cut = [line.removesuffix(b"\r") if len(line) <= STREAM else None for line in lines]
    return cut + ([None] if len(rest) > STREAM else [])


# Changes

FIELDS = {b"POST": 8, b"TPOST": 9, b"REDACT": 5, b"MARK": 4, b"FLOOR": 4, b"AFLOOR": 2}


def is_name(text):
    return re.fullmatch(rb"[a-z0-9_-]{1,32}", text)


def is_word(text):
    """Whether it may be an id or a source."""
    return re.fullmatch(rb"[^\0\r\n :][^\0\r\n ]{0,254}", text)


def is_target(text):
    return text != b"*" and re.fullmatch(rb"[^\0\r\n ,:][^\0\r\n ,]{0,199}", text)


def is_moment(text):
    return re.fullmatch(rb"0|[1-9][0-9]*", text) and int(text) <= 253402300799999


def are_tags(text):
    return len(text) <= 4094 and not set(text) & set(b"\0\r\n ") and kept_of(text) == text


def is_message(kind, target, source, body):
    command = {b"P": b"PRIVMSG", b"N": b"NOTICE"}.get(kind)
    return command and is_target(target) and is_word(source) and not set(body) & set(b"\0\r\n") \
        and len(b":%s %s %s :%s" % (source, command, target, body)) <= LINE


def is_lawful(kind, fields, body):
    """Whether the fields of a change of the right form are lawful."""
    if kind == b"AFLOOR":
        return is_name(fields[0]) and is_moment(fields[1])
    account, network, target, *fields = fields
    if not (is_name(account) and is_name(network) and is_target(target) and target == target.lower()):
        return False
    if kind in (b"MARK", b"FLOOR"):
        return is_moment(fields[0])
    if not (is_word(fields[0]) and (is_moment(fields[1]) or kind == b"REDACT" and fields[1] == b"*")):
        return False
    if kind == b"REDACT":
        return True
    return (kind == b"POST" or are_tags(fields[3])) and is_message(fields[2], *fields[-2:], body)


def change_answer(line):
    """What comes of a line of a script that begins with `C` and a space: nothing, `% BadForm` or `% BadField`."""
    kind = line.split(b" ")[1]
    if kind not in FIELDS:
        return b"% BadForm"
    is_post = kind.endswith(b"POST")
    fields = line.split(b" ", 2 + FIELDS[kind] if is_post else -1)[2:]
    body = fields.pop() if is_post and len(fields) > FIELDS[kind] else None if is_post else b":"
    if len(fields) != FIELDS[kind] or b"" in fields or body is None or not body.startswith(b":"):
        return b"% BadForm"
    return b"" if is_lawful(kind, fields, body[1:]) else b"% BadField"
