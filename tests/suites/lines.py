"""Lines, their tags, streams of them, times and changes, at each limit and one past it: what they come to in a script, and between
a node, its server and its clients (docs/PROTOCOL.md; RFC 2812, section 2.3; IRCv3 message-tags and server-time). What is expected
of lines of which a byte is replaced says a plain reader (`harness/reading.py`)."""

import re

from harness.client import page
from harness.failure import Failed, expect
from harness.mutations import BYTES, prefixes
from harness.reading import CLIENT, SERVER, change_answer, escaped, is_message, is_word, lines_of, read_line, tags_of
from harness.registry import add, test
from harness.server import begun
from suites.devices import laid

TOO_LONG = ":bnc.example 417 al :Input line was too long"
UNKNOWN = ":bnc.example 421 al * :Unknown command"
NOT_UP = ":bnc.example NOTICE al :Not connected to net"
NO_TIME = ":bnc.example FAIL MARKREAD INVALID_PARAMS :Invalid parameters"
NO_SELECTOR = ":bnc.example FAIL CHATHISTORY INVALID_PARAMS AFTER :Invalid parameters"
FAULTS = {"empty": [], "long": [TOO_LONG], "bad": [UNKNOWN]}

# A line with all its parts, which a server says.
WHOLE = rb"@msgid=a\:b\;time=1970-01-01T00:00:01.000Z :bob!b@h PRIVMSG #a :hi"


def encoded(text):
    return text if isinstance(text, bytes) else text.encode()


def pong(word):
    return f":bnc.example PONG bnc.example :{word}"


class Script:
    """Lines for `bnc replay`, each with what is to come of it. Behind each stands a question that has an answer of its own."""

    def __init__(self):
        self.rows, self.pages = [], 0

    def row(self, line, *answers):
        self.rows.append((encoded(line), b"".join(encoded(it) + b"\r\n" for it in answers)))

    def page(self, target, *members, ask="LATEST {} * 100"):
        self.pages += 1
        self.row(f"CHATHISTORY {ask.format(target)}", *page(self.pages, target, *members))

    def play(self, fixture):
        script = b"".join(b"%s\nPING still-%d\n" % (line, number) for number, (line, _) in enumerate(self.rows))
        ran = fixture.replay(script)
        expect("status", (0, b""), (ran.status, ran.errors))
        rest = ran.output
        for number, (line, wanted) in enumerate(self.rows):
            came, mark, rest = rest.partition(f"{pong(f'still-{number}')}\r\n".encode())
            expect(f"row {number}, {line!r}", (wanted, True), (came, bool(mark)))
        expect("the rest", b"", rest)


# Lines of a client


def answer_of(line):
    """What a script answers to a line, which is none about nodes, and no question on the past."""
    if line is None:
        return [TOO_LONG]
    if line.startswith(b"C "):
        return [it for it in [change_answer(line)] if it]
    said = read_line(line, CLIENT)
    return FAULTS[said] if isinstance(said, str) else [NOT_UP]


TAGS = "a" * CLIENT
# Lines, and what is answered.
LINES = (
    ("", None), ("  ", None), (" " * 600, None), ("@", UNKNOWN), ("@a", UNKNOWN), ("@a  ", UNKNOWN), (":src", UNKNOWN),
    (":src  ", UNKNOWN), (": PING x", UNKNOWN), ("12 x", UNKNOWN), ("1234 x", UNKNOWN), ("00a x", UNKNOWN), ("P1NG x", UNKNOWN),
    (" @a PING x", UNKNOWN), ("@ PING x", pong("x")), ("@a  :src   PING y", pong("y")), ("001 x", NOT_UP), ("z", NOT_UP),
    ("  PING x", pong("x")), ("\0", UNKNOWN), ("12\0", UNKNOWN), ("@a\0b PING x", UNKNOWN), ("@a\rb PING x", UNKNOWN),
    (":s\0 PING x", UNKNOWN), (":s\r PING x", UNKNOWN), ("PI\0NG x", UNKNOWN), ("PI\rNG x", UNKNOWN), ("PING \0", UNKNOWN),
    ("PING x\r\r", UNKNOWN), ("PING :a\0b", UNKNOWN), ("PING " + "a" * 505, pong("a" * 300)), ("PING " + "a" * 506, TOO_LONG),
    ("@t PING " + "a" * 505, pong("a" * 300)), ("@t PING " + "a" * 506, TOO_LONG), ("@t  PING " + "a" * 505, TOO_LONG),
    ("PING " + "a" * 506 + "\0", TOO_LONG), (f"@{TAGS} PING x", pong("x")), (f"@{TAGS}a PING x", TOO_LONG),
    (f"@{TAGS}a", TOO_LONG), (f"@{TAGS}a\0 PING x", TOO_LONG), (f"@{TAGS}a PING {'b' * 506}", TOO_LONG),
    ("PING", ":bnc.example 461 al PING :Not enough parameters"), ("PING   ", ":bnc.example 461 al PING :Not enough parameters"),
    ("PING a  bc  ", pong("a")), ("PING :", pong("")), ("PING :b  c  ", pong("b  c  ")), ("PING b:c", pong("b:c")),
    ("PING ::a", pong(":a")), *((f"PING 1 2 3 4 5 6 7 8 9 10 11 12 13{more}", pong("1"))
                                for more in (" :14 15", " 14", " 14 15", " 14 15 16", " 14 :15 16")),
)


@test
def lines_of_a_client_and_their_limits(fixture):
    script = Script()
    for line, answer in LINES:
        script.row(line, *[answer] if answer else [])
    script.play(fixture)


@test
def the_beginnings_of_a_line(fixture):
    script = Script()
    for size in range(len(WHOLE) + 1):
        script.row(WHOLE[:size], *answer_of(WHOLE[:size]))
    script.play(fixture)


def replaced(text, others=BYTES):
    """The text with each byte replaced by each of these, and as it is."""
    for at in range(len(text)):
        yield from (text[:at] + other + text[at + 1:] for other in others)
    yield text


@test
def the_beginnings_of_a_line_with_a_byte_replaced(fixture):
    """A NUL or a CR is in no line, an LF ends one, and a space is in no word."""
    script = Script()
    for size in range(len(WHOLE) + 2):
        for other in replaced((WHOLE + b"\r")[:size]):
            script.row(other, *(answer for line in lines_of(other + b"\n") for answer in answer_of(line)))
    script.play(fixture)


# Lines between nodes, which a script reads too.
BETWEEN = (
    b"D n2 1 n1 7 0 2 2", b"A n1 7 n2 1 2", b"H 1 n2 1", b"H 2 n2 1", b"H 3 n2 1", b"C MARK demo net #a 1",
    b"C POST demo net #a m1 1000 N #A bob!b@h :hi", b"C TPOST demo net #a m1 1000 P +x=1 #a bob!b@h :hi",
    b"C REDACT demo net #a m1 *", b"C REDACT demo net #a m1 10", b"C FLOOR demo net #a 10", b"C AFLOOR demo 1500",
)


@test
def changes_and_lines_between_nodes_with_a_byte_replaced(fixture):
    """A change is taken, or refused for its form or for a field."""
    script = Script()
    for text in BETWEEN:
        for other in replaced(text, (*BYTES, b":", b"A", b"0", b"+", b",", b"")):
            # (a client's REDACT is answered otherwise)
            if b"REDACT" in other and not other.startswith(b"C "):
                continue
            script.row(other, *(answer for line in lines_of(other + b"\n") for answer in answer_of(line)))
    script.play(fixture)


# Streams, and what is answered. A line about nodes of the most bytes is refused for its form, and a longer one for its length.
FORM = "% BadForm"
STREAMS = (
    (WHOLE + b"\r\n", [NOT_UP]), (WHOLE + b"\r", []), (WHOLE[:60], []),
    (b"%" + b"a" * 8700 + b"\r\n\nPING\r\r\n", [FORM, UNKNOWN]), (b"%" + b"a" * 8701 + b"\n\nPING\r\r\n", [FORM, UNKNOWN]),
    (b"%" + b"a" * 8701 + b"\r\n\nPING\r\r\n", [TOO_LONG, UNKNOWN]), (b"%" + b"a" * 8702 + b"\n\nPING\r\r\n", [TOO_LONG, UNKNOWN]),
    (b"%" + b"a" * 8703 + b"\n\nPING\r\r\n", [TOO_LONG, UNKNOWN]), (b"%" + b"a" * 8702, [TOO_LONG]),
    (b"%" + b"a" * 8703, [TOO_LONG]), (b"%" + b"a" * 20000 + b"\r\n\nPING\r\r\n", [TOO_LONG, UNKNOWN]), (b"%" + b"a" * 8701, []),
    (b"\nA\r\n\r\nB\rC\n" + b"d" * 9000 + b"\nE\n\n\nF", [NOT_UP, UNKNOWN, TOO_LONG, NOT_UP]),
)


def is_cut(most):
    """A test that streams are cut into their lines, of which so many bytes are read at once."""

    def call(fixture):
        for stream, answers in STREAMS:
            fixture.replay(stream, env=laid(fixture, MOST=most)).expect(0, "".join(f"{it}\r\n" for it in answers).encode())

    add(f"lines: streams of which {most} bytes are read at once", call)


for most in (1, 7, 512, 8703, 8704, 30000):
    is_cut(most)


# Times

# Texts, and their milliseconds. A leap second is the end of its minute.
TIMES = (
    ("1970-01-01T00:00:00.000Z", 0), ("1970-01-01T00:00:01.000Z", 1000), ("2000-02-29T12:34:56.789Z", 951827696789),
    ("2011-10-19T16:40:51.620Z", 1319042451620), ("2012-07-01T00:00:00.000Z", 1341100800000),
    ("2100-03-01T00:00:00.000Z", 4107542400000), ("9999-12-31T23:59:59.999Z", 253402300799999),
    ("2012-06-30T23:59:60.419Z", 1341100799999),
)
WRITTEN = {"2012-06-30T23:59:60.419Z": "2012-06-30T23:59:59.999Z"}
NO_TIMES = (
    "2012-06-30T23:59:61.000Z", "1970-02-29T00:00:00.000Z", "2100-02-29T00:00:00.000Z", "2012-04-31T00:00:00.000Z",
    "2012-13-01T00:00:00.000Z", "2012-00-01T00:00:00.000Z", "2012-01-00T00:00:00.000Z", "2012-06-30T24:00:00.000Z",
    "2012-06-30T23:60:00.000Z", "1969-12-31T23:59:59.999Z", "2012-06-30t23:59:59.999Z", "2012-06-30T23:59:59.999z",
    "2012-06-30T23:59:59,999Z", "2012-06-3:T23:59:59.999Z", "1970-01-01T00:00:00Z", "1970-01-01T00:00:00.0000Z", "",
)


@test
def times_and_their_milliseconds(fixture):
    """As markers, as selectors, and as a post's moment."""
    script = Script()
    for number, (time, ms) in enumerate(TIMES):
        written = WRITTEN.get(time, time)
        script.row(f"MARKREAD #t{number} timestamp={time}", f":bnc.example MARKREAD #t{number} timestamp={written}")
        script.row(f"C MARK demo net #m{number} {ms}")
        script.row(f"MARKREAD #m{number}", f":bnc.example MARKREAD #m{number} timestamp={written}")
        script.row(f"C POST demo net #p{number} m1 {ms} P #a bob!b@h :hi")
        post = f"@msgid=m1;time={written} :bob!b@h PRIVMSG #a :hi"
        for ask in ("BEFORE {} timestamp=%s 9", "AFTER {} timestamp=%s 9", "AROUND {} timestamp=%s 1"):
            script.page(f"#p{number}", *[post] * ask.startswith("AROUND"), ask=ask % time)
    for time in NO_TIMES:
        script.row(f"MARKREAD #a timestamp={time}", NO_TIME)
        script.row(f"CHATHISTORY AFTER #a timestamp={time} 9", NO_SELECTOR)
    for ms in (253402300800000, 18446744073709551615):
        script.row(f"C MARK demo net #a {ms}", "% BadField")
    script.row("MARKREAD #a", ":bnc.example MARKREAD #a *")
    script.play(fixture)


# Changes

AT = "time=1970-01-01T00:00:01.000Z"
MOST = "+" + "x" * 4093
# Messages that are lawful; and the fields of posts, from the id on, with how a page tells them.
MESSAGES = (
    ("P", "#", "m", "hi"), ("P", "**", "x:", "hi"), ("P", "x:", "a,b;c", "hi"), ("P", "a" * 200, "*", "hi"),
    ("P", "#a", "a" * 255, " :*,"), ("N", "#A", "bob", "hi you"), ("P", "#a", "bob", "\1ACTION waves\1"),
    ("P", "#a", "b", "a" * 495), ("N", "#a", "b", "a" * 496), ("P", "T" * 200, "S" * 255, "a" * 43), ("P", "a", "b", "a" * 496),
)
WORDS = {"P": "PRIVMSG", "N": "NOTICE"}
POSTS = (
    ("m1 1000 P #A bob!b@h :hi :there", f"@msgid=m1;{AT} :bob!b@h PRIVMSG #A :hi :there"),
    ("m1 0 N al bob!b@h :", "@msgid=m1;time=1970-01-01T00:00:00.000Z :bob!b@h NOTICE al :"),
    *((f"m1 1000 {kind} {to} {source} :{body}", f"@msgid=m1;{AT} :{source} {WORDS[kind]} {to} :{body}")
      for kind, to, source, body in MESSAGES),
    *((f"{id} 1000 P #a bob :hi", f"@msgid={escaped(id.encode()).decode()};{AT} :bob PRIVMSG #a :hi")
      for id in ("m", "x:", "a,b;c", "*", "a" * 255)),
)
# The same with tags: these, and all else.
TAGGED = (
    ("+x=1", "m1 1000 P", "#a bob!b@h :hi", "PRIVMSG #a :hi"), ("+y", "m1 1000 N", "al bob!b@h :", "NOTICE al :"),
    (r"+x=1;+y;+a/b=\:", "m1 1000 P", "#A bob!b@h :hi :there", "PRIVMSG #A :hi :there"),
    (MOST, "m1 1000 P", "#a bob!b@h :hi", "PRIVMSG #a :hi"),
)
# Changes of the right form with a field that is refused, and what has another form.
POST, TPOST = "C POST demo net #a", "C TPOST demo net #a m1 1000 P"
REST = "#a bob!b@h :hi"
BAD_FIELD = (
    *(f"C MARK {name} net #a 1" for name in ("Demo", "de\0mo", "a" * 33)), "C MARK demo Demo #a 1", "C MARK demo de\0mo #a 1",
    f"C MARK demo {'a' * 33} #a 1",
    *(f"C MARK demo net {target} 1" for target in ("*", ":x", "a,b", "a\0b", "a\rb", "a" * 201, "#A")),
    *(f"{POST} m1 1000 P {target} bob :hi" for target in ("*", ":x", "a,b", "a\0b", "a\rb", "a" * 201)),
    *(f"{POST} {id} 1000 P {REST}" for id in (":x", "a\0b", "a\rb", "a" * 256)),
    *(f"{POST} m1 1000 P #a {source} :hi" for source in (":x", ":bob", "a\0b", "a\rb", "a" * 256)),
    *(f"{POST} m1 1000 P #a bob :{body}" for body in ("a\0", "a\r\r", "h\0i", "\0" * 512, "a" * 512)),
    f"{POST} m1 1000 P #a b :{'a' * 496}", f"{POST} m1 1000 N #a b :{'a' * 497}", f"{POST} m1 1000 P a b :{'a' * 497}",
    f"{POST} m1 1000 P {'T' * 200} {'S' * 255} :{'a' * 44}", f"{POST} m1 1000 Q {REST}",
    *(f"C MARK demo net #a {ms}" for ms in ("01", "+1", "253402300800000")), "C FLOOR demo net a,b 1", "C FLOOR demo net #a *",
    "C REDACT demo net #a :m1 *", *(f"{TPOST} {tags} {REST}" for tags in ("+y=", "y=1", "+x;+x", MOST + "x", "+x\0")),
    "C TPOST demo net #A m1 1000 P +x=1 #a bob!b@h :hi",
    *(f"C AFLOOR {name} 1" for name in ("Demo", "de.mo", "de\0mo", "*", "a" * 33)),
    *(f"C AFLOOR demo {ms}" for ms in ("01", "00", "+1", "-1", "*", "1x", "1\r\r", "253402300800000", "18446744073709551617")),
)
BAD_FORM = (
    "C ", "C mark demo net #a 1", "C  MARK demo net #a 1", "C MARK demo net #a", "C MARK demo  #a 1", "C MARK  net #a 1",
    "C MARK demo net  1", "C MARK de mo net #a 1", "C MARK demo net a b 1", "C MARK demo net #a 1 ", "C MARK demo net #A 01 2",
    "C REDACT demo net #a m1", f"{POST} m1 1000 P #a bob!b@h hi", f"{POST} m1 1000 P #a bob!b@h", f"{POST}  1000 P {REST}",
    f"{POST} a b 1000 P {REST}", f"{POST} m1 1000 P #a  :hi", f"{POST} m1 1000 P #a a b :hi", f"{POST} m1 1000 P  bob :hi",
    f"{POST} m1 1000 P a b bob :hi", f"{TPOST} +x=1 #a :hi", f"{TPOST} {REST}", f"{TPOST} +x=1  {REST}", f"{TPOST}  {REST}",
    f"{TPOST} +x=1 #a bob!b@h hi", f"{TPOST} +x=1 #a bob!b@h", f"C tpost demo net #a m1 1000 P +x=1 {REST}",
    f"{POST} m1 1000 P +x=1 {REST}", "C AFLOOR", "C AFLOOR ", "C AFLOOR  ", "C AFLOOR demo", "C AFLOOR demo ", "C AFLOOR  1",
    "C AFLOOR demo  1", "C AFLOOR  demo 1", "C AFLOOR demo 1 ", "C AFLOOR demo 1 2", "C AFLOOR demo net #a 1", "C AFLOOR Demo 01 2",
    "C  AFLOOR demo 1", "C AFLOORS demo 1", "C afloor demo 1", "C FLOOR demo 1",
)
# What is no change, and no line of a client either, or a line whose command is a letter.
NO_CHANGE = (("c MARK demo net #a 1", NOT_UP), ("C", NOT_UP), ("c AFLOOR demo 1", NOT_UP))
# Changes that are taken and show nothing here, since they are of others or keep all.
SILENT = (
    *(f"C MARK {name} net #a 1" for name in ("a", "az09-_", "a" * 32)),
    *(f"C MARK demo {name} #a 1" for name in ("a", "az09-_", "a" * 32)), "C FLOOR a-b_9 net bob 10", "C AFLOOR demo 0",
    "C AFLOOR a-b_9 10", f"C AFLOOR {'a' * 32} 1", f"C AFLOOR {'b' * 32} 253402300799999",
    f"C MARK {'a' * 32} {'w' * 32} {'t' * 200} 0",
)
MARKED = ("#", "**", "x:", "a" * 200, "#a[z", "#b")


def shown_on(script):
    """Has a script ask for what those changes come to that are taken."""
    for number, (_, told) in enumerate(POSTS):
        script.page(f"#p{number}", told)
    for number, (tags, _, _, told) in enumerate(TAGGED):
        script.page(f"#t{number}", f"@msgid=m1;{AT};{tags} :bob!b@h {told}")
    for target in MARKED:
        asked = f"MARKREAD {target.upper()}"
        script.row(asked, f":bnc.example {asked} timestamp=1970-01-01T00:00:01.000Z")
    script.page("#redacted", f"@msgid=m3;{AT} :bob!b@h PRIVMSG #a :hi")
    script.page("#floor", f"@msgid=m2;time=1970-01-01T00:00:01.500Z :bob!b@h PRIVMSG #a :hi")


@test
def changes_that_are_taken_are_shown_by_the_node_and_by_another(fixture):
    """Each comes twice: beside another buffer, and beside its own, which is known then."""
    script = Script()
    taken = [
        *(f"C POST demo net #p{number} {fields}" for number, (fields, _) in enumerate(POSTS)),
        *(f"C TPOST demo net #t{number} {front} {tags} {rest}" for number, (tags, front, rest, _) in enumerate(TAGGED)),
        *(f"C MARK demo net {target} 1000" for target in MARKED), *SILENT,
        *(f"C POST demo net #redacted m{number} 1000 P {REST}" for number in (1, 2, 3)),
        "C REDACT demo net #redacted m1 1000", "C REDACT demo net #redacted m2 *",
        *(f"C POST demo net #floor m{number} {ms} P {REST}" for number, ms in ((1, 1499), (2, 1500))),
        "C FLOOR demo net #floor 1500",
    ]
    for change in taken:
        for _ in range(2):
            script.row(change)
    shown_on(script)
    script.row("%1>2")
    script.row("%2")
    script.pages = 0
    shown_on(script)
    script.play(fixture)


@test
def changes_that_are_refused_change_nothing(fixture):
    """For their form or a field, also beside a buffer that is known."""
    script = Script()
    for known in ("C MARK z net #z 1", "C FLOOR demo net #a 0"):
        for line in BAD_FIELD:
            script.row(known)
            script.row(line, "% BadField")
        for line in BAD_FORM:
            script.row(known)
            script.row(line, "% BadForm")
    for line, answer in NO_CHANGE:
        script.row(line, answer)
    script.row("MARKREAD #a", ":bnc.example MARKREAD #a *")
    script.page("#a")
    script.play(fixture)


@test
def the_first_and_the_last_moment_of_markers_and_floors(fixture):
    script = Script()
    for ms, time in ((0, TIMES[0][0]), (253402300799999, TIMES[6][0])):
        script.row(f"C MARK demo net #a {ms}")
        script.row("MARKREAD #a", f":bnc.example MARKREAD #a timestamp={time}")
    script.row(f"C POST demo net #a m1 253402300799998 P {REST}")
    script.row(f"C POST demo net #a m2 253402300799999 P {REST}")
    script.row("C AFLOOR demo 253402300799999")
    script.page("#a", f"@msgid=m2;time={TIMES[6][0]} :bob!b@h PRIVMSG #a :hi")
    script.play(fixture)


# Posts of one message, of which a node keeps the one that stands first here, in whatever order they come.
ORDER = (
    ("1001 P #z z :z", "PRIVMSG #z :z"), ("1000 P +y #z z :z", "PRIVMSG #z :z"), ("1000 P +x #z z :z", "PRIVMSG #z :z"),
    ("1000 N #z z :z", "NOTICE #z :z"), ("1000 P #z al :z", "PRIVMSG #z :z"), ("1000 P #A bob :z", "PRIVMSG #A :z"),
    ("1000 P #a bob :", "PRIVMSG #a :"), ("1000 P #a bob :a", "PRIVMSG #a :a"), ("1000 P #a bob :ab", "PRIVMSG #a :ab"),
)


def told_of(rank):
    """How a page tells that post."""
    fields, told = ORDER[rank]
    ms, _, *tags, _, source, _ = fields.split(" ")
    return f"@msgid=m1;time=1970-01-01T00:00:01.00{ms[-1]}Z{''.join(';' + it for it in tags)} :{source} {told}"


@test
def of_posts_of_one_message_one_is_kept(fixture):
    script = Script()
    for one in range(len(ORDER)):
        for other in range(len(ORDER)):
            target = f"#o{one}.{other}"
            for rank in (one, other):
                fields = ORDER[rank][0]
                script.row(f"C {'TPOST' if '+' in fields else 'POST'} demo net {target} m1 {fields}")
            script.page(target, told_of(min(one, other)))
    script.play(fixture)


@test
def changes_of_other_things_leave_each_other(fixture):
    """Messages of other ids and in other buffers, and markers, floors, and floors of other accounts."""
    script = Script()
    for change in (
        "POST demo net #b m1 1000 P #a bob :b", "POST demo net #c m1 1000 P #a bob :c", "REDACT demo net #b M1 *",
        "MARK demo net #b 2000", "AFLOOR dem 2000", "FLOOR demo net #c 1000", "POST demo net #d m1 1000 P #a bob :d",
        "REDACT demo net #d m1 2000",
    ):
        script.row(f"C {change}")
    script.page("#b", f"@msgid=m1;{AT} :bob PRIVMSG #a :b")
    script.page("#c", f"@msgid=m1;{AT} :bob PRIVMSG #a :c")
    script.page("#d")
    script.row("C FLOOR demo net #b 2000")
    script.page("#b")
    script.row("MARKREAD #b", ":bnc.example MARKREAD #b timestamp=1970-01-01T00:00:02.000Z")
    script.row("C AFLOOR demo 1000")
    script.page("#c", f"@msgid=m1;{AT} :bob PRIVMSG #a :c")
    script.row("C AFLOOR demo 2000")
    script.page("#c")
    script.row("MARKREAD #b", ":bnc.example MARKREAD #b timestamp=1970-01-01T00:00:02.000Z")
    script.play(fixture)


@test
def ids_are_ordered_by_their_bytes(fixture):
    script = Script()
    ids = ("M1", "M10", "M2", "S" * 255, "m1")
    for id in reversed(ids):
        script.row(f"C POST demo net #a {id} 1000 P #a bob :hi")
    script.page("#a", *(f"@msgid={id};{AT} :bob PRIVMSG #a :hi" for id in ids))
    script.play(fixture)


def markers(script, first, end, has):
    """Asks which of the markers of these numbers are known."""
    for number in range(first, end):
        known = "timestamp=1970-01-01T00:00:00.001Z" if has(number) else "*"
        script.row(f"MARKREAD #{number}", f":bnc.example MARKREAD #{number} {known}")


@test
def a_packet_has_the_first_256_pieces_above_a_number(fixture):
    """Of 257 pieces, of 256, and of one; then there is no packet."""
    script = Script()

    def made(first, end):
        for number in range(first, end):
            script.row(f"C MARK demo net #{number} 1")

    made(0, 257)
    for most in (256, 257):
        for line in ("%1>2", "%2"):
            script.row(line)
        markers(script, 0, 257, lambda number: number < most)
        script.row("%1")
    made(257, 513)
    for line in ("%1>2", "%1>2", "%2"):
        script.row(line)
    markers(script, 257, 513, lambda number: True)
    script.play(fixture)


# Client-only tags

# Tag data, and what is kept of it. Where both are the same, that is the text of a post's tags.
KEPT = (
    ("=1;b=2;;+a;b=3;=;c=", "+a"), ("a;b=+c", ""), (";", ""), ("y=1", ""), ("+x=1", "+x=1"), ("+x", "+x"), ("+y=", "+y"),
    ("+y=\\", "+y"), ("+", "+"), ("+=+", "+=+"), ("+x;+x", "+x"), ("+x;+x=1", "+x=1"), ("+x=1;+x", "+x"),
    ("+x=1;+X=2", "+x=1;+X=2"), ("+x;+xy;+x/y", "+x;+xy;+x/y"), ("a=1;+b=2;+c;+b=3", "+b=3;+c"), ("+b=3;+c", "+b=3;+c"),
    ("+c;+b=3", "+c;+b=3"), ("+b=2;+c;+b=3;+d=4;+c=5", "+b=3;+c=5;+d=4"), ("+b=1;b=2;+b=3;b=4", "+b=3"), ("+x=1;", "+x=1"),
    (";+x=1", "+x=1"), ("+x=1;;+y=2", "+x=1;+y=2"), ("=+x;+y=2", "+y=2"), ("+x=a=b;+y==", "+x=a=b;+y=="),
    ("+draft/reply=Zm9v;+example.com/k-1", "+draft/reply=Zm9v;+example.com/k-1"), (r"+e=\:\s\\\r\n", r"+e=\:\s\\\r\n"),
    (r"+e=a\:b\sc\\d\re\nf", r"+e=a\:b\sc\\d\re\nf"), (r"+e=\b", "+e=b"), (r"+e=\1x\=", "+e=1x="), ("+e=\\", "+e"),
    ("+e=a\\", "+e=a"), ("+e=\\\\\\", r"+e=\\"), (r"+e=\\", r"+e=\\"), (r"+e=\;+f=1", "+e;+f=1"), ("+e=é", "+e=é"),
    (MOST, MOST), ("+a=" + "b" * 4091, "+a=" + "b" * 4091), ("+a=" + r"\:" * 2045 + "b", "+a=" + r"\:" * 2045 + "b"),
    ("+a;" * 300 + "+b", "+a;+b"), ("+a;" + "b;" * 2000 + "+c", "+a;+c"), ("+a=" + r"ab\:" * 300, "+a=" + r"ab\:" * 300),
)
# A server may send more.
KEPT_OF_SERVER = (
    *KEPT, ("+a;" + "b;" * 4000 + "+c", "+a;+c"), ("+" + "a" * 8187 + ";", "+" + "a" * 8187),
    2 * (";".join(f"+k{number}=v{number}" for number in range(400)),),
)


def tagged(tags, line):
    return f"@{tags} {line}" if tags else line


@test
def client_only_tags_of_a_server_are_passed_on(fixture):
    node, _, session = begun(fixture, workers=1)
    client = node.client().register("message-tags")
    for tags, kept in KEPT_OF_SERVER:
        session.say(f"@{tags} :bob!b@h TAGMSG #a")
        client.hear(tagged(kept, ":bob!b@h TAGMSG #a"))
    session.say("@ :bob!b@h TAGMSG #a")
    client.hear(":bob!b@h TAGMSG #a")


@test
def client_only_tags_of_a_client_are_passed_on(fixture):
    node, _, session = begun(fixture, workers=1)
    client = node.client().register("message-tags")
    for tags, kept in KEPT:
        client.say(f"@{tags} TAGMSG #b")
        session.hear(tagged(kept, "TAGMSG #b"))
    client.say("@ TAGMSG #b")
    session.hear("TAGMSG #b")


@test
def client_only_tags_of_a_post_stand_as_they_are_written(fixture):
    script = Script()
    for number, (tags, kept) in enumerate(KEPT):
        line = f"C TPOST demo net #{number} m1 1000 P {tags} {REST}"
        if tags == kept:
            script.row(line)
            script.page(f"#{number}", f"@msgid=m1;{AT};{tags} :bob!b@h PRIVMSG #a :hi")
        else:
            script.row(line, "% BadField")
    script.row(f"C TPOST demo net #z m1 1000 P +e=\0é {REST}", "% BadField")
    script.play(fixture)


# Lines of a server

# Tag data of a server's message, and the id that it gives, or None where it gives none.
MANY = ";".join(f"k{number}=v{number}" for number in range(400))
IDS = (
    (r"msgid=a\:b;time=1970-01-01T00:00:01.000Z", "a;b"), (r"msgid=a\\and\bk;c=72\s45;d=gh\:764", r"a\andbk"),
    (r"msgid=gh\:764", "gh;764"), (r"msgid=value\\ntest", r"value\ntest"), (r"msgid=value\1", "value1"),
    ("msgid=value1\\", "value1"), ("msgid=1;b=3;c=4;msgid=5", "5"), ("msgid=1;b=2;vendor/msgid=8", "1"), ("a=1;msgid=c=d", "c=d"),
    ("msgid=1;msgid", None), ("=1;msgid=2;;+a;msgid=3;=;c=", "3"), ("=msgid;msgid=", None), (r"msgid=72\s45", None),
    (r"msgid=\r\r", None), (r"msgid=a\nb", None), (f"{MANY};msgid=4;k0", "4"), (f"msgid=4;{MANY}", "4"),
    ("msgid=" + r"ab\:" * 85, "ab;" * 85), ("msgid=:x", None), ("msgid=" + "a" * 256, None), ("Msgid=1", None),
)


@test
def ids_of_a_server_are_read_of_their_tags(fixture):
    """What is read is selected by as it is, and written with escapes. Where there is none, the node makes one."""
    node, _, session = begun(fixture, workers=1)
    client = node.client().register("batch draft/chathistory message-tags")
    for number, (tags, id) in enumerate(IDS):
        session.say(f"@{tags} :bob!b@h PRIVMSG #i{number} :hi")
        came = client.line()
        spelled = escaped(id.encode()).decode() if id else r"n1-\d+-\d+"
        told = re.fullmatch(rf"@msgid=({re.escape(spelled) if id else spelled})(;\+a)? :bob!b@h PRIVMSG #i{number} :hi", came)
        if not told:
            raise Failed(f"{tags!r}: expected the id {id!r}, came {came!r}")
        wanted = id or told[1]
        expect(f"a page by {tags!r}", [came.lstrip("@")], [
            line.partition(";")[2] for line in client.ask(f"CHATHISTORY AROUND #i{number} msgid={wanted} 1")
        ])


@test
def times_of_a_server_are_read_of_their_tags(fixture):
    """Where there is none, the message is of now."""
    node, _, session = begun(fixture, workers=1)
    client = node.client().register("server-time")
    for time in (*(time for time, _ in TIMES), *NO_TIMES):
        session.say(f"@time={time} :bob!b@h PRIVMSG #a :hi")
        came = client.line()
        wanted = r"20[2-9]\d-\d\d-\d\dT\d\d:\d\d:\d\d\.\d{3}Z" if time in NO_TIMES else re.escape(WRITTEN.get(time, time))
        if not re.fullmatch(f"@time={wanted} :bob!b@h PRIVMSG #a :hi", came):
            raise Failed(f"{time!r}: came {came!r}")


# Texts of a server's message behind its target, and the body that is kept.
BODIES = (("hi", "hi"), ("  a  bc   ", "a"), (":", ""), (":b  c  ", "b  c  "), ("b:c", "b:c"), ("::a", ":a"), ("a :b", "a"))


@test
def parameters_of_a_message_are_its_target_and_its_body(fixture):
    node, _, session = begun(fixture, workers=1)
    client = node.client().register("batch draft/chathistory")
    for number, (text, body) in enumerate(BODIES):
        session.say(f":bob!b@h   NOTICE  #b{number} {text}")
        client.hear(f":bob!b@h NOTICE #b{number} :{body}")
        client.say(f"CHATHISTORY LATEST #b{number} * 5")
        client.hear(*page(number + 1, f"#b{number}", f":bob!b@h NOTICE #b{number} :{body}"))


def told_to_client(text):
    """The form of what a client with tags is told of a line of the server, or None. The line's tags have an id and a moment."""
    line = read_line(text, SERVER)
    if isinstance(line, str):
        return None
    front = b":%s " % line.source if line.source is not None else b""
    source, parameters = line.source or b"net", line.parameters[:2]
    if line.command != b"PRIVMSG" or len(parameters) < 2 or not is_message(b"P", parameters[0], source, parameters[1]):
        return re.escape(front + line.text)
    tags = tags_of(line.tags or b"")
    id, time = tags.get(b"msgid", b""), tags.get(b"time", b"")
    id = re.escape(escaped(id)) if is_word(id) else rb"n1-\d+-\d+"
    # (no other time is made of that one by a byte)
    time = re.escape(time) if time == TIMES[1][0].encode() else rb"20[2-9]\d[-\dT:.]+Z"
    return rb"@msgid=%s;time=%s :%s PRIVMSG %s :%s" % (id, time, *map(re.escape, (source, *parameters)))


@test
def lines_of_a_server_with_a_byte_replaced(fixture):
    """And each beginning of one. What can't be read is dropped, and what can't be kept is passed on."""
    node, _, session = begun(fixture, workers=1)
    client = node.client().register("message-tags server-time")
    tried = [*prefixes(WHOLE), *replaced(WHOLE)]
    for number, text in enumerate(tried):
        session.send(text + b"\r\n:irc.example NOTE %d\r\n" % number)
        for line in lines_of(text + b"\r\n"):
            wanted = told_to_client(line)
            if wanted is None:
                continue
            came = client.line().encode("utf-8", "surrogateescape")
            if not re.fullmatch(wanted, came, re.S):
                raise Failed(f"{text!r}: expected {wanted!r}, came {came!r}")
        client.hear(f":irc.example NOTE {number}")
