"""`bnc-search`: what it finds in the file of a keeper, and what it copies of a damaged one (companions/bnc-search.1)."""

import os
import random
import re
import sqlite3

from harness import companions, peer_lines
from harness.failure import expect
from harness.keeper import CLOSED, Keeper, PlayedNode, block, payloads_of
from harness.registry import add, test

LIFE = ["L 0keep 5"]
SECOND, DAY = 1000, 86400000
# 2026-01-02T03:04:05Z
MOMENT = 1767323045000


def post(ident, text, moment=MOMENT, target="#a", network="net", account="demo", source="bob!b@h", kind="P", to=None, tags=None):
    tagged = f" {tags}" if tags else ""
    words = f"{account} {network} {target.lower()} {ident} {moment} {kind}{tagged} {to or target} {source}"
    return f"C {'T' if tags else ''}POST {words} :{text}"


def line(text, time="2026-01-02T03:04:05.000Z", where="demo/net #a", who="<bob>"):
    return f"{time} {where} {who} {text}\n"


def written(fixture, *payloads, end=CLOSED, name="history"):
    return fixture.write(name, b"".join(block(*lines) for lines in (LIFE, *payloads)) + end)


def search(fixture, *words):
    return companions.run(fixture, "bnc-search", *words)


def finds(fixture, words, *lines):
    """These words find just these messages, in a database of the moment and in one that is kept."""
    for more in ([], ["--database", "kept.db"]):
        search(fixture, *more, "history", *words).expect(0 if lines else 1, "".join(lines).encode())


@test
def messages_by_words(fixture):
    """All words, in either case, with accents or without; phrases, and how words begin."""
    written(fixture, [post("m1", "Hello, wide world"), post("m2", "hello Wörld", MOMENT + SECOND)],
            [post("m3", "a \x02bold\x02 \x0304,1red\x03 world\x1b[2J", MOMENT + 2 * SECOND)])
    first, second = line("Hello, wide world"), line("hello Wörld", "2026-01-02T03:04:06.000Z")
    third = line("a bold red world[2J", "2026-01-02T03:04:07.000Z")
    finds(fixture, [], first, second, third)
    finds(fixture, ["WORLD"], first, second, third)
    finds(fixture, ["world", "hello"], first, second)
    finds(fixture, ["hello wide"], first)
    finds(fixture, ["wide hello"])
    finds(fixture, ["wor*", "bo*"], third)
    finds(fixture, ["red"], third)
    finds(fixture, ["worl"])
    finds(fixture, ['AND" OR "NOT'])


@test
def messages_by_conversation_and_time(fixture):
    lines = [
        post("m1", "one"), post("m1", "two", network="two"), post("m1", "three", account="eve"),
        post("m2", "four", MOMENT + DAY, target="#B"), post("m3", "five", MOMENT + 2 * DAY, target="bob", to="al"),
        post("m4", "\x01ACTION waves\x01", MOMENT + 3 * DAY, source="Al!a@h"), post("m5", "note", MOMENT + 4 * DAY, kind="N"),
    ]
    written(fixture, lines[:3], lines[3:])
    shown = [
        line("one"), line("two", where="demo/two #a"), line("three", where="eve/net #a"),
        line("four", "2026-01-03T03:04:05.000Z", "demo/net #b"), line("five", "2026-01-04T03:04:05.000Z", "demo/net bob"),
        line("waves", "2026-01-05T03:04:05.000Z", who="* Al"), line("note", "2026-01-06T03:04:05.000Z", who="-bob-"),
    ]
    finds(fixture, ["--account", "eve"], shown[2])
    finds(fixture, ["--network", "two"], shown[1])
    finds(fixture, ["--target", "#b"], shown[3])
    finds(fixture, ["--target", "Bob"], shown[4])
    finds(fixture, ["--nick", "al"], shown[5])
    finds(fixture, ["--after", "2026-01-05"], *shown[5:])
    finds(fixture, ["--after", "2026-01-05T03:04:05", "--before", "2026-01-06T04:04:05+01:00"], shown[5])
    finds(fixture, ["--most", "2"], *shown[5:])
    finds(fixture, ["--account", "demo", "--target", "#a", "one"], shown[0])


@test
def what_is_gone_is_not_found(fixture):
    """Redacted messages, also where the redaction came first, and what is below the floor of a buffer or of an account. Nothing of
    a redacted text is in the database."""
    written(fixture, ["C REDACT demo net #a m2 *", post("m1", "secret one"), post("m2", "secret two"), post("m3", "three")],
            [f"C REDACT demo net #a m1 {MOMENT}", post("m4", "older", MOMENT - 1), f"C FLOOR demo net #a {MOMENT}"],
            [post("m1", "far", target="#b"), post("m5", "away", MOMENT - DAY, account="eve"), f"C AFLOOR eve {MOMENT}"],
            [post("m6", "stays", account="eve")])
    finds(fixture, [], line("far", where="demo/net #b"), line("three"), line("stays", where="eve/net #a"))
    with open(fixture.path("kept.db"), "rb") as file:
        expect("whether a redacted text is in the database", False, b"secret" in file.read())


@test
def of_two_posts_the_one_that_counts(fixture):
    """The later one, then the one with the greater tags, then the smaller letter, source, target and text (docs/DECISIONS.md)."""
    pairs = (
        (post("m1", "earlier"), post("m1", "later", MOMENT + 1)),
        (post("m2", "plain"), post("m2", "tagged", tags="+a")),
        (post("m3", "small tags", tags="+a"), post("m3", "great tags", tags="+b")),
        (post("m4", "a message"), post("m4", "b notice", kind="N")),
        (post("m5", "c", source="eve"), post("m5", "d", source="bob")),
        (post("m6", "f"), post("m6", "e")),
    )
    wanted = ["later", "tagged", "great tags", "b notice", "d", "e"]
    for order in (1, -1):
        os.path.exists(fixture.path("kept.db")) and os.remove(fixture.path("kept.db"))
        written(fixture, *([first] for first, _ in pairs[::order]), *([second] for _, second in pairs))
        found = search(fixture, "--database", "kept.db", "history")
        expect("the status", 0, found.status)
        texts = sqlite3.connect(fixture.path("kept.db")).execute("SELECT text FROM message ORDER BY id").fetchall()
        expect("what counts", wanted, [text for text, in texts])
        pairs = tuple((second, first) for first, second in pairs)


@test
def a_database_that_is_kept(fixture):
    """It is gone on with while the file grows, and made anew once the file was written anew, or something is gone."""
    written(fixture, [post("m1", "one")])
    finds(fixture, [], line("one"))
    first = os.stat(fixture.path("kept.db")).st_ino
    with open(fixture.path("history"), "r+b") as file:
        file.seek(-1, os.SEEK_END)
        file.write(block(post("m2", "two")) + CLOSED)
    finds(fixture, [], line("one"), line("two"))
    finds(fixture, ["two"], line("two"))
    expect("whether it is the same file", True, first == os.stat(fixture.path("kept.db")).st_ino)
    with open(fixture.path("history"), "r+b") as file:
        file.seek(-1, os.SEEK_END)
        file.write(block("C REDACT demo net #a m1 *") + CLOSED)
    finds(fixture, [], line("two"))
    written(fixture, [post("m3", "three")], name="history.new")
    os.replace(fixture.path("history.new"), fixture.path("history"))
    finds(fixture, [], line("three"))
    expect("who may read it", 0o600, os.stat(fixture.path("kept.db")).st_mode & 0o777)


@test
def what_is_no_database_is_not_written_over(fixture):
    """The keeper's file itself, a text, an empty file, and a database of another program."""
    written(fixture, [post("m1", "one")])
    fixture.write("letter", b"Dear al,\n")
    fixture.write("empty", b"")
    other = sqlite3.connect(fixture.path("other.db"))
    other.execute("CREATE TABLE message (text)")
    other.close()
    for name in ("history", "letter", "empty", "other.db"):
        with open(fixture.path(name), "rb") as file:
            before = file.read()
        told = f"bnc-search: {name} is no database of this command, and was not touched\n"
        search(fixture, "--database", name, "history").expect(4, b"", told.encode())
        with open(fixture.path(name), "rb") as file:
            expect(f"whether {name} is as it was", True, before == file.read())
    expect("the folder", ["empty", "history", "letter", "other.db"], sorted(os.listdir(fixture.folder)))


@test
def a_database_for_sql(fixture):
    """As the man page has its columns."""
    written(fixture, [post("m1", "hi", tags="+x=1", to="#A")])
    expect("the status", 0, search(fixture, "--database", "kept.db", "history").status)
    with open(companions.path_of("bnc-search.1"), encoding="utf-8") as file:
        listed = re.findall(r"^\.B (\w+)$", file.read().partition(".SH THE DATABASE")[2].partition(".SH ")[0], re.M)
    row = sqlite3.connect(fixture.path("kept.db")).execute(f"SELECT {', '.join(listed)} FROM message").fetchone()
    wanted = {"account": "demo", "network": "net", "target": "#a", "id": "m1", "ms": MOMENT, "time": "2026-01-02T03:04:05.000Z",
              "kind": "P", "is_action": 0, "nick": "bob", "source": "bob!b@h", "to_target": "#A", "tags": "+x=1", "text": "hi"}
    expect("the row", wanted, dict(zip(listed, row)))


TORN = block("C MARK demo net #a 2")[1:]


@test
def a_torn_end_is_no_damage(fixture):
    """Nor is an append that is under way."""
    for end in (CLOSED + TORN + CLOSED, CLOSED + TORN[:12], b"+000", b""):
        written(fixture, [post("m1", "hi")], end=end)
        finds(fixture, [], line("hi"))
        size = os.path.getsize(fixture.path("history")) - len(end)
        torn = f"behind them {len(end) - 1} bytes of an append that was cut short, or is under way\n" if len(end) > 1 else ""
        search(fixture, "--check", "history").expect(0, f"1 change in 2 blocks of {size} bytes\n{torn}".encode())


def with_byte(data, at, byte):
    return data[:at] + byte + data[at + 1:]


PACKETS = [[post("m1", "one")], [post("m2", "two"), post("m3", "three")], [post("m4", "four")]]
BLOCKS = [block(*lines) for lines in (LIFE, *PACKETS)]
WHOLE, SECOND_AT = b"".join(BLOCKS) + CLOSED, len(BLOCKS[0] + BLOCKS[1])
DAMAGED = (
    ("a head in the middle", with_byte(WHOLE, SECOND_AT + 8, b"9"), SECOND_AT, ["one", "two", "three", "four"], 0),
    ("a closed gate in the middle", with_byte(WHOLE, SECOND_AT, b"-"), SECOND_AT, ["one", "two", "three", "four"], 0),
    ("a line of a payload", WHOLE.replace(b"m2 1767", b"m2 x767"), SECOND_AT, ["one", "three", "four"], 1),
    ("the file of another keeper behind it", WHOLE + block("L 0b 9") + block(post("m5", "five")) + CLOSED, len(WHOLE) - 1,
     ["one", "two", "three", "four", "five"], 0),
    ("zeros in the middle", WHOLE[:SECOND_AT] + bytes(30) + WHOLE[SECOND_AT + 30:], SECOND_AT, ["one", "three", "four"], 0),
)


def damaged(fixture, data, byte, texts, lost):
    """What stands before the damage is found, and the status says that this isn't all. What can be read is copied, and a keeper
    begins with it."""
    fixture.write("history", data)
    number, behind = data[:byte].count(b"\n") + 1, len(re.findall(rb"^C ", data[byte:], re.M))
    damage = f"damaged at byte {byte}, line {number}, with {behind} lines of changes behind it"
    ended = search(fixture, "history")
    expect("the end", (4, f"bnc-search: history: {damage}, where nothing was looked for (--salvage)\n"),
           (ended.status, ended.errors.decode()))
    checked = search(fixture, "--check", "history")
    expect("the check", (1, damage), (checked.status, checked.output.decode().splitlines()[-1]))
    left = f"left out: {lost} line that can't be read\n" if lost else ""
    ended = search(fixture, "--salvage", "new", "history")
    expect("the end", (0, b""), (ended.status, ended.errors))
    expect("what is said", left, ended.output.decode().partition("\n")[2])
    with open(fixture.path("history"), "rb") as file:
        expect("whether the file is as it was", True, data == file.read())
    lines = b"".join(payloads_of(open(fixture.path("new"), "rb").read())).decode().split("\r\n")
    expect("what was copied", sorted(texts), sorted(it.rpartition(" :")[2] for it in lines if it.startswith("C ")))
    expect("the first life", LIFE[0], lines[0])
    search(fixture, "--salvage", "new", "history").expect(4, b"", b"bnc-search: can't write new: file exists\n")
    node = PlayedNode(fixture)
    keeper = Keeper(fixture, [node.peer], file=fixture.path("new")).begin()
    node.meet().hear_changes(*(it for it in lines if it.startswith("C ")))
    keeper.kill()


for what, *it in DAMAGED:
    add(f"searching: damage: {what}", lambda fixture, it=it: damaged(fixture, *it))


@test
def what_is_no_keepers_file(fixture):
    fixture.write("letter", b"Dear al,\n")
    for words in ((), ("--check",), ("--database", "kept.db")):
        search(fixture, *words, "letter").expect(4, b"", b"bnc-search: letter is no file of a keeper\n")
        search(fixture, *words, "none").expect(4, b"", b"bnc-search: can't read none: no such file or directory\n")
    expect("whether a database was made", False, os.path.exists(fixture.path("kept.db")))
    expect("the status of wrong words", 2, search(fixture).status)
    expect("the status of a wrong time", 2, search(fixture, "letter", "--after", "yesterday").status)


@test
def the_file_of_a_keeper_that_runs(fixture):
    node = PlayedNode(fixture)
    keeper = Keeper(fixture, [node.peer], file=fixture.path("history")).begin()
    played = node.meet()
    played.keep(post("m1", "one"))
    finds(fixture, [], line("one"))
    played.keep(post("m2", "two"))
    finds(fixture, [], line("one"), line("two"))
    expect("whether the keeper runs", None, keeper.process.poll())


@test
def the_lines_that_can_be_read(fixture):
    """Of a file without heads just those lines are copied that a plain reader takes for changes (harness/peer_lines.py): lines of
    each kind, and such lines with a byte or two changed."""
    chance, others = random.Random(5), b" :*,AZaz09+=;\\\0#-_P\xff"
    lines = [it.encode() for it in peer_lines.LINES if it.startswith("C ")]
    for _ in range(20_000):
        it = bytearray(chance.choice(lines))
        for _ in range(chance.randrange(3)):
            at = chance.randrange(len(it))
            it[at:at + chance.randrange(2)] = bytes([chance.choice(others)][:chance.randrange(2)])
        lines.append(bytes(it))
    fixture.write("history", block(*LIFE) + b"".join(it + b"\r\n" for it in lines) + CLOSED)
    search(fixture, "--salvage", "new", "history")
    with open(fixture.path("new"), "rb") as file:
        copied = b"".join(payloads_of(file.read())[1:]).split(b"\r\n")[:-1]
    wanted = [it for it in lines if peer_lines.letter_of(it) == "C"]
    for one, other in zip(wanted, copied):
        expect("the next line", one, other)
    expect("how many were copied", len(wanted), len(copied))
