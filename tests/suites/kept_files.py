"""The file of a keeper, which is cut, damaged, or on a disk that fails (docs/OPERATING.md, "A keeper"; docs/PROTOCOL.md, "A
keeper's file")."""

import os
import re

from harness.clocks import Clocks
from harness.disk import Disk
from harness.failure import Failed, expect
from harness.keeper import CLOSED, NOWHERE, Keeper, PlayedNode, block, payloads_of, posts
from harness.registry import add, test
from harness.scripts import TESTS

FAILED = "read or write failed\n"
FIRST = ["L 0keep 1764471000000"]
# More calls than a start and some packets make.
MOST_CALLS = 60
DAY = 86400


def has_life_behind(keeper, data):
    """The file has these bytes, and behind them a block of a life and nothing more."""
    found = keeper.data()
    expect("how the file begins", data, found[:len(data)])
    [life] = payloads_of(found[len(data):])
    if not re.fullmatch(rb"L 0keep [0-9]+\r\n", life):
        raise Failed(f"expected a life at the end of the file, came {life!r}")


@test
def the_file_of_the_document(fixture):
    """That of docs/PROTOCOL.md is read as it stands there."""
    with open(os.path.join(os.path.dirname(TESTS), "docs", "PROTOCOL.md"), encoding="utf-8") as file:
        lines = re.findall(r"^    (.*)$", file.read().partition("## A keeper's file")[2].partition("\nA block is")[0], re.M)
    keeper = Keeper(fixture)
    with open(keeper.file, "wb") as file:
        file.write("".join(line.replace("<CR><LF>", "\r\n") for line in lines).encode())
    keeper.begin().kill()
    expect("whether it was read", True, keeper.told("read: 2 changes of 1 conversations in "))


@test
def what_is_appended_is_a_block_for_each_packet(fixture):
    """Behind the life that the keeper begins, which is above each earlier one. What it knows isn't written again."""
    node = PlayedNode(fixture)
    keeper = Keeper(fixture, [node.peer])
    keeper.write(FIRST)
    keeper.begin()
    played = node.meet()
    played.keep(*posts(1, 2))
    played.keep(*posts(3))
    played.keep(*posts(2))
    keeper.kill()
    life = played.other
    expect("the payloads", [*FIRST, f"L {life}", "\r\n".join(posts(1, 2)), posts(3)[0]],
           [it.decode()[:-2] for it in payloads_of(keeper.data())])


@test
def a_file_that_is_not_there_is_made(fixture):
    """For its owner alone. With each start the life is a greater one."""
    keeper, lives = Keeper(fixture), []
    for _ in range(3):
        keeper.begin().kill()
        lives.append(int(payloads_of(keeper.data())[-1].split(b" ")[2]))
    expect("the lives", sorted(set(lives)), lives)
    expect("whose it is", 0o600, os.stat(keeper.file).st_mode & 0o777)
    expect("the folder", ["history", "history.lock"], sorted(os.listdir(keeper.folder)))


def read_through(keeper):
    """Starts the keeper, whose peer isn't there, and ends it once it has said what it read and cut."""
    keeper.begin()
    keeper.wait_for("peer unreachable: ")
    keeper.kill()


def cut_at_each_byte(fixture, blocks):
    """The file ends anywhere within those two blocks: it is read up to the last whole one, and goes on there."""
    keeper = Keeper(fixture, [("n1", NOWHERE)])
    sizes = [len(block(*FIRST))]
    for lines in blocks:
        sizes.append(sizes[-1] + len(block(*lines)))
    whole = block(*FIRST) + b"".join(block(*lines) for lines in blocks)
    for size in range(sizes[0], sizes[-1] + 1):
        with open(keeper.file, "wb") as file:
            file.write(whole[:size])
        read_through(keeper)
        kept = max(at for at in sizes if at <= size)
        count = sum(len(lines) for lines in blocks[:sizes.index(kept)])
        expect(f"whether {count} changes were read of {size} bytes", True, keeper.told(f"read: {count} changes "))
        has_life_behind(keeper, whole[:kept])
        expect("whether it says so", size > kept + 1, keeper.told(f"cut: {size - kept} bytes of a torn end"))


add("kept_files: a file that is cut at each byte of its last two blocks",
    lambda fixture: cut_at_each_byte(fixture, [["C MARK demo net #a 1"], ["C AFLOOR demo 1"]]))

NEXT = block("C MARK demo net #a 2")
TORN = (
    ("nothing but the gate", CLOSED),
    ("no gate", b""),
    ("a block whose gate is closed", CLOSED + NEXT[1:] + CLOSED),
    ("half a block", CLOSED + NEXT[1:20]),
    ("a block whose gate is torn", b"\0" + NEXT[1:] + CLOSED),
    ("zeros", CLOSED + bytes(5000)),
    ("a block that came out of order", CLOSED + bytes(20) + NEXT[20:] + CLOSED),
)


def torn(fixture, end):
    """What one append may leave is cut, and said: how many bytes there are behind the last whole block."""
    keeper = Keeper(fixture, [("n1", NOWHERE)])
    keeper.write(FIRST, posts(1), end=end)
    read_through(keeper)
    expect("whether it was read", True, keeper.told("read: 1 changes of 1 conversations in "))
    expect("whether it says so", len(end) > 1, keeper.told(f"cut: {len(end)} bytes of a torn end"))
    has_life_behind(keeper, block(*FIRST) + block(*posts(1)))


for what, end in TORN:
    add(f"kept_files: a torn end: {what}", lambda fixture, end=end: torn(fixture, end))

# A file with three packets, and where each of its blocks begins.
PACKETS = [posts(1, 2), posts(3), posts(4, 5)]
BLOCKS = [block(*FIRST), *(block(*lines) for lines in PACKETS)]
STARTS = [sum(map(len, BLOCKS[:number])) for number in range(len(BLOCKS) + 1)]
WHOLE = b"".join(BLOCKS) + CLOSED
OTHER = block("L 0other 5") + block(*posts(7)) + CLOSED
NO_ENTRY, NO_END = "a block that has neither changes nor a life", "bytes that no append leaves"


def changed(at, byte):
    return WHOLE[:at] + byte + WHOLE[at + len(byte):]


DAMAGED = (
    ("a digit of a head in the middle, which is longer now", changed(STARTS[2] + 8, b"9"), 2, NO_ENTRY),
    ("a digit of a head in the middle, which is shorter now", changed(STARTS[1] + 7, b"1"), 1, NO_ENTRY),
    ("a gate in the middle that is closed", changed(STARTS[2], b"-"), 2, NO_END),
    ("a line's end of a head", changed(STARTS[1] + 9, b" "), 1, NO_END),
    ("a head that is too great for the file", changed(STARTS[1] + 1, b"9"), 1, NO_END),
    ("a digit of the last head", changed(STARTS[3] + 6, b"9"), 3, NO_END),
    ("a page of zeros", changed(STARTS[1] - 5, bytes(40)), 0, NO_ENTRY),
    ("a letter of a payload", changed(STARTS[2] + 11, b"X"), 2, NO_ENTRY),
    ("a digit of a moment", WHOLE.replace(b"m3 3 P", b"m3 x P"), 2, NO_ENTRY),
    ("the end of a line within a payload", WHOLE.replace(b":hi 1\r\n", b":hi 1\r "), 1, NO_ENTRY),
    ("a life beside changes", b"".join(BLOCKS[:3]) + block(*FIRST, *posts(9)) + BLOCKS[3] + CLOSED, 3, NO_ENTRY),
    ("the last block twice, each with its gate", WHOLE + BLOCKS[3] + CLOSED, 4, NO_END),
    ("the file of another keeper behind it", WHOLE + OTHER, 4, NO_END),
    ("the file of another keeper in place of the gate's", b"".join(BLOCKS) + b"\n" + OTHER, 4, NO_END),
)


def damaged(fixture, data, at, words):
    """The program names the first byte and line that it can't read, and how many changes stand there and behind it, and leaves
    the file as it is."""
    keeper = Keeper(fixture)
    with open(keeper.file, "wb") as file:
        file.write(data)
    byte = STARTS[at]
    line, lines = data[:byte].count(b"\n") + 1, len(re.findall(rb"^C ", data[byte:], re.M))
    told = f"damaged at byte {byte}, line {line}: {words}; {lines} lines `C ..` stand there and behind it; the file is as it was"
    keeper.run().expect_begun(4, f"{FAILED}{keeper.file}: {told}\n".encode())
    expect("whether the file is as it was", True, keeper.data() == data)
    expect("the folder", ["history", "history.lock"], sorted(os.listdir(keeper.folder)))


for what, data, at, words in DAMAGED:
    add(f"kept_files: damage: {what}", lambda fixture, it=(data, at, words): damaged(fixture, *it))


@test
def a_block_that_stands_twice_brings_nothing_new(fixture):
    """The set of changes is the same."""
    node = PlayedNode(fixture)
    keeper = Keeper(fixture, [node.peer])
    keeper.write(FIRST, *PACKETS[:2], PACKETS[0], PACKETS[2])
    keeper.begin()
    node.meet().hear_changes(*posts(1, 2, 3, 4, 5))


def not_ours(fixture, make):
    """What isn't a keeper's is refused before it is touched."""
    keeper = Keeper(fixture)
    make(keeper.file)
    before = os.lstat(keeper.file)
    # (nobody reads a folder or a pipe)
    data = keeper.data() if os.path.isfile(keeper.file) else None
    told = f"{FAILED}{keeper.file}: it is no file of a keeper, and was not touched\n"
    keeper.run().expect_begun(4, told.encode())
    after = os.lstat(keeper.file)
    expect("whether it is as it was", (before.st_mode, before.st_size, before.st_mtime_ns, data),
           (after.st_mode, after.st_size, after.st_mtime_ns, None if data is None else keeper.data()))


def written(data):
    def make(path):
        with open(path, "wb") as file:
            file.write(data)

    return make


def linked(call):
    def make(path):
        written(WHOLE)(f"{path}.first")
        call(f"{path}.first", path)

    return make


for what, make in (
    ("an empty file", written(b"")), ("a letter", written(b"Dear al,\r\nhow are you?\r\n")),
    ("a closed gate alone", written(CLOSED)),
    ("a head that isn't whole", written(WHOLE[:10])), ("a folder", os.mkdir), ("a pipe", os.mkfifo),
    ("a link", linked(os.symlink)), ("a file with two names", linked(os.link)),
):
    add(f"kept_files: no file of a keeper: {what}", lambda fixture, make=make: not_ours(fixture, make))


@test
def two_processes_on_one_file(fixture):
    """The second one ends, and the first one goes on."""
    node = PlayedNode(fixture)
    keeper = Keeper(fixture, [node.peer]).begin()
    played = node.meet()
    other = Keeper(fixture, name="0other", file=keeper.file)
    other.run().expect_begun(4, f"{FAILED}{keeper.file}: another process has it open\n".encode())
    played.keep(*posts(1))
    expect("whether the change is in the file", ["history"], keeper.holds(posts(1)[0]))


@test
def a_folder_that_is_not_there(fixture):
    keeper = Keeper(fixture, file=fixture.path("none/history"))
    ran = keeper.run()
    start = f"{FAILED}{keeper.file}: "
    said = ran.errors.decode().partition("\n")[2]
    if ran.status != 4 or not said.startswith(start):
        raise Failed(f"expected status 4 and {start!r}, came {ran.status} and {ran.errors!r}")


# ---- a machine that crashes, and calls that are refused


def life_of(played):
    """The number of the life in which a keeper speaks."""
    return int(played.other.split(" ")[1])


class Kept:
    """A keeper whose disk is a test's, with a node that has changes for it."""

    def __init__(self, fixture, *payloads):
        self.fixture, self.node = fixture, PlayedNode(fixture)
        self.keeper = Keeper(fixture, [self.node.peer])
        self.payloads, self.acknowledged = payloads, []

    def begin(self, clocks=None, **variables):
        """Starts the keeper over a file of these payloads, or over none, on a disk that fails."""
        for name in os.listdir(self.keeper.folder):
            os.remove(os.path.join(self.keeper.folder, name))
        if self.payloads:
            self.keeper.write(*self.payloads)
        self.acknowledged, self.life, self.disk = [], 0, Disk(self.fixture, clocks, **variables)
        self.keeper.front = self.disk.front
        self.keeper.forget_log()
        self.node.forget()
        self.keeper.start()

    def is_over(self, event):
        """Waits until the operator was told this, or the keeper has ended. Whether it has."""
        process = self.keeper.process
        self.fixture.until(f"{event}, or an end", lambda: process.poll() is not None or self.keeper.told(event))
        return process.poll() is not None

    def talk(self, packets):
        """Gives packet after packet, up to the end of the connection."""
        try:
            played = self.node.meet()
            self.life = life_of(played)
            for packet in packets:
                played.keep(*packet)
                self.acknowledged += packet
        except (Failed, OSError):
            pass

    def check(self, given):
        """A keeper on a disk that is whole, whose clock is set back, gives out all that was acknowledged, and of one packet more
        all or nothing. Its life is above each that a node heard of."""
        self.keeper.front = []
        self.node.forget()
        self.keeper.begin()
        played = self.node.meet()
        expect("whether its life is a later one", True, life_of(played) > self.life)
        before = [line for payload in self.payloads for line in payload if line.startswith("C ")]
        while not set(before + self.acknowledged) <= set(played.changes):
            played.step()
        played.keep(*posts(99))
        more = set(played.changes) - set(before + self.acknowledged + posts(99))
        if more and more not in map(set, given):
            raise Failed(f"acknowledged were {self.acknowledged}, and {more} came besides")
        self.keeper.kill()


def crashes_at_each_call(fixture, kind, payloads):
    """Nothing that was acknowledged is lost, and no later life is below an earlier one."""
    it, packets, clocks = Kept(fixture, *payloads), [posts(11, 12), posts(13)], Clocks(fixture)
    clocks.set_ahead(DAY)
    for number in range(1, MOST_CALLS):
        it.begin(clocks, CRASHES=f"{number}{kind}")
        if not it.is_over("read: "):
            it.talk(packets)
        is_through = it.acknowledged == packets[0] + packets[1] and it.keeper.process.poll() is None
        it.keeper.kill()
        it.check(packets)
        if is_through:
            expect("whether calls were looked at", True, number > 12)
            return
    raise Failed(f"more than {MOST_CALLS} calls")


CRASHES = (("", "a crash before"), ("+", "a crash after"), ("/", "a crash within"), ("!", "a loss of power before"))
for kind, what in CRASHES:
    add(f"kept_files: {what} each call, with a file",
        lambda fixture, kind=kind: crashes_at_each_call(fixture, kind, [FIRST, *PACKETS]))
    add(f"kept_files: {what} each call, without a file",
        lambda fixture, kind=kind: crashes_at_each_call(fixture, kind, []))


REDACTED = [FIRST, posts(1, 2), ["C REDACT demo net #a m2 2"]]
LEFT = [*posts(1), *REDACTED[2]]
# What a redaction waits for.
SOON = 58


def crashes_while_it_is_written_anew(fixture, kind):
    """At each call. The file stands for the same changes, and the redacted text is gone once it was written anew."""
    it, through = Kept(fixture, *REDACTED), 0
    for number in range(1, MOST_CALLS):
        clocks = Clocks(fixture)
        it.begin(clocks, CRASHES=f"{number}{kind}")
        if it.is_over("read: "):
            continue
        clocks.skip(SOON)
        is_through = not it.is_over("rewritten: ")
        it.keeper.kill()
        if is_through:
            expect("where the text is", [], it.keeper.holds(":hi 2"))
        it.keeper.front = []
        it.node.forget()
        it.keeper.begin()
        it.node.meet().hear_changes(*LEFT)
        it.keeper.kill()
        if is_through:
            expect("whether calls were looked at", True, through > 5)
            return
        through += 1
    raise Failed(f"more than {MOST_CALLS} calls")


for kind, what in CRASHES:
    add(f"kept_files: {what} each call by which it is written anew",
        lambda fixture, kind=kind: crashes_while_it_is_written_anew(fixture, kind))


@test
def each_call_by_which_it_is_written_anew_is_refused_in_turn(fixture):
    """The file stays as it was, or is let go; a minute later it is written anew, and the redacted text is gone. What comes
    meanwhile is kept."""
    it = Kept(fixture, *REDACTED)
    it.begin()
    it.is_over("read: ")
    begun = it.disk.calls()
    it.keeper.kill()
    it.node.forget()
    for number in range(begun + 1, MOST_CALLS):
        clocks = Clocks(fixture)
        it.begin(clocks, FAILS=number)
        it.keeper.wait_for("read: ")
        played = it.node.meet()
        it.keeper.wait_for("peer greeted: ")
        clocks.skip(SOON)
        it.fixture.until("it is told", lambda: any(map(it.keeper.told, ("rewritten: ", "not rewritten: ", "not kept: "))))
        is_let_go, is_through = it.keeper.told("not kept: "), it.keeper.told("rewritten: ")
        if is_through:
            it.keeper.kill()
            expect("whether calls were looked at", True, number > begun + 5)
            return
        clocks.skip(SOON + 3)
        if is_let_go:
            it.keeper.wait_for("file open again: ")
            played = it.node.keep(*posts(4))
            clocks.skip(SOON)
        fixture.until("the text is gone", lambda: not it.keeper.holds(":hi 2"))
        played.keep(*posts(3))
        it.keeper.kill()
        it.keeper.front = []
        it.node.forget()
        it.keeper.begin()
        it.node.meet().hear_changes(*LEFT, *posts(3), *(posts(4) if is_let_go else []))
        it.keeper.kill()
    raise Failed(f"more than {MOST_CALLS} calls")
