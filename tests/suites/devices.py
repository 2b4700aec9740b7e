"""Standard input and output of `bnc replay` that are cut, interrupted, or fail (docs/OPERATING.md, the table of statuses; the first
paragraph of docs/PROTOCOL.md; docs/DECISIONS.md says how many reads are made at most)."""

import os
import re
import subprocess

from harness.failure import Failed, expect
from harness.fixture import LIMIT
from harness.piped import waiting_in
from harness.registry import add, test
from harness.scripts import TESTS

FAILED = b"read or write failed\n"

ONE_MESSAGE = b"C POST demo net #a m1 1000 P #a bob!b@h :hi\nCHATHISTORY LATEST #a * 10\n"
ONE_PAGE = (
    b":bnc.example BATCH +r1 chathistory #a\r\n"
    b"@batch=r1;msgid=m1;time=1970-01-01T00:00:01.000Z :bob!b@h PRIVMSG #a :hi\r\n"
    b":bnc.example BATCH -r1\r\n"
)

# One line of each kind that is answered. The last but one is an acknowledgement of an earlier life, which is refused.
EACH_KIND = ONE_MESSAGE + (
    b"MARKREAD #a\nC MARK demo net #a 5000\nMARKREAD #a\nC X\nC MARK demo net #a x\n12 x\nPRIVMSG #a :hi\n"
    b"%1>2-\n%2*\n%1<2\n%x\n"
)
EACH_ANSWER = ONE_PAGE + (
    b":bnc.example MARKREAD #a *\r\n"
    b":bnc.example MARKREAD #a timestamp=1970-01-01T00:00:05.000Z\r\n"
    b"% BadForm\r\n% BadField\r\n"
    b":bnc.example 421 al * :Unknown command\r\n"
    b":bnc.example NOTICE al :Not connected to net\r\n"
    b"% WrongLife\r\n% BadForm\r\n"
)

# A redaction behind its post on one node, and before it on another.
REDACTION = b"C REDACT demo net #a m2 *\n"
POSTS = [b"C POST demo net #a m%d %d000 P #a bob!b@h :%c\n" % (n, n, 96 + n) for n in (1, 2)]
QUESTIONS = b"CHATHISTORY BEFORE #a msgid=m2 5\nCHATHISTORY LATEST #a * 5\n"
TWO_NODES = b"".join([*POSTS, REDACTION, QUESTIONS, b"%2\n", REDACTION, *reversed(POSTS), QUESTIONS])
PAGES = 2 * [
    b":bnc.example BATCH +r%d chathistory #a\r\n"
    b"@batch=r%d;msgid=m1;time=1970-01-01T00:00:01.000Z :bob!b@h PRIVMSG #a :a\r\n:bnc.example BATCH -r%d\r\n" % (n, n, n)
    for n in (1, 2)
]
TOO_LONG = b":bnc.example 417 al :Input line was too long\r\n"


def laid(fixture, **faults):
    """The environment in which the devices have these faults."""
    return {"LD_PRELOAD": fixture.shims.path("devices"), **{name: str(value) for name, value in faults.items()}}


@test
def the_worked_script_of_the_readme(fixture):
    """docs/PROTOCOL.md shows what examples/hello.script prints ("A script")."""
    with open(os.path.join(os.path.dirname(TESTS), "examples", "hello.script"), "rb") as file:
        fixture.replay(file.read()).expect(0, ONE_PAGE)


@test
def nothing_is_answered_to_nothing(fixture):
    fixture.replay(b"").expect(0)


@test
def output_to_a_full_disk_fails(fixture):
    with open("/dev/full", "wb") as full:
        fixture.replay(ONE_MESSAGE, stdout=full).expect(4, b"", FAILED)


@test
def output_that_nobody_reads_fails(fixture):
    """The reader of a pipe has gone, and the program isn't ended by a signal."""
    ours, theirs = os.pipe()
    os.close(ours)
    try:
        fixture.replay(ONE_MESSAGE, stdout=theirs).expect(4, b"", FAILED)
    finally:
        os.close(theirs)


@test
def no_output_is_needed_where_nothing_is_answered(fixture):
    with open("/dev/full", "wb") as full:
        fixture.replay(b"C MARK demo net #a 5000\n", stdout=full).expect(0)


@test
def input_that_is_a_folder_fails(fixture):
    folder = os.open(fixture.folder, os.O_RDONLY)
    try:
        fixture.replay(b"", stdin=folder).expect(4, b"", FAILED)
    finally:
        os.close(folder)


@test
def a_closed_input_fails_or_is_empty(fixture):
    """Standard input isn't open at all. Nothing is answered, and the program ends."""
    ran = fixture.run("replay", "demo", "net", "al", given=None, stdin=None, front=["sh", "-c", 'exec "$@" <&-', "sh"])
    if (ran.status, ran.errors) not in ((0, b""), (4, FAILED)) or ran.output:
        raise Failed(f"status {ran.status}, {ran.output!r}, {ran.errors!r}")


@test
def input_that_comes_byte_by_byte_is_answered_alike(fixture):
    """Each byte is written once the one before was read."""
    process = fixture.start("replay", "demo", "net", "al", stdin=subprocess.PIPE, stdout=subprocess.PIPE)
    pipe = process.stdin.fileno()
    for at in range(len(EACH_KIND)):
        os.write(pipe, EACH_KIND[at:at + 1])
        fixture.until("the program reads", lambda: not waiting_in(pipe))
    output, _ = fixture.wait(process)
    expect("output", EACH_ANSWER, output)
    expect("status", 0, process.returncode)


@test
def answers_come_before_more_is_read(fixture):
    """Whoever asks sees each answer before it asks again."""
    process = fixture.start("replay", "demo", "net", "al", stdin=subprocess.PIPE, stdout=subprocess.PIPE)
    for number in range(200):
        os.write(process.stdin.fileno(), b"PING %d\n" % number)
        expect("the answer", b":bnc.example PONG bnc.example :%d\r\n" % number, next_line(fixture, process.stdout))
    output, _ = fixture.wait(process)
    expect("what follows", b"", output)


@test
def the_answers_of_one_read_come_before_more_is_read(fixture):
    """Two lines that come at once are both answered while a third isn't whole."""
    notice = b":bnc.example NOTICE al :Not connected to net\r\n"
    process = fixture.start("replay", "demo", "net", "al", stdin=subprocess.PIPE, stdout=subprocess.PIPE)
    os.write(process.stdin.fileno(), b"x\ny\nz")
    for _ in range(2):
        expect("an answer", notice, next_line(fixture, process.stdout))
    output, _ = fixture.wait(process, b"\n")
    expect("what follows", notice, output)


def next_line(fixture, stream):
    """The next line of a pipe, byte by byte, so that no more is taken."""
    os.set_blocking(stream.fileno(), False)
    held = b""

    def is_whole():
        nonlocal held
        try:
            held += os.read(stream.fileno(), 1)
        except BlockingIOError:
            return False
        return held.endswith(b"\n") or is_whole()

    fixture.until("an answer comes", is_whole)
    os.set_blocking(stream.fileno(), True)
    return held


@test
def a_last_line_without_lf_is_not_answered(fixture):
    fixture.replay(b"MARKREAD #a\nMARKREAD #b").expect(0, b":bnc.example MARKREAD #a *\r\n")
    fixture.replay(b"MARKREAD #a\nMARKREAD #b\r").expect(0, b":bnc.example MARKREAD #a *\r\n")


@test
def lines_may_end_with_cr_lf(fixture):
    fixture.replay(ONE_MESSAGE.replace(b"\n", b"\r\n")).expect(0, ONE_PAGE)


@test
def a_nul_or_a_cr_is_no_part_of_a_line(fixture):
    """Docs/PROTOCOL.md, "Lines that can't be read"."""
    unknown = b":bnc.example 421 al * :Unknown command\r\n"
    fixture.replay(b"PING a\0b\nPING a\rb\n\0\n").expect(0, 3 * unknown)


@test
def a_rest_is_too_long_from_8703_bytes_on(fixture):
    """Bytes after the last LF are no line and get no answer, unless they are 8,703 or more."""
    for count, printed in ((8701, b""), (8702, b""), (8703, TOO_LONG), (20000, TOO_LONG)):
        fixture.replay(b"%" + b"a" * (count - 1)).expect(0, printed)


@test
def a_line_is_too_long_from_8703_bytes_on(fixture):
    """A line about nodes of 8,702 bytes is refused for its form, and a longer one for its length. The next is answered."""
    next_answer = b":bnc.example MARKREAD #a *\r\n"
    for count, printed in ((8701, b"% BadForm\r\n"), (8702, b"% BadForm\r\n"), (8703, TOO_LONG), (9000, TOO_LONG)):
        script = b"%" + b"a" * (count - 1) + b"\nMARKREAD #a\n"
        fixture.replay(script).expect(0, printed + next_answer)


def moving(most):
    return lambda fixture: fixture.replay(EACH_KIND, env=laid(fixture, MOST=most)).expect(0, EACH_ANSWER)


for most in (1, 2, 3, 7, 64):
    add(f"devices: at most {most} bytes are moved at once", moving(most))


@test
def an_interruption_does_not_show(fixture):
    for most in (1, 7, 4096):
        fixture.replay(EACH_KIND, env=laid(fixture, MOST=most, INTERRUPTED=1)).expect(0, EACH_ANSWER)


@test
def a_failing_input_is_told_at_each_byte(fixture):
    """What was asked before is answered: the page once its whole line has come, and else nothing."""
    for count in range(len(ONE_MESSAGE) + 1):
        ran = fixture.replay(ONE_MESSAGE, env=laid(fixture, MOST=1, READS_END=count))
        ran.expect(4, ONE_PAGE if count == len(ONE_MESSAGE) else b"", FAILED)


@test
def a_failing_device_is_told_at_each_byte_of_a_script_of_two_nodes(fixture):
    """What was asked before a read failed is answered; what could be written is the beginning of the answers; and a device that
    moves one byte at a time gives and takes all."""
    fixture.replay(TWO_NODES, env=laid(fixture, MOST=1)).expect(0, b"".join(PAGES))
    asked = [found.end() for found in re.finditer(rb"CHATHISTORY.*\n", TWO_NODES)]
    for count in range(len(TWO_NODES) + 1):
        ran = fixture.replay(TWO_NODES, env=laid(fixture, MOST=1, READS_END=count))
        ran.expect(4, b"".join(PAGES[:sum(end <= count for end in asked)]), FAILED)
    for count in range(len(b"".join(PAGES))):
        ran = fixture.replay(TWO_NODES, env=laid(fixture, WRITES_END=count))
        ran.expect(4, b"".join(PAGES)[:count], FAILED)


@test
def a_failing_output_is_told_at_each_byte(fixture):
    """What could be written is the beginning of the answers."""
    for count in range(len(EACH_ANSWER)):
        ran = fixture.replay(EACH_KIND, env=laid(fixture, WRITES_END=count))
        ran.expect(4, EACH_ANSWER[:count], FAILED)


@test
def a_failing_output_is_told_at_a_line_that_is_too_long(fixture):
    for count in range(len(TOO_LONG)):
        ran = fixture.replay(b"%" + b"a" * 8702 + b"\n", env=laid(fixture, WRITES_END=count))
        ran.expect(4, TOO_LONG[:count], FAILED)


@test
def the_last_of_16777216_reads_may_find_the_end(fixture):
    fixture.replay(b"", env=laid(fixture, EMPTY_LINES=16777215), most=LIMIT).expect(0)


@test
def one_read_more_is_answered_as_a_failed_read(fixture):
    fixture.replay(b"", env=laid(fixture, EMPTY_LINES=16777216), most=LIMIT).expect(4, b"", FAILED)
