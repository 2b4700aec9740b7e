"""Calls of the crates with requests for memory refused, and what stands after each refusal. They are made by the crates' own
test programs, which play the files of `tests/calls`. Of each file each request is refused: one alone, and two and three in a
row."""

import os
import re
import shutil

from harness.failure import Failed, expect
from harness.refusals import WANT, Refusals
from harness.registry import add
from harness.scripts import TESTS

CALLS = os.path.join(TESTS, "calls")
# So many requests are refused in a row, from each number up to this one on, and of those above from each 23rd.
ALL = 1 << 30
ROWS = ((1, ALL), (2, ALL), (3, ALL))
SAMPLED = ((1, 600), (2, 600), (3, 600))
ALONE = ((1, ALL),)


def refuse(fixture, run, rows=ROWS):
    """Calls for each number of a request from which on some are refused."""
    for together, each in rows:
        refusals = Refusals.of(fixture, together, each)
        fixture.notes.append(refusals.told(refusals.each(run)))


def ended_for_want(ran):
    """Whether a program said that it had no memory for its own part. One that a signal ended said nothing."""
    return ran.status > 0 and WANT.search(ran.errors)


def file_is_right(program, file, told, rows=ROWS):
    """A test of a program that says of how many cases of a file something else came. The file is one of `tests/calls`, or of
    the program's own. What it would play then isn't there, so it ends."""

    def call(fixture):
        own = os.path.join(fixture.crates, program, "data")
        path = os.path.join(CALLS, file)
        shutil.copy(path if os.path.exists(path) else os.path.join(own, file), fixture.folder)
        wanted = f"{file}: {told}\n".encode()

        def run(number, environment):
            ran = fixture.play(program, file, "none", env=environment)
            if ran.output == wanted:
                return "answered all"
            if ran.output == b"" and ended_for_want(ran):
                return "ended for want of memory"
            raise Failed(f"request {number} refused: status {ran.status}, {ran.errors!r}, {ran.output!r}")

        expect("without a refusal", wanted, fixture.play(program, file, "none").output)
        refuse(fixture, run, rows)

    add(f"calls: {file}", call)


file_is_right("test_sessions", "client_refused", "2 cases of 49 rows, 0 wrong")
file_is_right("test_sessions", "upstream_refused", "2 cases of 43 rows, 0 wrong")
# (these have rows that say what stands after a refusal)
file_is_right("test_state", "states_refused", "4 cases of 172 rows, 0 rows wrong")
file_is_right("test_state", "delta_refused", "1 cases of 266 rows, 0 rows wrong", rows=SAMPLED)
file_is_right("test_state", "pages_refused", "1 cases of 91 rows, 0 rows wrong", rows=ALONE)
file_is_right("test_sessions", "peer_refused", "2 cases of 56 rows, 0 wrong")


# How a test fails that says what it came to.
CAME_TO = re.compile(rb"  left: Err\((?:Refused\()?(.*?)\)+\n right: Ok\(\d+\)\n")


def passes(crate, name, may_come_to=()):
    """A test of a crate's own, which makes again what was refused. It passes, or it came to one of these."""

    def call(fixture):
        def run(number, environment):
            ran = fixture.play(crate, name, tests=True, env=environment)
            came = CAME_TO.search(ran.errors + ran.output)
            word = "passed" if ran.status == 0 else came[1].decode() if came else "something else"
            if word != "passed" and word not in may_come_to:
                raise Failed(f"request {number} refused: status {ran.status}, {ran.errors!r}, {ran.output!r}")
            return word

        expect("without a refusal", 0, fixture.play(crate, name, tests=True).status)
        refuse(fixture, run)

    add(f"calls: {crate}, {name.rpartition('::')[2].replace('_', ' ')}", call)


passes("test_node", "memory::a_refused_ring_is_asked_for_again")
passes("test_node", "memory::a_refused_box_or_entry_is_asked_for_again")
passes("test_node", "tags::tags_are_read_and_written_again")
passes("test_node", "tags::a_list_of_tags_grows")
passes("test_node", "tags::a_line_that_is_fed_in_pieces_has_its_tags")
passes("test_node", "tags::a_record_has_client_only_tags_alone")
# (of three markers so many waited as the word says, and all else was right)
passes("test_node", "play::short_rows_come_to_their_totals", ("Waited(0", "Waited(1", "Waited(2", "Waited(3"))


def workers_end(fixture):
    """Two workers over ports that end at once: each of them ends so, or none of them is begun. The first one may tell that a
    server couldn't be reached."""
    shutil.copy(os.path.join(CALLS, "workers_refused"), fixture.folder)
    # (of what it tells, the program itself may have had no memory for a part)
    told = rb"workers_refused: 1 cases, [01] wrong|two ports that end at once came to:|10(?: dials(?: network(?: 0)?)?)?|" \
        rb"told upstream down: demo/net: it could not be reached at 10\.0\.0\.1:6667: too many open files|ended|--|\s"

    def run(number, environment):
        ran = fixture.play("test_worker", "workers_refused", env=environment)
        lines = ran.output.decode().splitlines()
        if ran.status == 0 and lines == ["workers_refused: 1 cases, 0 wrong"]:
            return "ended"
        if ran.status == 0 and lines[:1] == ["two ports that end at once can't be played"] and len(lines) == 2:
            return "weren't begun"
        if ended_for_want(ran) and not lines:
            return "ended for want of memory"
        if ran.status == 0 and not re.sub(told, b"", ran.output) and ran.output.count(b"    ended") == 2:
            return "ended without the server"
        raise Failed(f"request {number} refused: status {ran.status}, {ran.errors!r}, {ran.output!r}")

    refuse(fixture, run)


add("calls: two workers whose ports end at once", workers_end)
