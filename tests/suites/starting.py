"""How `bnc serve` begins and ends (docs/OPERATING.md, "Start and stop" and "What it logs")."""

import glob
import os
import re
import signal
import socket
import subprocess

from harness.connection import spelled
from harness.failure import Failed, expect
from harness.node import Node
from harness.registry import add, test
from harness.release import constants
from harness.scripts import TESTS
from harness.server import Server

TOP = os.path.dirname(TESTS)
FAILED = b"read or write failed\n"
TIME = r"[0-9]{4}-[0-9]{2}-[0-9]{2}T[0-9]{2}:[0-9]{2}:[0-9]{2}\.[0-9]{3}Z"


@test
def the_first_line_says_which_program_begins(fixture):
    """With its version, and with the logic of the kit that proves it. What no proof was made of says so first."""
    node = Node(fixture).begin()
    told = [line for line in node.log() if re.match(f"{TIME} ", line)]
    said = constants()
    expect("the first line with a time", f"starting: {said['PROGRAM']}, logic {said['LOGIC']}", told[0].partition(" ")[2])


@test
def the_logic_that_is_told_is_that_of_the_kit(fixture):
    kit = subprocess.run(["rt", "version"], stdout=subprocess.PIPE, check=True, text=True).stdout
    expect("the logic", constants()["LOGIC"], re.search(r"\blogic ([0-9a-f]+)", kit)[1])


@test
def the_package_has_the_version_of_the_program(fixture):
    """And what isn't that program is no package."""
    make = os.path.join(TOP, "packaging", "make")
    keeper = fixture.write("keeper", constants()["PROGRAM"].replace("bnc ", "bnc-keep ", 1).encode())
    os.chmod(keeper, 0o755)
    subprocess.run([make, fixture.program, keeper, fixture.folder], stdout=subprocess.DEVNULL, check=True)
    package, = glob.glob(fixture.path("bnc_*.deb"))
    version = subprocess.run(["dpkg-deb", "--field", package, "Version"], stdout=subprocess.PIPE, check=True, text=True).stdout
    expect("the program of that version", constants()["PROGRAM"], f"bnc {version.partition('+')[0]}")
    other = subprocess.run([make, "/bin/true", keeper, fixture.folder], stdout=subprocess.DEVNULL, stderr=subprocess.PIPE, check=False)
    expect("the status for another program", 1, other.returncode)


@test
def a_file_that_is_not_there_is_told(fixture):
    fixture.run("serve", "no/such.toml").expect(4, b"", FAILED + b"can't read no/such.toml: no such file\n")


@test
def a_folder_is_no_configuration(fixture):
    """The second line tells which file can't be read, and behind the colon the system's reason."""
    ran = fixture.run("serve", fixture.folder)
    start = FAILED + f"can't read {fixture.folder}: ".encode()
    if ran.status != 4 or not ran.errors.startswith(start) or ran.errors.count(b"\n") != 2:
        raise Failed(f"expected status 4 and {start}, came {ran.status} and {ran.errors}")


HEAD = """name = "bnc.example"
node = "n1"
listen = "127.0.0.1:1"
peer_listen = "127.0.0.1:1"
peer_word = "green"
workers = 1
places = 1
bound = 1024
retain_days = 0
"""

# The other keys of an entry of each list, and all that it may have.
ENTRIES = {
    "peer": ('address = "127.0.0.1:1"', "name, address, version"),
    "account": ('secret = "s3cret"', "name, secret, keep_from"),
    "network": ('account = "al"\naddress = "127.0.0.1:1"\nnick = "al"\nuser = "al"\nchannels = []',
                "account, name, address, nick, user, channels"),
}

# How a text may spell the name of an entry that is wrong, and the name that is told.
SHOWN = {
    "a name": ('name = "n3"', "n3"),
    "a name between apostrophes": ("name = 'n3'", "n3"),
    "a name with an escape": (r'name = "n\u0033"', "n3"),
    "a name in three quotes": ('name = """n3"""', "n3"),
    "a name whose key is quoted": ('"name" = "n3"', "n3"),
    "a name that no entry may have": ('name = "N 3, ~!"', "N 3, ~!"),
    "a name with a bracket and a quote": (r"""name = '(3")'""", '(3")'),
    "a name of one space": ('name = " "', " "),
    "a name of 64 bytes": (f'name = "{64 * "x"}"', 64 * "x"),
}

# Names that aren't told: the number of the entry stands alone.
UNSHOWN = {
    "an empty name": 'name = ""',
    "a name of 65 bytes": f'name = "{65 * "x"}"',
    "a name of 10,000 bytes": f'name = "{10_000 * "x"}"',
    "a name with a line feed": r'name = "n3\nn4"',
    "a name with a carriage return": r'name = "n3\r"',
    "a name with a NUL": r'name = "\u0000n3"',
    "a name with a tab": r'name = "n\t3"',
    "a name with an escape sequence": r'name = "n3\u001b[2J"',
    "a name with a DEL": r'name = "n3\u007f"',
    "a name with a control character beyond ASCII": r'name = "n3\u009b2J"',
    "a name that turns the direction": r'name = "n3\u202e"',
    "a name with another letter": 'name = "nä"',
    "a name over two lines": 'name = """n3\nn4"""',
    "a number as its name": "name = 3",
    "a truth value as its name": "name = true",
    "a date as its name": "name = 2026-11-23",
    "a list as its name": 'name = ["n3"]',
    "a table as its name": 'name = { name = "n3" }',
}


def tells(list_name, given, words, before=1, behind=1):
    """A test that a configuration is refused in these words, whose list has this entry, so many before it, and some behind it."""

    def call(fixture):
        others = ENTRIES[list_name][0]
        lines = [f'name = "e{place}"\n{others}' for place in range(before)]
        lines += [given, *(f'name = "l{place}"\n{others}' for place in range(behind))]
        text = HEAD + "".join(f"[[{list_name}]]\n{it}\n" for it in lines)
        path = fixture.write("bnc.toml", text.encode())
        fixture.run("serve", path).expect(5, b"", f"config refused\n{words}\n".encode())

    return call


def add_names():
    """The name of an entry stands behind its number. The entry has a key that it may not have, which is seen before what its name
    is."""
    for list_name, (others, keys) in ENTRIES.items():
        known = f"no keys but {keys}"
        for what, (spelled_name, name) in SHOWN.items():
            given, words = f"{spelled_name}\n{others}\nodd = 1", f"{list_name} 2 ({name}): {known}"
            add(f"starting: {what} is told of a wrong {list_name}", tells(list_name, given, words))
        for what, spelled_name in UNSHOWN.items():
            given, words = f"{spelled_name}\n{others}\nodd = 1", f"{list_name} 2: {known}"
            add(f"starting: {what} isn't told of a wrong {list_name}", tells(list_name, given, words))
        add(f"starting: a {list_name} without a name is told by its number",
            tells(list_name, others, f"{list_name} 2, name: missing"))
        for before in (0, 9):
            given, words = f'name = "n3"\n{others}\nodd = 1', f"{list_name} {before + 1} (n3): {known}"
            add(f"starting: the name of {list_name} {before + 1} is told, and none of those beside it",
                tells(list_name, given, words, before))
    for list_name in ("peer", "account"):
        given = f'name = "e0"\n{ENTRIES[list_name][0]}'
        add(f"starting: of two of one name in {list_name} the second is told",
            tells(list_name, given, f"{list_name} 2 (e0), name: a name that no entry before has"))


add_names()


@test
def no_secret_is_told_of_an_entry_that_is_wrong(fixture):
    """Nor the shared word: of an entry its name alone is told, also where a secret stands beside it."""
    for given, words in (
        ('name = "al"\nsecret = "s3cret"\nodd = 1', "account 1 (al): no keys but name, secret, keep_from"),
        ('name = "al"\nsecret = ["s3cret"]', "account 1 (al), secret: a text"),
        ('secret = "s3cret"\nuser = "s3cret"', "account 1, name: missing"),
    ):
        path = fixture.write("bnc.toml", f"{HEAD}[[account]]\n{given}\n".encode())
        fixture.run("serve", path).expect(5, b"", f"config refused\n{words}\n".encode())


def can_not_listen(fixture, which, address, why):
    """A node that is to listen at an address where it can't. That address is told, and why."""
    node = Node(fixture)
    setattr(node, which, address)
    path = fixture.write("bnc.toml", node.text().encode())
    fixture.run("serve", path).expect_begun(4, FAILED + f"can't listen at {spelled(address)}: {why}\n".encode())


def taken(fixture, which):
    """An address that is somebody else's."""
    other = socket.socket()
    fixture.at_end(other.close)
    other.bind(("127.0.0.1", 0))
    other.listen(1)
    can_not_listen(fixture, which, other.getsockname(), "address in use")


@test
def an_address_for_clients_that_is_taken_is_told(fixture):
    taken(fixture, "clients")


@test
def an_address_for_peers_that_is_taken_is_told(fixture):
    taken(fixture, "peers")


@test
def an_address_that_the_machine_does_not_have_is_told(fixture):
    """192.0.2.1 is no machine's (RFC 5737)."""
    for which in ("clients", "peers"):
        can_not_listen(fixture, which, ("192.0.2.1", 6670), "address not available")


def fails(fixture, words, **how):
    """A node that can't begin, which is told in these words, maybe after it has said which program it is and that it listens."""
    path = fixture.write("bnc.toml", Node(fixture).text().encode())
    ran = fixture.run("serve", path, **how)
    said = re.sub(f"^(({TIME} )?starting: .*\n)?({TIME} listening: .*\n)?".encode(), b"", ran.errors)
    if ran.status != 4 or ran.output or not re.fullmatch(FAILED + words.encode() + b"\n", said):
        raise Failed(f"expected status 4 and '{words}', came {ran.status} and {ran.errors!r}")


@test
def too_few_descriptors_are_told(fixture):
    """The system gives no socket, since too many files are open."""
    fails(fixture, "no socket: uncategorized error", front=["sh", "-c", 'ulimit -n 5; exec "$@"', "sh"])


@test
def a_system_without_threads_is_told(fixture):
    fails(fixture, "no thread", env={"LD_PRELOAD": fixture.shims.path("devices"), "NO_THREAD": "1"})


@test
def a_system_without_a_clock_is_told(fixture):
    fails(fixture, "the clock can't be read", env={"LD_PRELOAD": fixture.shims.path("devices"), "NO_CLOCK": "1"})


def without_a_worker(fixture, place):
    """A node of two workers, of which one can't wait for its sockets any more: the place where it waits is the one of that
    number, of which the first is that of who takes connections in. The other worker ends too, while it serves a client, and
    that a worker failed is told."""
    failure = fixture.path("failure")
    front = ["env", f"LD_PRELOAD={fixture.shims.path('waits')}", f"WAITS={place}", f"FAILS={failure}"]
    server = Server(fixture)
    node = Node(fixture, servers=[server.address], workers=2, front=front).begin()
    server.register()
    node.client().register()
    fixture.write("failure", b"")
    fixture.until("the node ends", lambda: node.process.poll() is not None)
    expect("the status", 4, node.process.returncode)
    expect("the last lines", ["read or write failed", "a worker failed"], node.log()[-2:])


@test
def the_first_worker_that_fails_ends_the_node(fixture):
    without_a_worker(fixture, 2)


@test
def the_second_worker_that_fails_ends_the_node(fixture):
    without_a_worker(fixture, 3)


@test
def what_is_told_of_a_day(fixture):
    """Each event is a line on standard error with the time in UTC, in the words of docs/OPERATING.md. Nothing goes to standard
    output, and no line has a secret, the shared word or a message."""
    server = Server(fixture)
    node = Node(fixture, servers=[server.address]).begin()
    session = server.register()
    node.wait_for("upstream up: demo/net as al")
    client = node.client().register()
    at = spelled(client.address)
    node.wait_for(f"client in: demo/net from {at}")
    client.close()
    node.wait_for(f"client out: demo/net from {at}: the other end closed it")
    session.say("ERROR :bye")
    node.wait_for("upstream down: demo/net: it ended as the protocol says")
    for line in node.log():
        if not re.fullmatch(f"{TIME} [^ ].*", line) or "s3cret" in line or "green" in line:
            raise Failed(f"a line that is not as the operator's lines are: {line}")
    with open(fixture.path("n1.out"), "rb") as output:
        expect("standard output", b"", output.read())


def ended_by(fixture, number):
    """A node ends at once at a signal, with the system's own status, and writes nothing on the way."""
    node = Node(fixture).begin()
    before = node.log()
    node.process.send_signal(number)
    expect("status", -number, node.process.wait(fixture.patience()))
    expect("what is told", before, node.log())


@test
def sigterm_ends_a_node(fixture):
    ended_by(fixture, signal.SIGTERM)


@test
def sigint_ends_a_node(fixture):
    ended_by(fixture, signal.SIGINT)


@test
def sighup_ends_a_node(fixture):
    """It reads no configuration anew."""
    ended_by(fixture, signal.SIGHUP)


@test
def sigusr1_ends_a_node(fixture):
    ended_by(fixture, signal.SIGUSR1)
