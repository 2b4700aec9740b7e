"""The examples are started as they stand, but for their ports; and what `./bnc` and `./build` do before the program runs
(README.md; docs/CLIENTS.md, "Logins that people try")."""

import os
import re
import shutil
import subprocess

from harness import processes
from harness.client import Client
from harness.connection import free_addresses, spelled
from harness.failure import Failed, expect
from harness.keeper import Keeper, kept_in
from harness.registry import add, test
from harness.server import Server

TOP = os.path.dirname(os.path.dirname(os.path.dirname(os.path.abspath(__file__))))


def text_of_file(path):
    with open(os.path.join(TOP, path), encoding="utf-8") as file:
        return file.read()


class Example:
    """An example's configuration at addresses of its own, in a file of the test's folder."""

    def __init__(self, fixture, path, known):
        """`known` has the free address that stands for each of the example's."""
        self.fixture, self.name = fixture, path
        text = text_of_file(path)
        for address, other in known.items():
            text = text.replace(f'"{address}"', f'"{spelled(other)}"')
        self.file = fixture.write(os.path.basename(path), text.encode())

    def log(self):
        with open(self.fixture.path("log"), encoding="utf-8") as file:
            return file.read()

    def serve(self):
        with open(self.fixture.path("log"), "ab") as log:
            self.process = self.fixture.start("serve", self.file, stdin=None, stdout=log, stderr=log)
        self.wait_for("listening: ")
        return self

    def wait_for(self, words):
        def is_told():
            if self.process.poll() is not None:
                raise Failed(f"{self.name} ended with status {self.process.returncode}: {self.log()}")
            return words in self.log()

        self.fixture.until(f"{self.name} tells '{words}'", is_told)


def one_node(fixture, path="examples/one-node.toml"):
    """A node with an example's configuration, its server, and the address for clients."""
    server = Server(fixture)
    clients, peers = free_addresses(2)
    known = {"127.0.0.1:6670": clients, "127.0.0.1:7000": peers, "127.0.0.1:6667": server.address}
    return Example(fixture, path, known).serve(), server, clients


@test
def one_node_serves(fixture):
    """The first client of README.md: it is in the network's channel, and is shown the past for which it asks."""
    node, server, clients = one_node(fixture)
    session = server.register(channels=("#a",))
    node.wait_for("upstream up: demo/net as al")
    session.say("@msgid=m1;time=2026-01-02T03:04:05.678Z :bob!b@h PRIVMSG #a :hi")
    server.settled(session)
    client = Client(fixture, clients, "a client").register("batch draft/chathistory", channels=("#a",))
    node.wait_for("client in: demo/net from ")
    expect("the page", [":bob!b@h PRIVMSG #a :hi"], [it.partition(" ")[2] for it in client.ask("CHATHISTORY LATEST #a * 50")])


@test
def the_configuration_of_the_package_serves(fixture):
    """packaging/bnc.toml is the configuration that the Debian package installs."""
    node, server, clients = one_node(fixture, "packaging/bnc.toml")
    server.register(channels=("#a",))
    node.wait_for("upstream up: demo/net as al")
    secret = re.search(r'^secret = "(.*)"$', text_of_file("packaging/bnc.toml"), re.M)[1]
    client = Client(fixture, clients, "a client")
    client.say(f"PASS {secret}", "NICK al", "USER demo/net 0 * :Al")
    client.hear(":bnc.example 001 al :Welcome to net")


@test
def a_node_and_a_keeper_of_one_machine(fixture):
    """examples/keeper, but for the ports and the file: a restart of both loses nothing."""
    server = Server(fixture)
    clients, peers = free_addresses(2)
    known = {"127.0.0.1:6670": clients, "127.0.0.1:7000": peers, "127.0.0.1:6667": server.address}
    node, keeper = (Example(fixture, f"examples/keeper/{name}.toml", known) for name in ("bnc", "bnc-keep"))
    with open(keeper.file, "r+", encoding="utf-8") as file:
        text = file.read().replace('"/var/lib/bnc-keep/history"', f'"{fixture.path("history")}"')
        file.seek(0)
        file.write(text)
    for start in (1, 2):
        node.serve()
        session = server.register(channels=("#a",))
        running = fixture.start(keeper.file, program=Keeper.program, stdin=None, stderr=subprocess.DEVNULL)
        node.wait_for("peer greeted: 0keep at ")
        if start == 1:
            session.say("@msgid=m1;time=2026-01-02T03:04:05.678Z :bob!b@h PRIVMSG #a :hi")
            fixture.until("it is on the disk", lambda: any(it.endswith(" :hi") for it in kept_in(fixture.path("history"))))
            for it in (node.process, running):
                processes.end(it)
            os.remove(fixture.path("log"))
    client = Client(fixture, clients, "a client").register("batch draft/chathistory", channels=("#a",))
    fixture.until("the message is there", lambda: [it.partition(" ")[2] for it in client.ask("CHATHISTORY LATEST #a * 50")]
                  == [":bob!b@h PRIVMSG #a :hi"])


def tree(fixture, files):
    """Copies of files of the repository, where they stand below the test's folder."""
    for path in files:
        os.makedirs(os.path.dirname(fixture.path(path)), exist_ok=True)
        shutil.copy(os.path.join(TOP, path), fixture.path(path))


def script(fixture, path, text):
    """A script of the shell in the test's folder."""
    os.makedirs(os.path.dirname(fixture.path(path)), exist_ok=True)
    fixture.write(path, b"#!/bin/sh\n" + text.encode())
    os.chmod(fixture.path(path), 0o755)


def listens(address):
    """How /proc/net/tcp has a port of this machine where somebody listens (proc(5)): the address backwards, the port, and state 0A."""
    return f"'0100007F:{address[1]:04X} 00000000:0000 0A'"


@test
def three_nodes_run(fixture):
    """examples/three-nodes/run: what one node hears, a client of another finds."""
    server, addresses = Server(fixture), free_addresses(6)
    names = ("n1", "n2", "n3")
    tree(fixture, [f"examples/three-nodes/{it}" for it in ("run", "n1.toml", "n2.toml", "n3.toml")])
    known = {"127.0.0.1:6667": server.address}
    for number in range(3):
        known[f"127.0.0.1:667{number + 1}"] = addresses[number]
        known[f"127.0.0.1:700{number + 1}"] = addresses[3 + number]
    for name in names:
        example = Example(fixture, f"examples/three-nodes/{name}.toml", known)
        os.replace(example.file, fixture.path(f"examples/three-nodes/{name}.toml"))
    # The script calls ./bnc of its repository. The nodes with greater names listen first, so none waits a minute for one.
    script(fixture, "build", "exit 0\n")
    script(fixture, "bnc", f'case "$2" in *n1.toml) later={listens(addresses[4])} ;; *n2.toml) later={listens(addresses[5])} ;; '
           f'*) later= ;; esac\nuntil grep -q "$later" /proc/net/tcp; do sleep 0.02; done\nexec "{fixture.program}" "$@"\n')
    run = processes.start([fixture.path("examples/three-nodes/run")], cwd=fixture.folder, stdin=subprocess.DEVNULL,
                          stdout=subprocess.PIPE, stderr=subprocess.PIPE)
    fixture.at_end(lambda: processes.end(run))
    sessions = {}
    for _ in names:
        session = server.accept("the server")
        nick = session.line("CAP LS 302") and session.line("a nick").split(" ")[1]
        session.hear("USER al 0 * :al")
        session.say(":irc.example CAP * LS :", f":irc.example 001 {nick} :Welcome", f":{nick}!al@host JOIN #a")
        session.hear("CAP END", "JOIN #a")
        server.settled(session)
        sessions[nick] = session
    expect("nicks", ["al1", "al2", "al3"], sorted(sessions))
    sessions["al1"].say("@msgid=m1;time=2026-01-02T03:04:05.678Z :bob!b@h PRIVMSG #a :hi")
    client = Client(fixture, addresses[2], "a client of n3").register("batch draft/chathistory", nick="al3", channels=("#a",))
    said = [":bob!b@h PRIVMSG #a :hi"]
    fixture.until("n3 has what n1 heard",
                  lambda: [it.partition(" ")[2] for it in client.ask("CHATHISTORY LATEST #a * 50")] == said)


# What each login is answered, where PASS has come before USER and the account's secret is s3cret.
REFUSED = (":bnc.example 464 * :Password incorrect", "ERROR :Closing link")
LOGINS = (
    ("the secret, and demo/net as the user name", "s3cret", "demo/net", (":bnc.example 001 al :Welcome to net",)),
    ("all in the password, as for ZNC", "demo/net:s3cret", "demo", REFUSED),
    ("the account and the secret in the password", "demo:s3cret", "demo/net", REFUSED),
    ("an account without a network", "s3cret", "demo", REFUSED),
    ("a network that the account hasn't", "s3cret", "demo/other", REFUSED),
    ("an identity of a client behind an @, as for soju", "s3cret", "demo/net@phone", REFUSED),
    ("upper case", "s3cret", "Demo/net", REFUSED),
)


def login(word, user, answer):
    def call(fixture):
        _node, server, clients = one_node(fixture)
        server.register(channels=("#a",))
        client = Client(fixture, clients, "a client")
        client.say(f"PASS {word}", "NICK al", f"USER {user} 0 * :Al")
        client.hear(*answer)

    return call


for what, word, user, answer in LOGINS:
    add(f"examples: a login by {what}", login(word, user, answer))


@test
def a_password_that_comes_last_is_too_late(fixture):
    """Registration is complete with NICK and USER, and then the password is the empty one."""
    _node, server, clients = one_node(fixture)
    server.register(channels=("#a",))
    client = Client(fixture, clients, "a client")
    client.say("NICK al", "USER demo/net 0 * :Al", "PASS s3cret")
    client.hear(*REFUSED)


@test
def sasl_is_not_offered(fixture):
    """A client that asks for SASL all the same is told that there is none, and may go on by PASS."""
    _node, server, clients = one_node(fixture)
    server.register(channels=("#a",))
    client = Client(fixture, clients, "a client")
    client.say("CAP LS 302", "CAP REQ :sasl", "AUTHENTICATE PLAIN", "PASS s3cret", "NICK al", "USER demo/net 0 * :Al", "CAP END")
    client.hear(
        ":bnc.example CAP * LS :batch draft/chathistory draft/message-redaction draft/read-marker echo-message message-tags "
        "server-time",
        ":bnc.example CAP * NAK :sasl", ":bnc.example 451 * :You have not registered", ":bnc.example 001 al :Welcome to net",
    )


@test
def a_client_made_for_soju_asks_for_what_it_missed(fixture):
    """The requests of such clients, as the IRCv3 specifications have them: history and markers of a channel, conversations since
    a moment, further back until a page is empty. What is read on one device, the other hears of."""
    _node, server, clients = one_node(fixture)
    session = server.register(channels=("#a",))
    session.say("@msgid=m1;time=2026-01-02T03:04:05.678Z :bob!b@h PRIVMSG #a :hi",
                "@msgid=m2;time=2026-01-02T03:04:06.000Z :bob!b@h PRIVMSG al :psst")
    server.settled(session)
    capabilities = "batch draft/chathistory draft/read-marker echo-message message-tags server-time"
    phone = Client(fixture, clients, "a phone").register(capabilities, channels=("#a",))
    desk = Client(fixture, clients, "a desk").register(capabilities, channels=("#a",))
    hi = "msgid=m1;time=2026-01-02T03:04:05.678Z :bob!b@h PRIVMSG #a :hi"
    psst = "msgid=m2;time=2026-01-02T03:04:06.000Z :bob!b@h PRIVMSG al :psst"
    bare = lambda question: [it.partition(";")[2] or it.partition(" ")[2] for it in phone.ask(question)]
    expect("the channel", [hi], bare("CHATHISTORY LATEST #a * 100"))
    expect("before it", [], bare("CHATHISTORY BEFORE #a timestamp=2026-01-02T03:04:05.678Z 100"))
    since = "timestamp=2026-01-01T00:00:00.000Z"
    targets = ["CHATHISTORY TARGETS #a 2026-01-02T03:04:05.678Z", "CHATHISTORY TARGETS bob 2026-01-02T03:04:06.000Z"]
    expect("the conversations", [f":bnc.example {it}" for it in targets],
           bare(f"CHATHISTORY TARGETS {since} timestamp=2030-01-01T00:00:00.000Z 100"))
    expect("the private one", [psst], bare(f"CHATHISTORY LATEST bob {since} 100"))
    for client in (phone, desk):
        if client is phone:
            client.say("MARKREAD #a timestamp=2026-01-02T03:04:05.678Z")
        client.hear(":bnc.example MARKREAD #a timestamp=2026-01-02T03:04:05.678Z")


def run_script(fixture, path, *words):
    """What came of one of the repository's scripts."""
    return subprocess.run([os.path.join(TOP, path), *words], capture_output=True, text=True, check=False, timeout=fixture.patience())


@test
def the_picture_of_the_layers_is_true(fixture):
    """docs/ARCHITECTURE.md is as `tools/layers` makes it of crates.txt."""
    ran = run_script(fixture, "tools/layers", "--check")
    expect("tools/layers --check", (0, "", ""), (ran.returncode, ran.stdout, ran.stderr))


@test
def no_type_has_the_name_of_another_crates(fixture):
    """One name is one thing, in all crates."""
    ran = run_script(fixture, "tools/names")
    expect("tools/names", (0, "", ""), (ran.returncode, ran.stdout, ran.stderr))


@test
def the_documents_have_at_most_25_000_words(fixture):
    """README, CONTRIBUTING, docs and the READMEs of tests, examples and companions together."""
    ran = run_script(fixture, "tools/words", "--check")
    expect("tools/words --check", 0, ran.returncode)


@test
def three_scripts_stand_at_the_root(fixture):
    """`bnc`, `build` and `test`; all others are in folders."""
    found = [it for it in os.listdir(TOP) if os.path.isfile(os.path.join(TOP, it)) and os.access(os.path.join(TOP, it), os.X_OK)]
    expect("the scripts", ["bnc", "build", "test"], sorted(found))


@test
def the_table_of_goals_is_true(fixture):
    """The table of goals in docs/PERFORMANCE.md is as `bench/goals.py` makes it of the tables below it."""
    ran = run_script(fixture, "bench/goals.py", "--check")
    expect("bench/goals.py --check", (0, "", ""), (ran.returncode, ran.stdout, ran.stderr))


def run_bnc(fixture, *words):
    """Runs a copy of `./bnc` in the test's folder."""
    tree(fixture, ["bnc"])
    ran = subprocess.run([fixture.path("bnc"), *words], stdin=subprocess.DEVNULL, capture_output=True, check=False,
                         timeout=fixture.patience())
    return ran.returncode, ran.stdout.decode(), ran.stderr.decode()


def built(fixture, *words):
    """What `./build` says where the kit's command isn't on the path."""
    tree(fixture, ["build", "crates.txt", "HANDLES"])
    ran = subprocess.run(["python3", fixture.path("build"), *words], env={**os.environ, "PATH": "/usr/bin:/bin"},
                         capture_output=True, check=False, timeout=fixture.patience())
    return ran.returncode, ran.stdout, ran.stderr


UNPROVED = "bnc: this program is NOT PROVED: it was built without a proof, with the sanitizer, and is slow\n"


@test
def the_first_line_says_that_it_is_not_proved(fixture):
    """At each start, before it is built and once it is there."""
    made = 'mkdir -p crates/bnc/out/unproved\nprintf "#!/bin/sh\\necho it runs: \\"\\$@\\"\\n" >crates/bnc/out/unproved/bnc\n'
    script(fixture, "build", f'cd "$(dirname "$0")"\necho "build: $*" >&2\n{made}chmod +x crates/bnc/out/unproved/bnc\n')
    for _ in range(2):
        status, output, errors = run_bnc(fixture, "--unproved", "serve", "bnc.toml")
        expect("the run", (0, "it runs: serve bnc.toml\n"), (status, output))
        expect("standard error", UNPROVED + "build: --unproved\n", errors)


@test
def a_program_that_cannot_be_built_is_status_70(fixture):
    script(fixture, "build", "exit 1\n")
    expect("the run", (70, "", ""), run_bnc(fixture, "serve", "bnc.toml"))


@test
def nothing_is_built_for_wrong_words(fixture):
    """Somebody who tries `./bnc --help` first is told the usage, by status 2, and waits for no proof."""
    script(fixture, "build", "exit 1\n")
    usage = "usage: bnc replay <account> <network> <nick> | bnc serve <config>\n"
    for words in ([], ["--help"], ["serve"], ["replay", "demo"]):
        expect(f"./bnc {' '.join(words)}", (2, "", usage), run_bnc(fixture, *words))


@test
def the_command_of_the_kit_is_needed_to_build(fixture):
    """Without `rt` on the path nothing is built, which is told."""
    if shutil.which("rt", path="/usr/bin:/bin"):
        return
    wanted = b"bnc: the program isn't built: the kit's command rt, which builds it, isn't on the path\n"
    for words in ((), ("keep",), ("--unproved",), ("keep", "--unproved")):
        expect(f"./build {' '.join(words)}", (70, b"", wanted), built(fixture, *words))
    expect("./build with other words", 1, built(fixture, "keeper")[0])


@test
def the_keeper_is_built_before_it_runs(fixture):
    """tools/bnc-keep, as ./bnc does it; for other words nothing is built."""
    tree(fixture, ["tools/bnc-keep"])
    made = "mkdir -p crates/bnc_keep/out\nprintf '#!/bin/sh\\necho it runs: \"$@\"\\n' >crates/bnc_keep/out/bnc_keep\n"
    script(fixture, "build", f'cd "$(dirname "$0")"\necho "build: $*" >&2\n{made}chmod +x crates/bnc_keep/out/bnc_keep\n')

    def run(*words):
        ran = subprocess.run([fixture.path("tools/bnc-keep"), *words], stdin=subprocess.DEVNULL, capture_output=True, check=False,
                             timeout=fixture.patience())
        return ran.returncode, ran.stdout, ran.stderr

    for words in ([], ["--help"], ["one.toml", "two.toml"]):
        expect(f"tools/bnc-keep {' '.join(words)}", (2, b"", b"usage: bnc-keep <config>\n"), run(*words))
    expect("the run", (0, b"it runs: bnc-keep.toml\n", b"build: keep\n"), run("bnc-keep.toml"))
    script(fixture, "build", "exit 1\n")
    expect("a build that fails", (70, b"", b""), run("bnc-keep.toml"))
