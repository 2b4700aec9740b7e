"""The Debian package that `packaging/make` makes (docs/OPERATING.md, "A Debian package")."""

import glob
import os
import re
import subprocess

from harness import companions
from harness.failure import expect
from harness.registry import test
from harness.release import constants
from harness.scripts import TESTS

TOP = os.path.dirname(TESTS)
MAKE = os.path.join(TOP, "packaging", "make")
# What a keeper says that it is, in the version of the node.
KEEPER = constants()["PROGRAM"].replace("bnc ", "bnc-keep ", 1)


def run(fixture, *words, **how):
    ran = subprocess.run(words, cwd=fixture.folder, capture_output=True, text=True, check=True, timeout=fixture.patience(100), **how)
    return ran.stdout


def stand_in(fixture, name, says):
    """A file that passes for a program, since it says which one it is."""
    path = fixture.write(name, f"#!/bin/sh\n# {says}, GLIBC_2.34\n".encode())
    os.chmod(path, 0o755)
    return path


class Package:
    """A package of programs that aren't there, unpacked."""

    def __init__(self, fixture):
        self.fixture = fixture
        programs = [stand_in(fixture, "program", constants()["PROGRAM"]), stand_in(fixture, "keeper", KEEPER)]
        run(fixture, MAKE, *programs, fixture.folder)
        [file] = glob.glob(fixture.path("bnc_*.deb"))
        run(fixture, "dpkg-deb", "--raw-extract", file, "unpacked")

    def files(self):
        root = self.fixture.path("unpacked")
        return {os.path.relpath(os.path.join(folder, name), root) for folder, _, names in os.walk(root) for name in names}

    def text(self, name):
        with open(self.fixture.path(f"unpacked/{name}"), encoding="utf-8") as file:
            return file.read()


@test
def it_has_each_companion_and_document(fixture):
    """Each with its man page, and each unit; and each document and example."""
    package = Package(fixture)
    files, wanted = package.files(), {"usr/share/doc/bnc/README.md"}
    for name in ("bnc", "bnc-keep"):
        wanted |= {f"usr/bin/{name}", f"etc/bnc/{name}.toml", f"lib/systemd/system/{name}.service",
                   f"usr/share/man/man1/{name}.1.gz", f"usr/share/man/man5/{name}.toml.5.gz"}
    for name in os.listdir(companions.FOLDER):
        if name.endswith((".service", ".timer")):
            wanted.add(f"lib/systemd/system/{name}")
        elif name.endswith(".toml"):
            wanted.add(f"etc/bnc/{name}")
        elif name.startswith("bnc-") and not name.endswith(".1"):
            wanted |= {f"usr/bin/{name}", f"usr/lib/bnc/{name}", f"usr/share/man/man1/{name}.1.gz"}
    for name in os.listdir(os.path.join(TOP, "docs")):
        wanted.add(f"usr/share/doc/bnc/docs/{name}")
    for name in ("tls/make-certificate", "one-node.toml", "three-nodes/n3.toml", "clients/bnc_history.py", "keeper/bnc.toml"):
        wanted.add(f"usr/share/doc/bnc/examples/{name}")
    expect("what isn't there", [], sorted(wanted - files))
    expect("compiled modules", [], [it for it in files if it.endswith(".pyc")])
    kept = {f"/{it}" for it in files if it.startswith("etc/")}
    expect("configurations that an upgrade leaves as they are", kept, set(package.text("DEBIAN/conffiles").split()))
    open_files = [it for it in kept if os.stat(fixture.path(f"unpacked{it}")).st_mode & 0o077]
    expect("configurations that others can read", [], open_files)


@test
def the_companions_run_as_they_are_installed(fixture):
    """Each finds its modules."""
    Package(fixture)
    for name in sorted(os.listdir(fixture.path("unpacked/usr/bin"))):
        if name not in ("bnc", "bnc-keep"):
            shown = run(fixture, fixture.path(f"unpacked/usr/bin/{name}"), "--help", env=companions.ENVIRONMENT)
            expect(f"how the help of {name} begins", f"usage: {name}", shown[:7 + len(name)])


@test
def the_keeper_must_be_built_too(fixture):
    """A package without it would take it away from whoever has it. What isn't a keeper is none either."""
    program, keeper = stand_in(fixture, "program", constants()["PROGRAM"]), fixture.path("keeper")
    for why in (f"there is no program {keeper}", f"{keeper} is not {KEEPER}"):
        ran = subprocess.run([MAKE, program, keeper, fixture.folder], capture_output=True, text=True, check=False,
                             timeout=fixture.patience())
        expect("the end", (1, f"packaging/make: {why}: ./build keep makes it\n"), (ran.returncode, ran.stderr))
        stand_in(fixture, "keeper", constants()["PROGRAM"])


UNITS = {"bnc": "/usr/bin/bnc serve ${CREDENTIALS_DIRECTORY}/bnc.toml",
         "bnc-keep": "/usr/bin/bnc-keep ${CREDENTIALS_DIRECTORY}/bnc-keep.toml"}
# What a keeper's unit has in place of a node's, or beside it.
OF_KEEPER = {"ExecStart", "RestartPreventExitStatus", "Environment", "LimitNOFILE", "LoadCredential", "StateDirectory",
             "StateDirectoryMode"}


def service_of(package, name):
    """The lines of a unit's service, by their keys."""
    lines = package.text(f"lib/systemd/system/{name}.service").partition("[Service]\n")[2].partition("[Install]")[0].splitlines()
    found = {}
    for key, _, value in (line.partition("=") for line in lines if "=" in line and not line.startswith("#")):
        found.setdefault(key, []).append(value)
    return found


@test
def a_keeper_is_shut_in_as_a_node_is(fixture):
    """But for its folder. It isn't started again where that helps nothing: at wrong words, a file that can't be gone on with, and
    a refused configuration (bnc-keep(1), "Exit status")."""
    package = Package(fixture)
    node, keeper = service_of(package, "bnc"), service_of(package, "bnc-keep")
    expect("what runs", [[it] for it in UNITS.values()], [it["ExecStart"] for it in (node, keeper)])
    rest = [{key: value for key, value in it.items() if key not in OF_KEEPER} for it in (node, keeper)]
    expect("all else", rest[0], rest[1])
    expect("no start again", ["2 4 5"], keeper["RestartPreventExitStatus"])
    expect("its folder", [["bnc-keep"], ["0700"]], [keeper["StateDirectory"], keeper["StateDirectoryMode"]])
    expect("its file", True, 'file = "/var/lib/bnc-keep/history"\n' in package.text("etc/bnc/bnc-keep.toml"))


@test
def an_upgrade_restarts_nothing(fixture):
    """It says that a restart is due: three machines that upgrade at night would lose the past of all."""
    script = Package(fixture).text("DEBIAN/postinst")
    expect("restarts", [], re.findall(r"systemctl[^\n]*(?:start|stop|kill)[^\n]*", script))
    expect("whether it says so", True, "a restart is due" in script)
