"""A companion that serves: bnc-door or bnc-porch, with a configuration of its own."""

import importlib.util
import os
import shutil
import subprocess
import sys

from harness.connection import free_addresses, spelled
from harness.failure import Failed
from harness.scripts import TESTS
from harness.told import Told

FOLDER = os.path.join(os.path.dirname(TESTS), "companions")
CERTIFICATES = os.path.join(TESTS, "certificates")
# (the man pages name it)
PYTHON = (3, 11)


def has_websockets(python):
    """Whether that interpreter has the package python3-websockets."""
    return subprocess.run([python, "-c", "import websockets"], stderr=subprocess.DEVNULL, timeout=30).returncode == 0


def is_new_enough(python):
    return subprocess.run([python, "-c", f"import sys; sys.exit(sys.version_info < {PYTHON})"], timeout=30).returncode == 0


def interpreter(websockets=False):
    """A Python that companions can run with: this one, or the system's; none where only another one has websockets."""
    this = sys.executable
    if sys.version_info >= PYTHON and (not websockets or importlib.util.find_spec("websockets")):
        return this
    for name in ("/usr/bin/python3", shutil.which("python3"), shutil.which("python3.11")):
        if name and is_new_enough(name) and (not websockets or has_websockets(name)):
            return name
    if websockets:
        return None
    raise Failed(f"there is no Python {PYTHON[0]}.{PYTHON[1]} or later, which companions need")


def certificate(name):
    return os.path.join(CERTIFICATES, f"{name}.pem")


class Service(Told):
    """A companion of a test. In its configuration `{listen}` stands for the address where others connect."""

    def __init__(self, fixture, program, text, name, python=None):
        self.fixture, self.program, self.text, self.name = fixture, program, text, name
        self.python, self.front = python or interpreter(), []
        self.address, = free_addresses(1)
        self.path = fixture.path(f"{name}.toml")
        self.process = None
        fixture.logs.append((name, self.log))

    def file(self):
        """The configuration's file, which only its owner may read."""
        self.fixture.write(f"{self.name}.toml", self.text.replace("{listen}", spelled(self.address)).encode())
        os.chmod(self.path, 0o600)
        return self.path

    def start(self, *words):
        """Starts it."""
        path = self.file()
        with self.errors() as log:
            self.process = self.fixture.start(os.path.join(FOLDER, self.program), path, *words, program=self.python,
                                              front=self.front, stdin=None, stdout=log, stderr=log)

    def begin(self):
        """Starts it, and waits until others can connect."""
        self.start()
        self.wait_for("listening: ")
        return self

    def end(self, patience=30):
        """Tells it to end, and answers with which status it did."""
        self.process.terminate()
        return self.process.wait(timeout=self.fixture.patience(patience))

    def refusal(self, *words):
        """Runs it to its end, and answers the status and what it said without the time."""
        ended = self.fixture.run(os.path.join(FOLDER, self.program), self.file(), *words, program=self.python,
                                 front=self.front)
        return ended.status, ended.errors.decode().partition(" ")[2].strip()
