"""The commands beside the node, in `companions/`."""

import os
import sys

from harness.fixture import PATIENCE
from harness.scripts import TESTS

FOLDER = os.path.join(os.path.dirname(TESTS), "companions")
# (no compiled modules are left in the repository)
ENVIRONMENT = {"PATH": "/usr/bin:/bin", "PYTHONDONTWRITEBYTECODE": "1"}


def path_of(name):
    return os.path.join(FOLDER, name)


def run(fixture, name, *words, given=b"", most=PATIENCE, **more):
    """Runs a command to its end."""
    return fixture.run(path_of(name), *words, program=sys.executable, given=given, most=most, env={**ENVIRONMENT, **more})


def start(fixture, name, *words, **how):
    """Starts a command."""
    return fixture.start(path_of(name), *words, program=sys.executable, env=ENVIRONMENT, **how)
