"""What a test is given."""

import itertools
import os
import re
import shutil
import subprocess
import tempfile
import time

from harness import processes
from harness.failure import Failed, expect, expect_lines, text_of

# The seconds that a test may take, and those that it waits for one thing.
LIMIT = 150
PATIENCE = 30


class Ended:
    """How a run of the program ended, and what it wrote."""

    def __init__(self, status, output, errors):
        self.status, self.output, self.errors = status, output, errors

    def expect(self, status, output=b"", errors=b""):
        """Fails unless the program ended with that status, having written just that."""
        said = f" (standard error: {text_of(self.errors)[-300:]!r})" if self.errors != errors else ""
        expect(f"status{said}", status, self.status)
        expect_lines("standard output", output, self.output)
        expect_lines("standard error", errors, self.errors)

    def expect_begun(self, status, errors):
        """The same of a node that had begun to log: its first line, which says which program it is, isn't looked at."""
        log = re.match(rb"(\S+Z )?starting: .*\n|", self.errors)[0]
        Ended(self.status, self.output, self.errors.removeprefix(log)).expect(status, b"", errors)


class Fixture:
    """The program, a folder and a deadline for one test. What it began is ended when the test is over."""

    def __init__(self, program, shims, end):
        self.program, self.shims = program, shims
        # (where the crates were built)
        self.crates = os.path.dirname(os.path.dirname(os.path.dirname(program)))
        self.folder = tempfile.mkdtemp(prefix="bnc-test-")
        self.deadline = min(time.monotonic() + LIMIT, end)
        self.notes, self.logs, self._ends = [], [], []
        # who comes to the server at an address, and the names of the test's nodes
        self.identities, self._names = {}, set()

    def patience(self, most=PATIENCE):
        """How many seconds may be waited for the next thing."""
        left = self.deadline - time.monotonic()
        if left <= 0:
            raise Failed(f"no time is left: a test has {LIMIT} seconds, and all tests have those of --seconds")
        return min(left, most)

    def path(self, name):
        return os.path.join(self.folder, name)

    def write(self, name, data):
        """Writes a file into the test's folder, and answers its path."""
        with open(self.path(name), "wb") as file:
            file.write(data)
        return self.path(name)

    def name_of_node(self, name=None):
        """The name of a node, or the next one that no other has. No two nodes of a test have one name."""
        name = name or next(it for it in map("n{}".format, itertools.count(1)) if it not in self._names)
        if name in self._names:
            raise ValueError(f"two nodes of a test are called {name}")
        self._names.add(name)
        return name

    def at_end(self, call):
        """Has something done when the test is over, last things first."""
        self._ends.append(call)

    def start(self, *words, **how):
        """Starts the program with these words."""
        how.setdefault("cwd", self.folder)
        how["env"] = {"LANG": "C.UTF-8", **how.get("env", {})}
        front, program = how.pop("front", []), how.pop("program", self.program)
        process = processes.start([*front, program, *words], **how)
        self.at_end(lambda: processes.end(process))
        return process

    def run(self, *words, given=b"", most=PATIENCE, **how):
        """Runs the program with these words to its end, for which so many seconds are waited."""
        how.setdefault("stdout", subprocess.PIPE)
        if "stdin" not in how:
            how["stdin"] = subprocess.PIPE
        process = self.start(*words, stderr=subprocess.PIPE, **how)
        output, errors = self.wait(process, given if how["stdin"] == subprocess.PIPE else None, most)
        return Ended(process.returncode, output or b"", errors)

    def wait(self, process, given=None, most=PATIENCE):
        """Gives a process its input, and waits for its end and its output."""
        try:
            output = process.communicate(given, timeout=self.patience(most))
        except subprocess.TimeoutExpired:
            raise Failed("the program had not ended in time") from None
        processes.end(process)
        return output

    def play(self, crate, *words, tests=False, **how):
        """Runs a crate's test program, or its tests, which lie beside the program that is tested."""
        program = os.path.join(self.crates, crate, "out", f"{crate}_tests" if tests else crate)
        if not os.access(program, os.X_OK):
            raise Failed(f"there is no program {program}: rt ci builds it")
        return self.run(*words, program=program, **how)

    def replay(self, script, **how):
        """Runs a script of the account demo on the network net with the nick al."""
        return self.run("replay", "demo", "net", "al", given=script, **how)

    def until(self, what, call, most=PATIENCE):
        """Calls until the answer is true, and answers it."""
        end = time.monotonic() + self.patience(most)
        while True:
            answer = call()
            if answer:
                return answer
            if time.monotonic() > end:
                raise Failed(f"{what}: not so within {most} seconds")
            time.sleep(0.01)

    def close(self):
        """Ends what the test began."""
        for call in reversed(self._ends):
            try:
                call()
            except (OSError, subprocess.TimeoutExpired):
                pass
        shutil.rmtree(self.folder, ignore_errors=True)
