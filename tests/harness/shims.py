"""Small C libraries that are laid before the program's C library, built once a run."""

import os
import shutil
import subprocess
import tempfile
import threading

from harness.failure import Failed
from harness.scripts import TESTS


class Shims:
    """Where the built libraries lie."""

    def __init__(self):
        self.folder = tempfile.mkdtemp(prefix="bnc-shims-")
        self.lock = threading.Lock()

    def path(self, name):
        """The library of that name. Without a C compiler the test fails, since nothing else shows what it is to show."""
        with self.lock:
            to = os.path.join(self.folder, f"{name}.so")
            if not os.path.exists(to):
                self.build(os.path.join(TESTS, "harness", f"{name}.c"), to)
            return to

    def build(self, source, to):
        compiler = os.environ.get("CC", "cc")
        if not shutil.which(compiler):
            raise Failed(f"there is no C compiler {compiler}, which builds {os.path.basename(source)} for this test")
        words = [compiler, "-O2", "-shared", "-fPIC", "-o", to, source, "-ldl"]
        built = subprocess.run(words, stdin=subprocess.DEVNULL, stdout=subprocess.PIPE, stderr=subprocess.STDOUT, timeout=60)
        if built.returncode:
            raise Failed(f"{compiler} did not build {source}: {built.stdout[-400:]!r}")
