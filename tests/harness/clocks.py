"""The clocks of a node, which a test sets."""

import mmap
import struct
import time

# After so many seconds a worker has looked at its clocks again (it waits for 20 milliseconds at most).
LOOK = 0.4


class Clocks:
    """The wall clock and the monotonic clock of each node that is started behind `front`."""

    def __init__(self, fixture, name="clocks"):
        path, self.library = fixture.write(name, bytes(16)), fixture.shims.path("clocks")
        with open(path, "r+b") as file:
            self.map = mmap.mmap(file.fileno(), 16)
        self.setting = f"CLOCKS={path}"
        self.front = ["env", f"LD_PRELOAD={self.library}", self.setting]
        self.wall = self.monotonic = 0

    def _put(self):
        self.map[:] = struct.pack("=qq", int(self.wall * 1e9), int(self.monotonic * 1e9))

    def set_ahead(self, seconds):
        """Sets the wall clock ahead by so many seconds, or back."""
        self.wall += seconds
        self._put()

    def go(self, seconds):
        """So many seconds are over by both clocks."""
        self.wall += seconds
        self.monotonic += seconds
        self._put()

    def skip(self, seconds):
        """So many seconds are over by both clocks, and each worker has looked at them."""
        self.go(seconds)
        time.sleep(LOOK)

    def now(self):
        """The milliseconds after 1970 that the wall clock reads."""
        return int((time.time() + self.wall) * 1000)
