"""The disk of a keeper, which fails or where the machine crashes, as a test says."""

import mmap
import struct


class Disk:
    """The disk of each program that is started behind `front`, whose clocks may be a test's too."""

    def __init__(self, fixture, clocks=None, **variables):
        """The variables are those of harness/disk.c."""
        path = fixture.write("calls", bytes(16))
        with open(path, "r+b") as file:
            self.map = mmap.mmap(file.fileno(), 16)
        libraries = ":".join([fixture.shims.path("disk"), *([clocks.library] if clocks else [])])
        self.front = ["env", f"LD_PRELOAD={libraries}", f"CALLS={path}", *([clocks.setting] if clocks else []),
                      *(f"{name}={value}" for name, value in variables.items())]

    def calls(self):
        """How many calls wrote, cut, synced or renamed a file."""
        return struct.unpack("=qq", self.map)[0]

    def readings(self):
        """How often a file was read from its beginning."""
        return struct.unpack("=qq", self.map)[1]
