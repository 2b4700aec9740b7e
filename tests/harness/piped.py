"""A program whose standard error is a pipe."""

import fcntl
import os
import struct
import termios


def waiting_in(pipe):
    """How many bytes nobody has taken from the pipe yet."""
    return struct.unpack("i", fcntl.ioctl(pipe, termios.FIONREAD, bytes(4)))[0]


class Piped:
    """A program whose standard error is a pipe, which is read as the test asks for the log. It stands before a class of
    `harness.told`."""

    def __init__(self, fixture, *given, **how):
        super().__init__(fixture, *given, **how)
        self.ours, self.theirs = os.pipe()
        os.set_blocking(self.ours, False)
        fixture.at_end(self.end)

    def end(self):
        for it in (self.ours, self.theirs):
            os.close(it)

    def errors(self):
        return os.fdopen(os.dup(self.theirs), "wb")

    def has_room_for(self, size):
        """From now on the pipe has room for so many bytes, or for a page."""
        fcntl.fcntl(self.ours, fcntl.F_SETPIPE_SZ, size)

    def waiting(self):
        """How many bytes nobody has read yet."""
        return waiting_in(self.ours)

    def read(self, most):
        """Reads so many bytes at most, and answers whether there were any."""
        try:
            piece = os.read(self.ours, most)
        except BlockingIOError:
            return False
        with super().errors() as log:
            log.write(piece)
        return True

    def log(self):
        while self.read(1 << 16):
            pass
        return super().log()
