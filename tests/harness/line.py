"""A line between two programs that a test cuts: it stays open, and nothing comes through."""

import socket
import threading

from harness.readable import readable


class Line:
    """Carries bytes from an address of its own to another one and back, until it is cut."""

    def __init__(self, fixture, to):
        self.to, self.is_cut, self.is_over = to, False, False
        self.socket = socket.socket()
        self.socket.bind(("127.0.0.1", 0))
        self.socket.listen(16)
        self.address = self.socket.getsockname()
        thread = threading.Thread(target=self.run, daemon=True)
        thread.start()
        fixture.at_end(thread.join)
        fixture.at_end(self.end)

    def end(self):
        self.is_over = True

    def run(self):
        """Carries what comes, over as many connections as there are."""
        ends = {}
        while not self.is_over:
            for it in readable([self.socket, *([] if self.is_cut else ends)], 0.05):
                if it is self.socket:
                    self.take(ends)
                elif it in ends and not self.is_cut:
                    self.carry(it, ends)
        for it in (self.socket, *ends):
            it.close()

    def take(self, ends):
        """Takes a connection in, and opens the other half of it. While the line is cut, that half isn't there."""
        near, _ = self.socket.accept()
        if self.is_cut:
            ends[near] = near
            return
        try:
            far = socket.create_connection(self.to, timeout=5)
        except OSError:
            near.close()
            return
        ends[near], ends[far] = far, near

    @staticmethod
    def carry(it, ends):
        """Carries what one end said to the other. The end of one is that of both."""
        other = ends[it]
        try:
            data = b"" if other is it else it.recv(65536)
            other.sendall(data)
        except OSError:
            data = b""
        if not data:
            for end in {it, other}:
                ends.pop(end, None)
                end.close()
