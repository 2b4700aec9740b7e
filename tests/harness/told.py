"""What a process that a test began tells its operator."""

import signal

from harness import processes
from harness.failure import Failed, text_of


class Told:
    """A process whose standard error goes to a file of the test's folder, a line an event."""

    # (who begins it sets these: the fixture, the name of the file and the process)
    fixture = name = process = None

    def errors(self):
        """What becomes its standard error."""
        return open(self.fixture.path(f"{self.name}.log"), "ab")

    def kill(self):
        """Ends it with SIGKILL, without a word."""
        self.process.send_signal(signal.SIGKILL)
        processes.end(self.process)

    def log(self):
        """The lines that it has told the operator. What has no end yet is none."""
        try:
            with open(self.fixture.path(f"{self.name}.log"), "rb") as log:
                data = log.read()
        except FileNotFoundError:
            return []
        return text_of(data[:data.rfind(b"\n") + 1]).splitlines()

    def forget_log(self):
        """Forgets what was told so far, as before another start."""
        self.fixture.write(f"{self.name}.log", b"")

    def told(self, text):
        """Whether the operator was told an event that begins with this text. Before it a line has the time."""
        return any(line.partition(" ")[2].startswith(text) for line in self.log())

    def wait_for(self, text):
        """Waits until the operator is told of this."""
        self.fixture.until(f"{self.name} tells '{text}'", lambda: self.told(text) or self.is_over())

    def is_over(self):
        if self.process.poll() is not None:
            raise Failed(f"{self.name} ended with status {self.process.returncode}")
        return False
