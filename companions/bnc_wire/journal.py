"""What a companion says to its operator: one line an event, on standard error, with the time in UTC."""

import sys
import time

# The most characters of an event, and how many events of one kind are told within a minute.
LONGEST = 400
WITHIN_A_MINUTE = 10


def spelled_time(seconds: float) -> str:
    """A time of the wall clock, as IRCv3 server-time spells it."""
    milliseconds = int(seconds * 1000)
    return time.strftime("%Y-%m-%dT%H:%M:%S", time.gmtime(milliseconds // 1000)) + f".{milliseconds % 1000:03}Z"


def printable(text: str) -> str:
    """The text with `?` for whatever isn't printable ASCII, so that no peer can write a line of its own into the log."""
    return "".join(it if " " <= it <= "~" else "?" for it in text)


def log(event: str) -> None:
    """Tells the operator of an event. It never has a secret or a message."""
    try:
        print(spelled_time(time.time()), printable(event)[:LONGEST], file=sys.stderr, flush=True)
    except (OSError, ValueError):
        # (nobody reads it, or the clock has no time: neither ends the companion)
        pass


class Often:
    """Events of one kind that strangers can bring about: the first of a minute are told, the others are counted."""

    def __init__(self, kind: str) -> None:
        self.kind, self.begin, self.count = kind, 0.0, 0

    def log(self, event: str) -> None:
        now = time.monotonic()
        if now - self.begin >= 60:
            self._tell_rest()
            self.begin, self.count = now, 0
        self.count += 1
        if self.count <= WITHIN_A_MINUTE:
            log(f"{self.kind}: {event}")

    def _tell_rest(self) -> None:
        if self.count > WITHIN_A_MINUTE:
            log(f"{self.kind}: {self.count - WITHIN_A_MINUTE} more within a minute")
