"""How often a source may try a secret."""

import time
from collections import OrderedDict

# So many wrong secrets within so many seconds, and how many sources are remembered.
TRIES, SECONDS, MOST = 5, 60.0, 4096


class Guard:
    """Counts wrong secrets by their source."""

    def __init__(self) -> None:
        self.wrong: OrderedDict[str, list[float]] = OrderedDict()

    def may_try(self, source: str) -> bool:
        """Whether a source may try now."""
        now = time.monotonic()
        tries = [it for it in self.wrong.get(source, ()) if it > now - SECONDS]
        if tries:
            self.wrong[source] = tries
        else:
            self.wrong.pop(source, None)
        return len(tries) < TRIES

    def was_wrong(self, source: str) -> None:
        self.wrong.setdefault(source, []).append(time.monotonic())
        self.wrong.move_to_end(source)
        if len(self.wrong) > MOST:
            self.wrong.popitem(last=False)
