"""What goes on beside a run, each in a thread of its own, until it is over."""

import collections
import threading


class Beside:
    """What was counted meanwhile, and why something failed, is kept."""

    def __init__(self):
        self.is_over, self.why, self.counts, self.threads = False, [], collections.Counter(), []
        self.lock = threading.Lock()

    def begin(self, call, *given):
        thread = threading.Thread(target=self._guarded, args=(call, *given), daemon=True)
        self.threads.append(thread)
        thread.start()

    def _guarded(self, call, *given):
        try:
            call(self, *given)
        except Exception as failure:
            self.fail(f"{call.__name__}: {type(failure).__name__}: {failure}")

    def count(self, what):
        with self.lock:
            self.counts[what] += 1

    def fail(self, why):
        with self.lock:
            self.why.append(why)
