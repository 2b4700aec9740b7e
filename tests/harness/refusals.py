"""Runs of a program with requests for memory refused: the first, then the second, and so on, until a run asks for no more. The
C library that refuses them is refuse.c."""

import os
import re

from harness.failure import Failed

# How want of memory is told; NoRing is that of a ring.
WANT = re.compile(rb"memory|AllocError|AllocFailed|NoRing|Refused", re.I)
# Why a test of refused requests fails that had none.
UNREFUSED = "no request for memory was refused: is the program built with a sanitizer, which has its own malloc?"


class Refusals:
    """The runs of one program, and what they came to. So many requests are refused in a row, from each number up to a last one
    on, and of the later numbers from each that lies a step further on."""

    def __init__(self, shim, mark, together=1, each=600, step=23):
        self.shim, self.mark = shim, mark
        self.together, self.last, self.step = together, each, step
        self.counts = {}

    @classmethod
    def of(cls, fixture, together=1, each=600, step=23):
        return cls(fixture.shims.path("refuse"), fixture.path("refused"), together, each, step)

    def environment(self, number):
        """The environment in which the requests from that number on are refused."""
        if os.path.exists(self.mark):
            os.remove(self.mark)
        return {"LD_PRELOAD": self.shim, "REFUSE": str(number), "TOGETHER": str(self.together), "REFUSED": self.mark}

    def each(self, run):
        """Calls for each number until nothing is refused, and answers how many requests there were. A call answers in a word
        what its run came to."""
        number = 1
        while True:
            word = run(number, self.environment(number))
            if not os.path.exists(self.mark):
                return number - 1
            self.counts[word] = self.counts.get(word, 0) + 1
            number += 1 if number < self.last else self.step

    def told(self, last):
        """What is told of the runs."""
        if not self.counts:
            raise Failed(UNREFUSED)
        sampled = f" (of those above {self.last} each {self.step}rd)" if last > self.last else ""
        row = f", {self.together} in a row" if self.together > 1 else ""
        counts = ", ".join(f"{count} {word}" for word, count in sorted(self.counts.items()))
        return f"{last} requests{sampled}, {sum(self.counts.values())} refused{row}: {counts}"
