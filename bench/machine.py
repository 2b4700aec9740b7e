"""Tables of figures, and the one line that stands above each."""

import os
import re
import statistics
import subprocess
import time


def said(*words):
    """What a command says, or a question mark."""
    try:
        return subprocess.run(words, capture_output=True, text=True, check=True).stdout.strip()
    except (OSError, subprocess.CalledProcessError):
        return "?"


def name_of_run(program):
    """The day, the commit, the program, the machine and how busy it is."""
    here = os.path.dirname(os.path.realpath(__file__))
    commit = said("git", "-C", here, "rev-parse", "--short", "HEAD")
    if said("git", "-C", here, "status", "--porcelain"):
        commit += " with changes"
    with open("/proc/cpuinfo", encoding="utf-8", errors="replace") as it:
        model = re.search(r"model name\s*: (.*)", it.read())
    processor = re.sub(r"\(R\)|\(TM\)|\b(Processor|CPU)\b", "", model[1]) if model else "unknown"
    busy, processors = os.getloadavg()[0], len(os.sched_getaffinity(0))
    return (f"Run: {time.strftime('%Y-%m-%d')}, {commit}, {os.path.basename(program)}, {processors} processors "
            f"({' '.join(processor.split())}), {busy:.1f} busy before.")


def spread(figures, digits=0):
    """The median and the range."""
    return f"{statistics.median(figures):.{digits}f} ({min(figures):.{digits}f} to {max(figures):.{digits}f})"


def table(heads, rows):
    """A table of Markdown."""
    lines = [heads, ["---"] * len(heads), *rows]
    return "\n".join("| " + " | ".join(str(it) for it in line) + " |" for line in lines)
