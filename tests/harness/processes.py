"""Processes that tests start. Each leads a group of its own, and none outlives the run."""

import atexit
import os
import signal
import subprocess
import threading

_started = set()
_lock = threading.Lock()


def start(words, **how):
    """Starts a command."""
    with _lock:
        process = subprocess.Popen(words, start_new_session=True, **how)
        _started.add(process)
    return process


def end(process):
    """Kills the process with its group, and waits until it is gone. One that has ended is left alone."""
    if process.poll() is None:
        try:
            os.killpg(process.pid, signal.SIGKILL)
        except ProcessLookupError:
            pass
        process.wait(timeout=10)
    for stream in (process.stdin, process.stdout, process.stderr):
        if stream:
            try:
                stream.close()
            except OSError:
                pass
    with _lock:
        _started.discard(process)


def end_all():
    """Ends whatever is still there."""
    with _lock:
        left = list(_started)
    for process in left:
        try:
            end(process)
        except (OSError, subprocess.TimeoutExpired):
            pass


atexit.register(end_all)
