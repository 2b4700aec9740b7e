"""Which connections and pipes have something to be read. (`select.select` can't be asked about descriptors above 1,023, and beside a
test with a thousand clients there are more.)"""

import select


def readable(files, seconds=0.0):
    """Those of these that have something to be read, or have ended, within so many seconds."""
    poll, named = select.poll(), {}
    for it in files:
        number = it if isinstance(it, int) else it.fileno()
        poll.register(number, select.POLLIN)
        named[number] = it
    return [named[number] for number, _ in poll.poll(max(seconds, 0.0) * 1000)]
