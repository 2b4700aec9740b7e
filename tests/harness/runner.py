"""Runs tests side by side, and tells which failed."""

import time
import traceback
from concurrent.futures import ThreadPoolExecutor, as_completed

from harness.failure import Failed
from harness.fixture import Fixture

# If more tests failed, none of them is run again.
MOST_AGAIN = 3


class Outcome:
    """What a test came to: why it failed, if it did, what the nodes told then, and what else is to be told."""

    def __init__(self, test, why, logs, notes):
        self.test, self.why, self.logs, self.notes = test, why, logs, notes

    def tell(self):
        if self.why:
            print(f"FAILED {self.test.name}: {self.why}")
            for name, lines in self.logs:
                for line in lines[-20:]:
                    print(f"    {name}: {line}")
        for note in self.notes:
            print(f"{self.test.name}: {note}", flush=True)


def outcome_of(test, program, shims, end):
    """Runs one test, which ends by that moment at the latest."""
    fixture = Fixture(program, shims, end)
    try:
        fixture.patience()
        test.call(fixture)
        why = None
    except Failed as failure:
        why = str(failure)
    except Exception:
        why = traceback.format_exc()
    logs = [(name, log()) for name, log in fixture.logs] if why else []
    fixture.close()
    return Outcome(test, why, logs, fixture.notes)


def run_all(tests, program, shims, jobs, seconds):
    """Runs the tests, so many at once and for so many seconds at most, and answers how many failed. A test that waits for
    another program may fail where processors are short. So where only a few failed, each of them is run once more, alone; it
    is told both times."""
    failed, end = [], time.monotonic() + seconds
    with ThreadPoolExecutor(jobs) as pool:
        begun = [pool.submit(outcome_of, test, program, shims, end) for test in tests]
        for done in as_completed(begun):
            outcome = done.result()
            outcome.tell()
            if outcome.why:
                failed.append(outcome.test)
    if jobs == 1 or len(failed) > MOST_AGAIN:
        return len(failed)
    alone = [outcome_of(test, program, shims, end) for test in failed]
    for outcome in alone:
        outcome.tell()
        print(f"{outcome.test.name}: run once more, alone, it {'failed' if outcome.why else 'passed'}", flush=True)
    return sum(outcome.why is not None for outcome in alone)
