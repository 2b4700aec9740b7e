#!/usr/bin/env python3
"""Makes all tables of docs/PERFORMANCE.md anew, one script after another, but for the soaks'.

    bench/all.py PROGRAM TEST_STATE KEEPER

PROGRAM is crates/bnc/out/bnc, TEST_STATE crates/test_state/out/test_state, and KEEPER crates/bnc_keep/out/bnc_keep. The machine
should have nothing else to do. The scripts that play clients are run at real-time priority where root runs this. A script that
fails is told, and the others go on; the status is 1 then.
"""
import os
import subprocess
import sys

HERE = os.path.dirname(os.path.realpath(__file__))


def calls(program, test_state, keeper):
    """The scripts with their words, and whether time that they wait for a processor would count."""
    return (
        (("beside_plain.py", test_state, "5"), False),
        (("beside_replay.py", program, "7"), False),
        (("beside_znc.py", "turns", program, "9"), True),
        (("beside_znc.py", "both", program, "3"), True),
        (("latency.py", program, "9"), True),
        (("beside_c.py", program, "9"), True),
        (("memory.py", program), True),
        (("heaps.py", program, "5"), True),
        (("put.py", program), False),
        (("tags.py", program), False),
        (("ids.py", program, "9"), True),
        (("floors.py", program, "5"), True),
        (("longest_put.py", program, "3"), True),
        (("joining.py", program), True),
        (("keeping.py", program, keeper), True),
        (("keeping.py", "--rewriting", program, keeper), True),
        (("keeping.py", "--full", program, keeper), False),
    )


def main():
    if len(sys.argv) != 4:
        sys.exit(__doc__)
    failed = False
    for (script, *words), waits in calls(*map(os.path.abspath, sys.argv[1:])):
        before = ["chrt", "--rr", "40"] if waits and os.getuid() == 0 else []
        print(f"\n## bench/{script} {' '.join(words)}\n", flush=True)
        status = subprocess.run([*before, sys.executable, f"{HERE}/{script}", *words], check=False).returncode
        if status:
            print(f"\nIt failed: status {status}", flush=True)
            failed = True
    sys.exit(failed)


if __name__ == "__main__":
    main()
