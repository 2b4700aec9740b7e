#!/usr/bin/env python3
"""Compares the cases of data/replays with what comes of scripts over devices that fail, as the part "A script" of docs/PROTOCOL.md
has it: answers are written as soon as they are there, and flushed before more is read. With --write it writes that file. The gate
doesn't run it; it plays what it wrote.
"""
import os
import sys

FOLDER = os.path.join(os.path.dirname(os.path.abspath(__file__)), "data")

ONE_MESSAGE = ["C POST demo net #a m1 1000 P #a bob!b@h :hi", "CHATHISTORY LATEST #a * 10"]
ONE_PAGE = [
    ":bnc.example BATCH +r1 chathistory #a",
    "@batch=r1;msgid=m1;time=1970-01-01T00:00:01.000Z :bob!b@h PRIVMSG #a :hi",
    ":bnc.example BATCH -r1",
]
NOTICE = ":bnc.example NOTICE al :Not connected to net"
# One line of each kind that is answered, and the lines of the answers.
EACH_KIND = [*ONE_MESSAGE, "MARKREAD #a", "C MARK demo net #a 5000", "MARKREAD #a", "C X", "C MARK demo net #a x", "12 x",
             "PRIVMSG #a :hi"]
EACH_ANSWER = [*ONE_PAGE, ":bnc.example MARKREAD #a *", ":bnc.example MARKREAD #a timestamp=1970-01-01T00:00:05.000Z",
               "% BadForm", "% BadField", ":bnc.example 421 al * :Unknown command", NOTICE]
TOO_LONG = ":bnc.example 417 al :Input line was too long"


def size(lines):
    """How many bytes the lines of answers have."""
    return sum(len(line) + len("\r\n") for line in lines)


def ends(written, fault):
    """How a script ends where a device fails after 0 calls, 1, 2 and so on, with so many bytes written each time. At last all is
    answered."""
    *failing, last = written
    return [*(f"{count} {bytes} {fault}" for count, bytes in enumerate(failing)), f"{len(failing)} {last} answered"]


def replays():
    """Scripts over devices that fail."""
    read, write = "reading failed", "writing failed"
    reads, page, all_of_it = size(ONE_MESSAGE) - len(ONE_MESSAGE), size(ONE_PAGE), size(EACH_ANSWER)
    cases = [
        ("reads 1", "a reader, at each byte", ONE_MESSAGE, ends([*([0] * reads), page, page], read)),
        ("writes 1", "a writer, at each byte of each kind of answer", EACH_KIND, ends(range(all_of_it + 1), write)),
        ("writes 8704", "a writer, where a line is too long", ["%" + "a" * 8702], ends(range(size([TOO_LONG]) + 1), write)),
        ("flushes 12", "a flush", ["MARKREAD #a", "MARKREAD #b"], ends([28, 56, 56], write)),
    ]
    # (each read but the last gives two lines, and their answers are flushed before the next)
    three, one = ["x", "y", "z"], size([NOTICE])
    cases += [
        ("reads 4", "three reads, the last of which finds the end", three, ends([0, 2 * one, 3 * one, 3 * one], read)),
        ("whole-writes 4", "three writes", three, ends([0, one, 2 * one, 3 * one], write)),
        ("flushes 4", "two flushes", three, ends([2 * one, 3 * one, 3 * one], write)),
    ]
    # (an interrupted read counts as one)
    cases.append(("interrupted 0", "a reader that gives nothing, as often as it is read", ["MARKREAD #a"], [f"{1 << 24} 0 {read}"]))
    for setting, name, script, told in cases:
        yield "\n".join([f"== {setting}: {name}", *script, "--", *told, ""])


path, wanted = os.path.join(FOLDER, "replays"), "".join(replays())
if "--write" in sys.argv:
    with open(path, "w", encoding="utf-8", newline="\n") as out:
        out.write(wanted)
else:
    with open(path, encoding="utf-8", newline="") as stored:
        if stored.read() != wanted:
            sys.exit("the cases of replays are others")
