"""What `/proc` says of a process (proc(5))."""

import os
import re
from dataclasses import dataclass

KILOBYTE = 1024


@dataclass(frozen=True)
class Process:
    """A process: its memory and the limit of its addresses, its descriptors and their limit, its threads, and the
    processor seconds that it took. A limit that there isn't is none."""
    resident: int
    addresses: int
    addresses_limit: int | None
    descriptors: int
    descriptors_limit: int | None
    threads: int
    seconds: float


def read_process(number: int, folder: str = "/proc") -> Process | None:
    """The process of that number; nothing where it isn't there, or may not be looked at."""
    try:
        status, limits, stat = (text_of(f"{folder}/{number}/{name}") for name in ("status", "limits", "stat"))
        descriptors = len(os.listdir(f"{folder}/{number}/fd"))
    except OSError:
        return None
    # (the program's name, in brackets, may have spaces)
    fields = stat.rpartition(")")[2].split()
    return Process(
        resident=in_status(status, "VmRSS") * KILOBYTE, addresses=in_status(status, "VmSize") * KILOBYTE,
        addresses_limit=limit(limits, "Max address space"), descriptors=descriptors,
        descriptors_limit=limit(limits, "Max open files"), threads=in_status(status, "Threads"),
        seconds=(int(fields[11]) + int(fields[12])) / os.sysconf("SC_CLK_TCK"))


def text_of(path: str) -> str:
    with open(path, encoding="utf-8", errors="replace") as file:
        return file.read()


def in_status(status: str, key: str) -> int:
    found = re.search(rf"^{key}:\s+(\d+)", status, re.MULTILINE)
    return int(found[1]) if found else 0


def limit(limits: str, what: str) -> int | None:
    """The soft limit of that."""
    found = re.search(rf"^{what}\s+(\d+)", limits, re.MULTILINE)
    return int(found[1]) if found else None
