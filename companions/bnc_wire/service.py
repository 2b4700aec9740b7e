"""How a companion begins and ends."""

import argparse
import asyncio
import os
import signal
import sys
from collections.abc import Awaitable, Callable
from typing import NoReturn, TypeVar

from bnc_wire.journal import log
from bnc_wire.settings import Refused, Table, Unable, read_table, reason_of

# The statuses are those of `bnc`, where it has them.
ENDED, FAILED, REFUSED = 0, 4, 5
STATUSES = """\
status: 0 it was told to end (SIGTERM, SIGINT), or --check found nothing wrong; 2 the words are wrong;
4 something couldn't be read, or nobody can connect there; 5 the configuration is refused"""
Settings = TypeVar("Settings")


def run(about: str, read: Callable[[Table], Settings], serve: Callable[[Settings], Awaitable[None]]) -> NoReturn:
    """Runs a companion by its words: reads the configuration, and serves until a signal comes."""
    words = argparse.ArgumentParser(description=about, epilog=STATUSES, allow_abbrev=False,
                                    formatter_class=argparse.RawDescriptionHelpFormatter)
    words.add_argument("configuration", help="a file in TOML, which only its owner may read")
    words.add_argument("--check", action="store_true", help="read the configuration, say what is wrong with it, and end")
    given = words.parse_args()
    try:
        table = read_table(given.configuration)
        settings = read(table)
        table.end()
    except OSError as error:
        fail(FAILED, f"can't read {given.configuration}: {reason_of(error)}")
    except Refused as refusal:
        fail(REFUSED, f"config refused: {refusal}")
    if given.check:
        sys.exit(ENDED)
    try:
        asyncio.run(until_told(serve(settings)))
    except Unable as error:
        fail(FAILED, str(error))
    except Refused as refusal:
        fail(REFUSED, f"config refused: {refusal}")
    log("ended, as it was told to")
    sys.exit(ENDED)


def fail(status: int, why: str) -> NoReturn:
    log(f"{os.path.basename(sys.argv[0])}: {why}")
    sys.exit(status)


async def until_told(serving: Awaitable[None]) -> None:
    """Serves until SIGTERM or SIGINT comes, or until it can't go on."""
    task = asyncio.ensure_future(serving)
    loop = asyncio.get_running_loop()
    for number in (signal.SIGTERM, signal.SIGINT):
        loop.add_signal_handler(number, task.cancel)
    try:
        await task
    except asyncio.CancelledError:
        pass
