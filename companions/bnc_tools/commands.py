"""How a command ends, and how it says why."""

import argparse
import os
import sys
from collections.abc import Callable
from typing import NoReturn

# The statuses are those of `bnc`, where it has them.
DONE, FOUND, WRONG_WORDS, FAILED = 0, 1, 2, 4

STATUSES = "status: 0 all is well;{found} 2 the words are wrong; 4 something couldn't be read, written or reached"


class CommandError(Exception):
    """Why a command can't go on, in words for the operator. It has no secret."""


def parser(description: str, found: str = "") -> argparse.ArgumentParser:
    """A reader of a command's words, whose help ends with the statuses. Status 1 says what was found."""
    epilog = STATUSES.format(found=f" 1 {found};" if found else "")
    return argparse.ArgumentParser(
        description=description, epilog=epilog, allow_abbrev=False,
        formatter_class=argparse.RawDescriptionHelpFormatter)


def said(error: OSError) -> str:
    """The system's words for what went wrong."""
    return (error.strerror or str(error)).lower()


def warn(words: str) -> None:
    """Says something beside the output."""
    print(f"{os.path.basename(sys.argv[0])}: {words}", file=sys.stderr)


def counted(number: int, what: str) -> str:
    """So many of what the word names."""
    return f"{number} {what}" if number == 1 else f"{number} {what}s"


def run(main: Callable[[], int]) -> NoReturn:
    """Runs a command to its end."""
    try:
        status = main()
        sys.stdout.flush()
    except CommandError as error:
        warn(str(error))
        status = FAILED
    except BrokenPipeError:
        # (whoever read the output is gone, so nothing more can be said to it)
        os.dup2(os.open(os.devnull, os.O_WRONLY), sys.stdout.fileno())
        status = FAILED
    except KeyboardInterrupt:
        status = 130
    sys.exit(status)
