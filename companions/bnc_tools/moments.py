"""Times of logs as moments: milliseconds after 1970 began, by a zone."""

from collections import Counter
from dataclasses import dataclass, field
from datetime import datetime, timedelta, timezone, tzinfo
from zoneinfo import ZoneInfo, ZoneInfoNotFoundError

from bnc_tools.commands import CommandError

EPOCH = datetime(1970, 1, 1, tzinfo=timezone.utc)
MILLISECOND = timedelta(milliseconds=1)


def zone_of(name: str) -> ZoneInfo:
    try:
        return ZoneInfo(name)
    except (ZoneInfoNotFoundError, ValueError, OSError):
        raise CommandError(f"there is no zone {name}; one is Europe/Berlin, or UTC") from None


@dataclass
class LogClock:
    """Reads the times of one file in their order. An hour that the clock went through twice, as summer time ended, is
    the second one from where its times began anew."""
    zone: tzinfo
    latest: datetime | None = None
    is_second: bool = False
    lines: Counter[int] = field(default_factory=Counter)

    def written(self, at: datetime) -> int:
        """The moment that stands in the log."""
        if at.tzinfo is None:
            at = at.replace(tzinfo=self.zone, fold=self.fold(at))
        return (at - EPOCH) // MILLISECOND

    def fold(self, at: datetime) -> int:
        """0 for the first of two hours with that time, and 1 for the second."""
        first, second = (at.replace(tzinfo=self.zone, fold=fold).utcoffset() for fold in (0, 1))
        is_twice = first != second
        self.is_second = is_twice and (self.is_second or (self.latest is not None and at < self.latest))
        self.latest = at
        return int(self.is_second)

    def placed(self, written: int, span: int) -> int:
        """The moment of the next line of that time: lines of one second or minute are a millisecond apart, in their order."""
        place = self.lines[written]
        self.lines[written] += 1
        return written + min(place, span - 1)
