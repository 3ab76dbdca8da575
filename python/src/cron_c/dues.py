"""Due fires: each match once, also where a clock changes."""

from __future__ import annotations

from datetime import datetime, timedelta, tzinfo
from typing import Iterable, Iterator, NamedTuple

from .errors import InstantError
from .library import Due
from .zones import EPOCH, SECOND, all_shown


class DueFire(NamedTuple):
    """A match and when it comes due: what the clock shows then, and the time that matches.

    `nominal` has no zone, since a time that the clock skips is at no instant. Where the clock shows it
    both say the same time, and where the clock passes over it `moment` is later.
    """

    moment: datetime
    nominal: datetime

    def __str__(self) -> str:
        shown = self.moment.replace(tzinfo=None)
        if shown == self.nominal:
            return str(self.moment)
        return f"{self.moment} for {self.nominal.time() if shown.date() == self.nominal.date() else self.nominal}"


def parts_of(fire: DueFire) -> Due:
    """A due fire as the library takes it."""
    offset = fire.moment.utcoffset()
    if offset is None or fire.nominal.tzinfo is not None:
        raise InstantError("of a due fire the moment has a zone, and the nominal time has none")
    past = fire.moment.replace(tzinfo=None) - fire.nominal
    if past < timedelta(0) or past % SECOND:
        raise InstantError("the moment of a due fire comes no earlier than its nominal time, by whole seconds")
    return (fire.moment - EPOCH) // SECOND, offset // SECOND, past // SECOND


def all_due(dues: Iterable[Due], zone: tzinfo) -> Iterator[DueFire]:
    """The due fires of the library, by the clock of the zone."""
    for instant, offset, past in dues:
        [moment] = all_shown([(instant, offset)], zone)
        yield DueFire(moment, moment.replace(tzinfo=None, fold=0) - past * SECOND)
