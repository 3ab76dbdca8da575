"""What a cron expression means."""

from __future__ import annotations

import re
from datetime import datetime, tzinfo
from itertools import chain
from typing import Callable, FrozenSet, Iterator, List, Literal, Optional, Tuple, Union

from . import library
from .dues import DueFire, all_due, parts_of
from .errors import InstantError, TextError
from .zones import EPOCH, SECOND, all_shown, eras_of, shown


# Whether a time that a clock repeats is two fires and one that it skips none, or each match is one.
ClockChanges = Literal["as_shown", "once"]


def _is_once(clock_changes: str) -> bool:
    if clock_changes not in ("as_shown", "once"):
        raise ValueError(f"clock_changes is 'as_shown' or 'once', and no {clock_changes!r}")
    return clock_changes == "once"


def _checked(text: str) -> str:
    if not isinstance(text, str):
        raise TypeError(f"the text is a {type(text).__name__} and no str")
    return text


def zone_of(moment: datetime) -> tzinfo:
    if not isinstance(moment, datetime):
        raise TypeError(f"a datetime with a zone is wanted, and this is a {type(moment).__name__}")
    if moment.tzinfo is None or moment.utcoffset() is None:
        raise InstantError("a datetime without a zone is no instant")
    return moment.tzinfo


def _floor(moment: datetime) -> int:
    """The second since 1970 that has begun."""
    return (moment - EPOCH) // SECOND


def _ceiling(moment: datetime) -> int:
    """The first second since 1970 that isn't before."""
    return -((EPOCH - moment) // SECOND)


class Schedule:
    """The meaning of a text of six fields, or seven with years: `Schedule("0 30 9 * * Mon-Fri")`. What
    a crontab has is read by `Schedule.crontab("30 9 * * mon-fri")`, and what Quartz has by
    `Schedule.quartz("0 0 12 L-3 * ?")`.

    TextError tells why a text means nothing. The zone is that of the datetime that is given: a
    `ZoneInfo` with a key, a `datetime.timezone`, or another zone that is one offset, at which it is
    read all year. Each call is exact also where a clock goes back, and knows the zone's past. Python
    compares and subtracts answers of one `ZoneInfo` by what their clocks show: take `timestamp()` of
    both. Nothing fires outside the years 1970 to 2100.

    With `clock_changes="once"` each match fires once: one that the clock repeats at its first pass, and
    one that it skips when it passes over it, where the answer is what the clock shows then. Matches that
    are passed over together are fires at one instant, so a loop goes along `dues`, whose answers tell them
    apart, and begins anew from one of these.
    """

    __slots__ = ("__weakref__", "_schedules", "_text", "_kind")

    def __init__(self, text: str) -> None:
        self._schedules = library.parse(_checked(text))
        self._text, self._kind = text, ""

    @classmethod
    def _of(cls, schedules: library.Schedules, text: str, kind: str) -> Schedule:
        made = cls.__new__(cls)
        made._schedules, made._text, made._kind = schedules, text, kind
        return made

    @classmethod
    def crontab(cls, text: str) -> Schedule:
        """The meaning of a crontab's expression: five fields, or a nickname. Where neither the third nor
        the fifth field begins with a star one kind of day suffices, and `days_of_month` and `days_of_week`
        are then all days. `@reboot`, which no clock fires, and a text of two lines are refused. Both crons
        fire it as by `clock_changes="once"`, unless its minute or hour begins with a star, or it is `@hourly`."""
        return cls._of_crontab(text, library.parse_crontab(_checked(text)))

    @classmethod
    def crontab_line(cls, line: str, *, system: bool = False) -> Optional[Schedule]:
        """The meaning of a crontab's line, without its line feed; in a system crontab its entries name a
        user. None where it is blank, a comment or a setting, so also for `CRON_TZ`, whose zone isn't told.
        Its text is the expression in front. A text of two lines is refused."""
        schedules = library.parse_crontab_line(_checked(line), system)
        if schedules is None:
            return None
        words = re.split("[ \t]+", line.strip(" \t"), maxsplit=5)
        return cls._of_crontab(words[0] if words[0].startswith("@") else " ".join(words[:5]), schedules)

    @classmethod
    def _of_crontab(cls, text: str, schedules: library.Schedules) -> Schedule:
        if not schedules:
            raise TextError("@reboot means the start of the machine, which no clock tells")
        return cls._of(schedules, text, "crontab")

    @classmethod
    def quartz(cls, text: str) -> Schedule:
        """The meaning of an expression of Quartz: six fields, or seven with years, of which exactly one kind
        of day is `?`. Sets are those of any of the schedules that its form of days is."""
        return cls._of(library.parse_quartz(_checked(text)), text, "quartz")

    @property
    def text(self) -> str:
        """The text itself."""
        return self._text

    @property
    def canonical(self) -> Tuple[str, ...]:
        """Its canonical text: seven fields, each a star or its runs of numbers. Where one of several schedules
        suffices, those of all that can fire. Equal schedules have the same ones, and `Schedule` reads each back."""
        return tuple(text for text in map(library.canonical, self._schedules) if text is not None)

    @property
    def seconds(self) -> FrozenSet[int]:
        """The seconds, 0 to 59."""
        return library.set_of(self._schedules, library.SECONDS)

    @property
    def minutes(self) -> FrozenSet[int]:
        """The minutes, 0 to 59."""
        return library.set_of(self._schedules, library.MINUTES)

    @property
    def hours(self) -> FrozenSet[int]:
        """The hours, 0 to 23."""
        return library.set_of(self._schedules, library.HOURS)

    @property
    def days_of_month(self) -> FrozenSet[int]:
        """The days of the month, 1 to 31. `last_day` stands apart."""
        return library.set_of(self._schedules, library.DAYS_OF_MONTH)

    @property
    def last_day(self) -> bool:
        """Whether the last day of each month is one of the days too, as `L` says."""
        return library.has_last_day(self._schedules)

    @property
    def months(self) -> FrozenSet[int]:
        """The months, 1 to 12."""
        return library.set_of(self._schedules, library.MONTHS)

    @property
    def days_of_week(self) -> FrozenSet[int]:
        """The days of the week, 1 to 7 from Sunday on."""
        return library.set_of(self._schedules, library.DAYS_OF_WEEK)

    @property
    def years(self) -> FrozenSet[int]:
        """The years, 1970 to 2100."""
        return library.set_of(self._schedules, library.YEARS)

    def __str__(self) -> str:
        return self._text

    def __repr__(self) -> str:
        return f"Schedule{'.' if self._kind else ''}{self._kind}({self._text!r})"

    def __eq__(self, other: object) -> bool:
        if not isinstance(other, Schedule):
            return NotImplemented
        return bytes(self._schedules) == bytes(other._schedules)

    def __hash__(self) -> int:
        return hash(bytes(self._schedules))

    def __reduce__(self) -> Tuple[Callable[[str], Schedule], Tuple[str]]:
        # as its text: what the words of the sets mean is the library's affair
        return getattr(type(self), self._kind) if self._kind else type(self), (self._text,)

    def matches(self, moment: datetime, *, clock_changes: ClockChanges = "as_shown") -> bool:
        """Whether it fires at this very instant: never where the datetime has a part of a second."""
        eras, instant = eras_of(zone_of(moment)), _floor(moment)
        if _is_once(clock_changes):
            found = library.due_by(self._schedules, eras, instant)
            return instant == _ceiling(moment) and found is not None and found[0] == instant
        return instant == _ceiling(moment) and library.fires_at(self._schedules, eras, instant)

    def after(self, moment: datetime, *, clock_changes: ClockChanges = "as_shown") -> Optional[datetime]:
        """When it fires first after a datetime, in its zone; None where it fires no more."""
        zone = zone_of(moment)
        if _is_once(clock_changes):
            due = library.due_after(self._schedules, eras_of(zone), _floor(moment))
            return None if due is None else shown(due[:2], zone)
        found = library.fire_after(self._schedules, eras_of(zone), _floor(moment))
        return None if found is None else shown(found, zone)

    def before(self, moment: datetime, *, clock_changes: ClockChanges = "as_shown") -> Optional[datetime]:
        """When it fired last before a datetime, in its zone; None where it hasn't fired. A fire at the
        datetime itself isn't before it."""
        zone = zone_of(moment)
        if _is_once(clock_changes):
            due = library.due_by(self._schedules, eras_of(zone), _ceiling(moment) - 1)
            return None if due is None else shown(due[:2], zone)
        found = library.fire_by(self._schedules, eras_of(zone), _ceiling(moment) - 1)
        return None if found is None else shown(found, zone)

    def between(self, start: datetime, end: datetime, *, clock_changes: ClockChanges = "as_shown") -> List[datetime]:
        """When it fires after one datetime and up to and with another, in the zone of the first, as a
        list. `fires` tells the same one after the other."""
        zone_of(end)
        return list(self.fires(start, end, clock_changes=clock_changes))

    def fires(
        self, start: datetime, end: Optional[datetime] = None, *, reverse: bool = False, clock_changes: ClockChanges = "as_shown"
    ) -> Iterator[datetime]:
        """When it fires after a datetime, in its zone, one after the other: up to and with the end, if
        there is one. Or, reversed, when it fired before it, the latest first, back to and with the end."""
        zone = zone_of(start)
        if end is not None:
            zone_of(end)
        eras, once = eras_of(zone), _is_once(clock_changes)
        if reverse:
            first = library.LEAST_INSTANT if end is None else _ceiling(end)
            if once:
                dues = library.dues_before(self._schedules, eras, _ceiling(start) - 1, first)
                return all_shown((due[:2] for due in dues), zone)
            return all_shown(library.fires_before(self._schedules, eras, _ceiling(start) - 1, first), zone)
        if once:
            return (due.moment for due in self.dues(start, end))
        last = library.GREATEST_INSTANT if end is None else _floor(end)
        return all_shown(chain.from_iterable(library.pages(self._schedules, eras, _floor(start), last)), zone)

    def dues(self, start: Union[datetime, DueFire], end: Optional[datetime] = None) -> Iterator[DueFire]:
        """Each match once, one after the other: those that come due after a datetime, in its zone, or those
        past a due fire, as a run goes on that was cut after it; up to and with the end, if there is one."""
        zone = zone_of(start.moment if isinstance(start, DueFire) else start)
        if end is not None:
            zone_of(end)
        eras, last = eras_of(zone), library.GREATEST_INSTANT if end is None else _floor(end)
        if isinstance(start, DueFire):
            told = library.due_pages_past(self._schedules, eras, parts_of(start), last)
        else:
            told = library.due_pages(self._schedules, eras, _floor(start), last)
        return all_due(chain.from_iterable(told), zone)
