"""Many schedules, and what fires next of all of them."""

from __future__ import annotations

from dataclasses import dataclass
from datetime import datetime
from heapq import heapify, heappop, heappush
from typing import Dict, Iterator, List, Optional, Tuple, Union

from .dues import DueFire
from .schedule import ClockChanges, Schedule, zone_of


@dataclass(frozen=True)
class AgendaFire:
    """A fire of an agenda: the id of its entry, when it fires, and the time that matches."""

    id: int
    due: DueFire

    @property
    def moment(self) -> datetime:
        """When it fires."""
        return self.due.moment


def _dues(schedule: Schedule, start: Union[datetime, DueFire], clock_changes: ClockChanges) -> Iterator[DueFire]:
    if clock_changes == "once":
        return schedule.dues(start)
    after = start.moment if isinstance(start, DueFire) else start
    shown = schedule.fires(after, clock_changes=clock_changes)
    return (DueFire(moment, moment.replace(tzinfo=None, fold=0)) for moment in shown)


class Agenda:
    """Entries that come and go, and their fires in one order: by instant, of those at one instant by id.

    An entry is a schedule, in the zone of the datetime after which it begins. Its id is never used again.
    An entry whose last fire was taken is gone. Iterating takes one fire after the other, and may go on
    while entries come and go.
    """

    def __init__(self) -> None:
        self._next_id = 0
        self._left: Dict[int, Tuple[Schedule, Iterator[DueFire], ClockChanges]] = {}
        self._heads: List[Tuple[float, int, DueFire]] = []

    def add(
        self, schedule: Schedule, start: Union[datetime, DueFire], *, clock_changes: ClockChanges = "as_shown"
    ) -> Optional[int]:
        """Adds a schedule: its fires after a datetime, or past a fire that was taken. The id of the entry;
        None where the schedule fires no more. What is refused leaves the agenda as it was."""
        dues = _dues(schedule, start, clock_changes)
        head = next(dues, None)
        if head is None:
            return None
        entry = self._next_id
        self._next_id += 1
        self._left[entry] = schedule, dues, clock_changes
        heappush(self._heads, (head.moment.timestamp(), entry, head))
        return entry

    def remove(self, entry: int) -> bool:
        """Removes an entry. Whether it was there."""
        if self._left.pop(entry, None) is None:
            return False
        # what was removed leaves the heap when it comes up, or at the latest when it is half of it
        if len(self._heads) > 2 * len(self._left):
            self._heads = [it for it in self._heads if it[1] in self._left]
            heapify(self._heads)
        return True

    def get(self, entry: int) -> Optional[Schedule]:
        """The schedule of an entry, if it is there."""
        found = self._left.get(entry)
        return None if found is None else found[0]

    def __len__(self) -> int:
        return len(self._left)

    def __contains__(self, entry: object) -> bool:
        return entry in self._left

    def first(self) -> Optional[AgendaFire]:
        """What fires next, which stays there; None where nothing is left."""
        while self._heads and self._heads[0][1] not in self._left:
            heappop(self._heads)
        return AgendaFire(*self._heads[0][1:]) if self._heads else None

    def next(self) -> Optional[AgendaFire]:
        """Takes what fires next; None where nothing is left."""
        fire = self.first()
        if fire is not None:
            self._take(fire)
        return fire

    def next_due(self, now: datetime) -> Optional[AgendaFire]:
        """Takes what fires next if it is due at a datetime or before it; None where nothing is."""
        zone_of(now)
        fire = self.first()
        if fire is None or fire.moment.timestamp() > now.timestamp():
            return None
        self._take(fire)
        return fire

    def _take(self, fire: AgendaFire) -> None:
        """Has an entry wait for the fire that follows, or go where none does. An error changes nothing."""
        schedule, dues, clock_changes = self._left[fire.id]
        try:
            follows = next(dues, None)
        except BaseException:  # also of an interrupt: a run that raised once ends
            self._left[fire.id] = schedule, _dues(schedule, fire.due, clock_changes), clock_changes
            raise
        heappop(self._heads)
        if follows is None:
            del self._left[fire.id]
        else:
            heappush(self._heads, (follows.moment.timestamp(), fire.id, follows))

    def __iter__(self) -> Iterator[AgendaFire]:
        return iter(self.next, None)
