"""What a schedule answers where each match fires once, held against a slow search through the instants of `zoneinfo`."""

import pickle
import unittest
from datetime import datetime, timedelta, timezone
from zoneinfo import ZoneInfo

from cron_c import DueFire, InstantError, Schedule

CHICAGO, APIA, LORD_HOWE = ZoneInfo("America/Chicago"), ZoneInfo("Pacific/Apia"), ZoneInfo("Australia/Lord_Howe")
HAVANA, KWAJALEIN = ZoneInfo("America/Havana"), ZoneInfo("Pacific/Kwajalein")
UTC = timezone.utc
MINUTE = timedelta(minutes=1)


def chicago(*parts, fold=0):
    return datetime(*parts, tzinfo=CHICAGO, fold=fold)


def found_slowly(zone, start, end, every):
    """The multiples of so many minutes that a clock comes to, minute by minute: when, and which."""
    moment, due = start.astimezone(UTC), []
    seen = max((moment - n * MINUTE).astimezone(zone).replace(tzinfo=None) for n in range(2 * 24 * 60))
    while moment < end.astimezone(UTC):
        moment += MINUTE
        shown = moment.astimezone(zone).replace(tzinfo=None)
        while seen < shown:
            seen += MINUTE
            if (seen.hour * 60 + seen.minute) % every == 0:
                due.append((moment.timestamp(), seen))
    return due


class Once(unittest.TestCase):
    def test_a_skipped_match_comes_when_the_clock_passes_over_it(self):
        schedule, before = Schedule("0 30 2 * * *"), chicago(2022, 3, 12, 12)
        due = schedule.after(before, clock_changes="once")
        self.assertEqual(due.isoformat(), "2022-03-13T03:00:00-05:00")
        self.assertEqual(schedule.after(before).isoformat(), "2022-03-14T02:30:00-05:00")
        self.assertEqual(schedule.before(chicago(2022, 3, 13, 12), clock_changes="once"), due)
        self.assertTrue(schedule.matches(due, clock_changes="once"))
        self.assertFalse(schedule.matches(due))

    def test_a_repeated_match_comes_at_its_first_pass(self):
        schedule, day = Schedule("0 30 1 * * *"), (chicago(2022, 11, 6), chicago(2022, 11, 7))
        self.assertEqual([it.isoformat() for it in schedule.between(*day, clock_changes="once")], ["2022-11-06T01:30:00-05:00"])
        self.assertEqual(len(schedule.between(*day)), 2)
        self.assertFalse(schedule.matches(chicago(2022, 11, 6, 1, 30, fold=1), clock_changes="once"))

    def test_a_fire_at_a_datetime_is_not_before_it(self):
        schedule, fire = Schedule("0 30 1 * * *"), chicago(2022, 11, 6, 1, 30)
        days = ["2022-11-05T01:30:00-05:00", "2022-11-06T01:30:00-05:00"]
        for moment, wanted in ((fire, days[0]), (fire.replace(microsecond=1), days[1]), (fire.replace(second=1), days[1])):
            self.assertEqual(schedule.before(moment, clock_changes="once").isoformat(), wanted)
            self.assertEqual(next(schedule.fires(moment, reverse=True, clock_changes="once")).isoformat(), wanted)

    def test_reversed_fires_are_each_second_with_the_end(self):
        schedule, end = Schedule("* * * * * *"), chicago(2022, 3, 13, 1)
        seconds = [end + timedelta(seconds=it) for it in reversed(range(10))]
        for changes in ("as_shown", "once"):
            told = schedule.fires(end + timedelta(seconds=10), end, reverse=True, clock_changes=changes)
            self.assertEqual(list(told), seconds)

    def test_a_run_goes_on_from_a_fire_that_shares_its_instant(self):
        schedule, start, end = Schedule("0 */15 2 * * *"), chicago(2022, 3, 13), chicago(2022, 3, 14)
        whole = list(schedule.dues(start, end))
        self.assertEqual([str(it) for it in whole], [f"2022-03-13 03:00:00-05:00 for 02:{it:02}:00" for it in (0, 15, 30, 45)])
        for place, due in enumerate(whole):
            noted = pickle.loads(pickle.dumps(due))
            self.assertEqual(list(schedule.dues(noted, end)), whole[place + 1 :])
        back = list(schedule.fires(end, start, reverse=True, clock_changes="once"))
        self.assertEqual(back, [it.moment for it in reversed(whole)])

    def test_a_skipped_day(self):
        first = next(Schedule("0 30 2 * * *").dues(datetime(2011, 12, 29, 12, tzinfo=APIA)))
        self.assertEqual(first.nominal, datetime(2011, 12, 30, 2, 30))
        self.assertEqual(str(first), "2011-12-31 00:00:00+14:00 for 2011-12-30 02:30:00")

    def test_days_of_transitions_as_zoneinfo_tells_them(self):
        days = [(CHICAGO, (2025, 3, 9)), (CHICAGO, (2025, 11, 2)), (LORD_HOWE, (2025, 4, 6)), (LORD_HOWE, (2025, 10, 5))]
        # one goes forward at midnight, and two leave out a day
        days += [(HAVANA, (2025, 3, 8)), (APIA, (2011, 12, 29)), (KWAJALEIN, (1993, 8, 20))]
        for zone, day in days:
            start = datetime(*day, 12, tzinfo=zone)
            end = start + timedelta(days=1)
            dues = [(it.moment.timestamp(), it.nominal) for it in Schedule("0 */10 * * * *").dues(start, end)]
            self.assertEqual(dues, found_slowly(zone, start, end, 10), (zone, day))

    def test_many_pages(self):
        dues = Schedule("* * * * * *").dues(chicago(2022, 3, 13, 1), chicago(2022, 3, 13, 4))
        seconds = [datetime(2022, 3, 13, 1) + timedelta(seconds=n) for n in range(1, 3 * 3600 + 1)]
        self.assertEqual([it.nominal for it in dues], seconds)

    def test_what_is_refused(self):
        schedule, moment = Schedule("@daily"), chicago(2022, 3, 13, 12)
        with self.assertRaises(ValueError):
            schedule.after(moment, clock_changes="twice")
        fires = (DueFire(moment, moment), DueFire(datetime(2022, 3, 13), datetime(2022, 3, 13)), DueFire(moment, datetime(2022, 3, 14)))
        for fire in fires:
            with self.assertRaises(InstantError):
                schedule.dues(fire)
