"""What an expression of Quartz answers, held against the days that Python's calendar counts."""

import calendar
import copy
import pickle
import unittest
from datetime import date, datetime, timedelta, timezone

from cron_c import Schedule, TextError

UTC = timezone.utc
YEARS = range(2023, 2029)


def months():
    """Each month of the years, with its last day."""
    return [(year, month, calendar.monthrange(year, month)[1]) for year in YEARS for month in range(1, 13)]


def nearest_workday(year, month, day):
    """The workday of the month that is nearest to a day of it."""
    last = calendar.monthrange(year, month)[1]
    days = [date(year, month, it) for it in range(1, last + 1) if date(year, month, it).isoweekday() <= 5]
    return min(days, key=lambda it: abs(it.day - day))


def weekdays(year, month, weekday):
    """The days of a month that are this day of the week, from 1 for Sunday."""
    last = calendar.monthrange(year, month)[1]
    return [date(year, month, it) for it in range(1, last + 1) if date(year, month, it).isoweekday() % 7 == weekday - 1]


def days_of(text):
    """The days on which an expression fires at noon."""
    fires = Schedule.quartz(text).between(datetime(YEARS[0], 1, 1, tzinfo=UTC), datetime(YEARS[-1], 12, 31, 23, tzinfo=UTC))
    assert all(it.hour == 12 and it.minute == it.second == 0 for it in fires)
    return [it.date() for it in fires]


class Answers(unittest.TestCase):
    def test_days_from_the_end_of_the_month(self):
        for before in (0, 1, 3, 27, 28, 30):
            counted = [date(year, month, last - before) for year, month, last in months() if before < last]
            self.assertEqual(days_of(f"0 0 12 L-{before} * ?"), counted)
        self.assertEqual(days_of("0 0 12 L * ?"), [date(*it) for it in months()])

    def test_nearest_workdays(self):
        for day in (1, 2, 15, 28, 29, 30, 31):
            counted = [nearest_workday(year, month, day) for year, month, last in months() if day <= last]
            self.assertEqual(days_of(f"0 0 12 {day}W * ?"), counted, day)
        self.assertEqual(days_of("0 0 12 LW * ?"), [nearest_workday(*it) for it in months()])
        counted = [nearest_workday(year, month, last - 3) for year, month, last in months()]
        self.assertEqual(days_of("0 0 12 L-3W * ?"), counted)

    def test_days_of_the_week(self):
        for weekday in range(1, 8):
            each = [weekdays(year, month, weekday) for year, month, _ in months()]
            self.assertEqual(days_of(f"0 0 12 ? * {weekday}L"), [it[-1] for it in each])
            for place in range(1, 6):
                self.assertEqual(days_of(f"0 0 12 ? * {weekday}#{place}"), [it[place - 1] for it in each if len(it) >= place])

    def test_ranges_come_round(self):
        counted = [date(YEARS[0], 1, 1) + timedelta(it) for it in range((date(YEARS[-1], 12, 31) - date(YEARS[0], 1, 1)).days + 1)]
        wanted = [it for it in counted if it.month in (11, 12, 1, 2) and it.isoweekday() in (5, 6, 7, 1)]
        self.assertEqual(days_of("0 0 12 ? NOV-FEB FRI-MON"), wanted)

    def test_a_schedule_is_its_text(self):
        schedule = Schedule.quartz("0 0 12 L-3 * ?")
        self.assertEqual((str(schedule), repr(schedule)), ("0 0 12 L-3 * ?", "Schedule.quartz('0 0 12 L-3 * ?')"))
        for same in (pickle.loads(pickle.dumps(schedule)), copy.copy(schedule)):
            self.assertEqual((same, same.text, same.canonical), (schedule, schedule.text, schedule.canonical))
        self.assertEqual(Schedule.quartz("0 0 12 ? * MON-FRI").canonical, ("0 0 12 * * 2-6 *",))
        self.assertNotEqual(schedule, Schedule.quartz("0 0 12 L-4 * ?"))

    def test_each_canonical_text_is_read_back(self):
        for text in ("0 0 12 L-3 * ?", "0 0 12 31W 2-4 ?", "0 0 12 ? 2 6L 2024"):
            schedule = Schedule.quartz(text)
            start = datetime(2024, 1, 1, tzinfo=UTC)
            firsts = [Schedule(it).after(start) for it in schedule.canonical]
            self.assertEqual(min(it for it in firsts if it), schedule.after(start))


class Refusals(unittest.TestCase):
    def test_a_text_is_refused_with_its_message(self):
        for text, message in (
            ("0 0 12 1 * MON", "one of the two kinds of day must be '?'"),
            ("0 0 24 1 * ?", "Hours: '24': 24 is not one of 0 to 23"),
            ("0 0 12 ? * MON-FRI/2", "Days of Week: 'MON-FRI/2': Quartz ignores a step behind a name"),
        ):
            with self.assertRaises(TextError) as raised:
                Schedule.quartz(text)
            self.assertEqual(str(raised.exception), message)

    def test_bytes_are_no_text(self):
        with self.assertRaises(TypeError):
            Schedule.quartz(b"0 0 12 L * ?")
