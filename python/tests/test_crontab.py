"""What an expression of a crontab answers, held against a slow search through the minutes of `zoneinfo`."""

import copy
import itertools
import pickle
import unittest
from datetime import datetime, timedelta, timezone
from zoneinfo import ZoneInfo

from cron_c import CronError, Schedule, TextError

CHICAGO = ZoneInfo("America/Chicago")
UTC = timezone.utc
MINUTE = timedelta(minutes=1)


def chicago(*parts, fold=0):
    return datetime(*parts, tzinfo=CHICAGO, fold=fold)


def found_slowly(start, end, matches):
    """The minutes after one instant and up to and with another whose clock time matches."""
    moment, found = start.astimezone(UTC), []
    while moment < end.astimezone(UTC):
        moment += MINUTE
        shown = moment.astimezone(start.tzinfo)
        if matches(shown):
            found.append(shown.isoformat())
    return found


def told(moments):
    return [it.isoformat() for it in moments]


class Answers(unittest.TestCase):
    def test_office_hours(self):
        schedule = Schedule.crontab("*/5 9-17 * * mon-fri")
        start, end = chicago(2026, 1, 2), chicago(2026, 1, 6)
        slow = found_slowly(start, end, lambda it: it.minute % 5 == 0 and 9 <= it.hour <= 17 and it.isoweekday() <= 5)
        self.assertEqual(told(schedule.between(start, end)), slow)
        self.assertEqual(schedule.minutes, frozenset(range(0, 60, 5)))
        self.assertEqual((schedule.seconds, schedule.days_of_week), (frozenset({0}), frozenset({2, 3, 4, 5, 6})))

    def test_a_canonical_text_for_each_of_its_schedules(self):
        self.assertEqual(Schedule.crontab("30 9 * * mon-fri").canonical, ("0 30 9 * * 2-6 *",))
        by_date, by_day = Schedule.crontab("0 0 13 * fri").canonical
        self.assertEqual({by_date, by_day}, {"0 0 0 13 * * *", "0 0 0 * * 6 *"})

    def test_one_kind_of_day_suffices(self):
        # about the fold of 2026-11-01, a Sunday, and the gap of 2026-03-08, the second Sunday
        schedule = Schedule.crontab("*/30 1,2 1,8 * sun")
        for start in (chicago(2026, 10, 24), chicago(2026, 3, 1), chicago(2026, 5, 30)):
            end = start + timedelta(days=10)
            slow = found_slowly(
                start, end, lambda it: it.minute % 30 == 0 and it.hour in (1, 2) and (it.day in (1, 8) or it.isoweekday() == 7)
            )
            self.assertEqual(told(schedule.between(start, end)), slow)
            self.assertEqual(told(schedule.fires(start, end)), slow)
            self.assertEqual(told(schedule.fires(end, start, reverse=True)), [it for it in reversed(slow) if it != end.isoformat()])
            moment, one_by_one = start, []
            while (moment := schedule.after(moment)) is not None and moment.timestamp() <= end.timestamp():
                one_by_one.append(moment.isoformat())
                self.assertTrue(schedule.matches(moment))
                self.assertEqual(schedule.before(moment.replace(microsecond=1)).isoformat(), moment.isoformat())
            self.assertEqual(one_by_one, slow)
        self.assertFalse(schedule.matches(chicago(2026, 11, 2, 1)))

    def test_many_pages(self):
        # more than two pages hold: each minute of two days is one of a kind
        schedule, start = Schedule.crontab("* * 1-31 * 1-7"), datetime(2026, 6, 1, tzinfo=UTC)
        minutes = [start + MINUTE * it for it in range(1, 2 * 24 * 60 + 1)]
        self.assertEqual(schedule.between(start, minutes[-1]), minutes)
        self.assertEqual(list(itertools.islice(schedule.fires(start), 5)), minutes[:5])

    def test_each_match_once(self):
        schedule = Schedule.crontab("15,45 1-3 8 3 sun")
        dues = list(schedule.dues(chicago(2026, 3, 8), chicago(2026, 3, 8, 12)))
        nominal = [datetime(2026, 3, 8, hour, minute) for hour in (1, 2, 3) for minute in (15, 45)]
        self.assertEqual([it.nominal for it in dues], nominal)
        moments = [datetime(2026, 3, 8, *it, tzinfo=CHICAGO) for it in ((1, 15), (1, 45), (3, 0), (3, 0), (3, 15), (3, 45))]
        self.assertEqual([it.moment for it in dues], moments)
        for place, due in enumerate(dues):
            self.assertEqual(list(schedule.dues(due, chicago(2026, 3, 8, 12))), dues[place + 1 :])
        self.assertEqual(schedule.after(chicago(2026, 3, 8, 1, 50), clock_changes="once"), moments[2])
        self.assertEqual(schedule.before(chicago(2026, 3, 8, 3, 10), clock_changes="once"), moments[3])

    def test_line_breaks_at_the_end(self):
        for end in ("\n", "\r\n", " \n\n", "\r \t\r\n"):
            self.assertEqual(Schedule.crontab("\t0 9  * * *" + end), Schedule.crontab("0 9 * * *"))

    def test_nicknames(self):
        self.assertEqual(Schedule.crontab("@daily"), Schedule("0 0 0 * * *"))
        self.assertEqual(Schedule.crontab("@weekly"), Schedule("0 0 0 * * Sun"))

    def test_an_expression_that_never_fires(self):
        self.assertIsNone(Schedule.crontab("0 22-2 * * *").after(chicago(2026, 1, 1)))

    def test_lines(self):
        schedule = Schedule.crontab_line("  30 9\t* * mon-fri  /bin/backup --all%its input")
        self.assertEqual((schedule, schedule.text), (Schedule.crontab("30 9 * * mon-fri"), "30 9 * * mon-fri"))
        nickname = Schedule.crontab_line("@daily root backup", system=True)
        self.assertEqual((nickname, nickname.text), (Schedule.crontab("@daily"), "@daily"))
        for line in ("", " \t", "# 30 9 * * * backup", "MAILTO=a@b.example", "CRON_TZ=UTC"):
            self.assertIsNone(Schedule.crontab_line(line))
        with self.assertRaisesRegex(TextError, "^no command stands behind the fields$"):
            Schedule.crontab_line("* * * * *")
        with self.assertRaisesRegex(TextError, "no user"):
            Schedule.crontab_line("* * * * *", system=True)
        for lines in ("0 9 * * * a\n0 10 * * * b", "# a\n0 10 * * * b", "A=b\n0 10 * * * b", "\n0 10 * * * b"):
            with self.assertRaisesRegex(TextError, "^a line feed stands within the line: each line is read by itself$"):
                Schedule.crontab_line(lines)

    def test_it_is_pickled_as_its_text(self):
        schedule = Schedule.crontab("0 0 13 * fri")
        self.assertEqual(repr(schedule), "Schedule.crontab('0 0 13 * fri')")
        for same in (pickle.loads(pickle.dumps(schedule)), copy.copy(schedule), copy.deepcopy(schedule)):
            self.assertEqual((same, same.text), (schedule, "0 0 13 * fri"))
        self.assertEqual(len({schedule, Schedule.crontab("0  0 13 * 5")}), 1)
        self.assertNotEqual(schedule, Schedule.crontab("0 0 13 * *"))


class Refusals(unittest.TestCase):
    def test_a_text_is_refused_with_its_message(self):
        with self.assertRaisesRegex(TextError, "^minute: '60': 60 is not one of 0 to 59$"):
            Schedule.crontab("60 * * * *")
        for text in ("0\n9 * * *", "0\r9 * * *", "0 8 * * *\n9", "\r\n9 * * * *"):
            with self.assertRaisesRegex(TextError, "^'9' stands behind a line break: an expression is one line$"):
                Schedule.crontab(text)
        for text in ("", "0 0 9 * * Mon-Fri", "0 9 * *", "@Daily", "0 9 ? * *", "\udc80"):
            with self.assertRaises(ValueError, msg=text):
                Schedule.crontab(text)

    def test_the_start_of_the_machine_is_no_time(self):
        with self.assertRaisesRegex(CronError, "no clock tells"):
            Schedule.crontab("@reboot")

    def test_bytes_are_no_text(self):
        with self.assertRaises(TypeError):
            Schedule.crontab(b"@daily")


if __name__ == "__main__":
    unittest.main()
