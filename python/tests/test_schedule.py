"""What a schedule answers, and what it refuses."""

import copy
import doctest
import io
import itertools
import pickle
import sys
import unittest
import weakref
from datetime import date, datetime, timedelta, timezone, tzinfo
from unittest import mock
from zoneinfo import ZoneInfo

import cron_c
from cron_c import InstantError, Schedule, TextError, ZoneError
from cron_c.zones import _data_of

CHICAGO = ZoneInfo("America/Chicago")
UTC = timezone.utc


class Nowhere(tzinfo):
    """A zone that tells no offset: by Python's rules a datetime in it is naive."""

    def utcoffset(self, moment):
        return None


class Constant(tzinfo):
    """A zone of another package with one offset."""

    def utcoffset(self, moment):
        return timedelta(hours=5, minutes=45)

    def dst(self, moment):
        return timedelta(0)

    def tzname(self, moment):
        return "+0545"


class Seasonal(Constant):
    """A zone of another package that goes forward for the summer, and tells its winter's offset where no time is given."""

    def utcoffset(self, moment):
        summer = moment is not None and 4 <= moment.month <= 9
        return timedelta(hours=1 + summer)


def chicago(*parts, fold=0):
    return datetime(*parts, tzinfo=CHICAGO, fold=fold)


UNITS = ((0, 59), (0, 59), (0, 23), (1, 31), (1, 12), (1, 7), (1970, 2100))


def read_field(field, least, greatest):
    """The numbers of a field of a canonical text, and whether `L` is among them."""
    if field == "*":
        return set(range(least, greatest + 1)), False
    numbers, last = set(), -2
    for run in field.split(","):
        if run == "L":
            return numbers, True
        first, end = ((least, greatest) if run == "*" else (int(run.split("-")[0]), int(run.split("-")[-1])))
        assert last + 1 < first <= end, f"{field} has runs that touch"
        numbers.update(range(first, end + 1))
        last = end
    return numbers, False


class Answers(unittest.TestCase):
    def test_a_fold_has_both_readings(self):
        schedule = Schedule("0 30 1 * * *")
        first, second = chicago(2022, 11, 6, 1, 30), chicago(2022, 11, 6, 1, 30, fold=1)
        self.assertEqual(schedule.after(first).isoformat(), "2022-11-06T01:30:00-06:00")
        self.assertEqual(schedule.after(second).isoformat(), "2022-11-07T01:30:00-06:00")
        self.assertEqual(schedule.before(second).isoformat(), "2022-11-06T01:30:00-05:00")
        self.assertEqual(schedule.before(second.replace(microsecond=1)).fold, 1)

    def test_a_gap_is_passed_over(self):
        answer = Schedule("0 30 2 * * *").after(chicago(2022, 3, 12, 12))
        self.assertEqual(answer.isoformat(), "2022-03-14T02:30:00-05:00")

    def test_the_past_has_its_own_transitions(self):
        # In 1974 the clock went forward on 6 January.
        answers = Schedule("0 0 12 1,10 1 * 1974").between(chicago(1973, 12, 1), chicago(1974, 2, 1))
        self.assertEqual([it.isoformat() for it in answers], ["1974-01-01T12:00:00-06:00", "1974-01-10T12:00:00-05:00"])

    def test_pages_of_fires_are_the_list(self):
        schedule, start = Schedule("0 */20 * * * *"), chicago(2022, 11, 6)
        listed = schedule.between(start, chicago(2022, 11, 6, 6))
        self.assertEqual(len(listed), 21)
        self.assertEqual(list(itertools.islice(schedule.fires(start), 21)), listed)

    def test_each_second_is_told(self):
        start = datetime(2024, 1, 1, 9, tzinfo=UTC)
        seconds = [start + timedelta(seconds=it) for it in (1, 2, 3)]
        self.assertEqual(list(itertools.islice(Schedule("* * * * * *").fires(start), 3)), seconds)

    def test_parts_of_a_second(self):
        schedule = Schedule("* * * * * *")
        half = datetime(2024, 1, 1, 9, 0, 0, 500_000, tzinfo=UTC)
        nine, next_second = half.replace(microsecond=0), datetime(2024, 1, 1, 9, 0, 1, tzinfo=UTC)
        self.assertEqual(schedule.after(half), next_second)
        self.assertEqual(schedule.before(half), nine)
        self.assertEqual(schedule.before(nine), datetime(2024, 1, 1, 8, 59, 59, tzinfo=UTC))
        self.assertEqual(schedule.between(half, half + timedelta(seconds=1)), [next_second])
        self.assertEqual(schedule.between(nine, half), [])
        early = datetime(1969, 12, 31, 23, 59, 59, 500_000, tzinfo=UTC)
        self.assertEqual(schedule.after(early), datetime(1970, 1, 1, tzinfo=UTC))

    def test_a_fire_matches_and_what_is_beside_it_does_not(self):
        schedule = Schedule("0 30 1 * * *")
        for fold in (0, 1):
            self.assertTrue(schedule.matches(chicago(2022, 11, 6, 1, 30, fold=fold)))
        for moment in (chicago(2022, 11, 6, 1, 30, 1), chicago(2022, 11, 6, 1, 30, 0, 1), chicago(2022, 11, 6, 2, 30)):
            self.assertFalse(schedule.matches(moment))
        self.assertTrue(schedule.matches(datetime(2022, 11, 6, 1, 30, tzinfo=UTC)))
        for moment in (datetime.max, datetime.min):
            self.assertFalse(Schedule("* * * * * *").matches(moment.replace(tzinfo=UTC)))

    def test_fires_end_with_the_end(self):
        schedule, day = Schedule("0 0 12 * * *"), datetime(2024, 2, 28, 12, tzinfo=UTC)
        following = [day + timedelta(days=it) for it in (1, 2)]
        self.assertEqual(list(schedule.fires(day, following[-1])), following)
        self.assertEqual(list(schedule.fires(day, following[-1] - timedelta(microseconds=1))), following[:1])
        self.assertEqual(list(schedule.fires(day, day)), [])
        self.assertEqual(list(schedule.fires(day, following[0] - timedelta(days=9))), [])

    def test_fires_tell_one_after_the_other(self):
        seconds = Schedule("* * * * * *").fires(datetime(1970, 1, 1, tzinfo=UTC), datetime(2100, 1, 1, tzinfo=UTC))
        self.assertEqual(next(seconds), datetime(1970, 1, 1, 0, 0, 1, tzinfo=UTC))

    def test_reversed_fires_go_back(self):
        schedule, noon = Schedule("0 30 1 * * *"), chicago(2022, 11, 7, 12)
        back = [it.isoformat() for it in itertools.islice(schedule.fires(noon, reverse=True), 4)]
        days = ["2022-11-07T01:30:00-06:00", "2022-11-06T01:30:00-06:00", "2022-11-06T01:30:00-05:00", "2022-11-05T01:30:00-05:00"]
        self.assertEqual(back, days)
        for end, count in ((chicago(2022, 11, 6, 1, 30), 3), (chicago(2022, 11, 6, 1, 30, 0, 1), 2), (noon, 0)):
            self.assertEqual([it.isoformat() for it in schedule.fires(noon, end, reverse=True)], days[:count])
        # a fire at the start itself isn't before it
        self.assertEqual([it.isoformat() for it in schedule.fires(chicago(2022, 11, 7, 1, 30), chicago(2022, 11, 6), reverse=True)], days[1:3])
        # and one a moment before it is
        self.assertEqual(next(schedule.fires(chicago(2022, 11, 7, 1, 30, 1), reverse=True)).isoformat(), days[0])
        self.assertEqual(next(schedule.fires(chicago(2022, 11, 7, 1, 30, 0, 1), reverse=True)).isoformat(), days[0])
        self.assertEqual(len(list(Schedule("0 0 0 1 1 * *").fires(datetime(9999, 1, 1, tzinfo=UTC), reverse=True))), 131)

    def test_pages_go_on_over_many_eras(self):
        hours = list(Schedule("0 0 * * * *").fires(chicago(1970, 1, 1), chicago(2000, 1, 1)))
        # each hour of the 10,957 days of thirty years, since this clock always was whole hours behind UTC
        self.assertEqual(len(hours), 10957 * 24)
        seconds = {(later.timestamp() - earlier.timestamp()) for earlier, later in zip(hours, hours[1:])}
        self.assertEqual(seconds, {3600.0})

    def test_a_zone_of_another_package_with_one_offset(self):
        answer = Schedule("0 0 9 * * *").after(datetime(2024, 1, 1, 9, tzinfo=Constant()))
        self.assertEqual(answer.isoformat(), "2024-01-02T09:00:00+05:45")

    def test_the_sets(self):
        schedule = Schedule("0,30 */20 9-11 1,15,L Feb Mon-Fri 2099-2100")
        self.assertEqual(schedule.seconds, frozenset({0, 30}))
        self.assertEqual(schedule.minutes, frozenset({0, 20, 40}))
        self.assertEqual(schedule.hours, frozenset({9, 10, 11}))
        self.assertEqual(schedule.days_of_month, frozenset({1, 15}))
        self.assertTrue(schedule.last_day)
        self.assertEqual(schedule.months, frozenset({2}))
        self.assertEqual(schedule.days_of_week, frozenset({2, 3, 4, 5, 6}))
        self.assertEqual(schedule.years, frozenset({2099, 2100}))

    def test_the_whole_sets(self):
        schedule = Schedule("* * * * * *")
        self.assertFalse(schedule.last_day)
        sets = (schedule.seconds, schedule.minutes, schedule.hours, schedule.days_of_month)
        self.assertEqual([(min(it), max(it), len(it)) for it in sets], [(0, 59, 60), (0, 59, 60), (0, 23, 24), (1, 31, 31)])
        sets = (schedule.months, schedule.days_of_week, schedule.years)
        self.assertEqual([(min(it), max(it), len(it)) for it in sets], [(1, 12, 12), (1, 7, 7), (1970, 2100, 131)])

    def test_a_canonical_text_has_the_sets(self):
        texts = (
            "* * * * * *", "@yearly", "0/15 1,2 3,5-7 L jan,MAR-apr SUN 2018", "* * * 1-31,L 1-12 ? 1970-2100", "0 0 0 1,L * *",
            "59,0,58,1 0-58 */2 2-31/3 1-11 2-7 1971-2100/7", "*/7 5/9 1-23/2 */4 */5 Mon,Wed,Fri 2033-2034,2097-2099",
        )
        for text in texts:
            schedule = Schedule(text)
            (canonical,) = schedule.canonical
            sets = (schedule.seconds, schedule.minutes, schedule.hours, schedule.days_of_month)
            sets += (schedule.months, schedule.days_of_week, schedule.years)
            fields = [read_field(field, *unit) for field, unit in zip(canonical.split(" "), UNITS, strict=True)]
            self.assertEqual([frozenset(numbers) for numbers, _ in fields], list(sets), text)
            self.assertEqual([last for _, last in fields], [False] * 3 + [schedule.last_day] + [False] * 3, text)
            self.assertEqual((Schedule(canonical), Schedule(canonical).canonical), (schedule, (canonical,)))

    def test_a_schedule_is_its_text_and_can_be_referred_to_weakly(self):
        schedule = Schedule("@daily")
        self.assertEqual(str(schedule), "@daily")
        self.assertIs(weakref.ref(schedule)(), schedule)

    def test_the_ends(self):
        schedule = Schedule("0 0 0 1 1 * 1970,2100")
        self.assertEqual(schedule.after(datetime(1, 1, 2, tzinfo=UTC)), datetime(1970, 1, 1, tzinfo=UTC))
        self.assertEqual(schedule.before(datetime(9999, 12, 30, tzinfo=UTC)), datetime(2100, 1, 1, tzinfo=UTC))
        self.assertIsNone(schedule.after(datetime(2100, 1, 1, tzinfo=UTC)))
        self.assertIsNone(schedule.before(datetime(1970, 1, 1, tzinfo=UTC)))
        self.assertEqual(schedule.before(datetime.max.replace(tzinfo=UTC)), datetime(2100, 1, 1, tzinfo=UTC))
        self.assertIsNone(schedule.after(datetime.max.replace(tzinfo=UTC)))
        self.assertIsNone(schedule.before(datetime.min.replace(tzinfo=UTC)))
        self.assertEqual(list(schedule.fires(chicago(2100, 1, 2))), [])

    def test_offsets(self):
        zone = timezone(timedelta(hours=5, minutes=45, seconds=30))
        answer = Schedule("0 0 9 * * *").after(datetime(2024, 1, 1, 9, tzinfo=zone))
        self.assertEqual(answer.isoformat(), "2024-01-02T09:00:00+05:45:30")
        first = Schedule("0 0 0 1 1 * 1970").after(datetime(1969, 12, 1, tzinfo=zone))
        self.assertEqual(first.isoformat(), "1970-01-01T00:00:00+05:45:30")
        west = Schedule("0 0 9 * * *").before(datetime(2024, 1, 1, 9, tzinfo=timezone(-timedelta(hours=3, minutes=30))))
        self.assertEqual(west.isoformat(), "2023-12-31T09:00:00-03:30")

    def test_same_sets_are_equal(self):
        self.assertEqual(Schedule("@daily"), Schedule("0 0 0 * * *"))
        self.assertEqual(len({Schedule("@daily"), Schedule("0 0 0 * * ?")}), 1)
        self.assertNotEqual(Schedule("@daily"), Schedule("@hourly"))
        self.assertEqual(repr(Schedule("@daily")), "Schedule('@daily')")

    def test_a_schedule_keeps_its_text(self):
        self.assertEqual(Schedule("@daily").text, "@daily")

    def test_a_schedule_is_pickled_as_its_text(self):
        schedule = Schedule("0 0 9 * * Mon-Fri")
        pickled = pickle.dumps(schedule)
        self.assertNotIn(b"_schedules", pickled)
        for same in (pickle.loads(pickled), copy.copy(schedule), copy.deepcopy(schedule)):
            self.assertEqual((same, same.text), (schedule, schedule.text))

    def test_what_is_no_schedule_says_itself_whether_it_is_equal(self):
        self.assertNotEqual(Schedule("@daily"), "@daily")
        self.assertEqual(Schedule("@daily"), mock.ANY)


def load_tests(loader, tests, pattern):
    tests.addTests(doctest.DocTestSuite(cron_c))
    return tests


class Refusals(unittest.TestCase):
    def test_a_text_is_refused_with_its_message(self):
        with self.assertRaisesRegex(TextError, r"^Hours must be less than 23\. \('25' specified\.\)$"):
            Schedule("0 0 25 * * *")

    @unittest.skipIf(sys.version_info < (3, 11), "an exception has no notes before Python 3.11")
    def test_a_line_of_a_crontab_has_a_note(self):
        with self.assertRaises(TextError) as refusal:
            Schedule("30 9 * * 1")
        [note] = refusal.exception.__notes__
        self.assertTrue(note.startswith("five fields: a crontab line"), note)
        for text in ("0 0 25 * * *", "0 9 * *", "nothing"):
            with self.assertRaises(TextError) as refusal:
                Schedule(text)
            self.assertFalse(hasattr(refusal.exception, "__notes__"), text)

    def test_what_is_no_datetime_is_refused(self):
        schedule, noon = Schedule("@daily"), datetime(2024, 1, 1, 12, tzinfo=UTC)
        for wrong, kind in ((date(2024, 1, 1), "date"), (None, "NoneType"), (3, "int"), ("2024-01-01", "str")):
            said = f"^a datetime with a zone is wanted, and this is a {kind}$"
            for call in (schedule.after, schedule.before, schedule.matches, schedule.fires):
                with self.assertRaisesRegex(TypeError, said):
                    call(wrong)
            for ends in ((wrong, noon), (noon, wrong)):
                with self.assertRaisesRegex(TypeError, said):
                    schedule.between(*ends)

    def test_a_zone_of_another_package_with_transitions_is_refused(self):
        with self.assertRaisesRegex(ZoneError, r"moment\.astimezone\(zoneinfo\.ZoneInfo\("):
            Schedule("@daily").after(datetime(2024, 1, 1, tzinfo=Seasonal()))

    def test_bytes_are_no_text(self):
        with self.assertRaises(TypeError):
            Schedule(b"@daily")

    def test_a_lone_surrogate_is_no_text(self):
        with self.assertRaises(TextError):
            Schedule("\udc80")

    def test_a_naive_datetime_is_no_instant(self):
        with self.assertRaises(InstantError):
            Schedule("@daily").after(datetime(2024, 1, 1))
        with self.assertRaises(InstantError):
            Schedule("@daily").between(datetime(2024, 1, 1, tzinfo=UTC), datetime(2024, 1, 2))
        for tell in (Schedule("@daily").fires, Schedule("@daily").dues):
            with self.assertRaises(InstantError):
                tell(datetime(2024, 1, 1, tzinfo=UTC), datetime(2024, 1, 2))
        with self.assertRaises(InstantError):
            Schedule("@daily").after(datetime(2024, 1, 1, tzinfo=Nowhere()))

    def test_a_zone_without_a_key_is_refused(self):
        header = b"TZif" + bytes(16) + (0).to_bytes(4, "big") * 4 + (1).to_bytes(4, "big") + (4).to_bytes(4, "big")
        zone = ZoneInfo.from_file(io.BytesIO(header + bytes(6) + b"UTC\0"))
        with self.assertRaisesRegex(ZoneError, "the zone has no key"):
            Schedule("@daily").after(datetime(2024, 1, 1, tzinfo=zone))

    def test_a_file_of_another_zone_is_refused(self):
        zone = ZoneInfo.from_file(io.BytesIO(_data_of("Asia/Tokyo")), key="America/Chicago")
        with self.assertRaisesRegex(ZoneError, "isn't what this ZoneInfo was read from"):
            Schedule("@daily").after(datetime(2024, 1, 1, tzinfo=zone))

    def test_an_offset_with_a_part_of_a_second_is_refused(self):
        zone = timezone(timedelta(microseconds=1))
        with self.assertRaisesRegex(ZoneError, "part of a second"):
            Schedule("@daily").after(datetime(2024, 1, 1, tzinfo=zone))


if __name__ == "__main__":
    unittest.main()
