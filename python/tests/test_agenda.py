"""What an agenda takes, held against the lists of its schedules, and against fires that are known."""

import random
import unittest
from datetime import datetime, timedelta
from unittest import mock
from zoneinfo import ZoneInfo

from cron_c import Agenda, InstantError, Schedule

CHICAGO, APIA = ZoneInfo("America/Chicago"), ZoneInfo("Pacific/Apia")
TEXTS = ["0 30 1 * * *", "0 0 * * * *", "0 */20 2 * * *", "0 30 2 * * Sun", "0 0 0 1 1 * 2022", "30 59 1 6 11 *"]


def taken(agenda, end):
    return list(iter(lambda: agenda.next_due(end), None))


class Order(unittest.TestCase):
    def test_the_fires_of_two_jobs_come_in_one_order(self):
        agenda, start = Agenda(), datetime(2022, 11, 5, 12, tzinfo=CHICAGO)
        backup = agenda.add(Schedule("0 30 1 * * *"), start, clock_changes="once")
        report = agenda.add(Schedule.crontab("30 1 * * *"), start)
        fires = taken(agenda, start + timedelta(days=1))
        self.assertEqual([(it.due.nominal, it.due.nominal.fold) for it in fires], [(datetime(2022, 11, 6, 1, 30), 0)] * 3)
        with self.assertRaises(AttributeError):
            fires[0].id = report
        self.assertEqual(
            [(it.id, it.moment.isoformat()) for it in fires],
            [
                (backup, "2022-11-06T01:30:00-05:00"),
                (report, "2022-11-06T01:30:00-05:00"),
                (report, "2022-11-06T01:30:00-06:00"),
            ],
        )

    def test_matches_that_share_an_instant_come_by_their_time(self):
        agenda, start = Agenda(), datetime(2022, 3, 13, tzinfo=CHICAGO)
        first = agenda.add(Schedule("0 */20 2 * * *"), start, clock_changes="once")
        second = agenda.add(Schedule("0 0 3 * * *"), start)
        told = [(it.id, str(it.due)) for it in taken(agenda, start + timedelta(hours=12))]
        shown = [f"2022-03-13 03:00:00-05:00 for 02:{it:02}:00" for it in (0, 20, 40)]
        self.assertEqual(told, [(first, it) for it in shown] + [(second, "2022-03-13 03:00:00-05:00")])

    def test_it_is_what_a_sort_of_all_lists_is(self):
        draw = random.Random(20261127)
        for _ in range(40):
            zone, changes = draw.choice([CHICAGO, APIA]), draw.choice(["as_shown", "once"])
            start = datetime(2011, 12, 20, tzinfo=zone) + timedelta(hours=draw.randrange(500))
            end, agenda, wanted = start + timedelta(days=20), Agenda(), []
            for text in draw.choices(TEXTS, k=5):
                entry = agenda.add(Schedule(text), start, clock_changes=changes)
                if entry is not None:
                    found = Schedule(text).between(start, end, clock_changes=changes)
                    wanted += [(it.timestamp(), entry) for it in found]
            self.assertEqual([(it.moment.timestamp(), it.id) for it in taken(agenda, end)], sorted(wanted))


LORD_HOWE, HALF_HOUR = ZoneInfo("Australia/Lord_Howe"), timedelta(minutes=30)


def scanned(hours, minutes, zone, changes, start, end):
    """The instants of a schedule of half hours after one and up to and with another, as `zoneinfo` tells what a clock shows."""
    found = []
    reached = datetime.fromtimestamp(start.timestamp(), zone).replace(tzinfo=None)
    for at in range(int(start.timestamp()) + 1800, int(end.timestamp()) + 1, 1800):
        shown = datetime.fromtimestamp(at, zone).replace(tzinfo=None)
        times = [shown]
        if changes == "once":  # each half hour that the clock hasn't shown or passed over yet
            times = [reached + HALF_HOUR * it for it in range(1, (shown - reached) // HALF_HOUR + 1)]
            reached = max(reached, shown)
        found += [at for it in times if it.hour in hours and it.minute in minutes]
    return found


class Scans(unittest.TestCase):
    def test_it_is_what_a_scan_of_all_half_hours_finds(self):
        draw = random.Random(20261128)
        for _ in range(30):
            start = datetime.fromtimestamp(1_640_995_200 + 3600 * draw.randrange(8000), CHICAGO)
            end, agenda, wanted, removed = start + timedelta(days=30), Agenda(), [], {}
            for _ in range(6):
                zone, changes = draw.choice([CHICAGO, APIA, LORD_HOWE]), draw.choice(["as_shown", "once"])
                hours, minutes = draw.sample(range(24), 3), draw.choice([[0], [30], [0, 30]])
                text = f"0 {','.join(map(str, minutes))} {','.join(map(str, hours))} * * *"
                entry = agenda.add(Schedule(text), start.astimezone(zone), clock_changes=changes)
                told = scanned(hours, minutes, zone, changes, start, end)
                removed[entry] = draw.choice([len(told), draw.randrange(1, len(told))])
                wanted += [(at, entry) for at in told[: removed[entry]]]
            found = []
            while (fire := agenda.next_due(end)) is not None:
                found.append((fire.moment.timestamp(), fire.id))
                removed[fire.id] -= 1
                if removed[fire.id] == 0:
                    agenda.remove(fire.id)
            self.assertEqual(found, sorted(wanted))


class Entries(unittest.TestCase):
    def test_a_removed_entry_fires_no_more_and_its_id_is_not_used_again(self):
        agenda, start = Agenda(), datetime(2022, 1, 1, tzinfo=CHICAGO)
        entries = [agenda.add(Schedule("0 0 * * * *"), start) for _ in range(5)]
        self.assertEqual(len(set(entries)), 5)
        for entry in entries[:4]:
            self.assertTrue(agenda.remove(entry))
        self.assertFalse(agenda.remove(entries[0]))
        self.assertEqual((len(agenda), entries[0] in agenda, entries[4] in agenda, agenda.get(entries[0])), (1, False, True, None))
        self.assertEqual(agenda.get(entries[4]), Schedule("0 0 * * * *"))
        self.assertNotIn(agenda.add(Schedule("0 0 * * * *"), start), entries)
        self.assertEqual([agenda.next().id for _ in range(2)], [entries[4], 5])

    def test_an_entry_goes_with_its_last_fire(self):
        agenda, start = Agenda(), datetime(2022, 1, 1, tzinfo=CHICAGO)
        self.assertIsNone(agenda.add(Schedule("0 0 0 1 1 * 2021"), start))
        entry = agenda.add(Schedule("0 0 0 2 1 * 2022"), start)
        self.assertEqual([it.id for it in agenda], [entry])
        self.assertEqual((len(agenda), agenda.first(), agenda.next(), agenda.next_due(start)), (0, None, None, None))

    def test_an_entry_goes_on_past_the_fire_that_was_taken(self):
        start = datetime(2022, 3, 13, tzinfo=CHICAGO)
        whole, agenda = Agenda(), Agenda()
        whole.add(Schedule("0 */20 2 * * *"), start, clock_changes="once")
        agenda.add(Schedule("0 */20 2 * * *"), start, clock_changes="once")
        noted = agenda.next().due
        again = Agenda()
        again.add(Schedule("0 */20 2 * * *"), noted, clock_changes="once")
        self.assertEqual([noted] + [again.next().due for _ in range(5)], [whole.next().due for _ in range(6)])

    def test_a_refused_add_changes_nothing(self):
        agenda = Agenda()
        with self.assertRaises(InstantError):
            agenda.add(Schedule("0 0 * * * *"), datetime(2022, 1, 1))
        with self.assertRaises(ValueError):
            agenda.add(Schedule("0 0 * * * *"), datetime(2022, 1, 1, tzinfo=CHICAGO), clock_changes="twice")
        self.assertEqual((len(agenda), agenda.first()), (0, None))

    def test_an_interrupt_loses_no_fire(self):
        agenda, dues, interrupts = Agenda(), Schedule.dues, [KeyboardInterrupt]

        def interrupted(schedule, start):
            for due in dues(schedule, start):
                yield due
                if interrupts:
                    raise interrupts.pop()

        with mock.patch.object(Schedule, "dues", interrupted):
            agenda.add(Schedule("0 0 * * * *"), datetime(2022, 1, 1, tzinfo=CHICAGO), clock_changes="once")
            with self.assertRaises(KeyboardInterrupt):
                agenda.next()
        self.assertEqual([agenda.next().moment.hour for _ in range(2)], [1, 2])

    def test_a_datetime_without_a_zone_is_refused(self):
        agenda = Agenda()
        agenda.add(Schedule("0 0 * * * *"), datetime(2022, 1, 1, tzinfo=CHICAGO))
        with self.assertRaises(InstantError):
            agenda.next_due(datetime(2023, 1, 1))
        self.assertEqual(agenda.next().moment.isoformat(), "2022-01-01T01:00:00-06:00")
