"""Tries the loadable extension through Python's sqlite3: `python3 check.py EXTENSION`, where the Python package is on the path."""

import os
import pathlib
import random
import shutil
import sqlite3
import sys
import tempfile
import threading
import time
import unittest
from datetime import datetime, timezone
from zoneinfo import ZoneInfo

from cron_c import Schedule, TextError

EXTENSION = str(pathlib.Path(sys.argv.pop()).resolve())
CHICAGO, UTC = "America/Chicago", timezone.utc
ZONES = [CHICAGO, "Europe/Berlin", "Australia/Lord_Howe", "Asia/Kolkata", "Pacific/Apia", "Africa/Casablanca", "UTC"]
TEXTS = {
    "0 30 1 * * *": Schedule("0 30 1 * * *"),
    "* * * * * *": Schedule("* * * * * *"),
    "0 0 9 1,15,L * Mon-Fri": Schedule("0 0 9 1,15,L * Mon-Fri"),
    "*/20 2 * * *": Schedule.crontab("*/20 2 * * *"),
    "@hourly": Schedule.crontab("@hourly"),
    "0 0 13 * 5": Schedule.crontab("0 0 13 * 5"),
    "30 2 * * *": Schedule.crontab("30 2 * * *"),
    "@daily": Schedule.crontab("@daily"),
    "quartz: 0 0 12 L-3 * ?": Schedule.quartz("0 0 12 L-3 * ?"),
}
ONCE = {"0 0 13 * 5", "30 2 * * *", "@daily"}


def opened(path=":memory:"):
    database = sqlite3.connect(path, isolation_level=None, check_same_thread=False)
    database.enable_load_extension(True)
    database.load_extension(EXTENSION)
    return database


class Case(unittest.TestCase):
    def setUp(self):
        self.database = opened()

    def tearDown(self):
        self.database.close()

    def ask(self, question, *values):
        """The first column of the first row."""
        return self.rows(question, *values)[0][0]

    def rows(self, question, *values):
        return self.database.execute(question, values).fetchall()

    def assertFails(self, message, question, *values):
        with self.assertRaises(sqlite3.OperationalError) as raised:
            self.rows(question, *values)
        self.assertEqual(str(raised.exception), message)


class Answers(Case):
    def test_both_ways(self):
        for text in ("0 30 9 * * Mon-Fri", "30 9 * * mon-fri", "quartz: 0 30 9 ? * MON-FRI", " 30  9 * * 1-5 "):
            for call, told in (("cron_next", "2024-01-01T15:30:00Z"), ("cron_previous", "2023-12-29T15:30:00Z")):
                self.assertEqual(self.ask(f"select {call}(?, '2024-01-01T00:00:00Z', ?)", text, CHICAGO), told)

    def test_an_instant_itself_is_neither_after_nor_before(self):
        each = "* * * * * *"
        self.assertEqual(self.ask("select cron_next(?, 1000, 'UTC')", each), 1001)
        self.assertEqual(self.ask("select cron_previous(?, 1000, 'UTC')", each), 999)
        self.assertEqual(self.ask("select cron_next(?, '2024-01-01 00:00:00.5', 'UTC')", each), "2024-01-01 00:00:01.0")
        self.assertEqual(self.ask("select cron_previous(?, '2024-01-01 00:00:00.5', 'UTC')", each), "2024-01-01 00:00:00.0")

    def test_answers_have_the_form_of_the_argument(self):
        rows = {
            "2024-01-01": "2024-01-01 09:00:00",
            "2024-01-01 00:00": "2024-01-01 09:00:00",
            "2024-01-01 00:00:00": "2024-01-01 09:00:00",
            "2024-01-01T00:00:00": "2024-01-01T09:00:00",
            "2024-01-01T00:00:00Z": "2024-01-01T09:00:00Z",
            "2024-01-01 00:00:00.000": "2024-01-01 09:00:00.000",
            "2024-01-01T01:00:00+01:00": "2024-01-01T10:00:00+01:00",
            "2023-12-31T18:00:00-06:00": "2024-01-01T03:00:00-06:00",
            "2023-12-31 24:00": "2024-01-01 09:00:00",
            "2460310.5": "2460310.875",
            1704067200: 1704099600,
            1704067200.5: 1704099600.0,
            2460310.5: 2460310.875,
        }
        for given, told in rows.items():
            answer = self.ask("select cron_next('0 0 9 * * *', ?, 'UTC')", given)
            self.assertEqual((answer, type(answer)), (told, type(told)), given)

    def test_instants_are_those_that_sqlite_reads(self):
        for text in ("2024-02-30 12:00:00", "2024-03-01", "0000-01-01", "9999-12-31 23:59:59", "12:00", "12:00:30.25", "2024-01-01 12:00Z",
                     "2024-01-01T12:00:00.123-14:00", "2024-01-01  12:00", "2024-01-01 12:00 +02:00", "-4713-11-24 12:00:00", "0"):
            second = self.ask("select cast(strftime('%s', ?) as integer)", text)
            self.assertIsNotNone(second, text)
            answer = self.ask("select cron_next('* * * * * *', ?, 'UTC')", text)
            told = self.ask("select cast(strftime('%s', ?) as integer)", answer)
            wanted = max(second + 1, 0) if second < 4133980799 else None
            self.assertEqual(told, wanted, text)

    def test_now(self):
        before = time.time()
        told = self.ask("select strftime('%s', cron_next('* * * * * *', 'now', 'UTC'))")
        self.assertTrue(before < int(told) <= time.time() + 1)

    def test_ends(self):
        for far in (-(2**63), -(10**12), -1e300, "0000-01-01"):
            self.assertIsNone(self.ask("select cron_previous('@yearly', ?, 'UTC')", far))
        self.assertEqual(self.ask("select cron_next('@yearly', ?, 'UTC')", -(2**63)), 0)
        for far in (2**63 - 1, 10**12, 1e300, "9999-12-31"):
            self.assertIsNone(self.ask("select cron_next('@yearly', ?, 'UTC')", far))
        self.assertEqual(self.ask("select cron_previous('@yearly', ?, 'UTC')", 2**63 - 1), 4102444800)
        for never in ("0 0 0 30 2 *", "0 22-2 * * *", "@reboot"):
            self.assertIsNone(self.ask("select cron_next(?, 0, 'UTC')", never))

    def test_null_is_answered_to_null(self):
        for values in ("null, 0, 'UTC'", "'@daily', null, 'UTC'", "'@daily', 0, null", "'@daily', 0, 'UTC', null"):
            self.assertIsNone(self.ask(f"select cron_next({values})"))
            self.assertIsNone(self.ask(f"select cron_previous({values})"))
        self.assertEqual(self.rows("select cron_is_valid(null), cron_fault(null)"), [(None, None)])
        for values in ("null, 0, 1, 'UTC'", "'@daily', null, 1", "'@daily', 0, null", "'@daily', 0, 100000, null"):
            self.assertEqual(self.rows(f"select * from cron_fires({values})"), [])

    def test_clock_changes(self):
        rows = [
            ("30 2 * * *", None, "2022-03-13T07:00:00Z", "2022-03-13T08:00:00Z"),
            ("30 2 * * *", "as_shown", "2022-03-13T07:00:00Z", "2022-03-14T07:30:00Z"),
            ("0 30 1 * * *", None, "2022-11-06T06:30:00Z", "2022-11-06T07:30:00Z"),
            ("0 30 1 * * *", "once", "2022-11-06T06:30:00Z", "2022-11-07T07:30:00Z"),
        ]
        for text, rule, at, told in rows:
            values = (text, at, CHICAGO) if rule is None else (text, at, CHICAGO, rule)
            self.assertEqual(self.ask(f"select cron_next({', '.join('?' * len(values))})", *values), told)

    def test_faults(self):
        self.assertEqual(self.rows("select cron_is_valid('@daily'), cron_fault('@daily')"), [(1, None)])
        for text in ("0 24 * * *", "0 0 9 * * 0", "@dayly", "", "0 9 * *", "\u00fc 9 * * *", "0 9 * * *\n0 10 * * *", 5):
            read = Schedule.crontab if len(str(text).split()) < 6 else Schedule
            with self.assertRaises(TextError) as raised:
                read(str(text))
            self.assertEqual(self.rows("select cron_is_valid(?), cron_fault(?)", text, text), [(0, str(raised.exception))])
        with self.assertRaises(TextError) as raised:
            Schedule.quartz("0 0 12 * * *")
        self.assertEqual(self.ask("select cron_fault('quartz: 0 0 12 * * *')"), str(raised.exception))
        self.assertEqual(self.ask("select cron_is_valid(x'ff20ff')"), 0)
        self.assertEqual(self.ask("select cron_is_valid(?)", "0 9 * * *\0"), 0)

    def test_errors_tell_the_place(self):
        why = "hour: '24': 24 is not one of 0 to 23"
        self.assertFails(f"cron_next: expression '0 24 * * *': {why}", "select cron_next('0 24 * * *', 0, 'UTC')")
        self.assertFails(f"cron_fires: expression '0 24 * * *': {why}", "select * from cron_fires('0 24 * * *', 0, 1, 'UTC')")
        no_zone = "there is no such zone"
        for zone in ("Mars/Olympus", "", "../../etc/passwd", "/etc/localtime", "right/UTC", "x" * 5000):
            self.assertFails(f"cron_previous: zone '{zone}': {no_zone}", "select cron_previous('@daily', 0, ?)", zone)
            self.assertFails(f"cron_fires: zone '{zone}': {no_zone}", "select * from cron_fires('@daily', 0, 1, ?)", zone)
        no_instant = "this is no instant that SQLite reads"
        for text in ("yesterday", "2024-13-01", "", "2024-01-01 25:00", "2024-01-01 12:00:00 Europe/Berlin"):
            self.assertFails(f"cron_next: after '{text}': {no_instant}", "select cron_next('@daily', ?, 'UTC')", text)
            self.assertFails(f"cron_fires: end '{text}': {no_instant}", "select * from cron_fires('@daily', 0, ?, 'UTC')", text)
        self.assertFails("cron_next: rule 'twice': a rule is as_shown or once", "select cron_next('@daily', 0, 'UTC', 'twice')")
        self.assertFails("cron_fires: the expression and the start are wanted", "select * from cron_fires('@daily')")
        self.assertEqual(self.ask("select cron_next('@daily', 0, 'UTC')"), 86400)

    def test_a_long_text_is_refused(self):
        text = "0 9 * * " + "1," * 200000 + "x"
        self.assertEqual(self.ask("select cron_is_valid(?)", text), 0)
        self.assertEqual(self.ask("select cron_is_valid(?)", text[:-1] + "1"), 1)


class Lists(Case):
    def test_a_row_for_each_fire(self):
        rows = self.rows("select fire from cron_fires('0 9 * * *', '2024-01-01 09:00:00', '2024-01-03 09:00:00', 'UTC')")
        self.assertEqual(rows, [("2024-01-02 09:00:00",), ("2024-01-03 09:00:00",)])
        self.assertEqual(self.rows("select fire from cron_fires('0 9 * * *', 10, 0, 'UTC')"), [])

    def test_it_streams(self):
        begun = time.perf_counter()
        rows = self.rows("select fire from cron_fires('* * * * * *', 0, '2100-12-31', 'UTC') limit 3")
        self.assertEqual(rows, [(1,), (2,), (3,)])
        self.assertEqual(self.rows("select fire from cron_fires('* * * * * *', 0) order by fire limit 2 offset 1000"), [(1001,), (1002,)])
        self.assertLess(time.perf_counter() - begun, 5)

    def test_it_stands_in_a_join(self):
        self.database.execute("create table jobs (name, expression, zone)")
        self.database.executemany("insert into jobs values (?, ?, ?)", [("a", "0 9 * * *", CHICAGO), ("b", "0 17 * * *", "UTC"), ("c", None, "UTC")])
        question = "select fire, name from jobs, cron_fires(expression, '2024-01-01T00:00:00Z', '2024-01-02T00:00:00Z', zone) order by fire"
        self.assertEqual(self.rows(question), [("2024-01-01T15:00:00Z", "a"), ("2024-01-01T17:00:00Z", "b")])

    def test_orders(self):
        question = "select fire from cron_fires('0 9 * * *', '2024-01-01', '2024-01-04', 'UTC') order by fire"
        up = self.rows(question)
        self.assertEqual(self.rows(f"{question} desc"), up[::-1])
        self.assertNotIn("TEMP B-TREE", str(self.rows(f"explain query plan {question}")))
        self.assertEqual(self.ask(f"select count(*) from ({question})"), 3)

    def test_columns_tell_the_arguments(self):
        row = self.rows("select cron_expression, cron_start, cron_end, cron_zone, cron_rule from cron_fires('@daily', 0, 86400, 'UTC')")
        self.assertEqual(row, [("@daily", 0, 86400, "UTC", None)])
        self.assertEqual(self.ask("select count(*) from cron_fires where cron_end = 864000 and cron_expression = '@daily' and cron_start = 0"), 10)

    def test_two_lists_at_once(self):
        question = "select a.fire, b.fire from cron_fires('@daily', 0, 172800) a, cron_fires('@hourly', 0, 7200) b order by 1, 2"
        self.assertEqual(self.rows(question), [(86400, 3600), (86400, 7200), (172800, 3600), (172800, 7200)])


class Kept(Case):
    def test_an_index_and_a_generated_column(self):
        self.database.execute("create table jobs (expression, zone, last, due generated always as (cron_next(expression, last, zone)) stored)")
        self.database.execute("insert into jobs values ('0 9 * * *', 'UTC', '2024-01-01')")
        self.database.execute("create index by_due on jobs (cron_next(expression, last, zone))")
        self.database.execute("update jobs set last = due")
        self.assertEqual(self.ask("select due from jobs"), "2024-01-02 09:00:00")
        plan = self.rows("explain query plan select * from jobs where cron_next(expression, last, zone) <= '2024-02-01'")
        self.assertIn("by_due", str(plan))

    def test_a_file_that_changes_is_read_anew(self):
        with tempfile.TemporaryDirectory() as folder:
            path = pathlib.Path(folder) / "Here"
            os.environ["TZDIR"] = folder
            try:
                for zone, told in (("Asia/Kolkata", 12600), ("Asia/Tokyo", 0)):
                    fresh = pathlib.Path(folder) / "fresh"
                    shutil.copyfile(f"/usr/share/zoneinfo/{zone}", fresh)
                    fresh.rename(path)
                    time.sleep(1.1)
                    self.assertEqual(self.ask("select cron_next('0 0 9 * * *', -1, 'Here')"), told)
                path.unlink()
                time.sleep(1.1)
                self.assertFails("cron_next: zone 'Here': there is no such zone", "select cron_next('0 0 9 * * *', -1, 'Here')")
            finally:
                del os.environ["TZDIR"]

    def test_local(self):
        for tz, told in ((":Asia/Kolkata", 12600), ("UTC", 32400), ("", 32400), ("JST-9", 0)):
            os.environ["TZ"] = tz
            self.assertEqual(self.ask("select cron_next('0 0 9 * * *', -1, 'local')"), told)
        del os.environ["TZ"]

    def test_many_zones(self):
        for hours in range(24):
            for minutes in range(60):
                self.ask("select cron_next('@daily', 0, ?)", f"AAA-{hours}:{minutes:02}")
        self.assertEqual(self.ask("select cron_next('0 0 9 * * *', -1, 'AAA-9')"), 0)

    def test_it_is_loaded_twice(self):
        self.database.load_extension(EXTENSION)
        self.assertEqual(self.ask("select cron_next('@daily', 0, 'UTC')"), 86400)
        with self.assertRaises(sqlite3.OperationalError):
            self.rows("select load_extension(?)", EXTENSION)
        self.assertEqual(self.ask("select count(*) from cron_fires('@daily', 0, 864000, 'UTC')"), 10)
        self.assertEqual(self.ask("select cron_next('@daily', 0, 'UTC')"), 86400)

    def test_threads(self):
        def run():
            database = opened()
            told.append(database.execute("select count(*) from cron_fires('0 30 1 * * *', 0, 31536000, 'America/Chicago')").fetchall())
            database.close()

        told = []
        threads = [threading.Thread(target=run) for _ in range(8)]
        for it in threads:
            it.start()
        for it in threads:
            it.join()
        self.assertEqual(told, 8 * [[(366,)]])  # a day each, and the hour that came twice


class Compared(Case):
    def test_calls(self):
        dice, rows = random.Random(3), []
        for _ in range(CALLS):
            second = dice.randrange(-(10**9), 42 * 10**8) if dice.random() < 0.3 else 1647151200 + 20563200 * dice.randrange(2) + dice.randrange(-90000, 90000)
            rows.append((dice.choice(list(TEXTS)), second, dice.choice(ZONES)))
        self.database.execute("create table asked (expression, second, zone)")
        self.database.executemany("insert into asked values (?, ?, ?)", rows)
        told = self.rows("select cron_next(expression, second, zone), cron_previous(expression, second, zone) from asked")
        for (text, second, zone), answers in zip(rows, told):
            at, rule = datetime.fromtimestamp(second, ZoneInfo(zone)), "once" if text in ONCE else "as_shown"
            wanted = (TEXTS[text].after(at, clock_changes=rule), TEXTS[text].before(at, clock_changes=rule))
            self.assertEqual(answers, tuple(None if it is None else int(it.timestamp()) for it in wanted), (text, second, zone))

    def test_lists(self):
        for text, schedule in TEXTS.items():
            for zone in ZONES:
                start = datetime(2022, 3, 1, tzinfo=ZoneInfo(zone))
                end = datetime(2022, 11, 30, tzinfo=ZoneInfo(zone))
                wanted = schedule.fires(start, end, clock_changes="once" if text in ONCE else "as_shown")
                wanted = [int(it.timestamp()) for it, _ in zip(wanted, range(1000))]
                question = "select fire from cron_fires(?, ?, ?, ?) limit 1000"
                told = self.rows(question, text, int(start.timestamp()), int(end.timestamp()), zone)
                self.assertEqual([it for it, in told], wanted, (text, zone))


CALLS = int(os.environ.get("CRON_CALLS", 20000))

if __name__ == "__main__":
    unittest.main()
