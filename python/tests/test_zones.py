"""Each zone of the machine against `zoneinfo`: the quarters of an hour on its clock around its transitions. And where
the file of a zone is found, and how long it is kept."""

import gc
import importlib
import io
import pathlib
import struct
import sys
import tempfile
import unittest
import zoneinfo
from datetime import datetime, timedelta, timezone
from unittest import mock

from cron_c import Schedule, ZoneError
from cron_c.library import read_history
from cron_c.zones import _ERAS, _data_of, eras_of

# In 2040 the rule on the last line decides for most files, and in 2099 for each: no table goes so far.
YEARS = (1970, 1974, 2025, 2037, 2040, 2099)
DAY, QUARTER = timedelta(days=1), timedelta(minutes=15)
# No clock is further from UTC.
FURTHEST = timedelta(hours=26)
TOKYO, UTC = (_data_of(key) for key in ("Asia/Tokyo", "Etc/UTC"))


def days_of_changes(zone, year):
    """The UTC midnights before a day in which the offset changes, and that of the year's first day."""
    midnight = datetime(year, 1, 1, tzinfo=timezone.utc)
    days = [midnight]
    offset = midnight.astimezone(zone).utcoffset()
    while midnight.year == year:
        later = (midnight + DAY).astimezone(zone).utcoffset()
        if later != offset:
            days.append(midnight)
        midnight, offset = midnight + DAY, later
    return days


def instants_of(zone, civil):
    """The instants at which the zone's clock shows a civil time, by `zoneinfo`."""
    found = {civil.replace(tzinfo=zone, fold=fold).astimezone(timezone.utc) for fold in (0, 1)}
    return [it for it in found if it.astimezone(zone).replace(tzinfo=None) == civil]


def quarters(zone, start, end):
    """The instants after `start` and up to `end` at which the clock shows a quarter of an hour."""
    civil = (start - FURTHEST).replace(tzinfo=None)
    found = []
    while civil <= (end + FURTHEST).replace(tzinfo=None):
        if civil.year >= 1970:
            found += [it for it in instants_of(zone, civil) if start < it <= end]
        civil += QUARTER
    return sorted(found)


HEADER = struct.Struct(">4sc15x6L")


def count_of_changes(data):
    """How many transitions the table of a zone's file has: that of its second block, if it has one."""
    _, version, utc, wall, leap, turns, types, letters = HEADER.unpack_from(data)
    if version >= b"2":
        turns = HEADER.unpack_from(data, HEADER.size + turns * 5 + types * 6 + letters + leap * 8 + wall + utc)[5]
    return turns


class Zones(unittest.TestCase):
    def test_each_file_has_an_era_for_each_change_and_one_before(self):
        for key in sorted(zoneinfo.available_timezones() - {"localtime"}):
            eras = eras_of(zoneinfo.ZoneInfo(key))
            self.assertEqual(len(eras), count_of_changes(_data_of(key)) + 1, key)
            self.assertEqual(eras[0].starts, -(1 << 63), key)

    def test_bytes_of_no_file_are_refused(self):
        for data in (b"", b"TZif", _data_of("America/Chicago")[:-1]):
            with self.assertRaises(ZoneError):
                read_history(data, "America/Chicago")

    def test_half_a_file_is_refused(self):
        for key in sorted(zoneinfo.available_timezones() - {"localtime"}):
            data = _data_of(key)
            with self.assertRaises(ZoneError, msg=key):
                read_history(data[: len(data) // 2], key)

    def test_each_zone_fires_as_its_clock_shows(self):
        schedule = Schedule("0 */15 * * * *")
        count = 0
        for key in sorted(zoneinfo.available_timezones() - {"localtime"}):
            zone = zoneinfo.ZoneInfo(key)
            for start in (it for year in YEARS for it in days_of_changes(zone, year)):
                end = start + DAY
                answers = schedule.between(start.astimezone(zone), end)
                self.assertEqual([it.astimezone(timezone.utc) for it in answers], quarters(zone, start, end), (key, start))
                count += len(answers)
        self.assertGreater(count, 100_000)


class Files(unittest.TestCase):
    def setUp(self):
        room = tempfile.TemporaryDirectory()
        self.addCleanup(room.cleanup)
        self.folder = pathlib.Path(room.name)
        self.addCleanup(zoneinfo.reset_tzpath)
        self.look_in()

    def look_in(self, *names):
        """Makes these folders, and has them be those in which `zoneinfo` finds files."""
        folders = [self.folder / name for name in names]
        for folder in folders:
            folder.mkdir()
        zoneinfo.reset_tzpath(to=[str(folder) for folder in folders])
        return folders

    def place_package(self):
        """Makes a package `tzdata` with two zones the first that is found."""
        zones = self.folder / "tzdata" / "zoneinfo"
        (zones / "Far").mkdir(parents=True)
        for package in (zones / "Far", zones, zones.parent):
            (package / "__init__.py").touch()
        for path in (zones / "Moved", zones / "Far" / "Moved"):
            path.write_bytes(TOKYO)
        modules = {name: module for name, module in sys.modules.items() if name.partition(".")[0] != "tzdata"}
        self.patch(mock.patch.dict(sys.modules, modules, clear=True))
        self.patch(mock.patch.object(sys, "path", [str(self.folder), *sys.path]))
        importlib.invalidate_caches()

    def patch(self, patch):
        patch.start()
        self.addCleanup(patch.stop)

    def check_hours(self, zone, wanted):
        """Compares how far the clock is ahead at a fire, in hours."""
        fire = Schedule("0 0 9 * * *").after(datetime(2024, 1, 1, tzinfo=zone))
        self.assertEqual(fire.utcoffset(), timedelta(hours=wanted), zone)

    def test_a_zone_that_is_read_anew_has_its_new_file(self):
        [folder] = self.look_in("first")
        (folder / "Moved").write_bytes(TOKYO)
        old = zoneinfo.ZoneInfo.no_cache("Moved")
        self.check_hours(old, 9)
        (folder / "Moved").write_bytes(UTC)
        self.check_hours(zoneinfo.ZoneInfo.no_cache("Moved"), 0)
        self.check_hours(old, 9)

    def test_the_package_tzdata_is_read_where_no_folder_has_the_file(self):
        self.place_package()
        for key in ("Moved", "Far/Moved"):
            self.check_hours(zoneinfo.ZoneInfo.no_cache(key), 9)

    def test_a_file_in_a_folder_goes_before_the_package(self):
        self.place_package()
        first, second = self.look_in("first", "second")
        (first / "Moved").mkdir()
        (second / "Moved").write_bytes(UTC)
        self.check_hours(zoneinfo.ZoneInfo.no_cache("Moved"), 0)

    def test_a_zone_without_a_file_is_refused(self):
        self.place_package()
        self.look_in("first")
        # the last two can be the names of no file
        for key in ("Gone", "Far/Gone", "Nowhere/Gone", 300 * "x", "a\0b"):
            zone = zoneinfo.ZoneInfo.from_file(io.BytesIO(TOKYO), key=key)
            with self.assertRaisesRegex(ZoneError, f"^no file for the zone {key} can be read$"):
                eras_of(zone)

    def test_what_was_read_goes_with_its_zone(self):
        self.place_package()
        gc.collect()
        before = len(_ERAS)
        zone = zoneinfo.ZoneInfo.no_cache("Moved")
        self.assertIs(eras_of(zone), eras_of(zone))
        self.assertEqual(len(_ERAS), before + 1)
        del zone
        gc.collect()
        self.assertEqual(len(_ERAS), before)


if __name__ == "__main__":
    unittest.main()
