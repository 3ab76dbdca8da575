"""Which versions of the library are loaded, and what is raised by what its calls return."""

import unittest
from unittest import mock

import cron_c
from cron_c import CronError, ZoneError, library


def load(version):
    """Loads a library that answers this version."""
    fake = mock.Mock()
    fake.cron_c_version.return_value = version
    with mock.patch("ctypes.CDLL", return_value=fake):
        library._load()


class Versions(unittest.TestCase):
    def test_the_package_has_the_version_of_the_library(self):
        self.assertEqual(cron_c.__version__, library.version())

    def test_versions_with_all_calls_and_the_same_structs_are_loaded(self):
        for version in (10_700, 10_701, 10_800, 19_999):
            load(version)

    def test_a_version_that_lacks_calls_is_refused(self):
        for version in (0, 1, 10_000, 10_600, 10_699):
            with self.assertRaises(ImportError, msg=version):
                load(version)

    def test_a_version_with_other_structs_is_refused(self):
        for version in (20_000, 20_100, 4_294_967_295):
            with self.assertRaises(ImportError, msg=version):
                load(version)

    def test_a_refusal_names_both_versions(self):
        with self.assertRaisesRegex(ImportError, r"is of version 1\.4\.0, and this package needs 1\.7\.0 or later, before 2\.0\.0$"):
            load(10_400)


class Eras(unittest.TestCase):
    """Eras are checked where a zone is made of them."""

    def test_eras_in_order_are_a_history(self):
        utc = library.parse_zone(b"UTC")
        self.assertEqual(len(library.history([library.Era(0, utc), library.Era(1, utc)])), 2)
        self.assertEqual(len(library.history([])), 0)

    def test_eras_in_another_order_are_refused(self):
        utc = library.parse_zone(b"UTC")
        for starts in ((0, 0), (1, 0), (0, 5, 5), (-3, -4, 9)):
            with self.assertRaises(ZoneError, msg=starts):
                library.history(library.Era(it, utc) for it in starts)

    def test_an_era_of_no_zone_is_refused(self):
        other = library.Zone()
        other.words[0] = 9
        with self.assertRaises(ZoneError):
            library.history([library.Era(0, library.parse_zone(b"UTC")), library.Era(1, other)])


class Statuses(unittest.TestCase):
    """What is raised where a call returns a status that no text, file or instant at hand leads to."""

    def returning(self, call, status):
        fake = mock.Mock(**{f"{call}.return_value": status})
        return mock.patch.object(library, "_LIBRARY", fake)

    def test_another_status_of_a_text(self):
        with self.returning("cron_c_parse", 7), self.assertRaisesRegex(CronError, "^status 7$"):
            library.parse("@daily")

    def test_another_status_of_a_fire(self):
        for name in ("fire_after", "fire_by"):
            with self.returning(f"cron_c_history_{name}", 6), self.assertRaisesRegex(CronError, "^status 6$"):
                getattr(library, name)((library.Sets * 1)(), library.History([]), 0)

    def test_another_status_of_a_page(self):
        for name in ("fires_between", "fires_past"):
            between = library.MORE if name == "fires_past" else 6
            fake = mock.Mock(**{"cron_c_history_fires_between.return_value": between, "cron_c_history_fires_past.return_value": 6})
            with mock.patch.object(library, "_LIBRARY", fake), self.assertRaisesRegex(CronError, "^status 6$"):
                list(library.pages((library.Sets * 1)(), library.History([]), 0, 9))

    def test_a_zone_that_is_refused(self):
        with self.returning("cron_c_zone_parse", library.BAD_ZONE), self.assertRaises(ZoneError):
            library.parse_zone(b"UTC")

    def test_statuses_of_a_file(self):
        for status, error in ((library.NO_MEMORY, MemoryError), (6, CronError)):
            with self.returning("cron_c_history_read", status), self.assertRaises(error):
                library.read_history(b"TZif", "Moved")


if __name__ == "__main__":
    unittest.main()
