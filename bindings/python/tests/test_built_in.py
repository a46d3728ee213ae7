"""The zones in the library, which serve where the machine has no file."""

import ctypes
import pickle
import unittest
import zoneinfo
from pathlib import Path
from unittest import mock

import tz
from test_zone import search_path
from tz import ZoneInfo, ZoneInfoNotFoundError, _library, _structures

YEAR_2200 = 7258118400
OUT_OF_RANGE = 1


def spans(zone):
    """What the zone's clock shows from the first instant to 2200, each with its first instant."""
    at, change = -(1 << 63), _structures.Change()
    first = zone._span_at(at)
    yield at, first.offset, first.name, first.kind.is_dst
    while _library.following(zone._zone, at, change) == _library.OK and at < YEAR_2200:
        at, kind = change.unix_time, change.after
        yield at, kind.ut_offset, kind.designation, kind.is_dst


def version_of_files():
    """The version of the machine's database, as the first line of its sources says."""
    for directory in zoneinfo.TZPATH:
        sources = Path(directory, "tzdata.zi")
        if sources.is_file():
            with sources.open(encoding="utf-8") as lines:
                return next(lines).split()[-1]
    return None


def without_files(name):
    with search_path():
        return ZoneInfo.no_cache(name)


class BuiltIn(unittest.TestCase):
    def test_names(self):
        with search_path():
            names = tz.available_timezones()
            self.assertEqual(names, _library.built_in_names())
        self.assertGreater(len(names), 500)
        # Each place before the end has a name, and no two have the same.
        text, length = ctypes.create_string_buffer(128), ctypes.c_size_t()
        for place, code in ((len(names) - 1, _library.OK), (len(names), OUT_OF_RANGE)):
            arguments = place, text, len(text), ctypes.byref(length)
            self.assertEqual(_library._built_in_name(*arguments), code)
        self.assertTrue({"Europe/Paris", "UTC", "America/Argentina/Ushuaia"} <= names)
        self.assertNotIn("Europe/Paris", names - tz.available_timezones())
        for name in ("Europe/Pariss", "europe/paris", "Europe", "posixrules"):
            with self.subTest(name), self.assertRaises(ZoneInfoNotFoundError):
                without_files(name)

    def test_a_file_comes_first(self):
        zone, own = ZoneInfo.no_cache("Europe/Paris"), without_files("Europe/Paris")
        self.assertTrue(zone._held)
        self.assertFalse(own._held)
        self.assertEqual(repr(own), "ZoneInfo(key='Europe/Paris')")

    def test_it_can_be_chosen(self):
        zone = ZoneInfo.built_in("Europe/Paris")
        self.assertFalse(zone._held)
        self.assertEqual((zone.key, str(zone)), ("Europe/Paris", "Europe/Paris"))
        self.assertEqual(repr(zone), "ZoneInfo.built_in('Europe/Paris')")
        self.assertEqual(list(spans(zone)), list(spans(without_files("Europe/Paris"))))
        # It says nothing of what `ZoneInfo` returns, and stays what it is in a pickle.
        self.assertIsNot(zone, ZoneInfo.built_in("Europe/Paris"))
        self.assertTrue(ZoneInfo("Europe/Paris")._held)
        again = pickle.loads(pickle.dumps(zone))
        self.assertEqual((repr(again), again._held), (repr(zone), []))
        self.assertEqual(tz.built_in_names(), _library.built_in_names())
        for name in ("europe/paris", "../UTC", "/UTC", "", "\ud800"):
            with self.subTest(name), self.assertRaises(ZoneInfoNotFoundError):
                ZoneInfo.built_in(name)
        with self.assertRaises(TypeError):
            ZoneInfo.built_in(b"UTC")

    def test_without_zones(self):
        with mock.patch.object(_library, "built_in", None):
            with self.assertRaises(ZoneInfoNotFoundError):
                without_files("Europe/Paris")
            with self.assertRaises(ZoneInfoNotFoundError):
                ZoneInfo.built_in("Europe/Paris")
            with search_path():
                self.assertEqual(tz.available_timezones(), set())
            self.assertIsNone(tz.built_in_version())

    def test_files_say_the_same(self):
        versions = tz.built_in_version(), version_of_files()
        if versions[0] != versions[1]:
            print("zones in the library and in files are not compared: {}, {}".format(*versions))
            return
        for name in _library.built_in_names():
            zones = without_files(name), ZoneInfo.no_cache(name)
            self.assertEqual(*(list(spans(zone)) for zone in zones), name)
        print(f"{len(_library.built_in_names())} zones in the library are as their files")


if __name__ == "__main__":
    unittest.main()
