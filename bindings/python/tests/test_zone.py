"""`ZoneInfo`: names, files and strings, what is refused, folds and gaps, copies, threads."""

import _ctypes
import contextlib
import copy
import io
import os
import pickle
import random
import re
import shutil
import struct
import subprocess
import sys
import tempfile
import unittest
import zoneinfo
from concurrent.futures import ThreadPoolExecutor
from datetime import date, datetime, time, timedelta, timezone
from pathlib import Path
from unittest import mock

import tz
from tz import TzError, ZoneInfo, ZoneInfoNotFoundError, _library, _structures

HOUR = timedelta(hours=1)
PARIS = "Europe/Paris"


def file_of(name):
    """The bytes of a zone file of the machine."""
    paths = [os.path.join(directory, name) for directory in zoneinfo.TZPATH]
    return Path(next(filter(os.path.isfile, paths))).read_bytes()


def tzif(changes, types, footer="", leap_seconds=(), version="2"):
    """A zone file: instants with the places of their types, and types as (offset, is_dst, name)."""
    names = b"".join(name.encode() + b"\0" for *_, name in types)
    place, places = 0, []
    for *_, name in types:
        places.append(place)
        place += len(name) + 1
    body = b"".join(struct.pack(">q", at) for at, _ in changes)
    body += bytes(place for _, place in changes)
    for (offset, is_dst, _), place in zip(types, places):
        body += struct.pack(">lBB", offset, is_dst, place)
    body += names + b"".join(struct.pack(">ql", *pair) for pair in leap_seconds)
    counts = 0, 0, len(leap_seconds), len(changes), len(types), len(names)
    head, first = b"TZif" + version.encode() + bytes(15), struct.pack(">6l", 0, 0, 0, 0, 1, 1)
    body = struct.pack(">6l", *counts) + body + f"\n{footer}\n".encode()
    return head + first + bytes(7) + head + body


def zone_of(*parts, **more):
    return ZoneInfo.from_file(io.BytesIO(tzif(*parts, **more)))


@contextlib.contextmanager
def search_path(*directories):
    before = zoneinfo.TZPATH
    zoneinfo.reset_tzpath(directories)
    try:
        yield
    finally:
        zoneinfo.reset_tzpath(before)


class Names(unittest.TestCase):
    def test_paths_are_refused(self):
        for name in ("", "/etc/passwd", "../x", "a/../b", "a//b", "a/", "./a", "a/.", "..", "/"):
            with self.subTest(name), mock.patch("builtins.open", side_effect=AssertionError):
                with self.assertRaises(ValueError):
                    ZoneInfo(name)

    def test_other_names_have_no_zone(self):
        names = ("a b", "a\0b", "a\\b", "..\\b", "C:x", "a\n", "Pärïs", "\ud800")
        for name in names:
            with self.subTest(name[:9]), mock.patch("os.path.isfile", side_effect=AssertionError):
                with self.assertRaises(ZoneInfoNotFoundError):
                    ZoneInfo(name)
        for name in ("Europe", "Europe/Pariss", "...", "x" * 1000000):
            with self.subTest(name[:9]), self.assertRaises(ZoneInfoNotFoundError):
                ZoneInfo(name)

    def test_other_types(self):
        for name in (None, 1, b"Europe/Paris", Path("Europe/Paris")):
            with self.subTest(name), self.assertRaises(TypeError):
                ZoneInfo(name)

    def test_error_is_that_of_zoneinfo(self):
        with self.assertRaises(zoneinfo.ZoneInfoNotFoundError):
            ZoneInfo("Nowhere")
        self.assertTrue(issubclass(ZoneInfoNotFoundError, KeyError))

    def test_search(self):
        with tempfile.TemporaryDirectory() as room:
            for folder, name in (("one", "Tokyo"), ("two", "Paris")):
                os.makedirs(os.path.join(room, folder, "Mars"))
                region = {"Tokyo": "Asia", "Paris": "Europe"}[name]
                Path(room, folder, "Mars", "Base").write_bytes(file_of(f"{region}/{name}"))
            with search_path(os.path.join(room, "one"), os.path.join(room, "two")):
                self.assertEqual(ZoneInfo.no_cache("Mars/Base").tzname(datetime(2020, 1, 1)), "JST")
            with search_path(os.path.join(room, "none"), os.path.join(room, "two")):
                self.assertEqual(ZoneInfo.no_cache("Mars/Base").tzname(datetime(2020, 1, 1)), "CET")
                self.assertEqual(tz.TZPATH, zoneinfo.TZPATH)
                self.assertEqual(tz.available_timezones(), {"Mars/Base"})

    def test_package_of_files(self):
        with tempfile.TemporaryDirectory() as room:
            for folder in ("tzdata", "tzdata/zoneinfo", "tzdata/zoneinfo/Mars"):
                os.makedirs(os.path.join(room, folder))
                Path(room, folder, "__init__.py").touch()
            Path(room, "tzdata/zoneinfo/Mars/Base").write_bytes(file_of(PARIS))
            kept = {name: sys.modules[name] for name in sys.modules if name.startswith("tzdata")}
            for name in kept:
                del sys.modules[name]
            with search_path(), mock.patch.object(sys, "path", [room, *sys.path]):
                self.assertEqual(ZoneInfo("Mars/Base").tzname(datetime(2020, 1, 1)), "CET")
                for name in ("Mars/Bases", "Mars", "Moon/Base", "..../Base", "Mars./Base", "..."):
                    with self.subTest(name), self.assertRaises(ZoneInfoNotFoundError):
                        ZoneInfo(name)
            for name in [name for name in sys.modules if name.startswith("tzdata")]:
                del sys.modules[name]
            sys.modules.update(kept)
            ZoneInfo.clear_cache()

    def test_one_name_is_one_object(self):
        self.assertIs(ZoneInfo(PARIS), ZoneInfo(PARIS))
        self.assertEqual(ZoneInfo(PARIS), ZoneInfo(PARIS))
        self.assertNotEqual(ZoneInfo(PARIS), ZoneInfo.no_cache(PARIS))
        self.assertEqual(hash(ZoneInfo(PARIS)), hash(ZoneInfo(PARIS)))


class Files(unittest.TestCase):
    def test_each_cut_is_refused(self):
        data = file_of(PARIS)
        # A footer of one line feed is an empty one.
        empty_footer = data.rindex(b"\n", 0, -1) + 1
        for length in range(len(data)):
            if length != empty_footer:
                with self.assertRaises(ValueError, msg=length):
                    ZoneInfo.from_file(io.BytesIO(data[:length]))
        with self.assertRaises(TzError) as refused:
            ZoneInfo.from_file(io.BytesIO(data[:100]), key="Some/Zone")
        self.assertEqual(refused.exception.code, 113)
        self.assertIn("Some/Zone: ", str(refused.exception))

    def test_altered_bytes(self):
        data, count = file_of(PARIS), 0
        for place in range(len(data)):
            altered = bytearray(data)
            altered[place] ^= 0xFF
            try:
                zone = ZoneInfo.from_file(io.BytesIO(bytes(altered)))
                count += isinstance(zone._span_at(0).offset, timedelta)
            except ValueError:
                pass
        # Transitions may be any in order, and the first block's are not read.
        self.assertGreater(count, 100)

    def test_footer_is_said(self):
        data = file_of(PARIS)
        altered = data.replace(b"CET-1CEST,M3", b"CET-1CEST,N3")
        self.assertNotEqual(data, altered)
        with self.assertRaisesRegex(TzError, "CET-1CEST,N3.5.0"):
            ZoneInfo.from_file(io.BytesIO(altered))

    def test_no_rule_keeps_the_last_type(self):
        data = file_of(PARIS)
        footer = data.rindex(b"\n", 0, -1)
        zone = ZoneInfo.from_file(io.BytesIO(data[:footer] + b"\n\n"))
        for dt in (datetime(2500, 1, 1), datetime(9999, 12, 31), datetime(2500, 7, 1)):
            self.assertEqual((zone.utcoffset(dt), zone.tzname(dt)), (HOUR, "CET"))
        self.assertEqual(zone.utcoffset(datetime(2030, 7, 1)), 2 * HOUR)

    def test_a_clock_that_begins_late(self):
        """A file of version 4 whose leap seconds begin in 1972: no clock is known before."""
        types = [(3600, 0, "AAA")]
        zone = zone_of([(94694400, 0)], types, "AAA-1", [(78796800, 10)], "4")
        self.assertEqual(time(12, tzinfo=zone).utcoffset(), HOUR)
        self.assertEqual(zone.tzname(datetime(1980, 1, 1)), "AAA")
        utc = datetime(1980, 1, 1, tzinfo=timezone.utc)
        self.assertEqual(utc.astimezone(zone).hour, 1)
        for call in (zone.utcoffset, zone.tzname, zone.dst):
            with self.assertRaises(TzError):
                call(datetime(1970, 1, 1))
        with self.assertRaises(TzError):
            datetime(1970, 1, 1, tzinfo=timezone.utc).astimezone(zone)
        # It begins after all that a datetime can be.
        zone = zone_of([(1 << 61, 0)], types, "AAA-1", [((1 << 60) - 9, 10)], "4")
        self.assertIsNone(time(12, tzinfo=zone).utcoffset())

    def test_leap_seconds(self):
        """A file counts them, and Unix time does not: a change after two is two seconds earlier."""
        types, leap_seconds = [(0, 0, "AAA"), (3600, 0, "BBB")], [(0, 1), (50000000, 2)]
        zone = zone_of([(100000002, 1)], types, "BBB-1", leap_seconds)
        change = datetime(1970, 1, 1) + timedelta(seconds=100000000)
        for beside, name in ((-1, "AAA"), (0, "BBB")):
            utc = change + timedelta(seconds=beside)
            self.assertEqual(utc.replace(tzinfo=timezone.utc).astimezone(zone).tzname(), name)

    def test_a_file_is_read_as_bytes(self):
        with self.assertRaises(TypeError):
            ZoneInfo.from_file(io.StringIO("TZif"))

    def test_texts(self):
        file = io.BytesIO(file_of(PARIS))
        zone = ZoneInfo.from_file(file)
        self.assertEqual(str(zone), repr(zone))
        self.assertEqual(repr(zone), f"ZoneInfo.from_file({file!r})")
        zone = ZoneInfo.from_file(io.BytesIO(file_of(PARIS)), key="Some/Zone")
        self.assertEqual((zone.key, str(zone)), ("Some/Zone", "Some/Zone"))
        self.assertEqual(repr(zone), "ZoneInfo(key='Some/Zone')")


class Strings(unittest.TestCase):
    def test_read(self):
        zone = ZoneInfo.from_tz_string("<-03>3<-02>,M3.5.0/-2,M10.5.0/-1")
        self.assertEqual(zone.tzname(datetime(2020, 7, 1)), "-02")
        self.assertEqual(zone.utcoffset(datetime(2020, 1, 1)), -3 * HOUR)
        self.assertIsNone(zone.key)
        text = "ZoneInfo.from_tz_string('<-03>3<-02>,M3.5.0/-2,M10.5.0/-1')"
        self.assertEqual((repr(zone), str(zone)), (text, text))

    def test_refused(self):
        texts = ("", "CET", PARIS, "CET-1\0", "CET-1 ", "CÉT-1", "\ud800", "CET-1CEST")
        for text in texts:
            with self.subTest(text), self.assertRaises(TzError) as refused:
                ZoneInfo.from_tz_string(text)
            self.assertTrue(str(refused.exception).startswith(repr(text)))
        with self.assertRaises(TypeError):
            ZoneInfo.from_tz_string(b"CET-1")

    def test_one_digit_of_minutes(self):
        """What CPython's tests want refused (left_out.txt) means the same as two digits."""
        one, two = "AAA4:0BBB,J60/2:0,J300/2:00:0", "AAA4BBB,J60,J300"
        zones = [ZoneInfo.from_tz_string(text) for text in (one, two)]
        for dt in (datetime(2020, 3, 1, 1, 59), datetime(2020, 3, 1, 3), datetime(2020, 12, 1)):
            self.assertEqual(*((zone.utcoffset(dt), zone.tzname(dt)) for zone in zones))

    def test_types(self):
        """A zone of a TZ string has one type beside its rule: standard time."""
        zone = ZoneInfo.from_tz_string("AAA-1BBB,J60,J300")
        types = _structures.LocalTimeType.from_address(zone._zone.parts.types)
        self.assertEqual(zone._zone.parts.types_length, 1)
        self.assertEqual((types.designation, types.is_dst), (b"AAA", False))
        self.assertEqual((zone._least, zone._greatest), (3600, 7200))

    def test_days_from_zero(self):
        """Day 59 is February 29th of a leap year; `zoneinfo` reads it a day early."""
        data = tzif([(0, 0)], [(-10800, 0, "AAA")], "AAA3BBB,59/2,300/2")
        zones = (kind.from_file(io.BytesIO(data)) for kind in (ZoneInfo, zoneinfo.ZoneInfo))
        for zone, early in zip(zones, (0, 1)):
            for day in (datetime(2023, 3, 1, 12), datetime(2024, 2, 29, 12)):
                first = day - timedelta(days=early)
                names = [zone.tzname(first - timedelta(days=1)), zone.tzname(first)]
                self.assertEqual(names, ["AAA", "BBB"], (zone, day))

    def test_pickle(self):
        zone = ZoneInfo.from_tz_string("CET-1CEST,M3.5.0,M10.5.0/3")
        for made in (pickle.loads(pickle.dumps(zone)), copy.copy(zone), copy.deepcopy(zone)):
            self.assertEqual(repr(made), repr(zone))
        self.assertIs(copy.deepcopy(ZoneInfo(PARIS)), ZoneInfo(PARIS))


class Times(unittest.TestCase):
    def test_fold_and_gap(self):
        paris = ZoneInfo(PARIS)
        fold, gap = datetime(2000, 10, 29, 2, 30), datetime(2000, 3, 26, 2, 30)
        for dt, first, last in ((fold, "CEST", "CET"), (gap, "CET", "CEST")):
            self.assertEqual(paris.tzname(dt), first)
            self.assertEqual(paris.tzname(dt.replace(fold=1)), last)
        shown = gap.replace(tzinfo=paris).astimezone(timezone.utc).astimezone(paris)
        self.assertEqual(shown.replace(tzinfo=None), datetime(2000, 3, 26, 3, 30))

    def test_skipped_and_then_shown(self):
        """Clocks are set forward at 02:00 and back at 03:30, to 02:30."""
        zone = ZoneInfo.from_tz_string("AAA0BBB-1,J1/2,J1/3:30")
        for minute, first, last in ((15, "AAA", "BBB"), (45, "AAA", "AAA")):
            dt = datetime(2020, 1, 1, 2, minute)
            self.assertEqual(zone.tzname(dt), first)
            self.assertEqual(zone.tzname(dt.replace(fold=1)), last)
        for second, fold in ((0, 0), (5399, 0), (5400, 0), (9000, 0)):
            dt = datetime(2020, 1, 1, tzinfo=zone) + timedelta(seconds=second)
            self.assertEqual(zone.fromutc(dt).fold, fold)
        self.assertEqual(zone.fromutc(datetime(2020, 1, 1, 3, tzinfo=zone)).fold, 1)

    def test_three_readings(self):
        """Clocks are set back twice by an hour, half an hour apart, and show 00:15 three times."""
        types = (7200, 0, "AAA"), (3600, 0, "BBB"), (0, 0, "CCC")
        zone = zone_of([(-3600, 1), (-1800, 2)], types, "CCC0")
        for hour, fold, name in ((-1.75, 0, "AAA"), (-0.75, 1, "CCC"), (0.25, 1, "CCC")):
            local = zone.fromutc(datetime(1970, 1, 1, tzinfo=zone) + hour * HOUR)
            self.assertEqual(local.replace(tzinfo=None), datetime(1970, 1, 1, 0, 15))
            # A fold has two readings, so the second of three is not told from the last.
            self.assertEqual((local.fold, zone.tzname(local)), (fold, name))

    def test_long_fold(self):
        """Clocks are set back by four hours, so that a fold lasts as long."""
        zone = zone_of([(0, 1)], [(14400, 0, "AAA"), (0, 0, "BBB")], "BBB0")
        for hour, fold in ((-0.5, 0), (0.5, 1), (2, 1), (3.75, 1), (4, 0), (5, 0)):
            local = zone.fromutc(datetime(1970, 1, 1, tzinfo=zone) + hour * HOUR)
            self.assertEqual(local.fold, fold, hour)

    def test_many_readings(self):
        """Random jumps, beside a walk over all spans: most local times mean several things."""
        source = random.Random(95)
        for _ in range(40):
            offsets = [source.randrange(-86000, 86000) for _ in range(12)]
            times = sorted(source.sample(range(-40000, 40000), len(offsets) - 1))
            types = [(offset, 0, f"A{place:02}") for place, offset in enumerate(offsets)]
            zone = zone_of([(at, place + 1) for place, at in enumerate(times)], types)
            spans = list(zip([-(1 << 40), *times], [*times, 1 << 40], offsets))
            for local in (source.randrange(-90000, 90000) for _ in range(100)):
                # The places of the types that show it, or if none does those beside its jumps.
                shown = [
                    place
                    for place, (first, end, offset) in enumerate(spans)
                    if first <= local - offset < end
                ]
                jumps = [
                    place
                    for place, (first, _, offset) in enumerate(spans)
                    if place and first + offsets[place - 1] <= local < first + offset
                ]
                low, high = (shown[0], shown[-1]) if shown else (jumps[0] - 1, jumps[-1])
                dt = datetime(1970, 1, 1) + timedelta(seconds=local)
                names = zone.tzname(dt), zone.tzname(dt.replace(fold=1))
                self.assertEqual(names, (f"A{low:02}", f"A{high:02}"), (offsets, times, local))
                for place in shown:
                    utc = dt - timedelta(seconds=offsets[place])
                    seen = zone.fromutc(utc.replace(tzinfo=zone))
                    expected = dt, int(place > shown[0])
                    self.assertEqual((seen.replace(tzinfo=None), seen.fold), expected)

    def test_two_readings_are_fetched(self):
        """However many a local time means: here 60, of a clock that goes back 59 times."""
        types = [(offset, 0, f"A{place:02}") for place, offset in enumerate(range(59, -1, -1))]
        zone = zone_of([(place, place) for place in range(1, 60)], types)
        lengths, call = [], _library.find_n

        def find_n(*arguments):
            lengths.append(arguments[4])
            return call(*arguments)

        dt = datetime(1970, 1, 1, 0, 0, 59)
        with mock.patch.object(_library, "find_n", find_n):
            self.assertEqual(zone.tzname(dt), "A00")
            self.assertEqual(zone.tzname(dt.replace(fold=1)), "A59")
            self.assertEqual(zone.fromutc(datetime(1970, 1, 1, 0, 0, 30, tzinfo=zone)).fold, 1)
        self.assertEqual(set(lengths), {2})
        self.assertGreater(len(lengths), 2)

    def test_time_without_a_date(self):
        for zone, offset in (
            (ZoneInfo("UTC"), timedelta(0)),
            (ZoneInfo.from_tz_string("<+0530>-5:30"), 5.5 * HOUR),
            (ZoneInfo.from_tz_string("EST5EDT,0/0,J365/25"), -4 * HOUR),
            (ZoneInfo(PARIS), None),
        ):
            self.assertEqual(time(12, tzinfo=zone).utcoffset(), offset)
        self.assertEqual(time(12, tzinfo=ZoneInfo("UTC")).tzname(), "UTC")
        self.assertIsNone(time(12, tzinfo=ZoneInfo(PARIS)).dst())

    def test_ends(self):
        for text in ("AAA-24", "AAA24", "AAA-14BBB,J60,J300", "AAA12BBB,J60,J300"):
            zone = ZoneInfo.from_tz_string(text)
            for dt in (datetime.min, datetime.max):
                self.assertIsInstance(zone.utcoffset(dt), timedelta)
        zone = ZoneInfo.from_tz_string("AAA-1")
        with self.assertRaises(OverflowError):
            zone.fromutc(datetime.max.replace(tzinfo=zone))

    def test_wrong_types(self):
        zone = ZoneInfo(PARIS)
        for wrong in (date(2020, 1, 1), 0, "2020-01-01", time(12)):
            for call in (zone.utcoffset, zone.tzname, zone.dst, zone.fromutc):
                with self.subTest((call, wrong)), self.assertRaises(TypeError):
                    call(wrong)

    def test_saving(self):
        """Amounts of the tz database's sources, which its files do not have."""
        for name, dt, saving in (
            ("Europe/Paris", datetime(2020, 7, 1), HOUR),
            ("Europe/Paris", datetime(2020, 1, 1), 0 * HOUR),
            ("Europe/Dublin", datetime(2020, 1, 1), -HOUR),
            ("Europe/Dublin", datetime(2020, 7, 1), 0 * HOUR),
            ("Europe/Dublin", datetime(1916, 7, 1), HOUR),
            ("Europe/London", datetime(1941, 7, 1), 2 * HOUR),
            ("Europe/Lisbon", datetime(1996, 7, 1), HOUR),
            ("Australia/Lord_Howe", datetime(2020, 1, 1), HOUR / 2),
            ("Pacific/Apia", datetime(2012, 1, 1), HOUR),
            ("America/Indiana/Winamac", datetime(2007, 7, 1), HOUR),
        ):
            with self.subTest((name, dt)):
                self.assertEqual(ZoneInfo(name).dst(dt), saving)
        self.assertEqual(ZoneInfo.from_tz_string("EST5EDT,0/0,J365/25").dst(datetime.max), HOUR)
        # Always daylight saving time, half an hour ahead of the rule's own standard time.
        zone = ZoneInfo.from_tz_string("AAA-1BBB-1:30,0/0,J365/24:30")
        self.assertEqual(zone.dst(datetime(2020, 1, 1)), HOUR / 2)

    def test_saving_is_beside_the_nearest_standard_time(self):
        """Amounts for daylight saving time from 1970 to 2001, between two standard times."""
        start, end = 0, 1000000000
        for before, saving, after, footer, amount in (
            # The first after it is an hour behind; the one before it is too far behind.
            (0, 10800, 7200, "CCC-1:30", 1),
            # The rule's daylight saving time has its offset, and another name.
            (5400, 7200, 5400, "CCC-1BBB,J60,J300", 0.5),
            (5400, 7200, 5400, "CCC-1SSS,J60,J300", 1),
        ):
            last = 5400 if footer == "CCC-1:30" else 3600
            types = [(before, 0, "AAA"), (saving, 1, "SSS"), (after, 0, "BBB"), (last, 0, "CCC")]
            zone = zone_of([(start, 1), (end, 2), (end + 10000000, 3)], types, footer)
            with self.subTest(footer):
                self.assertEqual(zone.dst(datetime(1990, 1, 1)), amount * HOUR)

    def test_kept_spans_change_no_answer(self):
        """A zone that has answered often, beside one that has forgotten everything each time."""
        kept, forgetful = ZoneInfo.no_cache(PARIS), ZoneInfo.no_cache(PARIS)
        source, change = random.Random(1), _structures.Change()
        for _ in range(20000):
            year = source.choice((source.randrange(1900, 2100), source.randrange(2, 9999)))
            at = int((datetime(year, 1, 1) - datetime(1970, 1, 1)).total_seconds())
            if _library.following(kept._zone, at, change) == _library.OK:
                at = change.unix_time
            at += source.randrange(-(10**4), 10**4) * source.choice((0, 1, 1000))
            dt = datetime(1970, 1, 1) + timedelta(seconds=at)
            dt = dt.replace(fold=source.randrange(2))
            answers = []
            for zone in (kept, forgetful):
                local = zone.fromutc(dt.replace(tzinfo=zone, fold=0)).replace(tzinfo=None)
                forgetful._forget()
                calls = zone.utcoffset, zone.tzname, zone.dst
                answers.append((local, local.fold, *(call(dt) for call in calls)))
                self.assertLessEqual(len(zone._spans), 1024)
            self.assertEqual(*answers, dt)

    def test_threads(self):
        zone = ZoneInfo.no_cache(PARIS)
        times = [datetime(1900, 1, 1) + timedelta(days=day, hours=day % 24) for day in range(50000)]
        expected = [zoneinfo.ZoneInfo(PARIS).utcoffset(dt) for dt in times]
        with ThreadPoolExecutor(8) as pool:
            for answers in pool.map(lambda _: [zone.utcoffset(dt) for dt in times], range(8)):
                self.assertEqual(answers, expected)
            zones = list(pool.map(lambda _: ZoneInfo(PARIS), range(1000)))
        self.assertEqual(len(set(map(id, zones))), 1)


class Days(unittest.TestCase):
    def test_rows(self):
        for name, day, shown in (
            ("America/Sao_Paulo", "2018-11-04", "01:00:00-02:00"),
            ("America/Sao_Paulo", "2018-11-05", "00:00:00-02:00"),
            ("America/Toronto", "1919-03-31", "00:30:00-04:00"),
            ("America/Havana", "2025-11-02", "00:00:00-04:00"),
            ("America/Havana", "2025-03-09", "01:00:00-04:00"),
            ("America/St_Johns", "2010-11-07", "00:00:00-02:30"),
            ("Antarctica/Casey", "2016-10-22", "03:00:00+11:00"),
            ("Pacific/Apia", "2011-12-29", "00:00:00-10:00"),
            ("Pacific/Apia", "2011-12-30", None),
            ("Pacific/Apia", "2011-12-31", "00:00:00+14:00"),
            ("Pacific/Kwajalein", "1993-08-20", "00:00:00-12:00"),
            ("Pacific/Kwajalein", "1993-08-21", None),
            ("Pacific/Kiritimati", "1994-12-31", None),
            ("right/America/Sao_Paulo", "2018-11-04", "01:00:00-02:00"),
            ("right/Europe/Paris", "2017-01-01", "00:00:00+01:00"),
            ("right/Pacific/Apia", "2011-12-30", None),
        ):
            for zone in (ZoneInfo(name), ZoneInfo.no_cache(name)):
                start = zone.start_of_day(date.fromisoformat(day))
                with self.subTest((name, day)):
                    self.assertEqual(start and start.isoformat(), shown and f"{day}T{shown}")
                    if start is not None:
                        self.assertIs(start.tzinfo, zone)
                        self.assertEqual(start.fold, 0)

    def test_first_instant_of_the_date(self):
        """Beside the first instant that `zoneinfo` shows on the date, by quarters of an hour."""
        steps = [timedelta(minutes=minutes) for minutes in range(-15 * 60, 40 * 60, 15)]
        for name in ("America/Havana", "Australia/Lord_Howe", "Africa/Cairo", "Atlantic/Azores"):
            zone, other = ZoneInfo(name), zoneinfo.ZoneInfo(name)
            for number in range(date(2023, 1, 1).toordinal(), date(2026, 1, 1).toordinal()):
                day = date.fromordinal(number)
                midnight = datetime(day.year, day.month, day.day, tzinfo=timezone.utc)
                shown = ((midnight + step).astimezone(other) for step in steps)
                wanted = next(it for it in shown if it.date() == day)
                start = zone.start_of_day(day)
                self.assertEqual(start.replace(tzinfo=None), wanted.replace(tzinfo=None))
                self.assertEqual(start.utcoffset(), wanted.utcoffset(), (name, day))

    def test_ends(self):
        for text in ("AAA-24", "AAA24", "AAA-14BBB,J60,J300", "AAA12BBB,J60,J300"):
            zone = ZoneInfo.from_tz_string(text)
            for day in (date.min, date.max):
                start = zone.start_of_day(day)
                self.assertEqual(start, datetime(day.year, day.month, day.day, tzinfo=zone))
        for zone in (ZoneInfo("Asia/Tokyo"), ZoneInfo("right/Asia/Tokyo")):
            for day in (datetime.min, datetime.max):
                self.assertEqual(zone.start_of_day(day).date(), day.date())

    def test_given(self):
        zone = ZoneInfo("America/Sao_Paulo")
        start = zone.start_of_day(date(2018, 11, 4))
        for day in (datetime(2018, 11, 4, 23, 59), start):
            self.assertEqual(zone.start_of_day(day).isoformat(), start.isoformat())
        for wrong in (None, 20181104, "2018-11-04", time(1)):
            with self.subTest(wrong), self.assertRaises(TypeError):
                zone.start_of_day(wrong)

    def test_no_clock(self):
        """No clock is known before the leap seconds of this file."""
        zone = zone_of([(94694400, 0)], [(3600, 0, "AAA")], "AAA-1", [(78796800, 10)], "4")
        for day in (date(1970, 1, 1), date.min):
            with self.assertRaisesRegex(TzError, str(day)):
                zone.start_of_day(day)
        self.assertEqual(str(zone.start_of_day(date(1980, 1, 1))), "1980-01-01 00:00:00+01:00")


class Module(unittest.TestCase):
    def test_names(self):
        for name in tz.__all__:
            self.assertTrue(hasattr(tz, name))
        for item in (ZoneInfo, TzError, tz.LocalTime):
            self.assertEqual(item.__module__, "tz")

    def test_layout_of_another_version(self):
        with mock.patch.object(_library, "ABI", 0), self.assertRaises(ImportError):
            _library.check_layout()
        layout = (*_structures.LAYOUT[:9], _structures.Sizes, *_structures.LAYOUT[10:])
        with mock.patch.object(_library, "LAYOUT", layout), self.assertRaises(ImportError):
            _library.check_layout()

    def test_header(self):
        """The constants are those of tz.h."""
        header = Path(__file__).resolve().parents[2] / "c" / "tz.h"
        defined = re.findall(r"(?:#define )?TZ_(\w+)(?: =)? (\d+)\b", header.read_text("utf-8"))
        constants = {name: int(number) for name, number in defined}
        strings = [value for name, value in constants.items() if name.startswith("STRING_")]
        self.assertEqual(sorted(strings), list(_library.STRING_CODES))
        for name, value in {
            "ABI": _library.ABI,
            "LAYOUT_LENGTH": 1 + len(_structures.LAYOUT),
            "OK": _library.OK,
            "NO_AVAILABLE_LOCAL_TIME_TYPE": _library.NO_TYPE,
            "NO_CHANGE": _library.NO_CHANGE,
            "NO_DATE_TIME": _library.NO_DATE_TIME,
            "MEMORY": _library.MEMORY,
            "NONE": _library.NONE,
            "FIXED": _library.FIXED,
            "ALTERNATE": _library.ALTERNATE,
            **{choice.upper(): number for choice, number in _library.CHOICES.items()},
        }.items():
            self.assertEqual(constants[name], value, name)

    def test_without_the_library(self):
        with tempfile.TemporaryDirectory() as room:
            package = Path(tz.__file__).parent
            ignored = shutil.ignore_patterns("*.so", "*.dylib", "*.dll", "__pycache__")
            shutil.copytree(package, Path(room, "tz"), ignore=ignored)
            command = [sys.executable, "-c", "import tz"]
            run = subprocess.run(command, cwd=room, capture_output=True, text=True)
        self.assertEqual(run.returncode, 1)
        self.assertIn("ImportError", run.stderr)
        self.assertIn("pip install", run.stderr)

    def test_another_library(self):
        """One that lacks the functions, such as that of another module."""
        with tempfile.TemporaryDirectory() as room:
            shutil.copytree(Path(tz.__file__).parent, Path(room, "tz"))
            Path(room, "tz", _library.FILE).unlink()
            shutil.copy(_ctypes.__file__, Path(room, "tz", _library.FILE))
            command = [sys.executable, "-c", "import tz"]
            run = subprocess.run(command, cwd=room, capture_output=True, text=True)
        self.assertEqual(run.returncode, 1)
        self.assertRegex(run.stderr.splitlines()[-1], "^ImportError: .*of another version$")

    def test_errors(self):
        with self.assertRaises(MemoryError):
            _library.check(_library.MEMORY)
        error = TzError(17, "name", 3)
        self.assertEqual(str(error), "name: place 3: invalid date time: invalid month day")
        again = pickle.loads(pickle.dumps(error))
        self.assertEqual((str(again), again.code, again.index), (str(error), 17, 3))
        for code in (12, 256, 1 << 31):
            with self.assertRaises(ValueError):
                tz.error_text(code)


if __name__ == "__main__":
    unittest.main()
