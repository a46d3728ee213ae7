"""The module in C for single calls: beside the methods that it replaces, and its memory."""

import gc
import random
import sys
import tracemalloc
import unittest
import weakref
import zoneinfo
from datetime import date, datetime, timedelta, timezone

import tz
from test_zone import PARIS, zone_of
from tz import ZoneInfo, _library, _structures, _zone

EPOCH, SECOND = datetime(1970, 1, 1), timedelta(seconds=1)
CALLS = "utcoffset", "tzname", "dst", "fromutc"

try:
    import _testcapi
except ImportError:
    _testcapi = None


class Time(datetime):
    """A class that is a datetime."""


def answer(call, *arguments):
    try:
        return call(*arguments)
    except (ValueError, TypeError, OverflowError) as error:
        return type(error), str(error)


def changes(zone, after=-(1 << 42), before=1 << 33):
    change = _structures.Change()
    while _library.following(zone._zone, after, change) == _library.OK and after < before:
        after = change.unix_time
        yield after, change.before.ut_offset, change.after.ut_offset


def odd_zones(source):
    """Zones whose clocks jump often and far, begin late, or end."""
    for _ in range(10):
        offsets = [source.randrange(-86000, 86000) for _ in range(9)]
        types = [(offset, place % 3 == 0, f"A{place}") for place, offset in enumerate(offsets)]
        times = sorted(source.sample(range(-90000, 90000), 8))
        yield zone_of([(at, place + 1) for place, at in enumerate(times)], types)
    yield zone_of([(94694400, 0)], [(3600, 0, "AAA")], "AAA-1", [(78796800, 10)], "4")
    yield zone_of([], [(0, 0, "")])
    yield zone_of([(0, 1), (1, 0)], [(0, 0, ""), (3600, 1, "")])
    for text in ("AAA0BBB-1,J1/2,J1/3:30", "AAA-14BBB,J60,J300", "EST5EDT,0/0,J365/25", "AAA24"):
        yield ZoneInfo.from_tz_string(text)


class Beside(unittest.TestCase):
    def test_answers(self):
        source, count = random.Random(97), 0
        plain = ("right/", "posix/")
        names = sorted(zoneinfo.available_timezones())
        names = [name for name in names if not name.startswith(plain)]
        for zone in (*odd_zones(source), *map(ZoneInfo.no_cache, source.sample(names, 12))):
            times = [source.randrange(-(1 << 35), 1 << 37) for _ in range(100)]
            times += [source.randrange(-200000, 200000) for _ in range(100)]
            for at, before, after in changes(zone):
                if source.randrange(8) == 0:
                    for offset in (0, before, after):
                        times += [at + offset + beside for beside in (-3600, -1, 0, 1, 1800)]
            for seconds in times:
                try:
                    time = EPOCH + seconds * SECOND
                except OverflowError:
                    continue
                for dt in (time, time.replace(fold=1), time.replace(tzinfo=zone)):
                    for name, call in zip(CALLS, _zone._in_python):
                        found = answer(getattr(zone, name), dt)
                        expected = answer(call, zone, dt)
                        self.assertEqual(found, expected, (zone, name, dt))
                        self.assertEqual(getattr(found, "fold", 0), getattr(expected, "fold", 0))
                        count += 1
        print(f"{count} calls in C are as in Python")

    def test_what_python_answers(self):
        zones = ZoneInfo(PARIS), ZoneInfo("UTC"), ZoneInfo.from_tz_string("AAA-1")
        for zone in zones:
            at = datetime(2020, 7, 1)
            others = None, 0, "2020-01-01", date(2020, 1, 1), at.time()
            times = at.replace(tzinfo=timezone.utc), datetime.min, datetime.max
            for other in (*others, *times, *(time.replace(tzinfo=zone) for time in times)):
                for name, call in zip(CALLS, _zone._in_python):
                    expected = answer(call, zone, other)
                    self.assertEqual(answer(getattr(zone, name), other), expected)

    def test_classes_of_datetime(self):
        zone, other = ZoneInfo(PARIS), zoneinfo.ZoneInfo(PARIS)
        for hour in range(6):
            for fold in (0, 1):
                ours = Time(2000, 10, 29, hour, 30, fold=fold, tzinfo=zone)
                theirs = Time(2000, 10, 29, hour, 30, fold=fold, tzinfo=other)
                for name in CALLS:
                    found, expected = (getattr(time.tzinfo, name)(time) for time in (ours, theirs))
                    if name == "fromutc":
                        self.assertIs(type(found), Time)
                        self.assertEqual(found.fold, expected.fold)
                        found, expected = found.isoformat(), expected.isoformat()
                    self.assertEqual(found, expected, (name, ours))

    def test_a_class_that_changes_what_is_kept(self):
        """Its sum calls the zone for other times, while an answer for it is made."""
        zone = ZoneInfo.no_cache(PARIS)

        class Busy(datetime):
            def __add__(self, other):
                for year in range(1, 9999, 7):
                    zone.utcoffset(datetime(year, 7, 1))
                    zone.fromutc(datetime(year, 1, 1, 12, tzinfo=zone))
                zone._forget()
                return super().__add__(other)

        for month in range(1, 13):
            found = zone.fromutc(Busy(2000, month, 29, 1, 30, tzinfo=zone))
            expected = zone.fromutc(datetime(2000, month, 29, 1, 30, tzinfo=zone))
            self.assertEqual(found.replace(tzinfo=None), expected.replace(tzinfo=None))
            self.assertEqual(found.fold, expected.fold)

    def test_methods(self):
        for name in CALLS:
            method = getattr(ZoneInfo, name)
            self.assertTrue(method.__doc__)
            with self.assertRaises(TypeError):
                method(zoneinfo.ZoneInfo(PARIS), datetime(2020, 1, 1))
        with self.assertRaises(TypeError):
            type(ZoneInfo(PARIS)._kept)()
        for arguments in ((), (0, None, ()), (1, None, ()), ("", None, _zone._in_python)):
            with self.assertRaises((TypeError, ValueError)):
                _zone._single.Kept(*arguments)
        for arguments in ((), (int, 1, 1), (ZoneInfo, None, 0), (ZoneInfo, 1, 0)):
            with self.assertRaises((TypeError, ValueError, AttributeError)):
                _zone._single.replace_methods(*arguments)
        # An object of the base's maker has nothing that is kept.
        unmade = zoneinfo.ZoneInfo.__dict__["no_cache"].__get__(None, ZoneInfo)(PARIS)
        with self.assertRaises(AttributeError):
            unmade.utcoffset(datetime(2020, 1, 1))


class Memory(unittest.TestCase):
    def work(self):
        zone = ZoneInfo.no_cache(PARIS)
        for year in (1, 1900, 1970, *range(1980, 2100), 9999):
            for month in (2, 7):
                time = datetime(year, month, 1, 12)
                for call in (zone.utcoffset, zone.tzname, zone.dst):
                    call(time)
                zone.fromutc(time.replace(tzinfo=zone))
        for minute in range(0, 240, 10):
            time = datetime(2000, 10, 29, tzinfo=zone) + timedelta(minutes=minute)
            zone.fromutc(time), zone.utcoffset(time.replace(fold=1))

    def test_all_is_given_back(self):
        self.work()
        tracemalloc.start()
        try:
            sizes = []
            for _ in range(3):
                for _ in range(10):
                    self.work()
                gc.collect()
                sizes.append(tracemalloc.get_traced_memory()[0])
        finally:
            tracemalloc.stop()
        # A zone keeps 12 kB and more. CPython keeps some memory of tuples that it gave back.
        self.assertLess(sizes[2] - sizes[1], 10 * 500, sizes)

    def test_what_a_zone_holds_is_given_back(self):
        zone, times = ZoneInfo.no_cache(PARIS), [datetime(1900, 1, 1), datetime(2000, 7, 1)]
        held = [getattr(zone, name)(time) for name in CALLS[:3] for time in times]
        held = [answer for answer in held if answer]
        parts = weakref.ref(zone._zone)
        for _ in range(100):
            zone.fromutc(times[1].replace(tzinfo=zone))
        before = [sys.getrefcount(answer) for answer in held]
        del zone
        self.assertIsNone(parts())
        after = [sys.getrefcount(answer) for answer in held]
        for counts in zip(before, after):
            self.assertLess(counts[1], counts[0])
        self.assertLessEqual(max(after), 4)

    @unittest.skipIf(_testcapi is None, "CPython's module _testcapi is not installed")
    def test_each_allocation_is_refused_in_turn(self):
        fold, gap = datetime(2000, 10, 29, 2, 30), datetime(2000, 3, 26, 2, 30)
        for name, time in (
            *((name, time) for name in ("utcoffset", "tzname") for time in (fold, gap)),
            ("fromutc", datetime(2000, 10, 29, 1, 30)),
            ("fromutc", datetime(2000, 7, 1)),
        ):
            expected = getattr(ZoneInfo(PARIS), name)(time.replace(tzinfo=ZoneInfo(PARIS)))
            refused = 0
            while True:
                zone = ZoneInfo.no_cache(PARIS)
                call, argument = getattr(zone, name), time.replace(tzinfo=zone)
                found = None
                _testcapi.set_nomemory(refused, refused + 1)
                try:
                    found = call(argument)
                except MemoryError:
                    refused += 1
                finally:
                    _testcapi.remove_mem_hooks()
                if found is not None:
                    break
                # What follows is right.
                again = call(argument)
                self.assertEqual(str(again), str(expected))
            self.assertGreaterEqual(refused, 2, (name, time))


if tz.implementation != "C":
    print("single calls are not compiled: test_single.py tests nothing")
    del Beside, Memory


if __name__ == "__main__":
    unittest.main()
