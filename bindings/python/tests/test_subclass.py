"""`tz.ZoneInfo` as a `zoneinfo.ZoneInfo`: pickles and caches beside its own, subclasses."""

import copy
import io
import pickle
import subprocess
import sys
import unittest
import zoneinfo
from datetime import datetime, timedelta

import tz
from test_zone import PARIS, file_of
from tz import ZoneInfo

HOUR = timedelta(hours=1)
# `zoneinfo` as it is where its module in C is not.
WITHOUT_C = "import sys; sys.modules['_zoneinfo'] = None; "
ROUND = """
import pickle, sys, tz, zoneinfo
zones = pickle.loads(sys.stdin.buffer.read())
kinds = [(type(zone).__module__.split(".")[0], str(zone)) for zone in zones]
sys.stdout.buffer.write(pickle.dumps((zones, kinds)))
"""


def pickled():
    """One zone of each maker that can be pickled, of both classes."""
    return [
        ZoneInfo(PARIS),
        ZoneInfo.no_cache(PARIS),
        ZoneInfo.built_in(PARIS),
        ZoneInfo.from_tz_string("EST5EDT,M3.2.0,M11.1.0"),
        zoneinfo.ZoneInfo(PARIS),
        zoneinfo.ZoneInfo.no_cache(PARIS),
    ]


class Pickles(unittest.TestCase):
    def test_protocols(self):
        for protocol in range(pickle.HIGHEST_PROTOCOL + 1):
            for zone in pickled():
                again = pickle.loads(pickle.dumps(zone, protocol))
                self.assertIs(type(again), type(zone))
                self.assertEqual(repr(again), repr(zone))
                dt = datetime(2020, 7, 1, 12, tzinfo=zone)
                again = pickle.loads(pickle.dumps(dt, protocol))
                self.assertEqual(again.isoformat(), dt.isoformat())
                self.assertIs(type(again.tzinfo), type(zone))
            self.assertIs(pickle.loads(pickle.dumps(ZoneInfo(PARIS), protocol)), ZoneInfo(PARIS))

    def test_copies(self):
        self.assertIs(copy.copy(ZoneInfo(PARIS)), ZoneInfo(PARIS))
        self.assertIs(copy.deepcopy(ZoneInfo(PARIS)), ZoneInfo(PARIS))
        for zone in pickled():
            for again in (copy.copy(zone), copy.deepcopy(zone)):
                self.assertEqual((type(again), repr(again)), (type(zone), repr(zone)))

    def test_a_file_cannot_be_pickled(self):
        zone = ZoneInfo.from_file(io.BytesIO(file_of(PARIS)), key=PARIS)
        for protocol in range(pickle.HIGHEST_PROTOCOL + 1):
            with self.assertRaisesRegex(pickle.PicklingError, "of a file"):
                pickle.dumps(zone, protocol)

    def test_with_and_without_the_module_in_c(self):
        """Pickles of one interpreter are read by the other, and theirs by this one."""
        for start in ("", WITHOUT_C):
            command, zones = [sys.executable, "-B", "-c", start + ROUND], pickled()
            sent = pickle.dumps(zones)
            run = subprocess.run(command, input=sent, stdout=subprocess.PIPE, check=True)
            received, kinds = pickle.loads(run.stdout)
            modules = ["tz"] * 4 + ["zoneinfo"] * 2
            self.assertEqual(kinds, list(zip(modules, map(str, zones))))
            for again, zone in zip(received, zones):
                self.assertEqual((type(again), repr(again)), (type(zone), repr(zone)))

    def test_without_the_module_in_c(self):
        """The tests of single zones pass over the other class of `zoneinfo`, too."""
        start = WITHOUT_C + "import unittest, zoneinfo; assert not hasattr(zoneinfo, '_czoneinfo');"
        run = "unittest.main(module=None, argv=['', 'test_zone', 'test_built_in'])"
        command = [sys.executable, "-B", "-c", start + run]
        done = subprocess.run(command, stdout=subprocess.PIPE, stderr=subprocess.STDOUT, text=True)
        self.assertEqual(done.returncode, 0, done.stdout)


class Classes(unittest.TestCase):
    def test_it_is_one(self):
        file = io.BytesIO(file_of(PARIS))
        for zone in (*pickled()[:4], ZoneInfo.from_file(file)):
            self.assertIsInstance(zone, zoneinfo.ZoneInfo)
        self.assertIsNone(ZoneInfo.from_tz_string("AAA0").key)
        self.assertIs(type(zoneinfo.ZoneInfo(PARIS)), zoneinfo.ZoneInfo)
        self.assertNotEqual(ZoneInfo(PARIS), zoneinfo.ZoneInfo(PARIS))
        with self.assertRaises(AttributeError):
            ZoneInfo(PARIS).key = "other"
        with self.assertRaises(AttributeError):
            ZoneInfo(PARIS).other = 1

    def test_caches_are_apart(self):
        ours, theirs = ZoneInfo(PARIS), zoneinfo.ZoneInfo(PARIS)
        zoneinfo.ZoneInfo.clear_cache()
        self.assertIs(ZoneInfo(PARIS), ours)
        self.assertIsNot(zoneinfo.ZoneInfo(PARIS), theirs)
        theirs = zoneinfo.ZoneInfo(PARIS)
        ZoneInfo.clear_cache()
        self.assertIs(zoneinfo.ZoneInfo(PARIS), theirs)
        self.assertIsNot(ZoneInfo(PARIS), ours)

    def test_subclasses(self):
        class Named(tz.ZoneInfo):
            options = {}

            def __init_subclass__(cls, **options):
                cls.options = options
                super().__init_subclass__()

            def tzname(self, dt):
                return f"{self.key}: {super().tzname(dt)}"

            def utcoffset(self, dt):
                return super().utcoffset(dt)

        class Sub(Named, option=1):
            pass

        self.assertEqual(Sub.options, {"option": 1})
        self.assertIs(Sub(PARIS), Sub(PARIS))
        self.assertIsNot(Sub(PARIS), Named(PARIS))
        dt = datetime(2020, 7, 1, tzinfo=Sub(PARIS))
        self.assertEqual((dt.utcoffset(), dt.tzname()), (2 * HOUR, "Europe/Paris: CEST"))
        for zone in (Sub.no_cache(PARIS), Sub.built_in(PARIS), Sub.from_tz_string("AAA0")):
            self.assertIs(type(zone), Sub)
        Sub(PARIS).more = 1

    def test_options_of_a_class_are_passed_on(self):
        class Options:
            def __init_subclass__(cls, option, **options):
                super().__init_subclass__(**options)
                cls.option = option

        class Both(Options, ZoneInfo, option=3):
            pass

        self.assertEqual((Both.option, Both(PARIS).key), (3, PARIS))
        # As with `zoneinfo`, whose class takes any.
        for base in (ZoneInfo, zoneinfo.ZoneInfo):
            type("Sub", (base,), {}, option=3)

    def test_unbound_calls_of_the_base(self):
        """They know nothing of the zone, as README.md says."""
        dt = datetime(2020, 7, 1)
        self.assertEqual(zoneinfo.ZoneInfo.utcoffset(ZoneInfo(PARIS), dt), timedelta(0))
        self.assertEqual(super(ZoneInfo, ZoneInfo(PARIS)).utcoffset(dt), timedelta(0))


if __name__ == "__main__":
    unittest.main()
