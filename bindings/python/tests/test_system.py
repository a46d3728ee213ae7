"""All zone files of the machine beside CPython's `zoneinfo`, at and around changes of their clocks.

Two things differ by intent:

- Zones with leap seconds, below right/: CPython leaves these out, so its clocks are up to 27
  seconds off. The zone of the same name without them stands in for it, up to the last transition,
  since these files may end with their list of leap seconds.
- The amounts of `dst`, which both infer from a flag: only whether it is zero is compared.
"""

import io
import os
import unittest
import zoneinfo
from datetime import datetime, timedelta
from zoneinfo._common import load_data

import tz
from tz import _library, _structures

EPOCH, SECOND = datetime(1970, 1, 1), timedelta(seconds=1)
# Years whose changes by a rule are compared, after those of the tables.
RULE_YEARS = [*range(2037, 2101), 2400, 9998]
LEAP_SECONDS = "right/"


def instant_of(utc):
    return (utc - EPOCH) // SECOND


# Two days from the ends of what a datetime can be.
FIRST, LAST = instant_of(datetime(1, 1, 3)), instant_of(datetime(9999, 12, 30))


def zone_files():
    """All zone files by their names."""
    found = {}
    for directory in zoneinfo.TZPATH:
        for folder, _, names in os.walk(directory):
            for path in (os.path.join(folder, name) for name in names):
                with open(path, "rb") as file:
                    data = file.read()
                if data.startswith(b"TZif"):
                    found.setdefault(os.path.relpath(path, directory), data)
    return found


def transitions(data):
    """The transitions of a file, as CPython reads them."""
    return load_data(io.BytesIO(data))[1]


def changes_by_rule(zone):
    """The changes of this module's clock in years of the rule."""
    change = _structures.Change()
    for year in RULE_YEARS:
        at, end = instant_of(datetime(year, 1, 1)), instant_of(datetime(year + 1, 1, 1))
        while _library.following(zone._zone, at, change) == _library.OK and change.unix_time < end:
            at = change.unix_time
            yield at


def read(time):
    """A local time, its offset and its name, and whether it is in daylight saving time."""
    zone = time.tzinfo
    shown = time.replace(tzinfo=None), time.fold
    return *shown, zone.utcoffset(time), zone.tzname(time), bool(zone.dst(time))


class SystemZones(unittest.TestCase):
    def compare(self, name, ours, theirs, instants):
        for instant in instants:
            utc, offsets = EPOCH + instant * SECOND, []
            for second in (utc - SECOND, utc, utc + SECOND):
                mine = ours.fromutc(second.replace(tzinfo=ours))
                other = theirs.fromutc(second.replace(tzinfo=theirs))
                self.assertEqual(read(mine), read(other), (name, second))
                # Back from the local time to its instant.
                offsets.append(ours.utcoffset(mine))
                self.assertEqual(mine.replace(tzinfo=None) - offsets[-1], second, name)
                self.count += 2
            before, after, _ = offsets
            edges = {utc + offset + beside * SECOND for offset in offsets for beside in (-1, 0, 1)}
            for time in (*edges, utc + (before + after) / 2):
                for fold in (0, 1):
                    mine, other = (time.replace(tzinfo=zone, fold=fold) for zone in (ours, theirs))
                    self.assertEqual(read(mine), read(other), (name, time, fold))
                    self.count += 1

    def test_all(self):
        self.count, with_leap_seconds, found = 0, 0, zone_files()
        # Each file once, by its shortest name.
        longest_first = sorted(found.items(), key=lambda item: -len(item[0]))
        names = {data: name for name, data in longest_first}
        self.assertGreater(len(names), 100, f"few zone files in {zoneinfo.TZPATH}")
        for data, name in names.items():
            plain, last = data, LAST
            if name.startswith(LEAP_SECONDS):
                with_leap_seconds += 1
                plain = found[name[len(LEAP_SECONDS) :]]
                last = min([LAST, *(instant - 86400 for instant in transitions(data)[-1:])])
            ours = tz.ZoneInfo.from_file(io.BytesIO(data))
            theirs = zoneinfo.ZoneInfo.from_file(io.BytesIO(plain))
            instants = {0, *transitions(plain), *changes_by_rule(ours)}
            compared = [instant for instant in sorted(instants) if FIRST < instant < last]
            self.compare(name, ours, theirs, compared)
        print(f"{self.count} comparisons over {len(names)} zone files")
        print(f"{with_leap_seconds} of the files have leap seconds")


if __name__ == "__main__":
    unittest.main()
