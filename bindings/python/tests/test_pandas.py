"""pandas over `ZoneInfo` beside `zoneinfo.ZoneInfo`, and columns beside pandas.

The test compares 72 kinds of use. It needs pandas: without it this tests nothing.
"""

import os
import pickle
import random
import unittest
import zoneinfo
from collections import Counter
from datetime import datetime, timedelta

from packages import is_installed
from test_zone import zone_of
from tz import TzError, ZoneInfo, _library, _structures

EPOCH, SECOND = datetime(1970, 1, 1), timedelta(seconds=1)
# The zones that are compared: these, and so many others.
ZONES = ["Europe/Paris", "Australia/Lord_Howe", "Africa/Casablanca", "America/Sao_Paulo"]
OTHERS = int(os.environ.get("TZ_ZONES", "12"))
KINDS = 72
PARTS = (
    "year", "month", "day", "hour", "minute", "second", "dayofweek", "dayofyear", "nanosecond",
    "is_month_start", "quarter",
)  # fmt: skip
OUT_OF_RANGE, NO_DATE_TIME = 1, 5
FOLD, GAP = "2000-10-29T02:30", "2000-03-26T02:30"


def texts(values):
    return list(map(str, values))


def of_columns(utc):
    """Uses of a column of instants, by their names."""
    length, naive = len(utc), utc.tz_localize(None)

    def shown(zone):
        return utc.tz_convert(zone)

    def series(zone):
        return pandas.Series(shown(zone))

    def numbers(zone):
        return pandas.Series(range(length), index=shown(zone))

    def frame(zone):
        return pandas.DataFrame({"a": shown(zone)})

    def of_dtype(zone):
        dtype = pandas.DatetimeTZDtype("ns", zone)
        same = pandas.DatetimeTZDtype("ns", zone)
        return str(dtype), dtype.name, dtype == same, hash(dtype) == hash(same)

    def python(zone):
        times = shown(zone).to_pydatetime()
        return [
            (time.replace(tzinfo=None), time.fold, time.utcoffset(), time.tzname())
            for time in times
        ]

    uses = {
        "tz_convert, texts": lambda zone: texts(shown(zone)),
        "tz_convert, digits": lambda zone: shown(zone).tz_localize(None).asi8.tolist(),
        "dtype": lambda zone: str(shown(zone).dtype),
        "date": lambda zone: list(series(zone).dt.date),
        "strftime": lambda zone: list(series(zone).dt.strftime("%Y-%m-%d %H:%M:%S%z %Z")),
        "floor": lambda zone: texts(
            series(zone).dt.floor("D", ambiguous="NaT", nonexistent="shift_forward")
        ),
        "normalize": lambda zone: texts(series(zone).dt.normalize()),
        "dt.tz": lambda zone: series(zone).dt.tz is zone,
        "to_csv": lambda zone: frame(zone).to_csv(),
        "to_json": lambda zone: frame(zone).to_json(date_format="iso"),
        "isoformat": lambda zone: [time.isoformat() for time in shown(zone)],
        "to_pydatetime": python,
        "resample": lambda zone: numbers(zone).resample("3650D").sum().to_csv(),
        "groupby": lambda zone: numbers(zone).groupby(lambda time: time.hour).sum().to_csv(),
        "pickle": lambda zone: texts(pickle.loads(pickle.dumps(series(zone)))),
        "concat": lambda zone: str(pandas.concat([series(zone), series(zone)]).dtype),
        "DatetimeTZDtype": of_dtype,
        "astype, dtype": lambda zone: texts(
            naive.tz_localize("UTC").astype(pandas.DatetimeTZDtype("ns", zone))
        ),
        "astype, text": lambda zone: texts(utc.astype(f"datetime64[ns, {zone}]")),
        "between_time": lambda zone: len(numbers(zone).between_time("01:00", "03:30")),
        "to_period": lambda zone: texts(shown(zone).tz_localize(None).to_period("M")),
    }
    for part in PARTS:
        uses[f"dt.{part}"] = lambda zone, part=part: list(getattr(series(zone).dt, part))
    return uses


def of_local_times(local):
    """Uses of a column of local times: 24 pairs of what is done in folds and gaps, and infer."""
    ordered = local.sort_values()
    uses = {
        "tz_localize, infer": lambda zone: ordered.tz_localize(
            zone, ambiguous="infer", nonexistent="shift_forward"
        ).asi8.tolist()
    }
    shifts = "shift_forward", "shift_backward", pandas.Timedelta("1h"), pandas.Timedelta("-2h")
    for fold in ("raise", "NaT", True, False):
        for gap in ("raise", "NaT", *shifts):
            ambiguous = numpy.full(len(local), fold) if isinstance(fold, bool) else fold
            uses[f"tz_localize, {fold}, {gap}"] = lambda zone, ambiguous=ambiguous, gap=gap: (
                local.tz_localize(zone, ambiguous=ambiguous, nonexistent=gap).asi8.tolist()
            )
    return uses


def of_one_time(seconds):
    """Uses of one instant, or of a local time of so many seconds."""
    time, at = EPOCH + seconds * SECOND, seconds * 10**9
    names = "year", "month", "day", "hour", "minute"
    fields = {name: getattr(time, name) for name in names}

    def stamp(zone, value=at):
        return pandas.Timestamp(value, tz=zone)

    def of_datetimes(zone):
        placed = [pandas.Timestamp(time.replace(tzinfo=zone, fold=fold)) for fold in (0, 1)]
        return [(str(made), made.value) for made in placed]

    def of_fields(zone):
        made = (pandas.Timestamp(**fields, tz=zone, fold=fold) for fold in (0, 1))
        return texts(made)

    return {
        "Timestamp, text": lambda zone: str(stamp(zone, time.isoformat())),
        "Timestamp, integer": lambda zone: (
            str(stamp(zone, at + 123)), pandas.Timestamp(seconds, unit="s", tz=zone).utcoffset()
        ),
        "Timestamp, datetime": of_datetimes,
        "Timestamp, fields": of_fields,
        "Timestamp, sums": lambda zone: texts(
            stamp(zone) + step
            for step in (
                *(pandas.DateOffset(days=days) for days in (1, 30)), pandas.Timedelta(days=1)
            )
        ),
        "Timestamp, tz_convert": lambda zone: str(stamp("UTC").tz_convert(zone)),
        "Timestamp, replace": lambda zone: str(stamp(zone).replace(hour=2, minute=30)),
    }  # fmt: skip


def of_dates(first):
    """Uses that make a column."""

    def days(zone):
        return [datetime(2020, 7, 1, tzinfo=zone), datetime(2020, 12, 1, tzinfo=zone)]

    def dates(zone, periods, freq):
        return texts(pandas.date_range(first, periods=periods, freq=freq, tz=zone))

    return {
        "date_range, D": lambda zone: dates(zone, 400, "D"),
        "date_range, 6h": lambda zone: dates(zone, 900, "6h"),
        "date_range, MS": lambda zone: dates(zone, 40, "MS"),
        "Series of datetimes": lambda zone: texts(pandas.Series(days(zone)).dt.tz_convert(zone)),
        "Series of datetimes, dtype": lambda zone: str(pandas.Series(days(zone)).dtype),
        "to_datetime": lambda zone: texts(pandas.to_datetime(days(zone))),
    }


def of_both(utc, ours, theirs):
    """Uses of columns of both classes together."""
    mine, other = utc.tz_convert(ours), utc.tz_convert(theirs)
    return {
        "both, equal": lambda: bool((mine == other).all()),
        "both, difference": lambda: not (mine - other).astype("int64").any(),
    }


def near_changes(zone, source):
    """Local times, in seconds: random ones, and those around changes of a clock."""
    change, at = _structures.Change(), source.randrange(-2 * 10**9, 10**9)
    local = [source.randrange(-2 * 10**9, 4 * 10**9) for _ in range(20)]
    for _ in range(25):
        if _library.following(zone._zone, at, change) != _library.OK:
            break
        at = change.unix_time
        for offset in {change.before.ut_offset, change.after.ut_offset}:
            beside = -7200, -3600, -1800, -1, 0, 1, 1799, 1800, 3600, 5400
            local += [at + offset + seconds for seconds in beside]
    return local


def answer(use, *arguments):
    try:
        return "answer", use(*arguments)
    except Exception as error:
        return "error", type(error).__name__, str(error)


class Beside(unittest.TestCase):
    def test_uses(self):
        source, answered, count = random.Random(95), Counter(), 0
        plain = ("right/", "posix/")
        names = sorted(zoneinfo.available_timezones())
        names = [name for name in names if not name.startswith(plain)]
        for name in [*ZONES, *source.sample(names, OTHERS)]:
            ours, theirs = ZoneInfo(name), zoneinfo.ZoneInfo(name)
            nanoseconds = (source.randrange(-22 * 10**17, 41 * 10**17) for _ in range(400))
            utc = pandas.DatetimeIndex(numpy.array(sorted(nanoseconds), "M8[ns]"), tz="UTC")
            local = near_changes(ours, source)
            first = datetime(source.randrange(1950, 2036), source.randrange(1, 13), 1)
            column = pandas.DatetimeIndex(numpy.array(local, "M8[s]").astype("M8[ns]"))
            uses = [of_columns(utc), of_local_times(column), of_dates(first)]
            uses += map(of_one_time, source.sample(local, 15))
            for use in (item for kind in uses for item in kind.items()):
                answers = [answer(use[1], zone) for zone in (ours, theirs)]
                self.assertEqual(*answers, (name, use[0]))
                answered[use[0]] += answers[0][0] == "answer"
                count += 1
            for kind, use in of_both(utc, ours, theirs).items():
                self.assertTrue(use(), (name, kind))
                answered[kind] += 1
                count += 1
        self.assertEqual(len(answered), KINDS)
        self.assertEqual([kind for kind, number in answered.items() if not number], [])
        print(f"pandas {pandas.__version__}: {count} comparisons of {KINDS} kinds, none differs")


class Columns(unittest.TestCase):
    def setUp(self):
        self.paris, self.theirs = ZoneInfo("Europe/Paris"), zoneinfo.ZoneInfo("Europe/Paris")
        source = random.Random(96)
        utc = numpy.array([source.randrange(-(1 << 61), 1 << 62) for _ in range(2000)], "M8[ns]")
        utc[[0, 7, -1]] = "NaT"
        self.utc = pandas.Series(utc, index=range(5000, 7000), name="when")
        aware = self.utc.dt.tz_localize("UTC").dt.tz_convert(self.theirs)
        self.local = aware.dt.tz_localize(None)

    def assert_same(self, found, expected):
        assert_equal = pandas.testing.assert_index_equal
        if isinstance(expected, pandas.Series):
            assert_equal = pandas.testing.assert_series_equal
        assert_equal(found, expected)

    def test_series(self):
        self.assert_same(self.paris.local_times(self.utc), self.local)
        self.assert_same(self.utc + self.paris.offsets(self.utc), self.local)
        for zone in ("UTC", "Asia/Tokyo", self.theirs, self.paris):
            aware = self.utc.dt.tz_localize("UTC").dt.tz_convert(zone)
            self.assert_same(self.paris.local_times(aware), self.local)
            self.assert_same(self.paris.offsets(aware), self.paris.offsets(self.utc))
            with self.assertRaisesRegex(TypeError, "time zone"):
                self.paris.instants(aware)
        for choice, fold in (("compatible", True), ("earlier", True), ("later", False)):
            folds = numpy.full(len(self.local), fold)
            aware = self.local.dt.tz_localize(self.theirs, ambiguous=folds)
            expected = aware.dt.tz_convert("UTC").dt.tz_localize(None)
            found = self.paris.instants(self.local, choice)
            # pandas overlooks some folds of zones of `zoneinfo`, which itself does not.
            other = (found != expected) & found.notna()
            self.assertLess(other.sum(), 5)
            for local, instant in zip(self.local[other], found[other]):
                time = local.to_pydatetime(warn=False).replace(fold=choice == "later")
                self.assertEqual(local - self.theirs.utcoffset(time), instant)
            self.assert_same(found[~other], expected[~other])

    def test_index(self):
        utc, local = (pandas.DatetimeIndex(times, name="at") for times in (self.utc, self.local))
        self.assert_same(self.paris.local_times(utc), local)
        self.assert_same(self.paris.local_times(utc.tz_localize("UTC")), local)
        self.assert_same(utc + self.paris.offsets(utc), local)
        again = self.paris.local_times(self.paris.instants(local))
        self.assert_same(again, local)

    def test_integers(self):
        seconds = pandas.Series([0, 962409600], index=["b", "a"], name="at")
        found = self.paris.offsets(seconds)
        self.assert_same(found, pandas.Series([3600, 7200], ["b", "a"], "int32", "at"))
        found = self.paris.instants(seconds)
        self.assert_same(found, pandas.Series([-3600, 962402400], ["b", "a"], "int64", "at"))
        found = self.paris.offsets(pandas.Index([0, 962409600], name="at"))
        self.assertEqual((found.tolist(), found.name), ([3600, 7200], "at"))
        nullable = pandas.Series([0, 962409600], dtype="Int64")
        self.assertEqual(self.paris.offsets(nullable).tolist(), [3600, 7200])
        with self.assertRaisesRegex(ValueError, "missing"):
            self.paris.offsets(pandas.Series([0, None], dtype="Int64"))

    def test_index_stays(self):
        """Answers stand beside their values in a frame whose rows are in another order."""
        for index in ([3, 1, 2], [0, 0, 0], list("cab")):
            times = pandas.Series(["2000-01-01", "2000-07-01", None], index, "M8[ns]")
            frame = pandas.DataFrame({"times": times})
            frame["local"] = self.paris.local_times(times)
            frame["offset"] = self.paris.offsets(times)
            moved = frame.local - frame.times
            self.assertEqual(moved.dropna().tolist(), frame.offset.dropna().tolist())
            self.assertEqual(frame.index.tolist(), index)
            self.assertTrue(pandas.isna(frame.local.iloc[2]))

    def test_fold_and_gap(self):
        local = pandas.Series([FOLD, GAP, "2000-07-01"], name="at").astype("M8[ns]")
        codes = numpy.full(3, 9, "uint32")
        found = self.paris.instants(local, "reject", codes=codes)
        self.assertEqual(found.isna().tolist(), [True, True, False])
        self.assertEqual(codes.tolist(), [NO_DATE_TIME, NO_DATE_TIME, 0])
        with self.assertRaises(TzError) as refused:
            self.paris.instants(local, "reject")
        self.assertEqual((refused.exception.code, refused.exception.index), (NO_DATE_TIME, 0))

    def test_empty(self):
        for empty in (self.utc[:0], self.utc[:0].dt.tz_localize("UTC")):
            found = self.paris.local_times(empty)
            shape = str(found.dtype), found.name, len(found)
            self.assertEqual(shape, ("datetime64[ns]", "when", 0))
            self.assertEqual(len(self.paris.offsets(empty)), 0)
        self.assertEqual(len(self.paris.instants(self.utc[:0])), 0)

    def test_refused(self):
        for wrong, text in (
            (self.utc.astype("object"), "object"),
            (self.utc.dt.year, "float64"),
            (pandas.Series(["2000-01-01"]), "object"),
            (pandas.Series([1j]), "complex128"),
            (pandas.Series(["a"], dtype="category"), "category"),
            (self.utc.dt.to_period("D"), "period"),
            (pandas.DataFrame({"a": self.utc}), ""),
        ):
            for call in (self.paris.offsets, self.paris.local_times, self.paris.instants):
                with self.subTest(wrong.__class__), self.assertRaisesRegex(TypeError, text):
                    call(wrong)
        with self.assertRaisesRegex(TypeError, "out is no array .* Series"):
            self.paris.local_times(self.utc, out=self.utc.copy())

    def test_a_clock_that_begins_late(self):
        zone = zone_of([(94694400, 0)], [(3600, 0, "AAA")], "AAA-1", [(78796800, 10)], "4")
        times = pandas.Series(["1970-01-01", "1980-01-01"]).astype("M8[ns]")
        codes = numpy.zeros(2, "uint32")
        self.assertEqual(zone.local_times(times, codes=codes).isna().tolist(), [True, False])
        self.assertEqual(codes.tolist(), [OUT_OF_RANGE, 0])
        with self.assertRaisesRegex(TzError, r"datetime64\[ns\]: place 0"):
            zone.local_times(times)


if is_installed("pandas"):
    import numpy
    import pandas
else:
    del Beside, Columns


if __name__ == "__main__":
    unittest.main()
