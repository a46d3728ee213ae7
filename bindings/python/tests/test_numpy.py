"""Columns over numpy's arrays. They need numpy: without it this tests nothing."""

import random
import unittest
import zoneinfo
from array import array
from datetime import datetime, timedelta

from packages import is_installed
from test_zone import zone_of
from tz import LocalTime, TzError, ZoneInfo, _arrays

EPOCH, SECOND = datetime(1970, 1, 1), timedelta(seconds=1)
UNITS = {"s": 1, "ms": 10**3, "us": 10**6, "ns": 10**9}
NOT_A_TIME, GREATEST = -(1 << 63), (1 << 63) - 1
OUT_OF_RANGE, NO_DATE_TIME = 1, 5
FOLD, GAP = "2000-10-29T02:30", "2000-03-26T02:30"


def odd_forms(column):
    """A column in memory of each kind that C's calls do not take as it is."""
    unaligned = numpy.frombuffer(bytearray(b"x" + column.tobytes()), column.dtype, offset=1)
    read_only = column.copy()
    read_only.flags.writeable = False
    wide = numpy.zeros((len(column), 3), column.dtype)
    wide[:, 1] = column
    records = numpy.zeros(len(column), [("x", "u1"), ("time", column.dtype), ("y", "u2")])
    records["time"] = column
    return {
        "unaligned": unaligned,
        "read-only": read_only,
        "big-endian": column.astype(column.dtype.newbyteorder(">")),
        "strided": wide[:, 1],
        "backward": column[::-1].copy()[::-1],
        "a field": records["time"],
        "over bytes": numpy.frombuffer(column.tobytes(), column.dtype),
    }


class Integers(unittest.TestCase):
    def setUp(self):
        self.paris = ZoneInfo("Europe/Paris")
        self.times = numpy.array(["2000-01-01T00:00", "2000-07-01T00:00"], "datetime64[s]")
        self.instants = self.times.view("int64")

    def test_offsets(self):
        for column in (self.instants, self.instants.astype("<i8"), self.instants[:]):
            self.assertEqual(self.paris.offsets(column), array("i", [3600, 7200]))
        out, codes = numpy.empty(2, "int32"), numpy.full(2, 9, "uint32")
        self.assertIs(self.paris.offsets(self.instants, out=out, codes=codes), out)
        self.assertEqual((out.tolist(), codes.tolist()), ([3600, 7200], [0, 0]))
        # Not a time is the least number: the place is refused if its reading is.
        times = numpy.array(["NaT", "1970-01-01"], "datetime64[s]").view("int64")
        out, codes = numpy.zeros(2, "int64"), numpy.empty(2, "uint32")
        self.paris.instants(times, out=out, codes=codes)
        self.assertEqual((out.tolist(), codes.tolist()), ([0, -3600], [1, 0]))

    def test_instants(self):
        local_times = self.instants + self.paris.offsets(self.instants)
        out = self.paris.instants(local_times, out=numpy.empty(2, "int64"))
        self.assertTrue((out.view("datetime64[s]") == self.times).all())

    def test_widths(self):
        for dtype in ("i1", "i2", "i4", "i8", "u1", "u2", "u4", "u8", ">i2", ">u4", ">u8"):
            column = numpy.array([0, 100], dtype)
            self.assertEqual(self.paris.offsets(column), array("i", [3600, 3600]), dtype)
            self.assertEqual(self.paris.instants(column), array("q", [-3600, -3500]), dtype)
        column = numpy.array([0, GREATEST], "u8")
        self.assertEqual(ZoneInfo("UTC").offsets(column), array("i", [0, 0]))
        for call in (self.paris.offsets, self.paris.instants):
            with self.assertRaisesRegex(OverflowError, "uint64"):
                call(numpy.array([0, 1 << 63], "u8"))

    def test_odd_forms(self):
        expected = array("i", [3600, 7200]), array("q", [946681200, 962402400])
        for form, column in odd_forms(self.instants).items():
            self.assertEqual(self.paris.offsets(column), expected[0], form)
            self.assertEqual(self.paris.instants(column), expected[1], form)

    def test_local_times(self):
        fields = numpy.zeros(2, LocalTime)
        fields["year"], fields["month"], fields["month_day"] = 2000, [1, 7], 1
        fields["hour"] = [1, 2]
        self.assertEqual(self.paris.instants(fields), array("q", self.instants.tolist()))
        with self.assertRaises(TypeError):
            self.paris.offsets(fields)
        with self.assertRaisesRegex(TypeError, "int64"):
            self.paris.local_times(self.instants)
        with self.assertRaisesRegex(TypeError, "list"):
            self.paris.local_times([0])

    def test_other_fields(self):
        """Types of 16 bytes whose fields have other places, names or orders."""
        names = [name for name, _ in LocalTime._fields_]
        formats, offsets = ["i4", *(["u1"] * 5), "u4"], [0, 4, 5, 6, 7, 8, 12]

        def dtype(names=names, formats=formats, offsets=offsets):
            shape = {"names": names, "formats": formats, "offsets": offsets, "itemsize": 16}
            return numpy.dtype(shape)

        right = numpy.zeros(1, dtype())
        right["year"], right["month"], right["month_day"] = 1970, 1, 1
        self.assertEqual(list(self.paris.instants(right)), [-3600])
        swapped = names[:1] + ["month_day", "month"] + names[3:]
        for wrong in (
            *(dtype(offsets=[*offsets[:6], place]) for place in (9, 10, 11)),
            dtype(offsets=[0, 5, 4, *offsets[3:]]),
            dtype(names=swapped),
            dtype(names=list("abcdefg")),
            dtype(formats=["u4", *formats[1:]]),
            dtype(formats=[*formats[:6], "i4"]),
            dtype(formats=["f4", *formats[1:]]),
            dtype(formats=[">i4", *formats[1:6], ">u4"]),
        ):
            with self.subTest(wrong), self.assertRaisesRegex((TypeError, ValueError), "type"):
                self.paris.instants(numpy.zeros(2, wrong))

    def test_refused(self):
        for wrong, error, text in (
            (self.instants.astype("float64"), TypeError, "float64"),
            (self.instants.astype("complex128"), TypeError, "complex128"),
            (self.instants.astype("object"), TypeError, "object"),
            (self.instants.astype("bool"), TypeError, "bool"),
            (self.instants.astype("str"), TypeError, "<U"),
            (self.instants.astype("timedelta64[s]"), TypeError, "timedelta64"),
            (self.instants.reshape(2, 1), ValueError, "one dimension"),
            (self.instants[0], TypeError, "no column.* int64"),
        ):
            for call in (self.paris.offsets, self.paris.instants):
                with self.subTest((call, wrong)), self.assertRaisesRegex(error, text):
                    call(wrong)
        for wrong, error in (
            (numpy.zeros(2, ">i4"), TypeError),
            (numpy.zeros(2, "int64"), TypeError),
            (numpy.zeros(2, "timedelta64[s]"), (TypeError, ValueError)),
            (numpy.zeros(4, "int32")[::2], ValueError),
            (numpy.zeros(9, "uint8")[1:].view("int32"), ValueError),
            (odd_forms(numpy.zeros(2, "int32"))["read-only"], ValueError),
            (self.instants.view("int32")[:2], ValueError),
        ):
            with self.subTest(wrong), self.assertRaises(error):
                self.paris.offsets(self.instants, out=wrong)


class Times(unittest.TestCase):
    """Columns of datetime64, in each unit, with fractions of a second."""

    def setUp(self):
        self.paris = ZoneInfo("Europe/Paris")

    def column(self, unit, values):
        return numpy.array(values, f"datetime64[{unit}]")

    def test_beside_zoneinfo(self):
        for name in ("Europe/Paris", "America/St_Johns", "Australia/Lord_Howe", "Africa/Monrovia"):
            zone, other, source = ZoneInfo(name), zoneinfo.ZoneInfo(name), random.Random(name)
            utc = [EPOCH + source.randrange(-(1 << 32), 1 << 32) * SECOND for _ in range(1000)]
            shown = [other.fromutc(time.replace(tzinfo=other)) for time in utc]
            offsets = [time.utcoffset() // SECOND for time in shown]
            by_fold = [[time.replace(fold=fold).utcoffset() for time in shown] for fold in (0, 1)]
            for unit, ticks in UNITS.items():
                fraction = numpy.array([source.randrange(ticks) for _ in utc])
                part = fraction.astype(f"timedelta64[{unit}]")
                instants = self.column(unit, utc) + part
                local = self.column(unit, [time.replace(tzinfo=None) for time in shown]) + part
                found = zone.offsets(instants)
                self.assertEqual((found.dtype, found.tolist()), ("m8[s]", self.deltas(offsets)))
                found = zone.local_times(instants)
                self.assertEqual(found.dtype, instants.dtype)
                self.assertTrue((found == local).all())
                # Shown times lie in folds, and never in gaps.
                for choice, fold in (("compatible", 0), ("earlier", 0), ("later", 1)):
                    back = local - numpy.array(by_fold[fold], "m8[s]")
                    found = zone.instants(local, choice)
                    self.assertEqual(found.dtype, instants.dtype)
                    self.assertTrue((found == back).all(), (name, unit, choice))

    @staticmethod
    def deltas(seconds):
        return [timedelta(seconds=value) for value in seconds]

    def test_fold_and_gap(self):
        for unit in UNITS:
            column = self.column(unit, [FOLD, GAP])
            for choice, *expected in (
                ("compatible", "2000-10-29T00:30", "2000-03-26T01:30"),
                ("earlier", "2000-10-29T00:30", "2000-03-26T00:30"),
                ("later", "2000-10-29T01:30", "2000-03-26T01:30"),
                ("reject", "NaT", "NaT"),
            ):
                codes = numpy.full(2, 9, "uint32")
                found = self.paris.instants(column, choice, codes=codes)
                self.assertEqual(found.dtype, column.dtype)
                self.assertEqual(found.astype("M8[m]").astype(str).tolist(), expected)
                self.assertEqual(codes.tolist(), [NO_DATE_TIME * (choice == "reject")] * 2)
            with self.assertRaises(TzError) as refused:
                self.paris.instants(self.column(unit, ["2000-01-01", "NaT", GAP]), "reject")
            error = refused.exception
            self.assertEqual((error.code, error.index), (NO_DATE_TIME, 2))
            self.assertIn(f"datetime64[{unit}]", str(error))

    def test_not_a_time_in_each_place(self):
        for unit in UNITS:
            plain = self.column(unit, ["2000-01-01", "2000-07-01", "1900-01-01"])
            for places in range(8):
                absent = numpy.array([places >> place & 1 for place in range(3)], bool)
                column = numpy.where(absent, numpy.datetime64("NaT"), plain)
                for call in (self.paris.offsets, self.paris.local_times, self.paris.instants):
                    codes = numpy.full(3, 9, "uint32")
                    found, expected = call(column, codes=codes), call(plain)
                    self.assertEqual(numpy.isnat(found).tolist(), absent.tolist())
                    self.assertTrue((found[~absent] == expected[~absent]).all())
                    self.assertEqual(codes.tolist(), [0, 0, 0])
                    self.assertTrue((numpy.isnat(call(column)) == absent).all())

    def test_ends(self):
        """The last and the first value of each unit: what leaves 64 bits is refused."""
        east, west = (ZoneInfo.from_tz_string(text) for text in ("AAA-1", "AAA1"))
        for unit, ticks in UNITS.items():
            for value, refused, answered in ((GREATEST, east, west), (NOT_A_TIME + 1, west, east)):
                sign = 1 if value > 0 else -1
                column = numpy.array([value], "int64").view(f"M8[{unit}]")
                codes = numpy.zeros(1, "uint32")
                self.assertTrue(numpy.isnat(refused.local_times(column, codes=codes)).all())
                self.assertEqual(codes.tolist(), [OUT_OF_RANGE])
                with self.assertRaisesRegex(TzError, rf"datetime64\[{unit}\]: place 0"):
                    refused.local_times(column)
                moved = answered.local_times(column).view("int64").tolist()
                self.assertEqual(moved, [value - sign * 3600 * ticks])
                # The last ones that are answered, and the first that is not.
                for beside in (-1, 0, 1):
                    at = value - sign * (3600 * ticks + beside)
                    column = numpy.array([at], "int64").view(f"M8[{unit}]")
                    found = refused.local_times(column, codes=codes).view("int64").tolist()
                    expected = at + sign * 3600 * ticks, 0
                    if beside < 0:
                        expected = NOT_A_TIME, OUT_OF_RANGE
                    self.assertEqual((found[0], codes[0]), expected, (unit, value, beside))
        column = numpy.array([GREATEST, NOT_A_TIME + 1], "int64").view("M8[ns]")
        for zone, place in ((west, 0), (east, 1)):
            codes = numpy.zeros(2, "uint32")
            found = zone.instants(column, codes=codes)
            self.assertEqual(codes.tolist(), [int(place == 0), int(place == 1)])
            self.assertTrue(numpy.isnat(found[place]) and not numpy.isnat(found[1 - place]))
        self.assertEqual(list(ZoneInfo("UTC").offsets(numpy.array([GREATEST]))), [0])

    def test_local_times_of_no_year(self):
        """Seconds of 64 bits reach farther than years of fields."""
        values = numpy.array([0, GREATEST, 5, NOT_A_TIME + 1, 1 << 61, 7])
        column = values.view("M8[s]")
        for choice in ("compatible", "reject"):
            codes = numpy.full(6, 9, "uint32")
            found = self.paris.instants(column, choice, codes=codes)
            self.assertEqual(codes.tolist(), [0, 1, 0, 1, 1, 0])
            expected = [-3600, NOT_A_TIME, -3595, NOT_A_TIME, NOT_A_TIME, -3593]
            self.assertEqual(found.view("int64").tolist(), expected)
            out = numpy.zeros(6, "int64")
            self.paris.instants(values, choice, out=out, codes=codes)
            self.assertEqual(codes.tolist(), [0, 1, 0, 1, 1, 0])

    def test_odd_forms(self):
        for unit in UNITS:
            column = self.column(unit, ["2000-01-01", "NaT", "2000-07-01"])
            calls = self.paris.offsets, self.paris.local_times, self.paris.instants
            for form, odd in odd_forms(column).items():
                given = _arrays._times("", odd, may_have_zone=True).values
                self.assertTrue(given.flags.aligned and given.flags.c_contiguous, form)
                for call in calls:
                    with self.subTest((unit, form, call)):
                        self.assertEqual(call(odd).tolist(), call(column).tolist())

    def test_a_clock_that_begins_late(self):
        """A file of version 4 without a clock before 1972."""
        zone = zone_of([(94694400, 0)], [(3600, 0, "AAA")], "AAA-1", [(78796800, 10)], "4")
        column = self.column("ms", ["1970-01-01", "1980-01-01", "NaT"])
        for call in (zone.offsets, zone.local_times, zone.instants):
            codes = numpy.zeros(3, "uint32")
            self.assertEqual(numpy.isnat(call(column, codes=codes)).tolist(), [True, False, True])
            self.assertGreater(codes[0], 0)
            self.assertEqual(codes[1:].tolist(), [0, 0])
            with self.assertRaises(TzError) as refused:
                call(column[[1, 0]])
            self.assertEqual(refused.exception.index, 1)

    def test_many(self):
        """More than are converted at a time, with what is refused at the ends of each part."""
        length = 70000
        column = numpy.arange(length).astype("M8[s]").astype("M8[ns]")
        refused = [0, 1, 16383, 16384, 32768, 65535, 65536, length - 1]
        column[refused] = numpy.datetime64(GAP)
        column[5] = "NaT"
        codes = numpy.full(length, 9, "uint32")
        found = self.paris.instants(column, "reject", codes=codes)
        self.assertEqual(codes.nonzero()[0].tolist(), refused)
        self.assertEqual(numpy.isnat(found).nonzero()[0].tolist(), sorted([*refused, 5]))
        kept = ~numpy.isnat(found)
        self.assertTrue((column[kept] - found[kept] == numpy.timedelta64(3600, "s")).all())
        for place in refused:
            with self.assertRaises(TzError) as error:
                self.paris.instants(column, "reject")
            self.assertEqual((error.exception.code, error.exception.index), (NO_DATE_TIME, place))
            column[place] = "NaT"
        self.paris.instants(column, "reject")

    def test_out(self):
        column = self.column("us", ["2000-01-01", "NaT", "2000-07-01"])
        for call, dtype in (
            (self.paris.offsets, "m8[s]"),
            (self.paris.local_times, "M8[us]"),
            (self.paris.instants, "M8[us]"),
        ):
            expected = call(column).tolist()
            for out in (numpy.zeros(3, dtype), numpy.zeros(6, dtype)[::2]):
                self.assertIs(call(column, out=out), out)
                self.assertEqual(out.tolist(), expected)
            read_only = odd_forms(numpy.zeros(3, dtype))["read-only"]
            for wrong, error, text in (
                (numpy.zeros(3, "int64"), TypeError, "int64"),
                (numpy.zeros(3, "M8[ns]"), TypeError, "ns"),
                (numpy.zeros(3, numpy.dtype(dtype).newbyteorder(">")), TypeError, ">"),
                (array("q", [0] * 3), TypeError, "array"),
                ([0] * 3, TypeError, "list"),
                (numpy.zeros(2, dtype), ValueError, "out has the shape"),
                (numpy.zeros((3, 1), dtype), ValueError, "out has the shape"),
                (read_only, ValueError, "out is read-only"),
                (column.view(dtype), ValueError, "overlap"),
            ):
                with self.subTest((call, wrong)), self.assertRaisesRegex(error, text):
                    call(column, out=wrong)
            for wrong, error in (
                (numpy.zeros(3, "int64"), TypeError),
                (numpy.zeros(2, "uint32"), ValueError),
                (column.view("uint32")[:3], ValueError),
                ([0] * 3, TypeError),
            ):
                with self.subTest((call, wrong)), self.assertRaises(error):
                    call(column, codes=wrong)
            for codes in (array("I", [9] * 3), memoryview(bytearray(12)).cast("I")):
                call(column, codes=codes)
                self.assertEqual(list(codes), [0, 0, 0])

    def test_refused(self):
        column = self.column("s", ["2000-01-01"])
        for wrong, error, text in (
            (column.astype("M8[D]"), TypeError, r"datetime64\[D\]"),
            (column.astype("M8[ps]"), TypeError, r"datetime64\[ps\]"),
            (column.astype("M8[25s]"), TypeError, r"datetime64\[25s\]"),
            (numpy.array(["NaT"], "M8"), TypeError, "datetime64"),
            (column.reshape(1, 1), ValueError, "one dimension"),
            (column[0], TypeError, "no column.* datetime64"),
            (column.astype("object"), TypeError, "object"),
        ):
            for call in (self.paris.offsets, self.paris.local_times, self.paris.instants):
                with self.subTest((call, wrong)), self.assertRaisesRegex(error, text):
                    call(wrong)

    def test_empty(self):
        for unit in UNITS:
            empty, codes = self.column(unit, []), numpy.zeros(0, "uint32")
            for codes in (None, codes):
                self.assertEqual(self.paris.offsets(empty, codes=codes).dtype, "m8[s]")
                self.assertEqual(self.paris.local_times(empty, codes=codes).dtype, empty.dtype)
                self.assertEqual(len(self.paris.instants(empty, codes=codes)), 0)


if is_installed("numpy"):
    import numpy
else:
    del Integers, Times


if __name__ == "__main__":
    unittest.main()
