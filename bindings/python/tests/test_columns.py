"""Columns beside single calls, over buffers of each kind, and what is refused of them."""

import ctypes
import mmap
import random
import subprocess
import sys
import tempfile
import unittest
from array import array
from concurrent.futures import ThreadPoolExecutor
from datetime import datetime, timedelta

from tz import LocalTime, TzError, ZoneInfo, _columns

EPOCH, SECOND = datetime(1970, 1, 1), timedelta(seconds=1)
TEXT = "AAA0BBB-1,J1/2,J1/3:30"
ZONES = [*map(ZoneInfo, ("Europe/Paris", "Asia/Tokyo", "UTC")), ZoneInfo.from_tz_string(TEXT)]
# Autumn and spring of Paris: two instants, none.
FOLD, GAP = 972786600, 954037800
NOT_A_TIME = -(1 << 63)
OUT_OF_RANGE, NO_DATE_TIME, INVALID_MONTH, INVALID_DAY = 1, 5, 16, 17


def local_time(seconds):
    dt = EPOCH + seconds * SECOND
    return LocalTime(dt.year, dt.month, dt.day, dt.hour, dt.minute, dt.second, 0)


def random_times(length):
    source = random.Random(length)
    return array("q", [source.randrange(-(1 << 33), 1 << 34) for _ in range(length)])


class Answers(unittest.TestCase):
    def test_offsets(self):
        times = random_times(10000)
        for zone in ZONES:
            for column in (times, array("q", sorted(times))):
                offsets = zone.offsets(column)
                self.assertEqual((offsets.typecode, len(offsets)), ("i", len(column)))
                for at, offset in zip(column, offsets):
                    local = zone.fromutc((EPOCH + at * SECOND).replace(tzinfo=zone))
                    self.assertEqual(zone.utcoffset(local), offset * SECOND, (zone, at))

    def test_instants(self):
        times = random_times(10000) + array("q", [FOLD, GAP])
        fields = (LocalTime * len(times))(*map(local_time, times))
        for zone in ZONES:
            compatible, earlier, later = (
                zone.instants(times, choice) for choice in ("compatible", "earlier", "later")
            )
            self.assertEqual((compatible.typecode, len(compatible)), ("q", len(times)))
            self.assertEqual(compatible, zone.instants(times))
            codes = array("I", [9] * len(times))
            unique = zone.instants(times, "reject", codes=codes)
            for choice, column in (("earlier", earlier), ("later", later)):
                self.assertEqual(zone.instants(fields, choice), column)
            codes_of_fields = array("I", [9] * len(times))
            self.assertEqual(zone.instants(fields, "reject", codes=codes_of_fields), unique)
            self.assertEqual(codes_of_fields, codes)
            for index, seconds in enumerate(times):
                dt = EPOCH + seconds * SECOND
                folds = [dt - zone.utcoffset(dt.replace(fold=fold)) for fold in (0, 1)]
                instants = [(instant - EPOCH) // SECOND for instant in folds]
                # In a gap fold=0 has the lesser offset, and so the later instant.
                self.assertEqual(compatible[index], instants[0], (zone, dt))
                self.assertEqual(earlier[index], min(instants), (zone, dt))
                self.assertEqual(later[index], max(instants), (zone, dt))
                if codes[index] == 0:
                    self.assertEqual([unique[index]] * 2, instants, (zone, dt))
                else:
                    self.assertEqual(codes[index], NO_DATE_TIME)

    def test_choices(self):
        paris = ZONES[0]
        for choice, fold, gap in (
            ("compatible", 972779400, 954034200),
            ("earlier", 972779400, 954030600),
            ("later", 972783000, 954034200),
        ):
            self.assertEqual(list(paris.instants(array("q", [FOLD, GAP]), choice)), [fold, gap])
        for seconds in (FOLD, GAP):
            with self.assertRaises(TzError) as refused:
                paris.instants(array("q", [0, 0, seconds]), "reject")
            self.assertEqual((refused.exception.code, refused.exception.index), (NO_DATE_TIME, 2))
            self.assertIn("place 2: ", str(refused.exception))
        for choice in ("", "Compatible", "first", 0, None):
            with self.subTest(choice), self.assertRaises(ValueError):
                paris.instants(array("q", [0]), choice)

    def test_codes_and_what_stays(self):
        """Refused places at both ends of a column and within it, alone and beside others."""
        length = 10000
        times, out = array("q", range(length)), array("q", [-1]) * length
        refused = {0, 1, 4095, 4096, 5000, 8191, 8192, length - 1}
        for place in refused:
            times[place] = NOT_A_TIME if place % 2 else (1 << 63) - 1
        codes = array("I", [77]) * length
        self.assertIs(ZONES[2].instants(times, out=out, codes=codes), out)
        for place in range(length):
            expected = (-1, OUT_OF_RANGE) if place in refused else (place, 0)
            self.assertEqual((out[place], codes[place]), expected)
        for place in sorted(refused):
            with self.assertRaises(TzError) as error:
                ZONES[2].instants(times)
            self.assertEqual((error.exception.code, error.exception.index), (OUT_OF_RANGE, place))
            times[place] = 0
        ZONES[2].instants(times)

        fields = (LocalTime * 4)(*map(local_time, range(4)))
        fields[1].month, fields[2].month_day = 13, 0
        out, codes = array("q", [-1] * 4), (ctypes.c_uint32 * 4)()
        ZONES[2].instants(fields, out=out, codes=codes)
        self.assertEqual(list(out), [0, -1, -1, 3])
        self.assertEqual(list(codes), [0, INVALID_MONTH, INVALID_DAY, 0])

        # A rule is not defined near the ends of what a year can be.
        out, codes = array("i", [-1, -1]), array("I", [9, 9])
        ZONES[3].offsets(array("q", [NOT_A_TIME, 0]), out=out, codes=codes)
        self.assertEqual((list(out), list(codes)), ([-1, 0], [OUT_OF_RANGE, 0]))
        with self.assertRaises(TzError) as error:
            ZONES[3].offsets(array("q", [0, 0, NOT_A_TIME]), out=array("i", [0] * 3))
        self.assertEqual((error.exception.code, error.exception.index), (OUT_OF_RANGE, 2))

    def test_threads(self):
        """Each with columns of its own, over one zone."""
        times = random_times(20000)
        for call in (ZONES[0].offsets, ZONES[0].instants):
            expected = call(times)
            with ThreadPoolExecutor(4) as pool:
                for found in pool.map(lambda _: call(times[:]), range(8)):
                    self.assertEqual(found, expected)

    def test_without_a_place(self):
        for empty in (array("q"), (ctypes.c_int64 * 0)(), memoryview(b"").cast("q")):
            self.assertEqual(ZONES[0].offsets(empty), array("i"))
            self.assertEqual(ZONES[0].instants(empty), array("q"))
        self.assertEqual(ZONES[0].instants((LocalTime * 0)()), array("q"))


class Buffers(unittest.TestCase):
    def test_kinds(self):
        """Formats as `array`, `memoryview`, ctypes and numpy have them."""
        times = array("q", [0, 962409600, 972783000])
        expected = [3600, 7200, 3600]
        data, native = times.tobytes(), memoryview(bytearray(times.tobytes()))
        with tempfile.TemporaryFile() as file:
            file.write(data)
            file.flush()
            with mmap.mmap(file.fileno(), 0, access=mmap.ACCESS_READ) as mapped:
                self.assertEqual(list(ZONES[0].offsets(memoryview(mapped).cast("q"))), expected)
        for column in (
            times,
            memoryview(times),
            memoryview(data).cast("q"),
            native.cast("q"),
            native.cast("@q"),
            memoryview(array("q", [1, *times, 1]))[1:4],
            (ctypes.c_int64 * 3)(*times),
            *(
                [native.cast("n"), (ctypes.c_ssize_t * 3)(*times)]
                if sys.maxsize == 2**63 - 1
                else []
            ),
            *([native.cast("l"), array("l", times)] if array("l").itemsize == 8 else []),
        ):
            with self.subTest(memoryview(column).format):
                self.assertEqual(list(ZONES[0].offsets(column)), expected)
        view = memoryview(bytearray(12)).cast("i")
        for out in (array("i", [0] * 3), (ctypes.c_int32 * 3)(), view):
            codes = (ctypes.c_uint32 * 3)(9, 9, 9)
            self.assertIs(ZONES[0].offsets(times, out=out, codes=codes), out)
            self.assertEqual((list(out), list(codes)), (expected, [0, 0, 0]))
        self.assertEqual(times.tobytes(), data)

    def test_lists_and_other_widths(self):
        expected = array("i", [3600, 3600]), array("q", [-3600, -3590])
        columns = [
            [0, 10],
            (0, 10),
            range(0, 20, 10),
            *(array(typecode, [0, 10]) for typecode in "bBhHiIlLqQ"),
        ]
        for column in columns:
            self.assertEqual(ZONES[0].offsets(column), expected[0], column)
            self.assertEqual(ZONES[0].instants(column), expected[1], column)
        self.assertEqual(ZONES[0].offsets([]), array("i"))
        out, codes = array("i", [0, 0]), array("I", [9, 9])
        self.assertIs(ZONES[0].offsets([0, 10], out=out, codes=codes), out)
        self.assertEqual((out, list(codes)), (expected[0], [0, 0]))
        with self.assertRaises(TzError) as refused:
            ZONES[0].instants([0, FOLD], "reject")
        self.assertEqual((refused.exception.code, refused.exception.index), (NO_DATE_TIME, 1))
        with self.assertRaisesRegex(TypeError, "list"):
            ZONES[0].local_times([0])

    def test_neither_numpy_nor_pandas_is_imported(self):
        run = "import sys, tz; zone = tz.ZoneInfo('UTC'); zone.offsets([0]); zone.instants([0])"
        check = "assert not {'numpy', 'pandas'} & set(sys.modules)"
        subprocess.run([sys.executable, "-c", f"{run}; {check}"], check=True)

    def test_local_times(self):
        fields = LocalTime._fields_
        packed = type("Packed", (ctypes.Structure,), {"_pack_": 1, "_fields_": fields})
        swapped = type("Swapped", (ctypes.BigEndianStructure,), {"_fields_": fields})
        signed = [(name, ctypes.c_int8 if name == "hour" else kind) for name, kind in fields]
        signed = type("Signed", (ctypes.Structure,), {"_fields_": signed})
        for wrong in (packed, swapped, signed, LocalTime * 2):
            with self.subTest(wrong), self.assertRaises((TypeError, ValueError)):
                ZONES[0].instants((wrong * 2)())
        times = (LocalTime * 2)(*map(local_time, (5, 6)))
        self.assertEqual(list(ZONES[2].instants(times)), [5, 6])
        # What numpy says of numpy.zeros(2, LocalTime).
        numpy = "T{i:year:B:month:B:month_day:B:hour:B:minute:B:second:xxxI:nanoseconds:}"
        self.assertTrue(_columns._KINDS["LocalTime"][0].fullmatch(numpy))

    def test_wrong_columns(self):
        paris = ZONES[0]
        wide = memoryview(array("q", range(8)))
        little = sys.byteorder == "little"
        swapped = ctypes.c_int64.__ctype_be__ if little else ctypes.c_int64.__ctype_le__
        for wrong, error in (
            ("text", TypeError),
            (None, TypeError),
            (0, TypeError),
            (b"12345678", TypeError),
            ([0, 0.5], TypeError),
            ([0, None], TypeError),
            (("0",), TypeError),
            ({0}, TypeError),
            ([1 << 63], OverflowError),
            ((0, -(1 << 63) - 1), OverflowError),
            (array("Q", [1 << 63]), OverflowError),
            (array("d", [0]), TypeError),
            (array("f", [0]), TypeError),
            (memoryview(array("i", [0])), TypeError),
            ((ctypes.c_int32 * 2)(), TypeError),
            ((swapped * 2)(), TypeError),
            (ctypes.c_int64(), ValueError),
            (wide[::2], ValueError),
            (wide[::-1], ValueError),
            (wide.cast("B").cast("q", [2, 4]), ValueError),
            (memoryview(bytearray(17))[1:].cast("q"), ValueError),
        ):
            for call in (paris.offsets, paris.instants):
                with self.subTest((call.__name__, wrong)), self.assertRaises(error):
                    call(wrong)

    def test_wrong_places_to_write(self):
        paris, times = ZONES[0], array("q", [0, 1])
        for name, own, other in (("out", "i", "I"), ("codes", "I", "i")):
            for wrong, error in (
                (array(other, [0, 0]), TypeError),
                (array("q", [0, 0]), TypeError),
                (bytearray(8), TypeError),
                (array(own, [0]), ValueError),
                (array(own, [0] * 3), ValueError),
                (memoryview(bytes(8)).cast(own), ValueError),
                (memoryview(array(own, [0] * 4))[::2], ValueError),
            ):
                with self.subTest((name, wrong)), self.assertRaises(error):
                    paris.offsets(times, **{name: wrong})
        # The letter for long is right where it has four bytes.
        for name, kind in (("out", ctypes.c_long), ("codes", ctypes.c_ulong)):
            if ctypes.sizeof(kind) == 8:
                for wrong in ((kind * 2)(), array(kind._type_, [0, 0])):
                    with self.subTest((name, wrong)), self.assertRaises(TypeError):
                        paris.offsets(times, **{name: wrong})
        with self.assertRaises(TypeError):
            paris.instants(times, out=array("i", [0, 0]))
        self.assertEqual(list(times), [0, 1])

    def test_overlap(self):
        memory = memoryview(bytearray(64))
        times, near = memory[:16].cast("q"), memory[8:16].cast("i")
        with self.assertRaisesRegex(ValueError, "overlap"):
            ZONES[0].offsets(times, out=near)
        with self.assertRaisesRegex(ValueError, "overlap"):
            ZONES[0].offsets(times, out=memory[16:24].cast("i"), codes=memory[20:28].cast("I"))
        with self.assertRaisesRegex(ValueError, "overlap"):
            ZONES[0].instants(times, out=times)
        out, codes = memory[16:24].cast("i"), memory[24:32].cast("I")
        self.assertEqual(list(ZONES[0].offsets(times, out=out, codes=codes)), [3600, 3600])

    def test_buffers_are_held_in_a_call_alone(self):
        times, out = array("q", [0, 1]), array("i", [0, 0])
        ZONES[0].offsets(times, out=out)
        times.append(2)
        out.append(0)
        with self.assertRaises(TzError):
            ZONES[0].instants(array("q", [FOLD]), "reject", out=times[:1])


if __name__ == "__main__":
    unittest.main()
