"""CPython's own tests of `zoneinfo` over this module, but for those that left_out.txt lists."""

import io
import re
import struct
import unittest
from pathlib import Path

import tz

try:
    from test.test_zoneinfo import test_zoneinfo as cpython
except ImportError as fault:  # Debian has it in libpython3-testsuite.
    raise unittest.SkipTest(f"CPython's own tests are not installed: {fault}") from fault


def left_out():
    """The names in left_out.txt."""
    for line in Path(__file__).with_name("left_out.txt").read_text("utf-8").splitlines():
        if line and not line.startswith("#"):
            name, reason = line.split("  ")
            assert reason, line
            yield name


LEFT_OUT = set(left_out())
STRING = re.compile(r"CTZStrTest\.test_invalid_tzstr\[(.*)\]")
STRINGS = {name: found[1] for name in LEFT_OUT if (found := STRING.fullmatch(name))}


class Strings:
    """For CPython's tests of TZ strings, which it writes into files.

    These files have no type, which RFC 8536, 3.2, forbids.
    """

    def zone_from_tzstr(self, tzstr):
        zone = self.klass.from_tz_string(tzstr)
        if tzstr in STRINGS.values():
            raise ValueError(f"left out: {tzstr}")
        return zone


class Files:
    """For CPython's tests of odd files.

    Their first block has no type if all transitions are before 1901; RFC 8536, 3.2, requires one.
    """

    def construct_zone(self, *arguments, **options):
        data = super().construct_zone(*arguments, **options).read()
        if data[32:44] == bytes(12):
            data = data[:36] + struct.pack(">2llbbs", 1, 1, 0, 0, 0, b"\0") + data[44:]
        return io.BytesIO(data)


MIXINS = {cpython.CTZStrTest: (Strings,), cpython.CWeirdZoneTest: (Files,)}


def cases():
    """CPython's test cases: where one runs over both its modules, that over the one in C."""
    for case in vars(cpython).values():
        if isinstance(case, type) and issubclass(case, unittest.TestCase):
            if getattr(case, "module", cpython.c_zoneinfo) is cpython.c_zoneinfo:
                yield case


def load_tests(loader, standard_tests, pattern):
    suite, used = unittest.TestSuite(), set(STRINGS)
    for case in cases():
        name = case.__name__
        # The module's name is that of CPython's, so that its setUpModule is called.
        members = {"module": tz, "__module__": cpython.__name__, "__qualname__": name}
        over_this = type(name, (*MIXINS.get(case, ()), case), members)
        for test in loader.getTestCaseNames(case):
            found = {f"{name}.*", f"{name}.{test}"} & LEFT_OUT
            used |= found
            if not found:
                suite.addTest(over_this(test))
    assert used == LEFT_OUT, f"CPython has no such tests: {LEFT_OUT - used}"
    print(f"{suite.countTestCases()} tests of CPython; left out: {', '.join(sorted(LEFT_OUT))}")
    return suite
