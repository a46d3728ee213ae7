"""Measures the section of docs/BENCHMARKS.md on Python, beside zoneinfo and pandas.

usage: python bindings/python/speed.py [--write]     with the module, numpy and pandas installed

It prints the section, or with --write puts it into the page. What is compared is measured in turn,
in one process: a time is the processor's, and the least of all rounds, a ratio the median of those
of each round.
"""

import os
import platform
import random
import re
import statistics
import sys
import textwrap
import time
import zoneinfo
from array import array
from concurrent.futures import ThreadPoolExecutor
from datetime import datetime, timedelta, timezone
from pathlib import Path

import numpy
import pandas

import tz
from tz import _zone

PAGE = Path(__file__).resolve().parents[2] / "docs" / "BENCHMARKS.md"
NAME, CALLS, LENGTH, FEW, THREADS = "Europe/Paris", 2_000, 1_000_000, 20_000, 4
EPOCH, SECOND = datetime(1970, 1, 1), timedelta(seconds=1)
OURS, THEIRS = tz.ZoneInfo(NAME), zoneinfo.ZoneInfo(NAME)
ABOUT = """\
`python bindings/python/speed.py --write` writes this: on {date}, {name}, in CPython {python} with
numpy {numpy} and pandas {pandas}, on {processors} processors with a load of {load:.0f}. All are
measured in turn, in processor time: the least of some rounds, and for ratios the median."""
CALL = """
Nanoseconds for a call, with the loop that makes it, of random times: *a month* is in 2026, without a
change, *a night* the six hours around one; *years* are from 1970 to 2038, and *all* from 1 to 9999.
"""
COLUMNS = """
Nanoseconds for a value of a column of {length:,}, random times from 1970 to 2038; pandas' have
{few:,}. Answers to integers are written to buffers that are passed.
"""


def measured(calls, values, rounds, clock=time.thread_time):
    """For each call the nanoseconds for a value, of each round."""
    times = [[] for _ in calls]
    for _ in range(rounds):
        for call, found in zip(calls, times):
            start = clock()
            call()
            found.append((clock() - start) / values * 1e9)
    return times


def least(times):
    return f"{min(times):,.0f}"


def row(*cells):
    return f"| {' | '.join(cells)} |"


def head(*cells):
    return [row(*cells), row(*["---"] * len(cells))]


def each(call, zone, times):
    def run():
        for value in times:
            call(zone, value)

    return run


def single_calls(source):
    """Calls by the module in C, and by ctypes."""
    month = [datetime(2026, 3, 1) + source.randrange(27 * 86400) * SECOND for _ in range(CALLS)]
    years = [EPOCH + source.randrange(1 << 31) * SECOND for _ in range(CALLS)]
    night = [datetime(2026, 10, 25) + source.randrange(6 * 3600) * SECOND for _ in range(CALLS)]
    centuries = [datetime(1, 1, 2) + source.randrange(10**11 * 3) * SECOND for _ in range(CALLS)]
    yield from head("call", "`zoneinfo`", "tz in C", "by ctypes", "tz in C / `zoneinfo`")
    for when, times in (
        ("a month", month), ("years", years), ("a night", night), ("all", centuries)
    ):  # fmt: skip
        placed = [[value.replace(tzinfo=zone) for value in times] for zone in (THEIRS, OURS)]
        is_usual = when in ("a month", "years")
        for name, in_python in zip(("utcoffset", "tzname", "dst", "fromutc"), _zone._in_python):
            if name in ("tzname", "dst") and not is_usual:
                continue
            calls = [
                each(getattr(zoneinfo.ZoneInfo, name), THEIRS, placed[0]),
                each(getattr(tz.ZoneInfo, name), OURS, placed[1]),
                each(in_python, OURS, placed[1]),
            ]
            found = measured(calls, CALLS, 101)
            yield row(f"`{name}`, {when}", *map(least, found), ratio(found))
        if not is_usual:
            continue
        utc = [value.replace(tzinfo=timezone.utc) for value in times]
        shown = [each(lambda zone, at: at.astimezone(zone), zone, utc) for zone in (THEIRS, OURS)]
        meant = [each(lambda _, at: at.timestamp(), None, values) for values in placed]
        for name, calls in (("datetime.astimezone", shown), ("datetime.timestamp", meant)):
            found = measured(calls, CALLS, 101)
            yield row(f"`{name}`, {when}", *map(least, found), "", ratio(found))


def ratio(times):
    return f"{statistics.median(ours / theirs for theirs, ours in zip(times[0], times[1])):.2f}"


def columns(source):
    integers = sorted(source.randrange(1 << 31) for _ in range(LENGTH))
    integers = [array("q", integers), array("q", source.sample(integers, LENGTH))]
    times = [numpy.array(column, "M8[s]").astype("M8[ns]") for column in integers]
    local = [OURS.local_times(column) for column in times]
    codes, offsets, instants = (numpy.zeros(LENGTH, dtype) for dtype in ("u4", "i4", "i8"))
    yield from head("column", "in order", "not in order")
    for name, call, pair in (
        (
            "`offsets`, integers",
            lambda column: OURS.offsets(column, out=offsets, codes=codes),
            integers,
        ),
        ("`offsets`, `datetime64[ns]`", OURS.offsets, times),
        ("`local_times`, `datetime64[ns]`", OURS.local_times, times),
        (
            "`instants`, integers",
            lambda column: OURS.instants(column, out=instants, codes=codes),
            integers,
        ),
        ("`instants`, `datetime64[ns]`", OURS.instants, local),
    ):
        calls = [lambda column=column: call(column) for column in pair]
        yield row(name, *map(least, measured(calls, LENGTH, 15)))
    for title, zone in (("`zoneinfo`", THEIRS), ("tz", OURS), ("its own, by name", NAME)):
        for name, call, pair in (
            (f"pandas' `tz_convert`, {title}", converted, times),
            (f"pandas' `tz_localize`, {title}", localized, local),
        ):
            few = [pandas.DatetimeIndex(column[:: LENGTH // FEW]) for column in pair]
            calls = [lambda column=column: call(column, zone) for column in few]
            yield row(name, *map(least, measured(calls, FEW, 7)))
    yield from ["", *threads(integers[1])]


def converted(column, zone):
    return column.tz_localize("UTC").tz_convert(zone).tz_localize(None)


def localized(column, zone):
    return column.tz_localize(zone, ambiguous="NaT", nonexistent="shift_forward")


def threads(column):
    """As many columns one by one, and each in a thread."""
    outs = [(array("i", bytes(4 * LENGTH)), array("I", bytes(4 * LENGTH))) for _ in range(THREADS)]

    def run(out):
        OURS.offsets(column, out=out[0], codes=out[1])

    with ThreadPoolExecutor(THREADS) as pool:  # By the clock: the processor's time is for each.
        calls = [lambda: list(map(run, outs)), lambda: list(pool.map(run, outs))]
        one, each_ = measured(calls, 1, 25, time.perf_counter)
    gain = statistics.median(times[0] / times[1] for times in zip(one, each_))
    yield f"{THREADS} threads answer {THREADS} columns of integers {gain:.1f} times as fast as one."


def section():
    source = random.Random(1)
    about = ABOUT.format(
        date=time.strftime("%Y-%m-%d"),
        name=NAME,
        python=platform.python_version(),
        numpy=numpy.__version__,
        pandas=pandas.__version__,
        processors=os.cpu_count(),
        load=os.getloadavg()[0],
    )
    yield from ("## Python", "", textwrap.fill(about, 100, break_on_hyphens=False), CALL)
    yield from single_calls(source)
    yield COLUMNS.format(length=LENGTH, few=FEW)
    yield from columns(source)


def main():
    text = "\n".join(section()) + "\n"
    if "--write" not in sys.argv[1:]:
        print(text)
        return
    page = PAGE.read_text("utf-8")
    page, count = re.subn(r"(?ms)^## Python\n.*?(?=\n^## )", lambda _: text, page)
    assert count == 1, "the page has no section on Python"
    PAGE.write_text(page, "utf-8")


if __name__ == "__main__":
    main()
