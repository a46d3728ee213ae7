"""Programs that take time zones, over `ZoneInfo` beside `zoneinfo.ZoneInfo`.

A package that is not installed is not tested.
"""

import pickle
import random
import unittest
import warnings
import zoneinfo
from datetime import datetime, timedelta, timezone

from packages import is_installed
from tz import ZoneInfo

EPOCH, SECOND = datetime(1970, 1, 1), timedelta(seconds=1)
NAMES = ["Europe/Paris", "Europe/Dublin", "America/New_York", "Australia/Lord_Howe", "Asia/Tokyo"]
# In Paris, Dublin and New York: folds and gaps, and beside them.
NEAR = [
    datetime(2000, month, day, hour, 30)
    for month, day in ((3, 26), (4, 2), (10, 29), (7, 1))
    for hour in range(4)
]


def answer(use, *arguments):
    try:
        return "answer", use(*arguments)
    except Exception as error:
        return "error", type(error).__name__, str(error)


class Beside(unittest.TestCase):
    def compare(self, package, uses_of, many=40):
        """Compares uses, which a function makes of a time, and of each kind has an answer."""
        source, answered, count = random.Random(package), {}, 0
        for name in NAMES:
            zones = ZoneInfo(name), zoneinfo.ZoneInfo(name)
            times = [
                EPOCH + source.randrange(-(10**9), 4 * 10**9) * SECOND for _ in range(many)
            ]
            for time in NEAR + times:
                for kind, use in uses_of(time).items():
                    found, expected = (answer(use, zone) for zone in zones)
                    self.assertEqual(found, expected, (name, time, kind))
                    answered[kind] = answered.get(kind, 0) + (found[0] == "answer")
                    count += 1
        self.assertEqual([kind for kind, number in answered.items() if not number], [])
        print(f"{package}: {count} comparisons of {len(answered)} kinds, none differs")

    def test_datetime(self):
        def uses_of(time):
            return {
                "format": lambda zone: f"{time.replace(tzinfo=zone):%c %z %Z}",
                "timestamp": lambda zone: time.replace(tzinfo=zone).timestamp(),
                "to UTC": lambda zone: time.replace(tzinfo=zone, fold=1).astimezone(timezone.utc),
                "timetuple": lambda zone: time.replace(tzinfo=zone).utctimetuple(),
                "equal": lambda zone: time.replace(tzinfo=zone) == EPOCH.replace(tzinfo=zone),
            }

        self.compare("datetime", uses_of)

    def test_babel(self):
        if not is_installed("babel"):
            return
        from babel import dates

        def uses_of(time):
            form = "yyyy-MM-dd HH:mm zzzz ZZZZ VVVV v"
            return {
                "full": lambda zone: dates.format_datetime(time, "full", tzinfo=zone, locale="fr"),
                "form": lambda zone: dates.format_datetime(time, form, tzinfo=zone, locale="en_US"),
                "time": lambda zone: dates.format_time(time, "long", tzinfo=zone, locale="de"),
                "name": lambda zone: dates.get_timezone_name(zone, locale="de"),
                "GMT": lambda zone: dates.get_timezone_gmt(time.replace(tzinfo=zone)),
                "location": lambda zone: dates.get_timezone_location(zone, locale="en"),
            }

        self.compare("babel", uses_of)

    def test_dateutil(self):
        if not is_installed("dateutil"):
            return
        from dateutil import rrule, tz as zones

        def rule(time, zone):
            start = time.replace(tzinfo=zone)
            return list(map(str, rrule.rrule(rrule.DAILY, count=20, dtstart=start)))

        def uses_of(time):
            return {
                "exists": lambda zone: zones.datetime_exists(time, zone),
                "ambiguous": lambda zone: zones.datetime_ambiguous(time.replace(tzinfo=zone)),
                "resolve": lambda zone: str(zones.resolve_imaginary(time.replace(tzinfo=zone))),
                "rrule": lambda zone: rule(time, zone),
            }

        self.compare("dateutil", uses_of)

    def test_django(self):
        if not is_installed("django"):
            return
        import django
        from django.conf import settings

        if not settings.configured:
            database = {"ENGINE": "django.db.backends.sqlite3", "NAME": ":memory:"}
            templates = [{"BACKEND": "django.template.backends.django.DjangoTemplates"}]
            settings.configure(
                DATABASES={"default": database}, USE_TZ=True, TIME_ZONE="UTC", TEMPLATES=templates
            )
            django.setup()
        from django.db import connection, models
        from django.db.models.functions import ExtractHour, TruncDay, TruncHour
        from django.template import Context, Template
        from django.utils import timezone as zones

        class Event(models.Model):
            at = models.DateTimeField()

            class Meta:
                app_label = "events"

        with connection.schema_editor() as editor:
            editor.create_model(Event)
        template = Template("{% load tz %}{{ at|localtime|date:'c T e' }}")

        def stored(time, zone, *functions):
            Event.objects.all().delete()
            Event.objects.create(at=time.replace(tzinfo=zone))
            columns = {f"column{place}": call for place, call in enumerate(functions)}
            rows = Event.objects.annotate(**columns).values_list("at", *columns)
            return [[str(value) for value in row] for row in rows]

        def shown(time, zone):
            with zones.override(zone):
                return template.render(Context({"at": time.replace(tzinfo=timezone.utc)}))

        def uses_of(time):
            aware = time.replace(tzinfo=timezone.utc)
            return {
                "make_aware": lambda zone: zones.make_aware(time, zone).isoformat(),
                "make_naive": lambda zone: zones.make_naive(aware, zone).isoformat(),
                "localtime": lambda zone: zones.localtime(aware, zone).isoformat(),
                "template": lambda zone: shown(time, zone),
                "stored": lambda zone: stored(time, zone),
                "truncated": lambda zone: stored(
                    time,
                    zone,
                    TruncDay("at", tzinfo=zone, is_dst=False),
                    TruncHour("at", tzinfo=zone, is_dst=False),
                    ExtractHour("at", tzinfo=zone),
                ),
            }

        self.compare("django", uses_of, 5)

    def test_sqlalchemy(self):
        if not is_installed("sqlalchemy"):
            return
        import sqlalchemy as sql

        class Instant(sql.types.TypeDecorator):
            """Stored in UTC, and read in a zone."""

            impl, cache_ok = sql.DateTime, False

            def __init__(self, zone):
                super().__init__()
                self.zone = zone

            def process_bind_param(self, value, dialect):
                return value.astimezone(timezone.utc).replace(tzinfo=None)

            def process_result_value(self, value, dialect):
                return value.replace(tzinfo=timezone.utc).astimezone(self.zone)

        def stored(time, zone):
            engine = sql.create_engine("sqlite://")
            events = sql.Table("events", sql.MetaData(), sql.Column("at", Instant(zone)))
            events.create(engine)
            with engine.begin() as connection:
                aware = [time.replace(tzinfo=zone, fold=fold) for fold in (0, 1)]
                connection.execute(events.insert(), [{"at": at} for at in aware])
                rows = connection.execute(sql.select(events.c.at)).scalars().all()
                count = sql.select(sql.func.count()).where(events.c.at == aware[0])
                found = connection.execute(count).scalar()
            engine.dispose()
            return [(row.isoformat(), row.fold, row.tzinfo is zone) for row in rows], found

        self.compare("sqlalchemy", lambda time: {"column": lambda zone: stored(time, zone)}, 2)

    def test_dask(self):
        """A column over partitions, by threads."""
        if not is_installed("dask"):
            return
        import numpy
        import pandas
        from dask import dataframe

        zone, source = ZoneInfo("Europe/Paris"), random.Random(5)
        nanoseconds = [source.randrange(-(1 << 61), 1 << 62) for _ in range(5000)]
        times = pandas.Series(numpy.array(nanoseconds, "M8[ns]"), name="at")
        parts = dataframe.from_pandas(times, npartitions=7)
        for call in (zone.local_times, zone.offsets, pickle.loads(pickle.dumps(zone.local_times))):
            for scheduler in ("sync", "threads"):
                found = parts.map_partitions(call).compute(scheduler=scheduler)
                pandas.testing.assert_series_equal(found, call(times))
        aware = parts.dt.tz_localize("UTC").dt.tz_convert(zone).dt.hour.compute()
        self.assertTrue((aware == zone.local_times(times).dt.hour).all())
        print(f"dask: {len(times)} times in {parts.npartitions} partitions")


if __name__ == "__main__":
    warnings.simplefilter("default")
    unittest.main()
