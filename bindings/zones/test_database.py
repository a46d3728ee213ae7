#!/usr/bin/env python3
"""Tests of database.py: days beside datetime, rules beside the C library, and what is kept of
tables beside a comparison of clocks; and of what `generate --check` says of another database."""
import datetime
import os
import pathlib
import random
import struct
import subprocess
import sys
import tempfile
import time
import unittest

from database import (
    DAY,
    JulianDay,
    Refused,
    Rule,
    Type,
    WeekDay,
    YearDay,
    count_to_keep,
    read_links,
    read_version,
    read_zone,
    read_zones,
)

EPOCH = datetime.date(1970, 1, 1)
UTC = datetime.timezone.utc


def at(text):
    """The Unix time of a date and time in UTC."""
    return int(datetime.datetime.fromisoformat(text).replace(tzinfo=UTC).timestamp())


def file_of(footer, times=(), version=b'3', leaps=0):
    """A fat file whose types are those of the footer, and which has them in turn."""
    rule = Rule(footer)
    types = [kind for kind in (rule.std, rule.dst) if kind]
    chars = b''.join(kind.name.encode() + b'\0' for kind in types)
    records = b''.join(
        struct.pack('>lBB', kind.offset, kind.is_dst, place * (len(types[0].name) + 1))
        for place, kind in enumerate(types)
    )
    indices = bytes((place + 1) % len(types) for place in range(len(times)))

    def block(form, size):
        header = struct.pack(
            '>4sc15x6L', b'TZif', version, 0, 0, leaps, len(times), len(types), len(chars)
        )
        packed = struct.pack(f'>{len(times)}{form}', *times)
        return header + packed + indices + records + chars + bytes(size * leaps)

    return block('l', 8) + block('q', 12) + f'\n{footer}\n'.encode()


class Days(unittest.TestCase):
    def test_days_are_those_of_datetime(self):
        for year in [*range(1, 9999, 199), 1900, 1972, 2000, 2023, 2024, 2100]:
            first = datetime.date(year, 1, 1)
            days = [first + datetime.timedelta(day) for day in range(365)]
            days += [datetime.date(year, 12, 31)] * (days[-1].day == 30)
            for place in (0, 58, 59, 60, 364):
                self.assertEqual(YearDay(place).day_in(year), (days[place] - EPOCH).days)
            others = [day for day in days if (day.month, day.day) != (2, 29)]
            for place in (1, 59, 60, 365):
                self.assertEqual(JulianDay(place).day_in(year), (others[place - 1] - EPOCH).days)
            for month in range(1, 13):
                for week_day in range(7):
                    found = [
                        day
                        for day in days
                        if day.month == month and day.isoweekday() % 7 == week_day
                    ]
                    for week in range(1, 6):
                        expected = (found[min(week, len(found)) - 1] - EPOCH).days
                        self.assertEqual(WeekDay(month, week, week_day).day_in(year), expected)


class Rules(unittest.TestCase):
    def test_types_are_those_of_the_c_library(self):
        # Days from February to November, so that a change is in the year of its day, where the C
        # library looks for it.
        chance = random.Random(1)

        def day_and_time():
            day = chance.randrange(40, 320)
            week_day = f'M{chance.randint(2, 11)}.{chance.randint(1, 5)}.{chance.randrange(7)}'
            hours = chance.choice([chance.randint(0, 24), chance.randint(-167, 167)])
            return f'{chance.choice([f"J{day}", day, week_day])}/{hours}:{chance.randrange(60):02}'

        tried = 0
        while tried < 200:
            text = (
                f'STD{chance.randint(-23, 23)}:{chance.randrange(60):02}'
                f'DST{chance.choice(["", chance.randint(-23, 23)])}'
                f',{day_and_time()},{day_and_time()}'
            )
            rule = Rule(text)
            changes = rule.changes(1980, 2030)
            if any(one[1] == next_one[1] for one, next_one in zip(changes, changes[1:])):
                continue  # the changes swap their order in some year, so that it is no rule
            tried += 1
            os.environ['TZ'] = text
            time.tzset()
            for change, _ in changes[1:]:
                for instant in (change - 1, change, change + 40 * DAY):
                    shown = time.localtime(instant)
                    expected = Type(shown.tm_gmtoff, shown.tm_isdst == 1, shown.tm_zone)
                    self.assertEqual(rule.type_at(instant), expected, (text, instant))

    def test_rules_of_places(self):
        for text, changes in [
            # RFC 8536, 3.3.1: daylight saving time all year.
            ('EST5EDT,0/0,J365/25', []),
            ('XXX3EDT4,0/0,J365/23', []),
            # Nuuk: on the Saturday before the last Sunday, at 22:00 and 23:00.
            ('<-02>2<-01>,M3.5.0/-1,M10.5.0/0', [('2025-03-30T01:00', 3), ('2025-10-26T01:00', 1)]),
            # Dublin: standard time is in summer.
            ('IST-1GMT0,M10.5.0,M3.5.0/1', [('2025-03-30T01:00', 0), ('2025-10-26T01:00', 2)]),
            # Gaza: at 02:00 of the Saturday after the fourth Thursday.
            ('EET-2EEST,M3.4.4/50,M10.4.4/50', [('2025-03-29T00:00', 3), ('2025-10-24T23:00', 1)]),
        ]:
            found = [instant for instant, _ in Rule(text).changes(2025, 2025)]
            self.assertEqual(found, [at(instant) for instant, _ in changes], text)

    def test_daylight_saving_time_all_year_has_one_type(self):
        rule = Rule('EST5EDT,0/0,J365/25')
        for text in ('1969-07-01', '2024-01-01T05:00', '2024-01-01T04:59:59', '2024-12-31T12:00'):
            self.assertEqual(rule.type_at(at(text)), Type(-4 * 3600, True, 'EDT'))

    def test_other_strings_are_refused(self):
        for text in [
            'A3',
            'EST',
            'EST25',
            'EST5EDT',
            'EST5EDT,M3.2.0',
            'EST5EDT,M13.2.0,M11.1.0',
            'EST5EDT,M3.0.0,M11.1.0',
            'EST5EDT,M3.2.7,M11.1.0',
            'EST5EDT,J0,J365',
            'EST5EDT,366,1',
            'EST5EDT,M3.2.0/168,M11.1.0',
            'EST5EDT,M3.2.0,M11.1.0x',
            '<E>5',
            'EST5EDT,M3.2.0/2:60,M11.1.0',
        ]:
            with self.assertRaises(Refused, msg=text):
                Rule(text)
        with self.assertRaises(Refused):
            Rule('EST5EDT,J60/0,J60/1').changes(2025, 2025)


class Tables(unittest.TestCase):
    def test_the_fewest_transitions_of_the_same_clock_are_kept(self):
        rule = Rule('CET-1CEST,M3.5.0,M10.5.0/3')
        types = [rule.std, rule.dst, Type(0, False, 'WET'), rule.std]
        chance = random.Random(1)
        for _ in range(100):
            table = [(time, types.index(kind)) for time, kind in rule.changes(1996, 2006)]
            for _ in range(chance.randrange(4)):
                place = chance.randrange(len(table))
                time, index = table[place]
                match chance.randrange(4):
                    case 0:
                        del table[place]
                    case 1:
                        table[place] = (time + chance.choice([-3600, 3600]), index)
                    case 2:
                        table[place] = (time, chance.randrange(4))
                    case 3:
                        table.insert(place + 1, (time + 30 * DAY, index))
            if rule.type_at(table[-1][0]) != types[table[-1][1]]:
                with self.assertRaises(Refused):
                    count_to_keep(table, types, rule)
                continue
            instants = sorted(
                {
                    instant + beside
                    for instant, _ in table + rule.changes(1995, 2007)
                    for beside in (-1, 0, 1)
                }
            )
            by_rule = {instant: rule.type_at(instant) for instant in instants}

            def clock(count):
                shown = [types[0]] * sum(instant < table[0][0] for instant in instants)
                for instant in instants[len(shown) :]:
                    past = [index for start, index in table if start <= instant]
                    follows = instant >= table[count - 1][0]
                    shown.append(by_rule[instant] if follows else types[past[-1]])
                return shown

            same = [count for count in range(1, len(table)) if clock(count) == clock(len(table))]
            self.assertEqual(count_to_keep(table, types, rule), min(same, default=len(table)))

    def test_tables_of_rules_of_one_type_stay(self):
        rule = Rule('JST-9')
        types = [Type(33539, False, 'LMT'), rule.std, Type(36000, True, 'JDT')]
        table = [(-2587712400, 1), (-683802000, 2), (-672310800, 1)]
        self.assertEqual(count_to_keep(table, types, rule), 3)
        # A last transition that changes nothing goes.
        self.assertEqual(count_to_keep([*table, (0, 1)], types, rule), 3)
        self.assertEqual(count_to_keep([], types, rule), 0)
        self.assertEqual(count_to_keep(table[:2], types, None), 2)


class Files(unittest.TestCase):
    def test_a_file_gives_its_zone(self):
        zone = read_zone(file_of('CET-1CEST,M3.5.0,M10.5.0/3', [0, 100, 2**31 - 1]))
        self.assertEqual(zone.table, ((0, 1), (100, 0), (2**31 - 1, 1)))
        self.assertEqual(zone.types, (Type(3600, False, 'CET'), Type(7200, True, 'CEST')))
        self.assertEqual(zone.footer, 'CET-1CEST,M3.5.0,M10.5.0/3')

    def test_other_files_are_refused(self):
        whole = file_of('CET-1CEST,M3.5.0,M10.5.0/3', [0])
        self.assertTrue(read_zone(whole))
        empty = struct.pack('>4sc15x6L', b'TZif', b'2', 0, 0, 0, 0, 0, 0)
        slim = empty + whole[whole.index(b'TZif', 4) :]
        first = file_of('UTC0', version=b'\0')
        for data in (slim, first, file_of('UTC0', leaps=1), whole[:-1], whole + b'\n'):
            with self.assertRaises(Refused):
                read_zone(data)
        for length in range(len(whole)):
            with self.assertRaises((Refused, struct.error, ValueError)):
                read_zone(whole[:length])

    def test_a_folder_says_its_version(self):
        with tempfile.TemporaryDirectory() as name:
            folder = pathlib.Path(name)
            with self.assertRaises(Refused):
                read_version(folder)
            (folder / 'tzdata.zi').write_text('# version 2031c\n# redo posix_only\n')
            self.assertEqual(read_version(folder), '2031c')
            (folder / '+VERSION').write_text('2031d\n')
            self.assertEqual(read_version(folder), '2031d')
            (folder / '+VERSION').unlink()
            (folder / 'tzdata.zi').write_text('R A 1981 o - Mar 29 1u 1 S\n')
            with self.assertRaises(Refused):
                read_version(folder)

    def test_a_folder_without_zones_is_refused(self):
        with tempfile.TemporaryDirectory() as name:
            folder = pathlib.Path(name)
            (folder / 'leapseconds').write_text('# none\n')
            with self.assertRaisesRegex(Refused, 'has no TZif files'):
                read_zones(folder)
            (folder / 'Europe').mkdir()
            (folder / 'Europe/Paris').write_bytes(file_of('CET-1CEST,M3.5.0,M10.5.0/3', [0]))
            self.assertEqual(list(read_zones(folder)), ['Europe/Paris'])


class Links(unittest.TestCase):
    def test_the_second_name_of_a_line_l_is_a_link(self):
        with tempfile.TemporaryDirectory() as name:
            folder = pathlib.Path(name)
            self.assertEqual(read_links(folder), set())
            text = '# version 2031c\nZ Asia/Kolkata 5:30 - IST\nL Asia/Kolkata Asia/Calcutta\n'
            (folder / 'tzdata.zi').write_text(text)
            self.assertEqual(read_links(folder), {'Asia/Calcutta'})


class Generate(unittest.TestCase):
    def generate(self, *arguments):
        program = pathlib.Path(__file__).resolve().with_name('generate')
        return subprocess.run(
            [sys.executable, '-B', program, *arguments], capture_output=True, text=True
        )

    def test_files_that_a_database_does_not_give_are_named(self):
        with tempfile.TemporaryDirectory() as folder:
            (pathlib.Path(folder) / '+VERSION').write_text('2001a\n')
            (pathlib.Path(folder) / 'Zone').write_bytes(file_of('UTC0', [0]))
            found = self.generate('--check', folder)
        self.assertEqual(found.returncode, 1)
        self.assertIn('version 2001a: 1 names, 1 zones, ', found.stdout)
        self.assertIn('src/zones/names.rs is not what this database gives\n', found.stderr)
        self.assertIn('the figures of README.md are not those of this database\n', found.stderr)

    def test_bad_arguments_and_folders_are_refused(self):
        with tempfile.TemporaryDirectory() as folder:
            for arguments in (['--chek'], ['--check', folder, folder], [folder, '-x']):
                self.assertEqual(self.generate(*arguments).returncode, 2)
            found = self.generate('--check', folder)
        self.assertEqual(found.returncode, 1)
        self.assertRegex(found.stderr, '^generate: .* has neither ')


if __name__ == '__main__':
    unittest.main()
