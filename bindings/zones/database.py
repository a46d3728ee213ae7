"""The tz database as fat TZif files have it (RFC 8536): the table and the rule of each zone, and
how much of the table its rule says too."""
import collections
import re
import struct

DAY = 86400

# What is in a folder of zones beside them: files with leap seconds, and further copies.
LEFT_OUT = {'right', 'posix', 'posixrules', 'localtime'}

Type = collections.namedtuple('Type', 'offset is_dst name')
# The table has pairs of an instant and the index of the type from it on, and the footer is a TZ
# string, or empty.
Zone = collections.namedtuple('Zone', 'table types footer')


class Refused(Exception):
    """A database, a file or a TZ string that is not read, with the reason."""


# Days of rules

MONTHS = [0, 31, 59, 90, 120, 151, 181, 212, 243, 273, 304, 334, 365]


def is_leap(year):
    return year % 4 == 0 and (year % 100 != 0 or year % 400 == 0)


def days_before_year(year):
    """Days from 1970-01-01 to the first day of a year of the Gregorian calendar."""
    past = year - 1
    return 365 * (year - 1970) + past // 4 - past // 100 + past // 400 - 477


def days_before_month(year, month):
    """Days from 1970-01-01 to the first day of a month, of which the 13th is the next January."""
    return days_before_year(year) + MONTHS[month - 1] + (month > 2 and is_leap(year))


class JulianDay(collections.namedtuple('JulianDay', 'day')):
    """Jn: day 1 to 365 of a year, where the 29th of February is not counted."""

    def day_in(self, year):
        return days_before_year(year) + self.day - 1 + (self.day > 59 and is_leap(year))


class YearDay(collections.namedtuple('YearDay', 'day')):
    """n: day 0 to 365 of a year, where the 29th of February is counted."""

    def day_in(self, year):
        return days_before_year(year) + self.day


class WeekDay(collections.namedtuple('WeekDay', 'month week day')):
    """Mm.w.d: the w-th day d of the week in month m; day 0 is Sunday, and the fifth is the last."""

    def day_in(self, year):
        first = days_before_month(year, self.month)
        # 1970-01-01 was a Thursday.
        found = first + (self.day - (first + 4)) % 7 + 7 * (self.week - 1)
        return found - 7 if found >= days_before_month(year, self.month + 1) else found


# Rules


class Rule:
    """What a TZ string says (POSIX.1-2017, 8.3, with the hours of RFC 8536, 3.3.1): the type `std`,
    and if clocks change the type `dst`, and the days and times `start` and `end` of the changes to
    it and from it."""

    def __init__(self, text):
        self.text = text
        self.rest = text
        name = self.take_name()
        self.std = Type(-self.take_seconds(24), False, name)
        self.dst = None
        if self.rest:
            name = self.take_name()
            offset = self.std.offset + 3600
            if not self.rest.startswith(','):
                offset = -self.take_seconds(24)
            self.dst = Type(offset, True, name)
            self.start = self.take_day_and_time()
            self.end = self.take_day_and_time()
        if self.rest:
            raise self.refused(f'goes on with {self.rest!r}')

    def refused(self, reason):
        return Refused(f'the TZ string {self.text!r} {reason}')

    def take(self, pattern):
        found = re.match(pattern, self.rest, re.ASCII)
        if not found:
            raise self.refused(f'cannot be read from {self.rest!r} on')
        self.rest = self.rest[found.end() :]
        return found

    def take_name(self):
        found = self.take('<([A-Za-z0-9+-]{3,})>|([A-Za-z]{3,})')
        return found[1] or found[2]

    def take_seconds(self, most_hours):
        """[+-]hh[:mm[:ss]]"""
        found = self.take(r'([+-]?)(\d{1,3})(?::(\d\d))?(?::(\d\d))?')
        hours, minutes, seconds = (int(found[group] or 0) for group in (2, 3, 4))
        if hours > most_hours or minutes > 59 or seconds > 59:
            raise self.refused('has a time out of range')
        return (-1 if found[1] == '-' else 1) * (3600 * hours + 60 * minutes + seconds)

    def take_day_and_time(self):
        """,day[/time], where the time is 02:00:00 if there is none."""
        found = self.take(r',(?:M(\d\d?)\.(\d)\.(\d)|J(\d{1,3})|(\d{1,3}))')
        month, week, week_day, julian, year_day = (part and int(part) for part in found.groups())
        if month is not None:
            day = WeekDay(month, week, week_day)
            valid = 1 <= month <= 12 and 1 <= week <= 5 and week_day <= 6
        elif julian is not None:
            day, valid = JulianDay(julian), 1 <= julian <= 365
        else:
            day, valid = YearDay(year_day), year_day <= 365
        if not valid:
            raise self.refused('has a day out of range')
        if not self.rest.startswith('/'):
            return day, 7200
        self.take('/')
        return day, self.take_seconds(167)

    def changes(self, first, last):
        """The changes of the clock whose days are in the years first to last, in order, as pairs of
        an instant and the type from it on. Where daylight saving time ends at the instant at which
        that of the next year starts, clocks do not change."""
        if self.dst is None:
            return []
        found = collections.defaultdict(list)
        for year in range(first - 1, last + 2):
            for (day, time), before, after in (
                (self.start, self.std, self.dst),
                (self.end, self.dst, self.std),
            ):
                found[day.day_in(year) * DAY + time - before.offset].append((year, after))
        if any(len({year for year, _ in changes}) < len(changes) for changes in found.values()):
            raise self.refused('has daylight saving time that ends as it starts')
        return [
            (time, changes[0][1])
            for time, changes in sorted(found.items())
            if len(changes) == 1 and first <= changes[0][0] <= last
        ]

    def changes_between(self, after, before):
        """The changes after an instant and before another."""
        changes = self.changes(year_near(after) - 2, year_near(before) + 2)
        return [change for change in changes if after < change[0] < before]

    def type_at(self, time):
        if self.dst is None:
            return self.std
        # Without a change in two years daylight saving time is all year.
        past = self.changes_between(time - 800 * DAY, time + 1)
        return past[-1][1] if past else self.dst


def year_near(time):
    """The year of an instant or one beside it: an average year has 31556952 seconds."""
    return 1970 + time // 31556952


def count_to_keep(table, types, rule):
    """The least number of transitions to keep so that the clock stays the same at every instant.

    A zone follows its rule from its last transition on. So the last one can go if, from the one
    before it up to it, the rule has the type of the one before and does not change."""
    count = len(table)
    if rule is None or count == 0:
        return count
    if rule.type_at(table[-1][0]) != types[table[-1][1]]:
        raise Refused('its rule does not have the type of its last transition')
    while count > 1:
        (time, index), (next_time, _) = table[count - 2 : count]
        if rule.type_at(time) != types[index] or rule.changes_between(time, next_time):
            break
        count -= 1
    return count


# Files


def read_header(data, at):
    magic, version, *counts = struct.unpack_from('>4sc15x6L', data, at)
    if magic != b'TZif' or version not in (b'2', b'3', b'4'):
        raise Refused('no TZif file of version 2 or later')
    return counts


def read_zone(data):
    """The zone of a fat TZif file: what its block of 64-bit times and its footer say."""
    utc, standard, leaps, small_times, type_count, chars = read_header(data, 0)
    at = 44 + 5 * small_times + 6 * type_count + chars + 8 * leaps + standard + utc
    utc, standard, leaps, times, type_count, chars = read_header(data, at)
    if leaps:
        raise Refused('it has leap seconds')
    if times and not small_times:
        raise Refused('it is slim: its first block is empty')
    at += 44
    instants = struct.unpack_from(f'>{times}q', data, at)
    at += 8 * times
    indices = data[at : at + times]
    at += times
    records = [struct.unpack_from('>lBB', data, at + 6 * place) for place in range(type_count)]
    at += 6 * type_count
    names = data[at : at + chars].decode('ascii')
    at += chars + standard + utc
    footer = re.fullmatch('\n([^\n]*)\n', data[at:].decode('ascii'))
    if not footer:
        raise Refused('it has no footer')
    types = [
        Type(offset, is_dst != 0, names[start : names.index('\0', start)])
        for offset, is_dst, start in records
    ]
    return Zone(tuple(zip(instants, indices)), tuple(types), footer[1])


def read_version(folder):
    """The version that +VERSION or the first line of tzdata.zi says."""
    if (folder / '+VERSION').is_file():
        return (folder / '+VERSION').read_text().strip()
    if (folder / 'tzdata.zi').is_file():
        with open(folder / 'tzdata.zi') as text:
            found = re.fullmatch(r'# version (\S+)\n', text.readline())
        if found:
            return found[1]
    raise Refused(f'{folder} has neither +VERSION nor tzdata.zi with a version')


def read_links(folder):
    """The names that the lines `L` of tzdata.zi give to zones of other names, which are canonical;
    empty if the folder has no such file."""
    if not (folder / 'tzdata.zi').is_file():
        return set()
    lines = (folder / 'tzdata.zi').read_text().splitlines()
    return {line.split()[2] for line in lines if line.startswith('L ')}


def read_zones(folder):
    """The zones of a folder by name."""
    zones = {}
    for path in sorted(folder.rglob('*')):
        parts = path.relative_to(folder).parts
        if parts[0] in LEFT_OUT or not path.is_file():
            continue
        data = path.read_bytes()
        if not data.startswith(b'TZif'):
            continue
        try:
            zones['/'.join(parts)] = read_zone(data)
        except (Refused, struct.error, ValueError) as reason:
            raise Refused(f'{path}: {reason}') from None
    if not zones:
        raise Refused(f'{folder} has no TZif files')
    return zones


def cut(zone):
    """The zone without the transitions that its rule says too."""
    count = count_to_keep(zone.table, zone.types, Rule(zone.footer) if zone.footer else None)
    return zone._replace(table=zone.table[:count])
