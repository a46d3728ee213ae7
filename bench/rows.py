"""The rows of the benchmarks: query lines over a zone, and calls of the library over a zone, the same ones for each seed."""
import calendar
import os
import re
from typing import NamedTuple

import lines

ZONEINFO = '/usr/share/zoneinfo/'
STRING = 'CET-1CEST,M3.5.0,M10.5.0/3'
# A rule with two types whose daylight saving time never ends, so that its clock never changes.
CONSTANT = 'XXX3EDT4,0/0,J365/23'
# A rule whose latest start lies after its earliest end, so that these have to be compared in each kind of year.
MEETING = 'AAA0BBB,M3.2.0/24,M3.3.0/0'
FIRST, LAST = 1950, 2037
SEED = 7


# The instructions that some calls are meant to take at most.
GOALS = {
    '`DateTime::from_timespec`, fixed offset': 110,
    '`DateTime::from_timespec`, random, Paris': 150,
    '`DateTime::from_timespec`, sorted, Paris': 150,
    '`DateTime::from_timespec`, past the table, Paris': 190,
    '`DateTime::from_timespec`, random, TZ string': 185,
    '`DateTime::from_timespec`, 100000 transitions': 250,
    '`DateTime::from_timespec`, leap seconds': 400,
    '`DateTime::find`, random, Paris': 345,
    '`DateTime::find`, at jumps, Paris': 490,
    '`DateTime::find`, past the table, Paris': 385,
    '`DateTime::find`, random, TZ string': 385,
    '`DateTime::find`, at jumps, TZ string': 455,
    '`DateTime::find`, random, 100000 transitions': 620,
    '`DateTime::find`, leap seconds': 1000,
    '`DateTime::find_n`, fixed offset': 115,
    '`DateTime::find_n`, random, Paris': 172,
    '`DateTime::find_n`, at jumps, Paris': 215,
    '`DateTime::find_n`, past the table, Paris': 205,
    '`DateTime::find_n`, random, TZ string': 205,
    '`DateTime::find_n`, at jumps, TZ string': 275,
    '`DateTime::find_n`, random, 100000 transitions': 440,
    '`TimeZoneRef::find_local_time_type`, random, Paris': 140,
    '`DateTime::find_one`, random, Paris': 160,
    '`DateTime::find_one`, at jumps, Paris': 200,
    '`DateTime::meaning`, random, Paris': 165,
    '`DateTime::from_local`, random, Paris': 175,
    '`TimeZoneRef::following`, random, Paris': 95,
    'next of `changes_after`, 1900 to 2100, Paris': 108,
    'next of `changes_before`, 2100 to 1900, Paris': 128,
    '`UtcDateTime::new` and `unix_time`': 60,
    '`UtcDateTime::checked_add` and `unix_time`': 100,
    '`TimeZone::from_tz_data`, Paris': 8000,
    '`TimeZone::from_tz_data`, 100000 transitions': 2500000,
    '`TimeZone::from_posix_tz`, failing reader, TZ string': 2600,
    '`TimeZoneSettings` without directories, TZ string': 2600,
    '`AlternateTime::new`, TZ string': 1200,
    '`AlternateTime::new`, days that meet': 5000,
}


# Rows that README.md says nothing of: it speaks of zones with transitions or a rule, and of usual calls.
APART = (
    '`DateTime::from_timespec`, fixed offset',
    '`DateTime::find_n`, fixed offset',
    '`TimeZoneRef::following`, rule without a change',
)


# Calls that make a function which another call makes too, so that the compiler would keep it out of line for both: a program of its own makes them,
# or one for each.
APART_CALLS = (
    'meaning',
    'kept_segment',
    'parse',
    'format_log',
    'read_log',
    'find_local_time_type',
)
ALONE_CALLS = ('from_local',)
# What that of ALONE_CALLS lacks of the others.
SHARED_CALLS = ('find_one',)


# Calls over whole columns, which the bindings alone have, and the call of tz whose answers those of each place are, if there is one.
COLUMN_CALLS = {
    'column_offsets': None,
    'column_date_times': 'from_timespec',
    'column_instants': 'find_one',
}


# Rows of lines that no other program answers.
OWN_LINES = ('W, ten weeks, Paris',)


# Why tz takes more than the best peer, and the rows in which it may.
REASONS = {
    'a': 'checks the fields, and makes date times with fields, offset and name, where the others return seconds;',
    'b': 'allocates a list, where `find_n` uses slots of the caller, and the peers return one or two values;',
    'c': 'looks for a file of that name in three directories, by a call of the kit that clears 4096 bytes each time;',
    'd': 'makes tables for its lookups, and checks over all years that start and end keep their order, which jiff does not;',
    'e': 'checks that the transitions of a file rise, which glibc does not;',
    'f': 'checks the fields, which date does not.',
}
BEHIND = {
    '`DateTime::find`, fixed offset': 'ab',
    '`DateTime::find`, random, Paris': 'b',
    '`DateTime::find`, at jumps, Paris': 'b',
    '`DateTime::find`, at jumps, TZ string': 'b',
    '`DateTime::find`, random, 100000 transitions': 'b',
    '`DateTime::find`, weekly, Paris': 'b',
    '`DateTime::find_n`, fixed offset': 'a',
    '`UtcDateTime::new` and `unix_time`': 'f',
    '`TimeZone::from_posix_tz`, TZ string': 'c',
    '`TimeZoneSettings` without directories, TZ string': 'd',
    '`AlternateTime::new`, TZ string': 'd',
    '`AlternateTime::new`, days that meet': 'd',
    '`TimeZone::from_tz_data`, 100000 transitions': 'e',
    'time of `DateTime::find`, random, Paris': 'b',
    'time of `DateTime::find_n`, at jumps, Paris': 'a',
    'time of `DateTime::find_n`, random, 100000 transitions': 'a',
}


# What the column of each program measures. A run keeps with its figures what they were built as.
DRIVEN = 'called by a driver of {cxx}, `-O2`'
BUILDS = {
    'tz': 'the proved build, by {kit} for x86-64-v2',
    'through-C': f'the proved build as the library of `bindings/c`, {DRIVEN}',
    'C-cargo': f'the generated library of `bindings/c`, by {{rustc}} as cargo builds it, {DRIVEN}',
    'through-Rust': 'the generated crate of `bindings/rust`, by {rustc} with `lto`',
    'Rust-default': 'the same by cargo\'s default release profile, as most programs are built',
    'tz-rs': 'by {rustc} with `lto`',
    **dict.fromkeys(('glibc', 'cctz', 'date'), f'Debian\'s library, {DRIVEN}'),
    'tz-rs-default': 'by {rustc}, by cargo\'s default release profile',
    'chrono-tz': 'by {rustc} with `lto` and one codegen unit',
    'chrono-tz-default': 'by {rustc}, by cargo\'s default release profile',
    'Go': 'by its own compiler',
    'jiff': 'the port in the kit, by {kit} for x86-64-v2',
}


class Zone(NamedTuple):
    """A zone: tzq's arguments, the TZif file for programs that read no TZ strings, the jumps of its clock, and the year before which its table ends."""

    name: str
    arguments: list
    file: str
    jumps: list
    end: int = 9999


class Lines(NamedTuple):
    """A row of query lines."""

    name: str
    zone: Zone
    queries: list


class Calls(NamedTuple):
    """A row of calls. Its words are instants in seconds, or local times as 20001029023000."""

    name: str
    call: str
    zone: Zone
    words: list
    is_long: bool


class Zones:
    """The zones, the files of two of which are made in a folder."""

    def __init__(self, folder):
        many, string = os.path.join(folder, 'many_transitions'), os.path.join(folder, 'string')
        lines.file_of_many_transitions(many)
        lines.file_of_string(string, STRING)
        paris, leaps = ZONEINFO + 'Europe/Paris', ZONEINFO + 'right/Europe/Paris'
        new_york, kolkata = ZONEINFO + 'America/New_York', ZONEINFO + 'Asia/Kolkata'
        rule = lines.jumps_of_string(STRING, LAST + 1, 3000)
        self.fixed = Zone('fixed offset', ['-o', '3600'], '', [])
        self.paris = Zone('Paris', ['-f', paris], paris, lines.jumps_of_file(paris) + rule, LAST)
        jumps = lines.jumps_of_file(new_york)
        self.new_york = Zone('New York', ['-f', new_york], new_york, jumps, LAST)
        # Its offset is the same since 1945.
        jumps = lines.jumps_of_file(kolkata)
        self.kolkata = Zone('Kolkata', ['-f', kolkata], kolkata, jumps)
        self.string = Zone(
            'TZ string', ['-z', STRING], string, lines.jumps_of_string(STRING, 1900, 3000)
        )
        self.many = Zone('100000 transitions', ['-f', many], many, lines.jumps_of_file(many))
        # The clock of its leap seconds jumps at the same instants.
        self.leaps = Zone(
            'leap seconds',
            ['-f', leaps],
            leaps,
            lines.jumps_of_file(paris),
            lines.last_year_of_file(leaps),
        )
        self.constant = Zone('rule without a change', ['-z', CONSTANT], '', [])
        self.meeting = Zone('days that meet', ['-z', MEETING], '', [])


def query_lines(zones, count, seed=SEED):
    """The rows of lines."""
    fixed, paris, text, many, leaps = (
        zones.fixed,
        zones.paris,
        zones.string,
        zones.many,
        zones.leaps,
    )
    rng = lines.generator(seed)
    yield Lines('T, fixed offset', fixed, lines.log_instants(rng, count))
    yield Lines('T, nearly sorted, Paris', paris, lines.log_instants(rng, count))
    yield Lines('T, random, Paris', paris, lines.random_instants(rng, count))
    yield Lines('T, past the table, Paris', paris, lines.random_instants(rng, count, 2100, 3000))
    yield Lines('T, nearly sorted, TZ string', text, lines.log_instants(rng, count))
    yield Lines('T, random, TZ string', text, lines.random_instants(rng, count))
    yield Lines(
        'T, random, 100000 transitions', many, lines.random_instants(rng, count, 2016, 2024)
    )
    yield Lines('T, random, leap seconds', leaps, lines.random_instants(rng, count))
    yield Lines('F, fixed offset', fixed, lines.random_readings(rng, count))
    yield Lines('F, random, Paris', paris, lines.random_readings(rng, count))
    yield Lines('F, past the table, Paris', paris, lines.random_readings(rng, count, 2100, 3000))
    yield Lines(
        'F, at jumps, Paris',
        paris,
        lines.readings_at_jumps(rng, count, lines.jumps_of_file(paris.file)),
    )
    yield Lines('F, random, TZ string', text, lines.random_readings(rng, count))
    yield Lines(
        'F, at jumps, TZ string',
        text,
        lines.readings_at_jumps(rng, count, lines.jumps_of_string(STRING, FIRST, LAST)),
    )
    yield Lines(
        'F, random, 100000 transitions', many, lines.random_readings(rng, count, 2016, 2024)
    )
    yield Lines(
        'F, at jumps, 100000 transitions',
        many,
        lines.readings_at_jumps(rng, count, many.jumps, 2016, 2024),
    )
    yield Lines('F, random, leap seconds', leaps, lines.random_readings(rng, count))
    yield Lines(
        'W, ten weeks, Paris',
        paris,
        ['W 10' + line[1:] for line in lines.random_readings(rng, count)],
    )


# The rows of lines that are timed too.
TIMED_LINES = ('T, nearly sorted, Paris', 'T, random, Paris', 'F, random, Paris')
STARTS = (
    ('to start, fixed offset', 'fixed'),
    ('to start, Paris', 'paris'),
    ('to start, TZ string', 'string'),
)


def word_of(line):
    """The instant of a T line, or the local time of an F line or of a W line's first week."""
    parts = line.split()
    if parts[0] == 'W':
        del parts[1]
    return (
        int(parts[1]) if parts[0] == 'T' else int(''.join(f'{int(part):02}' for part in parts[1:7]))
    )


def reading_of(word):
    """The seconds from 1970 that a local time's clock shows."""
    text = f'{word:014}'
    return calendar.timegm(
        (
            int(text[:-10]),
            *(int(text[at : at + 2]) for at in range(len(text) - 10, len(text), 2)),
            0,
            0,
            0,
        )
    )


def words(how, zone, count, seed, years=None):
    """The words of a row: the same for two calls of the same kind over the same zone and years."""
    rng = lines.generator(f'{seed} {how} {zone.name}')
    # Within the tables, where these have no rule after them.
    limits = {'100000 transitions': (2016, 2024), 'leap seconds': (FIRST, zone.end - 1)}
    within = years or limits.get(zone.name)
    rows = {
        'instants': lambda: lines.random_instants(rng, count, *(within or (1902, LAST))),
        'instants of local years': lambda: lines.random_instants(rng, count, FIRST, LAST),
        'sorted instants': lambda: lines.log_instants(rng, count),
        # As many as a column of 10^6 instants in order has over these years.
        'dense instants': lambda: [f'T {946684800 + 2745 * index} 0' for index in range(count)],
        'far instants': lambda: lines.random_instants(rng, count, 2100, 3000),
        'local times': lambda: lines.random_readings(rng, count, *(within or (FIRST, LAST))),
        'far local times': lambda: lines.random_readings(rng, count, 2100, 3000),
        'local times at jumps': lambda: lines.readings_at_jumps(
            rng, count, zone.jumps, *(within or (FIRST, LAST))
        ),
        'weekly local times': lambda: lines.weekly_readings(count, FIRST),
    }
    return [word_of(line) for line in rows[how]()]


def calls(zones, count, seed=SEED):
    """The rows of calls."""
    fixed, paris, text, many, leaps = (
        zones.fixed,
        zones.paris,
        zones.string,
        zones.many,
        zones.leaps,
    )

    def row(name, call, zone, how, long=False):
        return Calls(name, call, zone, words(how, zone, count, seed), long)

    yield row('`DateTime::from_timespec`, fixed offset', 'from_timespec', fixed, 'instants')
    yield row('`DateTime::from_timespec`, random, Paris', 'from_timespec', paris, 'instants')
    yield row('`DateTime::from_timespec`, sorted, Paris', 'from_timespec', paris, 'sorted instants')
    yield row(
        '`DateTime::from_timespec`, past the table, Paris', 'from_timespec', paris, 'far instants'
    )
    yield row('`DateTime::from_timespec`, random, TZ string', 'from_timespec', text, 'instants')
    yield row('`DateTime::from_timespec`, 100000 transitions', 'from_timespec', many, 'instants')
    yield row('`DateTime::from_timespec`, leap seconds', 'from_timespec', leaps, 'instants')
    yield row(
        '`TimeZoneRef::find_local_time_type`, random, Paris',
        'find_local_time_type',
        paris,
        'instants',
    )
    for call in ('find', 'find_n'):
        shown = f'`DateTime::{call}`'
        yield row(f'{shown}, fixed offset', call, fixed, 'local times')
        yield row(f'{shown}, random, Paris', call, paris, 'local times')
        yield row(f'{shown}, at jumps, Paris', call, paris, 'local times at jumps')
        yield row(f'{shown}, past the table, Paris', call, paris, 'far local times')
        yield row(f'{shown}, random, TZ string', call, text, 'local times')
        yield row(f'{shown}, at jumps, TZ string', call, text, 'local times at jumps')
        yield row(f'{shown}, random, 100000 transitions', call, many, 'local times')
    yield row('`DateTime::find`, weekly, Paris', 'find', paris, 'weekly local times')
    yield row('`DateTime::find`, leap seconds', 'find', leaps, 'local times')
    yield row('`DateTime::find`, at jumps, leap seconds', 'find', leaps, 'local times at jumps')
    yield row('`DateTime::find_one`, random, Paris', 'find_one', paris, 'local times')
    yield row('`DateTime::find_one`, at jumps, Paris', 'find_one', paris, 'local times at jumps')
    yield row('`DateTime::meaning`, random, Paris', 'meaning', paris, 'local times')
    yield row('`DateTime::meaning`, at jumps, Paris', 'meaning', paris, 'local times at jumps')
    yield row(
        '`DateTime::from_local`, random, Paris', 'from_local', paris, 'instants of local years'
    )
    yield row(
        'place of a column of offsets, sorted, Paris', 'column_offsets', paris, 'sorted instants'
    )
    yield row('place of a column of offsets, random, Paris', 'column_offsets', paris, 'instants')
    yield row(
        'place of a column of date times, one in 45 minutes, Paris',
        'column_date_times',
        paris,
        'dense instants',
    )
    yield row(
        'place of a column of date times, sorted, Paris',
        'column_date_times',
        paris,
        'sorted instants',
    )
    yield row(
        'place of a column of date times, random, Paris', 'column_date_times', paris, 'instants'
    )
    yield row(
        'place of a column of instants, random, Paris', 'column_instants', paris, 'local times'
    )
    yield row('`TimeZoneRef::following`, random, Paris', 'following', paris, 'instants')
    yield row('`TimeZoneRef::following`, random, TZ string', 'following', text, 'instants')
    yield row(
        '`TimeZoneRef::following`, rule without a change',
        'following',
        zones.constant,
        'instants',
        long=True,
    )
    for call in ('preceding', 'segment_at'):
        shown = f'`TimeZoneRef::{call}`'
        yield row(f'{shown}, random, Paris', call, paris, 'instants')
        yield row(f'{shown}, random, TZ string', call, text, 'instants')
        yield row(f'{shown}, leap seconds', call, leaps, 'instants')
    yield row(
        '`TimeZoneRef::preceding`, rule without a change',
        'preceding',
        zones.constant,
        'instants',
        long=True,
    )
    yield row(
        '`DateTime` by a kept `Segment`, sorted, Paris', 'kept_segment', paris, 'sorted instants'
    )
    yield row('next of `changes_after`, 1900 to 2100, Paris', 'walk', paris, 'instants')
    yield row('next of `changes_before`, 2100 to 1900, Paris', 'walk_back', paris, 'instants')
    yield row('`Display` into a new string, Paris', 'display', paris, 'instants of local years')
    yield row(
        '`ParsedDateTime::parse` and `unix_time`, Paris', 'parse', paris, 'instants of local years'
    )
    yield row(
        '`DateTime::format`, Common Log, into a new string, Paris',
        'format_log',
        paris,
        'instants of local years',
    )
    yield row('`Pattern::read`, Common Log, Paris', 'read_log', paris, 'instants of local years')
    yield row('`UtcDateTime::from_timespec`', 'utc_from_timespec', fixed, 'instants')
    yield row('`UtcDateTime::new` and `unix_time`', 'utc_new', fixed, 'local times')
    yield row('`UtcDateTime::checked_add` and `unix_time`', 'utc_add', fixed, 'instants')
    yield row('`TimeZone::from_tz_data`, Paris', 'from_tz_data', paris, 'instants', long=True)
    yield row(
        '`TimeZone::from_tz_data`, 100000 transitions', 'from_tz_data', many, 'instants', long=True
    )
    yield row('`TimeZone::from_posix_tz`, TZ string', 'from_posix_tz', text, 'instants', long=True)
    yield row(
        '`TimeZone::from_posix_tz`, failing reader, TZ string',
        'failing_reader',
        text,
        'instants',
        long=True,
    )
    yield row(
        '`TimeZoneSettings` without directories, TZ string',
        'parse_string',
        text,
        'instants',
        long=True,
    )
    yield row('`TzString::from_rule`, TZ string', 'from_rule', text, 'instants')
    yield row('`AlternateTime::new`, TZ string', 'rule', text, 'instants', long=True)
    yield row('`AlternateTime::new`, days that meet', 'rule', zones.meeting, 'instants', long=True)


# The years of the instants and local times that calls are timed with: the present one, those of
# logs, and those of most zones' tables.
TIMED_YEARS = {'2026': (2026, 2026), '2015 to 2035': (2015, 2035), '1902 to 2037': (1902, LAST)}
TIMED_CALLS = {
    'find_local_time_type': '`TimeZoneRef::find_local_time_type`',
    'from_timespec': '`DateTime::from_timespec`',
    'find_n': '`DateTime::find_n`',
}


def timed_calls(zones, count, seed=SEED):
    """The rows of calls that are timed."""
    paris, many = zones.paris, zones.many

    def row(name, call, zone, how, years=None):
        return Calls(name, call, zone, words(how, zone, count, seed, years), False)

    for call, shown in TIMED_CALLS.items():
        for zone in (paris, zones.new_york, zones.kolkata, zones.string):
            how = 'local times' if loop_of(call) == 'local' else 'instants'
            for name, years in TIMED_YEARS.items():
                yield row(f'{shown}, {zone.name}, {name}', call, zone, how, years)
            if call == 'from_timespec':
                name = f'{shown}, {zone.name}, sorted 2015 to 2035'
                yield row(name, call, zone, 'sorted instants')
    yield row('`DateTime::find_n`, at jumps, Paris', 'find_n', paris, 'local times at jumps')
    yield row('`DateTime::find_n`, random, 100000 transitions', 'find_n', many, 'local times')
    yield row('`DateTime::find`, random, Paris', 'find', paris, 'local times')
    yield row('`Display` into a new string, Paris', 'display', paris, 'instants of local years')


def loop_of(call):
    """The loop around a call, which is taken off its figure: it reads local times or instants."""
    return (
        'local'
        if call in ('find', 'find_n', 'find_one', 'meaning', 'column_instants', 'utc_new')
        else 'instant'
    )


def search_of(name):
    """The row of `find` with the same local times as this one of `find_n`."""
    return name.replace('`DateTime::find_n`', '`DateTime::find`')


def is_wanted(name, only):
    """Whether a row's name has all these words."""
    return set(only.split()) <= set(re.findall(r'\w+', name))
