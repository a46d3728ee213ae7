"""Query lines for the benchmarks, the same ones at each run."""
import calendar
import datetime
import random
import re
import struct

EPOCH = datetime.datetime(1970, 1, 1)


def year_start(year):
    return (datetime.date(year, 1, 1) - datetime.date(1970, 1, 1)).days * 86400


def nanoseconds(rng):
    """Nine digits, and one time in eight mostly fewer."""
    return (
        rng.choice((0, 0, 7, 500000000, rng.randrange(10**6)))
        if rng.randrange(8) == 0
        else rng.randrange(10**9)
    )


def search_line(rng, reading):
    shown = EPOCH + datetime.timedelta(seconds=reading)
    return f'F {shown.year} {shown.month} {shown.day} {shown.hour} {shown.minute} {shown.second} {nanoseconds(rng)}'


def random_instants(rng, count, first=1900, last=2100):
    return [
        f'T {rng.randrange(year_start(first), year_start(last + 1))} {nanoseconds(rng)}'
        for _ in range(count)
    ]


def log_instants(rng, count, first=2015, last=2035):
    """Instants of a log: nearly sorted, at distances in no order."""
    at, end = year_start(first), year_start(last + 1)
    step = 0.98 * (end - at) / count
    instants = []
    for _ in range(count):
        at += step * rng.expovariate(1)
        instants.append(f'T {int(min(at + rng.gauss(0, 30), end - 1))} {nanoseconds(rng)}')
    return instants


def random_readings(rng, count, first=1950, last=2037):
    return [
        search_line(rng, rng.randrange(year_start(first), year_start(last + 1)))
        for _ in range(count)
    ]


def readings_at_jumps(rng, count, jumps, first=1950, last=2037):
    """Readings near a zone's jumps: half of them within three hours, half within two seconds."""
    near = [jump for jump in jumps if year_start(first) <= jump[0] < year_start(last + 1)]
    lines = []
    for _ in range(count):
        instant, before, after = rng.choice(near)
        if rng.randrange(2):
            reading = (
                instant + min(before, after) + rng.randrange(-10800, 10800 + abs(after - before))
            )
        else:
            reading = instant + rng.choice((before, after)) + rng.randint(-2, 2)
        lines.append(search_line(rng, reading))
    return lines


def weekly_readings(count, first):
    """A meeting at nine in each week, from the first year on."""
    return [
        f'F {day.year} {day.month} {day.day} 9 0 0 7'
        for day in (
            datetime.date(first, 1, 2) + datetime.timedelta(weeks=week) for week in range(count)
        )
    ]


def jumps_of_file(path):
    """The instants of the second block's transitions, each with the offsets before and after it."""
    with open(path, 'rb') as file:
        data = file.read()
    indicators_ut, indicators, leaps, times, types, names = struct.unpack('>6I', data[20:44])
    start = 44 + times * 5 + types * 6 + names + leaps * 8 + indicators + indicators_ut
    _, _, _, times, types, _ = struct.unpack('>6I', data[start + 20 : start + 44])
    at = start + 44
    instants = struct.unpack(f'>{times}q', data[at : at + 8 * times])
    indexes = data[at + 8 * times : at + 9 * times]
    at += 9 * times
    offsets = [
        struct.unpack('>i', data[at + 6 * index : at + 6 * index + 4])[0] for index in range(types)
    ]
    after = [offsets[index] for index in indexes]
    return list(zip(instants, [offsets[0]] + after[:-1], after))


def last_year_of_file(path):
    """The year of the last transition."""
    return (EPOCH + datetime.timedelta(seconds=jumps_of_file(path)[-1][0])).year


def jumps_of_string(string, first, last):
    """The jumps of a TZ string such as CET-1CEST,M3.5.0,M10.5.0/3, whose daylight saving time is an hour ahead."""
    parts = re.fullmatch(
        r'[A-Z]+(-?\d+)[A-Z]+,M(\d+)\.(\d)\.(\d)(?:/(\d+))?,M(\d+)\.(\d)\.(\d)(?:/(\d+))?', string
    )
    standard = -3600 * int(parts[1])

    def day(year, month, week, week_day):
        month_days = range(1, calendar.monthrange(year, month)[1] + 1)
        days = [
            month_day
            for month_day in month_days
            if (calendar.weekday(year, month, month_day) + 1) % 7 == week_day
        ]
        return (
            datetime.date(year, month, days[min(week, len(days)) - 1]) - datetime.date(1970, 1, 1)
        ).days * 86400

    jumps = []
    for year in range(first, last + 1):
        jumps.append(
            (
                day(year, *map(int, parts.group(2, 3, 4))) + 3600 * int(parts[5] or 2) - standard,
                standard,
                standard + 3600,
            )
        )
        jumps.append(
            (
                day(year, *map(int, parts.group(6, 7, 8)))
                + 3600 * int(parts[9] or 2)
                - standard
                - 3600,
                standard + 3600,
                standard,
            )
        )
    return sorted(jumps)


def write_file(path, times, indexes, types, names, footer):
    """Writes a TZif file of version 2 with an empty first block. A type is its offset, whether it is daylight saving time, and where its name begins."""

    def header(transitions, types, names):
        return b'TZif2' + bytes(15) + struct.pack('>6I', 0, 0, 0, transitions, types, names)

    with open(path, 'wb') as file:
        file.write(header(0, 1, 4) + struct.pack('>iBB', 0, 0, 0) + b'UTC\0')
        file.write(
            header(len(times), len(types), len(names))
            + struct.pack(f'>{len(times)}q', *times)
            + bytes(indexes)
        )
        file.write(
            b''.join(struct.pack('>iBB', *kind) for kind in types)
            + names
            + b'\n'
            + footer.encode()
            + b'\n'
        )


def file_of_many_transitions(path, count=100000):
    """A TZif file with a jump of half an hour every 3000 seconds from 2016 on."""
    times = [year_start(2016) + 3000 * index for index in range(count)]
    write_file(
        path,
        times,
        ((index + 1) % 2 for index in range(count)),
        ((3600, 0, 0), (5400, 1, 4)),
        b'ONE\0TWO\0',
        'ONE-1',
    )


def file_of_string(path, string):
    """A TZif file with the jumps of a TZ string from 1899 to 2037, and the string behind them: for programs that read no strings."""
    jumps = jumps_of_string(string, 1899, 2037)
    standard = min(jumps[0][1:])
    standard_name, daylight_name = re.match(r'([A-Z]+)-?\d+([A-Z]+)', string).groups()
    names = f'{standard_name}\0{daylight_name}\0'.encode()
    types = (standard, 0, 0), (standard + 3600, 1, len(standard_name) + 1)
    write_file(
        path,
        [jump[0] for jump in jumps],
        [int(jump[2] > standard) for jump in jumps],
        types,
        names,
        string,
    )


def generator(seed):
    return random.Random(seed)
