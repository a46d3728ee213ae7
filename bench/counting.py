"""Instructions of a query line and of a call, by valgrind's callgrind: a figure is the same at each run."""
import argparse
import os
import re
import resource
import subprocess
import sys
import tempfile

import figures
import rows

MANY, FEW = 6000, 2000
LONG_MANY, LONG_FEW = 600, 200
SLOW = 100000
SLOW_MANY, SLOW_FEW = 60, 20
# Of long calls, which are the same each time.
SLOW_LONG_MANY, SLOW_LONG_FEW = 6, 2


# The same for all programs and callers, since a longer one takes more instructions. Go's runtime sends itself signals, which valgrind does not always bear,
# and its counts vary less on one processor, and where it collects nothing.
ENVIRONMENT = {
    'PATH': '/usr/local/bin:/usr/bin:/bin',
    'LC_ALL': 'C',
    'GODEBUG': 'asyncpreemptoff=1',
    'GOMAXPROCS': '1',
    'GOGC': 'off',
}
TRIES = 5
REFUSED = 3


class Refused(Exception):
    """A program has no such zone or no such call."""


def run(command, given=b''):
    """A run on this standard input."""
    with tempfile.TemporaryFile() as file:
        file.write(given)
        file.seek(0)
        return subprocess.run(command, stdin=file, capture_output=True, env=ENVIRONMENT)


def count(program, arguments, given=b''):
    """The instructions of a run, and what it printed."""
    for _ in range(TRIES):
        done = run(
            [
                'valgrind',
                '--tool=callgrind',
                '--callgrind-out-file=' + os.devnull,
                program,
                *arguments,
            ],
            given,
        )
        found = re.search(rb'Collected : (\d+)', done.stderr)
        if found and not done.returncode:
            return int(found[1]), done.stdout.decode()
        if done.returncode == REFUSED:
            raise Refused
    sys.exit(f'{program} {" ".join(arguments)}: {(done.stdout + done.stderr).decode()[-2000:]}')


def input_of(lines):
    """Standard input of these lines."""
    return ''.join(f'{line}\n' for line in lines).encode()


def processor_time(command, given):
    """The seconds of a run on this open file, its own and the system's for it."""
    given.seek(0)
    before = resource.getrusage(resource.RUSAGE_CHILDREN)
    subprocess.run(command, stdin=given, stdout=subprocess.DEVNULL, check=True)
    after = resource.getrusage(resource.RUSAGE_CHILDREN)
    return after.ru_utime + after.ru_stime - before.ru_utime - before.ru_stime


def is_slow(program, arguments, given, words, some=20):
    """Whether this many lines or calls take more than a slow program's each."""
    return (
        count(program, arguments + words[0], given[0])[0]
        - count(program, arguments + words[1], given[1])[0]
        > some * SLOW
    )


def of_a_line(program, arguments, row):
    """The instructions of a row's line, start-up taken off."""
    few, many = FEW, MANY
    if row.zone.name == '100000 transitions' and is_slow(
        program, arguments, (input_of(row.queries[:20]), b''), ([], [])
    ):
        few, many = SLOW_FEW, SLOW_MANY
    counted = [count(program, arguments, input_of(row.queries[:lines]))[0] for lines in (few, many)]
    return round((counted[1] - counted[0]) / (many - few))


def program_of(program, call):
    """The program that makes a call: one beside it, if there is one, for the calls that are apart or alone."""
    beside = (
        f'{program}_apart'
        if call in rows.APART_CALLS
        else f'{program}_{call}'
        if call in rows.ALONE_CALLS
        else program
    )
    return beside if os.path.exists(beside) else program


def of_calls(program, arguments, row):
    """The instructions of a row's call with its loop, how many calls were made, and the sum that it printed."""
    program = program_of(program, row.call)
    few, many = (LONG_FEW, LONG_MANY) if row.is_long else (FEW, MANY)
    given = input_of(row.words)
    some = 2 if row.is_long else 20
    if row.zone.name == '100000 transitions' and is_slow(
        program, arguments, (given, given), ([row.call, str(some)], [row.call, '0']), some
    ):
        few, many = (SLOW_LONG_FEW, SLOW_LONG_MANY) if row.is_long else (SLOW_FEW, SLOW_MANY)
    counted, sums = zip(
        *(count(program, [*arguments, row.call, str(times)], given) for times in (few, many))
    )
    return (counted[1] - counted[0]) / (many - few), many, int(sums[1].split()[1])


def loops_of(program, arguments, words):
    """The instructions of the loops that only read the words."""
    return {
        loop: (
            count(program, [*arguments, loop, str(MANY)], given)[0]
            - count(program, [*arguments, loop, str(FEW)], given)[0]
        )
        / (MANY - FEW)
        for loop, given in ((loop, input_of(words[loop])) for loop in ('instant', 'local'))
    }


def loop_words(zones, seed):
    """Words for the loops."""
    return {
        'instant': rows.words('instants', zones.fixed, MANY, seed),
        'local': rows.words('local times', zones.fixed, MANY, seed),
    }


def named(programs):
    """The programs' names and paths: NAME=PATH, or a path, the first of which is tz and the second tz-rs."""
    return [
        program.split('=', 1) if '=' in program else (name, program)
        for program, name in zip(programs, ['tz', 'tz-rs', *programs[2:]])
    ]


def command(doc, section, counted):
    """The command line of bench/instructions and of bench/calls: counts the rows that are wanted, and prints, keeps or compares them."""
    ask = argparse.ArgumentParser(usage=doc.split('\n\n')[1][7:])
    ask.add_argument('programs', nargs='+')
    ask.add_argument('--only', default='')
    ask.add_argument('--seed', type=int, default=rows.SEED)
    kept = ask.add_mutually_exclusive_group()
    kept.add_argument('--against')
    kept.add_argument('--json')
    given = ask.parse_args()
    programs = named(given.programs)
    stored = figures.Figures(given.against or given.json) if given.against or given.json else None
    is_above = False
    with tempfile.TemporaryDirectory() as folder:
        for name, counts in counted(rows.Zones(folder), programs, given):
            behind = ''
            if given.against and counts[0] is not None:
                behind, is_too_much = stored.against(section, name, counts[0])
                is_above |= is_too_much
            elif given.json:
                for (program, _), figure in zip(programs, counts):
                    stored.put(section, name, program, figure)
            print(
                f'{name:56}'
                + ''.join(f'{"–" if figure is None else figure:>10}' for figure in counts)
                + behind,
                flush=True,
            )
    if given.json:
        stored.write()
    sys.exit(is_above)
