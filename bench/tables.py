#!/usr/bin/env python3
"""Writes the tables of docs/BENCHMARKS.md and its pictures from bench/figures.json, which bench/peers/run makes.

usage: bench/tables.py          writes them
       bench/tables.py --all    prints the tables that the page leaves out

The status is 1 if a row in which tz is slower than a peer has no reason in bench/rows.py, or if a
call takes more than its goal there; both are printed. Sizes are those of the repository's files.
"""
import html
import os
import pathlib
import re
import sys
import textwrap

sys.path.insert(0, os.path.dirname(os.path.abspath(__file__)))
import figures
import rows

TOP = pathlib.Path(__file__).resolve().parent.parent
PAGE = TOP / 'docs' / 'BENCHMARKS.md'
COLUMNS = 100
THROUGH = ('through-C', 'C-cargo', 'through-Rust', 'Rust-default')
OWN = ('tz', 'through-Rust', 'Rust-default')
TIMED = (*OWN, 'C-cargo')
PEERS = ('tz-rs', 'glibc', 'cctz', 'date', 'chrono-tz', 'Go', 'jiff')
# The libraries of Rust that are timed by cargo's default profile, too.
DEFAULT = ('tz', 'tz-rs-default', 'chrono-tz-default')
WIDTH, LEFT, BAR, HEAD, LONGEST = 900, 330, 11, 46, 4000
COMPILERS = ('kit', 'rustc', 'g++')
WORDS = ('none', 'one', 'two', 'three', 'four', 'five', 'six', 'seven', 'eight', 'nine', 'ten')
STAR = r'\*'
PLACE = 'place of a column of '
COLOURS = ('#2563a8', '#c2c8d0', '#e0913a')


def best_of(row):
    """The least figure of the peers, or none."""
    return min((row[peer] for peer in PEERS if peer in row), default=None)


def table(columns, lines):
    """A table of Markdown; what is left out is a dash."""
    return '\n'.join(
        f'| {" | ".join(map(str, line))} |' for line in [columns, ['---'] * len(columns), *lines]
    )


def filled(text, indent=''):
    """A paragraph in lines."""
    return textwrap.fill(text, COLUMNS, subsequent_indent=indent, break_on_hyphens=False)


class Reasons:
    """Which reasons the rows gave in which tz is behind the best peer, and the rows that have none."""

    def __init__(self):
        self.given, self.missing = set(), []

    def letters_of(self, name, row):
        """The letters behind a row's ratio."""
        best = best_of(row)
        if best is None or row.get('tz', 0) <= best:
            return ''
        letters = rows.BEHIND.get(name, '')
        self.given |= set(letters)
        if not letters:
            self.missing.append(f'tz is slower without a reason: {name}')
        return f' {", ".join(letters)}'

    def shown(self):
        """The reasons that were given, a line each."""
        return '\n'.join(
            filled(f'- {letter}: {reason}', '  ')
            for letter, reason in rows.REASONS.items()
            if letter in self.given
        )


def over_best(row, program):
    """A program's figure over the least of the peers."""
    return f'{row[program] / best_of(row):.2f}' if program in row else '–'


def of_instructions(section, kept, through, peers, reasons):
    """Instructions of tz, of tz through its bindings, and of the peers, and those of tz and of the
    Rust crate over the least of the peers, in the rows that a peer has. A figure has a star where
    answers differ."""
    lines = []
    compared = [program for program in OWN if program in ('tz', *through)]
    for name, row in kept.rows(section).items():
        if best_of(row) is None:
            continue
        ratios = [over_best(row, program) for program in compared]
        ratios[0] += reasons.letters_of(name, row)
        differing = kept.rows(f'differing {section}').get(rows.search_of(name), {})
        cells = [
            f'{row[peer]}{STAR * (peer in differing)}' if peer in row else '–'
            for peer in (*through, *peers)
        ]
        lines.append([name, row.get('tz', '–'), *cells, *ratios])
    names = [name.replace('-', ' ') for name in through]
    heads = [f'{program.removeprefix("through-").replace("-", " ")} / best' for program in compared]
    return table(['row', 'tz', *names, *peers, *heads], lines)


def of_own(kept):
    """Instructions of the rows that no peer has."""
    found = [
        (name, row)
        for section in ('lines', 'calls')
        for name, row in kept.rows(section).items()
        if best_of(row) is None
    ]
    names = [name.replace('-', ' ') for name in THROUGH]
    return table(
        ['row', 'tz', *names],
        [[name, *(row.get(program, '–') for program in ('tz', *THROUGH))] for name, row in found],
    )


def of_columns(kept):
    """Instructions for an element of a column, through Rust and by the C library that cargo builds."""
    programs = ('through-Rust', 'Rust-default', 'C-cargo')
    lines = [
        [name.removeprefix(PLACE), *(row.get(program, '–') for program in programs)]
        for name, row in kept.rows('calls').items()
        if name.startswith(PLACE)
    ]
    return table(['a column of', *(name.replace('-', ' ') for name in programs)], lines)


def above_goals(kept):
    """The calls that take more than their goals."""
    return [
        f'{name} takes {row["tz"]}, more than its goal of {rows.GOALS[name]}'
        for name, row in kept.rows('calls').items()
        if row.get('tz', 0) > rows.GOALS.get(name, row.get('tz', 0))
    ]


def multiple(figure):
    """How many times as many, in three digits."""
    return f'{figure:.{max(0, 2 - (figure >= 10) - (figure >= 100))}f}'


def of_times(kept, reasons):
    """Nanoseconds of tz and of the Rust crate, of each peer how many times as many as the better of
    both, and that over the least of the peers."""
    lines = []
    for section in ('times of lines', 'times of calls'):
        for name, row in kept.rows(section).items():
            own = [row[program] for program in OWN if program in row]
            if not own or best_of(row) is None:
                continue
            least = min(own)
            differing = kept.rows(f'differing {section}').get(name, {})
            cells = [f'{row[program]:.1f}' if program in row else '–' for program in TIMED]
            for peer in PEERS:
                star = STAR * (peer in differing)
                cells.append(f'{multiple(row[peer] / least)}{star}' if peer in row else '–')
            letters = reasons.letters_of(f'time of {name}', {**row, 'tz': least})
            lines.append([name, *cells, f'{least / best_of(row):.2f}{letters}'])
    names = [f'{program.replace("-", " ")}, ns' for program in TIMED]
    return table(['row', *names, *PEERS, 'tz / best'], lines)


# What people ask for, and the rows of times that answer it.
ASKED = {
    'the offset at an instant, 2015 to 2035': '`TimeZoneRef::find_local_time_type`, Paris, 2015 to 2035',
    'an instant to fields, 2026': '`DateTime::from_timespec`, Paris, 2026',
    'the same, 1902 to 2037': '`DateTime::from_timespec`, Paris, 1902 to 2037',
    'the same, instants in order': '`DateTime::from_timespec`, Paris, sorted 2015 to 2035',
    'the same, a zone without changes now': '`DateTime::from_timespec`, Kolkata, 2026',
    'the same, a TZ string': '`DateTime::from_timespec`, TZ string, 2026',
    'a local time to its instants, 2026': '`DateTime::find_n`, Paris, 2026',
    'a local time, 1902 to 2037': '`DateTime::find_n`, Paris, 1902 to 2037',
    'the same, near gaps and folds': '`DateTime::find_n`, at jumps, Paris',
    'the same, 100,000 transitions': '`DateTime::find_n`, random, 100000 transitions',
    'the same, into a list': '`DateTime::find`, random, Paris',
    'print RFC 3339': '`Display` into a new string, Paris',
}


def of_asked(kept, programs):
    """Nanoseconds of these programs in the rows that people ask for."""
    found = kept.rows('times of calls')
    return [
        [
            asked,
            *(
                f'{found[name][program]:.0f}' if program in found[name] else '–'
                for program in programs
            ),
        ]
        for asked, name in ASKED.items()
    ]


def days_of(names, kept):
    """The first of the days on which these libraries' lines were counted, their calls were, and their times were taken."""
    made = [kept.rows('days').get(part, {}) for part in ('lines', 'calls', 'times')]
    return [min((days[name] for name in names if name in days), default='no day') for days in made]


def of_builds(kept):
    """What each column is: a line for each build, and the parts in which it was another one."""
    built = {}
    for name in ('tz', *THROUGH, *PEERS):
        ways = {}
        for part, how in kept.rows('builds').items():
            if name in how:
                ways.setdefault(how[name], []).append(part)
        if not ways:
            continue
        usual = max(ways, key=lambda how: 'calls' in ways[how])
        others = [f'in {" and ".join(parts)} {how}' for how, parts in ways.items() if how != usual]
        shown = f'*{name.replace("-", " ")}*' if name in OWN + THROUGH else name
        built.setdefault('; '.join([usual, *others]), []).append(shown)
    kit, rustc, cxx = (kept.rows('versions').get(name, {}).get('version', '') for name in COMPILERS)
    compilers = {
        'kit': kit or 'the kit',
        'rustc': f'rustc {rustc}'.strip(),
        'cxx': f'g++ {cxx}'.strip(),
    }
    return '\n'.join(
        filled(f'- {", ".join(names)}: {how.format(**compilers)}', '  ')
        for how, names in built.items()
    )


def of_zones(versions):
    """The versions of the zones' files, by library where they differ."""
    named = {}
    for name, version in versions.items():
        if name not in THROUGH:
            named.setdefault(version, []).append(name)
    if len(named) == 1:
        return f'Zones are those of tzdata {next(iter(named))}.'
    most = max(named, key=lambda version: len(named[version]))
    few = [
        f'tzdata {version} for {", ".join(names[:-1])}{" and " * (len(names) > 1)}{names[-1]}'
        for version, names in named.items()
        if version != most
    ]
    return f'Zones come from {", ".join(few)}, and from tzdata {most} for the others; chrono-tz has its own.'


def spoken(days):
    """The days of lines, calls and times, once if they are the same."""
    parts = 'lines on {}, calls on {} and times on {}'
    return f'all on {days[0]}' if len(set(days)) == 1 else parts.format(*days)


def of_versions(kept):
    """What was measured, and when."""
    version = {
        name: row['version'] for name, row in kept.rows('versions').items() if name != 'tzdata'
    }
    zones = of_zones(kept.rows('versions')['tzdata'])
    own, others = days_of(['tz'], kept), days_of(PEERS, kept)
    shown = f'Measured were, of tz, {spoken(own)}, and of the others {spoken(others)}.'
    if len({*own, *others}) == 1:
        shown = f'All was measured on {own[0]}.'
    text = (
        f'The peers are tz-rs {version["tz-rs"]}; from Debian {version["Debian"]} glibc {version["glibc"]}, '
        f'cctz {version["cctz"]}, Hinnant\'s date {version["date"]}, chrono-tz {version["chrono-tz"]} and Go {version["Go"]}; and the Rattle '
        f'kit\'s port of jiff 0.2.39. {zones} {shown}'
    )
    return filled(text)


def span(kept, called):
    """The least and the greatest figure of tz over the rows of a call, and by how much the best peer takes more."""
    found = [
        row
        for name, row in kept.rows('calls').items()
        if name.startswith(f'`{called}`')
        and name not in rows.APART
        and 'tz' in row
        and best_of(row)
    ]
    figures_of, ratios = [row['tz'] for row in found], [best_of(row) / row['tz'] for row in found]
    return min(figures_of), max(figures_of), f'{min(ratios):.1f}', f'{max(ratios):.1f}'


def peers_with(kept, called):
    """How many peers have a row of a call."""
    found = [row for name, row in kept.rows('calls').items() if name.startswith(f'`{called}`')]
    return WORDS[sum(any(peer in row for row in found) for peer in PEERS)]


def of_calls(kept):
    """What is to be known of calls."""
    called = ('DateTime::from_timespec', 'DateTime::find_n', 'TimeZoneRef::following')
    lookup, search, following = (span(kept, name) for name in called)
    others, with_changes = peers_with(kept, called[0]), peers_with(kept, called[2])
    return filled(
        f'In zones with transitions or a rule `{called[0]}` takes {lookup[0]} to {lookup[1]} '
        f'instructions, and the best of {others} other libraries {lookup[2]} to {lookup[3]} times '
        f'as many. `find_n`, a search that does not allocate, takes {search[0]} to {search[1]}, '
        f'and the best of them {search[2]} to {search[3]} times as many; `following` takes '
        f'{following[0]} to {following[1]}, and the best of {with_changes} {following[2]} to '
        f'{following[3]} times as many.'
    )


def of_scaling(kept):
    """The times of more and more lines."""
    counts, spent = zip(
        *((name.split()[0], str(row['tz'])) for name, row in kept.rows('scaling').items())
    )
    return filled(
        f'Times are linear in the number of lines: {", ".join(counts)} random `T` lines '
        f'over Paris take {", ".join(spent)} milliseconds.'
    )


def lines_of(files):
    """The lines of all files together."""
    return sum(file.read_text().count('\n') for file in files)


def of_sizes():
    """The lines of the crates together, and their must-fail edits; those of code that only tests."""
    shipped, tests, count = [0] * 4, 0, 0
    for line in (TOP / 'crates.txt').read_text().splitlines():
        if not line.startswith('#'):
            name = line.split(':')[0].split()[0]
            crate = TOP / 'crates' / name
            sizes = [
                lines_of(crate.glob(found))
                for found in ('src/**/*.rt', 'specs/**/*.antt', 'proofs/**/*.antt')
            ]
            sizes.append(len(list(crate.glob('must-fail/*.edit'))))
            if (
                name.endswith(('_tests', '_samples', '_examples'))
                or name.startswith('tzq_')
                or name in ('tz_calls', 'tz_changes')
            ):
                tests += sizes[0]
            else:
                shipped, count = [more + had for more, had in zip(sizes, shipped)], count + 1
    code, definitions, proofs, edits = shipped
    return filled(
        f'{WORDS[count].capitalize()} crates have {code} lines of code, {definitions} of definitions and {proofs} of proofs, and {edits} '
        f'must-fail edits; tests, examples and programs that measure have {tests} lines.'
    )


def picture(title, kept, section):
    """The figures of tz, tz-rs and the best peer as bars."""
    names = 'tz', 'tz-rs', 'best peer'
    bars = [
        (name.replace('`', ''), (row.get('tz'), row.get('tz-rs'), best_of(row)))
        for name, row in kept.rows(section).items()
        if (row.get('tz') or LONGEST) < LONGEST
    ]
    each = (BAR + 1) * len(names) + 8
    height = HEAD + each * len(bars) + 10
    scale = (WIDTH - LEFT - 120) / LONGEST
    out = [
        f'<svg xmlns="http://www.w3.org/2000/svg" viewBox="0 0 {WIDTH} {height}" font-family="sans-serif" font-size="12">',
        f'<rect width="{WIDTH}" height="{height}" fill="#ffffff"/>',
        f'<text x="12" y="20" font-size="14">{title}</text>',
    ]
    for place, (name, colour) in enumerate(zip(names, COLOURS)):
        out.append(
            f'<rect x="{LEFT + 150 * place}" y="10" width="12" height="12" fill="{colour}"/><text x="{LEFT + 18 + 150 * place}" y="20">{name}</text>'
        )
    for place, (name, row) in enumerate(bars):
        top = HEAD + each * place
        out.append(f'<text x="12" y="{top + 16}">{html.escape(name)}</text>')
        for within, (figure, colour) in enumerate(zip(row, COLOURS)):
            if figure is None:
                continue
            length = min(figure, LONGEST) * scale
            more = ' (cut off)' if figure > LONGEST else ''
            out.append(
                f'<rect x="{LEFT}" y="{top + (BAR + 1) * within}" width="{length:.1f}" height="{BAR}" fill="{colour}"/>'
            )
            out.append(
                f'<text x="{LEFT + length + 5:.1f}" y="{top + (BAR + 1) * within + 10}" font-size="10">{figure}{more}</text>'
            )
    return '\n'.join([*out, '</svg>', ''])


def write(words=()):
    """Writes the tables into the page, each from its mark to the next empty line, and the pictures beside it; or prints those that have no mark there. Gives
    what is wrong."""
    kept = figures.Figures(TOP / 'bench' / 'figures.json')
    reasons = Reasons()
    made = {
        'asked': table(
            ['ns', 'tz', 'tz in C', *PEERS], of_asked(kept, ('through-Rust', 'C-cargo', *PEERS))
        ),
        'asked by default': table(
            ['ns', *(name.removesuffix('-default') for name in DEFAULT)],
            of_asked(kept, ('Rust-default', *DEFAULT[1:])),
        ),
        'short': of_calls(kept),
        'versions': of_versions(kept),
        'builds': of_builds(kept),
        'lines': of_instructions('lines', kept, (), PEERS[:-1], reasons),
        'calls': of_instructions('calls', kept, THROUGH, PEERS, reasons),
        'columns': of_columns(kept),
        'own': of_own(kept),
        'times': of_times(kept, reasons),
        'scaling': of_scaling(kept),
        'sizes': of_sizes(),
    }
    made['reasons'] = reasons.shown()
    page = PAGE.read_text()
    if list(words) == ['--all']:
        print(
            *(
                f'## {name}\n\n{text}\n'
                for name, text in made.items()
                if f'<!-- {name} -->' not in page
            ),
            sep='\n',
        )
        return []
    for name, text in made.items():
        page = re.sub(
            rf'(<!-- {name} -->).*?(?=\n\n|\n?\Z)',
            lambda found: f'{found[1]}\n{text}'.rstrip(),
            page,
            flags=re.DOTALL,
        )
    PAGE.write_text(page)
    (TOP / 'docs' / 'instructions.svg').write_text(
        picture('Instructions for a query line', kept, 'lines')
    )
    (TOP / 'docs' / 'calls.svg').write_text(picture('Instructions for a call', kept, 'calls'))
    return reasons.missing + above_goals(kept)


if __name__ == '__main__':
    if sys.argv[1:] not in ([], ['--all']):
        sys.exit(__doc__)
    wrong = write(sys.argv[1:])
    print(*wrong, sep='\n', end='\n' if wrong else '')
    sys.exit(int(bool(wrong)))
