"""Figures in a file: of each section's rows, by program."""
import json
import os

# A count is the same at each run; a build of other compilers or another C library may differ by a few in a hundred.
MOST = 1.1


class Figures:
    """The sections of a file, which may be none yet."""

    def __init__(self, path):
        self.path = path
        self.sections = {}
        if os.path.exists(path):
            with open(path) as file:
                self.sections = json.load(file)

    def rows(self, section):
        """A section's rows."""
        return self.sections.get(section, {})

    def keep(self, section, row):
        """A row's figures; a new row comes last."""
        return self.sections.setdefault(section, {}).setdefault(row, {})

    def arrange(self, section, names):
        """Has a section's rows be these, in this order: a new one has no figures yet, and others go."""
        kept = self.rows(section)
        self.sections[section] = {name: kept.get(name, {}) for name in names}

    def put(self, section, row, program, figure):
        """Sets a figure; none takes it away."""
        figures = self.keep(section, row)
        figures[program] = figure
        if figure is None:
            del figures[program]

    def clear(self, section, row):
        """Takes a row's figures away."""
        self.keep(section, row).clear()

    def write(self):
        """Writes the file, a line for each row."""
        sections = []
        for section, rows in self.sections.items():
            lines = ',\n'.join(
                f'  {json.dumps(name)}: {json.dumps(figures)}'
                for name, figures in rows.items()
                if figures
            )
            sections.append(f' {json.dumps(section)}: {{\n{lines}\n }}')
        with open(self.path, 'w') as file:
            file.write('{\n' + ',\n'.join(sections) + '\n}\n')

    def against(self, section, row, figure):
        """What is behind a figure of tz: the stored one and the ratio; and whether that is too much."""
        stored = self.rows(section).get(row, {}).get('tz')
        if stored is None:
            return '   NONE STORED', True
        is_above = figure > MOST * stored
        return (
            f'   stored {stored:6} x {figure / stored:.2f}' + ('   ABOVE' if is_above else ''),
            is_above,
        )
