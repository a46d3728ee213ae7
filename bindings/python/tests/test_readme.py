"""The examples of README.md and of docs, as doctests. A comment before one names its package."""

import doctest
import re
import unittest
from pathlib import Path

import tz
from packages import is_installed
from tz import _library, _zone

README = Path(__file__).resolve().parent.parent / "README.md"
EXAMPLE = re.compile(r"<!-- (\w+) -->\n```pycon\n.*?```", re.DOTALL)
PACKAGES = ["numpy", "pandas", "dask", "django", "sqlalchemy"]


class Examples(unittest.TestCase):
    def test_readme(self):
        text = README.read_text("utf-8")
        self.assertEqual(list(dict.fromkeys(EXAMPLE.findall(text))), PACKAGES)
        for package in PACKAGES:
            if not is_installed(package):
                text = re.sub(EXAMPLE.pattern.replace(r"\w+", package), "", text, flags=re.DOTALL)
        examples = doctest.DocTestParser().get_doctest(text, {}, README.name, str(README), 0)
        self.assertGreater(len(examples.examples), 10)
        self.assertEqual(doctest.DocTestRunner().run(examples).failed, 0)

    def test_docs(self):
        for module in (tz, _zone, _library):
            self.assertEqual(doctest.testmod(module).failed, 0, module)


if __name__ == "__main__":
    unittest.main()
