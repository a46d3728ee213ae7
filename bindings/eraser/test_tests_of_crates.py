"""The tests of the proved crates are all made Rust, whole, or stand in the list of those that are not: `python3 -m unittest
eraser.test_tests_of_crates` in bindings/."""
import glob
import os
import re
import unittest
from collections import Counter

from . import tests_of_crates
from .cut import without_ghosts
from .tests_of_crates import PACKAGE, TOP
from .tokens import Stop, tokens_of

TEST = re.compile(r"#\[test\]\s*(?:#\[[^\]]*\]\s*)*fn (\w+)")
PATH = "crates/tz_tests/src/example.rt"


def read(path):
    with open(f"{TOP}/{path}", encoding="utf-8") as file:
        return file.read()


def said(path, text):
    """What a test says: its numbers and texts, and the calls that compare. Those of formats have one text more, `in`."""
    tokens = tokens_of(path, text)
    return Counter(
        it.text
        for it, after in zip(tokens, tokens[1:])
        if it.kind in ("number", "string", "char")
        or it.kind == "word"
        and after.text in "(!"
        and re.match("expect|assert|matches", it.text)
    )


class Repository(unittest.TestCase):
    def setUp(self):
        self.sources = sorted(
            os.path.relpath(it, TOP)
            for it in glob.glob(f"{TOP}/crates/*/src/**/*.rt", recursive=True)
        )

    def test_each_test_is_made_or_listed(self):
        listed = tests_of_crates.left_out()
        found = 0
        for source in self.sources:
            names = set(TEST.findall(read(source)))
            if not names:
                continue
            self.assertIn(
                source.split("/")[1], PACKAGE.crates, "a crate of tests that no file is made of"
            )
            made = set(TEST.findall(read(PACKAGE.target(source))))
            self.assertEqual(names, made | set(listed.get(source, ())), source)
            self.assertFalse(made & set(listed.get(source, ())), source)
            found += len(made)
        self.assertGreater(found, 190)

    def test_each_crate_is_compiled(self):
        modules = re.findall(r"^mod (\w+);$", read(PACKAGE.by_hand[""]), re.M)
        self.assertEqual(sorted(PACKAGE.crates), sorted(modules))

    def test_tests_say_what_they_say_in_rattle(self):
        for source in self.sources:
            if source.split("/")[1] in PACKAGE.crates:
                text = read(source)
                for old, new in tests_of_crates.EXACT.get(source, ()):
                    text = text.replace(old, new)
                text = tests_of_crates.without_left_out(source, without_ghosts(source, text))
                self.assertEqual(
                    said(source, text), said(source, read(PACKAGE.target(source))), source
                )


class Forms(unittest.TestCase):
    def made(self, text):
        return tests_of_crates.erased(PACKAGE, PATH, text)

    def test_a_test(self):
        made = self.made(
            "use crate::expect::expect_eq;\nuse std::test::Fail;\nuse tz_samples::utc;\n\n"
            "/// Docs.\n#[test]\nfn one(rt: HostRuntime) -> Result<(), Fail> {\n    assert!(rt; two(rt.alloc())? > 0);\n"
            '    let text = format!(in rt.alloc(); "{}", 3)?;\n    Ok(())\n}\n'
        )
        self.assertIn("use crate::kit::{format_in, self};", made)
        self.assertIn(
            "use crate::erased::tz_tests::expect::expect_eq;\nuse crate::kit::test::Fail;\nuse crate::utc;",
            made,
        )
        self.assertIn("#[test]\nfn one() -> Result<(), Fail> { let rt = kit::HostRuntime;", made)
        self.assertIn("assert!( two(rt.alloc())? > 0);", made)
        self.assertIn('format_in!(rt.alloc(); "{}", 3)?', made)

    def test_stops(self):
        for text, words in (
            ("fn one(runtime: HostRuntime) {}\n", f"{PATH}:1: a test in a form"),
            ("fn one() {\n    dbg!(3);\n}\n", f"{PATH}:2: a macro that is not known: dbg!"),
            ("#[ignore]\nfn one() {}\n", f"{PATH}:1: an attribute that is not known: ignore"),
        ):
            with self.assertRaises(Stop) as stop:
                self.made(text)
            self.assertIn(words, str(stop.exception))


if __name__ == "__main__":
    unittest.main()
