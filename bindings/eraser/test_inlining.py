"""What inline.txt makes of functions, and that a name of no function stops the eraser.

`python3 -m unittest eraser.test_inlining` in bindings/.
"""

import re
import unittest

from . import erasure, forms
from .test_compare import kinds
from .tokens import Stop

PATH = "crates/tz_base/src/example.rt"


class Inlining(unittest.TestCase):
    def erased(self, text, names):
        erasure.INLINE[PATH] = set(names)
        self.addCleanup(erasure.INLINE.pop, PATH)
        return re.sub(r"\s+", " ", forms.erased(erasure.PACKAGES[0], PATH, text))

    def stops(self, text, names, said):
        with self.assertRaisesRegex(Stop, f"{PATH}{said}"):
            self.erased(text, names)

    def test_named_functions_alone(self):
        text = "/// Docs.\npub fn one() -> u8 {\n    1\n}\n\nimpl Two {\n    fn one() {}\n\n    fn three() {}\n}\n"
        made = self.erased(text, ["one", "Two::three"])
        self.assertIn("/// Docs. #[inline] #[must_use] pub fn one() -> u8", made)
        self.assertIn("impl Two { fn one() {} #[inline] fn three() {} }", made)

    def test_a_name_of_no_function(self):
        self.stops("fn one() {}\n", ["one", "two"], ": there is no function two")

    def test_a_function_without_a_body(self):
        self.stops(
            "trait Two {\n    fn one();\n}\n", ["Two::one"], ": there is no function Two::one"
        )

    def test_a_function_that_says_itself(self):
        self.stops("#[inline(always)]\nfn one() {}\n", ["one"], ":2: .* says itself: one")

    def test_what_compare_tokens_sees(self):
        source = "#[cold]\npub fn one() -> u8 {\n    1\n}\n"
        made = source.replace("pub", "#[inline]\n#[must_use]\npub")
        self.assertEqual(kinds(source, made), {"+ #[inline]": 1, "+ #[must_use]": 1})
        made = source.replace("pub", "#[inline(always)]\npub")
        self.assertEqual(kinds(source, made), {"+ #[inline(always)]": 1})
