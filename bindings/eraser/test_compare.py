"""What bindings/compare_tokens sees in a source and the file made of it: `python3 -m unittest eraser.test_compare` in bindings/."""
import importlib.machinery
import importlib.util
import os
import unittest

HERE = os.path.dirname(os.path.realpath(__file__))


def loaded():
    loader = importlib.machinery.SourceFileLoader("compare_tokens", f"{HERE}/../compare_tokens")
    module = importlib.util.module_from_spec(
        importlib.util.spec_from_loader("compare_tokens", loader)
    )
    loader.exec_module(module)
    return module


compare = loaded()
PATH = "crates/tz_base/src/example.rt"


def kinds(source, made):
    """The kinds of difference, with their counts."""
    found = compare.Kinds()
    compare.compared(found, PATH, "tz_base", source, made)
    return {kind: count for kind, (count, _) in found.places.items()}


NONE = "{ Some(value) => value, None => return None, }"


def body(text):
    return f"fn one(a: &[u8], low: i64, high: i64) -> i128 {{\n    {text}\n}}\n"


class Forms(unittest.TestCase):
    """Forms that are written otherwise, with all their operands."""

    # What a body is in the source and in Rust, and the form.
    ROWS = (
        ("i128::from(high) - i128::from(low)", "high as i128 - low as i128", compare.CAST, 2),
        ("-i64::from(a.b(c)[0].d + 1)", "-((a.b(c)[0].d + 1) as i64)", compare.CAST, 1),
        ("i64::from(-x).abs()", "(-x as i64).abs()", compare.CAST, 1),
        (
            "two(a?.b(c)?)?",
            f"match two(match (match a {NONE}).b(c) {NONE}) {NONE}",
            compare.RETURN_NONE,
            3,
        ),
        (
            "let b = two::<u8>(a)?;",
            "let b = match two::<u8>(a) { Ok(value) => value, Err(error) => return Err(error), };",
            compare.RETURN_ERROR,
            1,
        ),
        (
            "(a + b).min(c).max(2)",
            "crate::shim::greatest!(crate::shim::least!(a + b, c), 2)",
            compare.COMPARED["least"],
            1,
        ),
        ("two(&a.b[..n + 1], 3)", "two(a.b.split_at(n + 1).0, 3)", compare.FIRST, 1),
        ("i64::try_from(a - b)", "crate::shim::narrow(a - b)", compare.NARROW, 1),
        ("unsafe { str::from_utf8_unchecked(a) }", "crate::shim::text(a)", compare.TEXT, 1),
        (
            "for i in 0..two(a) {\n        three(i);\n    }",
            "{ let mut i = 0; let i_end = two(a); while i < i_end { three(i); i += 1; } }",
            compare.LOOP,
            1,
        ),
    )

    def test_forms(self):
        for source, made, form, count in self.ROWS:
            with self.subTest(source):
                self.assertEqual(kinds(body(source), body(made)).get(form), count)

    # What is no form of the other.
    OTHERS = (
        ("i128::from(high) - i128::from(low)", "low as i128 - low as i128"),
        ("i128::from(high) - i128::from(low)", "high as i64 as i128 - low as i128"),
        ("-i64::from(x)", "-x as i64"),
        ("i64::from(x + 1)", "x + 1 as i64"),
        ("i64::from(x)", "x as i32"),
        ("x as u32", "x as u16 as u32"),
        ("two(-a?)", f"two(match -a {NONE})"),
        ("a.min(b)", "crate::shim::least!(b, a)"),
        ("a.min(b)", "crate::shim::greatest!(a, b)"),
        ("-a.min(b)", "crate::shim::least!(-a, b)"),
        ("&a[..n]", "a.split_at(n).1"),
        ("for i in 0..n {\n        i;\n    }", "let mut i = 0; while i < n { i; i += 1; }"),
        (
            "for i in 0..n {\n        i;\n    }",
            "{ let mut i = 0; let i_end = n; while i <= i_end { i; i += 1; } }",
        ),
        (
            "for i in 0..n {\n        let i = 2;\n    }",
            "{ let mut i = 0; let i_end = n; while i < i_end { let i = 2; i += 1; } }",
        ),
        ("a.saturating_add(b)", "a.wrapping_add(b)"),
        ('"a // b"', '"a // c"'),
        ('"std::io + Drop"', '"core::io"'),
        ('"  \\\n        a"', '"\\\n        a"'),
        ("(a,)", "(a)"),
    )

    def test_others(self):
        for source, made in self.OTHERS:
            with self.subTest(made):
                forms = {
                    compare.CAST,
                    compare.RETURN_NONE,
                    compare.FIRST,
                    compare.LOOP,
                    *compare.COMPARED.values(),
                }
                self.assertTrue(set(kinds(body(source), body(made))) - forms)

    def test_a_text_that_is_not_read(self):
        for text in ("/* a */", 'r"a"', 'r#"a"#'):
            with self.assertRaises(compare.Odd):
                kinds(body("1"), body(text))


class Ghosts(unittest.TestCase):
    """What is ghost ends where lines say so, whatever stands in it."""

    def test_a_brace_in_a_comment_of_a_clause(self):
        source = (
            "fn one() -> u8\n    ensures { result ≡ 1 -- {\n    }\n{\n    1\n}\n\n"
            "fn two() -> u8\n    ensures { result ≡ 2 -- }\n    }\n{\n    2\n}\n"
        )
        self.assertEqual(kinds(source, "fn one() -> u8 { 1 }\nfn two() -> u8 { 2 }\n"), {})
        self.assertTrue(kinds(source, "fn one() -> u8 { 2 }\n"))

    def test_ghosts(self):
        source = (
            "ghost use A.{b, c};\n\n#[tactic(auto)]\npub fn one(x: u8) -> u8\n    requires some { x < 3\n        + 1 }\n{\n    x\n}\n\n"
            "trait Two {\n    fn three(&self)\n        ensures { record {\n            x = 1;\n        } ≡ 2 };\n}\n\n"
            "impl Model for Two {\n    ghost Value = { ℕ };\n}\n\nconst _: () = prove!(\n    a;\n);\n\n"
            "struct Two {\n    x: u8,\n    pub ghost fact: { x ≡ x } by {\n        refl\n    },\n}\n"
        )
        self.assertEqual(
            kinds(
                source,
                "pub fn one(x: u8) -> u8 { x } trait Two { fn three(&self); } struct Two { x: u8 }",
            ),
            {},
        )

    def test_clauses_without_a_body(self):
        with self.assertRaises(compare.Odd):
            kinds("fn one()\n    ensures { x }\nfn two() {}\n", "")


class Items(unittest.TestCase):
    def test_items_that_are_left_out_or_new(self):
        source = "impl One {\n    fn two() {}\n\n    fn three() {}\n}\n"
        self.assertEqual(kinds(source, "impl One { fn three() {} }"), {"- all of One::two": 1})
        self.assertEqual(
            kinds(source, "impl One { fn two() {} fn three() {} fn four() {} }"),
            {"+ fn four() { }": 1},
        )
        self.assertEqual(kinds(source, ""), {"- all of impl One": 1})

    def test_texts_of_errors(self):
        source = '#[derive(Debug, Error)]\nenum One {\n    #[error("a")]\n    Two,\n    #[error("b {0}")]\n    Three(u8),\n}\n'
        made = (
            "#[derive(Debug)] enum One { Two, Three(u8) } impl fmt::Display for One {"
            " fn fmt(&self, f: &mut fmt::Formatter<'_>) -> fmt::Result { match self {"
            ' One::Two => f.write_str("a"), One::Three(error) => { write!(f, "b {error}") } } } } impl error::Error for One {}'
        )
        self.assertEqual(kinds(source, made), {"- Error in #[derive(..)]": 1, compare.ERROR: 2})
        self.assertNotIn(compare.ERROR, kinds(source, made.replace('"a"', '"c"')))
        self.assertNotIn(
            compare.ERROR, kinds(source.replace("{0}", "{0:?}"), made.replace("{error}", "{0:?}"))
        )
        self.assertNotIn(
            compare.ERROR, kinds(source.replace('"a"', '"{{0}}"'), made.replace('"a"', '"{{0}}"'))
        )

    def test_attributes(self):
        self.assertTrue(kinds("#[derive_where(skip(EqHashOrd))]\nstruct One;\n", "struct One;"))
        self.assertTrue(
            kinds("#[derive(Clone, PartialEq)]\nstruct One;\n", "#[derive(Clone)] struct One;")
        )
        self.assertTrue(kinds("#[repr(C)]\nstruct One;\n", "struct One;"))


class Exports(unittest.TestCase):
    """Functions for C."""

    SOURCE = (
        "crates/tz_c/src/one.rt",
        '#[unsafe(no_mangle)]\npub extern "C" fn two(a: Global, b: &[u8], c: &TzZone<\'_>, d: &mut [i64], e: u8) -> u32\n'
        '    ensures { result ≡ 1 }\n{\n    1\n}\n\n#[unsafe(no_mangle)]\npub extern "C" fn three(a: u8, b: u8) -> u32 {\n    2\n}\n\n'
        '#[unsafe(no_mangle)]\npub extern "C" fn four(a: &Five, b: &Five, c: &mut usize, d: &mut usize) -> u32 {\n    2\n}\n\n'
        "#[repr(C)]\npub struct PartsData<'a> {\n    pub(crate) one: &'a [One],\n    two: Two,\n    ghost sound: { one ≡ two },\n}\n",
    )
    MADE = (
        '#![allow(unsafe_code)]\nuse crate::one;\n#[unsafe(no_mangle)] pub unsafe extern "C" fn two(b: *const u8, b_length: usize, c: *const Zone,'
        " d: *mut i64, d_length: usize, e: u8) -> u32 { let (b, c, d) = unsafe { (list(b, b_length), one(c).data(), list_mut(d, d_length)) };"
        " one::two(Global, b, &c, d, e) }"
        '#[unsafe(no_mangle)] pub extern "C" fn three(a: u8, b: u8) -> u32 { one::three(a, b) }'
        '#[unsafe(no_mangle)] pub unsafe extern "C" fn four(a: *const Five, b: *const Five, c: *mut usize, d: *mut usize) -> u32 {'
        " let (a, b, mut c, mut d) = unsafe { (one(a), one(b), Out::new(c), Out::new(d)) }; let answer = one::four(a, b, &mut c.value, &mut d.value);"
        " unsafe { c.write(answer); d.write(answer) }; answer }"
        "#[repr(C)] pub struct Parts { one: *const One, one_length: usize, two: Two }"
        " const _: () = assert!(size_of::<Parts>() == size_of::<PartsData<'static>>());"
        " impl Parts { #[inline(always)] pub(crate) unsafe fn data(&self) -> PartsData<'_> { unsafe {"
        " PartsData { one: list(self.one, self.one_length), two: self.two, } } }"
        ' #[cfg(feature = "zones")] pub(crate) fn of(data: PartsData<\'static>) -> Self {'
        " let (one, one_length) = raw_parts(data.one); let two = data.two; Parts { one, one_length, two } } }"
    )

    def kinds(self, made):
        found = compare.Kinds()
        compare.exports_compared(found, [self.SOURCE], made)
        return set(found.places)

    def test_exports(self):
        self.assertEqual(self.kinds(self.MADE), {compare.EXPORT, compare.MIRROR})

    def test_others(self):
        for old, new in (
            ("three(a, b) }", "three(b, a) }"),
            ("one::three(", "one::four("),
            ("one::two(", "four::two("),
            ("list(b, b_length)", "list(b, b_length.min(40))"),
            ("list(b, b_length)", "list(b, d_length)"),
            ("e: u8) -> u32 {", "e: u8) -> u32 { let e = 1;"),
            ("one(c).data()", "one(b).data()"),
            ("one::four(a, b,", "one::four(b, a,"),
            ("&mut c.value, &mut d.value", "&mut d.value, &mut c.value"),
            ("c.write(answer); d", "d.write(answer); c"),
            ("c.write(answer);", ""),
            ("one(a), one(b)", "one(a), one(a)"),
            ("Out::new(c)", "Out::new(d)"),
            ("list(self.one, self.one_length)", "list(self.one, self.one_length.min(9))"),
            ("one: *const One, one_length: usize,", "one_length: usize, one: *const One,"),
            ("raw_parts(data.one)", "raw_parts(data.two)"),
            ("assert!(size_of::<Parts>() ==", "assert!(size_of::<Parts>() !="),
            ("use crate::one;", "use crate::four as one;"),
        ):
            with self.subTest(new):
                self.assertIn(old, self.MADE)
                found = compare.Kinds()
                compare.exports_compared(found, [self.SOURCE], self.MADE.replace(old, new))
                self.assertTrue(
                    set(found.places) != {compare.EXPORT, compare.MIRROR} or found.imports
                )


class Lists(unittest.TestCase):
    def test_an_example_stays_while_it_is_one(self):
        found = compare.Kinds()
        found.add("+ const", "b: c")
        found.add("+ const", "a: c")
        self.assertEqual(found.text().split("\n")[:2], ["    2 + const", "      a: c"])
        kept = compare.examples_of("    1 + const\n      b: c\nimports: \n")
        self.assertEqual(found.text(kept).split("\n")[1], "      b: c")
        self.assertEqual(found.text({"+ const": "d: e"}).split("\n")[1], "      a: c")


if __name__ == "__main__":
    unittest.main()
