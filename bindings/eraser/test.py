"""What the eraser makes of forms that it knows, and that it stops at others and names the place: `python3 -m unittest eraser.test` in bindings/."""
import os
import shutil
import subprocess
import tempfile
import unittest

from . import erasure, exports, features, forms, lints
from .cut import without_ghosts
from .tokens import Stop

PATH = "crates/tz_base/src/example.rt"
PACKAGE = erasure.PACKAGES[0]


def erased(text):
    return forms.erased(PACKAGE, PATH, text)


class Stops(unittest.TestCase):
    def stops(self, text, place, said):
        with self.assertRaises(Stop) as stop:
            erased(text)
        self.assertIn(f"{PATH}:{place}:", str(stop.exception))
        self.assertIn(said, str(stop.exception))

    def test_a_ghost_word_in_a_new_form(self):
        self.stops("fn one() {}\n\nghost fn two() {}\n", 3, "ghost")
        self.stops("fn one() -> u8\n    follows { x }\n{ 1 }\n", 2, "follows")
        self.stops("fn one() -> u8\n    ensures result.now\n{ 1 }\n", 2, "ensures")
        self.stops("ghost one = two;\n", 1, "ghost")

    def test_a_brace_in_a_text(self):
        self.stops('fn one() -> u8\n    ensures { said result "}" }\n{ 1 }\n', 2, "brace in a text")

    def test_a_macro(self):
        self.stops("fn one() {\n    two!(3);\n}\n", 2, "two!")

    def test_an_attribute(self):
        self.stops("#[two]\nfn one() {}\n", 1, "two")

    def test_unsafe_code(self):
        self.stops("fn one(p: *const u8) -> u8 {\n    unsafe { *p }\n}\n", 2, "unsafe")

    def test_a_path_of_std(self):
        with self.assertRaisesRegex(Stop, "use std::process"):
            erased("use std::process;\n")

    def test_a_letter(self):
        self.stops("fn one() {\n    let \u03bb = 1;\n}\n", 2, "what is this")

    def test_a_name_that_is_not_there(self):
        erasure.CONST[PATH] = {"two"}
        self.addCleanup(erasure.CONST.pop, PATH)
        with self.assertRaisesRegex(Stop, "there is no function two"):
            erased("fn one() {}\n")

    def constant(self):
        erasure.CONST[PATH] = {"every function"}
        self.addCleanup(erasure.CONST.pop, PATH)

    def test_functions_made_constant(self):
        self.constant()
        for body, said in (
            ("Some(two::<u8>()?)", "types in a call"),
            ("for i in 0..2 { if i == 0 { continue; } }", "a loop that continues: for i in 0..2 {"),
            ("&a[1..3]", "a piece of a slice"),
            # The index that the body binds again would be the one that is counted on.
            (
                "for i in 0..3 { let mut i = i; i += 1; }",
                "a loop that binds or sets its index: for i in 0..3 {",
            ),
            ("for i in 0..3 { if let Some(i) = two { } }", "a loop that binds or sets its index"),
            ("for i in 0..3 { for i in 0..2 { } }", "a loop that binds or sets its index"),
            ("for i in 0..3 { two(&mut i); }", "a loop that binds or sets its index"),
            ("for i in 0..3 { i += 1; }", "a loop that binds or sets its index"),
            ("for i in 0..i_end { }", "a loop that has the name of its bound"),
            ("'a: for i in 0..3 { break 'a; }", "a loop with a label"),
        ):
            with self.subTest(body), self.assertRaisesRegex(Stop, f"{PATH}: in one: {said}"):
                erased(f"fn one(a: &[u8]) -> Option<u8> {{\n    {body}\n}}\n")

    def test_what_brackets_mean_in_ghost_code(self):
        # The head of the second function would be cut.
        one = "fn one() -> u8\n    ensures { result \u2261 1 -- {\n    }\n{\n    1\n}\n\n"
        self.stops(
            one + "fn two() -> u8\n    ensures { result \u2261 2 -- }\n    }\n{\n    2\n}\n",
            2,
            "in a comment of ghost code",
        )
        self.stops(
            'fn one() -> u8\n    ensures { result \u2261 1 -- "\n    }\n{\n    1\n}\n',
            2,
            "in a comment of ghost code",
        )
        self.stops(
            "fn one() -> u8\n    ensures { result \u2261 1 // {\n    }\n{\n    1 }\n}\n",
            2,
            "in a comment of ghost code",
        )
        self.stops(
            "fn one() -> u8\n    ensures { result \u2261 '{' }\n{\n    1\n}\n}\n",
            2,
            "in a character",
        )
        self.stops(
            "fn one() -> u8\n    ensures { result /* { */ }\n{\n    1\n}\n}\n",
            2,
            "in a character or a comment",
        )
        # A bracket that is not closed takes code with it.
        self.stops(
            "fn one() -> u8\n    ensures { { result }\n{\n    1\n}\n}\n",
            3,
            "goes on further to the left",
        )

    def test_what_is_not_read(self):
        self.stops('fn one() {}\n/* " */\n', 2, "a comment in lines of code")
        for text in ('r"a"', 'r#"a"#', 'br"a"', "r#one"):
            self.stops(f"fn one() {{\n    let a = {text};\n}}\n", 2, "a raw text")

    def test_sizes(self):
        self.stops(
            "static A: usize =\n    size_of::<(u8, u32, u8)>();\n",
            2,
            "the size of what is not known",
        )
        self.stops(
            "struct One(u8);\n\nstatic A: usize = size_of::<One>();\n",
            3,
            "the size of One, which is not repr(C)",
        )
        self.stops(
            "static A: usize = size_of::<Two>();\n", 1, "the size of Two, which is not repr(C)"
        )
        self.stops(
            "use tz_zone::inner::ZoneData;\n\nstatic A: usize = size_of::<ZoneData<'static>>();\n",
            3,
            "the size of ZoneData",
        )
        self.stops("fn one(a: &One) -> usize {\n    size_of_val(a)\n}\n", 2, "size_of_val")
        erased(
            "#[repr(C)]\nstruct One(u8);\n\nstatic A: usize = size_of::<One>() + size_of::<u8>();\n"
        )

    def test_ranges(self):
        for body in ("(250u8..).take(9)", "two(a..)", "let b = a..;", "for i in 0.. {}"):
            self.stops(f"fn one(a: u8) {{\n    {body}\n}}\n", 2, "a range without an end")
        for body in ("..v[5]", "..two()", "..*two().a"):
            self.stops(
                f"fn one() -> S {{\n    S {{ a: 1, {body} }}\n}}\n", 2, "fields of what is computed"
            )
        erased(
            "fn one() {\n    let S { a, .. } = S { a: 1, ..*b.c };\n    let [d, .., e] = &f[2..];\n    let Some(g @ 1..) = h(..) else {};\n}\n"
        )

    def test_floats_and_orders(self):
        for body in ("a.min(1.5)", "a as f64", "2e3", "1f32"):
            self.stops(f"fn one() {{\n    {body}\n}}\n", 2, "a float")
        erased("fn one() {\n    (a.0.min(0xf64), b.1)\n}\n")
        self.stops(
            "#[derive(PartialEq, PartialOrd)]\nenum One {\n    Two = 2,\n    Three = 1,\n}\n",
            1,
            "an order of an enum with numbers: One",
        )

    def test_laws(self):
        for argument in ("next(&mut x)", "&mut x", "x = 1", "x?"):
            with self.assertRaisesRegex(
                Stop, f"{PATH}: an argument of a law that may do something: law"
            ):
                erased(f"use crate::laws::law;\n\nfn one() {{\n    law({argument});\n}}\n")
        self.assertEqual(
            erased("use crate::laws::law;\n\nfn one() {\n    law(&x, y.z);\n}\n").split(),
            "fn one() { }".split(),
        )

    def test_texts_of_errors(self):
        for text in ("bad: {0:?}", "{{", "{{0}}", "{1}", "{}", "}"):
            with self.assertRaisesRegex(Stop, f"{PATH}: a text of One in a form that is not known"):
                erased(
                    f'use thiserror::Error;\n\n#[derive(Error)]\nenum One {{\n    #[error("{text}")]\n    Two(u8),\n}}\n'
                )
        with self.assertRaisesRegex(Stop, "a text of One in a form that is not known"):
            erased(
                'use thiserror::Error;\n\n#[derive(Error)]\nenum One {\n    #[error("{0}")]\n    Two,\n}\n'
            )
        made = erased(
            'use thiserror::Error;\n\n#[derive(Error)]\nenum One {\n    #[error("a // {0}, {0}")]\n    Two(u8),\n}\n'
        )
        self.assertIn('One::Two(error) => write!(f, "a // {error}, {error}")', made)
        fields = 'use thiserror::Error;\n\n#[derive(Error)]\nenum One {\n    #[error("at {at}")]\n    Two { at: u8, of: u8 },\n}\n'
        self.assertIn('One::Two { at, .. } => write!(f, "at {at}")', erased(fields))
        with self.assertRaisesRegex(Stop, "a text of One in a form that is not known"):
            erased(fields.replace("{at}", "{by}"))

    def test_a_field_that_is_not_compared(self):
        with self.assertRaisesRegex(Stop, f"{PATH}: a field that is not compared: b:"):
            erased(
                "struct One {\n    a: u8,\n    #[derive_where(skip(EqHashOrd))]\n    b: u8,\n}\n"
            )


class Texts(unittest.TestCase):
    """What looks like code in a text or a comment stays."""

    def test_texts(self):
        erasure.CONST[PATH] = {"every function"}
        self.addCleanup(erasure.CONST.pop, PATH)
        for text in (
            "a + Drop b",
            "std::io",
            "i64::try_from(a)",
            "\n#[derive(Drop)]\n",
            "a  \n  b",
            "<T: Drop>",
            "fn fmt<W: fmt::Write>(",
            "crate::one",
            "\nuse std::str;\n",
            "for i in 0..2 {",
            "&mut V",
            "requires x { y }",
            "ghost a = {",
            "a // b",
            "(a)?",
            '\\"#[error(1)]\\"',
        ):
            with self.subTest(text):
                self.assertIn(f'"{text}"', erased(f'fn one() {{\n    two("{text}");\n}}\n'))

    def test_comments(self):
        erasure.CONST[PATH] = {"every function"}
        self.addCleanup(erasure.CONST.pop, PATH)
        text = "fn one() {\n    // for i in 0..n { a?; std::io + Drop }\n    two();\n}\n"
        self.assertEqual(erased(text), f"const {text}")


class Cuts(unittest.TestCase):
    def test_every_function_is_constant(self):
        erasure.CONST[PATH] = {"every function"}
        self.addCleanup(erasure.CONST.pop, PATH)
        made = erased("fn one() {}\n\npub const fn two() {}\n")
        self.assertEqual(made.split(), "const fn one() {} pub const fn two() {}".split())
        of_a_trait = "impl Hash for One {\n    fn hash(&self) -> u8 { self.two }\n}\n"
        made = erased(of_a_trait + "\nimpl One {\n    fn two() {}\n}\n")
        self.assertEqual(made.split(), (of_a_trait + " impl One { const fn two() {} }").split())

    def test_clauses_and_ghosts(self):
        text = (
            "ghost use A.{b, c};\n\n"
            "/// Docs.\n#[tactic(auto, using(d))]\npub fn one(x: u8) -> u8\n    requires some { x < 3 }\n"
            "    ensures { (λ y. y) x }\n    ensures* b { \"it's\" }\n{\n    x\n}\n\n"
            "struct Two {\n    x: u8,\n    /// A fact.\n    pub ghost fact: { x ≡ x } by { refl },\n}\n\n"
            "impl Model for Two {\n    ghost Value = { ℕ };\n}\n"
        )
        cut = without_ghosts(PATH, text)
        self.assertEqual(
            cut.split(), "/// Docs. pub fn one(x: u8) -> u8 { x } struct Two { x: u8, }".split()
        )

    def test_constants(self):
        erasure.CONST[PATH] = {"one"}
        self.addCleanup(erasure.CONST.pop, PATH)
        made = erased(
            "fn one(a: u8, b: &[u8]) -> Option<i64> {\n    let mut sum = i64::from(a).max(2);\n"
            "    for i in 0..a {\n        sum += two(&b[..3])?;\n    }\n    Some(-i64::from(a + 1) + sum)\n}\n"
        )
        # The bound is read once, and the index is none of the function's names.
        wanted = (
            "const fn one(a: u8, b: &[u8]) -> Option<i64> { let mut sum = crate::shim::greatest!((a as i64), 2);"
            " { let mut i = 0; let i_end = a; while i < i_end { sum += match two(b.split_at(3).0) { Some(value) => value, None => return None };"
            " i += 1; } }"
            " Some(-((a + 1) as i64) + sum) }"
        )
        self.assertEqual("".join(made.split()), "".join(wanted.split()))

    def test_signs_before_casts(self):
        erasure.CONST[PATH] = {"every function"}
        self.addCleanup(erasure.CONST.pop, PATH)
        for source, made in (
            ("return -i64::from(x);", "return -(x as i64);"),
            ("if -i64::from(x) > 0 {}", "if -(x as i64) > 0 {}"),
            ("match -i64::from(x) {}", "match -(x as i64) {}"),
            ("if a {}\n-i64::from(x)", "if a {}\n-(x as i64)"),
            ("a - i64::from(-x)", "a - (-x) as i64"),
        ):
            with self.subTest(source):
                made = f"const fn one() -> i64 {{ {made} }}"
                self.assertEqual(erased(f"fn one() -> i64 {{ {source} }}"), made)


class Exports(unittest.TestCase):
    """A function for C, and the source's own."""

    def test_fields_that_are_open(self):
        text = "pub struct Two<'a> {\n    pub(crate) one: &'a [u8],\n    three: i32,\n}\n"
        wanted = "pub struct Two<'a> {\n    pub one: &'a [u8],\n    pub three: i32,\n}\n"
        self.assertEqual(wanted, exports.with_open_fields(text, ("Two",)))

    def both(self, given, answer="u32", imports="use tz_zone::{Global, TzZone};\n"):
        text = f'{imports}\n/// Docs.\n#[unsafe(no_mangle)]\npub extern "C" fn two({given}) -> {answer} {{\n    3\n}}\n'
        own = exports.without_exports(PATH, text)
        return own, exports.exported([(PATH, "crate::one", text)])

    def test_slices_and_structs_of_slices(self):
        own, made = self.both(
            "a: Global, b: &[i64], c: &TzZone<'_>, d: &mut [u8], e: i8, f: &mut usize"
        )
        self.assertIn("/// Docs.\n#[inline(always)]\npub fn two(a: Global, b: &[i64], c:", own)
        self.assertIn("use crate::{one};", made)
        self.assertIn(
            'pub unsafe extern "C" fn two(b: *const i64, b_length: usize, c: *const Zone, d: *mut u8, d_length: usize, e: i8, f: *mut usize) -> u32',
            made,
        )
        values = "(list(b, b_length), one(c).data(), list_mut(d, d_length), Out::new(f))"
        self.assertIn(f"let (b, c, d, mut f) = unsafe {{ {values} }};", made)
        self.assertIn("let answer = one::two(Global, b, &c, d, e, &mut f.value);", made)
        self.assertIn("unsafe { f.write(answer) };\n    answer\n}", made)

    def test_structs_of_slices(self):
        text = "use tz_zone::{One, OffsetsData};\n\npub struct PartsData<'a> {\n    pub one: &'a [One],\n    pub two: OffsetsData,\n}\n"
        self.addCleanup(erasure.OPEN_FIELDS.pop, PATH)
        erasure.OPEN_FIELDS[PATH] = ("PartsData",)
        made = exports.exported([(PATH, "crate::one", text)])
        self.assertIn(
            "pub struct Parts {\n    one: *const One,\n    one_length: usize,\n    two: OffsetsData\n}",
            made,
        )
        self.assertIn(
            "unsafe { PartsData { one: list(self.one, self.one_length), two: self.two } }", made
        )
        self.assertIn(
            "let (one, one_length) = raw_parts(data.one);\n        let two = data.two;\n        Parts { one, one_length, two }",
            made,
        )
        with self.assertRaisesRegex(
            Stop, "PartsData has what is not known to cross: pub one: Option<u8>"
        ):
            exports.exported([(PATH, "crate::one", text.replace("&'a [One]", "Option<u8>"))])

    def test_single_values(self):
        _, made = self.both("a: bool")
        self.assertIn(
            '#[unsafe(no_mangle)]\npub extern "C" fn two(a: bool) -> u32 {\n    one::two(a)\n}',
            made,
        )
        _, made = self.both("a: &u64")
        self.assertIn("let a = unsafe { one(a) };\n    one::two(a)\n}", made)
        _, made = self.both("a: &u64, b: &mut u8, c: &mut u64")
        self.assertIn(
            "let (a, mut b, mut c) = unsafe { (one(a), Out::new(b), Out::new(c)) };", made
        )
        self.assertIn("let answer = one::two(a, &mut b.value, &mut c.value);", made)
        self.assertIn("unsafe { b.write(answer); c.write(answer) };\n    answer\n}", made)

    def test_stops(self):
        for given in (
            "a: Two",
            "a: &Option<u8>",
            "a: &mut TzZone<'_>",
            "a: TzZone<'_>",
            "a: *const u8",
            "a: &[TzZone<'_>]",
        ):
            with self.assertRaisesRegex(Stop, "two takes what is not known to cross"):
                self.both(given)
        with self.assertRaisesRegex(Stop, "two writes to a value, and answers no code: -> u8"):
            self.both("a: &mut u64", "u8")
        with self.assertRaisesRegex(Stop, "an export in a form that is not known"):
            exports.without_exports(PATH, 'extern "C" fn two() {}')


class Methods(unittest.TestCase):
    """A function that is a method of another crate's type."""

    def made(self, text, **methods):
        erasure.METHODS[PATH] = {
            name.replace("__", "::"): method for name, method in methods.items()
        }
        self.addCleanup(erasure.METHODS.pop, PATH, None)
        return " ".join(erased(text).split())

    def test_the_method_has_the_docs(self):
        made = self.made(
            "/// Docs.\n#[inline]\npub const fn one(zone: &Zone<'_>, at: i64) -> Option<i64>\n    ensures { x }\n{\n    Some(at)\n}\n",
            one="Zone::two",
        )
        wanted = (
            "#[inline] #[must_use] pub const fn one(_zone: &Zone<'_>, at: i64) -> Option<i64> { Some(at) }"
            " impl Zone<'_> { /// Docs. #[inline] #[must_use] pub const fn two(&self, at: i64) -> Option<i64> { one(self, at) } }"
        )
        self.assertEqual(wanted, made)

    def test_associated_functions(self):
        made = self.made(
            "impl Date {\n    /// Docs.\n    pub fn of(from: &Time) -> Self {\n        Date {}\n    }\n}\n",
            Date__of="Time::date",
        )
        self.assertIn("impl Date { #[doc(hidden)] #[must_use] pub fn of(_from: &Time)", made)
        self.assertIn(
            "impl Time { /// Docs. #[must_use] pub fn date(&self) -> Date { Date::of(self) } }",
            made,
        )
        made = self.made("pub fn read(text: &str) -> Time {\n    Time {}\n}\n", read="Time::read")
        self.assertIn(
            "impl Time { #[must_use] pub fn read(text: &str) -> Time { read(text) } }", made
        )

    def test_results_that_are_used(self):
        made = " ".join(erased("pub fn one(&self) -> u8 {\n    1\n}\n").split())
        self.assertIn("#[must_use] pub fn one", made)
        for head in (
            "pub fn one()",
            "fn one() -> u8",
            "pub fn one(two: &mut u8) -> u8",
            "pub fn one() -> Result<u8, Two>",
            "pub(crate) fn one() -> u8",
        ):
            self.assertNotIn("must_use", erased(f"{head} {{\n    1\n}}\n"))

    def test_lifetimes_and_names(self):
        made = self.made(
            "pub fn one<'a, 'b>(zone: Zone<'a>, one: &'b str) -> Two<'a, 'b> {\n    Two {}\n}\n",
            one="Zone::one",
        )
        self.assertIn(
            "impl<'a> Zone<'a> { #[must_use] pub fn one<'b>(self, one: &'b str) -> Two<'a, 'b> { self::one(self, one) } }",
            made,
        )
        made = self.made(
            "pub fn one<'a>(time: &'a Time, by: &'a [u8]) -> Two<'a> {\n    Two {}\n}\n",
            one="Time::one",
        )
        self.assertIn(
            "impl Time { #[must_use] pub fn one<'a>(&'a self, by: &'a [u8]) -> Two<'a> { one(self, by) } }",
            made,
        )

    def test_examples(self):
        made = self.made(
            "/// ```rust\n/// assert_eq!(one(&zone, Date::new(2018, 11, 4)?)?, one(&this.zone.lent(), two)?);\n/// one(&zone)\n/// ```\n"
            "pub fn one(zone: &Zone<'_>) {}\n",
            one="Zone::one",
        )
        self.assertIn(
            "/// assert_eq!(zone.one(Date::new(2018, 11, 4)?)?, this.zone.lent().one(two)?); /// zone.one()",
            made,
        )

    def test_stops(self):
        with self.assertRaisesRegex(Stop, f"{PATH}:1: a method in a form that is not known: one"):
            self.made("fn one(zone: &Zone<'_>) {}\n", one="Zone::one")
        with self.assertRaisesRegex(Stop, "there is no function two"):
            self.made("pub fn one(zone: &Zone<'_>) {}\n", two="Zone::two")


class Lints(unittest.TestCase):
    """What lints ask of code without its contracts."""

    def test_a_parameter_that_contracts_alone_read(self):
        made = erased(
            "fn one<T: Two>(at: i64, mut by: T, name: &str) -> u8 {\n    three(self, by)\n}\n\ntrait Four {\n    fn five(at: i64);\n}\n"
        )
        self.assertIn("fn one<T: Two>(_at: i64, mut by: T, _name: &str)", made)
        self.assertIn("fn five(at: i64);", made)
        self.assertIn("fn one(at: i64)", erased('fn one(at: i64) {\n    write!(f, "{at}")\n}\n'))

    def test_many_parameters(self):
        seven = "fn one(&self, " + ", ".join(f"p{it}: Two<u8, u8>" for it in range(6)) + ") {}\n"
        self.assertNotIn("allow", erased(seven))
        self.assertIn(
            "/// Docs.\n#[allow(clippy::too_many_arguments)]\n#[inline]\npub fn",
            erased("/// Docs.\n#[inline]\npub " + seven.replace("&self,", "&self, q: u8,")),
        )

    def test_allowed(self):
        erasure.ALLOWED[PATH] = {"One::two": ("three", "four")}
        self.addCleanup(erasure.ALLOWED.pop, PATH)
        self.assertIn(
            "impl One {\n    #[allow(three, four)]\nfn two",
            erased("impl One {\n    fn two() {}\n}\n"),
        )
        with self.assertRaisesRegex(Stop, f"{PATH}: there is no One::two"):
            erased("fn two() {}\n")

    def test_imports_of_what_is_left_out(self):
        erasure.LEFT_OUT[PATH] = {"one"}
        self.addCleanup(erasure.LEFT_OUT.pop, PATH)
        made = erased(
            "use crate::two;\nuse super::{three, four as five};\npub use crate::six;\n\nfn one() {\n    two(five, six)\n}\n\nfn seven() {\n    three()\n}\n"
        )
        self.assertEqual(
            "use super::{three};\npub use crate::proved::tz_base::six; fn seven() { three() }",
            " ".join(made.split()).replace("; pub", ";\npub"),
        )

    def test_a_match_over_errors(self):
        for arms, has in (
            ("DateTimeError::InvalidMonth => 1,", True),
            ("Ok(one) => { 1 }\n Err(tz::Error::Tz(two)) => f(two, 3),", True),
            ("Err(tz::Error::Tz(two)) => 1, Err(_) => 2,", False),
            ("TzError::OutOfRange => 1, other => 2,", False),
            ("TzError::OutOfRange => 1, other if other.is_one() => 2,", True),
            ("Fault::One => 1,", False),
        ):
            made = lints.with_arms_for_more(
                PATH, f"fn one() -> u8 {{\n    match two(3) {{\n        {arms}\n    }}\n}}\n"
            )
            with self.subTest(arms):
                self.assertEqual(has, "_ => unreachable!(),\n}" in made)


class Packages(unittest.TestCase):
    """What is made for a package over the crate."""

    PACKAGE = next(it for it in erasure.PACKAGES if "tz_query" in it.crates)

    def made(self, text):
        return forms.erased(self.PACKAGE, "crates/tz_query/src/example.rt", text)

    def test_paths_of_crates(self):
        made = self.made(
            "use crate::query::answer;\nuse tz::inner::Fields;\nuse tz_zone::parse;\nfn one() { tz::two(tz.tz) }\n"
        )
        self.assertIn("use crate::proved::tz_query::query::answer;", made)
        self.assertIn("use tz::proved::tz::inner::Fields;", made)
        self.assertIn("use tz::proved::tz_zone::parse;", made)
        self.assertIn("fn one() { tz::proved::tz::two(tz.tz) }", made)

    def test_a_private_error(self):
        made = self.made(
            'use thiserror::Error;\n\n#[derive(Drop, Error)]\nenum One {\n    #[error("two")]\n    Two,\n}\n'
        )
        self.assertIn('One::Two => f.write_str("two")', made)
        self.assertNotIn("non_exhaustive", made)


class Features(unittest.TestCase):
    """What needs a vector or a file says so."""

    def made(self, **sources):
        texts = {f"crates/tz_base/src/{name}.rt": text for name, text in sources.items()}
        return {path.split("/")[-1][:-3]: text for path, text in features.with_features(texts)}

    def test_items(self):
        made = self.made(
            one="use crate::shim::{Vec, two};\n\npub struct Three(Vec<u8>);\n\n/// Docs.\n#[inline]\npub fn four() -> u8 {\n    five.Vec()\n}\n",
            two="use crate::one::{Three, four};\n\nimpl Six for Three {\n    fn seven() {}\n}\n\nimpl Eight {\n    fn nine(a: &Three) {}\n\n    fn ten() {}\n}\n",
            three="use super::two::eleven;\n\nenum Errors {\n    Three(u8),\n    Vec(u8),\n}\n\nfn twelve() { Errors::Three(1) }\n\nfn file<R: Files>() {}\n",
        )
        alloc, std = (features.attribute(it) for it in ("alloc", "std"))
        self.assertIn(f"use crate::shim::{{two}};\n{alloc}use crate::shim::{{Vec}};", made["one"])
        self.assertIn(f"\n{alloc}pub struct Three", made["one"])
        self.assertIn("/// Docs.\n#[inline]\npub fn four", made["one"])
        self.assertIn(f"use crate::one::{{four}};\n{alloc}use crate::one::{{Three}};", made["two"])
        self.assertIn(f"\n{alloc}impl Six for Three {{\n    fn seven() {{}}", made["two"])
        self.assertIn(
            f"impl Eight {{\n    {alloc}fn nine(a: &Three) {{}}\n\n    fn ten() {{}}\n}}",
            made["two"],
        )
        self.assertEqual(made["three"].count("#["), 1)
        self.assertIn(f"\n{std}fn file", made["three"])

    def test_inner(self):
        names = {"One", "two", "Three::four", "use five", "use String"}
        erasure.INNER["crates/tz_base/src/one.rt"] = names
        self.addCleanup(erasure.INNER.pop, "crates/tz_base/src/one.rt")
        text = (
            "use super::{five, seven};\nuse crate::shim::String;\n\nstruct One;\n\nimpl Eight for One {\n    fn nine() {}\n}\n\n"
            "fn two() -> Vec<u8> { seven }\n\nimpl Three {\n    fn four() {}\n\n    fn ten() {}\n}\n"
        )
        made = self.made(one=text)["one"]
        inner, both = features.attribute("inner"), features.attribute("alloc", "inner")
        self.assertIn(f"{both}use crate::shim::{{String}};\n", made)
        self.assertIn(f"{inner}use super::{{five}};", made)
        self.assertIn(f"\n{inner}struct One;\n\n{inner}impl Eight for One {{\n    fn nine", made)
        self.assertIn(f"\n{both}fn two", made)
        self.assertIn(f"impl Three {{\n    {inner}fn four() {{}}\n\n    fn ten", made)
        names.add("eleven")
        with self.assertRaisesRegex(Stop, "one.rt: there is no eleven: bindings/erase --inner"):
            self.made(one=text)

    def test_imports_that_such_items_alone_name(self):
        made = self.made(
            one="use super::two;\nuse super::three;\n\nfn four(a: Vec<u8>) { two(three) }\n\nfn five() { three() }\n"
        )
        self.assertIn(
            f"{features.attribute('alloc')}use super::{{two}};\nuse super::three;\n", made["one"]
        )

    def test_variants(self):
        variants, arms = (
            "    Io(anyhow::Error),\n    Tz(u8),\n",
            "        Error::Io(it) => 1,\n        Error::Tz(it) => 2,\n",
        )
        text = f"pub enum Error {{\n{variants}}}\n\nfn one(error: Error) {{\n    match error {{\n{arms}    }}\n}}\n"
        alloc = features.attribute("alloc")
        wanted = text.replace("    Io(", f"{alloc}    Io(").replace(
            "Error::Io(", f"{alloc}Error::Io("
        )
        self.assertEqual(self.made(error=text)["error"], wanted)
        with self.assertRaisesRegex(Stop, "Error::Io stands 0 times"):
            self.made(error="fn one() {}\n")


class Checks(unittest.TestCase):
    """A source that is newer than the file that was made of it."""

    def test_a_newer_source(self):
        top = os.path.dirname(os.path.dirname(os.path.dirname(os.path.realpath(__file__))))
        with tempfile.TemporaryDirectory() as folder:
            for name in ("bindings", "crates"):
                shutil.copytree(
                    f"{top}/{name}",
                    f"{folder}/{name}",
                    ignore=shutil.ignore_patterns("out", "target", "proofs", "must-fail"),
                )
            source = f"{folder}/crates/tz_base/src/calendar.rt"
            with open(source, encoding="utf-8") as file:
                text = file.read()
            with open(source, "w", encoding="utf-8") as file:
                file.write(text.replace("146_097", "146_096", 1))
            self.assertNotEqual(text.replace("146_097", "146_096", 1), text)
            ran = subprocess.run(
                [f"{folder}/bindings/erase", "--check"], capture_output=True, text=True
            )
            self.assertEqual(ran.returncode, 1)
            self.assertRegex(
                ran.stderr,
                r"bindings/rust/src/proved/tz_base/calendar.rs:\d+: is not what bindings/erase makes of crates/tz_base/src/calendar.rt",
            )


if __name__ == "__main__":
    unittest.main()
