"""What bindings/erase needs to know of this repository: packages, items that are left out, paths, and functions that are const in Rust alone."""
import os
import re
from dataclasses import dataclass, field

TOP = os.path.dirname(os.path.dirname(os.path.dirname(os.path.realpath(__file__))))


@dataclass
class Package:
    """A package of generated Rust: some crates, each a module of it."""

    # The folder of the generated files.
    folder: str
    crates: tuple
    # The path of the modules.
    root: str
    # Sources that make no file.
    skipped: tuple = ()
    # Sources in whose place a file by hand stands.
    by_hand: dict = field(default_factory=dict)
    # Crates of another package, and where they are.
    others: dict = field(default_factory=dict)
    std_paths: tuple = ()
    # The file of the functions that C calls, if there are some.
    exports: str = ""
    # Whether items say which feature of the package they need.
    features: bool = False

    @property
    def modules(self):
        return {*self.crates, *self.others}

    def target(self, source):
        """The file that is made of a source, or None."""
        if source in self.skipped or source in self.by_hand or not source.endswith(".rt"):
            return None
        crate, rest = re.fullmatch(r"crates/(\w+)/src/(.*)\.rt", source).groups()
        return f"{self.folder}/{crate}/{'mod' if rest == 'lib' else rest}.rs"

    def module(self, source):
        """The path of the module that is made of a source."""
        crate, rest = re.fullmatch(r"crates/(\w+)/src/(.*)\.rt", source).groups()
        return f"{self.path_of(crate)}::{rest.replace('/', '::')}"

    def path_of(self, crate):
        return f"{self.root}::{crate}"

    def path_of_crate(self, name):
        """The path that stands for a crate's name at the beginning of a path, or None if it stays."""
        if name in self.crates:
            return f"{self.root}::{name}"
        return self.others.get(name)


STD = (
    (r"^use std::marker::Model;\n", ""),
    (r"\bstd::(alloc|fs|io|rt)\b", r"crate::shim::\1"),
    (r"\buse anyhow::anyhow;", "use crate::shim::anyhow;"),
    (r"(?<![\w:])anyhow::Error\b", "crate::shim::anyhow::Error"),
    (r"\barrayvec::ArrayString\b", "crate::shim::ArrayString"),
    (r"\bstd::(cmp|fmt|hash|iter|num|ops|slice|str|time)\b", r"core::\1"),
    (r"\buse std::\{fmt, str\};", "use core::{fmt, str};"),
)

PACKAGES = (
    Package(
        folder="bindings/rust/src/proved",
        crates=("tz_base", "tz_rule", "tz_zone", "tz", "tz_civil", "tz_format"),
        root="crate::proved",
        skipped=(
            "crates/tz_base/src/laws.rt",
            "crates/tz_rule/src/laws.rt",
            "crates/tz_zone/src/laws.rt",
            "crates/tz/src/laws.rt",
            "crates/tz_civil/src/laws.rt",
            "crates/tz_format/src/constants.rt",
            "crates/tz_format/src/laws.rt",
        ),
        by_hand={
            "crates/tz_rule/src/timezone/utc_statics.rt": "bindings/rust/src/proved/tz_rule/timezone/utc_statics.rs",
            "": "bindings/rust/src/proved/mod.rs",
        },
        std_paths=STD,
        features=True,
    ),
    # The C library, over the crate's inner calls.
    Package(
        folder="bindings/c/src/proved",
        crates=("tz_c",),
        root="crate::proved",
        skipped=("crates/tz_c/src/file_laws.rt", "crates/tz_c/src/laws.rt"),
        by_hand={"": "bindings/c/src/proved/mod.rs"},
        others={
            name: f"tz::proved::{name}"
            for name in ("tz_base", "tz_rule", "tz_zone", "tz", "tz_civil", "tz_format")
        },
        std_paths=tuple((old, new.replace("crate::", "tz::")) for old, new in STD),
        exports="bindings/c/src/exports.rs",
    ),
    # The program's library, over the crate's inner calls.
    Package(
        folder="bindings/tzq/src/proved",
        crates=("tz_query",),
        root="crate::proved",
        skipped=("crates/tz_query/src/laws.rt",),
        by_hand={"": "bindings/tzq/src/proved/mod.rs"},
        others={name: f"tz::proved::{name}" for name in ("tz_base", "tz_zone", "tz")},
        std_paths=((r"\bcore::dec2flt\b", "crate::shim::dec2flt"), *STD),
    ),
)

# Exact texts that are replaced before anything else.
EXACT = {
    "crates/tz/src/datetime/utc_date_time.rt": (
        (
            "self.checked_add(duration).unwrap()",
            'self.checked_add(duration).expect("attempt to add with overflow")',
        ),
        (
            "self.checked_sub(duration).unwrap()",
            'self.checked_sub(duration).expect("attempt to subtract with overflow")',
        ),
        # Where Rattle requires a proof, Rust panics.
        (
            "/// The date time later by a duration. Rattle requires a proof that it is not past\n/// [`UtcDateTime::MAX`]; the Rust crate panics if it is. "
            "[`UtcDateTime::checked_add`] returns\n/// `None` then.\n",
            "/// The date time later by a duration.\n///\n/// # Panics\n///\n/// If it is past [`UtcDateTime::MAX`]. [`UtcDateTime::checked_add`] returns `None` then.\n",
        ),
        (
            "/// The date time earlier by a duration. Rattle requires a proof that it is not before\n/// [`UtcDateTime::MIN`]; the Rust crate panics if it is. "
            "[`UtcDateTime::checked_sub`] returns\n/// `None` then.\n",
            "/// The date time earlier by a duration.\n///\n/// # Panics\n///\n/// If it is before [`UtcDateTime::MIN`]. [`UtcDateTime::checked_sub`] returns `None` then.\n",
        ),
        (
            "/// Adds a duration, with the requirement of `+`: the sum is not past [`UtcDateTime::MAX`].\n",
            "/// Adds a duration.\n///\n/// # Panics\n///\n/// If the sum is past [`UtcDateTime::MAX`].\n",
        ),
        (
            "/// Subtracts a duration, with the requirement of `-`: the difference is not before\n/// [`UtcDateTime::MIN`].\n",
            "/// Subtracts a duration.\n///\n/// # Panics\n///\n/// If the difference is before [`UtcDateTime::MIN`].\n",
        ),
    ),
    # The list of the layer by hand lends its entries.
    "crates/tz/src/datetime/found.rt": (
        ("    pub(super) found: Vec<", "    pub(crate) found: Vec<"),
    ),
    # The public type is by hand.
    "crates/tz_zone/src/timezone/zone_names.rt": (
        ("(super::TimeZone::named)", "(crate::timezone::TimeZone::named)"),
    ),
    # Rust 1.85 has no condition with a pattern beside others, and no method for this cast.
    "crates/tz_query/src/query/read_query.rt": (
        (
            "bytes.len() >= 3\n        && let Some((number, end)) = read_small(bytes, 0)\n    {\n"
            "        return Some((i64::from(number), &bytes[end..]));\n    }",
            "bytes.len() >= 3 { if let Some((number, end)) = read_small(bytes, 0) {\n"
            "        return Some((i64::from(number), &bytes[end..]));\n    } }",
        ),
    ),
    # The bytes after a line are zeros, with which Rust checks the text sooner.
    "crates/tz_format/src/line.rt": (
        (
            "unsafe { str::from_utf8_unchecked(self.as_bytes()) }",
            "crate::shim::text_before(&self.bytes, self.len)",
        ),
        ("use std::str;\n", ""),
    ),
    # The program with zones of its own ends as the proved one does.
    "crates/tz_query/src/query/program.rt": (
        ("\nfn fail<E: Write>(", "\npub(crate) fn fail<E: Write>("),
        ("\nfn line_of(", "\npub(crate) fn line_of("),
    ),
    "crates/tz_query/src/query/mod.rt": (("mod program;", "pub(crate) mod program;"),),
    "crates/tz_query/src/query/suffixes.rt": (
        ("local_time_type.ut_offset().cast_unsigned()", "local_time_type.ut_offset() as u32"),
    ),
}

# Items that are left out: Rust has them otherwise, or only proofs need them.
LEFT_OUT = {
    "crates/tz_base/src/lib.rt": {"laws"},
    "crates/tz_rule/src/lib.rt": {"laws"},
    "crates/tz_zone/src/lib.rt": {"laws"},
    "crates/tz/src/lib.rt": {"laws"},
    "crates/tz_civil/src/lib.rt": {"laws"},
    # In Rust constants are checked by tests.
    "crates/tz_format/src/lib.rt": {"constants", "laws"},
    "crates/tz_query/src/lib.rt": {"laws"},
    "crates/tz_c/src/lib.rt": {"file_laws", "laws"},
    # In Rust one implementation is for all that is a `TzError`.
    "crates/tz_base/src/error.rt": {"From for Error"},
    # In Rust the current time is no argument.
    "crates/tz/src/datetime/date_time.rt": {"DateTime::now"},
    "crates/tz/src/datetime/utc_date_time.rt": {"UtcDateTime::now"},
    # In Rust these have no allocator.
    "crates/tz/src/datetime/find.rt": {"DateTime::find", "DateTime::find_local"},
}

# Fields that are not compared in Rattle, and follow from those that are.
SKIPPED = {"crates/tz/src/datetime/utc_date_time.rt": ("unix_time:",)}

# Functions that are methods of another crate's type in Rust (methods.py).
METHODS = {
    "crates/tz_civil/src/date.rt": {
        "Date::of": "UtcDateTime::date",
        "Date::of_date_time": "DateTime::date",
    },
    "crates/tz_civil/src/day_starts.rt": {"start_of_day": "TimeZoneRef::start_of_day"},
}

# Structs whose fields the C library writes, from pointers.
OPEN_FIELDS = {
    "crates/tz_c/src/zone_data.rt": ("TzZone",),
    "crates/tz_c/src/zones.rt": ("PartsData",),
}

# The lints that an item allows itself.
ALLOWED = {
    # A proof reads the field.
    "crates/tz/src/datetime/find.rt": {"Refused": ("dead_code",)},
    "crates/tz/src/columns/date_times.rt": {
        "fields_at": ("clippy::manual_range_contains",),
        "write_date_time": ("clippy::question_mark",),
    },
    "crates/tz/src/parse.rt": {"read_printed": ("clippy::manual_range_contains",)},
    "crates/tz_base/src/calendar.rt": {"days_before_moved_year": ("clippy::manual_div_ceil",)},
    "crates/tz_base/src/text_buffer.rt": {
        "TextBuffer::push_decimal": ("clippy::manual_range_contains",)
    },
    "crates/tz_format/src/lenient.rt": {"is_name_byte": ("clippy::manual_range_contains",)},
    "crates/tz_format/src/read.rt": {"nearest": ("clippy::manual_clamp",)},
    "crates/tz_zone/src/parse/tz_string.rt": {"read_daylight": ("clippy::type_complexity",)},
    "crates/tz_c/src/zones.rt": {
        "index_in": ("clippy::manual_find", "clippy::needless_range_loop")
    },
    "crates/tz_query/src/query/output.rt": {"Page::push_year": ("clippy::manual_range_contains",)},
    "crates/tz_query/src/query/read_query.rt": {
        "read_numbers": ("clippy::needless_range_loop",),
        "read_nanoseconds": ("clippy::needless_range_loop",),
    },
}

# Errors to which variants are never added.
EXHAUSTIVE = {"ReadFault", "RunFault"}

# What examples of docs import, hidden.
EXAMPLE_IMPORTS = (
    "# use std::time::Duration;",
    "# use tz::{datetime::*, error::*, timezone::*, *};",
)

# Examples have no allocator in Rust, and no error of one.
EXAMPLE_FORMS = (
    (r"\balloc: Global(,\s|,$|(?=\)))", ""),
    (r"\b(in )?alloc[,;] ", ""),
    (r"\(alloc\)", "()"),
    (r"\bformat!\((.*)\)\?", r"format!(\1)"),
    (r"(\.push\(\w+\))\?;", r"\1;"),
)

# Sources whose items are not the public ones of the crate: their examples are of Rattle.
OTHER_EXAMPLES = {
    "crates/tz/src/lib.rt",
    "crates/tz_zone/src/timezone/settings.rt",
    "crates/tz_zone/src/timezone/zone.rt",
    "crates/tz_zone/src/parse/tz_file.rt",
}


def sources_named():
    """The sources that these tables name."""
    tables = (
        EXACT,
        LEFT_OUT,
        SKIPPED,
        METHODS,
        OPEN_FIELDS,
        ALLOWED,
        CONST,
        INNER,
        INLINE,
        dict.fromkeys(OTHER_EXAMPLES),
    )
    return sorted({path for table in tables for path in table if path.startswith("crates/")})


def named_in(file_name):
    """The names of a list, by source."""
    made, names = {}, set()
    with open(os.path.join(os.path.dirname(__file__), file_name), encoding="utf-8") as file:
        for line in file:
            if line.startswith(" "):
                names.update(line.strip().rstrip(",").split(", "))
            elif not line.startswith("#"):
                names = made.setdefault(line.strip(), set())
    return made


# The functions that are const in Rust alone.
CONST = named_in("constants.txt")
# The items and imports of the Rust crate that its feature `inner` alone has.
INNER = named_in("inner.txt")
# The functions that get `#[inline]` in Rust.
INLINE = named_in("inline.txt")
