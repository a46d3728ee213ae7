"""The tests of the proved crates, made Rust that runs over the crates that cargo builds.

bindings/proved_tests has what tests use of Rattle's standard library, as `kit`. A test that has no
counterpart in Rust stands in bindings/proved_tests/left_out.txt, with the reason.
"""
import os
import re

from . import erasure, forms
from .cut import without_ghosts
from .lints import with_arms_for_more
from .structure import functions_of
from .tokens import OPEN, Stop, edited, line_of, tokens_of

TOP = os.path.dirname(os.path.dirname(os.path.dirname(os.path.realpath(__file__))))
LEFT_OUT = "bindings/proved_tests/left_out.txt"
ROW = re.compile(r"(crates/\w+/src/\S+\.rt) (\w+): (\S.*)")

MACROS = forms.KNOWN_MACROS | {"assert", "assert_eq", "panic", "utc"}
ATTRIBUTES = forms.KNOWN_ATTRIBUTES | {"test", "cfg", "macro_export"}

# What tests call, and what stands for it.
CALLS = (
    # A test has the runtime in a variable, and an assertion needs none.
    (r"\b(assert|assert_eq|panic)!\(\s*&?rt;", r"\1!("),
    (r"\bformat!\(\s*in ", "format_in!("),
    (r"\.(to_string|repeat|replace)\((?=(?:rt\.)?alloc\b)", r".\1_in("),
    # These have no allocator or no time in Rust, and so are no methods.
    (r"\bDateTime::(find|find_local)\((?=\s*alloc\b)", r"kit::\1("),
    (r"\b((?:Utc)?DateTime)::now\(", r"\1::from_timespec("),
    # Rust's vectors have no iterator of their own here.
    (r"\bin &list\.into_inner\(\)", "in list.into_inner().iter()"),
)

# The paths of what the kit's std has.
PATHS = (
    (r"\buse std::\{env, fs, io, process\};", "use crate::kit::{env, fs, process};\nuse std::io;"),
    (r"\bstd::(process|test)\b", r"crate::kit::\1"),
    (r"\bstd::fs::Files\b", "tz::shim::rt::Files"),
    (r"\bstd::alloc\b", "tz::shim::alloc"),
    (
        r"\buse std::io::\{self, Read, Write\};",
        "use crate::shim::io::Write;\nuse std::io::{self, Read};",
    ),
    (r"\buse anyhow::anyhow;", "use crate::kit::anyhow;"),
    (r"\banyhow::anyhow!", "crate::kit::anyhow!"),
    (r"\buse anyhow::\{Context, Result\};", "use crate::kit::{Context, Result};"),
    (r"\banyhow::Result<", "crate::kit::Result<"),
    (
        r"\bstd::time::\{Clock, SystemTime, UNIX_EPOCH\}",
        "crate::kit::time::{Clock, SystemTime, UNIX_EPOCH}",
    ),
)

# Texts that are replaced, each of which stands once.
EXACT = {
    "crates/tz_tests/src/find/memory.rt": (
        ("Some(copy == list)", "Some(kit::are_equal(&copy, &list))"),
    ),
    # An allocator of Rust's counts blocks, and has no pointers.
    "crates/tz_samples/src/refusing.rt": (
        (
            """unsafe impl<B: Allocator> Allocator for Refusing<B> {
    ghost dealloc_token = { λ heap ty ptr. B.dealloc_token heap.inner ty ptr };

    fn allocate(&self, size: usize, align: usize) -> Result<*mut u8, AllocError> {
        if self.counts.refuse() {
            return Err(AllocError);
        }
        self.inner.allocate(size, align)
    }

    unsafe fn deallocate(&self, ptr: *mut u8, size: usize, align: usize) {
        self.counts.take_back();
        self.inner.deallocate(ptr, size, align);
    }
}
""",
            """impl<B: Allocator> Allocator for Refusing<B> {
    fn gives(&self) -> bool {
        !self.counts.refuse() && self.inner.gives()
    }

    fn takes_back(&self) {
        self.counts.take_back();
        self.inner.takes_back();
    }
}
""",
        ),
    ),
}


# Tests have crates of their own.
PACKAGE = erasure.Package(
    folder="bindings/proved_tests/src/erased",
    crates=(
        *sorted(it for it in os.listdir(f"{TOP}/crates") if it.endswith("_tests")),
        "tz_examples",
        "tz_samples",
    ),
    root="crate::erased",
    by_hand={"": "bindings/proved_tests/src/erased/mod.rs"},
    others={
        **{name: f"tz::proved::{name}" for name in erasure.PACKAGES[0].crates},
        "tz_query": "crate::proved::tz_query",
    },
)


def left_out():
    """The tests that have no counterpart: for each source their names, with the reasons."""
    made = {}
    with open(f"{TOP}/{LEFT_OUT}", encoding="utf-8") as file:
        for line in file:
            if line.strip() and not line.startswith("#"):
                row = ROW.fullmatch(line.strip())
                if not row:
                    raise Stop(f"{LEFT_OUT}: a line in a form that is not known: {line.strip()}")
                made.setdefault(row[1], {})[row[2]] = row[3]
    return made


def erased(package, path, text):
    """What a source of a crate of tests, or of what they share, is in Rust."""
    for old, new in EXACT.get(path, ()):
        if text.count(old) != 1:
            raise Stop(f"{path}: {old.splitlines()[0]!r} stands {text.count(old)} times, not once")
        text = text.replace(old, new)
    text = without_ghosts(path, text)
    known(path, text)
    text = without_left_out(path, text)
    text = forms.with_derives(path, text)
    text = with_runtimes(path, text)
    for old, new in (*CALLS, *PATHS):
        text = re.sub(old, new, text)
    text = with_arms_for_more(path, with_paths(package, path, text))
    return with_imports(text)


def known(path, text):
    """Stops at a macro or an attribute that is not known."""
    tokens = tokens_of(path, text)
    for at, token in enumerate(tokens[:-2]):
        mark, opening = tokens[at + 1].text, tokens[at + 2].text
        if token.kind == "word" and mark == "!" and opening in OPEN and token.text not in MACROS:
            raise Stop(
                f"{path}:{line_of(text, token.start)}: a macro that is not known: {token.text}!"
            )
        if token.text == "#" and mark in ("[", "!"):
            name = tokens[at + 2 + (mark == "!")].text
            if name not in ATTRIBUTES:
                raise Stop(
                    f"{path}:{line_of(text, token.start)}: an attribute that is not known: {name}"
                )


def without_left_out(path, text):
    """The source without the tests that have no counterpart."""
    names = set(left_out().get(path, ()))
    if not names:
        return text
    edits = []
    for function in functions_of(path, text):
        if function.name in names:
            names.discard(function.name)
            edits.append((function.start, function.end, ""))
    if names:
        raise Stop(f"{path}: there is no test {sorted(names)[0]}")
    return edited(text, edits)


def with_runtimes(path, text):
    """A test takes no runtime: it has one in a variable."""
    edits = []
    tokens = tokens_of(path, text)
    for at, token in enumerate(tokens):
        if token.text == "HostRuntime":
            if [it.text for it in tokens[at - 3 : at]] != ["(", "rt", ":"] or tokens[
                at + 1
            ].text != ")":
                raise Stop(
                    f"{path}:{line_of(text, token.start)}: a test in a form that is not known"
                )
            body = next(it for it in tokens[at:] if it.text == "{")
            edits += [
                (tokens[at - 2].start, token.end, ""),
                (body.end, body.end, " let rt = kit::HostRuntime;\n"),
            ]
    return edited(text, edits)


def with_paths(package, path, text):
    """Paths of crates that are modules here."""
    crate = path.split("/")[1]
    edits = []
    tokens = tokens_of(path, text)
    for at, token in enumerate(tokens):
        before = tokens[at - 1].text if at else ""
        after = tokens[at + 1].text if at + 1 < len(tokens) else ""
        if token.kind != "word" or before in ("::", ".", "$") or after != "::":
            continue
        if token.text == "crate" and tokens[at + 2].text not in ("kit", "shim"):
            edits.append((token.start, token.end, package.path_of(crate)))
        elif package.path_of_crate(token.text):
            # A macro stands in the package's root.
            of_macro = token.text == "tz_samples" and tokens[at + 2].text == "utc"
            edits.append(
                (token.start, token.end, "crate" if of_macro else package.path_of_crate(token.text))
            )
    text = edited(text, edits)
    # The paths of PATHS are those of the package already.
    return text.replace("tz::proved::tz::shim::", "tz::shim::")


# What stands for names that Rattle has without an import, and for methods of its types.
KIT = {
    "Box": r"\bBox::",
    "String": r"(?<![\w:])String(?=::|[<,;>)]| \{)",
    "Vec": r"(?<![\w:])Vec(?=::|<)",
    "format_in": r"\bformat_in!",
    "BytesIn": r"\.repeat_in\(",
    "PrintedIn": r"\.to_string_in\(",
    "Resized": r"\.(?:resize|truncate)\(",
    "TextIn": r"\.(?:repeat|replace)_in\(",
    "VecIn": r"\bVec::from_slice\(",
    "self": r"(?<![\w:])kit::",
}


def with_imports(text):
    """The source with imports of the kit."""
    names = [name for name, use in KIT.items() if re.search(use, forms.without_comments(text))]
    if not names:
        return text
    at = re.search(r"^(?!//!|\n)", text, re.M).start()
    return f"{text[:at]}use crate::kit::{{{', '.join(names)}}};\n{text[at:]}"
