"""The functions of the C library. In Rattle an export takes slices, which cross as a pointer and a
length. In Rust it is two functions: that of the source, which is safe and no export, and one with
C's parameters, which makes references of the pointers and calls it.

    bytes: &[u8]          bytes: *const u8, bytes_length: usize     list(bytes, bytes_length)
    text: &mut [u8]       text: *mut u8, text_length: usize         list_mut(text, text_length)
    fields: &T            fields: *const T                          one(fields)
    out: &mut T           out: *mut T                               &mut Out::new(out).value
    zone: &TzZone<'_>     zone: *const Zone                         &one(zone).data()
    alloc: Global         (it takes no bytes)                       Global
    n: u8                 as it stands                              as it stands

What the source's function writes to an `Out` goes to C's pointer when it has returned, so that may
be a pointer to what it reads.

A struct of slices is in C one of pointers and lengths, since Rust promises no layout of a slice in
a struct, and no slice is null. It is made of the source's fields, and so is what converts it.
"""
import re

from . import erasure
from .structure import items_of
from .tokens import OPEN, Stop, closing, tokens_of

EXPORT = re.compile(r'#\[unsafe\(no_mangle\)\]\s*pub extern "C" fn (\w+)(?=\()')
# What a struct of slices is in C.
MIRRORS = {"TzZone": "Zone", "PartsData": "Parts"}
NUMBER = r"(?:bool|[iu](?:8|16|32|64)|usize)"
PARAMETER = re.compile(r"(?P<reference>&(?P<mut>mut )?)?(?P<list>\[)?(?P<type>\w+)(?:<'_>)?\]?")
HEAD = """//! The functions of tz.h, each by one pattern: from what C passes it makes what the function of a
//! source takes, and calls that.
#![allow(unsafe_code)]

use crate::pointers::{Out, list, list_mut, one};
#[cfg(feature = "zones")]
use crate::pointers::raw_parts;
"""
MIRROR = """
/// A `{path}` as C has it: pointers and lengths.
#[repr(C)]
pub struct {mirror} {{
    {fields}
}}

// `tz_layout` writes the size of what the functions take.
const _: () = assert!(size_of::<{mirror}>() == size_of::<{name}<'static>>());

impl {mirror} {{
    /// The slices.
    ///
    /// # Safety
    ///
    /// Each pointer is as [`list`] requires it, as long as the slices are used.
    #[inline(always)]
    pub(crate) unsafe fn data(&self) -> {name}<'_> {{
        // SAFETY: `list` requires of each pointer what this function does.
        unsafe {{ {name} {{ {slices} }} }}
    }}

    /// What C sees of slices of the library's own memory.
    #[cfg(feature = "zones")]
    pub(crate) fn of(data: {name}<'static>) -> Self {{
        {parts}
        {mirror} {{ {names} }}
    }}
}}
"""
FUNCTION = """
{docs}#[unsafe(no_mangle)]
pub extern "C" fn {name}({taken}) {answer} {{
    {module}::{name}({passed})
}}
"""
UNSAFE_FUNCTION = """
{docs}///
/// # Safety
///
/// What tz.h asks of a caller.
#[unsafe(no_mangle)]
pub unsafe extern "C" fn {name}({taken}) {answer} {{
    // SAFETY: tz.h asks of a caller what these require.
    let {names} = unsafe {{ {values} }};
    {call}
}}
"""
CALL = "{module}::{name}({passed})"
# The answer says whether anything was written.
WRITING_CALL = """let answer = {module}::{name}({passed});
    // SAFETY: tz.h asks of a caller what these require.
    unsafe {{ {writes} }};
    answer"""


def without_exports(path, text):
    """The source's own functions, which C does not see: each has one caller."""
    text = EXPORT.sub(r"#[inline(always)]\npub fn \1", text)
    if re.search(r"\b(?:extern|no_mangle)\b", text):
        raise Stop(f"{path}: an export in a form that is not known")
    return text


def with_open_fields(text, names):
    """Structs whose fields the C library writes, from pointers."""
    for name in names:
        found = re.search(rf"^pub struct {name}<'a> \{{\n(.*?)^\}}", text, re.S | re.M)
        fields = re.sub(r"^    (?:pub\(crate\) )?(?=\w+:)", "    pub ", found[1], flags=re.M)
        text = text[: found.start(1)] + fields + text[found.end(1) :]
    return text


def with_open_modules(text):
    """The modules of the crate's root, whose functions the exports call."""
    return re.sub(r"^mod (\w+);$", r"pub(crate) mod \1;", text, flags=re.M)


def paths_of(module, text):
    """The path of each type that a source has or imports."""
    made = {}
    for found in re.finditer(r"^use ([\w:]+)::(?:(\w+)|\{([^}]*)\});", text, re.M):
        for name in (found[2] or found[3]).split(","):
            made[name.strip()] = f"{found[1]}::{name.strip()}"
    for found in re.finditer(r"^pub struct (\w+)", text, re.M):
        made[found[1]] = f"{module}::{found[1]}"
    return made


def signature(path, text, at):
    """The names and types of the parameters whose bracket opens at a place, and the answer."""
    tokens = tokens_of(path, text[at : text.index("{", at) + 1])
    end = closing(path, tokens, 0)
    made, start, depth = [], 1, 0
    for number in range(1, end + 1):
        word = tokens[number].text
        depth += (word in OPEN or word == "<") - (word in OPEN.values() or word == ">")
        if word == "," and depth == 0 or number == end:
            if number > start:
                if tokens[start + 1].text != ":":
                    raise Stop(f"{path}: a parameter in a form that is not known")
                kind = text[at + tokens[start + 2].start : at + tokens[number - 1].end]
                made.append((tokens[start].text, kind))
            start = number + 1
    return made, text[at + tokens[end].end : at + tokens[-1].start].strip()


def uses(paths):
    """The imports of paths."""
    made = {}
    for path in sorted(paths):
        parent, _, name = path.rpartition("::")
        made.setdefault(parent, []).append(name)
    return "".join(f"use {parent}::{{{', '.join(names)}}};\n" for parent, names in made.items())


def exported(sources):
    """The text of the exports. A source is its path, its module, and its text with its exports."""
    functions, used = [], set()
    for path, module, text in sources:
        paths = paths_of(module, text)
        items = {it.name: text[it.start : it.end] for it in items_of(path, text)}
        for found in EXPORT.finditer(text):
            name = found[1]
            given, answer = signature(path, text, found.end())
            if not re.fullmatch(f"-> {NUMBER}", answer):
                raise Stop(f"{path}: {name} answers what is not known to cross: {answer}")
            used.add(module)
            docs = items[name].partition("#[")[0]
            functions.append(function(path, module, docs, name, given, answer, paths, used))
    mirrors = [
        mirror(path, module, text, name, used)
        for path, module, text in sources
        for name in erasure.OPEN_FIELDS.get(path, ())
    ]
    return HEAD + uses(used) + "".join(mirrors + functions)


def mirror(path, module, text, name, used):
    """The struct of pointers that C has for a struct of slices."""
    paths = {**paths_of(module, text), name: f"{module}::{name}"}
    used.add(paths[name])
    body = re.search(rf"^pub struct {name}<'a> \{{\n(.*?)^\}}", text, re.S | re.M)[1]
    fields, slices, parts = [], [], []
    for line in body.strip().split("\n"):
        found = re.fullmatch(r"\s*pub (\w+): (?:(?P<list>&'a \[(\w+)\])|(\w+)(<'a>)?),", line)
        if not found or found[5] and found[4] not in MIRRORS:
            raise Stop(f"{path}: {name} has what is not known to cross: {line.strip()}")
        word, kind = found[1], found[3] or found[4]
        if found["list"]:
            fields += [f"{word}: *const {kind}", f"{word}_length: usize"]
            slices.append(f"{word}: list(self.{word}, self.{word}_length)")
            parts.append(f"let ({word}, {word}_length) = raw_parts(data.{word});")
        elif kind in MIRRORS:
            fields.append(f"{word}: {MIRRORS[kind]}")
            slices.append(f"{word}: self.{word}.data()")
            parts.append(f"let {word} = {MIRRORS[kind]}::of(data.{word});")
            continue
        else:
            fields.append(f"{word}: {kind}")
            slices.append(f"{word}: self.{word}")
            parts.append(f"let {word} = data.{word};")
        used.add(paths[kind])
    return MIRROR.format(
        path=name,
        name=name,
        mirror=MIRRORS[name],
        fields=",\n    ".join(fields),
        slices=", ".join(slices),
        parts="\n        ".join(parts),
        names=", ".join(it.partition(":")[0] for it in fields),
    )


def function(path, module, docs, name, given, answer, paths, used):
    """The function with C's parameters. Adds the paths of the types that it names to those used."""
    # What C passes, what is made of it, what is passed on, and what is written at the end.
    taken, made, passed, written = [], [], [], []
    for word, kind in given:
        found = PARAMETER.fullmatch(kind)
        of = found and found["type"]
        if not found or not (re.fullmatch(NUMBER, of) or of in paths):
            raise Stop(f"{path}: {name} takes what is not known to cross: {kind}")
        if of in MIRRORS and kind == f"&{of}<'_>":
            taken.append(f"{word}: *const {MIRRORS[of]}")
            made.append((word, f"one({word}).data()"))
            passed.append(f"&{word}")
            continue
        if of in paths:
            if of in MIRRORS or (of == "Global") == bool(found["reference"]):
                raise Stop(f"{path}: {name} takes what is not known to cross: {kind}")
            used.add(paths[of])
        if of == "Global":
            passed.append(of)
            continue
        passed.append(f"&mut {word}.value" if found["mut"] and not found["list"] else word)
        if found["list"]:
            pointer, call = ("*mut", "list_mut") if found["mut"] else ("*const", "list")
            taken += [f"{word}: {pointer} {of}", f"{word}_length: usize"]
            made.append((word, f"{call}({word}, {word}_length)"))
        elif found["mut"]:
            taken.append(f"{word}: *mut {of}")
            made.append((f"mut {word}", f"Out::new({word})"))
            written.append(f"{word}.write(answer)")
        elif found["reference"]:
            taken.append(f"{word}: *const {of}")
            made.append((word, f"one({word})"))
        else:
            taken.append(f"{word}: {kind}")
    if written and answer != "-> u32":
        raise Stop(f"{path}: {name} writes to a value, and answers no code: {answer}")
    words = {
        "docs": docs,
        "name": name,
        "taken": ", ".join(taken),
        "answer": answer,
        "module": module.rpartition("::")[2],
        "passed": ", ".join(passed),
        "names": tuple_of([word for word, _ in made]),
        "values": tuple_of([value for _, value in made]),
        "writes": "; ".join(written),
    }
    words["call"] = (WRITING_CALL if written else CALL).format(**words)
    return (UNSAFE_FUNCTION if made else FUNCTION).format(**words)


def tuple_of(words):
    return words[0] if len(words) == 1 else f"({', '.join(words)})"
