"""Makes Rust of a source: cuts it, and rewrites what is left. Each function is a form, and erasure.py has the names to which forms apply."""
import functools
import os
import re

from . import erasure
from .constant import INTEGERS, ends_operand, made_constant
from .cut import without_ghosts
from .exports import with_open_fields, with_open_modules
from .inlining import with_inline
from .lints import with_allowed_lints, with_arms_for_more, with_unread_parameters, without_imports
from .methods import called_as_method, with_methods
from .structure import functions_of, items_of
from .tokens import OPEN, Stop, closing, edited, found_again, hidden, line_of, tokens_of

# Those of the shim are the eraser's own.
KNOWN_MACROS = {"anyhow", "matches", "write", "writeln", "unreachable", "format", "vec"}
KNOWN_ATTRIBUTES = {
    "derive",
    "derive_where",
    "error",
    "inline",
    "cold",
    "repr",
    "unsafe",
    "doc",
    "allow",
    "non_exhaustive",
    "default",
}


def erased(package, path, text):
    """What a source is in Rust."""
    for old, new in erasure.EXACT.get(path, ()):
        if text.count(old) != 1:
            raise Stop(f"{path}: {old!r} stands {text.count(old)} times, not once")
        text = text.replace(old, new)
    known(path, without_ghosts(path, text, lines=True))
    # From here on a pattern finds code alone.
    text, texts = hidden(path, without_ghosts(path, text))
    text = without_imports(path, text, left_out(path, text))
    text = without_laws(path, text)
    text = with_errors(path, text, texts)
    text = with_derives(path, text)
    text = with_formatters(text)
    text = with_safe_text(path, text)
    text = made_constant(path, text)
    text = with_methods(path, text)
    text = with_bounds(text)
    text = with_inline(path, text)
    if package.features:
        text = with_must_use(path, text)
    if package.others:
        text = with_arms_for_more(path, text)
    text = found_again(with_paths(package, path, text), texts)
    text = with_unread_parameters(path, with_allowed_lints(path, text))
    text = with_open_fields(text, erasure.OPEN_FIELDS.get(path, ()))
    # Links of docs name the crate of another crate's item.
    text = re.sub(r"(?m)^(\s*//[/!].*\]\()tz::", r"\1crate::", text)
    if package.exports and path.endswith("/src/lib.rt"):
        text = with_open_modules(text)
    return with_examples(path, text)


def known(path, text):
    """Stops at a macro or an attribute that is not known, and at forms that mean something else in Rust."""
    tokens = tokens_of(path, text)
    for stops in (stops_at_floats, stops_at_ranges, stops_at_sizes):
        stops(path, text, tokens)
    stops_at_orders(path, text)
    for at, token in enumerate(tokens[:-1]):
        if any(ord(letter) > 127 for letter in token.text) and token.kind != "string":
            raise Stop(f"{path}:{line_of(text, token.start)}: a letter that is not ASCII")
        if token.kind == "word" and tokens[at + 1].text == "!" and tokens[at + 2].text in OPEN:
            if token.text not in KNOWN_MACROS:
                raise Stop(
                    f"{path}:{line_of(text, token.start)}: a macro that is not known: {token.text}!"
                )
        if token.text == "#":
            name = at + 1 + (tokens[at + 1].text == "!") + 1
            if tokens[name].text not in KNOWN_ATTRIBUTES:
                raise Stop(
                    f"{path}:{line_of(text, token.start)}: an attribute that is not known: {tokens[name].text}"
                )


def stops_at_floats(path, text, tokens):
    """Stops at floats: `min` of two floats differs in Rust."""
    for token in tokens:
        if (
            token.kind == "number"
            and re.search(r"^(?!0x).*(?:\.|f32|f64|[0-9]e)", token.text)
            or token.text in ("f32", "f64")
        ):
            raise Stop(f"{path}:{line_of(text, token.start)}: a float")


def stops_at_ranges(path, text, tokens):
    """Stops at a range without an end, which goes on after the last number in Rattle, and at a struct's base (`..base`), which is read there only if a field is taken from it."""
    inside = []
    for at, token in enumerate(tokens):
        if token.text in OPEN:
            inside.append(token.text)
        elif token.text in OPEN.values():
            inside.pop()
        if token.text != ".." or at == 0:
            continue
        last, following = tokens[at - 1], tokens[at + 1]
        is_pattern = tokens[at - 2].text in ("@", "|") or following.text in ("=>", "|")
        if (
            ends_operand(last)
            and not following.text == "]"
            and not is_pattern
            and (following.text in OPEN.values() or following.text in ("{", ";", ",", "."))
        ):
            raise Stop(f"{path}:{line_of(text, token.start)}: a range without an end")
        if inside[-1:] == ["{"] and last.text in (",", "{") and following.text != "}":
            for part in tokens[at + 1 :]:
                if part.text in ("}", ","):
                    break
                if part.kind != "word" and part.text not in ("*", "."):
                    raise Stop(f"{path}:{line_of(text, token.start)}: fields of what is computed")


NUMBERS = {"bool", "char", *INTEGERS, "isize"}


def stops_at_sizes(path, text, tokens):
    """The two compilers may lay out a type differently unless it is `repr(C)`."""
    for at, token in enumerate(tokens):
        if token.text in ("size_of_val", "align_of", "align_of_val", "offset_of", "transmute"):
            raise Stop(f"{path}:{line_of(text, token.start)}: how a value lies: {token.text}")
        if token.text != "size_of" or tokens[at + 1].text in (";", ",", "}"):
            continue
        name = tokens[at + 3]
        end = next(it for it in range(at + 3, len(tokens)) if tokens[it].text == "(")
        rest = "".join(it.text for it in tokens[at + 4 : end])
        if tokens[at + 1].text != "::" or rest not in (">", "<'static>>", "<'_>>", "<'a>>"):
            raise Stop(f"{path}:{line_of(text, token.start)}: the size of what is not known")
        if name.text not in NUMBERS and not is_laid_out(path, text, name.text):
            raise Stop(
                f"{path}:{line_of(text, token.start)}: the size of {name.text}, which is not repr(C)"
            )


STRUCT = re.compile(r"^((?:#\[.*\]\n)*)(?:pub(?:\(\w+\))? )?(?:struct|enum) (\w+)", re.M)


def layouts_of(text):
    """The name of each struct and enum, and whether it is `repr(C)`."""
    return [(it[2], "#[repr(C)]" in it[1]) for it in STRUCT.finditer(text)]


@functools.lru_cache()
def layouts(crate):
    """The layouts of a crate, by its sources."""
    made = []
    for where, _, names in os.walk(f"{erasure.TOP}/crates/{crate}/src"):
        for name in names:
            with open(f"{where}/{name}", encoding="utf-8") as file:
                made += layouts_of(file.read())
    return made


def is_laid_out(path, text, name):
    """Whether each type of this name is repr(C): that of the source, or else those of the crate from which it is imported, or of all crates."""
    own = path.split("/")[1]
    imported = re.search(rf"^use (\w+)::[^;]*\b{name}\b[^;]*;", text, re.M)
    crate = imported and {"crate": own, "super": own}.get(imported[1], imported[1])
    crates = sorted({it for package in erasure.PACKAGES for it in package.crates})
    for found in (
        layouts_of(text),
        layouts(crate) if crate else [],
        [it for other in crates for it in layouts(other)],
    ):
        found = [laid_out for other, laid_out in found if other == name]
        if found:
            return all(found)
    return False


def stops_at_orders(path, text):
    """Rust orders the variants of an enum by their numbers."""
    for item in items_of(path, text):
        code = text[item.start : item.end]
        if (
            item.kind == "enum"
            and re.search(r"derive(_where)?\([^)]*\b(Partial)?Ord\b", code)
            and re.search(r"^\s*\w+ = ", code, re.M)
        ):
            raise Stop(
                f"{path}:{line_of(text, item.start)}: an order of an enum with numbers: {item.name}"
            )


def left_out(path, text):
    """Leaves out the items that Rust has otherwise, or that only proofs need."""
    names = erasure.LEFT_OUT.get(path, ())
    if not names:
        return text
    found, edits = set(), []
    for item in items_of(path, text):
        if item.name in names:
            found.add(item.name)
            edits.append((item.start, item.end, ""))
    if set(names) - found:
        raise Stop(f"{path}: there is no {sorted(set(names) - found)[0]}")
    return edited(text, edits)


LAW = re.compile(r"^use (?:\w+|crate)::laws::(\w+);\n", re.M)


def without_laws(path, text):
    """Laws do nothing: they are called for their contracts."""
    for found in list(LAW.finditer(text)):
        text = text.replace(found[0], "")
        for call in re.finditer(rf"^\s*{found[1]}\(([^;]*)\);\n", text, flags=re.M):
            if not re.fullmatch(r"[\w\s.,:]*|(?:(?!&mut)&[\w\s.,:]*)*", call[1]):
                raise Stop(f"{path}: an argument of a law that may do something: {call[0].strip()}")
        text, count = re.subn(rf"^\s*{found[1]}\([^;]*\);\n", "", text, flags=re.M)
        if not count or re.search(rf"\b{found[1]}\b", without_comments(text)):
            raise Stop(f"{path}: a law in a form that is not known: {found[1]}")
    return text


# A variant's text, or that of a struct, as thiserror takes it.
ERROR_TEXT = re.compile(r'#\[error\((transparent|"\u00a7\d+\u00a7")\)\]\s*')
NON_EXHAUSTIVE = '#[non_exhaustive]\n'
VARIANT = re.compile(r"([A-Z]\w*)\s*(\(([^()]*)\))?\s*,")
# A variant of named fields, which its text may name.
VARIANT_OF_FIELDS = re.compile(r"([A-Z]\w*)\s*\{(?P<fields>[^{}]*)\}\s*,")


def error_text(path, name, said, texts, fields):
    """The text of an error, in which the pattern of its fields may stand, and nothing else that `Display` reads."""
    text = found_again(said[1], texts)
    if re.search(r"[{}]", re.sub(fields, "", text)):
        raise Stop(f"{path}: a text of {name} in a form that is not known: {text}")
    return text


def with_errors(path, text, texts):
    """Writes out what thiserror's derive makes: `Display`, by the texts, and `Error`."""
    if "thiserror::Error" not in text:
        return text
    text = text.replace("use thiserror::Error;\n", "")
    made = []
    for item, body in [(it, text[it.start : it.end]) for it in items_of(path, text)]:
        if item.kind not in ("enum", "struct") or not re.search(
            r"derive\([^)]*\bError\b[^)]*\)", body
        ):
            continue
        name = item.name
        if item.kind == "struct":
            said = ERROR_TEXT.search(body)
            words = error_text(path, name, said, texts, r"\{[a-z_]+\}")
            fields = re.findall(r"\{([a-z_]+)\}", words)
            arms = f"let {name} {{ {', '.join(fields)}, .. }} = self; write!(f, {words})"
        else:
            arms = "match self {"
            lines = re.sub(r"//[^\n]*", "", body)
            for said in ERROR_TEXT.finditer(lines):
                variant = VARIANT_OF_FIELDS.match(lines, said.end())
                if variant:
                    fields = re.findall(r"(\w+):", variant["fields"])
                    words = error_text(path, name, said, texts, rf"\{{(?:{'|'.join(fields)})\}}")
                    named = [it for it in fields if f"{{{it}}}" in words]
                    arms += f"{name}::{variant[1]} {{ {', '.join(named)}{', ' * bool(named)}.. }} => write!(f, {words}),"
                    continue
                variant = VARIANT.match(lines, said.end())
                if not variant:
                    raise Stop(f"{path}: a variant of {name} in a form that is not known")
                words = error_text(path, name, said, texts, r"\{0\}" if variant[2] else "$")
                if said[1] == "transparent":
                    arms += f"{name}::{variant[1]}(error) => error.fmt(f),"
                elif variant[2] and "{0}" in words:
                    arms += f"{name}::{variant[1]}(error) => write!(f, {words.replace('{0}', '{error}')}),"
                elif variant[2]:
                    arms += f"{name}::{variant[1]}(_) => f.write_str({words}),"
                else:
                    arms += f"{name}::{variant[1]} => f.write_str({words}),"
            arms += "}"
            if lines.count("#[error(") != len(ERROR_TEXT.findall(lines)):
                raise Stop(f"{path}: a text of {name} in a form that is not known")
        made.append(
            f"\n\nimpl fmt::Display for {name} {{ fn fmt(&self, f: &mut fmt::Formatter<'_>) -> fmt::Result {{ {arms} }} }}"
            f"\n\nimpl error::Error for {name} {{}}\n"
        )
        public = re.search(rf"^pub enum {name}\b", text, re.M)
        if public and name not in erasure.EXHAUSTIVE:
            text = text[: public.start()] + NON_EXHAUSTIVE + text[public.start() :]
    text = ERROR_TEXT.sub("", text)
    # Imports come after the docs of the module.
    found = re.search(r"^(?!//!|\n)", text, re.M)
    uses = "use core::{error, fmt};\n"
    if re.search(r"^use std::(\{fmt|fmt)\b", text, re.M):
        uses = "use core::error;\n"
    return text[: found.start()] + uses + text[found.start() :] + "".join(made)


def with_derives(path, text):
    """`Drop` and `Error` are no derives of Rust; `derive_where` is `derive`, as all parameters that it spares are cut."""

    def derived(found):
        names = [it.strip() for it in found[1].split(",") if it.strip() not in ("Drop", "Error")]
        return f"#[derive({', '.join(names)})]\n" if names else ""

    skip = re.compile(r"#\[derive_where\(skip\(EqHashOrd\)\)\]\s*(\w+:)")
    for found in skip.finditer(text):
        if found[1] not in erasure.SKIPPED.get(path, ()):
            raise Stop(f"{path}: a field that is not compared: {found[1]}")
    text = skip.sub(r"\1", text)
    text = text.replace("#[derive_where(", "#[derive(")
    return re.sub(r"#\[derive\(([^)]*)\)\]\n", derived, text)


def with_formatters(text):
    """`fmt` is generic over its output in Rattle, and not in Rust."""
    text = text.replace("fn fmt<W: fmt::Write>(", "fn fmt(")
    return text.replace("fmt::Formatter<W>", "fmt::Formatter<'_>")


def with_bounds(text):
    """`Drop` as a bound says in Rattle that a value may be dropped, as each may in Rust."""
    text = re.sub(r"\s*\+\s*Drop\b", "", text)
    return re.sub(r"<([A-Z]): Drop>", r"<\1>", text)


def with_must_use(path, text):
    """Who drops the result of a public function that changes nothing has called it in vain. (A `Result` is marked by itself.)"""
    edits = []
    for function in functions_of(path, text):
        head = text[function.head : function.body]
        result = head.rpartition("->")[2].partition("where")[0].split()
        if (
            "->" not in head
            or not head.startswith("pub ")
            or "&mut " in head
            or result[0].startswith(("Result<", "(Result<", "fmt::Result"))
        ):
            continue
        edits.append((function.head, function.head, "#[must_use]\n"))
    return edited(text, edits)


def with_safe_text(path, text):
    """A checked conversion in the place of one that the proof makes safe."""
    edits = []
    tokens = tokens_of(path, text)
    for at, token in enumerate(tokens):
        if token.text == "unsafe" and tokens[at + 1].text == "{":
            end = closing(path, tokens, at + 1)
            inner = text[tokens[at + 1].end : tokens[end].start].strip()
            found = re.fullmatch(r"str::from_utf8_unchecked\((.*)\)", inner, re.S)
            if not found:
                raise Stop(f"{path}:{line_of(text, token.start)}: unsafe code that is not known")
            edits.append((token.start, tokens[end].end, f"crate::shim::text({found[1]})"))
    text = edited(text, edits)
    if edits and not re.search(r"\bstr::", text):
        text = re.sub(r"^use std::str;\n", "", text, flags=re.M)
        text = text.replace("use std::{fmt, str};", "use std::fmt;")
    return text


def with_paths(package, path, text):
    """Paths: of crates that are modules here, and of what the kit's std has and Rust's has not."""
    crate = path.split("/")[1]
    edits = []
    tokens = tokens_of(path, text)
    for at, token in enumerate(tokens):
        if token.kind != "word":
            continue
        before = tokens[at - 1].text if at else ""
        next_text = tokens[at + 1].text if at + 1 < len(tokens) else ""
        if before in ("::", "."):
            continue
        in_use = before == "use" or (before == "{" and at > 1 and tokens[at - 2].text == "use")
        if token.text == "crate" and next_text == "::":
            if tokens[at + 2].text == "shim":
                continue
            edits.append((token.start, token.end, package.path_of(crate)))
        elif next_text == "::" or in_use:
            new = package.path_of_crate(token.text)
            if new:
                edits.append((token.start, token.end, new))
            elif in_use and before == "{" and token.text in package.modules:
                raise Stop(
                    f"{path}:{line_of(text, token.start)}: an import in a form that is not known"
                )
    text = edited(text, edits)
    for pattern, new in package.std_paths:
        text = re.sub(pattern, new, text, flags=re.M)
    left = re.search(
        r"^(?:pub )?use std::[^;]*;|[^:\w]std::\w+",
        "\n".join(it for it in text.split("\n") if not it.lstrip().startswith("//")),
        re.M,
    )
    if left:
        raise Stop(f"{path}: a path of std that is not known: {left[0]}")
    names = [
        name
        for name in ("Vec", "String")
        if re.search(rf"(?<![\w:]){name}\b(?=[:<(]|\s*\{{)", without_comments(text))
    ]
    if names:
        use = f"use crate::shim::{{{', '.join(names)}}};\n"
        at = re.search(r"^(?!//!|\n)", text, re.M).start()
        text = text[:at] + use + text[at:]
    return text


def without_comments(text):
    return "\n".join(it for it in text.split("\n") if not it.lstrip().startswith("//"))


def with_examples(path, text):
    """Examples of docs are compiled by rustdoc, which does not know the names that they import. In Rust no call has an allocator."""
    made, inside = [], False
    for line in text.split("\n"):
        found = re.fullmatch(r"(\s*//[/!] ?)```(rust)?", line)
        if found and not inside:
            inside = True
            if path in erasure.OTHER_EXAMPLES:
                made.append(f"{found[1]}```text")
                continue
            made.append(f"{found[1]}```")
            made += [f"{found[1]}{it}" for it in erasure.EXAMPLE_IMPORTS]
            continue
        if found:
            inside = False
        elif inside and path not in erasure.OTHER_EXAMPLES:
            for old, new in erasure.EXAMPLE_FORMS:
                line = re.sub(old, new, line)
            line = called_as_method(line)
            if re.fullmatch(r"\s*//[/!]\s*", line):
                continue
        made.append(line)
    return "\n".join(made)
