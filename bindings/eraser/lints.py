"""What the lints of rustc and clippy ask of a source without its contracts.

    an import of what is left out                  goes
    fn one(time: i64), with time in contracts only fn one(_time: i64)
    a function of more than seven parameters       #[allow(clippy::too_many_arguments)]
    an item that ALLOWED in erasure.py names       #[allow(..)]
    a match over errors of another package         an arm `_`, as variants may be added there
"""
import functools
import os
import re

from . import erasure
from .structure import all_items, functions_of, items_of, parts_of_import
from .tokens import OPEN, Stop, closing, edited, tokens_of

MOST_PARAMETERS = 7


def words_outside_imports(path, text):
    """The words of a source but those of its imports."""
    tokens, items = all_items(path, text)
    imports = [(start, last) for kind, _, start, _, _, last in items if kind == "use"]
    return {
        token.text
        for at, token in enumerate(tokens)
        if token.kind == "word" and not any(start <= at <= last for start, last in imports)
    }


def without_imports(path, whole, text):
    """The source without the imports of names that only what was left out of the whole has."""
    gone = words_outside_imports(path, whole) - words_outside_imports(path, text)
    edits = []
    for item in items_of(path, text):
        if item.kind != "use" or text.startswith("pub", item.start):
            continue
        head, parts = parts_of_import(path, text[item.start : item.end])
        kept = [part for part, name in parts if name not in gone]
        if not kept:
            edits.append((item.start, item.end, ""))
        elif len(kept) < len(parts):
            edits.append((item.start, item.end, f"{head}{{{', '.join(kept)}}};"))
    return edited(text, edits)


def parameters_of(path, tokens):
    """The tokens that name a function's parameters; the first token is the head's."""
    at = next(at for at, token in enumerate(tokens) if token.text == "fn") + 2
    if tokens[at].text == "<":
        depth = 0
        while True:
            depth += {"<": 1, ">": -1}.get(tokens[at].text, 0)
            at += 1
            if depth == 0:
                break
    made, depth = [], 0
    for number in range(at + 1, closing(path, tokens, at)):
        text = tokens[number].text
        if (
            depth == 0
            and tokens[number + 1].text == ":"
            and tokens[number - 1].text in ("(", ",", "mut")
        ):
            made.append(tokens[number])
        elif depth == 0 and text == "self":
            made.append(tokens[number])
        depth += (text in OPEN or text == "<") - (text in OPEN.values() or text == ">")
    return made


def is_read(name, tokens):
    """Whether a body reads a name, or a text in it does."""
    text_reads = re.compile(rf"\{{{name}\b")
    return any(
        it.text == name if it.kind == "word" else it.kind == "string" and text_reads.search(it.text)
        for it in tokens
    )


def with_unread_parameters(path, text):
    """Parameters that only contracts read have names that begin with `_`."""
    edits = []
    for function in functions_of(path, text):
        if not function.end:
            continue
        body = tokens_of(path, text[function.body : function.end])
        for name in parameters_of(path, tokens_of(path, text[function.head : function.end])):
            if not name.text.startswith("_") and not is_read(name.text, body):
                at = function.head + name.start
                edits.append((at, at, "_"))
    return edited(text, edits)


def with_allowed_lints(path, text):
    """An item allows itself what its signature, or its code, is known to do."""
    wanted = dict(erasure.ALLOWED.get(path, {}))
    tokens, items = all_items(path, text)
    edits = []
    for kind, name, start, head, body, last in items:
        lints = wanted.pop(name, ())
        if kind == "fn" and len(parameters_of(path, tokens[head : last + 1])) > MOST_PARAMETERS:
            lints = ("clippy::too_many_arguments", *lints)
        if lints:
            at = tokens[start].start
            edits.append((at, at, f"#[allow({', '.join(lints)})]\n"))
    if wanted:
        raise Stop(f"{path}: there is no {sorted(wanted)[0]}")
    return edited(text, edits)


@functools.lru_cache(maxsize=None)
def errors_of_crate():
    """The errors of the Rust crate, to which variants may be added."""
    made = set()
    for crate in erasure.PACKAGES[0].crates:
        for where, _, names in os.walk(f"{erasure.TOP}/crates/{crate}/src"):
            for name in names:
                with open(f"{where}/{name}", encoding="utf-8") as file:
                    made.update(
                        re.findall(r"derive\([^)]*\bError\b[^)]*\)\]\npub enum (\w+)", file.read())
                    )
    return made - erasure.EXHAUSTIVE


def arms_of(path, tokens, at):
    """The patterns of the match whose body opens at a token, each as its first token and that after its last."""
    end, made, start = closing(path, tokens, at), [], at + 1
    while start < end:
        arrow = start
        while tokens[arrow].text != "=>":
            arrow = closing(path, tokens, arrow) + 1 if tokens[arrow].text in OPEN else arrow + 1
        made.append((start, arrow))
        at = arrow + 1
        if tokens[at].text == "{":
            at = closing(path, tokens, at) + 1
        else:
            while at < end and tokens[at].text != ",":
                at = closing(path, tokens, at) + 1 if tokens[at].text in OPEN else at + 1
        start = at + (at < end and tokens[at].text == ",")
    return made


def before_error(pattern):
    """What a pattern has before the first error that it names, or None if it names none."""
    for at, token in enumerate(pattern[:-1]):
        if token.text in errors_of_crate() and pattern[at + 1].text == "::":
            while at and pattern[at - 1].text == "::":
                at -= 2
            return [it.text for it in pattern[:at]]
    return None


def takes_all_after(front, pattern):
    """Whether a pattern takes every error that stands after this front."""
    if [it.text for it in pattern[: len(front)]] != front or any(it.text == "if" for it in pattern):
        return False
    rest = pattern[len(front) :]
    return (
        rest[0].kind == "word"
        and not rest[0].text[0].isupper()
        and (len(rest) == 1 or rest[1].text != "::")
    )


def with_arms_for_more(path, text):
    """A match over errors of the Rust crate, which names all of them, has an arm for those that may be added there."""
    tokens, edits = tokens_of(path, text), []
    for at, token in enumerate(tokens):
        if token.text != "match":
            continue
        opening = at + 1
        while tokens[opening].text != "{":
            opening = (
                closing(path, tokens, opening) + 1 if tokens[opening].text in OPEN else opening + 1
            )
        patterns = [tokens[start:end] for start, end in arms_of(path, tokens, opening)]
        fronts = [it for it in map(before_error, patterns) if it is not None]
        if fronts and not any(
            takes_all_after(front[:length], it)
            for front in fronts
            for length in (0, len(front))
            for it in patterns
        ):
            end = tokens[closing(path, tokens, opening)].start
            edits.append((end, end, "_ => unreachable!(),\n"))
    return edited(text, edits)
