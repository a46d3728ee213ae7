"""The items and functions of a text of Rust, by brackets."""
from typing import NamedTuple

from .tokens import OPEN, Stop, closing, tokens_of


class Item(NamedTuple):
    kind: str
    name: str
    start: int
    end: int


class Function(NamedTuple):
    name: str
    # From the docs and attributes on.
    start: int
    # The place of the word `fn`, or of `pub` or `extern` before it.
    head: int
    # The place of the body's opening brace, and that after the closing one; both 0 in a trait.
    body: int
    end: int


ITEMS = {"fn", "struct", "enum", "impl", "trait", "mod", "use", "const", "static", "type"}


def type_name(tokens, at, end):
    """What an `impl` is of, as `Display for Zone` or `Zone`; `at` is after the word."""
    if tokens[at].text == "<":
        depth = 0
        while True:
            depth += {"<": 1, ">": -1}.get(tokens[at].text, 0)
            at += 1
            if depth == 0:
                break
    words, depth = [], 0
    for token in tokens[at:end]:
        if token.text == "where" and depth == 0:
            break
        if token.text == "<":
            depth += 1
        elif token.text == ">":
            depth -= 1
        elif depth == 0 and token.kind == "word":
            words.append(token.text)
    if "for" in words:
        place = words.index("for")
        return f"{words[place - 1]} for {words[-1]}"
    return words[-1]


def walk(path, text, tokens, at, end, owner, found):
    """Adds the items between two tokens to a list."""
    while at < end:
        start = at
        # Attributes.
        while tokens[at].text == "#":
            at = closing(path, tokens, at + 1 + (tokens[at + 1].text == "!")) + 1
            if at == end:
                return
        head = at
        if tokens[at].text == "pub":
            at += 1
            if tokens[at].text == "(":
                at = closing(path, tokens, at) + 1
        while (
            tokens[at].text in ("unsafe", "extern", "async")
            or tokens[at].kind == "string"
            or (tokens[at].text == "const" and tokens[at + 1].text in ("fn", "extern", "unsafe"))
        ):
            at += 1
        kind = tokens[at].text
        if kind not in ITEMS:
            raise Stop(
                f"{path}: an item in a form that is not known: {text[tokens[start].start : tokens[start].start + 60]!r}"
            )
        body = None
        last = at
        while True:
            last += 1
            word = tokens[last].text
            if word == ";":
                break
            if word == "{" and kind not in ("use", "const", "static"):
                body = last
                last = closing(path, tokens, last)
                break
            if word in OPEN:
                last = closing(path, tokens, last)
        if kind == "impl":
            name = type_name(tokens, at + 1, body)
            walk(path, text, tokens, body + 1, last, name, found)
        else:
            name = tokens[at + 1].text
            if kind == "trait":
                walk(path, text, tokens, body + 1, last, name, found)
            if owner:
                name = f"{owner}::{name}"
        found.append((kind, name, start, head, body, last))
        at = last + 1


def start_of_docs(text, at):
    """The beginning of the docs and comments right before a place."""
    line = text.rfind("\n", 0, at) + 1
    while line:
        before = text.rfind("\n", 0, line - 1) + 1
        if text[before:line].strip().startswith(("///", "// ")):
            line = before
        else:
            break
    return line


def parts_of_import(path, text):
    """What an import of a text begins with, and its parts, each with the name that it brings."""
    head, brace, parts = text.rstrip().rstrip(";").partition("{")
    if "{" in parts or "*" in text:
        raise Stop(f"{path}: an import in a form that is not known: {text}")
    if not brace:
        head, _, parts = text.rstrip().rstrip(";").rpartition("::")
        head += "::" if _ else ""
    parts = [it.strip() for it in parts.rstrip("} \n").split(",") if it.strip()]
    return head, [
        (it, head.rstrip(":").rpartition("::")[2] if it == "self" else it.split(" as ")[-1].strip())
        for it in parts
    ]


def all_items(path, text):
    tokens = tokens_of(path, text)
    found = []
    walk(path, text, tokens, 0, len(tokens), None, found)
    return tokens, found


def items_of(path, text):
    """Each item, with its docs."""
    tokens, found = all_items(path, text)
    return [
        Item(kind, name, start_of_docs(text, tokens[start].start), tokens[last].end)
        for kind, name, start, _, _, last in found
    ]


def functions_of(path, text):
    """Each function."""
    tokens, found = all_items(path, text)
    made = []
    for kind, name, start, head, body, last in found:
        if kind == "fn":
            inner = (tokens[body].start, tokens[last].end) if body else (0, 0)
            made.append(
                Function(name, start_of_docs(text, tokens[start].start), tokens[head].start, *inner)
            )
    return made
