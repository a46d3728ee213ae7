"""Tokens of Rattle's sources and of Rust's."""
import re
from typing import NamedTuple


class Stop(Exception):
    """A form that the eraser does not know, with its place."""


class Token(NamedTuple):
    kind: str
    text: str
    start: int
    end: int


SPACE = re.compile(r"\s+")
KINDS = (
    ("comment", re.compile(r"//[^\n]*")),
    ("string", re.compile(r'b?"(?:[^"\\]|\\.)*"', re.S)),
    ("char", re.compile(r"b?'(?:[^'\\\n]|\\(?:x[0-9a-fA-F]{2}|u\{[0-9a-fA-F]+\}|.))'")),
    ("lifetime", re.compile(r"'[A-Za-z_]\w*")),
    ("number", re.compile(r"[0-9]\w*(?:\.[0-9]\w*)?")),
    ("word", re.compile(r"[A-Za-z_]\w*", re.A)),
    (
        "mark",
        re.compile(
            r"->|=>|::|\.\.=|\.\.\.|\.\.|&&|\|\||==|!=|<=|>=|\+=|-=|\*=|/=|%=|\^=|&=|\|=|[!#$%&()*+,\-./:;<=>?@\[\]^{|}~]"
        ),
    ),
)


def line_of(text, at):
    return text.count("\n", 0, at) + 1


# What may hold brackets, marks and ghost words that mean nothing.
UNREAD = (
    ("/*", "a comment in lines of code"),
    ('r"', "a raw text"),
    ("r#", "a raw text or name"),
    ('br"', "a raw text"),
    ("br#", "a raw text"),
)


def token_at(path, text, at):
    for opening, what in UNREAD:
        if text.startswith(opening, at):
            raise Stop(f"{path}:{line_of(text, at)}: {what}")
    for kind, pattern in KINDS:
        found = pattern.match(text, at)
        if found:
            return Token(kind, found[0], at, found.end())
    raise Stop(f"{path}:{line_of(text, at)}: what is this: {text[at : at + 20]!r}?")


def tokens_of(path, text, comments=False):
    """The tokens of a text that is Rust throughout."""
    at, made = 0, []
    while True:
        space = SPACE.match(text, at)
        at = space.end() if space else at
        if at == len(text):
            return made
        token = token_at(path, text, at)
        if comments or token.kind != "comment":
            made.append(token)
        at = token.end


SIGN = re.compile("\u00a7([0-9]+)\u00a7")
COMMENT = re.compile(r"//[/!]?")


def hidden(path, text):
    """The text with a sign in place of what stands in each text and comment, so that a pattern finds code alone; and what stood there."""
    edits, kept = [], []
    for token in tokens_of(path, text, comments=True):
        if token.kind == "string" and token.text != '"C"':
            start, end = token.start + token.text.index('"') + 1, token.end - 1
        elif token.kind == "comment":
            start, end = token.start + COMMENT.match(token.text).end(), token.end
        else:
            continue
        edits.append((start, end, f"\u00a7{len(kept)}\u00a7"))
        kept.append(text[start:end])
    return edited(text, edits), kept


def found_again(text, kept):
    """The text with what was hidden."""
    return SIGN.sub(lambda it: kept[int(it[1])], text)


OPEN = {"(": ")", "[": "]", "{": "}"}


def closing(path, tokens, at):
    """The number of the token that closes the bracket that the token opens."""
    depth = 0
    for number in range(at, len(tokens)):
        if tokens[number].text in OPEN:
            depth += 1
        elif tokens[number].text in OPEN.values():
            depth -= 1
            if depth == 0:
                return number
    raise Stop(f"{path}: a bracket is not closed")


def edited(text, edits):
    """The text with each (start, end, new) in place of what stood there. No two may overlap."""
    made, last = [], 0
    for start, end, new in sorted(edits):
        if start < last:
            raise Stop(f"edits overlap at {text[start : start + 40]!r}")
        made += [text[last:start], new]
        last = end
    return "".join(made + [text[last:]])
