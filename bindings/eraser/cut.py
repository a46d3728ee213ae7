"""Cuts what is ghost: clauses, ghost items, models, proofs and tactics. What is left is Rust's tokens alone."""
import re

from .tokens import SPACE, Stop, found_again, hidden, line_of, token_at

# A clause of a function stands between its signature and its body.
CLAUSE = re.compile(r"(?:requires|ensures\*?)\s*(?:[a-z_]\w*\s*)?(?=\{)")
GHOST_USE = re.compile(r"use\s")
GHOST_ITEM = re.compile(r"[A-Za-z_]\w*\s*[=:]\s*(?=\{)")
MODEL = re.compile(r"impl\s+Model\s+for\s+[A-Z]\w*\s*(?=\{)")
PROOF = re.compile(r"const\s+_\s*:\s*\(\s*\)\s*=\s*prove!\s*(?=\()")
TACTIC = re.compile(r"#!?\[\s*tactic\s*(?=\()")
# Where brackets mean nothing in ghost code.
NOT_COUNTED = (
    (re.compile(r'"[^"\n]*[(){}][^"\n]*"'), "a brace in a text"),
    (re.compile(r"(?:--|//)[^\n]*[(){}\"]"), "a bracket or a quote in a comment"),
    (re.compile(r"'\\?[(){}\"]'|/\*|\{-"), "a bracket in a character or a comment"),
)
GHOST_WORDS = {
    "ghost",
    "requires",
    "ensures",
    "follows",
    "prove",
    "tactic",
    "decreases",
    "invariant",
    "axiom",
    "lemma",
}


def is_within(path, text, start, end):
    """Stops at a line of ghost code further to the left than the line on which it begins: it is not of that code."""
    lines = text[text.rfind("\n", 0, start) + 1 : end + 1].split("\n")
    indent = len(lines[0]) - len(lines[0].lstrip())
    for number, line in enumerate(lines):
        if line.strip() and len(line) - len(line.lstrip()) < indent:
            raise Stop(
                f"{path}:{line_of(text, start) + number}: ghost code that goes on further to the left"
            )


def group_end(path, text, at, opening, closing):
    """Where the bracket that opens at a place is closed again. In ghost text only brackets of its kind mean something."""
    depth = 0
    for place in range(at, len(text)):
        if text[place] == opening:
            depth += 1
        elif text[place] == closing:
            depth -= 1
            if depth == 0:
                line_end = text.find("\n", place)
                for pattern, what in NOT_COUNTED:
                    found = pattern.search(text, at, max(line_end, place))
                    if found:
                        raise Stop(f"{path}:{line_of(text, found.start())}: {what} of ghost code")
                is_within(path, text, at, place)
                return place + 1
    raise Stop(f"{path}:{line_of(text, at)}: {opening} is not closed")


def after(path, text, at, wanted):
    """The place after these characters, which come next."""
    space = SPACE.match(text, at)
    at = space.end() if space else at
    if not text.startswith(wanted, at):
        raise Stop(f"{path}:{line_of(text, at)}: expected {wanted!r} at {text[at : at + 30]!r}")
    return at + len(wanted)


def next_place(text, at):
    space = SPACE.match(text, at)
    return space.end() if space else at


def ghost_end(path, text, start, at):
    """Where what begins with the word `ghost` ends; `at` is after that word."""
    at = next_place(text, at)
    if GHOST_USE.match(text, at):
        depth = 0
        for place in range(at, len(text)):
            depth += {"{": 1, "}": -1}.get(text[place], 0)
            if text[place] == ";" and depth == 0:
                return place + 1
    item = GHOST_ITEM.match(text, at)
    if not item:
        raise Stop(
            f"{path}:{line_of(text, start)}: a ghost form that is not known: {text[start : start + 40]!r}"
        )
    end = group_end(path, text, item.end(), "{", "}")
    word = re.compile(r"\s*by\s*(?=\{)").match(text, end)
    if word:
        end = group_end(path, text, word.end(), "{", "}")
    end = next_place(text, end)
    if text[end : end + 1] not in (",", ";"):
        raise Stop(
            f"{path}:{line_of(text, start)}: a ghost item that does not end: {text[start : start + 40]!r}"
        )
    return end + 1


def start_of_docs(text, at):
    """The beginning of the docs of the item at a place, or the place if it has none."""
    line = text.rfind("\n", 0, at) + 1
    while line:
        above = text.rfind("\n", 0, line - 1) + 1
        if not text.startswith("///", next_place(text, above)):
            break
        line = at = above
    return at


def without_ghosts(path, text, lines=False):
    """The text without what is ghost. Comments and docs stay, and `lines` keeps the number of each line."""
    at, kept, pieces = 0, 0, []
    before = None
    while True:
        at = next_place(text, at)
        if at == len(text):
            break
        end = None
        start = at
        if text.startswith("#", at) and TACTIC.match(text, at):
            end = group_end(path, text, TACTIC.match(text, at).end(), "(", ")")
            end = after(path, text, end, "]")
        elif MODEL.match(text, at):
            end = group_end(path, text, MODEL.match(text, at).end(), "{", "}")
        elif PROOF.match(text, at):
            end = group_end(path, text, PROOF.match(text, at).end(), "(", ")")
            end = after(path, text, end, ";")
        elif CLAUSE.match(text, at):
            end = group_end(path, text, CLAUSE.match(text, at).end(), "{", "}")
        else:
            token = token_at(path, text, at)
            if token.text == "ghost":
                end = ghost_end(path, text, at, token.end)
                if before is not None and before.text == "pub":
                    start = before.start
                start = start_of_docs(text, start)
            elif token.text in GHOST_WORDS and token.kind == "word":
                raise Stop(
                    f"{path}:{line_of(text, at)}: a ghost word in a form that is not known: {token.text}"
                )
            if end is None:
                at = token.end
                if token.kind != "comment":
                    before = token
                continue
        # A line on which nothing else stands goes whole, so that docs stay beside their item.
        line = text.rfind("\n", 0, start) + 1
        newline = text.find("\n", end)
        if (
            not text[line:start].strip()
            and not text[end : max(newline, end)].strip()
            and line >= kept
        ):
            start, end = line, max(newline + 1, end)
        pieces += [text[kept:start], "\n" * text.count("\n", start, end) if lines else ""]
        kept = at = end
        before = None
    rest, texts = hidden(path, "".join(pieces) + text[kept:])
    return found_again(re.sub(r"[ \t]+\n", "\n", rest), texts)
