"""Makes functions `const fn` that are not in their sources: constants.txt names them, or says every
function of a source. In them what rustc does not take in constants is written otherwise:

    i64::from(x)                    x as i64                   and other integers that lose nothing
    let x = call()?;                let x = match call() { Ok(value) => value, Err(error) => return Err(error) };
    for i in 0..n { .. }            { let mut i = 0; let i_end = n; while i < i_end { .. i += 1; } }
    a.min(b), a.max(b)              least!(a, b), greatest!(a, b)   macros of the shim
    &bytes[..n]                     bytes.split_at(n).0
    i64::try_from(x)                a call of the shim
"""
import re

from . import erasure
from .structure import functions_of
from .tokens import OPEN, Stop, closing, edited, tokens_of

EVERY = "every function"
INTEGERS = {"u8", "u16", "u32", "u64", "u128", "i16", "i32", "i64", "i128", "usize"}


def made_constant(path, text):
    names = set(erasure.CONST.get(path, ()))
    if not names:
        return text
    edits = []
    for function in functions_of(path, text):
        if EVERY in names and (
            re.search(r"\bconst fn\b", text[function.head : function.end])
            or is_of_a_trait(text, function.head)
        ):
            continue
        if EVERY not in names and function.name not in names:
            continue
        names.discard(function.name)
        whole = text[function.head : function.end]
        # A number of 128 bits as one of 64, if it fits.
        whole = re.sub(r"\bi64::try_from\(", "crate::shim::narrow(", whole)
        for step in (with_casts, with_slices, with_comparisons, with_returns, with_whiles):
            try:
                whole = step(path, whole)
            except Stop as stop:
                raise Stop(f"{path}: in {function.name}: {stop}") from None
        whole = re.sub(r"\bfn\b", "const fn", whole, count=1)
        edits.append((function.head, function.end, whole))
    if names - {EVERY}:
        raise Stop(f"{path}: there is no function {sorted(names)[0]}")
    return edited(text, edits)


def is_of_a_trait(text, head):
    """Whether a function stands in the impl of a trait, where none can be const."""
    header = re.findall(r"^(?:impl\b.*|\})$", text[:head], re.MULTILINE)[-1:]
    return bool(header) and " for " in header[0]


def is_simple(tokens):
    """Whether an expression binds more tightly than a cast: a path, fields, calls, an index."""
    at = 0
    while at < len(tokens):
        text = tokens[at].text
        if text in OPEN and at and text != "{":
            at = closing("", tokens, at)
        elif tokens[at].kind not in ("word", "number") and text not in (".", "::"):
            return False
        at += 1
    return True


def with_casts(path, text):
    while True:
        tokens = tokens_of(path, text)
        for at in range(len(tokens) - 4):
            if (
                tokens[at].text in INTEGERS
                and tokens[at + 1].text == "::"
                and tokens[at + 2].text == "from"
                and tokens[at + 3].text == "("
            ):
                break
        else:
            return text
        end = closing(path, tokens, at + 3)
        inner = text[tokens[at + 3].end : tokens[end].start].strip().rstrip(",")
        if not is_simple(tokens[at + 4 : end]):
            inner = f"({inner})"
        before, after = tokens[at - 1].text, tokens[end + 1].text
        new = f"{inner} as {tokens[at].text}"
        is_unary = not ends_operand(tokens[at - 2])
        if before == "!" or before in ("-", "*", "&") and is_unary or after in (".", "<", "?", "["):
            new = f"({new})"
        text = edited(text, [(tokens[at].start, tokens[end].end, new)])


def ends_operand(token):
    """Whether an operator after a token is one of two operands. After a brace it may be either."""
    if token.kind == "mark":
        return token.text in (")", "]", "?")
    return token.kind != "word" or token.text not in KEYWORDS


def chain_start(tokens, at):
    """The number of the first token of the path, fields, calls and indexes that end before a token."""
    while True:
        at -= 1
        if tokens[at].text in OPEN.values():
            depth = 0
            while True:
                depth += (tokens[at].text in OPEN.values()) - (tokens[at].text in OPEN)
                if depth == 0:
                    break
                at -= 1
            # A bracket of its own begins the chain; one after a word or a bracket is a call or an index.
            if tokens[at - 1].text == "!" and tokens[at - 2].kind == "word":
                at -= 1
                continue
            if tokens[at - 1].text == ">":
                raise Stop("types in a call")
            if (
                tokens[at - 1].kind == "word"
                and tokens[at - 1].text not in KEYWORDS
                or tokens[at - 1].text in OPEN.values()
            ):
                continue
            return at
        if tokens[at - 1].text not in (".", "::"):
            return at
        at -= 1


KEYWORDS = {
    "as",
    "break",
    "else",
    "if",
    "in",
    "let",
    "loop",
    "match",
    "move",
    "mut",
    "return",
    "unsafe",
    "while",
}


def with_returns(path, text):
    while True:
        tokens = tokens_of(path, text)
        at = next((at for at, it in enumerate(tokens) if it.text == "?"), None)
        if at is None:
            return text
        arrow = next(at for at, it in enumerate(tokens) if it.text == "->")
        ok, err = {
            "Option": ("Some(value) => value", "None => return None"),
            "Result": ("Ok(value) => value", "Err(error) => return Err(error)"),
        }[tokens[arrow + 1].text]
        start = tokens[chain_start(tokens, at)].start
        new = f"match {text[start : tokens[at].start]} {{ {ok}, {err} }}"
        if tokens[at + 1].text in (".", "?", "["):
            new = f"({new})"
        text = edited(text, [(start, tokens[at].end, new)])


def with_comparisons(path, text):
    """The lesser or the greater of two numbers."""
    while True:
        tokens = tokens_of(path, text)
        for at in range(len(tokens) - 2):
            if (
                tokens[at].text == "."
                and tokens[at + 1].text in ("min", "max")
                and tokens[at + 2].text == "("
            ):
                break
        else:
            return text
        start = tokens[chain_start(tokens, at)].start
        end = closing(path, tokens, at + 2)
        left = text[start : tokens[at].start]
        right = text[tokens[at + 2].end : tokens[end].start]
        macro = "least" if tokens[at + 1].text == "min" else "greatest"
        new = f"crate::shim::{macro}!({left}, {right})"
        text = edited(text, [(start, tokens[end].end, new)])


def with_slices(path, text):
    """The first elements of a slice."""
    while True:
        tokens = tokens_of(path, text)
        for at, token in enumerate(tokens):
            if (
                token.text != "["
                or at == 0
                or not (tokens[at - 1].kind == "word" or tokens[at - 1].text in OPEN.values())
            ):
                continue
            end = closing(path, tokens, at)
            depth, dots = 0, None
            for inner in range(at + 1, end):
                depth += (tokens[inner].text in OPEN) - (tokens[inner].text in OPEN.values())
                if depth == 0 and tokens[inner].text == "..":
                    dots = inner
            if dots is not None:
                break
        else:
            return text
        first = chain_start(tokens, at)
        if tokens[first - 1].text != "&" or dots != at + 1 or dots + 1 == end:
            raise Stop("a piece of a slice in a form that is not known")
        high = text[tokens[dots].end : tokens[end].start].strip()
        new = f"{text[tokens[first].start : token.start]}.split_at({high}).0"
        text = edited(text, [(tokens[first - 1].start, tokens[end].end, new)])


# What a body may not have that becomes that of a `while`.
NO_LOOP = (
    (r"\bcontinue\b", "a loop that continues"),
    (r"\bINDEX_end\b", "a loop that has the name of its bound"),
    (
        r"\b(?:let|for)\b[^=;{}]*\bINDEX\b|\bINDEX\s*(?:[-+*/%&|^]|<<|>>)?=(?!=)|&mut INDEX\b",
        "a loop that binds or sets its index",
    ),
)
FOR = re.compile(r"\bfor (\w+) in ([^{};]+?)\.\.([^{};=]+?) \{")


def with_whiles(path, text):
    while True:
        found = FOR.search(text)
        if not found:
            return text
        tokens = tokens_of(path, text)
        opening = next(at for at, it in enumerate(tokens) if it.end == found.end())
        close = tokens[closing(path, tokens, opening)]
        index, low, high = found.groups()
        body = text[found.end() : close.start]
        for pattern, what in NO_LOOP:
            if re.search(pattern.replace("INDEX", index), f"{low} {high} {body}"):
                raise Stop(f"{what}: {found[0]}")
        if text[: found.start()].rstrip().endswith(":"):
            raise Stop(f"a loop with a label: {found[0]}")
        # The bound is read once, and the index is no name of what comes after.
        text = (
            f"{text[: found.start()]}{{ let mut {index} = {low};\nlet {index}_end = {high};\n"
            f"while {index} < {index}_end {{{body}{index} += 1;\n}} }}{text[close.end :]}"
        )
