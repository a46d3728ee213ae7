"""Functions that are methods in Rust: Rattle takes no `impl` for a type of another crate.

The function stays for callers that are generated, hidden. The method has its docs and attributes, and passes
on its arguments:

    /// Docs.                                            const fn is_past(zone: &Zone<'_>, at: i64) -> bool { .. }
    pub const fn is_past(zone: &Zone<'_>, at: i64)
        -> bool { .. }                                   impl Zone<'_> {
                                                             /// Docs.
                                                             pub const fn is_past(&self, at: i64) -> bool { is_past(self, at) }
                                                         }

METHODS in erasure.py names them. The first parameter is `self` if it is of the method's type.
"""
import re

from . import erasure
from .structure import functions_of
from .tokens import Stop, edited, line_of, tokens_of

SIGNATURE = re.compile(
    r"pub (?P<words>(?:const )?)fn \w+(?P<generics><[^>(]*>)?\((?P<given>.*?)\)(?P<result>\s*->.*)?\s*",
    re.S,
)
PARAMETER = re.compile(r"(?:mut )?([a-z_]\w*): (.*)", re.S)
BORROWED = re.compile(r"(?P<borrow>&(?:'\w+ )?(?:mut )?)?(?P<type>.*)", re.S)


def parameters_of(text):
    """The name and the type of each parameter."""
    tokens, depth, start, made = tokens_of("", text), 0, 0, []
    for token in tokens:
        depth += (token.text in ("(", "[", "<")) - (token.text in (")", "]", ">"))
        if token.text == "," and depth == 0:
            made.append(text[start : token.start])
            start = token.end
    return [PARAMETER.fullmatch(it.strip()) for it in (*made, text[start:]) if it.strip()]


def method_of(function, method, docs, signature):
    """The `impl` with the method, or None if the signature is of a form that is not known."""
    owner, name = method.split("::")
    if "::" in function:
        signature = re.sub(r"\bSelf\b", function.split("::")[0], signature)
    found = SIGNATURE.fullmatch(signature)
    given = parameters_of(found["given"]) if found else [None]
    if None in given:
        return None
    names = [it[1] for it in given]
    generics, whole, before = found["generics"] or "", owner, ""
    taken = [f"{it[1]}: {it[2]}" for it in given]
    first = BORROWED.fullmatch(given[0][2]) if given else None
    if first and re.match(rf"{owner}\b", first["type"]):
        taken[0] = f"{first['borrow'] or ''}self"
        names[0] = "self"
        whole = first["type"]
        lifetimes = [it for it in re.findall(r"'\w+", whole) if it != "'_"]
        if lifetimes:
            before = f"<{', '.join(lifetimes)}>"
            left = [
                it.strip() for it in generics.strip("<>").split(",") if it.strip() not in lifetimes
            ]
            generics = f"<{', '.join(left)}>" if left else ""
    call = f"self::{function}" if function in names else function
    return (
        f"\n\nimpl{before} {whole} {{\n{docs}pub {found['words']}fn {name}{generics}({', '.join(taken)})"
        f"{found['result'] or ''} {{\n{call}({', '.join(names)})\n}}\n}}\n"
    )


def with_methods(path, text):
    wanted = dict(erasure.METHODS.get(path, {}))
    edits, made = [], []
    for function in functions_of(path, text) if wanted else ():
        method = wanted.pop(function.name, None)
        if method is None:
            continue
        docs = text[function.start : function.head]
        impl = method_of(function.name, method, docs, text[function.head : function.body])
        if impl is None:
            raise Stop(
                f"{path}:{line_of(text, function.head)}: a method in a form that is not known: {function.name}"
            )
        made.append(impl)
        attributes = re.sub(r"^\s*//.*\n", "", docs, flags=re.M)
        if "::" in function.name:
            attributes = re.sub(r"(\s*)\Z", r"#[doc(hidden)]\n\1", attributes, count=1)
        edits.append((function.start, function.head, attributes))
    if wanted:
        raise Stop(f"{path}: there is no function {sorted(wanted)[0]}")
    return edited(text, edits) + "".join(made)


def called_as_method(line):
    """A line of an example, with calls of these functions as Rust has them: no bracket may stand in what becomes `self`, but a call's."""
    for functions in erasure.METHODS.values():
        for function, method in functions.items():
            owner, name = method.split("::")
            value = r"&?(?P<value>\w+(?:\.\w+(?:\(\))?)*)(?:, |(?=\)))"
            line = re.sub(
                rf"(?<![\w.:]){re.escape(function)}\({value}", rf"\g<value>.{name}(", line
            )
    return line
