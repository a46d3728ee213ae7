"""Writes `#[inline]` on the functions that inline.txt names.

Without link-time optimisation, as in cargo's release profile, rustc inlines a call of another crate
only if the function is generic, very short, or has the attribute.
"""

from . import erasure
from .structure import functions_of
from .tokens import Stop, edited, line_of


def with_inline(path, text):
    """The text with the attributes; it stops at a name of no function, and at a function that has one."""
    wanted, edits = set(erasure.INLINE.get(path, ())), []
    for function in functions_of(path, text) if wanted else ():
        if function.name not in wanted or not function.body:
            continue
        wanted.discard(function.name)
        if "#[inline" in text[function.start : function.head]:
            place = f"{path}:{line_of(text, function.head)}"
            raise Stop(f"{place}: inline.txt names a function that says itself: {function.name}")
        edits.append((function.head, function.head, "#[inline]\n"))
    if wanted:
        raise Stop(f"{path}: there is no function {min(wanted)}, which inline.txt names")
    return edited(text, edits)
