"""The items and imports of the Rust crate that nothing uses without its feature `inner`, as rustc finds them: eraser/inner.txt is made of them."""
import json
import os
import re
import subprocess
import textwrap

from . import erasure
from .structure import all_items
from .tokens import Stop

LIST = os.path.join(os.path.dirname(__file__), "inner.txt")
HEAD = """# What the Rust crate has with its feature `inner` alone, since C, tzq and tests of the proved crates
# use it and nothing else does. Written by bindings/erase --inner.
"""
# The last is an import of what was found to be unused.
CODES = ("dead_code", "unused_imports", "E0432")


def warnings():
    """The file, the place and what rustc says of what nothing uses."""
    words = [
        "cargo",
        "check",
        "--quiet",
        "--offline",
        "--package",
        "tz",
        "--message-format",
        "json",
    ]
    ran = subprocess.run(words, cwd=erasure.TOP, capture_output=True, text=True, check=False)
    if ran.returncode and '"code":"E0432"' not in ran.stdout:
        raise Stop(ran.stdout + ran.stderr)
    for line in ran.stdout.splitlines():
        message = json.loads(line).get("message", {})
        code = (message.get("code") or {}).get("code")
        if code in CODES:
            for span in message["spans"]:
                if span["is_primary"]:
                    yield span["file_name"], span["byte_start"], span["byte_end"], message[
                        "message"
                    ]


def named(path, text, start, end, said):
    """The name, as inner.txt has it, of what a warning is about."""
    tokens, items = all_items(path, text)
    around = [it for it in items if tokens[it[2]].start <= start and end <= tokens[it[5]].end]
    kind, name, *_ = min(around, key=lambda it: it[5] - it[2])
    if kind == "use":
        return f"use {re.split(r'::| as ', text[start:end])[-1]}"
    if re.match("(?:multiple )?(?:field|variant)", said):
        raise Stop(f"{path}: {said}: ALLOWED in erasure.py has what is no item")
    return name


def unused():
    """The names of what nothing uses, by source."""
    made = {}
    for path, start, end, said in warnings():
        with open(f"{erasure.TOP}/{path}", "rb") as file:
            code = file.read()
        text, start, end = code.decode(), len(code[:start].decode()), len(code[:end].decode())
        source = re.match(r"// Generated from (\S+) by", text)
        if not source:
            raise Stop(f"{path}: {said}")
        made.setdefault(source[1], set()).add(named(path, text, start, end, said))
    return made


def write():
    """Writes the list of erasure.INNER, but for members of what is in it."""
    made = HEAD
    for source, names in sorted(erasure.INNER.items()):
        kept = sorted(
            it for it in names if it.split("::")[0] == it or it.split("::")[0] not in names
        )
        made += (
            source
            + "\n"
            + textwrap.fill(
                ", ".join(kept).replace("use ", "use\0"),
                100,
                initial_indent="    ",
                subsequent_indent="    ",
            )
            + "\n"
        )
    with open(LIST, "w", encoding="utf-8") as file:
        file.write(made.replace("\0", " "))
