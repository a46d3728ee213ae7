"""Says before items which feature of the package they need: `alloc` or `std` those that name a vector or a file, and those that name such an item;
`inner` those that erasure.INNER names, which serve the packages over the crate alone.
"""
import re

from . import erasure
from .structure import all_items, parts_of_import
from .tokens import Stop, edited, found_again, hidden

# What the shim has with a feature alone, by the name of the feature. `std` has all that `alloc` has.
SEEDS = {
    **dict.fromkeys(("Vec", "String", "anyhow"), "alloc"),
    **dict.fromkeys(("io", "Read", "File", "Files"), "std"),
}
# Variants that need a feature, in enums that do not.
VARIANTS = {"crates/tz_base/src/error.rt": {"Error::Io": "alloc"}}
# Exports of what needs no feature, for code by hand that needs one.
EXPORTS = {
    "crates/tz/src/lib.rt": {"TimeZoneSettings": "alloc"},
    "crates/tz_zone/src/timezone/mod.rt": {
        "DEFAULT_DIRECTORIES": "std",
        "TimeZoneSettings": "alloc",
    },
}


def attribute(*needs):
    """What stands before an item that needs these features."""
    made = ", ".join(f'feature = "{it}"' for it in needs)
    return f"#[cfg({made if len(needs) == 1 else f'all({made})'})]\n" if needs else ""


class Source:
    """A source in Rust, and the names in it that need a feature."""

    def __init__(self, path, text):
        self.path = path
        self.text, self.texts = hidden(path, text)
        self.tokens, found = all_items(path, self.text)
        # In what is found, members come before what has them; here after.
        self.items = sorted(found, key=lambda it: (it[2], -it[5]))
        self.names = {}
        self.of_item = {}

    def is_member(self, item):
        return any(
            it[0] in ("impl", "trait", "mod") and it[2] < item[2] and item[5] < it[5]
            for it in self.items
        )

    def need(self, start, end, names):
        """The feature that a run of tokens needs: the greater one of the names that it has."""
        found = set()
        for at in range(start, end + 1):
            word = self.tokens[at]
            if word.kind != "word" or word.text not in names:
                continue
            before = self.tokens[at - 1].text if at else ""
            owner = self.tokens[at - 2].text if at > 1 else ""
            if before == "." or before == "::" and not owner[0].islower():
                continue
            found.add(names[word.text])
        return "std" if "std" in found else "alloc" if found else None


def is_variant(source, item):
    return any(name.startswith(f"{item[1]}::") for name in VARIANTS.get(source.path, ()))


def imported(source, item):
    """What an import begins with, and its parts, each with the name that it brings."""
    return parts_of_import(
        source.path, source.text[source.tokens[item[3]].start : source.tokens[item[5]].end]
    )


def spread(sources):
    """Finds the feature that each item needs, until none is added."""
    everywhere = dict(SEEDS)
    grown = True
    while grown:
        grown = False
        for source in sources:
            names = {**everywhere, **source.names}
            for item in source.items:
                kind, name, start, _, body, last = item
                if kind in ("use", "mod") or kind == "enum" and is_variant(source, item):
                    continue
                # Of an `impl` what it is of decides; else its members do, each for itself.
                end = body if kind in ("impl", "trait") else last
                feature = source.need(start, end, without_variants(source, item, names))
                if feature and source.of_item.get(item) != feature:
                    source.of_item[item] = feature
                    grown = True
                    if kind != "impl" and not source.is_member(item):
                        source.names[name] = feature
                        everywhere.setdefault(name, feature)
                        everywhere[name] = max(everywhere[name], feature)
    return everywhere


def without_variants(source, item, names):
    """The names, without those that an enum has as variants."""
    if item[0] != "enum":
        return names
    words = source.tokens[item[4] + 1 : item[5]]
    variants = {
        it.text
        for at, it in enumerate(words)
        if it.kind == "word" and (at == 0 or words[at - 1].text in (",", "]", ")"))
    }
    return {name: feature for name, feature in names.items() if name not in variants}


class Inner:
    """The names of a source that erasure.INNER has."""

    def __init__(self, source):
        self.path = source.path
        self.names = set(erasure.INNER.get(source.path, ()))
        self.left = set(self.names)

    def has(self, name):
        self.left.discard(name)
        return name in self.names

    def has_item(self, kind, name):
        """Whether it has an item, or what an `impl` is of."""
        if kind == "impl":
            owner = name.split()[-1]
            return owner in self.names or f"use {owner}" in self.names
        return self.has(name)

    def stop_at_rest(self):
        if self.left:
            raise Stop(
                f"{self.path}: there is no {min(self.left)}: bindings/erase --inner writes bindings/eraser/inner.txt anew"
            )


def without_implied(needs, outer):
    """The needs of an item but those of what it stands in. `std` has all that `alloc` has."""
    return [it for it in needs if it not in outer and not (it == "alloc" and "std" in outer)]


def feature_of_uses(source, name):
    """The least feature that an item needs which has this name, or None if one that has it needs none, or none has it."""
    found = set()
    for at, word in enumerate(source.tokens):
        if word.text != name or source.tokens[at - 1].text == ".":
            continue
        around = [it for it in source.items if it[2] <= at <= it[5]]
        if not around or around[0][0] == "use":
            continue
        found.add(max((source.of_item.get(it, "") for it in around), default=""))
    return min(found) if found and "" not in found else None


def import_by_features(source, item, everywhere, inner):
    """An import, its parts apart by what they need; None if they need nothing."""
    head, parts = imported(source, item)
    local = {**everywhere, **source.names, **EXPORTS.get(source.path, {})}
    in_path = [it for it in re.findall(r"\w+", head) if it in SEEDS]
    made = {}
    for part, name in parts:
        feature = local.get(in_path[-1] if in_path else name)
        if not head.startswith("pub"):
            feature = max(filter(None, (feature, feature_of_uses(source, name))), default=None)
        needs = tuple(filter(None, (feature, inner.has(f"use {name}") and "inner")))
        made.setdefault(needs, []).append(part)
    if list(made) == [()]:
        return None
    order = ((), ("alloc",), ("std",), ("inner",), ("alloc", "inner"), ("std", "inner"))
    return "\n".join(
        f"{attribute(*needs)}{head}{{{', '.join(made[needs])}}};"
        for needs in order
        if needs in made
    )


def with_features(sources):
    """The texts of the sources, by their paths, in which items say what they need."""
    read = [Source(path, text) for path, text in sources.items()]
    everywhere = spread(read)
    for source in read:
        edits = []
        inner = Inner(source)
        # Where each item ends in which the next ones may stand, and what it needs.
        outside = []
        for item in source.items:
            kind, name, start, head, _, last = item
            outside = [it for it in outside if last <= it[0]]
            outer = {need for _, needs in outside for need in needs}
            if kind == "use":
                made = import_by_features(source, item, everywhere, inner)
                if made:
                    edits.append((source.tokens[head].start, source.tokens[last].end, made))
                continue
            needs = list(
                filter(None, (source.of_item.get(item), inner.has_item(kind, name) and "inner"))
            )
            needs = without_implied(needs, outer)
            if needs:
                outside.append((last, needs))
                place = source.tokens[start].start
                edits.append((place, place, attribute(*needs)))
        inner.stop_at_rest()
        text = edited(source.text, edits)
        for name, feature in VARIANTS.get(source.path, {}).items():
            # The variant, and the arm of its text.
            owner, _, variant = name.partition("::")
            for pattern in (rf"(?<=\n)(?=    {variant}\()", rf"(?=\b{owner}::{variant}\()"):
                text, count = re.subn(pattern, attribute(feature), text)
                if count != 1:
                    raise Stop(f"{source.path}: {name} stands {count} times")
        yield source.path, found_again(text, source.texts)
