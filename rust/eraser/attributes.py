"""Attributes: a closed list. Those of Rattle go, those of Rust that mean the same stay."""
import re

from .items import Attribute
from .tokens import Bad

# What steers proofs, and what a derived error says (errors.py reads that).
TAKEN = ("tactic", "error", "error_bound")
KEPT = {"inline": ("", "never", "always"), "cold": ("",), "macro_export": ("",)}
# A value of Rattle is dropped only if its type is `Drop`; in Rust every type is. `Error` is written out by errors.py.
DERIVED = ("Clone", "Copy", "PartialEq", "Eq", "PartialOrd", "Ord", "Hash", "Debug")
DERIVED_OTHERWISE = ("Drop", "Error")


def derives(attribute):
    """The names that a derive lists."""
    return re.findall(r"[\w:]+", attribute.argument)


def has_derive(item, name):
    """Whether an item derives a trait."""
    return any(it.name == "derive" and name in derives(it) for it in item.attributes)


def take_attributes(source, items, edits):
    """Takes attributes out, or changes them."""
    silent = {id(it): has_own_debug(source, item) for item in items for it in item.attributes}
    known = {it.start: it for item in items for it in item.attributes}
    at = 0
    while at < len(source):
        if source[at] != ("mark", "#"):
            at += 1
            continue
        of_file = source[at + 1] == ("mark", "!")
        attribute = known.get(at) or Attribute(source, at + of_file)
        if of_file:
            take_file_attribute(attribute, at, edits)
        else:
            take_attribute(attribute, silent.get(id(attribute), False), at in known, edits)
        at = attribute.end


def take_file_attribute(attribute, at, edits):
    """An attribute of the whole file: none but those of proofs is known."""
    if attribute.name != "tactic":
        raise Bad(f"#![{attribute.name}]", attribute.line)
    edits.drop_line(at, attribute.end)


def take_attribute(attribute, is_silent, of_item, edits):
    """Any other attribute."""
    name = attribute.name
    if name in TAKEN:
        edits.drop_line(attribute.start, attribute.end)
        edits.drop_space_after_start(attribute.start, attribute.end)
    elif name == "derive" and of_item:
        take_derive(attribute, is_silent, edits)
    elif name not in KEPT or attribute.argument not in KEPT[name]:
        raise Bad(f"#[{attribute.inside}]", attribute.line)


def take_derive(attribute, is_silent, edits):
    """A derive keeps what Rust derives too."""
    names = derives(attribute)
    for name in names:
        if name not in DERIVED + DERIVED_OTHERWISE:
            raise Bad(f"#[derive({name})]", attribute.line)
    kept = [it for it in names if it in DERIVED and not (it == "Debug" and is_silent)]
    if not kept:
        edits.drop_line(attribute.start, attribute.end)
        edits.drop_space_after_start(attribute.start, attribute.end)
        return
    edits.drop(attribute.start + 1, attribute.end)
    edits.put(attribute.start, f"#[derive({', '.join(kept)})]")


def has_own_debug(source, item):
    """Whether an item is an error with a parameter that is a type: errors.py writes its `Debug`, with no bound on what it carries."""
    return has_derive(item, "Error") and has_derive(item, "Debug") and re.search(r"<(?:'\w+, )*[A-Z]", item.header(source)) is not None
