"""Paths, calls that take an allocator, formatters, and functions that rustc may copy into another crate's code."""
import re

from .tokens import Bad, after_space, before_space, matching, plain

# What stands for Rattle's std, and for the crates that come with Rattle, is in src/rt.
OF_RATTLE = ("std", "serde", "serde_json")
# Methods that are passed the allocator in Rattle: their names in src/rt.
PASSED_ALLOCATOR = {"collect": "collect_in", "to_string": "to_string_in"}


def change_paths(source, where, edits):
    """Paths lead to where the crates are now: `where` has the module of each, and that of the file's own crate under `crate`."""
    for at, (kind, word) in enumerate(source):
        if kind != "word":
            continue
        if word == "crate" and source[at - 1] == ("mark", "(") and source[at - 2] == ("word", "pub"):
            edits.put(at, f"in {where['crate']}")
        elif source[at + 1:at + 2] != [("mark", "::")] or source[at - 1] == ("mark", "::"):
            continue
        elif word in OF_RATTLE:
            edits.put(at, f"crate::rt::{word}")
        elif word in where:
            edits.put(at, where[word])


def change_calls(source, edits):
    """Calls that are passed the allocator."""
    for at in range(1, len(source) - 2):
        if source[at - 1] == ("mark", ".") and source[at][1] in PASSED_ALLOCATOR and source[at + 1] == ("mark", "("):
            if source[after_space(source, at + 2)] == ("mark", ")"):
                raise Bad(f"{source[at][1]} without an allocator", source[at].line)
            edits.put(at, PASSED_ALLOCATOR[source[at][1]])


def change_formatters(source, items, edits):
    """Rattle's `fmt` has a parameter for what it writes to; Rust's has none."""
    for at in range(len(source) - 3):
        if source[at] == ("word", "Formatter") and plain(source[at + 1:at + 4]) == "<W>":
            edits.put(at + 2, "'_")
    for item in items:
        if item.kind == "fn" and "fmt::Formatter<W>" in item.header(source):
            take_writer(source, item, edits)


def take_writer(source, item, edits):
    """Takes `W: fmt::Write` out of a function's parameters."""
    opened = after_space(source, after_space(source, item.at + 1) + 1)
    if source[opened] != ("mark", "<"):
        raise Bad("a formatter of an unknown W", source[item.start].line)
    for at in range(opened, item.header_end):
        if plain(source[at:at + 6]) == "W: fmt::Write" and source[at + 5] == ("word", "Write"):
            take_parameter(source, at, at + 6, edits)
            return
    raise Bad("a formatter of an unknown W", source[item.start].line)


def take_parameter(source, start, end, edits):
    """Takes one parameter out of angle brackets, and these if nothing is left in them."""
    before, after = before_space(source, start), after_space(source, end)
    if source[before] == ("mark", "<") and source[after] == ("mark", ">"):
        edits.drop(before, after + 1)
    elif source[before] == ("mark", ","):
        edits.drop(before, end)
    else:
        edits.drop(start, after_space(source, after + 1))


def change_imports(source, items, edits):
    """Takes imports of what only Rattle has out of a file."""
    for item in items:
        if item.kind != "use":
            continue
        text = item.header(source)
        if text in ("use std::marker::Model", "use thiserror::Error"):
            edits.drop_line(item.whole, item.end)
        elif re.search(r"\bModel\b|\bthiserror\b", text):
            if text != "use std::marker::{Model, PhantomData}":
                raise Bad(text, source[item.start].line)
            for at in range(item.at, item.end):
                if source[at][1] in ("{", "Model", ",", "}") or source[at - 1] == ("mark", ","):
                    edits.drop(at, at + 1)


def mark_inline(source, items, edits):
    """Rattle's compiler sees the whole program; rustc asks to be told what may be copied into another crate's code."""
    for item in items:
        names = {it.name for it in item.attributes}
        if item.kind == "fn" and item.has_body and not names & {"inline", "cold"}:
            start = item.start - 1
            space = source[start][1].rpartition("\n")[2] if start >= 0 and source[start][0] == "space" else ""
            edits.put_before(item.start, f"#[inline]\n{space}")


def publish_main(source, items, edits):
    """A program's `main` is called by the one that runs it."""
    for item in items:
        if item.kind == "fn" and item.name == "main" and not item.owner and not item.public:
            edits.put_before(item.start, "pub ")
