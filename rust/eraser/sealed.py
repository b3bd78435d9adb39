"""Traits of the exported crates: those that only tie types together are sealed, and each other one says what an impl must keep."""
from .tokens import Bad, after_space

# No user may implement these. What they promise is proved of the types that have them, and the code relies on it.
# A seal above them doesn't do: a user may implement `Apart<Own, T, First> for First` with a key type of his own.
SEALED = {"Layout", "Table", "Tables", "Kind", "CloneTable", "CloneTables", "CloneKind", "Apart"}
# These are in no crate that is exported, and have a sealed trait above them.
BELOW_SEALED = {"CopyLayout": "Layout"}
# Anyone may implement these. An impl that lies spoils the answers of the calls that use it, and never memory.
OPEN = {
    "Key": "An impl that answers otherwise from call to call, or whose `Eq`, `Ord` and `Hash` don't follow `data`, spoils the maps "
    "that it is a key of: a call may then return another value than the one under a key, panic, not return, or abort the program. It "
    "breaks no other map.",
    "Primary": "An impl that does otherwise spoils the runs and searches that are given it.",
    "Detaching": "An impl that does otherwise spoils the runs that are given it.",
    "Secondary": "An impl that does otherwise spoils the runs and searches that are given it.",
    "Transform": "An impl that does otherwise spoils the transforms that a scene of it returns.",
    "HasTransform": "An impl that does otherwise spoils the transforms that a scene of it returns.",
}
LAWS = "In Rattle each impl is proved to do what the clauses here say. In Rust nothing checks that."
CLOSED = "This trait is sealed: only types of this crate implement it."


def seal(source, items, edits):
    """Gives the traits of a library their seals, and says in their docs who may implement them."""
    for item in items:
        if item.kind == "trait" and item.public:
            seal_trait(source, item, edits)


def seal_trait(source, item, edits):
    """One public trait."""
    if item.name in OPEN:
        say(source, item, f"{LAWS} {OPEN[item.name]}", edits)
        return
    if item.name in SEALED:
        add_supertrait(source, item, edits)
    elif BELOW_SEALED.get(item.name) not in supertraits(source, item):
        raise Bad(f"who may implement {item.name}", source[item.start].line)
    say(source, item, CLOSED, edits)


def supertraits(source, item):
    """The words of a trait's header behind its name."""
    return {word for kind, word in source[after_space(source, item.at + 1) + 1:item.header_end] if kind == "word"}


def say(source, item, text, edits):
    """Adds a paragraph to the docs of an item."""
    if item.whole < 2 or not source[item.whole - 2][1].startswith("///"):
        raise Bad(f"{item.name} has no docs", source[item.start].line)
    edits.put_before(item.whole, f"///\n/// {text}\n")


def add_supertrait(source, item, edits):
    """A supertrait that only this crate can name."""
    name = after_space(source, item.at + 1)
    seal_of = f"crate::sealed::{item.name}{arguments(source, name + 1)}"
    colon = top_level_colon(source, name + 1, item.header_end)
    if colon is None:
        edits.put_after(name if source[name + 1] != ("mark", "<") else angle_end(source, name + 1) - 1, f": {seal_of}")
    else:
        edits.put_after(colon, f" {seal_of} +")


def angle_end(source, at):
    """The place behind the angle bracket that closes the one at `at`."""
    depth = 0
    while True:
        depth += {"<": 1, ">": -1}.get(source[at][1], 0) if source[at][0] == "mark" else 0
        at += 1
        if depth == 0:
            return at


def arguments(source, at):
    """The names of a trait's parameters, in angle brackets."""
    if source[at] != ("mark", "<"):
        return ""
    names, depth, is_next = [], 0, False
    for token in source[at:angle_end(source, at)]:
        if token[0] == "mark":
            depth += {"<": 1, ">": -1}.get(token[1], 0)
            is_next = depth == 1 and token[1] in "<,"
        elif token[0] in ("word", "lifetime") and is_next:
            names.append(token[1])
            is_next = False
    return f"<{', '.join(names)}>"


def top_level_colon(source, at, end):
    """The colon that a trait's supertraits follow, if it has some."""
    if source[at] == ("mark", "<"):
        at = angle_end(source, at)
    at = after_space(source, at)
    return at if at < end and source[at] == ("mark", ":") else None


def seals_of_impls(source, items, edits):
    """For each impl of a sealed trait the impl of its seal, with the same parameters and bounds: it holds where that impl holds."""
    found = []
    for item in items:
        place = place_of_trait(source, item) if item.kind == "impl" else None
        if place is None:
            continue
        before, after = edits.text[item.start:place], edits.text[place:item.header_end]
        found.append(f"{''.join([*before, 'crate::sealed::', *after]).rstrip()} {{}}\n")
    return found


def place_of_trait(source, item):
    """Where an impl's header names a sealed trait, if it is an impl of one."""
    at = item.at + 1
    at = angle_end(source, at) if source[at] == ("mark", "<") else at
    at = after_space(source, at)
    return at if source[at][1] in SEALED else None
