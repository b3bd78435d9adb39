"""Drops. In Rattle `Drop` is a bound that says "may be dropped", and a drop takes its value apart; in Rust every value may be dropped."""
import re

from .tokens import Bad, after_space, before_space, is_blank, plain

# A drop that only takes its value apart, which Rust does by itself.
TAKES_APART = re.compile(r"(?:#\[inline\(always\)\] )?fn drop\(self\) ?\{ let \w+ \{(?: \w+: _\w+,?)* ?\} = self; \}")
BY_HAND = re.compile(r"(?:#\[inline\(always\)\] )?fn drop\(self\) ?\{ let \w+ \{[^{}]*\} = self; ")


def take_drops(source, items, edits):
    """Takes models out and drops that Rust does by itself; a drop by hand gets Rust's receiver."""
    by_hand = set()
    for item in items:
        if item.kind != "impl":
            continue
        header = item.header(source)
        if re.search(r"\bModel for\b", header):
            edits.drop_line(item.whole, item.end)
        elif re.search(r"\bDrop for\b", header):
            body = plain([x for x in source[item.header_end + 1:item.end - 1]])
            if TAKES_APART.fullmatch(body):
                edits.drop_line(item.whole, item.end)
                continue
            if not BY_HAND.match(body):
                raise Bad(f"impl Drop: {body}", source[item.start].line)
            by_hand.add(name_of_dropped(header))
            lend_receiver(source, item, edits)
    refuse_taking_apart(source, items, by_hand)
    change_bounds(source, items, edits)


def name_of_dropped(header):
    """The type of an `impl Drop`."""
    return re.search(r"\bDrop for (\w+)", header)[1]


def lend_receiver(source, item, edits):
    """`fn drop(self)` becomes `fn drop(&mut self)`: the fields that it names are then references."""
    for at in range(item.header_end, item.end):
        if source[at] == ("word", "drop") and source[at + 1] == ("mark", "(") and source[at + 2] == ("word", "self"):
            edits.put(at + 2, "&mut self")
            return


def refuse_taking_apart(source, items, by_hand):
    """Outside its drop a value with a drop by hand may not be taken apart: Rattle's drop then doesn't run, and Rust's does."""
    for item in items:
        if item.kind != "fn" or item.name == "drop" or not item.has_body:
            continue
        body = plain(source[item.header_end:item.end])
        found = re.search(r"\blet (\w+) \{[^{}]*\} = self;", body)
        if found and found[1] in by_hand:
            raise Bad(f"{found[1]} is taken apart, and it has a drop by hand", source[item.start].line)


def change_bounds(source, items, edits):
    """Takes the bound `Drop` out."""
    traits = {at for item in items if item.kind == "trait" for at in range(item.at, item.header_end)}
    depth = 0
    for at, token in enumerate(source):
        if token[0] == "mark":
            depth = angle_depth(token[1], depth)
        elif token == ("word", "Drop") and not is_in_attribute(source, at):
            change_bound(source, at, depth, at in traits, edits)


def angle_depth(mark, depth):
    """How many angle brackets are open behind a mark."""
    if mark in ("{", "}", ";"):
        return 0
    return max(0, depth + {"<": 1, ">": -1}.get(mark, 0))


def is_in_attribute(source, at):
    """Whether a word stands in a derive."""
    while at >= 0 and source[at][1] not in ("[", "]", "{", "}", ";"):
        at -= 1
    return at > 0 and source[at] == ("mark", "[") and source[at - 1] == ("mark", "#")


def change_bound(source, at, depth, in_trait, edits):
    """One `Drop`: alone it goes in a list of parameters and is `Sized` elsewhere, beside others it goes."""
    before, after = before_space(source, at), after_space(source, at + 1)
    if source[after] == ("word", "for"):
        return
    if source[before] == ("mark", "+") and in_trait:
        edits.put(at, "Sized")
    elif source[before] == ("mark", "+"):
        edits.drop(before - is_blank(source[before - 1]), at + 1)
    elif source[after] == ("mark", "+"):
        edits.drop(at, after_space(source, after + 1))
    elif source[before] == ("mark", ":") and depth:
        edits.drop(before, at + 1)
    elif source[before] == ("mark", ":"):
        edits.put(at, "Sized")
    else:
        raise Bad("Drop stands in no bound", source[at].line)
