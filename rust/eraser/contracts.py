"""Takes out clauses and ghost items. The clauses of a documented function go on as marks, for its rustdoc."""
from .items import signature_clauses
from .tokens import Bad, after_space, before_space

# A clause in the erased text, until documents.py has read it: BEGIN, the clause with BREAK for a line break, END.
BEGIN, END, BREAK = "\x01", "\x02", "\x03"
MARKS_OF_TYPES = ("::", "<", ">", "&", "(", ")", ",", "[", "]", "->")


def take_contracts(source, items, edits):
    """Takes all contracts out of a file."""
    for at, token in enumerate(source):
        if token[0] == "ghost":
            take_ghost(source, at, edits)
    in_signatures = set()
    for item in items:
        if item.clauses:
            in_signatures.update(item.clauses)
            take_clauses(source, item, edits)
    for at, token in enumerate(source):
        if token[0] == "clause" and at not in in_signatures:
            take_clause_of_closure(source, at, edits)


def take_ghost(source, at, edits):
    """Takes a ghost item out, with its `pub` if it has one."""
    before = before_space(source, at)
    start = before if before >= 0 and source[before] == ("word", "pub") else at
    edits.drop_line(start, at + 1)


def take_clauses(source, item, edits):
    """Takes a function's clauses out of its signature, and puts them behind it as marks."""
    said = signature_clauses(source, item)
    last = before_space(source, said[0])
    while source[last][0] == "clause":
        last = before_space(source, last)
    edits.drop(last + 1, item.header_end)
    edits.put_after(last, "".join(mark_of(source[at]) for at in said))
    if source[item.header_end] == ("mark", "{"):
        edits.put_before(item.header_end, space_before_body(source, item))


def mark_of(token):
    """A clause, or a comment between clauses, as a mark."""
    return BEGIN + token[1].replace("\n", BREAK) + END


def space_before_body(source, item):
    """What stands before the brace of a body: a line break below a `where`, as rustfmt has it."""
    if any(token == ("word", "where") for token in source[item.at:item.header_end]):
        return "\n" + indentation(source, item.whole)
    return " "


def indentation(source, at):
    """The white space that a line begins with in which a token stands first."""
    return source[at - 1][1].rpartition("\n")[2] if at and source[at - 1][0] == "space" else ""


def take_clause_of_closure(source, at, edits):
    """Takes a closure's clause out. A clause that belongs to no closure either is unknown."""
    place = before_space(source, at)
    while source[place][0] == "clause":
        place = before_space(source, place)
    after = after_space(source, at + 1)
    is_followed = source[after][0] == "clause" or source[after] == ("mark", "{")
    if not is_followed or not ends_closure_header(source, place):
        raise Bad(f"{source[at][1].split()[0]} stands in no signature", source[at].line)
    edits.drop_line(at, at + 1)
    if source[after] == ("mark", "{"):
        edits.drop_line(after, after)
        edits.put_before(after, " ")


def ends_closure_header(source, place):
    """Whether a closure's parameters, or the type of its result, end here."""
    while place >= 0 and (source[place][0] in ("word", "space", "lifetime") or source[place][1] in MARKS_OF_TYPES):
        place -= 1
    return place >= 0 and source[place] == ("mark", "|")
