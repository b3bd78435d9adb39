"""What the eraser doesn't know is an error, and never a guess: keywords, macros, names of Rattle, and forms that Rust reads otherwise.

Most of what Rattle has and Rust lacks doesn't compile, so rustc refuses it. These lists are for the rest, and for a plain message.
"""
from .tokens import CLOSE, Bad, after_space, before_space, matching

# Keywords of Rust that stand in none of these sources.
OTHER_KEYWORDS = set("abstract async await auto become box do dyn extern final gen macro override priv raw ref safe static try typeof"
                     " union unsafe unsized virtual yield".split())
MACROS = {"json", "matches", "unreachable", "write", "writeln"}
MACROS_OF_PROGRAMS = {"format", "macro_rules", "println", "vec"}
# Words of Rattle's contracts and proofs. None is left once they are out.
OF_RATTLE = {"also_owns", "antt", "assume", "axiom", "decreases", "derive_where", "ensures", "ghost", "invariant", "invariants", "law",
             "laws", "lemma", "loop_invariant", "loop_invariants", "Model", "Owns", "pinned", "proof", "prove", "prove_eq", "prove_ne",
             "requires", "tactic", "tactics", "theorem"}
# Names that compile in both languages, and whose value or effect may differ.
DIFFERENT = {
    "align_of": "Rattle lays fields out in their order", "size_of": "Rattle lays fields out in their order",
    "size_of_val": "Rattle lays fields out in their order", "type_name": "its text", "type_id": "its number", "transmute": "no unsafe",
    "Box": "src/rt has none", "Rc": "src/rt has none", "Arc": "src/rt has none", "RefCell": "src/rt has none",
    "f32": "a cast may round", "f64": "a cast may round", "anyhow": "its Debug", "thread": "a thread's value is dropped otherwise",
    "catch_unwind": "no call of Rattle unwinds", "forever": "a loop of a handle",
}
# The names of std that src/rt has, each with the meaning that Rattle's has.
STD = {
    "alloc": {"AllocError", "AllocFailed", "Global"}, "cell": {"Cell"}, "collections": {"HashMap", "VecDeque", "hash_map", "RandomState"},
    "env": {"", "Env", "FillError"}, "fmt": {"", "Display"}, "fs": {"", "Files"},
    "hash": {"BuildHasher", "BuildHasherDefault", "FoldHasher", "Hash", "Hasher"},
    "io": {"", "ErrorKind", "Read", "Write"}, "iter": {"FusedIterator"}, "marker": {"Model", "PhantomData"}, "mem": {""},
    "ops": {"Index", "IndexMut"}, "process": {"ExitCode"}, "simd": {"prelude"}, "slice": {""}, "vec": {""},
}


def refuse_unknown(source, macros):
    """Refuses what isn't known. Contracts and attributes are read elsewhere."""
    at = 0
    while at < len(source):
        if source[at] == ("mark", "#") and source[at + 1][1] in "[!":
            at = matching(source, at + (1 if source[at + 1][1] == "[" else 2))
            continue
        if source[at][0] == "word":
            refuse_word(source, at, macros)
            refuse_path(source, at)
            refuse_call(source, at)
        elif source[at] == ("mark", ".."):
            refuse_range(source, at)
        at += 1


def refuse_word(source, at, macros):
    """A keyword, a macro or a word of Rattle."""
    word, line = source[at][1], source[at].line
    if not word.isascii():
        raise Bad(f"{word} is left over", line)
    if is_macro(source, at):
        if word not in macros:
            raise Bad(f"{word}! is a macro that the eraser doesn't know", line)
    elif word in OTHER_KEYWORDS:
        raise Bad(f"{word} is a keyword that the eraser doesn't know", line)
    elif word in OF_RATTLE and not (word == "Model" and is_of_model(source, at)):
        raise Bad(f"{word} is a word of Rattle", line)


def is_macro(source, at):
    """Whether a macro is called, or declared, by this word."""
    opened = after_space(source, at + 2)
    return source[at + 1:at + 2] == [("mark", "!")] and opened < len(source) and (source[opened][1] in "([{" or source[at][1] == "macro_rules")


def is_of_model(source, at):
    """Whether `Model` stands in an import or heads an impl: these are taken out."""
    return source[at - 1][1] in ("::", "{") or source[after_space(source, at + 1)] == ("word", "for")


def refuse_path(source, at):
    """A name of std that src/rt has not, or that means something else there."""
    word, line = source[at][1], source[at].line
    if word in DIFFERENT and source[at - 1] != ("word", "fn") and not is_macro(source, at):
        raise Bad(f"{word} differs in Rust: {DIFFERENT[word]}", line)
    if word != "std" or source[at + 1:at + 2] != [("mark", "::")] or source[at - 1] == ("mark", "::"):
        return
    for module, *names in leaves(source, at + 2)[0]:
        if module not in STD:
            raise Bad(f"std::{module} is not in src/rt", line)
        if (names or [""])[0] not in STD[module]:
            raise Bad(f"std::{'::'.join([module, *names])} is not in src/rt", line)


def leaves(source, at):
    """The paths that a path with braces stands for, and the place behind it."""
    if source[at] == ("mark", "{"):
        found, at = [], after_space(source, at + 1)
        while source[at] != ("mark", "}"):
            more, at = leaves(source, at)
            found += more
            at = after_space(source, at)
            at = after_space(source, at + 1) if source[at] == ("mark", ",") else at
        return found, at + 1
    name, at = source[at][1], at + 1
    if source[at:at + 1] != [("mark", "::")] or source[at + 1] == ("mark", "<"):
        return [[name]], at
    rest, at = leaves(source, at + 1)
    return [[name, *it] for it in rest], at


def refuse_call(source, at):
    """A clone that a closure returns: in Rattle it is a `Result`, which only a `?` or a pattern tells from a value."""
    if source[at][1] != "clone" or source[at - 1] != ("mark", "."):
        return
    close = after_space(source, after_space(source, at + 1) + 1)
    if source[after_space(source, close + 1)] == ("mark", "?"):
        return
    place = at - 1
    while source[place][0] in ("word", "space") or source[place][1] in (".", "&", "*"):
        place -= 1
    if source[place] == ("mark", "|"):
        raise Bad("a closure that returns a clone", source[at].line)


def refuse_range(source, at):
    """A range without an end that is walked, and fields from another value."""
    line, before, after = source[at].line, source[before_space(source, at)], source[after_space(source, at + 1)]
    is_bounded = before[0] in ("word", "number") or before[1] in CLOSE
    if is_bounded and after == ("mark", "{"):
        raise Bad("a range without an end is walked", line)
    if is_bounded and after == ("mark", ")") and is_group(source, at):
        raise Bad("a range without an end is walked", line)
    if before == ("mark", ",") and after[1] not in ("}", "]", ")", ",") and not is_variable_alone(source, at):
        raise Bad("fields from another value than a variable", line)


def is_variable_alone(source, at):
    """Whether the fields of a variable follow. Rattle doesn't read another value where no field of it is wanted."""
    name = after_space(source, at + 1)
    return source[name][0] == "word" and source[after_space(source, name + 1)] in (("mark", "}"), ("mark", ","))


def is_group(source, at):
    """Whether the bracket that is open here only groups, and is no call's."""
    depth, place = 0, at
    while depth >= 0 and place > 0:
        place -= 1
        if source[place][0] == "mark":
            depth += (source[place][1] in CLOSE) - (source[place][1] in "([{")
    before = source[before_space(source, place)]
    return before[0] != "word" and before[1] not in (">", ")", "]", "!")
