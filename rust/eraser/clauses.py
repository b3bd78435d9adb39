"""The clauses of the sources as they stand there, with the comments and blank lines between them, as sections of rustdoc."""
import functools
import os
import re
import sys
import textwrap

TOP = os.path.dirname(os.path.dirname(os.path.dirname(os.path.abspath(__file__))))
sys.dont_write_bytecode = True
sys.path.insert(0, os.path.join(TOP, "docs"))

from sources import CONTRACTS, Item, items_of, read_items, set_subject  # docs/sources.py

from . import word_page

BEGINS = re.compile(r"\s*(?:(?:requires|ensures|decreases)\b|//)")
MAPS = ("slotmap_basic", "slotmap_dense", "slotmap_hop", "slotmap_secondary", "slotmap_sparse")
# Traits whose impls say nothing of a call of the layer: views and tables of the proofs, and what one calls through a trait.
NOT_CALLS = ("Model", "Drop", "Layout", "CopyLayout", "Primary", "Detaching", "Secondary")


def parts_of(item):
    """The header of a function, and its clauses with what stands between them: two lists of lines."""
    for number, line in enumerate(item.lines):
        if number and BEGINS.match(line):
            return item.lines[:number], item.lines[number:]
    return item.lines, []


def bare(text):
    """Clauses without comments and white space: by these the clauses of an erased function are found in the source."""
    return re.sub(r"\s", "", re.sub(r"(?m)^\s*//.*", "", text))


def text_of(lines):
    return textwrap.dedent("\n".join(it.rstrip() for it in lines)).strip("\n").split("\n")


def contract_of(impl):
    """What an impl of a trait says of its calls: its ghost items that are a contract."""
    kept = [it for it in impl.members if it.kind == "ghost" and it.name in CONTRACTS]
    return [line for it in kept for line in [*it.lines, ""]][:-1]


@functools.cache
def functions_of(crate, path):
    """The functions of a file that have clauses, by their names and clauses."""
    name = f"crates/{crate}/src/{path}.rt"
    with open(os.path.join(TOP, name), encoding="utf-8") as file:
        lines = file.read().split("\n")
    found, waiting = {}, read_items(name, lines, 0, len(lines), 0)
    for item in waiting:
        waiting += item.members
        if item.kind == "fn" and parts_of(item)[1]:
            found[item.name, bare("\n".join(parts_of(item)[1]))] = item
    return found


def section(path, code, said=""):
    """The lines of a section: a heading, the clauses as text, and their words with links."""
    lines = ["# Proved", "", *([said, ""] if said else []), "```text", *text_of(code), "```"]
    words = word_page.links_of(path, "\n".join(code))
    return [*lines, "", f"Words: {', '.join(words)}."] if words else lines


def section_of(crate, path, name, clauses):
    """The section of an erased function, from its source."""
    item = functions_of(crate, path).get((name, bare("\n".join(clauses))))
    return section(item.path, parts_of(item)[1]) if item else None


def public_types(crate):
    return {it.name for it in word_page.public_items(crate) if it.kind in ("struct", "enum")}


def trait_of(impl):
    return re.sub(r"<.*", "", impl.of_trait).split("::")[-1]


def subject(header):
    """What the header of an impl or of a public trait is of: its trait and its type."""
    if header.startswith("pub trait "): return re.match(r"pub trait (\w+)", header)[1], ""
    item = Item("", 0, "impl", "", False)
    item.lines = [header]
    set_subject(item)
    return trait_of(item), item.of


@functools.cache
def contracts_of(crate, path):
    """The sections of the public traits of a file and of the impls of traits for public types, by what they are of, in their order."""
    found, name = {}, f"crates/{crate}/src/{path}.rt"
    if crate not in word_page.SHOWN or not os.path.exists(os.path.join(TOP, name)): return found
    with open(os.path.join(TOP, name), encoding="utf-8") as file:
        lines = file.read().split("\n")
    for item in read_items(name, lines, 0, len(lines), 0):
        if item.kind == "trait" and item.public:
            ghosts = [it for it in item.members if it.kind == "ghost" and it.name != "use"]
            code = [line for it in ghosts for line in [*(f"    // {said}" for said in it.doc), *it.lines, ""]][:-1]
            if code: found[item.name, ""] = [section(name, code, "What each impl of this crate is proved to give and to keep:")]
        elif item.kind == "impl" and item.of_trait and trait_of(item) not in ("Model", "Drop") and item.of in public_types(crate):
            code = contract_of(item)
            found.setdefault((trait_of(item), item.of), []).append(section(name, code, "What this impl is proved to give:") if code else [])
    return found


def arms():
    """For each call of the five maps: its crate, its type, its name, and its section, with the proved call's header."""
    found = {}
    for crate in MAPS:
        public = public_types(crate)
        impls = [it for it in items_of(crate) if it.kind == "impl" and it.of in public]
        plain = re.compile(r"(\w+::)*(" + "|".join(NOT_CALLS) + r")\b")
        # What a type itself has comes before what it has by a trait, and a value before a reference to it.
        impls.sort(key=lambda it: (bool(it.of_trait), " for &" in it.header()))
        for impl in impls:
            if plain.match(impl.of_trait): continue
            contract = contract_of(impl)
            for item in impl.members:
                if item.kind != "fn" or not (item.public or impl.of_trait): continue
                clauses = parts_of(item)[1]
                if not clauses and not contract: continue
                code = text_of(item.lines) + ([] if clauses else ["", *text_of(contract)])
                found.setdefault((crate, impl.of, item.name), section(item.path, code, "What is proved of the call that this one makes:"))
    return found


HEAD = """// Written by the eraser: the clauses of the proved maps' calls, for the comments of the layer over them.
// `#[doc = clauses!(slotmap_basic SlotMap insert)]` is the section of one call; a call that isn't here doesn't compile.
#[rustfmt::skip]
#[allow(unused_macros, unused_macro_rules)]
macro_rules! clauses {
"""


def macro():
    """The text of clauses.rs."""
    out = [HEAD]
    for (crate, kind, name), lines in sorted(arms().items()):
        text = "\n".join(lines)
        out.append(f'    ({crate} {kind} {name}) => {{ r##"\n{text}\n"## }};\n')
    return "".join(out) + "}\n"
