#!/usr/bin/env python3
"""Lists the public clauses of the maps, of runs, of JSON and of scripts that nothing holds: if one is weakened, contracts.lock alone tells.

    tests/guards.py           these clauses, and for each crate how many there are
    tests/guards.py --check   only the faults: a clause that nothing holds, and a reason that no clause needs; status 1 if there are any

A clause is held by one of these:
- a guard: a function of map_guards in the module of the clause's crate, as `map_guards::run` of `slotmap_run`, with a comment that names the clause
  and its call, as "`ok` and `err` of `insert`". Its file has to name the call's type too, where that isn't the map itself. A method of a trait
  in the module `traits` is a guard of each map that the trait is implemented for there;
- a caller: a function that makes the call, in the library or above it, whose answers cite the clause by name;
- a trait: one of slotmap_core that the map has, with a clause of this name at this call. The impl delegates with no proof, so it refuses a weaker clause.
  The trait's own clauses are listed too: a function of the module `traits` that is generic over the trait is a guard of them;
- its text, if no word in it is a definition of this repository: what it says is in contracts.lock, and a guard could only say it again;
- a reason, in REASONS.
"""

import functools
import glob
import os
import re
import sys

sys.dont_write_bytecode = True

TOP = os.path.dirname(os.path.dirname(os.path.abspath(__file__)))
sys.path.insert(0, os.path.join(TOP, "docs"))

from meanings import Part, Scope, items, normal
from sources import MAPS, read, signature_and_clauses

CRATES = [f"slotmap_{it}" for it in ("basic", "dense", "hop", "secondary", "sparse", "run", "json", "script")]
GUARDS = "map_guards"
# The traits of slotmap_core that maps have.
TRAITS = ["Primary", "Detaching", "Secondary"]
# Why a clause needs no guard: by its crate, its call and its name. `*` is any crate.
REASONS = {
    ("*", "size_hint", "lower"): "its `exact` says more",
    ("*", "size_hint", "upper"): "its `exact` says more",
    ("*", "size_hint", "exact"): "`len` of the iterator says it, and is what callers go by",
    ("*", "replace_disjoint", "valid"): "another clause names the whole content",
    ("*", "eq", "value"): "its `which` says it by what both maps hold",
    ("*", "clone", "copies_if_clones_equal"): "its `clones` says more",
    ("*", "clone_from", "copies_if_clones_equal"): "its `clones` says more",
    ("*", "clone", "order_if_clones_equal"): "its `order` says more",
    ("*", "clone_from", "order_if_clones_equal"): "its `order` says more",
    ("*", "keys", "listing"): "its `in_order` says more",
    ("*", "values", "listing"): "its `in_order` says more",
    ("*", "to_slots", "writes"): "`writes_if_clones_equal` and `contents` are what callers go by",
    ("*", "to_slots", "contents_if_clones_equal"): "its `contents` says more",
    ("*", "drain", "stays"): "of all steps of a drain, of which no proved caller makes more: contracts.lock tells of a change",
    ("*", "drain", "lists"): "of all steps of a drain, of which no proved caller makes more: contracts.lock tells of a change",
    ("*", "drain", "in_order"): "of all steps of a drain, of which no proved caller makes more: contracts.lock tells of a change",
    ("*", "drain_into", "freed_order"): "it has the words of `clear`, which has a guard",
    ("*", "retain", "freed_order"): "it has the words of `clear`, which has a guard",
    ("*", "replace_disjoint", "which"): "it has the words of `SlotMap`, which has a guard",
    ("*", "replace_disjoint", "value"): "it has the words of `SlotMap`, which has a guard",
    ("*", "replace_disjoint", "ok"): "it has the words of `SlotMap`, which has a guard",
    ("*", "from_iter", "ok"): "it is `extend` of an empty map, which callers go by",
    ("*", "from_iter", "err"): "it is `extend` of an empty map, which callers go by",
    ("slotmap_secondary", "from_iter", "places"): "it is `extend` of an empty map, which callers go by",
    ("slotmap_sparse", "with_capacity", "err"): "it has the limit of `reserve`, which has a guard",
    ("slotmap_sparse", "with_capacity", "fits"): "it has the limit of `reserve`, which has a guard",
    ("slotmap_sparse", "with_capacity_and_hasher", "err"): "it has the limit of `reserve`, which has a guard",
    ("slotmap_sparse", "with_capacity_and_hasher", "fits"): "it has the limit of `reserve`, which has a guard",
    ("slotmap_sparse", "from_iter_with_hasher", "ok"): "it is `extend` of an empty map, which callers go by",
    ("slotmap_sparse", "from_iter_with_hasher", "err"): "it is `extend` of an empty map, which callers go by",
    ("*", "and_modify", "key"): "its `same_writes` says it of the map",
    ("*", "and_modify", "same_removal"): "it says something of the entry alone, of which no proved caller makes more: contracts.lock tells of a change",
    ("*", "get", ""): "it says something of the entry alone, of which no proved caller makes more: contracts.lock tells of a change",
    ("*", "get_mut", "written"): "it says something of the entry alone, of which no proved caller makes more: contracts.lock tells of a change",
    ("*", "insert", "written"): "it says something of the entry alone, of which no proved caller makes more: contracts.lock tells of a change",
    ("*", "extend_refs", "extends"): "it has the words of `extend`, which callers go by",
    ("slotmap_secondary", "extend_refs", "grows"): "it has the words of `extend`, which has a guard",
    ("slotmap_basic", "new", "starts"): "it is `with_key`, which has a guard",
    ("slotmap_dense", "clone_from", "order"): "it has the words of `clone`, which has a guard",
    ("slotmap_dense", "reattach", "unchanged"): "its `valid` says more",
    ("slotmap_dense", "get_disjoint_unchecked_mut", "value"): "it has the words of `get_disjoint_mut`, which has a guard",
    ("slotmap_dense", "values_mut", "runs"): "of all steps of an iterator, of which no proved caller makes more: contracts.lock tells of a change",
    ("slotmap_hop", "retain", "order"): "of all calls of the closure, of which no proved caller makes more: contracts.lock tells of a change",
    ("slotmap_hop", "drain_into", "blocks"): "it has the words of `clear`, which has a guard",
    ("slotmap_hop", "insert", "unchanged"): "`valid` of the trait says it, and holds by it alone",
    ("slotmap_hop", "insert_with_key", "unchanged"): "`valid` of the trait says it, and holds by it alone",
    ("slotmap_hop", "try_insert_with_key", "unchanged"): "`valid` of the trait says it, and holds by it alone",
    ("slotmap_hop", "insert_with_key", "blocks"): "it has the words of `insert`, which has a guard",
    ("slotmap_hop", "try_insert_with_key", "blocks"): "it has the words of `insert`, which has a guard",
    ("slotmap_dense", "into_iter", "into_iter_gives"): "`iter_mut`, which this is, has guards",
    ("slotmap_dense", "into_iter", "writes_back"): "`iter_mut`, which this is, has guards",
    ("slotmap_script", "run", "ran"): "`run_script` is proved over it",
    ("slotmap_script", "write_slots", "ok"): "`run_script` is proved over it",
    ("slotmap_script", "load", "ok"): "`run_script` is proved over it",
    ("slotmap_script", "write_refusal", ""): "`run_script` is proved over it",
    ("slotmap_script", "write_replies", ""): "`run_script` is proved over it",
    ("slotmap_script", "run_on", "ok"): "`run_script` is proved over it",
    ("slotmap_script", "run_on", "err"): "`run_script` is proved over it",
    ("slotmap_script", "run_stretches", "ok"): "`run_script` is proved over it",
    ("slotmap_script", "parse", "ok"): "`run_script` is proved over it",
    ("slotmap_script", "run_script", "runs"): "slotrun's theorem, of which no proved caller makes more: contracts.lock tells of a change",
    ("slotmap_script", "run_script", "refuses"): "slotrun's theorem, of which no proved caller makes more: contracts.lock tells of a change",
    ("slotmap_script", "run_script", "stops"): "slotrun's theorem, of which no proved caller makes more: contracts.lock tells of a change",
    ("slotmap_script", "run_script", "unread"): "slotrun's theorem, of which no proved caller makes more: contracts.lock tells of a change",
}
# The `valid` that says only that a map, or a key, is well formed: each other call of it says the same.
WELL_FORMED = re.compile(r"(IfOk result |OnOk result )?\(?(λ m\. )?Is(Content (true|REUSES)|Dense|HopContent|SideContent|SparseContent|Key)\b")
# As in "`a`, `b` and `c` of `call`", "`a` of `call`, of `other` and of `third`", or "`call` of `Type`".
CLAIM = re.compile(r"((?:`\w+`(?:, | and |, and )?)+) of (?:its )?(`[\w:]+`|drop)((?:(?:, | and |, and )of `\w+`)*)")


class Clause:
    """A public `ensures`: its crate, the type of its impl, its call, its name, and its text with what the words in it mean."""

    def __init__(self, crate, block, call, name, part):
        self.crate, self.of, self.call, self.name, self.part = crate, block.of if block else "", call, name, part


def functions_in(crate):
    """The functions of a crate, each with its impl if it is in one."""
    for item in items(crate):
        if item.kind == "fn":
            yield item, None
        for member in item.members if item.kind == "impl" else []:
            if member.kind == "fn":
                yield member, item


def clauses_of_the_traits():
    for trait in [it for it in items("slotmap_core") if it.kind == "trait" and it.name in TRAITS]:
        for member in [it for it in trait.members if it.kind == "fn"]:
            for kind, name, text in signature_and_clauses(member)[1]:
                if kind != "requires":
                    meaning = Scope("slotmap_core", member.path, trait).meaning
                    clause = Clause("slotmap_core", None, member.name, name, Part(name, normal(text, ".rt"), meaning))
                    clause.of = trait.name
                    yield clause


def public_clauses(crate):
    private = {it.name for it in items(crate) if it.kind == "trait" and not it.public}
    for item, block in functions_in(crate):
        trait = block.of_trait.split("<")[0] if block else ""
        if item.public or trait and trait not in private:
            for kind, name, text in signature_and_clauses(item)[1]:
                if kind != "requires":
                    meaning = Scope(crate, item.path, block).meaning
                    yield Clause(crate, block, item.name, name, Part(name, normal(text, ".rt"), meaning))


@functools.cache
def text_of(path, line):
    """A function from its head to its closing brace."""
    rest = read(path).split("\n")[line - 1 :]
    indent = re.match(" *", rest[0]).group(0)
    end = next((number for number, it in enumerate(rest) if it == indent + "}"), 0)
    return "\n".join(rest[: end + 1])


def comments_of(item, of_trait=False):
    """The comments of a function, each on one line."""
    text = "\n".join(item.lines) if of_trait else text_of(item.path, item.line)
    inner = re.findall(r"(?m)(?:^ *//[^\n]*\n)+", text)
    return [" ".join(item.doc), *(" ".join(it.strip().lstrip("/").strip() for it in block.split("\n")) for block in inner)]


def claims(comments, path):
    """What comments name: the words before `of`, the one behind it, and the text of the file."""
    for comment in comments:
        for names, call, others in CLAIM.findall(comment):
            for behind in [call, *re.findall(r"of `(\w+)`", others)]:
                yield set(re.findall(r"`(\w+)`", names)), behind.strip("`").split("::")[-1], read(path)


def module_of(item):
    return re.split(r"[/.]", item.path)[3]


@functools.cache
def guards_of(crate):
    """What the guards in the module of a crate name."""
    own = [item for item, block in functions_in(GUARDS) if not block and module_of(item) == crate.removeprefix("slotmap_")]
    return [it for item in own for it in claims(comments_of(item), item.path)]


@functools.cache
def guards_over(trait):
    """What the functions of the module `traits` name that are generic over a trait of slotmap_core."""
    own = [item for item, block in functions_in(GUARDS) if not block and module_of(item) == "traits"]
    over = [item for item in own if re.search(rf"\b{trait}<K, V>", signature_and_clauses(item)[0])]
    return [it for item in over for it in claims(comments_of(item), item.path)]


@functools.cache
def guards_in_traits(crate):
    """What the methods of traits of the module `traits` name, where the trait is implemented for a type of the crate."""
    types = {it.name for it in items(crate) if it.kind == "struct"}
    ours = [it for it in items(GUARDS) if module_of(it) == "traits"]
    have = {it.of_trait.split("<")[0] for it in ours if it.kind == "impl" and it.of in types}
    methods = [member for it in ours if it.kind == "trait" and it.name in have for member in it.members if member.kind == "fn"]
    return [it for item in methods for it in claims(comments_of(item, True), item.path)]


def is_guarded(it):
    for names, behind, text in guards_over(it.of) if it.of in TRAITS else guards_of(it.crate) + guards_in_traits(it.crate):
        named = it.name in names and behind == it.call or behind == it.of and it.call in names or not it.name and behind == it.call
        if named and (it.of in MAPS or it.of in TRAITS or it.of in text):
            return True
    return False


@functools.cache
def callers():
    """Each function whose answers cite clauses: its crate and name, the calls in its body, the names of the clauses, and its file."""
    bodies, found = {}, []
    for crate in sorted(os.listdir(os.path.join(TOP, "crates"))):
        for item, _ in functions_in(crate):
            bodies.setdefault((crate, item.name), []).append(item)
    for path in glob.glob(os.path.join(TOP, "crates/*/proofs/**/*.antt"), recursive=True):
        parts = os.path.relpath(path, TOP).split("/")
        cited = set(re.findall(r"\.ensures(?:\.([A-Za-z_]\w*))?", read(path)))
        for item in bodies.get((parts[1], parts[-2]), []) if cited else []:
            calls = set(re.findall(r"\b(\w+)(?:::<[^>]*>)?\(", text_of(item.path, item.line).partition("{\n")[2]))
            found.append((parts[1], item.name, calls, cited, read(item.path)))
    return found


def is_cited(it):
    for crate, caller, calls, cited, text in callers():
        if it.call in calls and it.name in cited and (crate, caller) != (it.crate, it.call) and (not it.of or it.of in text):
            return True
    return False


@functools.cache
def clauses_of_traits(crate):
    """The calls and clauses of the traits of slotmap_core that the types of a crate have: type, call and name."""
    traits = {it.name: it for it in items("slotmap_core") if it.kind == "trait"}
    found = set()
    for block in [it for it in items(crate) if it.kind == "impl" and it.of_trait.split("<")[0] in traits]:
        for member in [it for it in traits[block.of_trait.split("<")[0]].members if it.kind == "fn"]:
            found.update((block.of, member.name, name) for kind, name, _ in signature_and_clauses(member)[1] if kind != "requires")
    return found


def names_no_definition(part):
    return not any(not isinstance(target, str) and target.name.startswith("crates/") for _, target in part.named)


def reason_for(it):
    """The key of the reason for a clause, or nothing."""
    if it.name == "valid" and WELL_FORMED.match(it.part.text):
        return "valid"
    return next((key for key in ((it.crate, it.call, it.name), ("*", it.call, it.name)) if key in REASONS), None)


def listed():
    """The clauses that nothing holds, the reasons that some clause needs, and how many clauses each crate has."""
    faults, needed, counts = [], {"valid"}, {}
    for it in [*clauses_of_the_traits(), *(it for crate in CRATES for it in public_clauses(crate))]:
        counts[it.crate] = counts.get(it.crate, 0) + 1
        held = it.crate in CRATES and (it.of, it.call, it.name) in clauses_of_traits(it.crate) or names_no_definition(it.part)
        if not held and not is_guarded(it) and not is_cited(it):
            reason = reason_for(it)
            needed.add(reason)
            if not reason:
                faults.append((it.crate, f"{it.of}::{it.call}" if it.of else it.call, it.name or "ensures"))
    return faults, needed, counts


def main():
    if sys.argv[1:] not in ([], ["--check"]):
        sys.exit("usage: tests/guards.py [--check]")
    faults, needed, counts = listed()
    for crate, call, name in faults:
        print(f"{crate}: nothing holds `{name}` of `{call}`: no guard, no caller that cites it, no trait, no reason")
    for reason in sorted(set(REASONS) - needed):
        print(f"tests/guards.py: no clause needs the reason of {' '.join(reason)}")
    if not sys.argv[1:]:
        for crate, count in counts.items():
            print(f"{crate}: {count} clauses, {sum(it[0] == crate for it in faults)} of them held by nothing")
    return 1 if faults or set(REASONS) - needed else 0


if __name__ == "__main__":
    sys.exit(main())
