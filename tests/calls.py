#!/usr/bin/env python3
"""Says for each public call of the maps, of the structures and for C where it is tested.

    tests/calls.py            a line for each call: its name, a tab, and the kinds of tests with their files; last those that no test runs
    tests/calls.py WORD..     the same of the calls whose lines have one of these words
    tests/calls.py --check    only the calls that no test runs, and words of row programs that no row has; status 1 if there are any

A call is a public function, a method of a public type or trait, or a method of a trait in TRAITS for a public type. These kinds of tests run: `rows` (the row
programs), `callers` (the programs of callers of a structure), `tests` (those of the Rust crate, outside the gate), `programs` (slotdemo and slotrun), `C` (c/tests), and `docs`
(the examples of the doc comments and the programs of the pages, outside the gate). The kind `proved` (the guards and the examples of callers) is proved and never run.

The script reads texts, and call_finder.py follows types only as far as a function shows them. So it doesn't see
- which type stands for a parameter of an `impl` or a struct: a call by Primary, Detaching or Secondary counts for each map with that trait, and a
  method that a trait of the structures has for its types is one call, whichever type it is of;
- calls inside of the library: what `World` does with its tables, or `Graph` with its maps;
- calls on what a closure is given, on parts of tuples and on elements of vectors; and `==`, `{:?}`, `<` and `?`;
- whether a function is reached, which rows reach an arm, and whether the result is compared with anything.
What is tested in a way that it doesn't see stands in BY_HAND, with the reason.
"""

import glob
import os
import re
import sys
from collections import Counter, defaultdict

sys.dont_write_bytecode = True

TOP = os.path.dirname(os.path.dirname(os.path.abspath(__file__)))
sys.path.insert(0, os.path.join(TOP, "docs"))

import doc_examples
import words
from call_finder import Found
from call_types import read
from sources import MAPS, facade, files_of, items_of

KINDS = {
    "rows": ["primary_rows", "secondary_rows", "joined_rows", "slotmap_rows"],
    "callers": ["list_callers", "lists_callers", "graph_callers", "paths_callers", "scene_callers", "scheduler_callers", "entities_callers"],
    "programs": ["slotdemo", "slotmap_script", "slotrun"],
    "proved": ["slotmap_examples", "map_guards", *(f"{it}_callers" for it in ("list", "lists", "graph", "paths", "scene", "scheduler", "entities"))],
}
# The tests of the Rust crate: they run the erased bodies.
RUST_TESTS = ["rust/check/tests/**/*.rs", "rust/src/parts_of_structures.rs"]
# The traits whose methods count for each type that implements them, and these methods.
TRAITS = {
    "Clone": ["clone"],
    "IntoIterator": ["into_iter"],
    "Index": ["index"],
    "IndexMut": ["index_mut"],
    "Iterator": ["next", "size_hint"],
    "DoubleEndedIterator": ["next_back"],
    "ExactSizeIterator": ["len"],
    "FromIterator": ["from_iter"],
    "Extend": ["extend"],
    "Default": ["default"],
    "Key": ["null", "is_null"],
}
# The traits by which the row programs call each map that has them.
EACH_MAP = ("Primary", "Detaching", "Secondary")
BY_WORLD = "tests: rust/check/tests/at_size/world.rs (World's calls make it on the tables of both kinds)"
BY_GRAPH = "tests: rust/check/tests/at_size/graph.rs (Graph's calls of the same purpose make it)"
BY_HAND = {
    **{f"Table::{it}": BY_WORLD for it in ("reserve", "get_mut", "remove", "retain")},
    **{f"{it}": BY_WORLD for it in ("Tables::new", "Tables::remove", "Tables::clear", "Kind::table_mut", "CloneTables::clone_tables")},
    **{f"BoundedMap::{it}": BY_GRAPH for it in ("live_key", "note_live", "value", "next_after")},
    "Edge::clone": BY_GRAPH,
    "inner": "tests: rust/check/tests/at_size/scene.rs (Scene's calls make it for each key)",
    "outer": "tests: rust/check/tests/at_size/scene.rs (Scene's calls make it for each key)",
    "DenseSlotMap::can_replace": "rows: crates/primary_rows/src/dense.rt (`replace_disjoint` begins with it)",
    "KeyData::exact": "rows: crates/primary_rows/src/basic.rt (the maps make each key by it)",
}


class Library:
    """The public types and functions of the maps and of the structures, as pairs of crate and name."""

    def __init__(self):
        crates = {crate for _, crate, _ in facade()} | set(doc_examples.STRUCTURES)
        self.items = {crate: items_of(crate) for crate in sorted(crates)}
        # The crates that define a public name, and what each path names.
        self.homes, self.paths = defaultdict(list), {}
        for crate, items in self.items.items():
            for item in items:
                if item.kind != "impl" and item.public:
                    self.homes[item.name].append(crate)
        for module, crate, name in facade():
            self.paths["::".join(it for it in ("slotmap", module, name) if it)] = crate, name
        for crate in doc_examples.STRUCTURES:
            aliases = [f"{crate}::{it.name}" for it in self.items[crate] if it.kind == "type" and it.public]
            for path in [*doc_examples.names_of_structure(crate), *aliases]:
                self.paths[path] = self.home_of(crate, path.split("::")[-1])
        # For each of them its calls, with the item of each. A function's own call has no name. Calls of an impl for a reference are marked so.
        self.calls, self.traits = defaultdict(dict), defaultdict(set)
        for crate, name in dict.fromkeys(self.paths.values()):
            self.add_calls(crate, name)

    def home_of(self, crate, name):
        homes = self.homes[name]
        return (crate if crate in homes or not homes else homes[0]), name

    def add_calls(self, crate, name):
        mine, below = self.calls[crate, name], defaultdict(dict)
        for item in self.items[crate]:
            trait = re.sub(r"<.*", "", item.of_trait)
            methods = {it.name: it for it in item.members if it.kind == "fn"}
            if item.kind == "fn" and item.name == name:
                mine[""] = item
            elif item.kind == "trait" and item.name == name:
                mine.update(methods)
            elif item.kind == "impl" and item.of == name and not trait:
                mine.update({it.name: it for it in methods.values() if it.public})
            elif item.kind == "impl" and item.of == name:
                self.traits[crate, name].add(trait)
                mark = re.search(r" for (&)(?:'\w+ )?(mut )?", item.header())
                mark = "".join(it or "" for it in mark.groups()) if mark else ""
                below.update({mark + it: methods.get(it) for it in TRAITS.get(trait, [])})
        for call, item in below.items():
            mine.setdefault(call, item)

    def titles(self):
        """What each call is called here, by its type and its name."""
        often = Counter(name for _, name in self.calls)
        found = {}
        for (crate, name), calls in sorted(self.calls.items(), key=lambda it: (it[0][0], it[0][1])):
            shown = name if often[name] == 1 else f"{crate.removeprefix('slotmap_')}::{name}"
            for call in calls:
                mark = re.match(r"(&(?:mut )?)?", call).group()
                found[(crate, name), call] = mark + shown + ("::" + call[len(mark) :] if call else "")
        return found


def found_in_c():
    """The exports for C, with the files of c/tests that name them."""
    files = {os.path.relpath(it, TOP): read(it) for it in sorted(glob.glob(os.path.join(TOP, "c/tests/*")))}
    return {it.name: [path for path, text in files.items() if re.search(rf"\b{it.name}\b", text)] for it in words.public_items("slotmap_c")}


def words_without_row():
    """The words by which the row programs choose a call, and that no row has."""
    for crate in KINDS["rows"][:3]:
        rows = "".join(read(it) for it in glob.glob(os.path.join(TOP, f"crates/{crate}/data/*.rows")))
        for path in files_of(crate):
            for arm in re.findall(r"(?m)^ *(.*) =>", read(os.path.join(TOP, path))):
                for word in re.findall(r'"([a-z_]+)"', arm):
                    if not re.search(rf"\b{word}\b", rows):
                        yield f"{path}: no row has the word {word}"


def found_in_crates(library):
    """For each call the kinds of tests with their files."""
    found = Found(library, EACH_MAP, MAPS)
    for kind, crates in KINDS.items():
        # The row programs share a library of generic functions.
        for group in [crates] if kind == "rows" else [[it] for it in crates]:
            found.read_crates(kind, [path for crate in group for path in files_of(crate)])
    found.read_crates("tests", [os.path.relpath(it, TOP) for part in RUST_TESTS for it in sorted(glob.glob(os.path.join(TOP, part), recursive=True))])
    for example in [*doc_examples.all_examples()[0], *doc_examples.rows_of_table(), *doc_examples.programs()]:
        found.read_example(example)
    return found.calls


def lines():
    """A line for each call, and whether a test runs it."""
    library = Library()
    found, titles = found_in_crates(library), library.titles()
    for (head, call), title in titles.items():
        kinds = found[head, call]
        parts = [f"{kind}: {', '.join(sorted(kinds[kind]))}" for kind in ["rows", "callers", "tests", "programs", "proved", "docs"] if kind in kinds]
        parts += [BY_HAND[title] + " (by hand)"] if title in BY_HAND else []
        yield f"{title}\t{'; '.join(parts)}", title in BY_HAND or bool(set(kinds) - {"proved"})
    for name, files in found_in_c().items():
        yield f"{name}\t{'C: ' + ', '.join(files) if files else ''}", bool(files)
    for title in sorted(set(BY_HAND) - set(titles.values())):
        yield f"{title}\tis in BY_HAND, and no call", False


def main():
    check, wanted = sys.argv[1:] == ["--check"], [it for it in sys.argv[1:] if it != "--check"]
    shown = [(line, runs) for line, runs in lines() if not wanted or any(it in line for it in wanted)]
    faults = [line for line, runs in shown if not runs] + list(words_without_row())
    if not check:
        print("\n".join(line for line, runs in shown if runs))
        print(f"\n{len(shown)} calls, of which no test runs these:")
    print("\n".join(faults) or "none")
    return 1 if check and faults else 0


if __name__ == "__main__":
    sys.exit(main())
