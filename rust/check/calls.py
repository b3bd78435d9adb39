#!/usr/bin/env python3
"""Lists each public call of the crate, and which tests here call it.

    python3 rust/check/calls.py            prints each call with its tests, and what is missing
    python3 rust/check/calls.py --check    prints what is missing alone, and fails if something is

The calls are those that rustdoc writes as JSON: the methods of the maps, the structures and the entries, what they have of the
traits below, and the functions. The steps of iterators aren't listed; they are those of the calls that return them.

A test calls what its text names. In a test file each name of a variable stands for the types that FILES gives it, so `map.get(`
is a call of each of these types that has a `get`: a macro makes the test for each. `map.as_mut().get(` is one of the proved map
inside. Operators count as the call of their trait: `map[` as `index`, `==` as `eq`, `{:?}` as `fmt`. Nothing is run for it: what the
tests then assert, they say themselves. The kind `counted` is taken from the test `room` itself, which prints the names of its rows.
"""
import json
import os
import pathlib
import re
import subprocess
import sys

HERE = pathlib.Path(__file__).resolve().parent
TESTS = HERE / "tests"
PROGRAMS = HERE / "src" / "programs"

PRIMARY = ["SlotMap", "DenseSlotMap", "HopSlotMap"]
SIDE = ["SecondaryMap", "SparseSecondaryMap"]
PROVED_PRIMARY = [f"fallible::{name}" for name in PRIMARY]
PROVED_SIDE = [f"fallible::{name}" for name in SIDE]
PROVED = PROVED_PRIMARY + PROVED_SIDE
OF_ENTRIES = ["Entry", "OccupiedEntry", "VacantEntry"]
ENTRIES = [f"{module}::{name}" for module in ["secondary", "sparse_secondary"] for name in OF_ENTRIES]
PROVED_ENTRIES = [f"fallible::{name}" for name in ENTRIES]
STRUCTURES = ["list::StableList", "lists::StableLists", "graph::Graph", "scene::Scene", "entities::World", "scheduler::Scheduler"]
TYPES = PRIMARY + SIDE + PROVED + ENTRIES + PROVED_ENTRIES + STRUCTURES

# The traits whose calls are listed with a type's own.
TRAITS = {"Clone", "Debug", "Default", "Extend", "From", "FromIterator", "Index", "IndexMut", "IntoIterator", "PartialEq"}

MAPS = {"map": PRIMARY + SIDE, "copy": PRIMARY + SIDE, "other": PRIMARY + SIDE, "made": PRIMARY + SIDE, "Map": PRIMARY + SIDE,
        "old": PRIMARY + SIDE, "fallible": PROVED, "spare": PROVED, "Fallible": PROVED, "entry": ENTRIES + PROVED_ENTRIES}
OF_STRUCTURES = {"list": ["list::StableList"], "lists": ["lists::StableLists"], "graph": ["graph::Graph"], "scene": ["scene::Scene"],
                 "world": ["entities::World"], "OfThree": ["entities::World"], "scheduler": ["scheduler::Scheduler"]}


def all_of(types):
    """The names of a file about some kinds of map."""
    return {name: types for name in ["map", "copy", "made", "old", "other", "Map", "$map"]}


def of(module, **names):
    """The names of a file about one structure."""
    structure = next(name for name in STRUCTURES if name.split("::")[0] == module)
    return {name: [structure] for name in [names.get("as_name", module), "copy", "made", "old", "other", structure.split("::")[1]]}


# Which tests are in a file or a folder, and what its names stand for. The rows are calls whose results are those of the crate slotmap or
# were worked out by hand. The programs call the proved maps. The models of `at_size` are in Python.
FILES = [
    ("rows", PROGRAMS / "primary_rows", {"map": PROVED_PRIMARY, "self": PROVED_PRIMARY}),
    ("rows", PROGRAMS / "secondary_rows", {"map": PROVED_SIDE, "entry": PROVED_ENTRIES}),
    ("rows", PROGRAMS / "joined_rows", {}),
    ("rows", PROGRAMS / "slotmap_script", {}),
    ("models", "at_size", OF_STRUCTURES),
    ("models", "models/primary.rs", {**all_of(PRIMARY), "fallible": PROVED_PRIMARY}),
    ("models", "models/side.rs", {**all_of(SIDE), "fallible": PROVED_SIDE, "entry": ENTRIES}),
    ("models", "models/list.rs", of("list")),
    ("models", "models/lists.rs", of("lists")),
    ("models", "models/graph.rs", of("graph")),
    ("models", "models/paths.rs", of("graph")),
    ("models", "models/scene.rs", of("scene")),
    ("models", "models/world.rs", of("entities", as_name="world")),
    ("models", "models/scheduler.rs", of("scheduler")),
    ("models", "models/proved.rs", {**all_of(PROVED), "fallible": PROVED, "Sparse": PROVED_SIDE[1:], "entry": PROVED_ENTRIES}),
    ("refused", "memory/refused_maps.rs", MAPS),
    ("refused", "memory/refused_runs.rs", {}),
    ("refused", "memory/refused_structures.rs", {**OF_STRUCTURES, "parts": ["scene::Scene"]}),
    ("requires", "requires.rs", {"map": PRIMARY + SIDE, "$map": PROVED, "dense": PROVED_PRIMARY[1:2], "structure": STRUCTURES}),
    ("panics", "panics.rs", MAPS),
    ("panics", "panics_structures.rs", {**OF_STRUCTURES, "lists": ["list::StableList", "lists::StableLists"]}),
    ("others", "differences/zero_sized.rs", {**MAPS, **OF_STRUCTURES}),
    ("others", "differences/depth.rs", {**MAPS, **OF_STRUCTURES}),
    ("others", "differences/forgotten.rs", {**MAPS, **OF_STRUCTURES}),
]
KINDS = ["rows", "models", "refused", "counted", "requires", "panics", "others"]


def documented():
    """What rustdoc says of the crate."""
    command = ["cargo", "rustdoc", "--offline", "--quiet", "--lib", "--no-default-features", "--features", "structures,runs,json", "--",
               "-Z", "unstable-options", "--output-format", "json", "--cap-lints", "allow"]
    subprocess.run(command, cwd=HERE, check=True, env={**os.environ, "RUSTC_BOOTSTRAP": "1"})
    metadata = subprocess.run(["cargo", "metadata", "--offline", "--no-deps", "--format-version", "1"], cwd=HERE, check=True,
                              capture_output=True)
    folder = pathlib.Path(json.loads(metadata.stdout)["target_directory"])
    return json.loads((folder / "doc" / "slotmap_proved.json").read_text())


def rows():
    """The names of the calls whose requests for memory the test `room` counts, and what each may ask for."""
    command = ["cargo", "test", "--offline", "--quiet", "--test", "room", "names", "--", "--exact", "--nocapture"]
    printed = subprocess.run(command, cwd=HERE, check=True, capture_output=True, text=True).stdout
    return [line.split(" ", 2)[1:] for line in printed.splitlines() if line.startswith("row ")]


class Crate:
    """The public items by their paths."""

    def __init__(self, document):
        self.index = document["index"]
        self.found = {}
        self.visit(document["root"], [])

    def item(self, number):
        item = self.index.get(str(number))
        return (None, None, None) if item is None else (item["name"], *next(iter(item["inner"].items())))

    def visit(self, number, path):
        name, kind, inner = self.item(number)
        if kind == "module":
            for child in inner["items"]:
                self.visit(child, path + [name] if len(path) or number != 0 and name != "slotmap_proved" else path)
        elif kind == "use":
            self.export(inner, path)
        elif kind is not None:
            self.found["::".join(path + [name])] = number

    def export(self, use, path):
        _, kind, inner = self.item(use["id"])
        if kind == "module":
            for child in inner["items"]:
                self.visit(child, path + [use["name"]])
        elif kind is not None:
            self.found["::".join(path + [use["name"]])] = use["id"]

    def calls(self, path, traits=TRAITS):
        """The names of the calls of a type, of its own and of some traits."""
        _, _, inner = self.item(self.found[path])
        names = set()
        for number in inner["impls"]:
            block = self.item(number)[2]
            trait = block["trait"]
            if block["is_synthetic"] or block["blanket_impl"] or trait and trait["path"].split("::")[-1] not in traits:
                continue
            members = [self.item(member) for member in block["items"]]
            names |= {name for name, kind, _ in members if kind == "function"}
        return names

    def functions(self):
        return [path for path, number in self.found.items() if self.item(number)[1] == "function"]


# Other forms of a call, with the name of the variable or the type in them.
OPERATORS = {
    "index": r"{name}\[",
    "index_mut": r"{name}\[[^\]]*\] (?:=|\+=) ",
    "eq": r"{name} [!=]= |[!=]= (?:self\.|\*)?{name}\b|assert_eq!\((?:self\.)?{name}, ",
    "fmt": r"\{{{name}:#?\?\}}|\{{:#?\?\}}[^\n]*(?:self\.|state\.|&)?{name}\b",
    "into_iter": r"for [^\n]* in &?(?:mut )?(?:self\.)?{name} ",
    "from": r"\b{name}\.into\(\)",
    "from_iter": r"collect::<{name}>",
}


def named(text, name, call):
    """Whether a text names a call on a variable or a type."""
    escaped = re.escape(name)
    forms = [rf"\b{escaped}\)?\.{call}\b", rf"\b{escaped}(?:::<[^;(]*?>|<[^;(]*?>)?::{call}\b"]
    if name.startswith("$"):
        forms = [rf"{escaped}(?:::<[^;(]*?>)?(?:\.|::){call}\b"]
    if call in OPERATORS:
        forms.append(OPERATORS[call].format(name=rf"\b{escaped}" if not name.startswith("$") else escaped))
    return any(re.search(form, text) for form in forms)


def tested(types, functions):
    """For each call the kinds of tests that call it."""
    found = {}
    for name, _ in rows():
        type_, _, call = name.rpartition("::")
        found.setdefault((type_, call) if type_ in types else ("", name), set()).add("counted")
    for kind, file, names in FILES:
        path = TESTS / file
        files = sorted(path.rglob("*.rs")) if path.is_dir() else [path]
        if not files or not files[0].exists():
            sys.exit(f"calls.py: {path} isn't there")
        # A call that is broken over lines, and one on the proved map inside.
        text = re.sub(r"\s*\n\s*\.", ".", "\n".join(file.read_text() for file in files))
        text = re.sub(r"\b\w+\.as_(?:mut|ref)\(\)\.", "fallible.", text)
        for type_, calls in types.items():
            short = [name for name, meant in names.items() if type_ in meant]
            # `Scene::<..>::new` and, through a macro, `$map::new`; the proved maps by their module alone.
            short += ["fallible::" + type_.split("::")[-1], "fallible::$map"] if type_.startswith("fallible::") else [type_.split("::")[-1]]
            for call in calls:
                if any(named(text, name, call) for name in short):
                    found.setdefault((type_, call), set()).add(kind)
        for function in functions:
            if re.search(rf"\b{function.split('::')[-1]}(?:::<[^;]*?>)?\(", text):
                found.setdefault(("", function), set()).add(kind)
    return found


# A call that tests its caller, by its name.
ASKING = {"index", "index_mut", "get_unchecked", "get_unchecked_mut", "get_disjoint_unchecked_mut"}
# What isn't held to memory: `fmt` prints into what the caller has; serde_json allocates without asking.
NO_MEMORY = {"fmt", "key_from_value", "key_to_value", "slot_from_value", "slots_from_value", "slots_to_value"}


def missing(call, kinds):
    """What a call has no test of."""
    name = call[1].split("::")[-1]
    if not kinds:
        yield "no test"
        return
    if not kinds & {"rows", "models"}:
        yield "no rows, no model"
    if not kinds & {"refused", "counted"} and name not in NO_MEMORY:
        yield "neither refused nor counted memory"
    if name in ASKING and "requires" not in kinds:
        yield "no test of what it requires"


def main():
    crate = Crate(documented())
    types = {path: crate.calls(path) for path in TYPES}
    functions = crate.functions()
    found = tested(types, functions)
    every = [(path, call) for path in TYPES for call in sorted(types[path])] + [("", function) for function in sorted(functions)]
    if "--check" not in sys.argv:
        for path, call in every:
            kinds = found.get((path, call), set())
            print(f"{(path + '::' if path else '') + call:62}", " ".join(kind for kind in KINDS if kind in kinds))
        print()
    gaps = [(call, gap) for call in every for gap in missing(call, found.get(call, set()))]
    for (path, call), gap in gaps:
        print(f"{(path + '::' if path else '') + call}: {gap}")
    print(f"{len(every)} calls, {len(gaps)} gaps")
    sys.exit(bool(gaps))


if __name__ == "__main__":
    main()
