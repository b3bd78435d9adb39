#!/usr/bin/env python3
"""structures.py BENCH FOLDER: writes the sources of a program that measures the structures beside plain Rust into FOLDER.

BENCH is compare/bench. Its driver has the plain Rust (and petgraph's graph), its templates have the same work over the structures; they are
in Rattle, without contracts: with other `use` lines they are Rust over this crate.
"""
import os, re, shutil, sys

# The structures, with the driver's file and the template of each, and its operations.
STRUCTURES = {"list": ("list", "list", "LIST"), "lists": ("lists", "lists", "LISTS"), "graph": ("graph", "graph", "GRAPH"),
    "petgraph": ("stable", "graph", "GRAPH"), "paths": ("paths", "paths", "PATHS"), "scene": ("scene", "scene", "SCENE"),
    "scheduler": ("scheduler", "scheduler", "SCHEDULER"), "world": ("world", "world", "WORLD")}
USES = [(r"use slotmap::DefaultKey;", "use slotmap_proved::DefaultKey;"),
    (r"use slotmap::\{DefaultKey, SecondaryMap\};", "use slotmap_proved::{fallible::SecondaryMap, DefaultKey};"),
    (r"use slotmap_(entities|graph|list|lists|paths|scene|scheduler)::", r"use slotmap_proved::\1::"),
    (r"use std::alloc::Global;", "#[allow(unused_imports)]\nuse slotmap_proved::fallible::{TryClone as _, Vec};\nuse slotmap_proved::Global;"),
    (r"use crate::numbers::Shuffler;", "use crate::shuffler::Shuffler;")]


def ours(text):
    for pattern, to in USES:
        text = re.sub(pattern, to, text)
    for line in text.splitlines():
        if line.startswith("use ") and not re.match(r"use (slotmap_proved|crate|std)::", line):
            sys.exit(f"structures.py: {line}")
    return text


def operations_of(bench):
    """The lists of operations, as the bench has them."""
    sys.path.insert(0, bench)
    import operations
    return {name: [it for it in getattr(operations, lists) if not re.search("-(first|room)$", it.name)]
        for name, (_, _, lists) in STRUCTURES.items()}, operations


def enums(operations):
    yield "//! The operations of each structure. Written by structures.py."
    for family in ("List", "Lists", "Graph", "Paths", "Scene", "Scheduler", "World"):
        variants = ", ".join(it.variant for it in operations.FAMILIES[family])
        yield f"#[allow(dead_code)]\n#[derive(Clone, Copy)]\npub enum {family} {{ {variants} }}"


def calls(found):
    """The arms of the program's match, and the units of each operation at 1,000 elements."""
    for name, (driver, template, lists) in STRUCTURES.items():
        for it in found[name]:
            operation = f"operations::{lists.capitalize()}::{it.variant}"
            yield f'("ours", "{name}", "{it.name}") => ours::{template}::workload(slotmap_proved::Global, {operation}, n, rounds),'
            result = f"{driver}::workload({operation}, n, rounds)"
            yield f'("theirs", "{name}", "{it.name}") => {result if name == "world" else f"Some({result})"},'


def main():
    bench, folder = sys.argv[1:]
    found, operations = operations_of(bench)
    os.makedirs(f"{folder}/ours")
    for driver in {it[0] for it in STRUCTURES.values()} | {"shuffler", "value"}:
        shutil.copy(f"{bench}/driver/{driver}.rs", folder)
    for template in {it[1] for it in STRUCTURES.values()}:
        with open(f"{bench}/port/{template}.template") as source, open(f"{folder}/ours/{template}.rs", "w") as file:
            file.write(ours(source.read()))
    with open(f"{folder}/operations.rs", "w") as file:
        file.write("\n\n".join(enums(operations)) + "\n")
    with open(f"{folder}/calls.rs", "w") as file:
        file.write("match (whose, name, operation) {\n" + "\n".join(calls(found)) + "\n_ => None,\n}\n")
    with open(f"{folder}/list.txt", "w") as file:
        for name, all_of in found.items():
            for it in all_of:
                file.write(f"{name}\t{it.name}\t{it.count(1000)}\t{it.title}\n")


if __name__ == "__main__":
    main()
