"""Builds the driver: the Rust crate and the port's proved library in one program, and petgraph if its sources are there."""

import glob
import os
import re
import shutil
import subprocess
import sys

import operations

HERE = os.path.dirname(os.path.abspath(__file__))
REPOSITORY = os.path.dirname(os.path.dirname(HERE))
LIBRARY = "bench_port"

# Rattle builds for x86-64-v2 unless it is told otherwise, so both sides do.
RUST_FLAGS = "-C opt-level=3 -C codegen-units=1 -C panic=abort -C target-cpu=x86-64-v2 --cap-lints allow"

# Where Debian's librust-petgraph-dev and the packages below it put their sources, and which of them are compiled: the name, the
# version, what is switched on, and the crates that it names.
REGISTRY = "/usr/share/cargo/registry"
PETGRAPH = [
    ("hashbrown", "0.12", 'feature="raw"', []),
    ("indexmap", "1", "has_std", ["hashbrown"]),
    ("fixedbitset", "0.4", 'feature="std"', []),
    ("petgraph", "0.6", 'feature="stable_graph"', ["indexmap", "fixedbitset"]),
]


def run(command, folder=None):
    """Runs a command that has to succeed, and shows what it printed if it doesn't."""
    done = subprocess.run(command, cwd=folder, stdout=subprocess.PIPE, stderr=subprocess.STDOUT, text=True)
    if done.returncode != 0:
        sys.exit(f"{done.stdout}\nbench.py: failed: {' '.join(command)}")
    return done.stdout


def write(path, text):
    os.makedirs(os.path.dirname(path), exist_ok=True)
    with open(path, "w", encoding="utf-8") as file:
        file.write(text)


def read(path):
    with open(path, encoding="utf-8") as file:
        return file.read()


def template(name):
    return read(os.path.join(HERE, "port", f"{name}.template"))


def chosen(text, lacks):
    """The text without the parts `//@ has CALL .. //@ lacks CALL .. //@ end` that a map with this list doesn't take."""
    kept, is_on = [], True
    for line in text.split("\n"):
        mark = re.fullmatch(r"//@ (has|lacks|end) ?([\w-]*)", line)
        if mark:
            word, call = mark.groups()
            is_on = word == "end" or (word == "lacks") == (call in lacks)
        elif is_on:
            kept.append(line)
    return "\n".join(kept)


def source_of_map(kind):
    text = chosen(template(kind.family.lower()), kind.lacks)
    # In a sparse map the entry may have to ask for memory.
    or_insert = ".ok()?" if kind.name == "sparse" else ""
    return text.replace("@TYPE@", kind.type).replace("@CRATE@", kind.crate).replace("@OR_INSERT@", or_insert)


def mirror(source, target):
    """Makes `target` a copy of the folder `source`, but for what rt keeps in `out`."""
    os.makedirs(target, exist_ok=True)
    names = {it.name: it for it in os.scandir(source) if it.name != "out"}
    for stale in set(os.listdir(target)) - set(names) - {"out"}:
        path = os.path.join(target, stale)
        shutil.rmtree(path) if os.path.isdir(path) else os.remove(path)
    for name, entry in names.items():
        path = os.path.join(target, name)
        if entry.is_dir():
            mirror(entry.path, path)
        elif not os.path.exists(path) or read(path) != read(entry.path):
            shutil.copyfile(entry.path, path)


def with_crates_below(names, lines):
    """These crates and all of the repository that they stand on. `lines` are those of crates.txt by the crate's name."""
    found, left = set(), list(names)
    while left:
        name = left.pop()
        if name in lines and name not in found:
            found.add(name)
            left += lines[name].split(":")[1].split()
    return sorted(found)


def parts_of(maps):
    """The parts of the library that some maps need: `maps` for all that aren't structures, and each structure."""
    measured = [operations.AGAIN.get(it, it) for it in maps]
    return {it if it in operations.STRUCTURES else "maps" for it in measured}


def kinds_of(parts):
    own = [it for it in operations.MAPS if it.name not in operations.AGAIN]
    return [it for it in own if (it.name if it.name in operations.STRUCTURES else "maps") in parts]


def sources_of(parts):
    """The files of the library, by their names."""
    lacks = {"maps", *operations.STRUCTURES} - parts
    found = {f"{it.name.replace('-', '_')}.rt": source_of_map(it) for it in kinds_of(parts)}
    found["lib.rt"] = chosen(template("lib"), lacks)
    found["operations.rt"] = operations.source_of_enums()
    found["numbers.rt"] = template("numbers")
    if "maps" in parts:
        found["values.rt"] = template("values")
    return found


def write_port(folder, crates, parts):
    """A repository in `folder`: copies of the maps' crates and those below them, and the library over them."""
    lines = {it.split(":")[0]: it for it in read(os.path.join(crates, "../crates.txt")).split("\n") if it}
    # The paths are those of a graph.
    below = {"slotmap_graph"} if "paths" in parts else set()
    used = sorted({"slotmap", "slotmap_core"} | below | {it.crate for it in kinds_of(parts)})
    copied = with_crates_below(used, lines)
    write(
        os.path.join(folder, "crates.txt"),
        "\n".join([*[lines[it] for it in copied], f"{LIBRARY} staticlib: {' '.join(used)}", ""]),
    )
    for name in copied:
        mirror(os.path.join(crates, name), os.path.join(folder, "crates", name))
    source = os.path.join(folder, "crates", LIBRARY, "src")
    files = sources_of(parts)
    for name, text in files.items():
        write(os.path.join(source, name), text)
    for stale in set(os.listdir(source)) - set(files):
        os.remove(os.path.join(source, stale))


def build_port(folder, crates, jobs, parts):
    """Proves and builds the library. Returns its path."""
    write_port(folder, crates, parts)
    if not os.path.isdir(os.path.join(folder, ".git")):
        run(["git", "init", "-q", folder])
    crate = os.path.join(folder, "crates", LIBRARY)
    said = run(["rt", "lib", "--jobs", str(jobs)], crate)
    if "logic=proved" not in said:
        sys.exit(f"{said}\nbench.py: the library isn't proved")
    return os.path.join(crate, "out", f"lib{LIBRARY}.a")


def compile_rust(folder, name, source, edition, flags, externs=(), kind="rlib"):
    """Compiles a crate. `externs` are those that it names, which are compiled already. Returns the path of what was made."""
    made = os.path.join(folder, name if kind == "bin" else f"lib{name}.rlib")
    named = ["--crate-name", name, "--crate-type", kind, "--edition", edition, "-L", folder]
    used = [word for it in externs for word in ("--extern", f"{it}={os.path.join(folder, f'lib{it}.rlib')}")]
    run(["rustc", *RUST_FLAGS.split(), *named, *flags, *used, source, "-o", made])
    return made


def edition_of(crate):
    found = re.search(r'^edition = "(\d+)"', read(os.path.join(crate, "Cargo.toml")), re.M)
    return found.group(1) if found else "2015"


def has_petgraph(out):
    """Whether the program that lies in `out` was built with petgraph."""
    return os.path.exists(os.path.join(out, "libpetgraph.rlib"))


def build_petgraph(folder, registry):
    """Compiles petgraph and what it names, if the sources are there."""
    for name, _, _, _ in PETGRAPH:
        made = os.path.join(folder, f"lib{name}.rlib")
        if os.path.exists(made):
            os.remove(made)
    found = [sorted(glob.glob(os.path.join(registry, f"{name}-{version}.*"))) for name, version, _, _ in PETGRAPH]
    if not all(found):
        print(f"bench.py: no petgraph 0.6 in {registry}, as Debian's librust-petgraph-dev has it: its rows are left out")
        return
    for (name, _, switch, externs), [*_, crate] in zip(PETGRAPH, found):
        compile_rust(folder, name, os.path.join(crate, "src/lib.rs"), edition_of(crate), ["--cfg", switch], externs)


def build_driver(folder, source, library, parts):
    """Compiles the Rust crate, if maps are measured, and the driver. Returns the program's path."""
    kit = os.path.dirname(run(["rt", "doc"]).strip())
    has = {"slotmap": "maps" in parts, "petgraph": has_petgraph(folder)}
    if has["slotmap"]:
        compile_rust(folder, "slotmap", os.path.join(source, "src/lib.rs"), "2021", ["--cfg", 'feature="std"'])
    shutil.copytree(os.path.join(HERE, "driver"), os.path.join(folder, "driver"), dirs_exist_ok=True)
    write(os.path.join(folder, "driver/operations.rs"), operations.source_of_enums())
    flags = [f"-Clink-arg={library}", f"-Clink-arg={kit}/c/liblibc_c.a"]
    flags += [word for it, name in (("slotmap", "maps"), ("petgraph", "petgraph")) if has[it] for word in ("--cfg", name)]
    externs = [it for it in has if has[it]]
    return compile_rust(folder, "bench", os.path.join(folder, "driver/main.rs"), "2021", flags, externs, "bin")


def build(out, source, crates, jobs, maps, registry):
    os.makedirs(out, exist_ok=True)
    parts = parts_of(maps)
    library = build_port(os.path.join(out, "port"), crates, jobs, parts)
    build_petgraph(out, registry)
    return build_driver(out, source, library, parts)
