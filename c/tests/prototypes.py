"""Compares the prototypes of slotmap.h with the exports of crates/slotmap_c and of rust/c, and with those that compare/c_words.rs declares.

In rust/c a handle that is const in the header has to be a shared reference. Elsewhere const is left out of account."""

import glob
import os
import re
import sys

TOP = os.path.dirname(os.path.dirname(os.path.dirname(os.path.abspath(__file__))))
C = {"uint64_t": "u64", "uint32_t": "u32", "size_t": "usize", "bool": "bool", "slotmap_status": "u32", "void": "()"}
C |= {f"const slotmap{kind}_t *": "&Handle" for kind in ("", "_side", "_keys")}
C |= {"uint64_t *": "&mut u64", "slotmap_t *": "&mut Handle", "slotmap_side_t *": "&mut Handle", "slotmap_keys_t *": "&mut Handle"}


def text(path):
    with open(os.path.join(TOP, path)) as file:
        return file.read()


def declared():
    header = re.sub(r"/\*.*?\*/", "", text("c/slotmap.h"), flags=re.S)
    for result, name, parameters in re.findall(r"^(\w+) (slotmap_\w+)\(([^)]*)\);", header, re.M):
        types = [re.sub(r"\w+$", "", it.strip()).strip() for it in parameters.split(",") if it != "void"]
        yield name, [C[it] for it in types] + [C[result]]


def functions(source, start):
    """Each function with its types: a slice is a pointer and a number, and the allocator is no parameter for C."""
    flat = {"Global": [], "&mut [u64]": ["&mut u64", "usize"], "*mut u64": ["&mut u64"], "&mut SideHandle": ["&mut Handle"], "&mut KeysHandle": ["&mut Handle"]}
    source = re.sub(r"Handle<\w+>", "Handle", source)
    for name, parameters, result in re.findall(start + r"fn (slotmap_\w+)\(([^)]*)\)(?:\s*-> (\w+))?", source):
        types = [it.split(":")[1].strip() for it in parameters.split(",") if ":" in it]
        yield name, [it for one in types for it in flat.get(one, [one])] + [result or "()"]


def all_of(pattern):
    return "".join(map(text, sorted(glob.glob(os.path.join(TOP, pattern), recursive=True))))


def main():
    source, constant = dict(functions(all_of("rust/c/src/*.rs"), 'pub (?:unsafe )?extern "C" ')), dict(declared())
    header = {name: [it.replace("&Handle", "&mut Handle") for it in types] for name, types in constant.items()}
    exported = dict(functions(all_of("crates/slotmap_c/src/**/*.rt"), 'pub extern "C" '))
    imported = dict(functions(text("compare/c_words.rs"), "pub "))
    wrong = 0
    for name in sorted(header.keys() | exported.keys() | imported.keys()):
        if header.get(name) != exported.get(name) or imported.get(name, header.get(name)) != header.get(name):
            print(f"{name}: in the header {header.get(name)}, exported {exported.get(name)}, in c_words.rs {imported.get(name)}")
            wrong += 1
    for name in sorted(constant.keys() | source.keys()):
        types, ours = constant.get(name, []), source.get(name, [])
        if len(types) != len(ours) or any(one not in (it, it.replace("&mut Handle", "&Handle")) for it, one in zip(types, ours)):
            print(f"{name}: in the header {types}, in rust/c {ours}")
            wrong += 1
    print(f"prototypes: {len(header)} in the header, {len(exported)} exports, {len(source)} in rust/c, {len(imported)} in c_words.rs, {wrong} differ")
    return wrong > 0


sys.exit(main())
