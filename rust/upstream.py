#!/usr/bin/env python3
"""upstream.py UPSTREAM CRATE OUT: lays out what upstream.sh runs.

UPSTREAM has slotmap's files as text, CRATE is a folder of its sources with documentation, OUT the folder that is written. Written are
slotmap's tests, its examples and the examples of its documentation, over this crate. Also one function for each public call of slotmap,
with the call's own signature and bounds, which calls ours, and one for each trait of a public type: they compile if ours is no stricter.
"""
import glob
import re
import sys

UPSTREAM, CRATE, OUT = sys.argv[1:]
MODULES = ("basic", "dense", "hop", "secondary", "sparse_secondary")
# What has another signature here, each a row of README.md: calls, and traits of types.
OTHERS = {
    "sparse_secondary SparseSecondaryMap::entry": "the hasher is named",
    "dense IntoIter: Debug": "the type asks for a key",
    "dense IntoIter: Clone": "the type asks for a key",
}


def read(name):
    with open(name, encoding="utf-8") as file:
        return file.read()


def write(name, text):
    with open(f"{OUT}/{name}", "w", encoding="utf-8") as file:
        file.write(text)


def over(code):
    """Code over slotmap, as code over this crate."""
    code = re.sub(r"\bslotmap\b(?=::|;)", "slotmap_proved", code).replace("#[macro_use] extern crate", "extern crate")
    return code.replace("version.get()", "version()")


def program(name, code):
    """An example over this crate, and the same one over slotmap."""
    write(f"examples/ours_{name}.rs", over(code))
    write(f"examples/theirs_{name}.rs", code)


def tests():
    """The tests, one module for each file of slotmap's, and the example that stands among them."""
    parts = re.split(r"(?m)^// ===== (\S+).*=====\n", read(f"{UPSTREAM}/src--tests--tests--part1.rs.txt"))[1:]
    count, modules = 0, []
    for path, code in zip(parts[::2], parts[1::2]):
        name = path.split("/")[-1][:-3]
        if path.startswith("examples/"):
            program(name, code)
            continue
        count += len(re.findall(r"#\[test\]|fn qc_\w+\(", code))
        code = over(code).replace("fxhash::FxBuildHasher", "std::hash::BuildHasherDefault<std::collections::hash_map::DefaultHasher>")
        util = "pub mod util { pub use slotmap_proved::is_older_version; }\n"
        modules.append(f"pub mod {name}_rs {{\npub use slotmap_proved::*;\n{util}{code.replace('use crate::*', 'use super::*')}}}\n")
    return count, "".join(modules)


def documentation():
    """The examples of the documentation, each as that of a struct."""
    out, count = [], 0
    for name in sorted(glob.glob(f"{CRATE}/src/*.rs")):
        block = None
        for line in read(name).split("\n"):
            said = re.match(r"\s*//[/!] ?(.*)", line)
            if not said: continue
            if not said[1].startswith("```"):
                if block is not None: block.append(f"/// {over(said[1])}")
            elif block is None:
                block = [f"/// {said[1]}"]
            else:
                if not re.search("toml|text", block[0]):
                    count += 1
                    out += [*block, "/// ```", f"pub struct Example{count};"]
                block = None
    return count, "\n".join(out) + "\n"


def bare(path):
    """The code of a module of slotmap, without comments, attributes of items, and its serde part."""
    code = re.sub(r"//[^\n]*", "", read(path)).split("#[cfg(feature = \"serde\")]\nmod serialize")[0]
    return re.sub(r"\bhash_map::|\bhash::|\bcore::(\w+::)*|\bfmt::", "", code)


def matching(text, at):
    """The place behind the brace that closes the one at `at`."""
    depth = 0
    for place in range(at, len(text)):
        depth += {"{": 1, "}": -1}.get(text[place], 0)
        if depth == 0: return place + 1
    raise ValueError("a brace is not closed")


def split_header(header):
    """The parameters, the rest and the bounds of a header such as `impl<K: Key, V> Clone for Map<K, V> where V: Clone`."""
    depth, at = 0, header.index("<")
    for place in range(at, len(header)):
        depth += {"<": 1, ">": -1}.get(header[place], 0) if header[place - 1] != "-" else 0
        if depth == 0: break
    rest, _, bounds = header[place + 1:].partition(" where ")
    return header[at + 1:place], rest.strip(), bounds.strip().rstrip(",")


def impls(code, public):
    """The impls of public types: parameters, trait, type, bounds, body."""
    for found in re.finditer(r"(?m)^impl\b[^{]*\{", code):
        params, rest, bounds = split_header(" ".join(found[0][:-1].split()))
        trait, _, kind = rest.rpartition(" for ")
        if re.match(r"&?('a )?(mut )?(\w+)", kind)[3] in public:
            yield params, trait, kind, bounds, code[found.end():matching(code, found.end() - 1) - 1]


CALL = re.compile(r"pub (const |unsafe )?fn (\w+)(?:<((?:[^(){]|\(\))*?)>)?\s*\(([^)]*(?:\([^)]*\)[^)]*)*)\)(?:\s*->\s*([^{]*?))?(?:\s*where([^{]*))?\s*\{")


def lives_first(params):
    """Parameters as Rust wants them: lives come first."""
    return sorted(params, key=lambda it: not it.startswith("'"))


def with_life(kind):
    """A type with the life that it has by elision."""
    return re.sub(r"'_", "'s", re.sub(r"&(?!')", "&'s ", kind))


def calls(params, kind, bounds, body):
    """A function for each public call of an impl."""
    found = CALL.findall(body)
    if len(found) != len(re.findall(r"pub (?:const |unsafe )?fn", body)): raise ValueError(f"a call of {kind} isn't read")
    for word, name, more, given, result, wants in found:
        own = kind.split("<")[0]
        given = [" ".join(it.split()) for it in re.split(r",(?![^<\[]*[>\]])", given) if it.strip()]
        receiver = {"&self": f"&'s {kind}", "&mut self": f"&'s mut {kind}", "self": kind}.get(given[0] if given else "")
        names = [re.sub(r"^mut ", "", it.split(":")[0]) for it in (given[1:] if receiver else given)]
        types = [it.split(":", 1)[1].strip() for it in (given[1:] if receiver else given)]
        args = ([f"this: {receiver}"] if receiver else []) + [f"{a}: {t}" for a, t in zip(names, types)]
        path = f"<{kind}>::{name}({', '.join((['this'] if receiver else []) + names)})"
        result = with_life(re.sub(r"\bSelf\b", kind, " ".join(result.split()))) if result else "()"
        generic = ", ".join(filter(None, ["'s", *lives_first(params.split(", ")), more]))
        where = ", ".join(filter(None, [bounds, " ".join(wants.split()).rstrip(","), f"{kind}: 's"]))
        yield f"{own}::{name}", f"<{generic}>({', '.join(args)}) -> {result} where {where} {{ {'unsafe { ' + path + ' }' if word == 'unsafe ' else path} }}"


def asking(trait, params, kind, bounds):
    """A function that asks for a trait of a type."""
    lives = [f"{it.split(':')[0].strip()}: 'a" for it in params if "'a" in params and not it.startswith("'")]
    wants = ", ".join(filter(None, [bounds, *lives]))
    where = f" where {wants}" if wants else ""
    given = ", ".join(lives_first(params))
    own = [it.split(":")[0].strip() for it in params if not it.startswith("'")]
    inner = f"fn has<{given}, T: {trait}>(){where} {{}} has::<{', '.join([*own, kind])}>()"
    return f"<{given}>(){where} {{ {inner} }}"


def traits(params, trait, kind, bounds, body):
    """A function for a trait that a public type has, with the types that the impl names."""
    kinds = [f"{name} = {said}" for name, said in re.findall(r"type (\w+) = ([^;]*);", body)]
    if kinds: trait = trait[:-1] + ", " + ", ".join(kinds) + ">" if trait.endswith(">") else f"{trait}<{', '.join(kinds)}>"
    yield f"{kind.split('<')[0]}: {trait}", asking(trait, params.split(", "), kind, bounds)


def derived(code):
    """A function for each trait that a public type derives; its parameters have the trait too."""
    for names, kind, params in re.findall(r"#\[derive\(([^)]*)\)\]\n\s*pub (?:struct|enum) (\w+)<(.*)> (?:\{|where)", code):
        given = re.sub(r" = [\w:]+", "", params)
        own = [it.split(":")[0].strip() for it in given.split(", ")]
        for trait in (it.strip() for it in names.split(",")):
            bounds = ", ".join(f"{it}: {trait}" for it in own if not it.startswith("'"))
            yield f"{kind}: {trait}", asking(trait, given.split(", "), f"{kind}<{', '.join(own)}>", bounds)


USES = """use slotmap_proved::{DefaultKey, Key, KeyData, MODULE::*};
use std::{collections::{hash_map::RandomState, TryReserveError}, fmt::Debug, hash::BuildHasher, iter::*, ops::*};
"""


def signatures():
    """A module for each of slotmap's, with a function for each public call and each trait."""
    count, left, out = 0, [], []
    for module in MODULES:
        code = bare(f"{UPSTREAM}/src--src--{module}.rs.txt")
        public = set(re.findall(r"(?m)^pub (?:struct|enum) (\w+)", code))
        found = list(derived(code))
        for params, trait, kind, bounds, body in impls(code, public):
            if trait == "Drop": continue
            found += traits(params, trait, kind, bounds, body) if trait else calls(params, kind, bounds, body)
        named = [(f"{module} {name}", text) for name, text in found]
        left += [name for name, _ in named if name in OTHERS]
        lines = [f"fn f{number}{text} // {name}" for number, (name, text) in enumerate(named) if name not in OTHERS]
        count += len(lines)
        out.append(f"mod {module}_signatures {{\n{USES.replace('MODULE', module)}" + "\n".join(lines) + "\n}\n")
    if sorted(left) != sorted(OTHERS): raise SystemExit(f"not in slotmap: {set(OTHERS) - set(left)}")
    return count, "".join(out)


def main():
    test_count, modules = tests()
    program("rand_meld_heap", read(f"{CRATE}/examples/rand_meld_heap.rs"))
    block = re.search(r"```rust\n(.*?)```", read(f"{UPSTREAM}/src--README.md"), re.S)[1]
    program("readme", re.sub(r"(?s)^(use [^;]*;)(.*)", r"\1\nfn main() {\2}\n", block))
    example_count, documents = documentation()
    signature_count, functions = signatures()
    write("src/lib.rs", f"#![allow(warnings)]\n#[macro_use] extern crate slotmap_proved;\n{modules}{functions}{documents}")
    programs = len(glob.glob(f"{OUT}/examples/ours_*.rs"))
    print(f"{test_count} tests, {signature_count} calls and traits, {example_count} examples of documentation, {programs} programs", flush=True)


main()
