#!/usr/bin/env python3
"""The proved sources as Rust: crates/*/src/*.rt with their contracts taken out.

    python3 rust/erase.py              writes rust/src/proved and rust/check/src/programs
    python3 rust/erase.py --check      writes nothing, and fails if a file there differs, is missing or shouldn't be there
    python3 rust/erase.py --requires   prints each public call that asks something of its caller, and what becomes of that

A source is read token by token. Its clauses and ghost items go, and nothing else of a body changes, but for what
project.py lists and what src/rt stands for. A form that the eraser doesn't know is an error with file and line.

Some forms compile in Rust with another meaning. What guards against each:

- A `requires` is proved of no Rust caller: requires.py has a test for each, or a reason why none is needed.
- A type's invariant as ghost fields beside public fields could be broken by anyone: refused (items.py).
- The bound `Drop` means "may be dropped" in Rattle: it goes (drops.py). Anything else named `Drop` is refused.
- A drop by hand takes its value in Rattle: it is lent here, and then Rust drops the fields in their order. A value that
  has such a drop and is taken apart elsewhere would not be dropped in Rattle: refused (drops.py).
- `clone`, `push`, `collect` and others return a `Result` in Rattle: src/rt has them so. A closure that returns a clone,
  of which only the count may be looked at, is refused; so are `collect()` and `to_string()` with no allocator.
- `prove!` and `debug_assert!`: no macro is known but those in closed.py. `unreachable!` is proved never to run, and would
  panic here.
- The size of a type, and its name: refused (closed.py). So are floats, open ranges that are walked, and fields from
  another value, whose meanings differ in some cases.
- Overflow and lossy `as` are proved not to happen, where `usize` has 64 bits: the package's tests run with checks, and
  for 32 bits nothing is proved.
- Rattle drops temporaries as edition 2024 does, and the package is of edition 2021, for older compilers. rustc's lints
  `if_let_rescope` and `tail_expr_drop_order` find the places: at each the value has been moved out, so nothing is dropped.
- Which impl a method call finds can differ where a bound holds in Rattle alone. Nothing guards that; the erased row
  programs print what the proved ones print.
- A drop or a closure that panics unwinds in Rust and ends the process in Rattle: the package's tests have each call
  panic at each place.
"""
import multiprocessing
import os
import re
import sys

from eraser import contracts, drops, errors, paths, requires, sealed
from eraser.attributes import take_attributes
from eraser.clauses import macro
from eraser.documents import documented
from eraser.prose import in_rust
from eraser.examples import examples
from eraser.project import IN_SHIM, LENT, LIBRARIES, LIBRARY_TREE, PATCHES, PROGRAM_TREE, PROGRAMS, TOP
from eraser.project import files_of, refuse_unknown_crates, tell_place
from eraser.tokens import Bad, Edits
from eraser.word_page import page

PRELUDE = "#[allow(unused_imports)]\nuse crate::rt::prelude::*;"


def main():
    """Runs what the command asks for."""
    wanted = sys.argv[1:]
    if wanted not in ([], ["--check"], ["--requires"]):
        raise SystemExit(__doc__)
    refuse_unknown_crates()
    if wanted == ["--requires"]:
        print_requires()
    else:
        write_or_compare(generated(), is_check=wanted == ["--check"])


def generated():
    """All files that are generated, with their texts. The crates are erased beside each other."""
    found, parts = {}, [*PROGRAMS, *LIBRARIES]
    with multiprocessing.Pool() as pool:
        words = pool.apply_async(texts_of_words)
        for texts, error in pool.imap(texts_or_error, parts):
            if error:
                raise SystemExit(error)
            found.update(texts)
        found.update(words.get())
    found[f"{LIBRARY_TREE}/mod.rs"] = modules_of_libraries()
    for name in by_hand():
        tell_place(name, lambda: requires.refuse_export(content(name)))
    return found


def by_hand():
    """The package's files that are written by hand."""
    found = (os.path.join(folder, name) for folder, _, names in os.walk(os.path.join(TOP, "rust/src")) for name in names)
    names = (os.path.relpath(path, TOP) for path in found if path.endswith(".rs"))
    return [name for name in names if not name.startswith(LIBRARY_TREE + "/")]


def texts_or_error(crate):
    """The generated files of a crate, and what went wrong, if anything did."""
    try:
        return texts_of(crate), None
    except SystemExit as why:
        return {}, str(why)


def texts_of(crate):
    """The generated files of a crate."""
    files = files_of(crate)
    types = requires.Types(files)
    return {file.target: tell_place(file.name, lambda: head_of(file) + erased(file, types)) for file in files}


def texts_of_words():
    """The files that are written of clauses and of their words."""
    return {"rust/src/clauses.rs": macro(), "rust/src/words.md": page()}


def head_of(file):
    """The first line of a generated file."""
    return f"// Generated by rust/erase.py from {file.name}, SHA-256 {file.sum}: edit that.\n"


def modules_of_libraries():
    """The file that declares the libraries' modules."""
    lines = ["// Generated by rust/erase.py: the proved libraries, each a module.\n"]
    for crate, feature in LIBRARIES.items():
        lines += [f'#[cfg(feature = "{feature}")]\n'] if feature else []
        lines.append(f"pub mod {crate};\n")
    return "".join(lines)


def where_crates_are(crate):
    """The module of each crate that a file may name."""
    found = {name: f"crate::proved::{name}" if crate in LIBRARIES else f"slotmap_proved::proved::{name}" for name in LIBRARIES}
    found.update({name: f"crate::programs::{name}" for name in PROGRAMS})
    return {**found, "crate": found[crate]}


def erased(file, types):
    """The Rust text of a file."""
    if (file.crate, file.path) in IN_SHIM:
        return names_in_shim(file)
    source, items, edits = file.tokens, file.items, Edits(file.tokens)
    contracts.take_contracts(source, items, edits)
    take_attributes(source, items, edits)
    drops.take_drops(source, items, edits)
    paths.change_imports(source, items, edits)
    paths.change_formatters(source, items, edits)
    paths.change_calls(source, edits)
    if file.crate in LIBRARIES:
        requires.guard(file, types, edits)
    paths.change_paths(source, where_crates_are(file.crate), edits)
    impls = errors.impls_of_errors(source, items)
    if file.crate in LIBRARIES:
        sealed.seal(source, items, edits)
        impls += sealed.seals_of_impls(source, items, edits)
        paths.mark_inline(source, items, edits)
    else:
        paths.publish_main(source, items, edits)
    return finished(file, edits.result(), impls)


def names_in_shim(file):
    """A file whose functions src/rt has."""
    names = sorted(item.name for item in file.items if item.kind == "fn" and item.public)
    return f"pub use crate::rt::{IN_SHIM[file.crate, file.path]}::{{{', '.join(names)}}};\n"


def finished(file, text, impls):
    """The text with its docs, its prelude, its impls and its patches."""
    if file.crate in LIBRARIES:
        text = in_rust(text)
    text = examples(documented(text, file.crate, file.path), file.crate)
    head = re.match(r"(?:\s*//!.*\n)*", text).end()
    parts = [text[:head].rstrip("\n"), PRELUDE, text[head:].strip("\n"), *(it.rstrip("\n") for it in impls)]
    text = "\n\n".join(part for part in parts if part) + "\n"
    if (file.crate, file.path) in LENT:
        up = "../" * (2 + file.path.count("/"))
        text += f'\n/// By hand.\n#[path = "{up}lent/{LENT[file.crate, file.path]}.rs"]\npub(crate) mod lent;\n'
    return patched(file, text)


def patched(file, text):
    """The text with the patches of project.py."""
    for old, new in PATCHES.get((file.crate, file.path), []):
        if text.count(old) != 1:
            raise Bad(f"a patch: {old!r} stands {text.count(old)} times")
        text = text.replace(old, new)
    return text


def print_requires():
    """Prints what becomes of each premise."""
    for crate in LIBRARIES:
        files = files_of(crate)
        types = requires.Types(files)
        for file in files:
            if (file.crate, file.path) in IN_SHIM:
                continue
            for _, premises in tell_place(file.name, lambda: requires.handled(file, types)):
                for premise in premises:
                    print(f"{premise.call}\n    {premise.term}\n    {premise.way}: {premise.said}")


def present():
    """The files that are there."""
    found = set()
    for tree in (LIBRARY_TREE, PROGRAM_TREE):
        for folder, _, names in os.walk(os.path.join(TOP, tree)):
            found |= {os.path.relpath(os.path.join(folder, name), TOP) for name in names}
    return found


def content(name):
    """What a file holds, or nothing if it is missing."""
    try:
        with open(os.path.join(TOP, name), encoding="utf-8") as file:
            return file.read()
    except FileNotFoundError:
        return None


def write_or_compare(texts, is_check):
    """Writes the files that differ, or tells them."""
    differ = sorted(name for name, text in texts.items() if content(name) != text)
    extra = sorted(present() - set(texts))
    if is_check:
        for name in differ:
            print(f"{name}: differs from its source, or is missing: run python3 rust/erase.py")
        for name in extra:
            print(f"{name}: shouldn't be there")
        print(f"{len(texts)} files compared, {len(differ) + len(extra)} differ")
        raise SystemExit(1 if differ or extra else 0)
    for name in differ:
        path = os.path.join(TOP, name)
        os.makedirs(os.path.dirname(path), exist_ok=True)
        with open(path, "w", encoding="utf-8") as file:
            file.write(texts[name])
    for name in extra:
        os.remove(os.path.join(TOP, name))
    print(f"{len(texts)} files, {len(differ)} written, {len(extra)} removed")


if __name__ == "__main__":
    main()
