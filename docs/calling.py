#!/usr/bin/env python3
"""Writes the blocks of CALLING.md, PROVING.md, STRUCTURES.md and FIRST_PROOF.md from the proved examples.

    docs/calling.py            writes the blocks anew
    docs/calling.py --check    says which page is out of date, with status 1

A block comes after a line that names where it is from:

    <!-- from walks.rt: find_key -->                   these items, below the imports that they need
    <!-- from walks.rt: total, count_even; no head -->  the same without the imports
    <!-- from tour.rt -->                              the whole file
    <!-- from stale/renew/Answers.antt -->             a proof file

On a page that copies from several crates the file begins with its crate, as `list_callers/cursors.rt`.

In a block the crate's own name is `app`, with the example at its root.
"""

import os
import re
import sys

TOP = os.path.dirname(os.path.dirname(os.path.abspath(__file__)))
# The pages, and the crate that each copies from, or nothing where each block names its own.
PAGES = {
    "crates/slotmap/CALLING.md": "slotmap_examples",
    "crates/slotmap/PROVING.md": "slotmap_examples",
    "docs/STRUCTURES.md": "",
    "docs/FIRST_PROOF.md": "slotmap_examples",
}
BLOCK = re.compile(r"(<!-- from (?P<file>\S+?)(?:: (?P<items>[^;]*?))?(?P<bare>; no head)? -->\n)\n?```\w+\n.*?\n```\n", re.S)
ITEM = re.compile(r"(?:pub(?:\(\w+\))? )?(?:fn|struct|enum|trait|type|const) (\w+)|impl\b[^{]*? for (\w+)|impl(?:<[^>]*>)? (\w+)")


def read(path):
    with open(path, encoding="utf-8") as file:
        return file.read()


def split(text):
    """The lines of imports of a source file, and its items, each with its comment and its name."""
    head, items, item = [], [], []
    for line in text.split("\n"):
        if line.startswith("//!") or (not item and not line):
            continue
        if not item and re.match(r"(ghost )?use ", line):
            head.append(line)
            item = ["use"] if not line.endswith(";") else []
            continue
        if item[:1] == ["use"]:
            head[-1] += " " + line.strip()
            item = [] if line.endswith(";") else item
            continue
        item.append(line)
        if line in ("}", "};") or (line.endswith(";") and not line.startswith((" ", "//"))):
            items.append(item)
            item = []
    return head, [(name_of(it), "\n".join(it)) for it in items]


def name_of(item):
    line = next(it for it in item if not it.startswith(("//", "#")))
    found = ITEM.match(line)
    return line.rstrip(" {") if line.startswith("impl") else found.group(1)


def is_used(name, text):
    name = name.split(" as ")[-1].strip()
    if "◌" in name:
        return all(re.search(r"(^|[\s(])" + re.escape(it) + r"($|[\s)(])", text, re.M) for it in name.split("◌") if it)
    return re.search(r"(?<![\w.])" + re.escape(name) + r"(?!\w)", text) is not None


def clauses(text):
    """The lines of a text that the prover alone reads."""
    kept, is_on = [], False
    for line in text.split("\n"):
        is_on = (is_on or re.match(r"\s*(ensures|requires|ghost)\b", line) is not None) and line.strip() != "{"
        kept += [line] if is_on else []
    return "\n".join(kept)


def needed(head, text):
    """The imports that a text needs, without the names that it doesn't use."""
    kept, whole = [], text
    for line in head:
        text = clauses(whole) if line.startswith("ghost") else whole
        found = re.fullmatch(r"((?:ghost )?use \S+?::|ghost use \S+?\.)\{(.*)\};", line.replace(", };", "};").replace("{ ", "{").replace(",}", "}"))
        if not found:
            name = re.search(r"(?: as |[.:])([^.:\s]+);$", line).group(1)
            kept += [line] if is_used(name, text) else []
            continue
        names = [it.strip() for it in found.group(2).split(",") if it.strip()]
        names = [it for it in names if is_used(it, text)]
        if len(names) == 1 and "ghost" not in line:
            kept.append(f"{found.group(1)}{names[0]};")
        elif names:
            kept.append(f"{found.group(1)}{{{', '.join(names)}}};")
    return kept


def method(text, name):
    """A method with its comment, from an impl block."""
    lines = text.split("\n")
    start = next(at for at, line in enumerate(lines) if line.startswith(f"    pub fn {name}"))
    end = lines.index("    }", start)
    while lines[start - 1].startswith("    ///"):
        start -= 1
    return "\n".join(lines[start:end + 1])


def source(crate, file, wanted, bare):
    text = read(f"{TOP}/crates/{crate}/src/{file}")
    if not wanted:
        return re.sub(r"\A(//!.*\n)+\n", "", text).rstrip("\n")
    head, items = split(text)
    found = dict(items)
    for name in re.findall(r"(?m)^    pub fn (\w+)", text):
        found.setdefault(name, method(text, name))
    names = [it.strip() for it in wanted.split(",")]
    for name in names:
        if name not in found:
            sys.exit(f"calling.py: {file} has no {name}")
    body = "\n\n".join(found[it] for it in names)
    imports = [] if bare else needed(head, body)
    ghosts = [it for it in imports if it.startswith("ghost")]
    others = [it for it in imports if not it.startswith("ghost")]
    parts = ["\n".join(ghosts)] * bool(ghosts) + ["\n".join(others)] * bool(others) + [body]
    return "\n\n".join(parts)


def module_of(crate, file):
    """The path of the source file that a proof file belongs to, as a module."""
    parts = file.split("/")
    at = next(it for it in reversed(range(len(parts))) if os.path.isfile(f"{TOP}/crates/{crate}/src/{'/'.join(parts[:it])}.rt"))
    return ".".join(parts[:at])


def proof(crate, file):
    text = read(f"{TOP}/crates/{crate}/proofs/{file}").rstrip("\n")
    for part in ("proofs", "specs.contracts", "specs.declared"):
        text = text.replace(f"Rattle.{crate}.{part}.{module_of(crate, file)}.", f"Rattle.app.{part}.")
    return text


def block(crate, found):
    file = found.group("file")
    if not crate:
        crate, file = file.split("/", 1)
    if file.endswith(".rt"):
        return f"{found.group(1)}\n```rust\n{source(crate, file, found.group('items'), found.group('bare'))}\n```\n"
    return f"{found.group(1)}\n```text\n{proof(crate, file)}\n```\n"


def main():
    stale = 0
    for page, crate in PAGES.items():
        path = os.path.join(TOP, page)
        text = read(path)
        new = BLOCK.sub(lambda found: block(crate, found), text)
        if new.count("<!-- from ") != len(BLOCK.findall(text)):
            sys.exit(f"calling.py: a block is missing after a line of {page}")
        if "--check" in sys.argv:
            if new != text:
                stale = 1
                print(f"{page} is out of date: run docs/calling.py")
        elif new != text:
            with open(path, "w", encoding="utf-8") as file:
                file.write(new)
    sys.exit(stale)


if __name__ == "__main__":
    main()
