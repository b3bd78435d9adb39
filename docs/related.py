#!/usr/bin/env python3
"""Writes the figures of docs/RELATED.md from the sources: lines of code, of clauses, of specs/ and of proofs/ of the libraries
of maps, without blank lines and comments and to the next hundred, how many functions they have, and what the gate takes for each. With --check it
writes nothing, and fails if they are out of date.

The minutes are those of the table in docs/ARCHITECTURE.md, of the rows of these libraries.
"""

import glob
import os
import re
import sys

TOP = os.path.dirname(os.path.dirname(os.path.abspath(__file__)))
PAGE = os.path.join(TOP, "docs/RELATED.md")
CRATES = "core slots basic dense hop secondary sparse run json".split()
# The rows of the table in docs/ARCHITECTURE.md that have only these libraries: the words that they begin with.
ROWS = ["`slotmap_core`, `slotmap_json`", "`slotmap_slots`", "`slotmap_hop`", "`slotmap_secondary`"]
BLOCK = re.compile(r"(<!-- figures -->\n).*?(<!-- end -->\n)", re.S)


def read(path):
    with open(path, encoding="utf-8") as file:
        return file.read()


def files(crate, pattern):
    """The files of a crate, without those of tests and of what the check keeps."""
    found = glob.glob(os.path.join(TOP, f"crates/slotmap_{crate}/{pattern}"), recursive=True)
    return sorted(it for it in found if "/out/" not in it and not re.search(r"/tests[/.]", it))


def lines_of(text, comment):
    return [it.strip() for it in text.split("\n") if it.strip() and not it.strip().startswith(comment)]


def clauses_in(lines):
    """How many of these lines belong to clauses and ghost items."""
    count, depth, inside = 0, 0, False
    for line in lines:
        inside = inside or bool(re.match(r"(requires|ensures|ghost)\b", line))
        if inside:
            count += 1
            depth += sum(line.count(it) for it in "({[") - sum(line.count(it) for it in ")}]")
            inside = depth > 0
    return count


def figures():
    code = clauses = functions = specs = proofs = 0
    for crate in CRATES:
        for path in files(crate, "src/**/*.rt"):
            lines = lines_of(read(path), "//")
            clauses += clauses_in(lines)
            code += len(lines) - clauses_in(lines)
            functions += sum(bool(re.match(r"(pub(\(crate\))? )?(const )?fn \w", it)) for it in lines)
        specs += sum(len(lines_of(read(it), "--")) for it in files(crate, "specs/**/*.antt"))
        proofs += sum(len(lines_of(read(it), "--")) for it in files(crate, "proofs/**/*.antt"))
    minutes = 0
    for row in ROWS:
        found = re.search(rf"(?m)^\| {re.escape(row)}[^|]*\| (\d+) \|", read(os.path.join(TOP, "docs/ARCHITECTURE.md")))
        if not found:
            sys.exit(f"related.py: docs/ARCHITECTURE.md has no row {row}")
        minutes += int(found.group(1))
    return code, clauses, specs, proofs, functions, minutes


def block():
    code, clauses, specs, proofs, functions, minutes = figures()
    return (
        "| Code | Clauses | Definitions | Proofs | Lines beside a line of code | Functions | Seconds of a processor, a function |\n"
        "|---|---|---|---|---|---|---|\n"
        + "| " + " | ".join(f"{round(it, -2):,}" for it in (code, clauses, specs, proofs))
        + f" | {(clauses + specs + proofs) / code:.1f} | {round(functions, -1)} | {60 * minutes / functions:.1f} |\n"
    )


def main():
    if sys.argv[1:] not in ([], ["--check"]):
        sys.exit("usage: docs/related.py [--check]")
    text = read(PAGE)
    new = BLOCK.sub(lambda found: found.group(1) + block() + found.group(2), text)
    if not BLOCK.search(text):
        sys.exit("related.py: docs/RELATED.md has no place for the figures")
    if len(new.rstrip("\n").split("\n")) > 100:
        sys.exit("related.py: docs/RELATED.md has more than 100 lines")
    if new != text and sys.argv[1:] == ["--check"]:
        print("docs/RELATED.md is out of date: run docs/related.py")
        return 1
    if new != text:
        with open(PAGE, "w", encoding="utf-8") as file:
            file.write(new)
    return 0


if __name__ == "__main__":
    sys.exit(main())
