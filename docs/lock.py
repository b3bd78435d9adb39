#!/usr/bin/env python3
"""Writes contracts.lock from the sources: docs/lock.py. With --check it writes nothing, and says which lines differ.

contracts.lock has a line for each public clause of the libraries: its crate, its call, its name, and a hash of its text with all that it
rests on (meanings.py says what that is). So whoever weakens a clause, or a definition below it, changes a line. There are lines as well for
signatures, for the members of public traits and of impls, for what types are and what their values show, and for names that a crate passes
on. A comment, an import, a body and a lemma change no line.

A file with a form that the scripts don't read is a fault, since a clause might stand in it.
"""

import collections
import functools
import os
import re
import sys

sys.dont_write_bytecode = True

import definitions
from meanings import Digests, Part, Scope, Unknown, at_path, exports, items, normal, words_in
from sources import TOP, files_of, read, signature_and_clauses, without_comments

LOCK = "contracts.lock"
HEAD = "# Written by docs/lock.py from the sources: crate, call, clause, and a hash of the clause with all that it rests on\n"
# Attributes that say how a function is compiled or proved, and nothing of what it does.
SILENT = re.compile(r"#\[(inline|cold|tactic)\b")


def libraries():
    """The crates of crates.txt that callers may use."""
    listed = re.findall(r"(?m)^(\w+)(?: staticlib)?:", read("crates.txt").split("# Callers")[0])
    return [it for it in listed if os.path.exists(os.path.join(TOP, "crates", it, "src/lib.rt"))]


@functools.cache
def private_traits(crate):
    return {it.name for it in items(crate) if it.kind == "trait" and not it.public}


def attributes(item):
    return " ".join(it.strip() for it in item.attributes if not SILENT.match(it.strip()))


def plain(call, clause, scope, text):
    """A line of a text in which a type counts by its full name alone."""

    def names(word):
        return [it if isinstance(it, str) else it.name for it in scope.types(re.split(r"\.|::", word)[0])]

    return call, clause, Part(call, normal(text, ".rt"), names)


def lines_of_function(call, item, scope, header):
    signature, clauses = signature_and_clauses(item)
    line = plain(call, "signature", scope, f"{header} {attributes(item)} {signature}")
    yield line
    types = [it for word in words_in(line[2].text) for it in scope.types(word) if isinstance(it, Part)]
    for kind, name, text in clauses:
        yield call, f"{kind} {name}".strip(), Part(call, normal(text, ".rt"), scope.meaning, types)


def lines_of_block(crate, item):
    """Those of a public trait, of a type's own functions, or of an impl of a trait."""
    scope, header = Scope(crate, item.path, item), item.header()
    name = item.name or item.of
    if item.of_trait:
        subject = header.split(" for ", 1)[1].split(" where")[0]
        name = f"{subject} as {item.of_trait}"
    if item.kind == "trait" or item.of_trait:
        yield plain(name, item.kind, scope, f"{attributes(item)} {header}")
    for member in item.members:
        text = normal("\n".join(member.lines), ".rt")
        if member.kind == "fn":
            # What a function of an impl takes and returns is said by the trait.
            if member.public or item.kind == "trait" or item.of_trait and signature_and_clauses(member)[1]:
                yield from lines_of_function(f"{name}::{member.name}", member, scope, header)
        elif member.kind == "ghost" and member.name != "use":
            yield f"{name}", f"ghost {member.name}", Part(name, text, scope.meaning)
        elif member.kind != "ghost":
            yield plain(name, f"{member.kind} {member.name}", scope, text)


def lines_of_item(crate, item):
    """Those of an item of a file. All types have one, since what a public type shows may rest on a private one."""
    scope = Scope(crate, item.path)
    if item.kind == "fn":
        if item.public or 'extern "C"' in item.lines[0]:
            yield from lines_of_function(item.name, item, scope, "")
    elif item.kind in ("impl", "trait"):
        if not {item.name, item.of_trait.split("<")[0]} & private_traits(crate):
            yield from lines_of_block(crate, item)
    elif item.kind in ("struct", "enum", "type") or item.public:
        yield plain(item.name, item.kind, scope, attributes(item) + " " + "\n".join(item.lines))


def lines_of_exports(crate):
    """Those of the public modules of a crate, and of the names that it passes on."""
    for here, paths in exports(crate).items():
        for module, segments in paths:
            names = [it if isinstance(it, str) else it.name for it in at_path(crate, segments)]
            yield "::".join(filter(None, [module, here])), "export", Part(here, " ".join(names), lambda word: [])
    for path in files_of(crate):
        for name in re.findall(r"(?m)^pub mod (\w+)\b", read(path)):
            yield path.split("/src/")[1].removesuffix(".rt"), f"module {name}", Part(name, name, lambda word: [])


def lines():
    """What contracts.lock should have: for each crate, call and clause the hash. Clauses of one name are numbered."""
    found, digests = {}, Digests()
    for crate in libraries():
        named = [line for item in items(crate) for line in lines_of_item(crate, item)]
        named += lines_of_exports(crate)
        counts = collections.Counter()
        for call, clause, part in named:
            counts[call, clause] += 1
            number = f" ({counts[call, clause]})" if counts[call, clause] > 1 else ""
            found[crate, call, clause + number] = digests.of(part)
    return found


def unread_definitions(file):
    """The lines of a file of definitions that no definition has."""
    seen, heads = set(), set()
    for it in file.definitions.values():
        seen.update(range(it.line - 1, it.line - 1 + len(it.lines)))
        heads.update(line for head in it.around for line in head.split("\n"))
    for number, line in enumerate(file.lines):
        text = line.strip()
        plain_line = not text or text.startswith("--") or re.match(r"pub mod \w+$", text) or definitions.USE.match(text)
        if "{-" in text or not (plain_line or number in seen or line in heads):
            yield f"{file.path}:{number + 1}: `{text}` isn't read"


def unread_source(path):
    """The lines of a source file that are in no item that sources.py reads, and forms in which items might hide."""
    text = without_comments(read(path))
    for form in re.findall(r"/\*|\bmacro_rules!|\binclude!|#!?\[(?:cfg|path)\b", text):
        yield f"{path}: `{form}` isn't read"
    uses = re.compile(r"(?m)^ *(?:pub(?:\([^)]*\))? )?(?:use [^;]+|mod \w+);")
    lines = uses.sub(lambda it: "\n" * it.group(0).count("\n"), text).split("\n")
    for item in [it for it in items(path.split("/")[1]) if it.path == path]:
        for it in [item, *item.members]:
            end = it.line - 1 + len(it.lines) if it.members else it.end
            lines[it.line - 1 : end] = [""] * (end - it.line + 1)
    for number, line in enumerate(lines):
        if not re.fullmatch(r"\s*(?:#!?\[.*\]|\}|pub mod \w+ \{)?\s*", line):
            yield f"{path}:{number + 1}: `{line.strip()}` isn't read"


def locked():
    """What contracts.lock has."""
    if not os.path.exists(os.path.join(TOP, LOCK)):
        return {}
    rows = [it.split("\t") for it in read(LOCK).split("\n") if it and not it.startswith("#")]
    return {tuple(row[:3]): row[3] for row in rows}


def differences(old, new):
    """A line for each call of which a clause changed."""
    kinds = {}
    for key in [*new, *(it for it in old if it not in new)]:
        if old.get(key) != new.get(key):
            kind = "added" if key not in old else "changed" if key in new else "gone"
            kinds.setdefault(key[:2], {}).setdefault(kind, []).append(key[2])
    for (crate, call), found in kinds.items():
        yield f"{crate}, {call}: " + "; ".join(f"{kind}: {', '.join(clauses)}" for kind, clauses in found.items())


def main():
    if sys.argv[1:] not in ([], ["--check"]):
        sys.exit("usage: docs/lock.py [--check]")
    try:
        unread = [it for file in definitions.files().values() for it in unread_definitions(file)]
        unread += [it for crate in libraries() for path in files_of(crate) for it in unread_source(path)]
        old, new = locked(), lines()
    except Unknown as unknown:
        unread = [str(unknown)]
    if unread:
        print("\n".join(unread))
        return 1
    differing = list(differences(old, new))
    print("\n".join(differing), end="\n" if differing else "")
    if sys.argv[1:] and differing:
        print(f"{LOCK} is out of date. If each of these changes is meant, run docs/lock.py, and commit {LOCK} with what changes it.")
    if not sys.argv[1:]:
        order = {crate: number for number, crate in enumerate(libraries())}
        rows = ["\t".join([*key, new[key]]) for key in sorted(new, key=lambda it: (order[it[0]], *it[1:]))]
        with open(os.path.join(TOP, LOCK), "w", encoding="utf-8") as file:
            file.write(HEAD + "\n".join(rows) + "\n")
    return 1 if sys.argv[1:] and differing else 0


if __name__ == "__main__":
    sys.exit(main())
