#!/usr/bin/env python3
"""Lists the words of this repository's definitions that public clauses use, each with the file that defines it and how
many clauses use it. Fails if docs/DEFINITIONS.md doesn't name one of the maps, if the page of a structure or of the calls for C
doesn't say what one of its own words means, or if README.md has other numbers of definitions and of their lines. These are counted
by definition: those that clauses name, with all that they cite. With --check only faults are printed."""

import functools
import glob
import os
import re
import sys

sys.dont_write_bytecode = True

from definitions import declared_at, files, reached_from
from sources import CONTRACTS, TOP, facade, items_of, module_items

# The crates whose words stand on the pages in docs/api, at the end of each.
OWN_PAGES = (
    "slotmap_list", "slotmap_lists", "slotmap_graph", "slotmap_entities", "slotmap_scene", "slotmap_scheduler", "slotmap_paths", "slotmap_bounded",
    "slotmap_links", "slotmap_c",
)
# Words that the comment of another one explains too.
TOLD_WITH = {"lends_last": "lends_first", "moved_to_back": "moved_to_front", "moved_after": "moved_to_front", "moved_before": "moved_to_front"}
# A row of such a table: its word, and what it means.
ROW = re.compile(r'(?m)^\| <a name="word-[^"]+"></a>`([^`]+)` \| (.*?) \| \[')


@functools.cache
def passed_on(spec):
    """What a file of definitions passes on from other files: for each name the name there, and the file."""
    found = {}
    if not os.path.exists(os.path.join(TOP, spec)):
        return found
    with open(os.path.join(TOP, spec), encoding="utf-8") as file:
        text = file.read()
    for crate, module, names in re.findall(r"(?m)^(?:unfoldable )?pub use Rattle\.(\w+)\.specs\.([\w.]+)\.\{([^}]*)\}$", text):
        for name in names.split(","):
            name, _, other = name.strip().partition(" as ")
            found[other or name] = (name, f"crates/{crate}/specs/{module.replace('.', '/')}.antt")
    return found


def declared_in(name, spec):
    """The name and the file of the definition that a file declares or passes on."""
    while name in passed_on(spec):
        name, spec = passed_on(spec)[name]
    return name, spec


def imports_of(path):
    """What a file imports from the definitions: a word for each name, and a module for each name of a module."""
    with open(os.path.join(TOP, path), encoding="utf-8") as file:
        text = file.read()
    words, modules = {}, {}
    for use in re.finditer(r"ghost use Rattle\.(\w+)\.specs\.([\w.]+?)(?:\.\{([^}]*)\}| as (\w+));", text):
        crate, module, names, alias = use.groups()
        if not os.path.isdir(os.path.join(TOP, "crates", crate)) or module.startswith("declared"):
            continue
        spec = f"crates/{crate}/specs/{module.replace('.', '/')}.antt"
        if alias:
            modules[alias] = spec
        for name in (names or "").split(","):
            name, _, other = name.strip().partition(" as ")
            if name:
                first, file = declared_in(name, spec)
                if os.path.exists(os.path.join(TOP, file)):
                    words[other or name] = (first, file)
    return words, modules


@functools.cache
def listed_crates():
    """For each crate of crates.txt the crates that it lists."""
    with open(os.path.join(TOP, "crates.txt"), encoding="utf-8") as file:
        return {name: listed.split() for name, listed in re.findall(r"(?m)^(\w+)(?: staticlib)?:(.*)$", file.read())}


def crates_below(crate):
    """A crate, and those of the repository that it is built on, the nearest first."""
    found = [crate]
    for name in found:
        found += [it for it in listed_crates().get(name, ()) if it in listed_crates() and it not in found]
    return found


def fields_of_specs(crates=()):
    """The fields of the records that hold something, each with its file: of these crates in their order, or of all. A record that
    relates values isn't one."""
    found = {}
    patterns = [f"crates/{it}/specs/**/*.antt" for it in crates] or ["crates/*/specs/*.antt"]
    for path in [path for it in patterns for path in sorted(glob.glob(os.path.join(TOP, it), recursive=True))]:
        with open(path, encoding="utf-8") as file:
            lines = file.read().split("\n")
        for number, line in enumerate(lines):
            record = re.match(r"( *)pub record \w+((?: [({][\w ]+ : Type 0[)}])*) : Type 0 where", line)
            for field in lines[number + 1 :] if record else []:
                if field.strip() and len(field) - len(field.lstrip()) <= len(record.group(1)):
                    break
                name = re.match(r" +pub (\w+) :", field)
                if name:
                    found.setdefault(name.group(1), os.path.relpath(path, TOP))
    return found


def clauses_of(item, in_trait=False, in_impl_of_trait=False):
    """The text of the public clauses of an item and of what stands in it."""
    if item.kind == "impl" and item.of_trait == "Model":
        return []
    if item.kind in ("impl", "trait"):
        found = []
        for member in item.members:
            found += clauses_of(member, item.kind == "trait" and item.public, bool(item.of_trait))
        return found
    if item.kind == "ghost":
        contract = item.name in CONTRACTS if in_impl_of_trait else in_trait and item.name != "use"
        return ["\n".join(item.lines)] if contract else []
    if item.kind == "fn" and (item.public or in_trait or in_impl_of_trait):
        text = re.sub(r"//.*", "", "\n".join(item.lines))
        return re.split(r"\n(?=\s*(?:requires|ensures)\b)", text)[1:]
    return []


def note_words(found, item, clauses, fields):
    """Counts the words of these clauses of an item."""
    words, modules = imports_of(item.path)
    for clause in clauses:
        used = set()
        for before, name in re.findall(r"((?:\w+\.)*)([^\W\d]\w*)", clause):
            first = before.split(".")[0] if before else name
            if first in modules and before:
                used.add((name, modules[first]))
            elif not before and name in words:
                used.add(words[name])
            elif before and first in words:
                used.add(words[first])
        for name in re.findall(r"\.([a-z_]\w*)", clause):
            if name in fields and not re.search(rf"\b(map|pair|set)\.{name}\b", clause):
                used.add((name, fields[name]))
        for word in used:
            found[word] = found.get(word, 0) + 1


@functools.cache
def fields_below(crate):
    """The fields that a crate's clauses may name: its own first, then those of the maps, then those of what structures share."""
    below = crates_below(crate)[1:]
    return fields_of_specs([crate, *[it for it in below if it not in OWN_PAGES], *[it for it in below if it in OWN_PAGES]])


def public_items(crate):
    """The items that a crate's page shows: what is public, with the impls of it, or the exports for C."""
    if crate == "slotmap_c":
        return [it for it in items_of(crate) if it.kind == "fn" and 'extern "C"' in it.lines[0]]
    items = module_items(crate, "")[1]
    types = {it.name for it in items if it.public and it.kind != "impl"}
    return [it for it in items if it.public and it.kind != "impl" or it.kind == "impl" and it.of in types]


def words_of(item, in_trait=False):
    """The words of an item's public clauses, each with its file."""
    found = {}
    note_words(found, item, clauses_of(item, in_trait), fields_below(item.path.split("/")[1]))
    return sorted(found, key=lambda it: (it[0].lower(), it))


def is_own(spec):
    """Whether a file of definitions is of a crate whose words stand on a page of its own."""
    return spec.split("/")[1] in OWN_PAGES


def own_words(crate):
    """The words of a crate's public clauses that no other page explains."""
    return sorted({it for item in public_items(crate) for it in words_of(item, item.kind == "fn") if is_own(it[1])})


def meaning_of(word, spec):
    """What a word means, by the comment of its definition, or else by the definition, and the line that declares it."""
    definition, name = declared_at(word, spec), f"`{word}`"
    if definition:
        teller = TOLD_WITH.get(word)
        said = " ".join(definition.comment) or (f"with `{teller}`: " + " ".join(declared_at(teller, spec).comment) if teller else "")
        code = " ".join(it.strip() for it in definition.code()[1:])
        return said or (f"`{code}`" if code else ""), definition.path, definition.line
    lines, said = files()[spec].lines, []
    for number, line in enumerate(lines):
        if re.match(rf" +pub {re.escape(word)} :", line):
            first = number
            # A comment above several fields is about all of them.
            while re.match(r" +pub \w+ :", lines[first - 1]):
                first -= 1
            while lines[first - 1].strip().startswith("--"):
                first -= 1
                said.insert(0, lines[first].strip()[2:].strip())
            holder = next(it.split()[2] for it in reversed(lines[:number]) if re.match(r" *pub record ", it))
            kind = re.sub(r"^ +pub \w+ : ", "", line)
            return f"{' '.join(said)}{': ' if said else ''}`{kind}`, in `{holder}`", spec, number + 1
    sys.exit(f"words.py: {spec} doesn't declare {name}")


def page_of(crate):
    return f"docs/api/{crate}.md"


def faults_of_pages():
    """The words of structures and of the calls for C that their pages don't explain."""
    wrong = []
    for crate in OWN_PAGES:
        path = os.path.join(TOP, page_of(crate))
        with open(path, encoding="utf-8") as file:
            said = {word: meaning.strip() for word, meaning in ROW.findall(file.read())}
        for word, spec in own_words(crate):
            if not said.get(word):
                wrong.append(f"{page_of(crate)} doesn't say what {word} means ({spec})")
    return wrong


def words_of_clauses(crates=()):
    """The words of the public clauses of these crates, or of all crates of the facade: each with its file, and how many
    clauses use it."""
    fields, found = fields_of_specs(), {}
    for crate in crates or sorted({crate for _, crate, _ in facade()}):
        for item in items_of(crate):
            note_words(found, item, clauses_of(item), fields)
    return found


def roots(found):
    """The definitions of these words. That of a field is its record."""
    kept = []
    for word, spec in found:
        definition = declared_at(word, spec)
        for record in files()[spec].definitions.values() if not definition and spec in files() else ():
            if any(re.match(rf" +pub {re.escape(word)} :", it) for it in record.lines):
                definition = record
        if definition and definition not in kept:
            kept.append(definition)
    return kept


def roots_of_call(crate, name):
    """The definitions that the clauses of a function name."""
    found, item = {}, next(it for it in items_of(crate) if it.kind == "fn" and it.name == name)
    note_words(found, item, clauses_of(item), {})
    return roots(found)


def size_of(first):
    """How many definitions these ones rest on, themselves included, and how many lines these have without comments."""
    reached = reached_from(first)
    return len(reached), sum(len(it.code()) for it in reached)


def fault_of_readme(found):
    """What README.md should say of the definitions, if it says something else."""
    every, alone = size_of(roots(found)), size_of(roots(words_of_clauses(["slotmap_basic"])))
    plain = roots_of_call("slotmap_run", "run_new")
    both = size_of(plain + [it for it in roots_of_call("slotmap_run", "run_detaching_new") if it not in plain])
    wanted = "on some {} definitions of {:,} lines in all: those of `SlotMap` on {} of {}. The run theorem rests on {} of {}, with detached keys on {} of {}".format(
        *(round(it, -1) for it in (*every, *alone)), *size_of(plain), *both
    )
    with open(os.path.join(TOP, "README.md"), encoding="utf-8") as file:
        return "" if wanted in " ".join(file.read().split()) else f"README.md, definitions: {wanted}"


def main():
    if sys.argv[1:] not in ([], ["--check"]):
        sys.exit("usage: docs/words.py [--check]")
    with open(os.path.join(TOP, "docs/DEFINITIONS.md"), encoding="utf-8") as file:
        named = {word for code in re.findall(r"`([^`]+)`", file.read()) for word in re.findall(r"\w+", code)}
    found, missing = words_of_clauses(), 0
    for (word, spec), count in sorted(found.items(), key=lambda it: (it[0][1], it[0][0])):
        is_missing = word not in named
        missing += is_missing
        if is_missing or sys.argv[1:] == []:
            print(f"{spec}: {word}, in {count} clauses" + (": not in docs/DEFINITIONS.md" if is_missing else ""))
    print(f"{len(found)} words, {missing} of them not in docs/DEFINITIONS.md")
    wrong = [it for it in [fault_of_readme(found), *faults_of_pages()] if it]
    print("\n".join(wrong), end="\n" if wrong else "")
    return 1 if missing or wrong else 0


if __name__ == "__main__":
    sys.exit(main())
