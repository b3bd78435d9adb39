#!/usr/bin/env python3
"""Lists what might read slots of a HopSlotMap without counting it: each name, in the files of its iterators, that isn't on a list.

    tests/counted_reads.py [--check]

A copy of an iterator's place has a count of its own. So a function that reads through a copy and drops it hides these reads, and no contract
says how often a function reads. The fields of the types that read are private to iter/counted.rt, and those of an iterator to iter.rt and that file.
This script looks at the rest. In these two files each item has to stand in counted_reads/may.txt, and in the same order. A function may use only
the names that stand beside it there, each as often: calls, fields, types, macros, loops, `[]` for an element and `[..]` for a part of a slice. In the
other files of the crate only the items that are listed there may name an iterator, what reads for it, or the search.

Each file of counted_reads/refused is a change that hides reads, or that would let another change hide some. The script has to name its fault. The
status is 0 if the sources have no fault and each of these changes has one.
"""
import functools
import glob
import os
import sys
from collections import Counter

sys.dont_write_bytecode = True
TOP = os.path.dirname(os.path.dirname(os.path.abspath(__file__)))
sys.path.insert(0, os.path.join(TOP, "rust"))

from eraser.closed import MACROS
from eraser.items import Reader
from eraser.tokens import Bad, is_blank, plain, tokens

SOURCES = os.path.join(TOP, "crates/slotmap_hop/src")
LISTS = os.path.join(TOP, "tests/counted_reads")
# The files of which each item is listed. What they may lead to is read by hand.
READ_BY_NAME = ("iter/counted.rt", "iter.rt")
# What other files may not name: the types that read or that have such a one, their module, and the search.
GUARDED = {"CountedSlots", "Walk", "Iter", "Keys", "Values", "counted", "next_live"}
# Keywords that do nothing of their own. Any other is listed like a name: a loop, or an item in a body.
KEYWORDS = set("as break continue else false if in let match mut ref return self super true".split())
OTHER_KEYWORDS = set("const crate dyn enum fn for impl loop mod move pub static struct trait type unsafe use where while".split())


def name_of(source, item):
    """An item as the list has it. A type is whole, since the visibility of its fields matters."""
    attributes = "".join(f"#[{it.inside}] " for it in item.attributes)
    end = item.end if item.kind in ("struct", "enum") else item.header_end
    return "    " * bool(item.owner) + attributes + plain(source[item.start:end])


def index_name(words, at):
    """What the bracket at a place is: `[]` for an element, `[..]` for a part, else a pattern or an array."""
    kind, before = words[at - 1]
    if before not in (")", "]", "?") and (kind != "word" or before in KEYWORDS):
        return "[pattern]"
    depth = 0
    for place in range(at, len(words)):
        depth += (words[place][1] in ("(", "[", "{")) - (words[place][1] in (")", "]", "}"))
        if depth == 1 and words[place][1] == "..":
            return "[..]"
        if depth == 0:
            return "[]"
    raise Bad("a bracket isn't closed")


def is_named(words, at):
    """Whether the word at a place is a call, a field, a part of a path, a type, a macro, or a keyword that is listed."""
    word, before, after = words[at][1], words[at - 1][1], words[at + 1][1]
    is_macro = after == "!" and words[at + 2][1] != "="
    return is_macro or after in ("(", "::") or before in (".", "::") or word[0].isupper() or word in OTHER_KEYWORDS


def names_in(source):
    """The names that the tokens of a body use. A function that is called has no other use, since a variable might take its name."""
    words = [it for it in source if not is_blank(it) and it[0] not in ("clause", "ghost")]
    words = [("mark", "")] + words + [("mark", ""), ("mark", "")]
    places = range(1, len(words) - 2)
    named = [at for at in places if words[at][0] == "word" and words[at][1] not in KEYWORDS and is_named(words, at)]
    called = {words[at][1] for at in named if words[at + 1][1] == "(" and words[at - 1][1] not in (".", "::")}
    for at in places:
        (kind, word), before = words[at], words[at - 1][1]
        if at in named:
            yield word
        elif kind == "word" and word in called:
            yield f"{word} as a value"
        elif (kind, word) == ("mark", "["):
            yield index_name(words, at)
        elif (kind, word) == ("mark", "(") and before in (")", "]", "}", "?"):
            yield "a call of a value"


@functools.lru_cache(maxsize=None)
def read_items(text):
    """The tokens of a source, and its items. Most files are the same in each change."""
    source = tokens(text)
    return source, Reader(source, MACROS).read()


def listed_items(text):
    """What a file has of which each item is listed: lines of names, each with the names that a function uses."""
    source, items = read_items(text)
    for item in items:
        yield name_of(source, item), Counter(names_in(source[item.header_end:item.end]) if item.kind == "fn" else ())


def guarded_items(text):
    """The items of another file that name what is guarded, with the names of these that they use."""
    source, items = read_items(text)
    for item in items:
        # What stands in such an item is an item of its own.
        end = item.header_end if item.kind in ("impl", "trait", "mod") else item.end
        words = Counter(word for kind, word in source[item.whole:end] if kind == "word" and word in GUARDED)
        if words:
            yield name_of(source, item), words


def read_lists():
    """The list: for each file its lines, each a name and the names that may stand in it."""
    found = {}
    with open(os.path.join(LISTS, "may.txt"), encoding="utf-8") as file:
        for line in file.read().split("\n"):
            if line.startswith("== "):
                mine = found.setdefault(line[3:], [])
            elif line and not line.startswith("# "):
                name, _, names = line.partition(" : ")
                mine.append((name, Counter(names.split())))
    return found


def faults_of_items(file, items, may):
    """The faults of a file: items that aren't listed, and names that aren't listed so often for them."""
    left = list(may)
    for name, names in items:
        places = [at for at, (listed, _) in enumerate(left) if listed == name]
        if not places:
            yield f"{file}: {name.strip()}: isn't listed"
            continue
        allowed = left[places[0]][1]
        left = left[places[0] + 1:]
        for other in names - allowed:
            yield f"{file}: {name.strip()}: {other}"


def faults(files):
    """The faults of the crate's files, which are texts by their names."""
    may, found = read_lists(), []
    for file, text in sorted(files.items()):
        try:
            items = listed_items(text) if file in READ_BY_NAME else guarded_items(text)
            found += faults_of_items(file, items, may.get(file, []))
        except Bad as why:
            found.append(f"{file}: line {why.line}: {why}")
    return found


def sources():
    """The texts of the crate's files, by their names."""
    found = {}
    for path in glob.glob(f"{SOURCES}/**/*.rt", recursive=True):
        with open(path, encoding="utf-8") as file:
            found[os.path.relpath(path, SOURCES)] = file.read()
    return found


def changed(files, change):
    """The files after a change, and the fault that is expected. A change may end with a new file."""
    files, file, expected = dict(files), None, None
    lines = change.split("\n")
    for at, line in enumerate(lines):
        word, _, text = line.partition(": ")
        if word == "new file":
            files[text] = "\n".join(lines[at + 1:])
            break
        if word == "says":
            expected = text
        elif word == "file":
            file = text
        elif word == "old":
            old = text
        elif word == "new":
            if files[file].count(old) != 1:
                raise SystemExit(f"counted_reads.py: {old!r} stands {files[file].count(old)} times in {file}")
            files[file] = files[file].replace(old, text)
    return files, expected


def unrefused(files):
    """The changes of which the script doesn't name the fault."""
    paths = sorted(glob.glob(f"{LISTS}/refused/*.txt"))
    if not paths:
        yield "counted_reads/refused has no change"
    for path in paths:
        with open(path, encoding="utf-8") as file:
            after, expected = changed(files, file.read())
        found = faults(after)
        if expected not in found:
            yield f"{os.path.relpath(path, TOP)}: expected {expected!r}, found {found}"


def main():
    """Prints all faults."""
    if sys.argv[1:] not in ([], ["--check"]):
        raise SystemExit(__doc__)
    files = sources()
    found = [f"crates/slotmap_hop/src/{it}" for it in faults(files)] + list(unrefused(files))
    for line in found:
        print(line)
    return 1 if found else 0


if __name__ == "__main__":
    sys.exit(main())
