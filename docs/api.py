#!/usr/bin/env python3
"""Writes docs/API.md and the pages in docs/api from the sources: docs/api.py. With --check it writes nothing, and fails
where a page is out of date.

docs/API.md has the tables of calls and links to the pages. There is a page for each map, one for each structure, one for the
calls for C, and one each for traits, keys, errors, lists of slots and runs. Below the clauses of a call are their words, each with
a link to what it means: in docs/DEFINITIONS.md, or in the table at the end of the page, which is written from the comments in specs.
"""

import difflib
import os
import re
import sys

sys.dont_write_bytecode = True

import words
from sources import CONTRACTS, MAPS, TOP, facade, items_of, module_items

FIRST = "docs/API.md"
CRATE_OF = {
    "SlotMap": "slotmap_basic",
    "DenseSlotMap": "slotmap_dense",
    "HopSlotMap": "slotmap_hop",
    "SecondaryMap": "slotmap_secondary",
    "SparseSecondaryMap": "slotmap_sparse",
}

# The rows of the table of calls. A call that is in no group stands in the last one.
GROUPS = [
    ("Making a map", ["new", "with_capacity", "with_key", "with_capacity_and_key", "with_hasher",
                      "with_capacity_and_hasher", "clone", "clone_from"]),
    ("Size and memory", ["len", "is_empty", "capacity", "reserve", "try_reserve", "set_capacity", "try_set_capacity",
                         "hasher"]),
    ("Inserting", ["insert", "insert_with_key", "try_insert_with_key", "or_put", "entry", "try_entry"]),
    ("Looking up", ["contains_key", "get", "get_mut", "get_unchecked", "get_unchecked_mut", "replace"]),
    ("Several keys at once", ["can_replace", "replace_disjoint", "get_disjoint_mut", "get_disjoint_unchecked_mut"]),
    ("Removing", ["remove", "detach", "reattach", "retain", "clear", "drain", "drain_into", "keys_into"]),
    ("Iterating", ["iter", "keys", "values", "next_after", "key_at", "iter_mut", "values_mut", "keys_as_slice", "values_as_slice",
                   "as_slices", "values_as_mut_slice", "as_mut_slices"]),
    ("Pairs and lists of slots", ["extend", "extend_refs", "from_iter", "from_iter_with_hasher", "to_slots",
                                  "from_slots", "from_slots_with_hasher"]),
    ("Others", []),
]

# Traits of this library, with the page of each: an impl of one is a link to it.
OWN_TRAITS = {"Primary": "traits", "Detaching": "traits", "Secondary": "traits", "Key": "keys", "Transform": "slotmap_scene"}

# The pages in docs/api: file, title.
PAGES = {
    "slot_map": "SlotMap",
    "dense_slot_map": "DenseSlotMap",
    "hop_slot_map": "HopSlotMap",
    "secondary_map": "SecondaryMap",
    "sparse_secondary_map": "SparseSecondaryMap",
    "traits": "Traits of the maps",
    "keys": "Keys",
    "errors": "Errors",
    "lists_and_json": "Lists of slots and JSON",
    "runs": "Runs of commands",
}
PAGE_OF = {title: name for name, title in PAGES.items()}
# The crates of the structures on the maps: the main type of each, and what it is.
STRUCTURES = {
    "slotmap_list": ("StableList", "a doubly linked list with cursors"),
    "slotmap_lists": ("StableLists", "several such lists, between which elements move"),
    "slotmap_graph": ("Graph", "a directed graph, with values on nodes and edges"),
    "slotmap_entities": ("World", "an entity store with any number of kinds of components"),
    "slotmap_scene": ("Scene", "trees of nodes, with children in order"),
    "slotmap_scheduler": ("Scheduler", "jobs ordered by time, each with a handle"),
}
# What stands before the table of calls.
SAME_CALLS = [
    "Calls of one name have one meaning in the three primary maps, and one in the two secondary maps. Their clauses say where they differ.",
    "A clause of one meaning has one name in all of them.",
    "",
]
# What stands on a structure: a library of functions, with a page of its own.
PATHS = "slotmap_paths"
# What the structures share, with a page of its own.
SHARED = "slotmap_bounded"
# A library that needs no map.
ALONE = "slotmap_links"
# The calls for C.
FOR_C = "slotmap_c"
DEFINITIONS = "docs/DEFINITIONS.md"
# What a caller's clauses import.
CALLERS = "crates/slotmap/specs/Words.antt"
WRITTEN = "Written by `docs/api.py` from the sources. Don't edit it by hand: `docs/api.py --check` fails if this page is out of date."


class Page:
    def __init__(self, path):
        self.path = path
        self.lines, self.anchors, self.words = [], set(), set()

    def add(self, *lines):
        self.lines += lines

    def heading(self, level, text):
        anchor = anchor_of(text)
        if anchor in self.anchors:
            sys.exit(f"api.py: two headings have the anchor {anchor}")
        self.anchors.add(anchor)
        self.add("", "#" * level + " " + text, "")

    def text(self):
        return re.sub(r"\n{3,}", "\n\n", "\n".join(self.lines)).strip() + "\n"


def sections():
    """For each word in code of DEFINITIONS.md the anchor of its section: that in which a table has it first, or that which names it."""
    in_tables, named, anchor = {}, {}, ""
    for line in read(DEFINITIONS).split("\n"):
        if line.startswith("#"):
            anchor = anchor_of(line.lstrip("# "))
        for found, text in ((in_tables, line.split("|")[1] if line.startswith("| ") else ""), (named, line)):
            for code in re.findall(r"`([^`]+)`", text):
                for word in re.findall(r"\w+", code):
                    found.setdefault(word, anchor)
    return {**named, **in_tables}


def add_words(page, found):
    """A line with the words of clauses, each with a link to what it means."""
    places, links = sections(), []
    for word, spec in found:
        if words.is_own(spec):
            page.words.add((word, spec))
            links.append(f"[`{word}`](#word-{word})")
        elif word in places:
            links.append(f"[`{word}`](../DEFINITIONS.md#{places[word]})")
    if links:
        page.add("", "Words: " + ", ".join(dict.fromkeys(links)) + ".")


def add_table_of_words(page):
    """What the page's own words mean."""
    if not page.words:
        return
    if len({word for word, _ in page.words}) < len(page.words):
        names = [word for word, _ in page.words]
        sys.exit(f"api.py: {page.path} has two meanings of {sorted({it for it in names if names.count(it) > 1})}")
    page.heading(2, "The words of the clauses")
    page.add("From the comments in `specs`. All other words are in [DEFINITIONS.md](../DEFINITIONS.md).", "", "| Word | Meaning | File |", "|---|---|---|")
    for word, spec in sorted(page.words, key=lambda it: (it[0].lower(), it)):
        said, path, line = words.meaning_of(word, spec)
        said = said.replace("|", "\\|")
        name = path.removeprefix("crates/").replace("/specs/", "/")
        page.add(f'| <a name="word-{word}"></a>`{word}` | {said} | [{name}:{line}](../../{path}#L{line}) |')


def anchor_of(heading):
    return re.sub(r"[^\w\- ]", "", heading.lower()).replace(" ", "-")


def link(item):
    """A link to the source, from a page in docs/api."""
    return f"[{item.path.removeprefix('crates/').replace('/src/', '/')}:{item.line}](../../{item.path}#L{item.line})"


def prose(lines):
    """A doc comment as Markdown: links to items become code, and a block of code says its language."""
    found, inside = [], False
    for line in lines:
        if line.strip().startswith("```"):
            found.append(line.rstrip() + ("rust" if not inside and line.strip() == "```" else ""))
            inside = not inside
            continue
        if not inside:
            line = re.sub(r"\[(`[^`]+`)\](?:\([\w:]+\))?(?!\()", r"\1", line)
            line = re.sub(r"^#+ (.*)$", r"**\1**", line)
        found.append(line.rstrip())
    while found and not found[-1]:
        found.pop()
    return found


def dedent(lines):
    least = min((len(it) - len(it.lstrip(" ")) for it in lines if it.strip()), default=0)
    return [it[least:].rstrip() for it in lines]


def block(lines):
    lines = list(lines)
    while lines and not lines[-1].strip():
        lines.pop()
    return ["```rust", *lines, "```"]


def derives(item):
    return [it.strip() for it in item.attributes if it.strip().startswith("#[derive")]


def type_lines(item):
    """A type as it is written, with its private fields left out."""
    lines = dedent(item.lines)
    if item.kind == "struct" and len(lines) > 1:
        public = [number for number, it in enumerate(lines) if it.startswith("    pub ")]
        if not public:
            return derives(item) + [lines[0].removesuffix(" {") + " { .. }"]
    if item.kind == "struct":
        lines = [re.sub(r"\((?!pub)[^)]*\);$", "(..);", it) for it in lines]
    return derives(item) + lines


def add_summary(page, prefix, calls):
    """A table of calls, each with its first sentence."""
    page.add("", "| Call | What it does |", "|---|---|")
    for call in calls:
        sentence = call.first_sentence().replace("|", "\\|")
        page.add(f"| [`{call.name}`](#{anchor_of(prefix + call.name)}) | {sentence} |")


def add_function(page, level, title, item, block_head=""):
    page.heading(level, title)
    page.add(*block(dedent(item.lines)), "")
    page.add(*prose(item.doc))
    add_words(page, words.words_of(item, True))
    page.add("", link(item) + (f", in `{block_head}`" if block_head else ""))


def impl_lines(item):
    """An impl of a trait: its contract alone, with no bodies and no proofs. That of a trait of this library has the
    clauses of the trait."""
    lines, own = [], re.sub(r"<.*", "", item.of_trait) in OWN_TRAITS
    for member in item.members:
        if member.kind == "ghost" and member.name in CONTRACTS or member.kind in ("type", "const"):
            lines += member.lines
        elif member.kind == "fn" and not own and any(re.search(r"\b(requires|ensures)\b", it) for it in member.lines):
            lines += member.lines
    return [item.header() + " {", *[it.rstrip() for it in lines], "}"] if lines else []


def add_type(page, level, title, item, items, public_level, short=""):
    """A type with its calls and the traits that it implements. The headings of its calls begin with `short`."""
    page.heading(level, title)
    title = short or title
    page.add(*block(type_lines(item)), "")
    page.add(*prose(item.doc))
    impls = [it for it in items if it.kind == "impl" and it.of == item.name]
    seen_as = ""
    for impl in impls:
        if impl.of_trait == "Model":
            for ghost in impl.members:
                if ghost.kind == "ghost" and ghost.name == "Value":
                    value = re.search(r"\{ (.*) \}", " ".join(ghost.lines)).group(1)
                    seen_as = f" A clause sees it as `{value}`."
    own = [it for it in impls if not it.of_trait]
    calls = [(it, impl.header()) for impl in own for it in impl.members if it.kind == "fn" and it.public]
    heads = [head for _, head in calls]
    usual = max(heads, key=heads.count, default="")
    said = f" Its calls are in `{usual}`, unless another impl is named." if len(set(heads)) > 1 else ""
    if len(set(heads)) == 1:
        said = f" Its calls are in `{usual}`."
    page.add("", link(item) + ("." + seen_as + said if seen_as or said else ""))
    order = [it for _, names in GROUPS for it in names]
    calls.sort(key=lambda it: order.index(it[0].name) if it[0].name in order else len(order))
    if len(calls) > 8:
        add_summary(page, title + "::", [it for it, _ in calls])
    for member, head in calls:
        add_function(page, public_level, f"{title}::{member.name}", member, head if head != usual else "")
    bare, shown = [], []
    for impl in impls:
        name = re.sub(r"<.*", "", impl.of_trait)
        if not impl.of_trait or name == "Model":
            continue
        lines = impl_lines(impl)
        if lines:
            shown.append((impl, lines))
        if name in OWN_TRAITS or not lines:
            target = f"{OWN_TRAITS[name]}.md#{anchor_of(name)}" if name in OWN_TRAITS else f"../../{impl.path}#L{impl.line}"
            bare.append(f"[`{impl.of_trait}`]({target})")
    if bare or shown:
        page.heading(public_level, f"{title}: traits")
        if bare:
            page.add("Implements " + ", ".join(bare) + (", and:" if shown else "."), "")
        if shown:
            page.add("```rust")
            for _, lines in shown:
                page.add(*lines, "")
            page.lines[-1] = "```"
            add_words(page, sorted({it for impl, _ in shown for it in words.words_of(impl)}, key=lambda it: (it[0].lower(), it)))
            page.add("", ", ".join(link(impl) for impl, _ in shown))


def add_trait(page, level, item):
    page.heading(level, item.name)
    page.add(*prose(item.doc), "")
    lines = [item.header() + " {"]
    for member in item.members:
        if member.kind in ("ghost", "const") and member.name != "use":
            lines += member.lines
    page.add(*block([*lines, "}"] if len(lines) > 1 else [item.header()]))
    add_words(page, sorted({it for member in item.members if member.kind == "ghost" for it in words.words_of(member, True)}, key=lambda it: (it[0].lower(), it)))
    page.add("", link(item))
    add_summary(page, item.name + ": ", [it for it in item.members if it.kind == "fn"])
    for member in item.members:
        if member.kind == "fn":
            add_function(page, level + 1, f"{item.name}: {member.name}", member)


def calls_of(name, items):
    """The public calls of a type, by name."""
    return {
        member.name: member
        for impl in items
        if impl.kind == "impl" and impl.of == name and not impl.of_trait
        for member in impl.members
        if member.kind == "fn" and member.public
    }


def add_table(page, all_items):
    calls = {name: calls_of(name, all_items[CRATE_OF[name]]) for name in MAPS}
    grouped = {it for _, names in GROUPS for it in names}
    others = sorted({it for mine in calls.values() for it in mine} - grouped)
    page.add("| | " + " | ".join(MAPS) + " |", "|---|" + ":---:|" * len(MAPS))
    for title, names in GROUPS:
        names = [it for it in names or others if any(it in mine for mine in calls.values())]
        if names:
            page.add(f"| **{title}** |" + " |" * len(MAPS))
        for name in names:
            cells = [
                f"[yes](api/{PAGE_OF[it]}.md#{anchor_of(f'{it}::{name}')})" if name in calls[it] else "–" for it in MAPS
            ]
            page.add(f"| `{name}` | " + " | ".join(cells) + " |")


def add_table_of_structures(page):
    """Which structure has which call: those of several structures first, and then those of each alone."""
    calls = {name: calls_of(name, module_items(crate, "")[1]) for crate, (name, _) in STRUCTURES.items()}
    crates = {name: crate for crate, (name, _) in STRUCTURES.items()}
    names = list(dict.fromkeys(it for mine in calls.values() for it in mine))
    order = [it for _, listed in GROUPS for it in listed]
    names.sort(key=lambda it: order.index(it) if it in order else len(order))

    def cell(name, call):
        return f"[yes](api/{crates[name]}.md#{anchor_of(f'{name}::{call}')})" if call in calls[name] else "–"

    shared = [it for it in names if sum(it in mine for mine in calls.values()) > 1]
    page.add("| | " + " | ".join(f"`{it}`" for it in calls) + " |", "|---|" + ":---:|" * len(calls))
    for call in shared:
        page.add(f"| `{call}` | " + " | ".join(cell(it, call) for it in calls) + " |")
    page.add("", "| Of one structure | Calls |", "|---|---|")
    for name, crate in crates.items():
        alone = [f"[`{it}`](api/{crate}.md#{anchor_of(f'{name}::{it}')})" for it in calls[name] if it not in shared]
        page.add(f"| `{name}` | {', '.join(alone)} |")


def new_page(name, title):
    page = Page(f"docs/api/{name}.md")
    page.add(f"# {title}", "", WRITTEN, "The [first page](../API.md) says how to read it.", "")
    page.anchors.add(anchor_of(title))
    return page


def pages_of_structures():
    """A page for each structure."""
    for crate in [*STRUCTURES, PATHS, SHARED, ALONE]:
        head, items = module_items(crate, "")
        page = new_page(crate, crate)
        listed = crate if crate == ALONE else f"slotmap slotmap_graph {crate}" if crate == PATHS else f"slotmap {crate}"
        page.add(f"To use it, list `{listed}` in `crates.txt`.", "", *prose(head), "")
        for item in items:
            if not item.public or item.kind not in ("struct", "enum", "type", "fn", "trait"):
                continue
            if item.kind == "trait":
                add_trait(page, 2, item)
            elif item.kind == "fn":
                add_function(page, 2, item.name, item)
            else:
                add_type(page, 2, item.name, item, items, 3)
        add_table_of_words(page)
        yield page


def page_for_c():
    """The exports for C, with their contracts."""
    page = new_page(FOR_C, "The calls for C, with their contracts")
    page.add("[C.md](../C.md) says how to use them, and [slotmap.h](../../c/slotmap.h) documents each for a caller.", "", *prose(module_items(FOR_C, "")[0]), "")
    calls = words.public_items(FOR_C)
    add_summary(page, "", calls)
    for item in calls:
        add_function(page, 2, item.name, item)
    add_table_of_words(page)
    return page


def first_page(all_items):
    page = Page(FIRST)
    page.add(
        "# The public items and their contracts",
        "",
        WRITTEN,
        "",
        "There is a page for each map and for each structure. Each item has its whole comment, its signature and its",
        "clauses, as in the source, and a link to the source. Below the clauses are their words, each with a link to what it",
        "means: in [DEFINITIONS.md](DEFINITIONS.md), or at the end of a structure's page. In a clause `result` is what the call returns. Of a `&self`, `self.now` is the",
        "map. Of a `&mut self`, `self.old` is the map before the call and `self.new` the map after it. A clause with a",
        "star is about a loan: what is written through the returned reference. Such a clause names the reference as it",
        "was passed: `self.entry`. Each function is proved to meet its clauses.",
        "",
        "- The maps: " + ", ".join(f"[`{it}`](api/{PAGE_OF[it]}.md)" for it in MAPS) + ".",
        "- What they share: "
        + ", ".join(f"[{title[0].lower() + title[1:]}](api/{name}.md)" for name, title in PAGES.items() if title not in MAPS)
        + ".",
        "- [Structures](#structures) on the maps.",
    )
    page.heading(2, "Which map has which call")
    page.add(*SAME_CALLS)
    add_table(page, all_items)
    page.heading(2, "Structures")
    page.add("Each is a crate of its own. They share two more:", "")
    page.add(f"- [`{SHARED}`](api/{SHARED}.md) has a slot map whose indices stay within a bound, for structures with tables beside it: for `StableList`, `StableLists`, `Graph` and `Scene`.")
    page.add("  All but `World` and `Scheduler` take the words of lists of keys from there.")
    page.add(f"- [`{ALONE}`](api/{ALONE}.md) needs no map: it has lists of numbers that are kept as links, one list for each owner.", "")
    page.add("| Type | What it is |", "|---|---|")
    for crate, (name, what) in STRUCTURES.items():
        page.add(f"| [`{crate}::{name}`](api/{crate}.md) | {what} |")
    page.add("", f"On the graph stands [`{PATHS}`](api/{PATHS}.md): the shortest paths from a node, by costs in a table, a depth first order, and the strongly connected components.", "", "These are the calls of the structures:", "")
    add_table_of_structures(page)
    page.heading(2, "Calls for C")
    page.add(f"The exports of the static library have [a page](api/{FOR_C}.md) with their contracts. [C.md](C.md) says how to use them.")
    page.heading(2, "Words that callers import")
    page.add("A caller imports the words of clauses from `Rattle.slotmap.specs.Words`, under the names that they have there. Variants of replies and",
        "commands have another name, since the types share names:", "")
    page.add("| Of the type | The variant | The caller's word |", "|---|---|---|")
    page.add(*renamed_words())
    return page


def renamed_words():
    """The rows of the words that callers import under another name."""
    rows = []
    for crate, module, names in re.findall(r"(?m)^pub use Rattle\.(\w+)\.specs\.([\w.]+)\.\{([^}]*)\}$", read(CALLERS)):
        where = f"`{module.split('.')[-2] if '.' in module else module + '.antt'}` of `{crate}`"
        rows += [f"| {where} | `{one}` | `{other}` |" for one, _, other in (it.partition(" as ") for it in names.split(", ")) if other]
    return rows


def all_pages():
    exported = facade()
    crates = sorted({crate for _, crate, _ in exported})
    all_items = {crate: items_of(crate) for crate in crates}
    left = list(exported)

    def find(crate, name):
        for item in all_items[crate]:
            if item.public and item.name == name:
                return item
        sys.exit(f"api.py: {crate} has no public item {name}")

    def take(module, kinds):
        """The re-exported items of a module, of these kinds, which then count as done."""
        found = []
        for entry in list(left):
            if entry[0] == module:
                item = find(entry[1], entry[2])
                if item.kind in kinds:
                    left.remove(entry)
                    found.append((entry[1], item))
        return found

    pages = {name: new_page(name, title) for name, title in PAGES.items()}
    for name, module in MAPS.items():
        crate, page = CRATE_OF[name], pages[PAGE_OF[name]]
        left.remove(("", crate, name))
        left.remove((module, crate, name))
        page.add(*prose(module_items(crate, "")[0]), "")
        add_type(page, 2, f"{name}: the type", find(crate, name), all_items[crate], 3, name)
        for _, item in take(module, ("struct", "enum", "type")):
            add_type(page, 2, f"{module}::{item.name}", item, all_items[crate], 3)

    page = pages["traits"]
    page.add("`SlotMap`, `DenseSlotMap` and `HopSlotMap` implement `Primary`, the first two of them `Detaching` too.")
    page.add("`SecondaryMap` and `SparseSecondaryMap` implement `Secondary`.")
    traits = sorted(take("", ("trait",)), key=lambda it: (it[1].path, it[1].line))
    for _, item in traits:
        add_trait(pages[OWN_TRAITS[item.name]], 2, item)

    kept = sorted(take("", ("struct", "enum", "type", "fn")), key=lambda it: (it[1].path, it[1].line))

    def section(name, chosen):
        for crate, item in [it for it in kept if chosen(it[1])]:
            kept.remove((crate, item))
            if item.kind == "fn":
                add_function(pages[name], 2, item.name, item)
            else:
                add_type(pages[name], 2, item.name, item, all_items[crate], 3)

    section("keys", lambda it: "/keys" in it.path)
    section("errors", lambda it: it.path.endswith("/errors.rt"))
    section("lists_and_json", lambda it: it.path.endswith(("/serial.rt", "/slotmap_json/src/lib.rt")))
    section("runs", lambda it: True)
    if left:
        sys.exit(f"api.py: no section has {left}")
    return [first_page(all_items), *pages.values(), *pages_of_structures(), page_for_c()]


def read(path):
    if not os.path.exists(os.path.join(TOP, path)):
        return ""
    with open(os.path.join(TOP, path), encoding="utf-8") as file:
        return file.read()


def main():
    if sys.argv[1:] not in ([], ["--check"]):
        sys.exit("usage: docs/api.py [--check]")
    pages = {page.path: page.text() for page in all_pages()}
    folder = os.path.join(TOP, "docs/api")
    os.makedirs(folder, exist_ok=True)
    stale = 0
    for old in sorted(f"docs/api/{it}" for it in os.listdir(folder)):
        if old not in pages:
            stale += 1
            print(f"{old} is a page of no item")
    for path, text in pages.items():
        old = read(path)
        if old == text:
            continue
        if sys.argv[1:] == ["--check"]:
            stale += 1
            changes = list(difflib.unified_diff(old.split("\n"), text.split("\n"), path, "the sources", "", "", 1))
            print("\n".join(changes[:20]))
            print(f"{path} is out of date ({len(changes)} lines of changes): run docs/api.py")
        else:
            with open(os.path.join(TOP, path), "w", encoding="utf-8") as file:
                file.write(text)
    return 1 if stale else 0


if __name__ == "__main__":
    sys.exit(main())
