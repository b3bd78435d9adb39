"""The page of words: what each word of a public clause means, with its definition from crates/*/specs, and those it rests on."""
import functools
import os
import re
import sys
import textwrap

TOP = os.path.dirname(os.path.dirname(os.path.dirname(os.path.abspath(__file__))))
sys.dont_write_bytecode = True
sys.path.insert(0, os.path.join(TOP, "docs"))

# docs/definitions.py and docs/words.py
import words
from definitions import cited_by, declared_at, files, reached_from
from words import TOLD_WITH, clauses_of, fields_below, note_words, public_items

from .tokens import Bad

words.imports_of = functools.cache(words.imports_of)

# The libraries whose clauses the crate shows, with the heading of each one's words.
LIBRARIES = {"slotmap_core": "Keys, contents and runs", "slotmap_slots": "Slots", "slotmap_basic": "SlotMap", "slotmap_dense": "DenseSlotMap",
    "slotmap_hop": "HopSlotMap", "slotmap_secondary": "SecondaryMap", "slotmap_sparse": "SparseSecondaryMap", "slotmap_run": "Runs", "slotmap_json": "JSON",
    "slotmap_links": "Links", "slotmap_bounded": "Lists of keys", "slotmap_list": "StableList", "slotmap_lists": "StableLists", "slotmap_graph": "Graph",
    "slotmap_paths": "Searches in a graph", "slotmap_scene": "Scene", "slotmap_entities": "World", "slotmap_scheduler": "Scheduler"}
SHOWN = [it for it in LIBRARIES if it not in ("slotmap_slots", "slotmap_links", "slotmap_bounded")]
# The section of docs/DEFINITIONS.md that is of these files alone.
SPECIAL = {"Packed order": r"slotmap_dense/", "Blocks of vacant": r"slotmap_hop/", "Values under": r"slotmap_(secondary|sparse)/|specs/Secondary"}
OF_MAPS = re.compile(r"crates/slotmap_(core|slots|basic|dense|hop|secondary|sparse|run|json)/")


class Entry:
    """A word of the page: a definition, or a field or case of one."""

    def __init__(self, word, spec, definition, holder):
        self.word, self.spec, self.definition, self.holder = word, spec, definition, holder

    def crate(self):
        return self.spec.split("/")[1]

    def lines(self):
        """Its text: a definition without what stands around it, a field with the comment above it."""
        return self.definition.lines if self.definition else field_lines(self.word, self.spec)


def field_lines(word, spec):
    lines = files()[spec].lines
    for number, line in enumerate(lines):
        if re.match(rf" +(?:pub )?{re.escape(word)}\b[^:]* :", line):
            first = number
            while re.match(r" +pub \w+ :", lines[first - 1]) or lines[first - 1].strip().startswith("--"): first -= 1
            above = [it for it in lines[first:number] if it.strip().startswith("--")]
            return above + [line]
    raise Bad(f"{spec} doesn't declare {word}")


def entry_of(word, spec):
    definition = declared_at(word, spec)
    if definition: return Entry(definition.name, definition.path, definition, None)
    lines = field_lines(word, spec)
    holder = next((it for it in files()[spec].definitions.values() if lines[-1] in it.lines), None)
    return Entry(word, spec, None, holder)


@functools.cache
def words_in(path, text):
    """The words of these clauses of a file: each with the file that defines it. A clause's own name is no word."""
    found = {}
    text = re.sub(r"\b(ensures|requires)(\*?) \w+ \{", r"\1\2 {", text)
    item = type("Clauses", (), {"path": path})
    note_words(found, item, [re.sub(r"//.*", "", text)], fields_below(path.split("/")[1]))
    return sorted(found, key=lambda it: (it[0].lower(), it))


@functools.cache
def clauses_shown():
    """The public clauses of the crate, each with the file that it is of."""
    items = [item for crate in SHOWN for item in public_items(crate)]
    return [(item.path, clause) for item in items for clause in clauses_of(item, item.kind == "fn")]


@functools.cache
def entries():
    """All words of the page, by crate and name."""
    found = {}
    for path, clause in clauses_shown():
        for word, spec in words_in(path, clause):
            entry = entry_of(word, spec)
            found[entry.spec, entry.word] = entry
    first = [it.definition or it.holder for it in found.values()]
    for definition in reached_from([it for it in first if it]):
        found.setdefault((definition.path, definition.name), Entry(definition.name, definition.path, definition, None))
    return found


@functools.cache
def anchors():
    """The heading and the anchor of each word: where two have one name, the file stands with it."""
    every, count = entries(), {}
    for _, word in every: count[word.lower()] = count.get(word.lower(), 0) + 1
    named = {}
    for spec, word in every:
        file = re.sub(r"^crates/|specs/|\.antt$", "", spec).replace("/", ", ")
        named[spec, word] = f"`{word}`" if count[word.lower()] == 1 else f"`{word}` of {file}"
    return {key: (heading, anchor_of(heading)) for key, heading in named.items()}


def anchor_of(heading):
    """As rustdoc makes them."""
    return re.sub(r"\s", "-", re.sub(r"[^\w\s-]", "", heading)).lower()


def key_of(word, spec):
    definition = declared_at(word, spec)
    return (definition.path, definition.name) if definition else (spec, word)


def links_of(path, text):
    """The words of clauses, each with a link to this page."""
    links = []
    for word, spec in words_in(path, text):
        key = key_of(word, spec)
        if key in anchors(): links.append(f"[`{word}`](crate::words#{anchors()[key][1]})")
    return list(dict.fromkeys(links))


@functools.cache
def rows():
    """The rows of docs/DEFINITIONS.md: for each word the sections that have it in a table, with what they say."""
    found, section = {}, ""
    with open(os.path.join(TOP, "docs/DEFINITIONS.md"), encoding="utf-8") as file:
        for line in file:
            if line.startswith("## "): section = line[3:].strip()
            cells = re.split(r"(?<!\\)\|", line.strip().strip("|"))
            if not line.startswith("| `") or len(cells) < 2: continue
            for code in re.findall(r"`([^`]+)`", cells[0]):
                found.setdefault(re.findall(r"\w+", code)[0], []).append((section, cells[-1].strip()))
    return found


def row_of(entry):
    """What docs/DEFINITIONS.md says of a word of the maps."""
    if not OF_MAPS.match(entry.spec): return ""
    said = rows().get(entry.word, [])
    own = [text for section, text in said if any(section.startswith(start) and re.search(spec, entry.spec) for start, spec in SPECIAL.items())]
    by_file = [text for section, text in said if f"`{os.path.basename(entry.spec)}`" in section]
    other = [text for section, text in said if not any(section.startswith(start) for start in SPECIAL)]
    return next(iter(own or by_file or other), "")


def sentence(text):
    text = re.sub(r"\[([^\]]+)\]\([^)]*\)", r"\1", text).strip()
    if not text: return ""
    return text[0].upper() + text[1:] + ("" if text[-1] in ".!?" else ".")


def said_of(entry):
    """The sentence of a word: that of docs/DEFINITIONS.md, else the comment above its definition."""
    if row_of(entry): return sentence(row_of(entry))
    if not entry.definition:
        return sentence(" ".join(it.strip()[2:].strip() for it in entry.lines()[:-1]))
    teller = TOLD_WITH.get(entry.word)
    comment = entry.definition.comment or (declared_at(teller, entry.spec).comment if teller else [])
    return sentence(" ".join(comment))


def link(key):
    heading, anchor = anchors()[key]
    return f"[`{key[1]}`](#{anchor})"


def section(key, entry):
    heading, _ = anchors()[key]
    file = re.sub(r".*/specs/", "", entry.spec)
    said = [said_of(entry).replace("|", r"\|")] if said_of(entry) else []
    if entry.holder: said.append(f"A part of {link((entry.spec, entry.holder.name))}.")
    lines = [f"## {heading}", "", " ".join(said), "", "```text", *textwrap.dedent("\n".join(entry.lines())).strip("\n").split("\n"), "```", ""]
    cited = cited_by(entry.definition) if entry.definition else []
    links = [link((it.path, it.name)) for it in cited if (it.path, it.name) in anchors()]
    return lines + [f"In `{file}`." + (f" It uses {', '.join(links)}." if links else ""), ""]


def page():
    """The text of words.md."""
    with open(os.path.join(os.path.dirname(__file__), "how_to_read.txt"), encoding="utf-8") as file:
        head = file.read()
    check_signs(head)
    out = ["<!-- Written by the eraser from crates/*/specs and docs/DEFINITIONS.md. -->", "", head]
    for crate, title in LIBRARIES.items():
        mine = {key: entry for key, entry in entries().items() if entry.crate() == crate}
        if not mine: continue
        out += [f"# {title}: the words of {crate}", ""]
        for key in sorted(mine, key=lambda it: (it[1].lower(), it)): out += section(key, mine[key])
    dangling = set(re.findall(r"\]\(#([^)]+)\)", head)) - {anchor for _, anchor in anchors().values()}
    if dangling: raise Bad(f"how_to_read.txt has links to no word: {dangling}")
    return re.sub(r"\n{3,}", "\n\n", "\n".join(out)).strip() + "\n"


@functools.cache
def imports_of_rattle(path):
    """What a file imports of Rattle's own definitions, and its names for whole modules of them. Types of Rust are left out."""
    with open(os.path.join(TOP, path), encoding="utf-8") as file:
        text = file.read()
    names, modules = set(), set()
    for crate, module, listed, alias in re.findall(r"ghost use Rattle\.(\w+)\.specs\.([\w.]+?)(?:\.\{([^}]*)\}| as (\w+));", text):
        if os.path.isdir(os.path.join(TOP, "crates", crate)) or module.startswith("declared"): continue
        if alias: modules.add(alias)
        names |= {it.strip().split(" as ")[-1] for it in listed.split(",") if it.strip()}
    return names, modules


def check_signs(head):
    """Each word of Rattle's own in a public clause stands in a table at the head of the page."""
    cells = " ".join(line.split(" | ")[0] for line in head.split("\n") if line.startswith("| "))
    told = set(re.findall(r"[\w.]+|[^\w\s`|,]+", " ".join(re.findall(r"`([^`]+)`", cells))))
    lacking = {}
    for path, clause in clauses_shown():
        names, modules = imports_of_rattle(path)
        for name in names:
            sign = name.replace("◌", "")
            used = re.search(rf"(?<![\w.]){re.escape(sign)}(?!\w)", clause) if re.match(r"\w+$", sign) else sign in clause
            if used and sign not in told and sign != "map": lacking.setdefault(sign, path)
        for module in modules:
            for name in re.findall(rf"(?<![\w.]){module}\.(\w+)", clause):
                if f"{module}.{name}" not in told: lacking.setdefault(f"{module}.{name}", path)
    if lacking: raise Bad(f"how_to_read.txt doesn't say what these are: {lacking}")
