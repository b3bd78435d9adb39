#!/usr/bin/env python3
"""Writes the tables of docs/PERFORMANCE.md, and that of the maps in README.md, from compare/bench/results.tsv. With --check
nothing is written.

It fails where a table is out of date, where an operation that is slower than 1.25 times the Rust crate's, in instructions or in
time at any size, has no cause in the page, and where a cause is given for one that isn't, or at a size at which it isn't. It also
fails where the figures don't bear out what README.md says of the maps, where README.md says something of their speed or memory that
no figure is compared with, and where docs/STRUCTURES.md has other figures.
"""

import math
import os
import re
import sys
import textwrap

sys.dont_write_bytecode = True

TOP = os.path.dirname(os.path.dirname(os.path.abspath(__file__)))
sys.path.insert(0, os.path.join(TOP, "compare/bench"))

import operations
import results

PAGE = os.path.join(TOP, "docs/PERFORMANCE.md")
README = os.path.join(TOP, "README.md")
STRUCTURES = os.path.join(TOP, "docs/STRUCTURES.md")
FIGURES = os.path.join(TOP, "compare/bench/results.tsv")
MAPS = {it.name: it for it in operations.MAPS}
PRIMARY, SECONDARY = ["basic", "dense", "hop"], ["secondary", "sparse", "folded"]
VALUED = [f"{it}-values" for it in PRIMARY]
HEADS = {name: f"`{it.type}`" for name, it in MAPS.items()} | {"folded": "`SparseSecondaryMap`, both with a folding hasher"}
SLOW = 1.25
TIMES = (1_000, 100_000, 1_000_000)
# Two figures of which one is this much larger aren't the same.
APART = 1.05

# The lines of the table of the maps: what, and the operation of the primary and of the secondary maps. README has those that
# are marked.
CHOICES = [
    ("`insert`, from an empty map", "insert", "insert", True),
    ("`get` of a live or present key", "get-live", "get", True),
    ("`get` of a stale or absent key", "get-stale", "get-absent", True),
    ("a removal and an insert", "churn", "churn", True),
    ("a step of `iter`, all slots live", "iter-full", "iter", True),
    ("a step of `iter`, a random half live", "iter-half", "", False),
    ("a step of `iter`, a random 1 in 10 live", "iter-tenth", "", False),
    ("a step of `iter`, 1 slot in 100 live", "iter-few", "", True),
]


def read(path):
    with open(path, encoding="utf-8") as file:
        return file.read()


class Figures:
    def __init__(self):
        self.rows = results.read(FIGURES)
        operations.leave_out_unmeasured(self.rows)

    def row(self, measure, kind, operation, slots):
        return self.rows.get((measure, kind, operation, slots))

    def ratios(self, measure, kind, slots):
        """The ratios of all operations of a map, or none where one wasn't measured."""
        found = [self.row(measure, kind, it.name, slots) for it in operations.operations_of(MAPS[kind])]
        return [it.ratio for it in found] if all(found) else []


def table(head, rows):
    lines = ["| " + " | ".join(it) + " |" for it in [head, *rows]]
    return "\n".join([lines[0], "|" + "---|" * len(head), *lines[1:]])


def number(slots):
    return f"{slots:,}"


def mean(ratios):
    return math.exp(sum(math.log(it) for it in ratios) / len(ratios))


def mean_text(ratios):
    return f"{mean(ratios):.2f}" if ratios else "?"


def family(kinds):
    return operations.FAMILIES[MAPS[kinds[0]].family]


def both(few, many):
    """A ratio of instructions at 1,000 slots, and in brackets at 100,000 where that is another figure."""
    is_apart = many and max(few, many) > APART * min(few, many)
    return f"**{few:.2f}**" + (f" ({many:.2f})" if is_apart else "")


def costs(figures, kinds):
    """What each operation costs as a part of what it costs in Rust: instructions at 1,000 slots, in brackets at 100,000 where that
    is another figure; and then the time at each number of slots. The means are below."""

    def cell(kind, operation):
        few, many = (figures.row("instructions", kind, operation.name, it) for it in (1_000, 100_000))
        found = [figures.row("time", kind, operation.name, it) for it in TIMES]
        spent = " · ".join(f"{it.ratio:.2f}" if it else "?" for it in found)
        return f"{both(few.ratio, many.ratio if many else 0)} · {spent}" if few else "-"

    rows = [[it.title, *[cell(kind, it) for kind in kinds]] for it in family(kinds)]
    means = []
    for kind in kinds:
        few, many = (figures.ratios("instructions", kind, it) for it in (1_000, 100_000))
        spent = " · ".join(mean_text(figures.ratios("time", kind, it)) for it in TIMES)
        means.append(f"{both(mean(few), mean(many) if many else 0)} · {spent}" if few else "?")
    return table(["What", *[HEADS[it] for it in kinds]], [*rows, ["geometric mean", *means]])


def layout(figures):
    """A `SlotMap` beside the model of its layout, and the model beside the Rust crate's map. The product of both ratios is that of
    the table of costs. The second is divided from the other two, whose runs alternate; times have too few digits for that."""

    def cell(operation, ratio):
        places = [("instructions", 1_000), ("instructions", 100_000), *[("time", it) for it in TIMES]]
        rows = [[figures.row(measure, kind, operation, slots) for kind in ("columns", "basic")] for measure, slots in places]
        few, many, *spent = [ratio(*it) if all(it) else 0 for it in rows]
        return " · ".join([both(few, many) if few else "?", *[f"{it:.2f}" if it else "?" for it in spent]])

    def of_the_port(model, _):
        return model.ratio

    def of_the_layout(model, crate):
        return crate.ratio / model.ratio

    rows = [
        [it.title, cell(it.name, of_the_port), cell(it.name, of_the_layout)]
        for it in operations.operations_of(MAPS["columns"])
    ]
    return table(["What", "here / the model", "the model / in Rust"], rows)


def choices(figures, is_short):
    """What a chooser needs: nanoseconds at the smallest and at the largest size, and bytes for a key, of the five maps."""
    kinds = [*PRIMARY, "secondary", "sparse"]

    def cell(kind, operation):
        found = [figures.row("time", kind, operation, it) for it in (TIMES[0], TIMES[-1])]
        return " · ".join(f"{it.port:.1f}" + ("" if is_short else f" / {it.rust:.1f}") for it in found) if operation and all(found) else "-"

    def size(kind, values):
        row = figures.row("memory", f"{kind}-values", f"insert-{values}", 1_000_000) or (
            figures.row("memory", kind, "insert", 1_000_000) if values == "u64" else None)
        return f"{row.port:.0f}" if row else "-"

    rows = [
        [title, *[cell(kind, primary if kind in PRIMARY else secondary) for kind in kinds]]
        for title, primary, secondary, in_readme in CHOICES
        if in_readme or not is_short
    ]
    if not is_short:
        grown = [figures.row("time", it, "insert", 10_000_000) for it in kinds]
        rows.insert(1, ["`insert`, from an empty map to 10,000,000 keys", *[f"{it.port:.1f} / {it.rust:.1f}" if it else "-" for it in grown]])
    rows.append(["bytes for a key, at values of 8 · 32 bytes", *[f"{size(it, 'u64')} · {size(it, 'words4')}" for it in kinds]])
    return table(["", *[HEADS[it] for it in kinds]], rows)


def spread(rows):
    """How far apart the quartiles of the ratios of times are, as a part of the median: in the middle row, and in the worst."""
    wide = sorted((it.most - it.least) / it.ratio for it in rows)
    return f" ({wide[len(wide) // 2]:.2f} to {wide[-1]:.2f})"


def summary(figures):
    """The means of all maps, the greatest ratios, and the spread of times."""

    def cell(measure, kind, slots):
        found = figures.ratios(measure, kind, slots)
        if not found:
            return "-"
        rows = [figures.row(measure, kind, it.name, slots) for it in operations.operations_of(MAPS[kind])]
        return f"**{mean(found):.2f}**, to {max(found):.2f}" + (spread(rows) if measure == "time" else "")

    rows, kinds = [], PRIMARY + SECONDARY
    for measure, sizes in (("instructions", (1_000, 100_000)), ("time", TIMES)):
        for slots in sizes:
            rows.append([f"{measure}, {number(slots)} slots", *[cell(measure, kind, slots) for kind in kinds]])
    return table(["", *[HEADS[it] for it in kinds]], rows)


def values(figures):
    """Some operations with values of several sizes: the ratios of instructions and of time."""

    def cell(kind, operation, measure, slots):
        found = [figures.row(measure, kind, f"{operation}-{it}", slots) for it in operations.VALUES]
        return " · ".join(f"{it.ratio:.2f}" if it else "?" for it in found)

    rows = []
    for one in operations.VALUED_ALONE:
        for measure, slots in (("instructions", 1_000), ("time", 100_000)):
            rows.append([f"{one.title}: {measure}", *[cell(kind, one.name, measure, slots) for kind in VALUED]])
    return table(["What", *[HEADS[it] for it in PRIMARY]], rows)


def stepped(figures):
    """A SecondaryMap in step with a SlotMap."""

    def cell(measure, operation, slots):
        row = figures.row(measure, "stepped", operation, slots)
        return f"{row.port:.1f} / {row.rust:.1f} = **{row.ratio:.2f}**" if row else "?"

    rows = [
        [it.title, cell("instructions", it.name, 1_000), cell("time", it.name, 100_000)] for it in operations.STEPPED
    ]
    return table(["What", "instructions, 1,000 keys", "nanoseconds, 100,000 keys"], rows)


def structures(figures):
    """The structures beside code of the usual form: the ratios of instructions and of times."""

    def cell(measure, kind, operation, slots):
        row = figures.row(measure, kind, operation, slots)
        return f"{row.port:.1f} / {row.rust:.1f} = **{row.ratio:.2f}**" if row else "?"

    rows = [
        [f"{structure_of(kind)}: {it.title}", *[cell(*place) for place in places_of(kind, it.name)]]
        for kind in operations.STRUCTURES
        for it in operations.operations_of(MAPS[kind])
        if figures.row("instructions", kind, it.name, 1_000) and not operations.is_first(it)
    ]
    return table(["What", "instructions, 1,000 keys", "nanoseconds, 1,000 keys", "nanoseconds, 100,000 keys"], rows)


def buildings(figures):
    """Structures that are built in rounds, or as the first thing of a process, without and with room."""

    def cell(measure, kind, op, slots):
        row = figures.row(measure, kind, op.name, slots)
        if measure == "time" and not operations.is_first(op):
            return "above" if row else "?"
        if not row:
            return "?"
        if measure == "faults":
            return f"{row.port:,.0f} / {row.rust:,.0f}"
        return f"{row.port:.1f} / {row.rust:.1f} = **{row.ratio:.2f}**"

    sizes = (1_000, 100_000)
    built = [(kind, it) for kind in operations.STRUCTURES for it in operations.operations_of(MAPS[kind]) if figures.row("faults", kind, it.name, sizes[0])]
    told = [it for it in BUILD_MEASURES if any(figures.row(it, kind, op.name, sizes[0]) for kind, op in built if operations.is_first(op))]
    rows = [
        [f"{structure_of(kind)}: {op.title}", *[" · ".join(cell(measure, kind, op, size) for size in sizes) for measure in told]]
        for kind, op in built
    ]
    return table(["What, at 1,000 · 100,000 keys", *[BUILD_MEASURES[it] for it in told]], rows)


# What is told of a structure that is built.
BUILD_MEASURES = {"instructions": "instructions", "faults": "page faults of a round", "time": "nanoseconds"}

# The codes beside which a structure is measured once more.
OTHERS = {
    "ordered": ", the other with links both ways",
    "petgraph": ", the other petgraph's `StableGraph`",
    "stamped": ", the other with links as wide as indextree's",
}


def structure_of(kind):
    """What a row calls a structure, and which of several other codes it is beside."""
    return f"`{MAPS[kind].type}`" + OTHERS.get(kind, "")


def places_of(kind, operation):
    measures = [("instructions", 1_000), ("time", 1_000), ("time", 100_000)]
    return [(measure, kind, operation, slots) for measure, slots in measures]


def memory_structures(figures):
    """The bytes for an element, an edge, a node and a job of a structure that grows from nothing."""
    rows = []
    for kind in operations.STRUCTURES:
        for it in operations.operations_of(MAPS[kind]):
            row = figures.row("memory", kind, it.name, 1_000_000)
            if row:
                rows.append([f"{structure_of(kind)}: {it.title}", f"{row.port:.1f} / {row.rust:.1f} = **{row.ratio:.2f}**"])
    return table(["Bytes, after", "1,000,000 keys"], rows)


def called(kind, chosen):
    """The operations of a map that are of one kind of call: steps of iterators, inserts of new keys, or all others."""

    def which(name):
        return "iterator" if name.startswith(("iter", "keys", "values")) else "insert" if name.startswith("insert") else "other"

    return [it.name for it in operations.operations_of(MAPS[kind]) if which(it.name) == chosen]


def times_of(figures, kind, names):
    """For each size the ratios of the times of these operations."""
    return [[figures.row("time", kind, it, slots).ratio for it in names] for slots in TIMES]


def kinds_of_calls(figures):
    """The means of the ratios of times by kind of call."""
    kinds = PRIMARY + SECONDARY

    def cell(kind, chosen):
        return " · ".join(mean_text(it) for it in times_of(figures, kind, called(kind, chosen)))

    titles = {"iterator": "a step of an iterator", "insert": "an insert of a new key", "other": "all other calls"}
    rows = [[title, *[cell(kind, it) for kind in kinds]] for it, title in titles.items()]
    return table(["Mean ratio of times", *[HEADS[it] for it in kinds]], rows)


def span(ratios):
    """From the least to the greatest of some ratios."""
    least, most = f"{min(ratios):.1f}", f"{max(ratios):.1f}"
    return least if least == most else f"{least} to {most}"


def beside_rust(figures):
    """What README says of the maps beside the Rust crate's, and of the structures beside plain code."""
    iterators, others = ([mean(it) for it in times_of(figures, "basic", called("basic", chosen))] for chosen in ("iterator", "other"))
    inserts = sum(times_of(figures, "basic", called("basic", "insert")), [])
    found = sum(times_of(figures, "basic", ["get-live"]), [])
    means = {it: [mean(figures.ratios("time", it, slots)) for slots in TIMES] for it in PRIMARY + SECONDARY}
    built = [figures.row("instructions", kind, BUILT[kind][0], 1_000).ratio for kind in BUILT]
    spent = [figures.row("time", kind, BUILT[kind][0], 100_000).ratio for kind in BUILT]
    return (
        f"A `SlotMap`'s iterators take {span(iterators)} times as long as the Rust crate's, in the geometric mean. Its inserts take {span(inserts)} times as long, "
        f"since it keeps three vectors, and its look-ups of live keys {span(found)}. All calls but iterators and inserts take {span(others)} in the mean. "
        f"The other maps take {span(means['dense'] + means['hop'] + means['secondary'])} in all. Only the sparse one takes {span(means['sparse'])}, mostly by "
        f"its hasher: beside Rust's map with one like it, {span(means['folded'])}. A structure is built in {span(built)} times the instructions of code with "
        f"plain indices, at 100,000 elements in {span(spent)} times its time. The first graph of a process is built in {beside_petgraph(figures, 0)} times the instructions of "
        f"petgraph's `StableGraph`, with room in {beside_petgraph(figures, 1)}: reserve first."
    )


# Of each structure that has such rows, how one is built as the first thing of a process, without and with room.
FIRST = {"list": ("push-first", "push-room"), "graph": ("build-first", "build-room"), "scene": ("build-first", "build-room")}


def of_first(figures, kinds, place, slots):
    """The ratios of instructions of structures that are built first in a process, without room (0) or with it (1)."""
    places = [(it, FIRST[operations.AGAIN.get(it, it)][place], size) for it in kinds for size in slots]
    rows = [figures.row("instructions", *it) for it in places]
    return [it.ratio for it in rows if it]


def beside_petgraph(figures, place):
    return span(of_first(figures, ["petgraph"], place, (1_000, 100_000)))


def reserve_first(figures):
    """What docs/STRUCTURES.md says of building."""
    plain, room = (span(of_first(figures, FIRST, it, (1_000, 100_000))) for it in (0, 1))
    return (
        f"**Reserve first.** The first list, graph or scene of a process is built in {plain} times the instructions of code with plain indices, with room in "
        f"{room}. Beside petgraph's `StableGraph` that graph is built in {beside_petgraph(figures, 0)} times the instructions, with room in "
        f"{beside_petgraph(figures, 1)} ([all rows](PERFORMANCE.md#building))."
    )


# Of each structure the operation that builds one, and one that goes along it.
BUILT = {"list": ("push", "walk"), "graph": ("build", "ends"), "scene": ("build", "children"), "scheduler": ("run", "postpone"), "world": ("build", "join")}


def cost_of(figures, kind):
    """What docs/STRUCTURES.md says of the cost of a structure."""

    def part(operation):
        title = next(it.title for it in operations.operations_of(MAPS[kind]) if it.name == operation)
        few, *spent = [figures.row(*place).ratio for place in places_of(kind, operation)]
        return f"{title}: **{few:.1f}** times the instructions, and {spent[0]:.1f} · {spent[1]:.1f} times the time"

    size = figures.row("memory", kind, BUILT[kind][0], 1_000_000)
    return "\n".join([
        "What it costs beside code with plain indices, in time at 1,000 · 100,000 elements ([all rows](PERFORMANCE.md#structures)):",
        "",
        *[f"- {part(it)}" for it in BUILT[kind]],
        *([f"- memory after the first of these, at 1,000,000 keys: {size.port:.0f} bytes, **{size.ratio:.1f}** times as many"] if size else []),
    ])


def memory(figures):
    slots = 1_000_000

    def cell(kind, operation):
        row = figures.row("memory", kind, operation, slots)
        return f"{row.port:.1f} / {row.rust:.1f} = **{row.ratio:.2f}**" if row else "-"

    kinds = PRIMARY + SECONDARY[:2]
    names = {"insert": "from an empty map", "insert-room": "with room"}
    rows = [[title, *[cell(kind, name) for kind in kinds]] for name, title in names.items()]
    return table(["Bytes per key", *[HEADS[it] for it in kinds]], rows)


def memory_values(figures):
    slots = 1_000_000

    def cell(kind, name):
        row = figures.row("memory", kind, f"insert-{name}", slots)
        return f"{row.port:.1f} / {row.rust:.1f} = **{row.ratio:.2f}**" if row else "-"

    rows = [[size, *[cell(kind, name) for kind in VALUED]] for name, size in operations.VALUES.items()]
    return table(["Bytes of a value", *[HEADS[it] for it in PRIMARY]], rows)


def paragraph(text):
    return "\n".join(textwrap.wrap(text, 160, break_long_words=False, break_on_hyphens=False))


TABLES = {
    "choices": lambda it: choices(it, False),
    "maps": lambda it: choices(it, True) + "\n\n" + paragraph(beside_rust(it)),
    "summary": summary,
    "kinds": kinds_of_calls,
    "primary": lambda it: costs(it, PRIMARY),
    "layout": layout,
    "secondary": lambda it: costs(it, SECONDARY),
    "memory": memory,
    "memory-values": memory_values,
    "values": values,
    "stepped": stepped,
    "structures": structures,
    "buildings": buildings,
    "cost-building": lambda it: paragraph(reserve_first(it)),
    "memory-structures": memory_structures,
    **{f"cost-{kind}": lambda it, kind=kind: cost_of(it, kind) for kind in BUILT},
}


def with_tables(page, figures):
    """The page with its tables written anew: each stands between two comments."""

    def fresh(match):
        name = match.group(1)
        if name not in TABLES:
            sys.exit(f"performance.py: no table {name}")
        text = TABLES[name](figures)
        is_empty = not re.search(r"\d\.\d", text)
        return f"<!-- table {name} -->\n{'Not measured.' if is_empty else text}\n<!-- end -->"

    return re.sub(r"<!-- table ([\w-]+) -->\n.*?<!-- end -->", fresh, page, flags=re.S)


def causes(page):
    """The operations that the page gives a cause for, each with its text: the lines `| MAP | OPERATION; OPERATION | CAUSE |`."""
    kinds = [MAPS[it] for it in PRIMARY + SECONDARY]
    titles = {(it.name, op.title): op.name for it in kinds for op in operations.operations_of(it)}
    names = {HEADS[it.name]: it.name for it in kinds}
    found, wrong = {}, []
    block = page.split("<!-- causes -->")[1].split("<!-- end -->")[0]
    for line in block.strip().split("\n")[2:]:
        head, listed, text = [it.strip() for it in line.strip("|").split("|")]
        for title in listed.split("; "):
            operation = titles.get((names.get(head), title))
            if operation is None:
                wrong.append(f"docs/PERFORMANCE.md: {head} has no {title}")
            found[names.get(head), operation] = text
    return found, wrong


def slow_operations(figures):
    """The operations that take more than 1.25 times as long as the Rust crate's, or as many instructions, each with the sizes at
    which its time is so, and whether its instructions are. Of a time the lower quartile counts, too: else one of the hundreds of rows
    is always slow by chance."""
    found = {}
    for (measure, kind, operation, _), row in figures.rows.items():
        if (
            kind in PRIMARY + SECONDARY and measure in ("instructions", "time") and round(min(row.ratio, row.least), 2) > SLOW
            and operation in {it.name for it in operations.operations_of(MAPS[kind])} and row.slots in TIMES
        ):
            found.setdefault((kind, operation), set()).add((measure, row.slots))
    return found


def sizes_named(text):
    """The sizes that a cause is about: all, unless it names some. `From N slots on` names N and those above it."""
    found = set()
    for start, size in re.findall(r"\b(?:([Ff])rom|[Aa]t) ([\d,]+) (?:slots|keys)", text):
        size = int(size.replace(",", ""))
        found |= {it for it in TIMES if it == size or start and it > size}
    return found or set(TIMES)


def faults_of_cause(kind, operation, text, slow):
    """Where the text of a cause names other sizes or another measure than the operation is slow at."""
    fault = f"docs/PERFORMANCE.md: the cause of {kind} {operation}"
    sizes, wrong = {slots for measure, slots in slow if measure == "time"}, []
    named = sizes_named(text)
    if sizes - named:
        wrong.append(f"{fault} names no size of {', '.join(number(it) for it in sorted(sizes - named))} slots, where it is slow in time")
    if named != set(TIMES) and not sizes & named:
        wrong.append(f"{fault} names sizes at which it isn't slow in time")
    counted = any(measure == "instructions" for measure, _ in slow)
    if "In time alone" in text and counted:
        wrong.append(f"{fault} says that it is slow in time alone")
    if "In instructions alone" in text and sizes:
        wrong.append(f"{fault} says that it is slow in instructions alone")
    return wrong


def faults_of_causes(page, figures):
    (given, wrong), slow = causes(page), slow_operations(figures)
    wrong += [f"docs/PERFORMANCE.md: no cause for {kind} {operation}" for kind, operation in sorted(slow.keys() - given.keys())]
    wrong += [f"docs/PERFORMANCE.md: {kind} {operation} needs no cause" for kind, operation in sorted(given.keys() - slow.keys(), key=str)]
    for (kind, operation), text in given.items():
        wrong += faults_of_cause(kind, operation, text, slow.get((kind, operation), set())) if (kind, operation) in slow else []
    return wrong


def claims_of_readme(figures):
    """What README.md says of the maps' speed and memory: each phrase, with whether the figures bear it out. Of what it says of a large
    map 100,000 slots and 1,000,000 count, of all else 1,000 too."""

    def all_times(operation, chosen, sizes_of=TIMES):
        kinds = [it for it in PRIMARY + SECONDARY[:2] if figures.row("time", it, operation, TIMES[0])]
        return all(chosen({it: figures.row("time", it, operation, size).port for it in kinds}) for size in sizes_of)

    def sizes(chosen, measured="insert", kinds=tuple(PRIMARY)):
        return chosen({it: figures.row("memory", it, measured, 1_000_000).port for it in kinds})

    def least_memory(values):
        return sizes(lambda it: it["hop-values"] == min(it.values()), f"insert-{values}", tuple(VALUED))

    def dense_first(it):
        return it["dense"] == min(it["basic"], it["dense"], it["hop"])

    def secondary_before_sparse(it):
        return it["secondary"] < it["sparse"]

    return {
        "In a large map it finds stale keys fastest": all_times("get-stale", lambda it: it["basic"] == min(it.values()), TIMES[1:]),
        "if you iterate most": all(all_times(it, dense_first) for it in ("iter-full", "iter-half", "iter-few")),
        "At 100,000 and 1,000,000 keys its inserts take over three times a `SlotMap`'s time": all_times(
            "insert", lambda it: it["dense"] > 3 * it["basic"], TIMES[1:]
        ),
        "if the map mostly grows": all_times("insert", lambda it: it["hop"] == min(it[kind] for kind in PRIMARY)),
        "or memory matters most, at values of 4 bytes or more": all(
            least_memory(name) for name, size in operations.VALUES.items() if not size.isdigit() or int(size) >= 4
        ),
        "Up to 100,000 keys a removal and an insert take 2 to 2.5 times a `SlotMap`'s time": all_times(
            "churn", lambda it: 1.95 * it["basic"] <= it["hop"] <= 2.55 * it["basic"], TIMES[:2]
        ),
        "for more data of most keys of another map": all(
            all_times(it, secondary_before_sparse) for it in ("insert", "get", "churn")
        ),
    }


# A word that says something of speed or memory.
OF_COST = re.compile(r"\b(fast\w*|slow\w*|well|best|least|most|iterat\w+|memory|times?|quick\w*|small\w*|large\w*)\b")


def faults_of_claims(readme, figures):
    """What README.md says of the maps that the figures don't bear out, and what it says of cost that is compared with no figure."""
    listed = re.search(r"\n## Which map\n(.*?)\nNanoseconds", readme, re.S)
    text, wrong = " ".join(listed.group(1).split()) if listed else "", []
    for phrase, is_so in claims_of_readme(figures).items():
        if phrase not in text:
            wrong.append(f"README.md, Which map: no words {phrase!r}")
        elif not is_so:
            wrong.append(f"README.md: the figures don't say {phrase!r}")
        text = text.replace(phrase, "")
    wrong += [f"README.md, Which map: no figure is compared with {it.group(0)!r} in {text[max(0, it.start() - 40):it.end() + 20]!r}" for it in OF_COST.finditer(text)]
    return wrong


def faults_of_page(figures):
    """What docs/PERFORMANCE.md says of the primary maps above its table of causes, and the figures don't bear out."""

    def slots(operation, chosen, sizes_of=TIMES[1:]):
        return all(chosen({it: figures.row("time", it, operation, size).port for it in PRIMARY}) for size in sizes_of)

    claims = {
        "`SlotMap`: at half and at 1 in 10 live its `iter` is faster than that of a `HopSlotMap`": all(
            slots(name, lambda it: it["basic"] < it["hop"]) for name in ("iter-half", "iter-tenth")
        ),
        "`DenseSlotMap` iterates fastest": all(
            slots(name, lambda it, times=times: times * it["dense"] <= min(it["basic"], it["hop"]))
            for name, times in (("iter-full", 1.5), ("iter-half", 3), ("iter-few", 3))
        ),
        "`HopSlotMap` has the fastest look-ups of live keys": slots("get-live", lambda it: it["hop"] == min(it.values()), TIMES),
    }
    return [f"docs/PERFORMANCE.md: the figures don't say that {it}" for it, is_so in claims.items() if not is_so]


def main():
    if sys.argv[1:] not in ([], ["--check"]):
        sys.exit("usage: docs/performance.py [--check]")
    figures = Figures()
    wrong = faults_of_causes(read(PAGE), figures) + faults_of_claims(read(README), figures) + faults_of_page(figures)
    for path in (PAGE, README, STRUCTURES):
        page = read(path)
        fresh = with_tables(page, figures)
        if fresh != page and sys.argv[1:] == ["--check"]:
            wrong.append(f"{os.path.relpath(path, TOP)} is out of date: run docs/performance.py")
        elif fresh != page:
            with open(path, "w", encoding="utf-8") as file:
                file.write(fresh)
    print("\n".join(wrong), end="\n" if wrong else "")
    return 1 if wrong else 0


if __name__ == "__main__":
    sys.exit(main())
