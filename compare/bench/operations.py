"""What is measured: the maps and their operations. The sources of both sides are written from these lists.

An operation has a name, a name in the sources, the words of the tables, and how many calls, steps or keys one round has
at `n` keys. Its number on the interface between the driver and the port is its place in the list. In the family `Valued` each
operation is there once for each type of values.
"""

from collections import namedtuple

Operation = namedtuple("Operation", "name variant title count")
Map = namedtuple("Map", "name number type crate family lacks")


def each(n):
    return n


def half(n):
    return n - n // 2


def most(n):
    return n - n // 10


def tenth(n):
    return n - n // 10 * 9


def few(n):
    return n - n // 100 * 99


def fourfold(n):
    return 4 * n


PRIMARY = [
    Operation("insert", "Insert", "`insert`, from an empty map", each),
    Operation("insert-room", "InsertRoom", "`insert`, with room", each),
    Operation("get-live", "GetLive", "`get` of a live key", each),
    Operation("get-stale", "GetStale", "`get` of a stale key", each),
    Operation("contains", "Contains", "`contains_key`", each),
    Operation("contains-stale", "ContainsStale", "`contains_key`, a random half stale", each),
    Operation("get-mut", "GetMut", "`get_mut`, and a write", each),
    Operation("index", "Index", "`contains_key`, then `map[key]`", each),
    Operation("disjoint", "Disjoint", "`get_disjoint_mut` of two keys, and their exchange", each),
    Operation("replace-disjoint", "ReplaceDisjoint", "`replace_disjoint` of two keys", each),
    Operation("churn", "Churn", "a removal and an insert", each),
    Operation("mix", "Mix", "half look-ups, a quarter inserts, a quarter removals", each),
    Operation("detach", "Detach", "`detach` and at once `reattach`", each),
    Operation("detach-all", "DetachAll", "`detach` of all keys, then `reattach`", each),
    Operation("iter-full", "IterFull", "a step of `iter`, all slots live", each),
    Operation("iter-most", "IterMost", "a step of `iter`, a random 9 in 10 live", most),
    Operation("iter-half", "IterHalf", "a step of `iter`, a random half live", half),
    Operation("iter-tenth", "IterTenth", "a step of `iter`, a random 1 in 10 live", tenth),
    Operation("iter-few", "IterFew", "a step of `iter`, 1 slot in 100 live", few),
    Operation("iter-few-run", "IterFewRun", "a step of `iter`, 1 in 100 live, adjacent", few),
    Operation("iter-mut", "IterMut", "a step of `iter_mut`, and a write", each),
    Operation("values", "Values", "a step of `values`", each),
    Operation("values-half", "ValuesHalf", "a step of `values`, a random half live", half),
    Operation("values-tenth", "ValuesTenth", "a step of `values`, a random 1 in 10 live", tenth),
    Operation("values-mut", "ValuesMut", "a step of `values_mut`, and a write", each),
    Operation("keys", "Keys", "a step of `keys`", each),
    Operation("keys-half", "KeysHalf", "a step of `keys`, a random half live", half),
    Operation("keys-tenth", "KeysTenth", "a step of `keys`, a random 1 in 10 live", tenth),
    Operation("retain-all", "RetainAll", "`retain` that keeps all, for each key", each),
    Operation("retain-half", "RetainHalf", "`retain` that keeps half, inserts for the rest", each),
    Operation("clear", "Clear", "`clear`, for each key, and an insert", each),
    Operation("clear-half", "ClearHalf", "an insert, a removal of each second one, and `clear`", each),
    Operation("drain", "Drain", "`drain`, for each key, and an insert", each),
    Operation("clone", "Clone", "`clone`, for each key", each),
    Operation("clone-from", "CloneFrom", "`clone_from` into a new map, for each key", each),
    Operation("clone-remove", "CloneRemove", "`clone`, and a removal of each key", each),
    Operation("clone-into", "CloneInto", "`clone`, and an owned iterator over it", each),
]

SECONDARY = [
    Operation("insert", "Insert", "`insert`, from an empty map", each),
    Operation("overwrite", "Overwrite", "`insert` of a present key", each),
    Operation("get", "Get", "`get` of a present key", each),
    Operation("get-absent", "GetAbsent", "`get` of an absent key, half removed", half),
    Operation("contains", "Contains", "`contains_key`", each),
    Operation("get-mut", "GetMut", "`get_mut`, and a write", each),
    Operation("churn", "Churn", "a removal and an insert", each),
    Operation("entry", "Entry", "`entry` of a present key, and `or_insert`", each),
    Operation("entry-new", "EntryNew", "`entry` of an absent key, and `or_insert`", each),
    Operation("iter", "Iter", "a step of `iter`", each),
    Operation("iter-half", "IterHalf", "a step of `iter`, a random half of the keys present", half),
    Operation("iter-tenth", "IterTenth", "a step of `iter`, a random 1 in 10 present", tenth),
    Operation("values", "Values", "a step of `values`", each),
    Operation("keys", "Keys", "a step of `keys`", each),
    Operation("retain-all", "RetainAll", "`retain` that keeps all, for each key", each),
    Operation("clear", "Clear", "`clear`, for each key, and an insert", each),
    Operation("drain", "Drain", "`drain`, for each key, and an insert", each),
    Operation("clone", "Clone", "`clone`, for each key", each),
    Operation("clone-remove", "CloneRemove", "`clone`, and a removal of each key", each),
    Operation("extend", "Extend", "`extend_refs` of an empty map, for each pair", each),
    Operation("equal", "Equal", "`==` of a map and its clone, for each key", each),
]

# The types of values, and what the tables call them.
VALUES = {"u8": "1", "u32": "4", "u64": "8", "words4": "32", "words8": "64", "words32": "256", "text": "`String`"}

VALUED_ALONE = [
    Operation("insert", "Insert", "`insert`, from an empty map", each),
    Operation("get", "Get", "`get` of a live key", each),
    Operation("churn", "Churn", "a removal and an insert", each),
    Operation("iter-half", "IterHalf", "a step of `iter`, a random half live", half),
]

VALUED = [it._replace(name=f"{it.name}-{value}") for it in VALUED_ALONE for value in VALUES]

STEPPED = [
    Operation("read", "Read", "a step of the `SlotMap`'s `iter`, and `get`", each),
    Operation("write", "Write", "a step of the `SlotMap`'s `iter`, and a write by `get_mut`", each),
    Operation("churn", "Churn", "a removal and an insert in both", each),
]

LIST = [
    Operation("push", "Push", "`push_back`, from an empty list", each),
    Operation("push-first", "PushFirst", "`push_back`, the first list", each),
    Operation("push-room", "PushRoom", "`push_back`, the first list, with room", each),
    Operation("walk", "Walk", "a step of `iter`, over elements in random order", each),
    Operation("touch", "Touch", "`move_to_front` of a random element", each),
    Operation("churn", "Churn", "a removal by cursor, and `push_back`", each),
]

LISTS = [
    Operation("push", "Push", "`push_back` to one of eight lists in turn, from empty lists", each),
    Operation("push-first", "PushFirst", "`push_back` to one of eight lists in turn, the first lists", each),
    Operation("push-room", "PushRoom", "`push_back` to one of eight lists in turn, the first lists, with room", each),
    Operation("move", "Move", "`move_to_back` of a random element, to a random list", each),
    Operation("churn", "Churn", "a removal by cursor, and `push_back` to a random list", each),
    Operation("queue", "Queue", "`pop_front` of a list, and `push_back` to the next one", each),
]

GRAPH = [
    Operation("build", "Build", "`add_edge`, and a fourth of `add_node`", fourfold),
    Operation("build-first", "BuildFirst", "`add_edge`, and a fourth of `add_node`, the first graph", fourfold),
    Operation("build-room", "BuildRoom", "`add_edge`, and a fourth of `add_node`, the first graph, with room", fourfold),
    Operation("ends", "Ends", "an edge of `edges_from`, and the value at its end", fourfold),
    Operation("search", "Search", "a node of `reachable`, and its value", each),
    Operation("churn", "Churn", "`remove_edge`, and `add_edge`", fourfold),
]

PATHS = [
    Operation("shortest", "Shortest", "a node of `shortest_paths`, by random costs", each),
    Operation("post-order", "PostOrder", "a node of `post_order`, and its value", each),
    Operation("components", "Components", "a node of `kosaraju_scc`", each),
]

SCENE = [
    Operation("build", "Build", "`add_child` below a random node", each),
    Operation("build-first", "BuildFirst", "`add_child` below a random node, the first scene", each),
    Operation("build-room", "BuildRoom", "`add_child` below a random node, the first scene, with room", each),
    Operation("move", "Move", "`reparent` to a random node", each),
    Operation("climb", "Climb", "`fold_up` from a node to its root", each),
    Operation("children", "Children", "a node of `children`, and its value", each),
]

SCHEDULER = [
    Operation("run", "Run", "`schedule`, and later `pop_due`", each),
    Operation("churn", "Churn", "`cancel`, and `schedule`", each),
    Operation("postpone", "Postpone", "`reschedule`", each),
]

WORLD = [
    Operation("build", "Build", "`spawn`, and half an `attach`", each),
    Operation("read", "Read", "`component` of a random entity, half without", each),
    Operation("join", "Join", "an entity of `with`, half of all", half),
    Operation("churn", "Churn", "`despawn`, `spawn` and half an `attach`", each),
]

FAMILIES = {
    "Primary": PRIMARY,
    "Secondary": SECONDARY,
    "Valued": VALUED,
    "Stepped": STEPPED,
    "List": LIST,
    "Lists": LISTS,
    "Graph": GRAPH,
    "Paths": PATHS,
    "Scene": SCENE,
    "Scheduler": SCHEDULER,
    "World": WORLD,
}

# The structures are compared with hand-written versions, written for the bench (driver/list.rs and its like), and the graph with
# petgraph's, too.
STRUCTURES = ["list", "lists", "graph", "paths", "ordered", "petgraph", "scene", "stamped", "scheduler", "world"]

# What the model of a SlotMap has (driver/columns.rs).
MODELLED = ["insert", "insert-room", "get-live", "get-stale", "contains", "churn"]

# The rows of these maps have the port's side of others: `folded` is the port's sparse map beside the Rust crate's with a hasher
# like the port's, `columns` the port's SlotMap beside a model of its layout, three vectors in Rust, `ordered` the port's Graph beside
# one with links both ways, `petgraph` the same beside petgraph's StableGraph, and `stamped` the port's Scene beside a tree with wide
# links.
AGAIN = {"folded": "sparse", "columns": "basic", "ordered": "graph", "petgraph": "graph", "stamped": "scene"}

# `stepped` is a SecondaryMap in step with a SlotMap.
MAPS = [
    Map("basic", 0, "SlotMap", "slotmap_basic", "Primary", ["disjoint", "iter-mut", "values-mut"]),
    Map("dense", 1, "DenseSlotMap", "slotmap_dense", "Primary", []),
    Map("hop", 2, "HopSlotMap", "slotmap_hop", "Primary", ["disjoint", "iter-mut", "values-mut", "detach", "detach-all"]),
    Map("secondary", 3, "SecondaryMap", "slotmap_secondary", "Secondary", []),
    Map("sparse", 4, "SparseSecondaryMap", "slotmap_sparse", "Secondary", []),
    Map("folded", 5, "SparseSecondaryMap", "slotmap_sparse", "Secondary", []),
    Map("basic-values", 6, "SlotMap", "slotmap_basic", "Valued", []),
    Map("dense-values", 7, "DenseSlotMap", "slotmap_dense", "Valued", []),
    Map("hop-values", 8, "HopSlotMap", "slotmap_hop", "Valued", []),
    Map("stepped", 9, "SecondaryMap", "slotmap_secondary", "Stepped", []),
    Map("list", 10, "StableList", "slotmap_list", "List", []),
    Map("lists", 19, "StableLists", "slotmap_lists", "Lists", []),
    Map("graph", 11, "Graph", "slotmap_graph", "Graph", []),
    Map("paths", 20, "Graph", "slotmap_paths", "Paths", []),
    Map("scene", 12, "Scene", "slotmap_scene", "Scene", []),
    Map("scheduler", 13, "Scheduler", "slotmap_scheduler", "Scheduler", []),
    Map("ordered", 16, "Graph", "slotmap_graph", "Graph", []),
    Map("petgraph", 17, "Graph", "slotmap_graph", "Graph", []),
    Map("stamped", 18, "Scene", "slotmap_scene", "Scene", ["move", "climb", "children"]),
    Map("world", 15, "World", "slotmap_entities", "World", []),
    Map("columns", 14, "SlotMap", "slotmap_basic", "Primary", [it.name for it in PRIMARY if it.name not in MODELLED]),
]


def is_first(operation):
    """Whether it is measured as the first thing that a process does, so that no memory was handed back before."""
    return operation.name in ("push-first", "push-room", "build-first", "build-room")


def is_build(kind, operation):
    """Whether it builds a list, a graph or a scene."""
    return kind.family in ("List", "Lists", "Graph", "Scene") and operation.name.startswith(("push", "build"))


def operations_of(kind):
    return [it for it in FAMILIES[kind.family] if it.name not in kind.lacks]


def leave_out_unmeasured(rows):
    """Leaves the operations of which the file of results has no row out of the lists, for the pages."""
    seen = {(it.family, operation) for _, kind, operation, _ in rows for it in MAPS if it.name == kind}
    for family, listed in FAMILIES.items():
        listed[:] = [it for it in listed if (family, it.name) in seen]


def source_of_enums():
    """The operations, and the types of values, as enums, in words that Rust and Rattle share."""
    parts = ["//! Which operation is asked for. Written by compare/bench/bench.py.\n"]
    values = [Operation(it, it.capitalize(), "", each) for it in VALUES]
    for family, operations in (FAMILIES | {"Valued": VALUED_ALONE, "Kind": values}).items():
        variants = "".join(f"    {it.variant},\n" for it in operations)
        arms = "".join(
            f"            {number} => Some({family}::{it.variant}),\n" for number, it in enumerate(operations)
        )
        parts.append(
            f"\n#[derive(Clone, Copy)]\npub enum {family} {{\n{variants}}}\n\n"
            f"impl {family} {{\n    pub fn of_number(number: u32) -> Option<{family}> {{\n"
            f"        match number {{\n{arms}            _ => None,\n        }}\n    }}\n}}\n"
        )
    return "".join(parts)
