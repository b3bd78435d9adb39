#!/usr/bin/env python3
"""Writes crates.svg: which crate uses which, from crates.txt."""

import os
import sys

sys.dont_write_bytecode = True

from svg import BLUE, FOLDER, GREEN, INK, ORANGE, RED, SOFT, Picture, fitted

# The five structures stand as one: each uses slotmap alone.
STRUCTURES = "five structures"
# So do the crates of their callers, one beside each structure, several lists and paths.
CALLERS = "seven crates of callers"
# So do two crates of tests.
TESTS = "other tests"
MEMBERS = {"slotmap_list", "slotmap_lists", "slotmap_links", "slotmap_bounded", "slotmap_graph", "slotmap_entities", "slotmap_scene", "slotmap_scheduler", "slotmap_paths"}
# Where each crate is: its column and row, and what it has.
CRATES = {
    "slotmap_core": (3.0, 0, "keys, errors, traits, lists of slots, definitions"),
    "slotmap_slots": (3.5, 1, "slots over a layout, for two maps"),
    "slotmap_json": (0, 2, "JSON"),
    "slotmap_secondary": (1, 2, "SecondaryMap"),
    "slotmap_sparse": (2, 2, "SparseSecondaryMap"),
    "slotmap_basic": (3, 2, "SlotMap"),
    "slotmap_dense": (4, 2, "DenseSlotMap"),
    "slotmap_hop": (5, 2, "HopSlotMap"),
    "slotmap_run": (6, 2, "runs of commands"),
    "slotmap_rows": (0.5, 3, "reads rows of tests"),
    "slotmap": (2, 3, "the library to use: all names"),
    "slotmap_c": (3.5, 3, "two maps for C"),
    "slotrun": (5, 3, "program: runs scripts"),
    "primary_rows": (0.5, 4, "checks the primary maps"),
    "secondary_rows": (2.2, 4, "checks the secondary maps"),
    "joined_rows": (3.85, 4, "checks runs on two maps"),
    STRUCTURES: (5.5, 4, "list, graph, entities, scene, scheduler"),
    "slotmap_examples": (2.2, 5, "callers of the maps"),
    CALLERS: (3.85, 5, "of one structure each"),
    TESTS: (0.55, 5, "of scripts and structures"),
    "slotdemo": (5.5, 5, "program: a demonstration"),
}
COLORS = {
    "slotmap": BLUE, "slotmap_c": BLUE, "slotrun": ORANGE, "primary_rows": GREEN, "secondary_rows": RED, "joined_rows": SOFT, STRUCTURES: BLUE,
    "slotmap_examples": BLUE, CALLERS: SOFT, "slotdemo": ORANGE,
    TESTS: GREEN,
}
PITCH, LEFT, TOPS = 152, 22, [698, 598, 460, 316, 186, 66]
HEIGHT = 56


# The library of a program stands as the program, that of callers as callers, and guards of the maps as tests.
LIBRARIES = {
    "slotmap_script": "slotrun",
    "map_guards": TESTS,
    "callers_sums": CALLERS,
    **{f"{it}_callers": CALLERS for it in ("list", "lists", "graph", "paths", "scene", "scheduler", "entities")},
}


def shown(name):
    return STRUCTURES if name in MEMBERS else LIBRARIES.get(name, name)


def read():
    """The crates of this repository that each crate uses, those left out that another one of them uses."""
    with open(os.path.join(FOLDER, "../../crates.txt"), encoding="utf-8") as file:
        lines = [line.split(":") for line in file if ":" in line and not line.startswith("#")]
    lines = [(shown(name.split()[0]), {shown(it) for it in others.split()}) for name, others in lines]
    uses = {}
    for name, others in lines:
        uses[name] = uses.get(name, set()) | (others & {it for it, _ in lines}) - {name}
    below = {}

    def all_below(name):
        if name not in below:
            below[name] = uses[name] | {it for other in uses[name] for it in all_below(other)}
        return below[name]

    return {
        name: {it for it in others if not any(it in all_below(other) for other in others - {it})}
        for name, others in uses.items()
    }


uses = read()
if set(uses) != set(CRATES):
    sys.exit(f"crates.py: not in both lists: {sorted(set(uses) ^ set(CRATES))}")

picture = Picture(
    1102,
    778,
    "The crates and which of them uses which",
    "; ".join(f"{name} uses {', '.join(sorted(others))}" for name, others in sorted(uses.items()) if others),
)
picture.text(22, 38, "The crates: an arrow points to a crate that is used", 18, INK, "start", True)


def width_of(name):
    return 6 * PITCH + 146 if name == "slotmap_core" else PITCH + 146 if name == "slotmap_slots" else 244 if CRATES[name][1] >= 3 and name not in ("slotmap_rows", "slotmap_c") else 146


def middle_of(name):
    return LEFT + 3 * PITCH + 73 if name == "slotmap_core" else LEFT + PITCH * CRATES[name][0] + 73


def drop(name, to, shift, bus, color):
    """A line from the bottom of a crate over a level of its own to the top of another."""
    x, end = middle_of(name), middle_of(to) + shift
    y = TOPS[CRATES[name][1]] + HEIGHT
    picture.arrow([(x, y), (x, bus), (end, bus), (end, TOPS[CRATES[to][1]])], color, 2)


# Two crates that use the same ones have a level and a shift each, so that their lines keep apart.
LEVELS = {"slotmap": (30, -12), "slotmap_c": (16, 30), "slotrun": (52, 12), "primary_rows": (28, -12), "secondary_rows": (48, 4), "joined_rows": (38, 20), STRUCTURES: (58, 36), "slotmap_examples": (18, -99), CALLERS: (46, -30), "slotdemo": (32, 0), TESTS: (8, 60)}
for name in uses:
    for to in sorted(uses[name], key=lambda it: CRATES[it][0]):
        if to == "slotmap_core":
            x = middle_of(name)
            picture.arrow([(x, TOPS[CRATES[name][1]] + HEIGHT), (x, TOPS[0])], SOFT, 1.5)
        elif to == "slotmap_slots":
            x = middle_of(name)
            picture.arrow([(x, TOPS[CRATES[name][1]] + HEIGHT), (x, TOPS[1])], SOFT, 1.5)
        else:
            level, shift = LEVELS[name]
            # Between the boxes of two crates.
            shift = -49.4 if (name, to) == (TESTS, "slotrun") else shift
            drop(name, to, shift, TOPS[CRATES[name][1]] + HEIGHT + level, COLORS[name])

for name, (_, row, what) in CRATES.items():
    x, y, width = middle_of(name), TOPS[row], width_of(name)
    picture.rect(x - width / 2, y, width, HEIGHT, "#f6f8fa", COLORS.get(name, SOFT), 8, 2.5 if name in COLORS else 1.5)
    picture.text(x, y + 24, name, 15 if width > 146 else 12.5, INK, bold=True)
    picture.text(x, y + 43, what, fitted(what, 14 if width > 146 else 12.5, width), SOFT)

picture.finish("crates.svg")
