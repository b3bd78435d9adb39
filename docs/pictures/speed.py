#!/usr/bin/env python3
"""Writes speed.svg and speed_secondary.svg: the instructions of compare/bench/results.tsv at 1,000 slots as bars."""

import math
import os
import sys

sys.dont_write_bytecode = True

from svg import BLUE, FOLDER, GREEN, INK, ORANGE, SOFT, Picture
from widths import width_of

sys.path.insert(0, os.path.join(FOLDER, "../../compare/bench"))

import operations
import results

SLOTS = 1_000
COLORS = [BLUE, ORANGE, GREEN]
# The picture is as wide as the text of a page, so that its letters are as large there as here.
PAGE = 830
BAR, GAP = 14, 14
LABEL = 384
WIDTH = PAGE - LABEL - 70
TOP = 112


class Scale:
    """A log scale whose ends are powers of two."""

    def __init__(self, ratios, left):
        self.low = min(math.floor(math.log2(min(ratios))), -1)
        self.high = max(math.ceil(math.log2(max(ratios))), 1)
        self.left = left

    def x(self, ratio):
        return self.left + WIDTH * (math.log2(ratio) - self.low) / (self.high - self.low)

    def marks(self):
        return [2.0**it for it in range(self.low, self.high + 1)]


def ratios_of(rows, kinds):
    """For each operation its title, and a ratio, or None, for each map."""
    family = operations.FAMILIES[next(it.family for it in operations.MAPS if it.name == kinds[0])]
    found = []
    for operation in family:
        cells = [rows.get(("instructions", kind, operation.name, SLOTS)) for kind in kinds]
        found.append((operation.title.replace("`", ""), [it.ratio if it else None for it in cells]))
    return found


def draw_scale(picture, scale, bottom):
    for mark in scale.marks():
        x = scale.x(mark)
        picture.line([(x, TOP - 12), (x, bottom)], INK if mark == 1 else "#d0d7de", 2 if mark == 1 else 1)
        picture.text(x, bottom + 18, f"{mark:g}", 14, INK if mark == 1 else SOFT, bold=mark == 1)
    picture.text(scale.x(1), bottom + 38, "as the Rust crate", 14, INK)


def draw_bars(picture, scale, title, ratios, y):
    picture.text(scale.left - 12, y + len(ratios) * BAR / 2 + 5, title, 14, INK, "end")
    for place, (ratio, color) in enumerate(zip(ratios, COLORS)):
        if ratio is None:
            continue
        one, end, top = scale.x(1), scale.x(ratio), y + BAR * place
        picture.rect(min(one, end), top + 1, max(abs(end - one), 1), BAR - 2, color, color, 1, 0.5)
        side = 5 if end >= one else -5
        picture.text(end + side, top + 11.5, f"{ratio:.2f}", 12, INK, "start" if end >= one else "end")


def draw(name, title, names, shown):
    """A picture of these operations, one below the other. `names` says which map has which color."""
    step = len(names) * BAR + GAP
    bottom = TOP + step * len(shown)
    said = "; ".join(
        f"{head}: " + ", ".join(f"{m} {r:.2f}" for m, r in zip(names, ratios) if r is not None)
        for head, ratios in shown
    )
    picture = Picture(PAGE, bottom + 58, title, said)
    picture.text(24, 38, title, 18, INK, "start", True)
    x = 24
    for head, color in zip(names, COLORS):
        picture.rect(x, 54, 14, 14, color, color, 2)
        picture.text(x + 21, 66, head, 14, INK, "start")
        x += 45 + width_of(head, 14)
    picture.text(24, 90, f"{SLOTS:,} slots; a bar to the left of 1 is fewer instructions; log scale", 14, SOFT, "start")
    scale = Scale([it for _, ratios in shown for it in ratios if it is not None], LABEL)
    draw_scale(picture, scale, bottom)
    for place, (head, ratios) in enumerate(shown):
        draw_bars(picture, scale, head, ratios, TOP + step * place)
    picture.finish(name)


def main():
    rows = results.read(os.path.join(FOLDER, "../../compare/bench/results.tsv"))
    operations.leave_out_unmeasured(rows)
    primary = ratios_of(rows, ["basic", "dense", "hop"])
    secondary = ratios_of(rows, ["secondary", "sparse", "folded"])
    title = "Instructions of an operation, divided by those of the Rust crate"
    draw("speed.svg", title, ["SlotMap", "DenseSlotMap", "HopSlotMap"], primary)
    names = ["SecondaryMap", "SparseSecondaryMap", "SparseSecondaryMap, both with a folding hasher"]
    draw("speed_secondary.svg", title, names, secondary)


main()
