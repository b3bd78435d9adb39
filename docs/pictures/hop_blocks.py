#!/usr/bin/env python3
"""Writes hop_blocks.svg: the blocks of vacant slots of a HopSlotMap, before and after a removal."""

import sys

sys.dont_write_bytecode = True

from svg import BLUE, GREEN, GREY, INK, ORANGE, SOFT, Picture

SLOTS = 12
CELL, LEFT = 44, 190
BLOCKS = [(6, 7), (3, 4)]


def removed(blocks, slot):
    """The block list after this slot became vacant, as crates/slotmap_hop/specs/Blocks.antt says."""
    vacant = {0} | {it for front, back in blocks for it in range(front, back + 1)}
    left, right = slot - 1 in vacant, slot + 1 in vacant
    if left and right:
        back = dict(blocks)[slot + 1]
        return [(f, back if b + 1 == slot else b) for f, b in blocks if f != slot + 1]
    if left:
        return [(f, slot if b + 1 == slot else b) for f, b in blocks]
    if right:
        return [(slot if f == slot + 1 else f, b) for f, b in blocks]
    return [*blocks, (slot, slot)]


picture = Picture(
    940,
    582,
    "The blocks of vacant slots of a HopSlotMap",
    "Neighbouring vacant slots form a block. A removal with no vacant neighbour makes a new block at the end of the "
    "list. After a block, or before one, that block grows. Between two blocks they become one, at the position of the "
    "left one. The next insert uses the back of the first listed block.",
)


def row(top, title, lines, blocks, slot=None):
    picture.text(24, top + 18, title, 14, INK, "start", True)
    for number, line in enumerate(lines):
        picture.text(24, top + 38 + 17 * number, line, 12.5, SOFT, "start")
    vacant = {it for front, back in blocks for it in range(front, back + 1)}
    offered = blocks[0][1]
    for number in range(SLOTS):
        x = LEFT + CELL * number
        fill, stroke, ink = "#e3f1fa", BLUE, INK
        if number in vacant:
            fill, stroke = "#ffffff", GREY
        if number == slot:
            fill, stroke = "#fdf0df", ORANGE
        if number == 0:
            fill, stroke, ink = "#eaeef2", GREY, SOFT
        picture.rect(x + 2, top, CELL - 4, 32, fill, stroke, 4, 2.5 if number == slot else 1.5, "4 3" if number == 0 else "")
        picture.text(x + CELL / 2, top + 21, str(number), 14, ink, bold=number == slot)
    for front, back in blocks:
        y = top + 41
        ends = LEFT + CELL * front + 4, LEFT + CELL * (back + 1) - 4
        picture.line([(ends[0], y - 5), (ends[0], y), (ends[1], y), (ends[1], y - 5)], GREEN, 2.5)
    x = LEFT + CELL * offered + CELL / 2
    picture.arrow([(x, top + 62), (x, top + 45)], GREEN, 2)
    picture.text(x, top + 75, "next insert", 11.5, GREEN)
    x = LEFT + CELL * SLOTS + 16
    picture.text(x, top + 21, ", ".join(f"{f} to {b}" if f != b else str(f) for f, b in blocks), 14, INK, "start")


picture.text(24, 38, "The blocks of vacant slots of a HopSlotMap", 18, INK, "start", True)
picture.text(LEFT + 2, 66, "slots", 13, SOFT, "start")
picture.text(LEFT + CELL * SLOTS + 16, 66, "block list, first to last", 13, SOFT, "start")
row(78, "Before", [], BLOCKS)
CASES = [
    (10, "alone", "a new block, listed last"),
    (8, "after a block", "that block grows"),
    (2, "before a block", "that block grows"),
    (5, "between two blocks", "they become one"),
]
picture.line([(24, 164), (916, 164)], "#d0d7de", 1)
for count, (slot, case, what) in enumerate(CASES):
    row(180 + 86 * count, f"Remove {slot}", [case + ":", what], removed(BLOCKS, slot), slot)

y = 554
picture.rect(24, y - 13, 18, 18, "#e3f1fa", BLUE, 3)
picture.text(50, y + 1, "occupied", 13, INK, "start")
picture.rect(134, y - 13, 18, 18, "#ffffff", GREY, 3)
picture.text(160, y + 1, "vacant", 13, INK, "start")
picture.rect(228, y - 13, 18, 18, "#fdf0df", ORANGE, 3, 2.5)
picture.text(254, y + 1, "removed, now vacant", 13, INK, "start")
picture.line([(424, y - 9), (424, y - 4), (450, y - 4), (450, y - 9)], GREEN, 2.5)
picture.text(460, y + 1, "a block", 13, INK, "start")
picture.rect(532, y - 13, 18, 18, "#eaeef2", GREY, 3, 1.5, "4 3")
picture.text(558, y + 1, "the sentinel, whose block isn't in the list", 13, INK, "start")

picture.finish("hop_blocks.svg")
