#!/usr/bin/env python3
"""Writes slot.svg: the life of a slot."""

import sys

sys.dont_write_bytecode = True

from svg import BLUE, GREEN, GREY, INK, ORANGE, RED, SOFT, Picture

picture = Picture(
    860,
    462,
    "The life of a slot",
    "A new slot is occupied, with version 1. A removal makes it vacant, with the next even version, and an insert "
    "occupies it again, with the next odd version. A detached slot is kept for its key until that key is reattached. "
    "The removal of a key of version 4294967295 retires the slot.",
)


def state(x, y, name, color, fill, lines):
    picture.rect(x, y, 210, 96, fill, color, 10, 2.5)
    picture.text(x + 105, y + 28, name, 17, INK, bold=True)
    for number, line in enumerate(lines):
        picture.text(x + 105, y + 51 + 19 * number, line, 13, INK)


# The row of the usual life, and below it the two others.
picture.rect(28, 92, 108, 52, "#ffffff", GREY, 10, 1.5, "5 4")
picture.text(82, 123, "no slot yet", 14, SOFT)
state(270, 70, "occupied", BLUE, "#e3f1fa", ["holds a value; its key is live", "version is odd: 1, 3, 5 .."])
state(612, 70, "vacant", GREEN, "#e2f4ee", ["the next insert may use it", "version is even: 2, 4, 6 .."])
state(270, 316, "detached", ORANGE, "#fdf0df", ["kept for its key, with no value", "version is even"])
state(612, 316, "retired", RED, "#fbe9e7", ["no insert uses it again", "version is 0"])

picture.arrow([(136, 118), (270, 118)])
picture.text(203, 92, "insert,", 13)
picture.text(203, 109, "no slot is vacant", 13)
picture.text(203, 137, "version 1", 13, SOFT)

picture.arrow([(480, 96), (612, 96)])
picture.text(546, 70, "remove", 13)
picture.text(546, 88, "version + 1", 13, SOFT)
picture.arrow([(612, 142), (480, 142)])
picture.text(546, 162, "insert", 13)
picture.text(546, 180, "version + 1", 13, SOFT)

picture.arrow([(330, 166), (330, 316)])
picture.text(318, 232, "detach", 13, anchor="end")
picture.text(318, 250, "version + 1", 13, SOFT, anchor="end")
picture.arrow([(402, 316), (402, 166)])
picture.text(414, 274, "reattach", 13, anchor="start")
picture.text(414, 292, "version - 1, as before", 13, SOFT, anchor="start")

picture.arrow([(462, 166), (636, 316)])
picture.text(566, 222, "remove a key of the last", 13, anchor="start")
picture.text(566, 241, "version, 4294967295", 13, anchor="start")

picture.text(28, 38, "The life of a slot", 18, INK, "start", True)
picture.text(28, 444, "clear, drain and retain remove keys too. HopSlotMap has no detached slots.", 13, SOFT, "start")

picture.finish("slot.svg")
