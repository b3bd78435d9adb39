#!/usr/bin/env python3
"""Tests of the eraser: the forms of forms.txt, those that it refuses and those that it erases.

    python3 rust/eraser/test.py
"""
import os
import re
import sys

HERE = os.path.dirname(os.path.abspath(__file__))
sys.path.insert(0, os.path.dirname(HERE))

import erase
from eraser.closed import MACROS
from eraser.project import File
from eraser.requires import Types
from eraser.tokens import Bad

FORM = re.compile(r"=== (.*)\n((?:.*\n)*?)--- (refused|left)\n((?:.*\n)*?)(?=\n===|\n?\Z)")


def forms():
    """The forms: name, source, what becomes of it, and the text or the words."""
    with open(os.path.join(HERE, "forms.txt"), encoding="utf-8") as file:
        text = file.read()
    found = FORM.findall(text)
    if len(found) != text.count("\n=== "):
        raise SystemExit("forms.txt: a form isn't read")
    return found


def erased(text):
    """What is left of a source, without what the eraser adds to each file and to each function."""
    file = File("slotmap_list", "planted", text.encode(), MACROS)
    made = erase.erased(file, Types([file]))
    lines = [line for line in made.split("\n") if line.strip() != "#[inline]"]
    return "\n".join(lines).replace(erase.PRELUDE, "").strip("\n") + "\n"


def outcome(text):
    """What becomes of a source, and the text or the words."""
    try:
        return "left", erased(text)
    except Bad as why:
        return "refused", f"{why.line}: {why}\n"


def main():
    """Runs all tests."""
    failed, tested = 0, forms()
    for name, text, way, expected in tested:
        became, said = outcome(text)
        if became != way or not (said == expected or way == "refused" and said.startswith(expected.rstrip("\n"))):
            failed += 1
            print(f"{name}: expected {way}\n{expected}but it is {became}\n{said}")
    print(f"{len(tested)} forms, {failed} wrong")
    raise SystemExit(1 if failed else 0)


if __name__ == "__main__":
    main()
