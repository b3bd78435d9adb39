#!/usr/bin/env python3
"""Compares the public calls with the rows of the test `room`, which say what each call may ask the allocator for.

    python3 rust/check/room.py            prints each row and what it may ask for, and then as --check
    python3 rust/check/room.py --check    prints each call without a row and each row without a call, and fails if there is one

The calls are the functions of the crate, and those of each public type: its own and those of the traits below. Types in PLAIN are left out:
they hold no memory of their own. The methods of a public trait are those of the types that have it.
"""
import sys

sys.dont_write_bytecode = True

from calls import TRAITS, TYPES, Crate, documented, rows

OF_ITERATORS = {"Iterator", "DoubleEndedIterator", "ExactSizeIterator", "TryClone", "Drop"}

PLAIN = {
    "numbers": ["DefaultKey", "NodeKey", "KeyData", "graph::EdgeKey", "list::Cursor", "lists::Cursor"],
    "marks without a value": ["Global", "fallible::Global", "entities::First", "entities::Then"],
    "what a call returns, or takes": [
        "fallible::OrPut", "graph::Edge", "paths::Reached", "scene::Visit", "scene::world::Offset", "serial::SlotRecord", "runs::Command",
        "runs::DetachCommand", "runs::JoinedCommand", "runs::JoinedDetachCommand", "runs::JoinedReply", "runs::Reply", "runs::SecondaryCommand",
        "runs::SecondaryReply"],
    "Rust's vector under the names of Rattle's": ["fallible::Vec"],
}
# Errors, which may hold the value that was to be stored.
ERRORS = ("Error", "::OutOfMemory", "::NoEntry", "::AllocFailed")


def public_types(crate):
    """One path of each type that has rows."""
    paths = {}
    for path, number in crate.found.items():
        if crate.item(number)[1] in ("struct", "enum"):
            paths.setdefault(number, []).append(path)
    plain = {path for of_a_kind in PLAIN.values() for path in of_a_kind}
    unknown = plain - crate.found.keys()
    if unknown:
        sys.exit(f"room.py: PLAIN has what isn't there: {', '.join(sorted(unknown))}")
    for names in paths.values():
        if not any(name in plain or name.endswith(ERRORS) for name in names):
            yield next((name for name in names if name in TYPES), min(names, key=len))


def main():
    crate = Crate(documented())
    calls = {f"{path}::{call}" for path in public_types(crate) for call in crate.calls(path, TRAITS | OF_ITERATORS)}
    calls |= set(crate.functions())
    found = dict(rows())
    if "--check" not in sys.argv:
        for name, asks in sorted(found.items()):
            print(f"{name:62} {asks}")
        print()
    for name in sorted(calls - found.keys()):
        print(f"{name}: no row of rust/check/tests/room says what it may ask the allocator for")
    for name in sorted(found.keys() - calls):
        print(f"{name}: rust/check/tests/room has a row for what is no public call")
    print(f"{len(calls)} calls, {len(found)} rows, of which {sum(asks == 'nothing' for asks in found.values())} ask for nothing")
    sys.exit(calls != found.keys())


if __name__ == "__main__":
    main()
