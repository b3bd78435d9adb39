#!/usr/bin/env python3
"""every_list.py KIND DEPTH [--part PART --parts PARTS]

Prints a row for each list of DEPTH calls of a kind of map, without the results: basic, dense, hop, secondary or sparse. The
calls are the few of CALLS, over few keys, so that lists soon meet each case: keys that are live, detached, removed, older and
newer, slots used again, and neighbours that leave in every order. Each row ends with calls that show all that the map holds, and
in which order slots are used again. A shorter list is the beginning of a longer one.

With PARTS only every PARTS-th list is printed, from number PART on, which counts from 0. compare/every-list.sh runs all.
"""
import argparse
from itertools import islice, product

PRIMARY = ["insert 1", "insert 2", "remove 1v1", "remove 2v1", "remove 1v3", "clear", "retain even", "drain 1", "replace 1v1 4"]
DETACHED = ["detach 1v1", "detach 2v1", "reattach 1v1 6", "reattach 2v1 8"]
NEIGHBOURS = ["insert 1", "remove 1v1", "remove 2v1", "remove 3v1", "remove 4v1", "remove 5v1", "remove 2v3", "clear", "retain even"]
PUTS = ["insert 1v1 1", "insert 1v3 2", "insert 2v1 3", "insert null 5", "or_put 1v1 4", "or_put 1v5 6"]
SECONDARY = PUTS + ["remove 1v1", "remove 1v3", "replace_disjoint 1v3:7 2v1:8", "retain even", "clear", "drain 1"]

# What each row begins with, and the calls of its list.
CALLS = {
    "basic": (["insert 3"], PRIMARY + DETACHED),
    "dense": (["insert 3"], PRIMARY + DETACHED),
    "hop": (["insert 2", "insert 3", "insert 4", "insert 5", "insert 6"], NEIGHBOURS),
    "secondary": ([], SECONDARY),
    "sparse": ([], SECONDARY),
}

# What each row ends with.
SHOWN = ["iter 9", "len", "insert 3", "insert 3", "insert 3", "keys_into", "alive"]
SHOWN_BESIDE = ["iter 9", "len", "get 1v1", "get 1v3", "get 1v5", "get 2v1", "contains_key null", "alive"]


def main():
    parser = argparse.ArgumentParser()
    parser.add_argument("kind", choices=CALLS)
    parser.add_argument("depth", type=int)
    parser.add_argument("--part", type=int, default=0)
    parser.add_argument("--parts", type=int, default=1)
    given = parser.parse_args()
    before, calls = CALLS[given.kind]
    after = SHOWN_BESIDE if given.kind in ("secondary", "sparse") else SHOWN
    print(f"# Every list of {given.depth} calls, by compare/every_list.py.\nmaps {given.kind}\n")
    for number, some in enumerate(islice(product(calls, repeat=given.depth), given.part, None, given.parts)):
        print(f"row {given.part + number * given.parts}", *before, *some, *after, "", sep="\n")


main()
