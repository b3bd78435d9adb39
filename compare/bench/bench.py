#!/usr/bin/env python3
"""Measures the maps beside the Rust crate slotmap 1.1.1, and writes the table of all operations.

SOURCE is the crate's folder (with src/lib.rs), and OUT a folder outside the repository, where everything is built. Where only
structures are measured, nothing is read of SOURCE. The rows of the file of results that are measured anew are replaced, and all
others stay.
"""

import argparse
import math
import os
import subprocess
import sys
import threading
from concurrent.futures import ThreadPoolExecutor

sys.dont_write_bytecode = True

import build
import results
from measure import Bench
from operations import FAMILIES, MAPS, STRUCTURES, is_build, operations_of

SIZES = {"instructions": [1_000, 100_000], "time": [1_000, 100_000, 1_000_000], "memory": [1_000_000], "faults": []}

# The families with a few operations are measured at one size each.
ONE_SIZE = {"instructions": [1_000], "time": [100_000], "memory": [1_000_000], "faults": []}

# The structures are measured at two sizes, in instructions and page faults only where they are built.
STRUCTURE_SIZES = {"instructions": [1_000], "time": [1_000, 100_000], "memory": [1_000_000], "faults": []}
BUILD_SIZES = STRUCTURE_SIZES | {"instructions": [1_000, 100_000], "faults": [1_000, 100_000]}

# The time of growth is measured at more keys, too.
MANY = 10_000_000

# Memory is measured where a map or a structure is filled, and where it is more than a few pages.
FEW = 100_000
FILLS = ("push", "build", "run")


def place_of(row):
    kind = next(it for it in MAPS if it.name == row.map)
    names = [it.name for it in FAMILIES[kind.family]]
    return list(SIZES).index(row.measure), kind.number, row.slots, names.index(row.operation)


def sizes_of(measure, kind, operation):
    """The numbers of slots at which an operation is measured."""
    if kind.family in ("Valued", "Stepped"):
        return ONE_SIZE[measure]
    if kind.name in STRUCTURES:
        return (BUILD_SIZES if is_build(kind, operation) else STRUCTURE_SIZES)[measure]
    is_growth = measure == "time" and kind.family == "Primary" and operation.name == "insert"
    return SIZES[measure] + [MANY] * is_growth


def is_fill(operation):
    return operation.name.startswith("insert") or operation.name in FILLS


def tasks(args):
    """What is to be measured: a measure, a map, an operation and a number of slots."""
    found = []
    for measure in args.measures:
        for kind in (it for it in MAPS if it.name in args.maps):
            for operation in operations_of(kind):
                is_wanted = not args.operations or operation.name in args.operations
                for n in args.sizes or sizes_of(measure, kind, operation):
                    if is_wanted and (measure != "memory" or is_fill(operation) and n >= FEW):
                        found.append((measure, kind, operation, n))
    return found


class Table:
    """The file of results. Each row is written as soon as it is there, so that a run may be ended early."""

    def __init__(self, path, commit, spread):
        self.path, self.commit, self.spread = path, commit, spread
        self.rows = results.read(path)
        self.lock = threading.Lock()

    def add(self, task, figures):
        measure, kind, operation, n = task
        port, rust, *ratios = figures
        # Page faults are those of all calls of a round.
        count = 1 if measure == "faults" else operation.count(n)
        place = measure, kind.name, operation.name, n
        row = results.Row(*place, port / count, rust / count, *ratios, self.commit, results.today())
        with self.lock:
            is_wide = row.most - row.least > self.spread * row.ratio
            print(results.line_of(row), *(["left out: the quartiles lie too far apart"] if is_wide else []), flush=True)
            if is_wide:
                self.rows.pop(place, None)
                results.write(self.path, self.rows, place_of)
                return row
            self.rows[place] = row
            results.write(self.path, self.rows, place_of)
        return row


def measured(bench, table, wanted, jobs):
    """A row for each task. Instructions may be counted side by side, since no run changes another's."""

    def row_of(task):
        measure, *about = task
        return table.add(task, getattr(bench, measure)(*about))

    counted = [it for it in wanted if it[0] == "instructions"]
    others = [it for it in wanted if it[0] != "instructions"]
    with ThreadPoolExecutor(jobs) as pool:
        rows = list(pool.map(row_of, counted))
    return rows + [row_of(it) for it in others]


def print_means(rows):
    """The geometric mean of the ratios of each map, and how many of them are above 1.25."""
    groups = {}
    for row in (it for it in rows if it.measure != "faults"):
        groups.setdefault((row.measure, row.map, row.slots), []).append(row.ratio)
    for (measure, name, slots), ratios in groups.items():
        mean = math.exp(sum(math.log(it) for it in ratios) / len(ratios))
        above = sum(it > 1.25 for it in ratios)
        print(f"{measure} of {name} at {slots}: mean {mean:.2f}, greatest {max(ratios):.2f}, {above} of {len(ratios)} above 1.25")


def words(text):
    return text.split(",")


def options():
    parser = argparse.ArgumentParser(description=__doc__, formatter_class=argparse.RawDescriptionHelpFormatter)
    names = [it.name for it in MAPS]
    parser.add_argument("source", metavar="SOURCE")
    parser.add_argument("out", metavar="OUT")
    parser.add_argument("--results", metavar="FILE", help="the file of results; OUT/results.tsv if left out")
    parser.add_argument("--measures", type=words, default=list(SIZES), help=",".join(SIZES))
    parser.add_argument("--maps", type=words, default=names, help=",".join(names))
    parser.add_argument("--operations", type=words, default=[], help="names of operations.py; all if left out")
    parser.add_argument("--sizes", type=lambda it: [int(n) for n in words(it)], help="numbers of slots")
    parser.add_argument("--runs", type=int, default=7, help="how often a time is taken on each side; at most 3 from a million slots on")
    parser.add_argument("--ms", type=int, default=40, help="milliseconds that a time takes at least")
    half = max(1, (os.cpu_count() or 1) // 2)
    parser.add_argument("--jobs", type=int, default=half, help=f"how many proofs, and runs of callgrind, go side by side; here {half}")
    parser.add_argument("--spread", type=float, default=math.inf, help="times whose quartiles lie farther apart than this part of the ratio aren't kept; all are if left out")
    parser.add_argument("--registry", metavar="FOLDER", default=build.REGISTRY, help=f"where petgraph's sources lie, and those of what it names; {build.REGISTRY} if left out")
    parser.add_argument("--crates", metavar="FOLDER", help="the crates of another copy of the repository")
    parser.add_argument("--built", action="store_true", help="measure what lies in OUT, and build nothing")
    return parser.parse_args()


def main():
    args = options()
    unknown = [it for it in args.measures if it not in SIZES] + [it for it in args.maps if it not in [m.name for m in MAPS]]
    if unknown:
        sys.exit(f"bench.py: no such measure or map: {' '.join(unknown)}")
    crates = args.crates or os.path.join(build.REPOSITORY, "crates")
    program = os.path.join(args.out, "bench")
    if not args.built:
        program = build.build(os.path.abspath(args.out), args.source, crates, args.jobs, args.maps, args.registry)
    if not build.has_petgraph(args.out):
        args.maps = [it for it in args.maps if it != "petgraph"]
    path = args.results or os.path.join(args.out, "results.tsv")
    bench = Bench(os.path.abspath(program), args.runs, args.ms)
    table = Table(path, results.commit_of(crates), args.spread)
    print_means(measured(bench, table, tasks(args), args.jobs))
    return 0


if __name__ == "__main__":
    try:
        sys.exit(main())
    except subprocess.SubprocessError as error:
        sys.exit(f"bench.py: {error}")
