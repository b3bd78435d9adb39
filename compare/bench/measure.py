"""Measures one operation of one map on both sides. Each run is a process of its own, so that no heap is shared."""

import os
import re
import statistics
import subprocess
import sys
import tempfile

import operations

SIDES = ("port", "rust")
NONE = str(2**64 - 1)

# What callgrind counts is the difference of a run with one round and one with this many more.
MORE_ROUNDS = 3

# Page faults are the difference of a run with the first of these numbers of rounds and one with the second more. In the first rounds the
# C library still learns how much memory to keep.
FAULT_ROUNDS = (5, 10)

# From this many slots on, where the set-up takes most of a run, a time is taken at most so often on each side.
LARGE = 1_000_000
RUNS_WHERE_LARGE = 3

# The first round of a process is one short run, and is taken so often.
RUNS_OF_FIRST = 31


class Bench:
    """The driver, and how long it is to measure."""

    def __init__(self, program, runs, milliseconds):
        self.program, self.runs, self.milliseconds = program, runs, milliseconds
        self.counts = {}

    def ask(self, mode, side, kind, operation, n, last, before=()):
        """What the driver prints; the run stops where it fails."""
        place = operations.FAMILIES[kind.family].index(operation)
        words = [self.program, mode, side, str(kind.number), str(place), str(n), str(last)]
        done = subprocess.run([*before, *words], stdout=subprocess.PIPE, stderr=subprocess.PIPE, text=True, check=False)
        said = done.stdout.strip()
        if done.returncode != 0 or said.split(" ")[0] in ("", NONE):
            sys.exit(f"bench.py: {' '.join(words)} failed\n{done.stderr}")
        return said

    def instructions(self, kind, operation, n):
        """For each side the instructions of one round; both sides have to agree on their checksums."""
        return self.of_one_round(self.counted, kind, operation, n, (1, MORE_ROUNDS))

    def faults(self, kind, operation, n):
        """For each side the page faults of one round."""
        return self.of_one_round(self.faulted, kind, operation, n, FAULT_ROUNDS)

    def of_one_round(self, counted, kind, operation, n, steady):
        """The difference of two runs. An operation that is the first of a process has no set-up, and one round."""
        least, more = (0, 1) if operations.is_first(operation) else steady
        counts, sums = {}, {}
        for side in SIDES:
            runs = [counted(side, kind, operation, n, rounds) for rounds in (least, least + more)]
            sums[side] = [it[1] for it in runs]
            counts[side] = (runs[1][0] - runs[0][0]) / more
        must_agree(kind, operation, n, sums)
        return figures_of(counts)

    def faulted(self, side, kind, operation, n, rounds):
        said, faults = self.ask("faults", side, kind, operation, n, rounds).split(" ")
        return int(faults), said

    def counted(self, side, kind, operation, n, rounds):
        """The instructions of a run, and its checksum. One run of the port's side serves each row that has it."""
        own = operations.AGAIN.get(kind.name, kind.name) if side == "port" else kind.name
        run = side, own, operation.name, n, rounds
        if run not in self.counts:
            self.counts[run] = self.counted_anew(side, kind, operation, n, rounds)
        return self.counts[run]

    def counted_anew(self, side, kind, operation, n, rounds):
        with tempfile.TemporaryDirectory() as folder:
            path = os.path.join(folder, "counts")
            before = ["valgrind", "--tool=callgrind", f"--callgrind-out-file={path}"]
            said = self.ask("sum", side, kind, operation, n, rounds, before)
            with open(path, encoding="utf-8") as file:
                total = re.search(r"^(?:summary|totals): (\d+)", file.read(), re.M)
        return int(total.group(1)), said

    def time(self, kind, operation, n):
        """For each side the median of its times of one round, and of the ratios of neighbouring runs the median and the quartiles."""
        sums = {side: self.ask("sum", side, kind, operation, n, 2) for side in SIDES}
        must_agree(kind, operation, n, sums)
        times = {side: [] for side in SIDES}
        is_first = operations.is_first(operation)
        words = ("once", 1) if is_first else ("time", self.milliseconds)
        runs = RUNS_OF_FIRST if is_first else self.runs
        for _ in range(min(runs, RUNS_WHERE_LARGE) if n >= LARGE else runs):
            for side in SIDES:
                times[side].append(float(self.ask(words[0], side, kind, operation, n, words[1])))
        ratios = [port / rust for port, rust in zip(times["port"], times["rust"]) if rust > 0]
        least, middle, most = statistics.quantiles(ratios, n=4, method="inclusive") if len(ratios) > 1 else ratios * 3
        return statistics.median(times["port"]), statistics.median(times["rust"]), middle, least, most

    def memory(self, kind, operation, n):
        """For each side the memory in bytes that a round takes beside its set-up, at its peak."""
        sizes, sums = {}, {}
        for side in SIDES:
            said = [self.ask("peak", side, kind, operation, n, rounds).split(" ") for rounds in (0, 1)]
            sums[side] = said[1][0]
            sizes[side] = int(said[1][1]) - int(said[0][1])
        must_agree(kind, operation, n, sums)
        return figures_of(sizes)


def figures_of(counts):
    """What both sides need, and the ratio, which doesn't vary."""
    ratio = counts["port"] / counts["rust"] if counts["rust"] else float("nan")
    return counts["port"], counts["rust"], ratio, ratio, ratio


def must_agree(kind, operation, n, sums):
    if sums["port"] != sums["rust"]:
        sys.exit(f"bench.py: {kind.name} {operation.name} at {n}: the checksums differ: {sums}")
