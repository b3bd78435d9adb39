#!/usr/bin/env python3
"""speed.py FOLDER LIST README: measures the programs in FOLDER, which beside.sh builds, and writes the tables into README.

LIST has the operations of the structures, as structures.py writes them. Instructions are callgrind's, at 1,000 keys. Nanoseconds are the
least of five processes, each of which takes its least; the two crates' processes alternate. The graph's are taken with glibc's trimming
off: it gives memory back to the system after each graph otherwise.
"""
import glob, os, re, subprocess, sys, tempfile

MAPS = {"basic": "SlotMap", "dense": "DenseSlotMap", "hop": "HopSlotMap", "secondary": "SecondaryMap", "sparse": "SparseSecondaryMap"}
WORKS = {"insert": "insert, from empty", "churn": "removal and insert", "get": "get, of a live key", "stale": "get, of a stale key",
    "full": "a step of iter, full", "half": "half of the slots live", "tenth": "1 of 10 live", "hundredth": "1 of 100 live"}
GRAPH = {"build": "a graph, an element", "room": "the same, with room reserved", "walk": "a step to a neighbour", "churn": "a change, a call"}
UNITS = {"build": 50_000, "room": 50_000, "walk": 40_000, "churn": 15_000}
KEPT = dict(os.environ, MALLOC_TRIM_THRESHOLD_="1000000000", MALLOC_MMAP_THRESHOLD_="1000000000")
WHOSE = ["ours", "theirs"]
MARK = "<!-- speed -->"
WHY = """Where this crate takes longer, the reasons are these:

- An index of a vector is tested, and so is what a slot holds: two instructions each. slotmap's code is unsafe there.
- A `SlotMap` has three vectors, of versions, links and values, and a new slot goes into each. Its iterators look at the versions alone.
- An insert into a `SparseSecondaryMap` looks for the key twice.
- A graph keeps the edges of a node in their order, and removes any edge in constant time. So a new edge changes six places, petgraph's two. A
  graph without room reserved grows eight vectors. It takes 48 bytes an edge, petgraph's 32.
- The graphs were built in a process that keeps its memory. glibc gives the memory of a larger graph back to the system when it is dropped, and
  the next one then takes two to six times as long.""".splitlines()


def counts(program, *words):
    """What callgrind counts of each piece of work of a program, in its order, and the program's lines."""
    with tempfile.TemporaryDirectory() as folder:
        ran = subprocess.run(["valgrind", "--tool=callgrind", f"--callgrind-out-file={folder}/out", "--zero-before=*clock::counted*",
            "--dump-before=*clock::ended*", program, *words], capture_output=True, text=True, check=True)
        files = [f"{folder}/out.{at + 1}" for at in range(len(glob.glob(f"{folder}/out.*")))]
        return [int(re.search(r"^totals: (\d+)", open(file).read(), re.M)[1]) for file in files], ran.stdout.splitlines()


def instructions(folder, whose, name):
    totals, lines = counts(f"{folder}/speed", whose, name, "1000", "0")
    return {work: total / int(units) for total, (work, _, units) in zip(totals, map(str.split, lines))}


def nanoseconds(folder, name, keys, runs):
    """The least of five processes for each side, which alternate."""
    least = {whose: {work: float("inf") for work in WORKS} for whose in WHOSE}
    for _ in range(5):
        for whose in WHOSE:
            ran = subprocess.run([f"{folder}/speed", whose, name, str(keys), str(runs)], capture_output=True, text=True, check=True)
            for work, taken, _ in map(str.split, ran.stdout.splitlines()):
                least[whose][work] = min(least[whose][work], float(taken))
    return least


def of_graph(folder, whose, work):
    """The instructions and the nanoseconds of one unit."""
    (total,), _ = counts(f"{folder}/graph", whose, work, "0")
    run = lambda: float(subprocess.run([f"{folder}/graph", whose, work, "40"], capture_output=True, text=True, check=True, env=KEPT).stdout)
    return total / UNITS[work], min(run() for _ in range(5))


def structures(folder, operations):
    """The lines of the structures: what two rounds cost more than none."""
    names = dict.fromkeys(name for name, *_ in operations)
    for name in names:
        own = [it for it in operations if it[0] == name]
        found = {whose: counts(f"{folder}/structures", whose, name, "1000", "2", *(it[1] for it in own)) for whose in WHOSE}
        if found["ours"][1] != found["theirs"][1]:
            sys.exit(f"{name}: the checksums differ: {found['ours'][1]}, {found['theirs'][1]}")
        for at, (_, operation, units, text) in enumerate(own):
            ours, theirs = ((found[whose][0][2 * at + 1] - found[whose][0][2 * at]) / 2 / int(units) for whose in WHOSE)
            yield f"| {name if at == 0 else ''} | {text} | {ours:.0f} ({theirs:.0f}) |"


def machine():
    """What was measured on, as a sentence."""
    with open("/proc/cpuinfo") as file:
        model = re.search(r"^model name\s*: (.*)", file.read(), re.M)[1]
    compiler = subprocess.run(["rustc", "--version"], capture_output=True, text=True, check=True).stdout.split()[1]
    return f"Measured with rustc {compiler} on an {model}, which other programs used too."


def rows(folder, operations):
    """The lines of the tables."""
    yield "Instructions at 1,000 keys, and nanoseconds at 1,000 and at 1,000,000: this crate's, and slotmap's in brackets."
    yield machine()
    yield ""
    yield "| | | instructions | ns at 1,000 | ns at 1,000,000 |"
    yield "|---|---|---|---|---|"
    for name, title in MAPS.items():
        counted = {whose: instructions(folder, whose, name) for whose in WHOSE}
        few, many = nanoseconds(folder, name, 1000, 200), nanoseconds(folder, name, 1_000_000, 2)
        for work, text in WORKS.items():
            cells = [f"{of['ours'][work]:.{digits}f} ({of['theirs'][work]:.{digits}f})" for of, digits in ((counted, 0), (few, 1), (many, 1))]
            yield f"| {title if work == 'insert' else ''} | {text} | {' | '.join(cells)} |"
    yield ""
    yield "| bytes a key, after 1,000,000 inserts | values of 8 bytes | values of 32 bytes |"
    yield "|---|---|---|"
    ran = subprocess.run([f"{folder}/bytes", "1000000"], capture_output=True, text=True, check=True).stdout
    found = {(name, size): f"{ours} ({theirs})" for name, size, ours, theirs in map(str.split, ran.splitlines())}
    for name, title in MAPS.items():
        yield f"| {title} | {found[name, '8']} | {found[name, '32']} |"
    yield ""
    yield "| a graph of 10,000 nodes and 40,000 edges (petgraph's StableDiGraph) | instructions | ns |"
    yield "|---|---|---|"
    for work, text in GRAPH.items():
        ours, theirs = (of_graph(folder, whose, work) for whose in WHOSE)
        yield f"| {text} | {ours[0]:.0f} ({theirs[0]:.0f}) | {ours[1]:.1f} ({theirs[1]:.1f}) |"
    yield ""
    yield "| structures of 1,000 elements, beside plain Rust with indices (`petgraph` beside that crate) | | instructions |"
    yield "|---|---|---|"
    yield from structures(folder, operations)
    yield ""
    yield from WHY


def main():
    folder, names, page = sys.argv[1:]
    with open(page) as file:
        text = file.read()
    if text.count(MARK) not in (1, 2):
        sys.exit(f"{page}: {MARK} stands {text.count(MARK)} times")
    before, *_, after = text.split(MARK)
    with open(names) as file:
        operations = [line.rstrip("\n").split("\t") for line in file]
    table = "\n".join(rows(folder, operations))
    with open(page, "w") as file:
        file.write(f"{before}{MARK}\n{table}\n{MARK}{after}")
    print(table)


if __name__ == "__main__":
    main()
