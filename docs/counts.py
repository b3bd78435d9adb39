#!/usr/bin/env python3
"""Counts crates, wrong bodies and lines, and says which page has another number. `docs/counts.py --check` does the same.

A number of crates or of wrong bodies in the gate is exact. The wrong bodies outside of it and the lines are rounded to hundreds. It also
lists the lines of sources and proofs that are too long to read, beyond those that the table LONG_LINES still allows.
"""

import glob
import os
import re
import sys

TOP = os.path.dirname(os.path.dirname(os.path.abspath(__file__)))
WORDS = "no one two three four five six seven eight nine ten eleven twelve thirteen fourteen fifteen sixteen".split()


def read(path):
    with open(os.path.join(TOP, path), encoding="utf-8") as file:
        return file.read()


def found(pattern):
    return glob.glob(os.path.join(TOP, pattern), recursive=True)


def below():
    """For each crate of crates.txt the crates that it lists."""
    lines = re.findall(r"^(\w+)(?: staticlib)?:(.*)$", read("crates.txt"), re.M)
    return {name: listed.split() for name, listed in lines}


def with_those_below(name, listed):
    reached, ahead = set(), [name]
    while ahead:
        crate = ahead.pop()
        if crate in listed and crate not in reached:
            reached.add(crate)
            ahead += listed[crate]
    return reached


def lines_of(crate, parts, comment):
    """The lines of a crate's files without those that are blank or a comment."""
    texts = [read(it) for part in parts for it in found(f"crates/{crate}/{part}")]
    return sum(not re.match(rf"\s*({comment}|$)", line) for text in texts for line in text.split("\n"))


def hundreds(number):
    return f"{round(number, -2):,}"


def callers():
    """The crates of callers, by what PROVED.md calls them."""
    return {"`slotmap_examples`": ["slotmap_examples"], "the structures' callers": [it for it in below() if it.endswith("_callers")]}


def minutes_of(crates):
    """What the parts of the gate take that begin with one of these crates, by docs/ARCHITECTURE.md."""
    rows = re.findall(r"(?m)^\| `(\w+)`[^|]* \| (\d+) \| [\d.]+ \|$", read("docs/ARCHITECTURE.md"))
    return sum(int(minutes) for name, minutes in rows if name in crates)


def is_example(path):
    """Whether a file of a crate of callers is of an example: neither a guard nor what a program makes."""
    return not re.search(r"/(src|proofs)/(guards|calls|main)\b", path)


def proof_files(crates):
    """How many functions the examples of these crates have, and how many of them have no proof file."""
    sources = [it for crate in crates for it in found(f"crates/{crate}/src/**/*.rt") if is_example(it)]
    functions = sum(len(re.findall(r"(?m)^ *(?:pub(?:\(crate\))? )?fn \w+", read(it))) for it in sources)
    proofs = [it for crate in crates for it in found(f"crates/{crate}/proofs/**/*.antt") if is_example(it)]
    return functions, functions - len({os.path.dirname(it) for it in proofs if os.path.basename(it) in ("Answers.antt", "Invariants.antt", "Proof.antt")})


LONGEST = 200
# How many lines of a crate are longer: a table that only shrinks. Where it is less, write the lesser number, and drop the crate at 0.
LONG_LINES = {"slotmap_core": 3, "slotmap_run": 7, "slotmap_c": 7}


def long_lines():
    """The crates that have another number of long lines than the table, with the places of these lines."""
    places = {crate: [] for crate in LONG_LINES}
    for pattern in ("src/**/*.rt", "specs/**/*.antt", "proofs/**/*.antt"):
        for path in sorted(os.path.relpath(it, TOP) for it in found(f"crates/*/{pattern}")):
            numbered = enumerate(read(path).split("\n"), 1)
            places.setdefault(path.split("/")[1], []).extend(f"{path}:{number}" for number, line in numbered if len(line.encode()) > LONGEST)
    for crate, them in sorted(places.items()):
        allowed = LONG_LINES.get(crate, 0)
        if len(them) != allowed:
            yield f"{crate} has {len(them)} lines over {LONGEST} bytes, where docs/counts.py allows {allowed}: {' '.join(them)}"


def sentences():
    """What each page has to say."""
    tried, others = found("crates/*/must-fail/*.edit"), found("crates/*/more-wrong-bodies/*.edit")
    crates = len({os.path.dirname(it) for it in tried})
    library = with_those_below("slotmap", below())
    code = lines_of("slotmap_basic", ["src/**/*.rt"], "//|ghost|requires|ensures|#")
    proofs = lines_of("slotmap_basic", ["specs/**/*.antt", "proofs/**/*.antt"], "--")
    return {
        "docs/DECISIONS.md": [
            f"**The gate tries {len(tried)} wrong bodies**",
            f"these {hundreds(len(others))} would",
            f"**The library is {WORDS[len(library)]} crates**",
        ],
        "docs/ARCHITECTURE.md": [
            f"tries {len(tried)}, in {WORDS[crates]} crates",
            f"some {hundreds(code)} lines of code and {hundreds(proofs)} of specs and proofs",
        ],
        "crates/slotmap/CALLING.md": [
            f"This proves the {WORDS[len(library)]} libraries",
            f"proves the {WORDS[len(library)]} libraries of `slotmap`, in some {round(minutes_of(library), -1)} CPU minutes",
        ],
        "docs/PROVED.md": [
            f"{bare} of the {functions} functions of {name}" for name, crates in callers().items() for functions, bare in [proof_files(crates)]
        ],
    }


def main():
    if sys.argv[1:] not in ([], ["--check"]):
        sys.exit("usage: docs/counts.py [--check]")
    wrong = [
        f"{page} doesn't say: {sentence}"
        for page, wanted in sentences().items()
        for sentence in wanted
        if sentence not in " ".join(read(page).split())
    ] + list(long_lines())
    print("\n".join(wrong), end="\n" if wrong else "")
    return 1 if wrong else 0


if __name__ == "__main__":
    sys.exit(main())
