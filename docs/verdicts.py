#!/usr/bin/env python3
"""Keeps docs/verdicts.tsv: for each crate the axioms that its verdict counts, the contracts of C functions that it calls.
`docs/verdicts.py LOG` reads the verdicts in a log of the gate, or of a check, and writes them there. Those of other crates stay.
With --check it writes nothing, and fails where docs/PROVED.md says something else than the table: a crate that it names beside a
number of axioms, in a line `| `CRATE` | NUMBER |` below "Nothing is assumed", has this number, and each other crate has none. A crate without a
verdict is a fault too.
"""

import os
import re
import sys

TOP = os.path.dirname(os.path.dirname(os.path.abspath(__file__)))
TABLE = os.path.join(TOP, "docs/verdicts.tsv")
HEAD = "# Written by docs/verdicts.py from the verdicts of the gate or of a check: crate, and axioms"


def read(path):
    with open(path, encoding="utf-8", errors="replace") as file:
        return file.read()


def crates():
    """The crates of crates.txt."""
    return {re.split(r"[ :]", it)[0] for it in read(os.path.join(TOP, "crates.txt")).split("\n") if re.match(r"\w", it)}


def verdicts_in(log):
    """The axioms that each crate's last verdict in the log counts. The gate names a crate below its verdict, and a check above it."""
    found, crate, axioms = {}, None, None
    for line in log.split("\n"):
        checked, proved = re.match(r"crate (\w+): modules loaded", line), re.match(r"rt: (\w+) proved$", line)
        crate = checked.group(1) if checked else crate
        if line.startswith("logic=proved functions="):
            counted = re.search(r" axioms=(\d+)", line)
            axioms = int(counted.group(1)) if counted else 0
            if crate:
                found[crate] = axioms
        elif proved and axioms is not None:
            found[proved.group(1)] = axioms
    return found


def table():
    if not os.path.exists(TABLE):
        return {}
    rows = (it.split("\t") for it in read(TABLE).split("\n") if it and not it.startswith("#"))
    return {crate: int(axioms) for crate, axioms in rows}


def faults():
    known, kept, found = crates(), table(), []
    section = read(os.path.join(TOP, "docs/PROVED.md")).split("## Nothing is assumed")[1].split("\n## ")[0]
    rows = re.findall(r"(?m)^\| ((?:`\w+`(?:, )?)+) \| (\d+) \|", section)
    said = {crate: int(axioms) for named, axioms in rows for crate in re.findall(r"\w+", named)}
    found += [f"docs/verdicts.tsv has no verdict of {crate}" for crate in sorted(known - set(kept))]
    for crate, axioms in kept.items():
        if crate not in known:
            found.append(f"docs/verdicts.tsv has {crate}, which crates.txt lacks")
        elif axioms != said.get(crate, 0):
            found.append(f"docs/PROVED.md says that {crate} has {said.get(crate, 0)} axioms, and its verdict {axioms}")
    return found


def main():
    if len(sys.argv) != 2:
        sys.exit("usage: docs/verdicts.py LOG | --check")
    if sys.argv[1] == "--check":
        found = faults()
        print("\n".join(found), end="\n" if found else "")
        return 1 if found else 0
    kept = table()
    kept.update({crate: axioms for crate, axioms in verdicts_in(read(sys.argv[1])).items() if crate in crates()})
    with open(TABLE, "w", encoding="utf-8") as file:
        file.write("\n".join([HEAD, *(f"{crate}\t{kept[crate]}" for crate in sorted(kept))]) + "\n")
    return 0


if __name__ == "__main__":
    sys.exit(main())
