#!/usr/bin/env python3
"""Says whether what c/dist has was built from the sources that are here: a sum for each crate and folder that goes into it.

    c/sources.py           writes c/dist/SOURCES, as c/dist.sh does once all is built
    c/sources.py --check   compares, names what differs, and then ends with status 1

Of a crate its `.rt` files count without the lines of comments, since neither these nor proofs change a byte of an archive. SHA256SUMS, which has
the sums of the archives, of slotmap.h and of heap.c, is compared too.
"""
import hashlib
import os
import re
import sys

sys.dont_write_bytecode = True
TOP = os.path.dirname(os.path.dirname(os.path.abspath(__file__)))

CRATE = "slotmap_c"
# Where the sources of the wheels are, beside the archives and the header.
PACKAGE = "c/python"
RECORD = os.path.join(TOP, "c/dist/SOURCES")


def read(path):
    with open(os.path.join(TOP, path), "rb") as file:
        return file.read()


def depended_on(crate):
    """The crates of the project that a crate stands on, and the crate itself."""
    lines = re.findall(r"(?m)^(\w+)(?: \w+)?:(.*)$", read("crates.txt").decode())
    below = {name: rest.split() for name, rest in lines}
    found, waiting = set(), [crate]
    while waiting:
        name = waiting.pop()
        if name in below and name not in found:
            found.add(name)
            waiting += below[name]
    return sorted(found)


def files_below(folder, *endings):
    for place, _, names in sorted(os.walk(os.path.join(TOP, folder))):
        for name in sorted(names):
            if name.endswith(endings) and "__pycache__" not in place:
                yield os.path.relpath(os.path.join(place, name), TOP)


def sum_of_crate(crate):
    total = hashlib.sha256()
    for path in files_below(f"crates/{crate}/src", ".rt"):
        total.update(f"\n{path}\n".encode())
        kept = [it for it in read(path).splitlines() if it.strip() and not it.lstrip().startswith(b"//")]
        total.update(b"\n".join(kept))
    return total.hexdigest()


def sum_of_folder(folder):
    total = hashlib.sha256()
    for path in files_below(folder, ".c", ".h", ".py", ".pyi", ".toml", ".md", "py.typed"):
        total.update(f"\n{path}\n".encode() + read(path))
    return total.hexdigest()


def sums():
    lines = [f"{sum_of_crate(it)}  crates/{it}" for it in depended_on(CRATE)]
    return "\n".join([*lines, f"{sum_of_folder(PACKAGE)}  {PACKAGE}"]) + "\n"


def faults():
    """What differs from what the records in c/dist say."""
    recorded = dict(reversed(it.split("  ")) for it in read("c/dist/SOURCES").decode().splitlines())
    now = dict(reversed(it.split("  ")) for it in sums().splitlines())
    found = [path for path in sorted({*recorded, *now}) if recorded.get(path) != now.get(path)]
    for line in read("c/dist/SHA256SUMS").decode().splitlines():
        expected, name = line.split("  ")
        if hashlib.sha256(read(f"c/{name}")).hexdigest() != expected:
            found.append(f"c/{name}")
    return found


def main():
    if sys.argv[1:] == ["--check"]:
        found = faults()
        for path in found:
            print(f"{path} is another than c/dist was built from: run c/dist.sh")
        return 1 if found else 0
    if sys.argv[1:]:
        sys.exit("usage: c/sources.py [--check]")
    with open(RECORD, "w", encoding="utf-8") as file:
        file.write(sums())
    return 0


if __name__ == "__main__":
    sys.exit(main())
