#!/usr/bin/env python3
"""Lists the lemma files that are public though no other crate cites them: the checker then says who may cite what. Those of slotmap_core say it in their heads.

    tests/private_lemmas.py [--check]

The status is 0 if nothing is listed.
"""
import glob
import os
import re
import sys

TOP = os.path.dirname(os.path.dirname(os.path.abspath(__file__)))


def sources():
    """The text of each source and proof file, by its crate."""
    found = {}
    for path in glob.glob(f"{TOP}/crates/*/**/*", recursive=True):
        parts = os.path.relpath(path, f"{TOP}/crates").split("/")
        if path.endswith((".rt", ".antt")) and parts[1] in ("src", "specs", "proofs"):
            with open(path, encoding="utf-8") as file:
                found.setdefault(parts[0], {})["/".join(parts[1:])] = file.read()
    return found


def cited(crate, texts):
    """The lemma files of a crate that another crate cites, or that the crate passes on."""
    paths = set()
    for other, files in texts.items():
        begin = "pub use " if other == crate else ""
        for text in files.values():
            paths.update(re.findall(rf"{begin}Rattle\.{crate}\.proofs\.([\w.]+)", text))
            # One line may import from several files, as `proofs.{File.lemma, Other.lemma}`.
            for names in re.findall(rf"{begin}Rattle\.{crate}\.proofs\.{{([^}}]*)}}", text):
                paths.update(it.strip().partition(" ")[0].rpartition(".")[0] for it in names.split(","))
            if other != crate:
                paths.update(it.replace("::", ".") for it in re.findall(rf"\b{crate}::proofs::([\w:]+)", text))
    return paths


def needlessly_public(crate, texts):
    """The lemma files of a crate that are declared by `pub mod` and not cited outside it."""
    paths = cited(crate, texts)
    for name, text in sorted(texts[crate].items()):
        if not name.startswith("proofs/"):
            continue
        above = name[len("proofs/"):-len(".antt")].replace("/", ".")
        for module in re.findall(r"^pub mod (\w+)$", text, re.M):
            path = module if above == "Lib" else f"{above}.{module}"
            if not any(it == path or it.startswith(path + ".") for it in paths):
                yield path


def main():
    texts = sources()
    faults = [f"{crate}: {path} is public, and no other crate cites it" for crate in sorted(texts) if crate != "slotmap_core" for path in needlessly_public(crate, texts)]
    print("\n".join(faults) if faults else "each public lemma file is cited by another crate")
    sys.exit(1 if faults else 0)


if __name__ == "__main__":
    main()
