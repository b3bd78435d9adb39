#!/usr/bin/env python3
"""Plants ten weakenings and some harmless changes in a copy of the sources, and sees that docs/lock.py names each weakening, and none of the others.

    tests/planted_weakenings.py [--check]

Each weakening has the line that docs/lock.py should write, or the call and the clause that should be in one. The harmless changes are in crates
without a weakening. The status is 0 if all is as it should be.
"""

import os
import shutil
import subprocess
import sys
import tempfile

TOP = os.path.dirname(os.path.dirname(os.path.abspath(__file__)))
# What it is, the file, the old text, the new text, and the line.
CLAUSES = [
    ("a clause says less", "slotmap_basic/src/insert.rt", "HasVacant self.old → IsOk result", "IsOk result → IsOk result",
     "slotmap_basic, SlotMap::insert: changed: ensures reuses"),
    ("a clause is gone", "slotmap_run/src/primary.rt", "    ensures starts { Starts M.REUSES (M.content map.old) }\n", "",
     "slotmap_run, run: gone: ensures starts"),
    ("an error may be any", "slotmap_json/src/lib.rt", "{ IfErr result (λ error. error ≡ Shape) }", "{ IfErr result (λ error. error ≡ error) }",
     "slotmap_json, key_from_value: changed: ensures err"),
    ("a premise is new", "slotmap_c/src/keyed.rt", "    ensures says { InsertSays", "    requires { this.old.is_open ≡ true }\n    ensures says { InsertSays",
     "slotmap_c, slotmap_insert: added: requires"),
    ("an import brings another word", "slotmap_lists/src/lib.rt", "IsLive, IsNew, IsSpent,", "IsLive, IsLive as IsNew, IsSpent,",
     "slotmap_lists, StableLists::with_key: changed: ensures cursors"),
]
# The same, with the crate and the call in place of the line, and the clause.
DEFINITIONS = [
    ("a record loses a field", "slotmap_graph/specs/Parts.antt", "  pub into : (k : Key) → ListsEdges to", "  -- ListsEdges to",
     "slotmap_graph, Graph::node_count", "ensures joined"),
    ("a definition that clauses see by a re-export", "slotmap_core/specs/OrPut.antt", "(entry old k ≡ vacant) × (new ≡ bind old k v)", "new ≡ bind old k v",
     "slotmap_secondary, SecondaryMap::or_put", "ensures does"),
    ("a definition that is imported under another name", "slotmap_entities/specs/World.antt", "  pub entities : Dense E", "  pub entities : Content E",
     "slotmap_entities, World::len", "ensures value"),
    ("a law of a trait", "slotmap_core/src/keys.rt", "Self.is_clone a b → a ≡ b }", "Self.is_clone a b → a ≡ a }",
     "slotmap_core, Key", "ghost clone_same"),
    ("a definition below the one that a type shows", "slotmap_scheduler/specs/Timed.antt", "(nat_cmp a.1 b.1)", "(nat_cmp a.1 a.1)",
     "slotmap_scheduler, Scheduler::with_key", "ensures waiting"),
]
HARMLESS = [
    ("a comment in a clause", "slotmap_dense/src/insert.rt", "        ensures ok {", "        // requires { nothing }\n        ensures ok\n        {"),
    ("another import of the same word", "slotmap_dense/src/remove.rt", "Words.{Key as KeyOf, IsContent, Removes};",
     "Words.{Key as KeyOf, Removes};\nghost use Rattle.slotmap_core.specs.Content.{IsContent};"),
    ("a body", "slotmap_dense/src/remove.rt", "{\n        ", "{\n        let _nothing = ();\n        "),
    ("a clause of a private function", "slotmap_dense/src/remove.rt", "    ensures value { slice_get values.old.items position ≡ Some result }\n", ""),
    ("comments in a definition", "slotmap_hop/specs/HopContent.antt", " where\n", " where -- a record\n\n    -- a comment\n"),
    ("where a definition stands", "slotmap_links/src/iter.rt", "specs.Segment.", "specs.Elsewhere."),
    ("a lemma", "slotmap_links/proofs/New.antt", "", "-- Nothing.\n"),
]


def plant(folder, what, path, old, new):
    """Changes a file of the copy; says why it can't."""
    path = os.path.join(folder, "crates", path)
    text = ""
    if os.path.exists(path):
        with open(path, encoding="utf-8") as file:
            text = file.read()
    if old not in text:
        return f"{what}: {path[len(folder) + 1:]} lacks `{old}`"
    os.makedirs(os.path.dirname(path), exist_ok=True)
    with open(path, "w", encoding="utf-8") as file:
        file.write(text.replace(old, new, -1 if "specs." in old else 1))
    return ""


def copy_to(folder):
    for crate in os.listdir(os.path.join(TOP, "crates")):
        for part in ("src", "specs"):
            if os.path.isdir(os.path.join(TOP, "crates", crate, part)):
                shutil.copytree(os.path.join(TOP, "crates", crate, part), os.path.join(folder, "crates", crate, part))
    shutil.copytree(os.path.join(TOP, "docs"), os.path.join(folder, "docs"), ignore=shutil.ignore_patterns("api", "pictures", "__pycache__"))
    for file in ("crates.txt", "contracts.lock"):
        shutil.copy(os.path.join(TOP, file), folder)


def faults_in(lines):
    """The weakenings that no line names, and lines of what has none."""
    found = [f"{what}: docs/lock.py doesn't say `{line}`" for what, _, _, _, line in CLAUSES if line not in lines]
    for what, _, _, _, call, clause in DEFINITIONS:
        if not any(it.startswith(call + ": ") and clause in it for it in lines):
            found.append(f"{what}: docs/lock.py names no change of `{clause}` of {call}")
    quiet = {it[1].split("/")[0] for it in HARMLESS}
    return found + [f"a harmless change is named: {it}" for it in lines if it.split(",")[0] in quiet]


def main():
    with tempfile.TemporaryDirectory() as folder:
        copy_to(folder)
        specs = os.path.join(folder, "crates/slotmap_links/specs")
        os.rename(os.path.join(specs, "Segment.antt"), os.path.join(specs, "Elsewhere.antt"))
        faults = [it for it in (plant(folder, *change[:4]) for change in CLAUSES + DEFINITIONS + HARMLESS) if it]
        ran = subprocess.run([sys.executable, "docs/lock.py", "--check"], cwd=folder, capture_output=True, text=True)
        faults += [] if ran.returncode == 1 else [f"docs/lock.py --check ends with {ran.returncode}: {ran.stderr}"]
        faults += faults_in(ran.stdout.split("\n"))
    print("\n".join(faults) if faults else f"{len(CLAUSES + DEFINITIONS)} planted weakenings are named, {len(HARMLESS)} harmless changes aren't")
    return 1 if faults else 0


if __name__ == "__main__":
    sys.exit(main())
