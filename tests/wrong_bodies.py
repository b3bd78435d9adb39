#!/usr/bin/env python3
"""Tries wrong bodies, and reads all that the check says of each: see tests/wrong-bodies.sh."""
import os
import re
import resource
import shutil
import subprocess
import sys
import tempfile

TOP = os.path.dirname(os.path.dirname(os.path.abspath(__file__)))
FOLDERS = ["must-fail", "more-wrong-bodies"]

# What a check says where a proof cites a name that the function no longer has.
LOST_NAME = re.compile(r"that can be named from here|has no field|\(nearest: ")
# What it says of a goal that isn't proved, or of an answer that no longer fits its goal.
GOAL = re.compile(r"^(note: )?(\./)?(src|proofs|specs)/\S+:\d+:\d+: (?!note: large|warning)")
# The count at the end of a check of one module, and the end of a whole one.
COUNT = re.compile(r"^only=(\d+) proved=(\d+)$", re.M)
NOT_PROVED = re.compile(r"^logic=not-proved", re.M)


class BadEdit(Exception):
    """A file that can't be applied."""


def pairs_of(path):
    """Returns the file that a wrong body changes, and its pairs of an old and a new text."""
    name, pairs = None, []
    with open(path, encoding="utf-8") as lines:
        for line in lines:
            word, _, text = line.rstrip("\n").partition(": ")
            if word == "file":
                name = text.strip()
            elif word == "old":
                pairs.append([text, None])
            elif word == "new" and pairs:
                pairs[-1][1] = text
    if name is None or not pairs or any(new is None for _, new in pairs):
        raise BadEdit("it lacks a line file, old or new")
    return name, pairs


def edited(text, pairs):
    """Returns the text with each old text replaced, which has to stand there once."""
    for old, new in pairs:
        if text.count(old) != 1:
            raise BadEdit(f"an old text stands there {text.count(old)} times")
        text = text.replace(old, new)
    return text


def module_of(name):
    """Returns the module that a source file holds, or None where the whole crate has to be checked."""
    found = re.fullmatch(r"src/(.+)\.rt", name)
    if not found or found[1] in ("lib", "main"):
        return None
    return found[1].replace("/", "::")


class Crate:
    """A crate of the copy, with what a check of it proved, to begin each try with."""

    def __init__(self, copy, name):
        self.name, self.folder = name, f"{copy}/crates/{name}"
        self.kept, self.seed = f"{self.folder}/out/incremental", f"{self.folder}/out/seed"
        # What the check also says of the right body: no such note is a reason to refuse.
        self.usual = set()

    def check(self, module):
        """Checks one module or the whole crate, and returns the status and what was said."""
        words = ["rt", "check", "--jobs", "1"] + (["--only", module] if module else [])
        ran = subprocess.run(words, cwd=self.folder, stdout=subprocess.PIPE, stderr=subprocess.STDOUT, text=True, errors="replace")
        return ran.returncode, ran.stdout

    def prove(self):
        """Proves the crate as it stands, once, and keeps what was proved."""
        status, said = self.check(None)
        if status:
            sys.exit(f"wrong-bodies.sh: {self.name} isn't proved as it stands:\n{said[-2000:]}")
        self.usual = set(said.split("\n"))
        shutil.move(self.kept, self.seed)

    def begin(self):
        """Puts back what was proved, by links: a check replaces such a file, and changes none."""
        shutil.rmtree(self.kept, ignore_errors=True)
        shutil.copytree(self.seed, self.kept, symlinks=True, copy_function=os.link)

    def try_edit(self, edit):
        """Returns whether the prover refuses this wrong body, and what it says."""
        name, pairs = pairs_of(edit)
        path = f"{self.folder}/{name}"
        with open(path, encoding="utf-8") as file:
            text = file.read()
        try:
            with open(path, "w", encoding="utf-8") as file:
                file.write(edited(text, pairs))
            for module in dict.fromkeys([module_of(name), None]):
                self.begin()
                status, said = self.check(module)
                if status:
                    return status, said
            return status, said
        finally:
            with open(path, "w", encoding="utf-8") as file:
                file.write(text)


def verdict(status, said, usual):
    """Returns a word for what a try came to, and the line that tells most; `usual` are the lines that say nothing."""
    lines = [line for line in said.split("\n") if line not in usual]
    told = next((line for line in lines if GOAL.match(line)), "")
    lost = next((line for line in lines if LOST_NAME.search(line)), "")
    if status == 0:
        return "NOT REFUSED", ""
    if status == 3:
        return "at a limit of the prover", told
    if status != 1 or not (COUNT.search(said) or NOT_PROVED.search(said)):
        return "BAD EDIT", next((line for line in lines if "error" in line), said.split("\n")[0])
    if lost:
        return "names are gone", lost
    return ("refused", told) if told else ("REFUSED BY NO GOAL", "")


def copy_of_the_tree(copy):
    """Copies the tree as it stands, committed or not, and the libraries that are built."""
    shutil.copytree(TOP, copy, ignore=lambda folder, names: [name for name in names if name in (".git", "out")])
    for crate in os.listdir(f"{TOP}/crates"):
        library = f"{TOP}/crates/{crate}/out/rlib"
        if os.path.isdir(library):
            shutil.copytree(library, f"{copy}/crates/{crate}/out/rlib")
    subprocess.run(["git", "-C", copy, "init", "--quiet"], check=True)


def edits_of(crate, folders, wanted=None):
    """Returns the wrong bodies of a crate, those that the gate tries first, or the one of this name."""
    found = []
    for folder in folders:
        at = f"{TOP}/crates/{crate}/{folder}"
        names = sorted(os.listdir(at)) if os.path.isdir(at) else []
        found += [f"{at}/{name}" for name in names if name.endswith(".edit") and wanted in (None, name[: -len(".edit")])]
    return found


def try_all(copy, wanted):
    """Tries these wrong bodies by their crates, prints what each came to, and returns how often each word came."""
    counts = {}
    for crate_name, edits in wanted.items():
        crate = Crate(copy, crate_name)
        crate.prove()
        for edit in edits:
            try:
                word, line = verdict(*crate.try_edit(edit), crate.usual)
            except BadEdit as why:
                word, line = "BAD EDIT", str(why)
            in_gate = f"/{FOLDERS[0]}/" in edit
            counts[word, in_gate] = counts.get((word, in_gate), 0) + 1
            print(f"{os.path.relpath(edit, TOP)[len('crates/'):]}: {word}: {line[:200]}", flush=True)
    return counts


def main():
    """Reads the arguments, tries, and prints the numbers."""
    words = sys.argv[1:]
    folders = FOLDERS[:1] if "--gate" in words else FOLDERS
    named = [word for word in words if word != "--gate"]
    wanted = {}
    for name in named or sorted(os.listdir(f"{TOP}/crates")):
        crate, _, edit = name.partition("/")
        found = edits_of(crate, folders, edit or None)
        if found:
            wanted[crate] = wanted.get(crate, []) + found
        elif named:
            sys.exit(f"wrong-bodies.sh: {name} has no wrong bodies")
    with tempfile.TemporaryDirectory(prefix="wrong-bodies-") as room:
        copy_of_the_tree(f"{room}/copy")
        counts = try_all(f"{room}/copy", wanted)
    used = resource.getrusage(resource.RUSAGE_CHILDREN)
    minutes = (used.ru_utime + used.ru_stime) / 60
    told = ", ".join(f"{number} {'of the gate ' if in_gate else ''}{word}" for (word, in_gate), number in sorted(counts.items()))
    print(f"{sum(counts.values())} wrong bodies: {told}; {minutes:.1f} minutes of processor time")
    good = {("refused", True), ("refused", False), ("names are gone", False), ("at a limit of the prover", False)}
    sys.exit(0 if set(counts) <= good else 1)


main()
