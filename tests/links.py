#!/usr/bin/env python3
"""Checks the pages: tests/links.py. Prints each fault, and fails if there is one.

- Each relative link and picture of a .md file names a file of the repository, and an anchor that the page has. A link to
  a line, as file.rt#L7, names one where an item begins, and the number in its text is the same.
- Each path in a page's code, as `docs/api.py`, is that of a file or folder.
- Each word of a contract in a table of docs/PROVED.md is one of the crate of that table: a call or type, one of its
  clauses, or a word of the definitions.
- A part of a cell there such as "`insert`, `reattach`: `order` (`Appends`), `err`" names calls and their clauses. Each clause exists
  in one of these calls, and each call has one of these clauses. A word in brackets is in the clauses of the part, or in a
  definition that they rest on.
- How long a proof takes is said once: of the gate, of a first check, of one of all maps, and of a faulty body. The gate's processor
  minutes in README.md are the sum of its parts in docs/ARCHITECTURE.md.
- No file of the repository is a symbolic link, which the gate refuses.
"""

import functools
import glob
import os
import re
import subprocess
import sys

TOP = os.path.dirname(os.path.dirname(os.path.abspath(__file__)))
sys.dont_write_bytecode = True
sys.path.insert(0, os.path.join(TOP, "docs"))

import definitions
from sources import items_of

LINK = re.compile(r"!?\[((?:[^\[\]]|\[[^\]]*\])*)\]\(([^)\s]+)\)")
ITEM = re.compile(r"\b(pub|impl|fn|struct|enum|trait|ghost)\b")
# Where a path in code may begin, besides the top and the page's own folder.
ROOTS = ["crates", "crates/*", "crates/slotmap_core/src", "crates/slotmap_slots/src"]
# Paths that a page names and that aren't of the repository: those of templates, of examples, and of other machines.
OTHERS = ("crates/app", "out/site", "crates/slotmap.txt", "proofs/echo", "src/clock.rt", "src/lib.rs", "proofs/MAP", "CRATE/", "OUT/", "/usr/", "crates/slotrun/out/", "proofs/find_key",
          "proofs/fill", "proofs/count_reads", "proofs/tour", "proofs/renew")


def git(*arguments):
    return subprocess.run(["git", "-C", TOP, *arguments], capture_output=True, text=True, check=False).stdout


def read(path):
    with open(os.path.join(TOP, path), encoding="utf-8") as file:
        return file.read()


def without_blocks(text):
    """A page without its blocks of code."""
    return re.sub(r"^```.*?^```$", "", text, flags=re.S | re.M)


def anchor_of(heading):
    heading = re.sub(r"\[([^\]]*)\]\([^)]*\)", r"\1", heading)
    return re.sub(r"[^\w\- ]", "", heading.strip().lower()).replace(" ", "-")


class Pages:
    def __init__(self):
        self.tracked = set(git("ls-files", "--cached", "--others", "--exclude-standard").split("\n"))
        self.folders = {os.path.dirname(it) for it in self.tracked}
        self.folders |= {"/".join(it.split("/")[:depth]) for it in self.folders for depth in range(1, it.count("/") + 1)}
        self.anchors, self.faults, self.count = {}, [], 0

    def fault(self, page, what, why):
        self.faults.append(f"{page}: {what}: {why}")

    def anchors_of(self, path):
        if path not in self.anchors:
            found, seen = set(), {}
            for heading in re.findall(r"^#+ (.*)$", without_blocks(read(path)), re.M):
                anchor = anchor_of(heading)
                number = seen.get(anchor, 0)
                seen[anchor] = number + 1
                found.add(f"{anchor}-{number}" if number else anchor)
            found |= set(re.findall(r'<a name="([^"]+)"', without_blocks(read(path))))
            self.anchors[path] = found
        return self.anchors[path]

    def check_link(self, page, label, target):
        self.count += 1
        path, _, anchor = target.partition("#")
        path = os.path.normpath(os.path.join(os.path.dirname(page), path)) if path else page
        if path not in self.tracked and path not in self.folders:
            return self.fault(page, target, "no such file")
        line = re.fullmatch(r"L(\d+)", anchor)
        if line:
            number, lines = int(line.group(1)), read(path).split("\n")
            said = re.search(r":(\d+)$", label)
            if number > len(lines) or not ITEM.search(lines[number - 1]):
                self.fault(page, target, "no item begins at this line")
            elif said and int(said.group(1)) != number:
                self.fault(page, target, f"the text says line {said.group(1)}")
        elif anchor and path.endswith(".md") and anchor not in self.anchors_of(path):
            self.fault(page, target, "no such anchor")

    def check_path(self, page, code):
        # What a build writes isn't there in a fresh clone.
        if any(code.startswith(it) for it in OTHERS) or "/out/" in code:
            return
        part = re.fullmatch(r"(.*)\{([^}]*)\}(.*)", code)
        for path in [part.group(1) + it + part.group(3) for it in part.group(2).split(",")] if part else [code]:
            roots = ["", os.path.dirname(page), *ROOTS]
            if not any(glob.glob(os.path.join(TOP, root, path)) for root in roots):
                self.fault(page, f"`{path}`", "no such path")

    def check(self):
        for page in sorted(it for it in self.tracked if it.endswith(".md")):
            text = without_blocks(read(page))
            for label, target in LINK.findall(text):
                if not re.match(r"\w+:", target):
                    self.check_link(page, label, target)
            for code in re.findall(r"`([\w./{},*-]+/[\w./{},*-]+)`", text):
                self.check_path(page, code)


def words_of_specs():
    """The names that definitions and lemmas declare, and the fields of records."""
    found = set()
    for path in glob.glob(os.path.join(TOP, "crates/*/specs/**/*.antt"), recursive=True) + glob.glob(
        os.path.join(TOP, "crates/*/proofs/**/[A-Z]*.antt"), recursive=True
    ):
        with open(path, encoding="utf-8") as file:
            found |= set(re.findall(r"^\s*(?:abbrev |unfoldable )?pub (?:record |data |abbrev )?([\w-]+)", file.read(), re.M))
    return found


def functions_of(crate):
    """The public functions of a crate, and the names of its types: for each name the text of its clauses."""
    found = {}

    def note(name, text):
        found[name] = found.get(name, "") + "\n" + text

    for item in items_of(crate):
        note(item.name or item.of, "\n".join(item.lines))
        note(re.sub(r"<.*", "", item.of_trait), "\n".join(item.lines))
        for member in item.members:
            note(member.name, "\n".join(member.lines))
            note(item.of or item.name, "\n".join(member.lines))
    return found


def clauses_in(text):
    """The clauses of a function, or of several: for each name the text of those that have it."""
    found = {}
    parts = re.split(r"\b(?:ensures\*?|requires) (\w+) \{", text)
    for name, clause in zip(parts[1::2], parts[2::2]):
        found[name] = found.get(name, "") + "\n" + clause
    return found


def words_below(text):
    """The words of a text, and those of the definitions that it rests on."""
    found, waiting = set(), set(re.findall(r"[^\W\d][\w-]*", text))
    while waiting:
        word = waiting.pop()
        if word not in found:
            found.add(word)
            waiting |= cited_words().get(word, set())
    return found


@functools.cache
def cited_words():
    """For each name of a definition the words of all definitions of that name."""
    found = {}
    for file in definitions.files().values():
        for definition in file.definitions.values():
            found.setdefault(definition.name, set()).update(re.findall(r"[^\W\d][\w-]*", "\n".join(definition.code())))
    return found


def names_in(text):
    """The names in the code of a text, without paths of files."""
    text = re.sub(r"`[\w/]+\.antt`", "", text)
    return {name for code in re.findall(r"`([^`]+)`", text) for name in re.findall(r"[A-Za-z][\w-]*", code)}


def check_part(part, functions, fault):
    """A part of a cell: calls, a colon, and their clauses with words in brackets."""
    head, colon, rest = part.partition(": ")
    calls = [it for it in names_in(head) if it in functions]
    if not colon or not calls:
        return
    clauses = {it: clauses_in(functions[it]) for it in calls}
    named = names_in(re.sub(r"\([^()]*\)", "", rest))
    for name in sorted(named):
        if not any(name in clauses[it] for it in calls):
            fault(f"`{name}`", f"no clause of {', '.join(sorted(calls))}")
    for it in sorted(calls):
        if named and not named & clauses[it].keys():
            fault(f"`{it}`", "has none of the clauses that are named")
    below = words_below("\n".join(text for it in calls for name, text in clauses[it].items() if name in named))
    for name in sorted(names_in(" ".join(re.findall(r"\(([^()]*)\)", rest))) - below):
        fault(f"`{name}`", f"in no clause that is named, nor below one, of {', '.join(sorted(calls))}")


LIBRARY = ("slotmap_basic", "slotmap_dense", "slotmap_hop", "slotmap_secondary", "slotmap_sparse", "slotmap_run", "slotmap_core")


def functions_of_all(crates):
    found = {}
    for crate in crates:
        for name, text in functions_of(crate).items():
            found[name] = found.get(name, "") + "\n" + text
    return found


def check_proved(fault):
    page, crate, defined, functions = "docs/PROVED.md", "", words_of_specs(), {}
    for number, line in enumerate(read(page).split("\n"), 1):
        heading = re.match(r"## `(\w+)`", line)
        if line.startswith("## "):
            crate = heading.group(1) if heading and os.path.isdir(os.path.join(TOP, "crates", heading.group(1))) else ""
            functions = functions_of(crate) if crate else {}
            if line == "## The promises":
                crate, functions = "the library", functions_of_all(LIBRARY)
        cells = line.strip("|").split(" | ")
        if not crate or not line.startswith("| ") or len(cells) != 2 or cells[1].strip() == "Carried by":
            continue
        clauses = {it for text in functions.values() for it in re.findall(r"\b(?:ensures\*?|requires) (\w+) \{", text)}
        for name in sorted(names_in(cells[1]) - defined - clauses - functions.keys()):
            fault(f"{page}:{number}", f"`{name}`", f"no word of {crate} or of the definitions")
        for part in re.split(r"; ", cells[1].strip(" |")):
            check_part(part, functions, lambda what, why, at=number: fault(f"{page}:{at}", what, why))


# What takes how long is said in one paragraph or table each: sentences with a number of minutes, seconds or hours, about one of
# these.
COSTS = {
    "the gate": r"\bgate\b|`\./test\.sh`|`rt ci`|`bash \.ci/run`|prove[\w-]*\.sh",
    "a first check": r"\bfirst (check|time)\b|prove[sd]? (the |its )?(three )?librar|three libraries",
    "a first check of all maps": r"\bten libraries\b",
    "a faulty body": r"\b(wrong|faulty) bod(y|ies)\b",
}
TIME = r"\b[\d,.]+ (processor |CPU )?(minutes?|seconds?|hours?)\b|(Processor|CPU) minutes .*(\d|_)"
# The table of README and that of ARCHITECTURE are of one machine: the sum of the parts is that of the gate, within a tenth.
SUMS = ("README.md", r"\| `\./test\.sh` \| ([\d,]+) \|"), ("docs/ARCHITECTURE.md", r"(?m)^\| [^|]+ \| (\d+) \| [\d.]+ \|$")


def sentences_of(block):
    """The sentences of a paragraph; a row of a table, with the table's head, is one."""
    if block.startswith("|"):
        return [block.split("\n")[0] + it for it in block.split("\n")]
    return re.split(r"(?<=[.:!?])\s+(?=[A-Z`*-])", block)


def check_costs(pages, fault):
    # ARCHITECTURE has the parts of README's sum.
    texts = {it: read(it) for it in sorted(pages) if it.endswith((".md", ".sh")) and it != "docs/ARCHITECTURE.md"}
    for what, about in COSTS.items():
        saying = []
        for page, text in texts.items():
            text = re.sub(r"(?m)^# ?", "", text) if page.endswith(".sh") else without_blocks(text)
            for block in re.split(r"\n\s*\n", text):
                if any(re.search(about, it) and re.search(TIME, it) for it in sentences_of(block.strip())):
                    saying.append(page)
        if len(saying) > 1:
            fault(", ".join(saying), what, "its time is said more than once")


def check_symbolic(pages, fault):
    for path in sorted(pages):
        if os.path.islink(os.path.join(TOP, path)):
            fault(path, "a symbolic link", "the gate refuses it")


def check_sums(fault):
    """The processor minutes of the gate, and the sum of those of its parts."""
    whole, parts = (sum(int(it.replace(",", "")) for it in re.findall(pattern, read(page))) for page, pattern in SUMS)
    if not whole or abs(whole - parts) > whole / 10:
        fault("README.md, docs/ARCHITECTURE.md", "the gate", f"{whole} processor minutes, where its parts take {parts}")


def main():
    pages = Pages()
    pages.check()
    check_proved(pages.fault)
    check_sums(pages.fault)
    check_symbolic(pages.tracked, pages.fault)
    check_costs(pages.tracked, pages.fault)
    print("\n".join(pages.faults), end="\n" if pages.faults else "")
    print(f"{pages.count} links, {len(pages.faults)} faults")
    return 1 if pages.faults else 0


if __name__ == "__main__":
    sys.exit(main())
