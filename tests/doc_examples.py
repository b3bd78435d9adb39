#!/usr/bin/env python3
"""Runs the examples of the doc comments. See doc-examples.sh, which calls this."""

import os
import re
import shutil
import subprocess
import sys
import tempfile

TOP = os.path.dirname(os.path.dirname(os.path.abspath(__file__)))
sys.dont_write_bytecode = True
sys.path.insert(0, os.path.join(TOP, "docs"))

from sources import facade, items_of

PRIMARY = """let alloc = rt.alloc();
let mut map: MAP<DefaultKey, u64> = MAP::new(alloc)?;
let a = map.insert(1)?;
let b = map.insert(2)?;"""
SECONDARY = """let alloc = rt.alloc();
let mut primary: SlotMap<DefaultKey, u64> = SlotMap::new(alloc)?;
let a = primary.insert(10)?;
let b = primary.insert(20)?;
let mut map: MAP<DefaultKey, u64> = MAP::new(alloc)?;
map.insert(a, 1)?;"""

# The lines that come before each example of a crate.
HEADS = {
    "slotmap_basic": PRIMARY.replace("MAP", "SlotMap"),
    "slotmap_dense": PRIMARY.replace("MAP", "DenseSlotMap"),
    "slotmap_hop": PRIMARY.replace("MAP", "HopSlotMap"),
    "slotmap_secondary": SECONDARY.replace("MAP", "SecondaryMap"),
    "slotmap_sparse": SECONDARY.replace("MAP", "SparseSecondaryMap"),
}
# The crates of the structures on the maps, and of what they share.
STRUCTURES = (
    "slotmap_list",
    "slotmap_lists",
    "slotmap_links",
    "slotmap_bounded",
    "slotmap_graph",
    "slotmap_entities",
    "slotmap_scene",
    "slotmap_scheduler",
    "slotmap_paths",
)
# The crates whose names the examples of a crate use too.
ALSO = {"slotmap_paths": ("slotmap_graph",)}
OTHER_HEAD = "let alloc = rt.alloc();"
# The table of calls in CALLING.md, and the lines that come before each of its rows.
TABLE, TABLE_HEADING = "crates/slotmap/CALLING.md", "## From Rust's slotmap"
HEADS["calling"] = """let alloc = rt.alloc();
let mut map: SlotMap<DefaultKey, u64> = SlotMap::new(alloc)?;
let key = map.insert(1)?;
let other = map.insert(2)?;
let mut packed: DenseSlotMap<DefaultKey, u64> = DenseSlotMap::new(alloc)?;
let near = packed.insert(1)?;
let far = packed.insert(2)?;
let mut side: SecondaryMap<DefaultKey, u64> = SecondaryMap::new(alloc)?;
let mut few: SparseSecondaryMap<DefaultKey, u64> = SparseSecondaryMap::new(alloc)?;
side.insert(key, 3)?;
few.insert(key, 4)?;"""

ITEM = re.compile(
    r"\s*(?:pub(?:\([a-z]+\))? )?(?:const )?(?:unsafe )?"
    r"(?:fn|struct|enum|trait|mod|type|const|static|macro_rules!) (\w+)"
)


class Example:
    """One block: where it begins, the item that it belongs to, and its lines, each with its number in the file."""

    def __init__(self, crate, path, line):
        self.crate, self.path, self.line = crate, path, line
        self.item, self.lines, self.error = "", [], None

    def title(self):
        return f"{self.path}:{self.line} ({self.item or 'head'})"

    def name(self):
        file = re.sub(r"\W", "_", re.sub(r"^.*/src/|^crates/slotmap/|\.rt$", "", self.path))
        return f"{file}_{self.item or 'head'}_{self.line}".lower()


def examples_of(crate, path):
    """The examples of one file, and the positions of blocks that have a language word other than text."""
    found, waiting, odd = [], [], []
    open_block, fence = None, None
    with open(os.path.join(TOP, path), encoding="utf-8") as file:
        for number, line in enumerate(file, 1):
            comment = re.match(r"\s*//([/!])(?: ?)(.*)$", line)
            if comment:
                text = comment.group(2)
                if text.strip().startswith("```"):
                    word = text.strip()[3:]
                    if fence is None:
                        fence = word
                        if word == "":
                            open_block = Example(crate, path, number)
                            found.append(open_block)
                            if comment.group(1) == "/":
                                waiting.append(open_block)
                        elif word != "text":
                            odd.append(f"{path}:{number}: a block of the language {word}")
                    else:
                        fence, open_block = None, None
                elif open_block:
                    open_block.lines.append((number, text))
                continue
            if fence is not None:
                odd.append(f"{path}:{number}: a block that does not end")
                fence, open_block = None, None
            item = ITEM.match(line)
            if item or re.match(r"\s*(?:impl|pub use)\b", line):
                for example in waiting:
                    example.item = item.group(1) if item else ""
                waiting = []
    return found, odd


def all_examples():
    found, odd = [], []
    crates = os.path.join(TOP, "crates")
    for crate in sorted(os.listdir(crates)):
        for folder, _, files in sorted(os.walk(os.path.join(crates, crate, "src"))):
            for file in sorted(files):
                if file.endswith(".rt"):
                    path = os.path.relpath(os.path.join(folder, file), TOP)
                    more, strange = examples_of(crate, path)
                    found += more
                    odd += strange
    return found, odd


def rows_of_table():
    """The rows of the table of calls, as examples: the code in the second cell of each."""
    found = []
    with open(os.path.join(TOP, TABLE), encoding="utf-8") as file:
        lines = file.read().split("\n")
    start = lines.index(TABLE_HEADING)
    for number in range(start + 1, len(lines)):
        if lines[number].startswith("## "):
            break
        cells = re.split(r"(?<!\\) ?\| ?", lines[number].strip("|"))
        if len(cells) != 3 or "`" not in cells[1]:
            continue
        row = Example("calling", TABLE, number + 1)
        row.item = "row"
        for code in re.findall(r"`([^`]+)`", cells[1].replace("\\|", "|")):
            is_whole = code.endswith((";", "}"))
            row.lines.append((number + 1, code.strip() if is_whole else f"let _ = {code.strip()};"))
        found.append(row)
    if not found:
        sys.exit(f"doc_examples.py: {TABLE} has no table under {TABLE_HEADING}")
    return found


def calls_without_example():
    """The public calls of what the facade and the structures' crates export that have no block in their comment."""
    found, exported = [], {(crate, name) for _, crate, name in facade()}
    exported |= {(crate, path.split("::")[-1]) for crate in STRUCTURES for path in names_of_structure(crate)}
    for crate in sorted({crate for crate, _ in exported}):
        for item in items_of(crate):
            if (crate, item.of or item.name) not in exported or item.of_trait:
                continue
            calls = [item] if item.kind == "fn" else [it for it in item.members if it.kind == "fn"]
            for call in calls:
                if (call.public or item.kind == "trait") and "```" not in "\n".join(call.doc):
                    found.append(f"{call.path}:{call.line} ({call.name}): no example")
    return found


# The pages with whole programs.
PROGRAM_PAGES = ("README.md", "docs/FIRST_PROOF.md", "docs/STRUCTURES.md")


def programs():
    """The programs of the pages: blocks with a `main`. The comment after a `println!` is what it prints there, with ` / ` between two
    lines."""
    found = []
    for page in PROGRAM_PAGES:
        with open(os.path.join(TOP, page), encoding="utf-8") as file:
            text = file.read()
        for match in re.finditer(r"^```rust\n(.*?)^```$", text, re.S | re.M):
            if "fn main(rt: HostRuntime)" in match.group(1):
                program = Example("programs", page, text[: match.start()].count("\n") + 1)
                program.item, program.lines = "main", match.group(1).rstrip("\n").split("\n")
                found.append(program)
    return found


def expected_of(program):
    """What a program prints, and its lines with no comment that says so."""
    lines = [it for it in program.lines if "println!(rt" in it]
    silent = [it for it in lines if not re.search(r";[^;]*\)\?; // ", it)]
    return [text for it in lines if it not in silent for text in it.split("?; // ")[1].split(" / ")], silent


def write_programs(folder, found):
    """Writes one program that runs all of these, each below a line with its number."""
    src = os.path.join(folder, "crates/doc_programs/src")
    os.makedirs(src)
    # crates.txt lists this crate too, which is written later.
    os.makedirs(os.path.join(folder, "crates/doc_examples/src"))
    mods = "".join(f"mod program_{at};\n" for at in range(len(found)))
    calls = "".join(f'    println!(rt; "== {at}")?;\n    program_{at}::main(rt)?;\n' for at in range(len(found)))
    with open(os.path.join(src, "main.rt"), "w", encoding="utf-8") as file:
        file.write(f"#![tactic(auto)]\n\n{mods}\nfn main(rt: HostRuntime) -> anyhow::Result<()> {{\n{calls}    Ok(())\n}}\n")
    for at, program in enumerate(found):
        lines = [it.replace("fn main(", "pub fn main(") for it in program.lines if not it.startswith("#![")]
        with open(os.path.join(src, f"program_{at}.rt"), "w", encoding="utf-8") as file:
            file.write("\n".join(lines) + "\n")
    with open(os.path.join(folder, "crates.txt"), "a", encoding="utf-8") as file:
        file.write(f"doc_programs: slotmap slotmap_basic slotmap_core {' '.join(it for it in STRUCTURES)} anyhow\n")


def faults_of_programs(folder, found):
    """Runs the programs, and says which doesn't compile or prints something else than its comments say."""
    write_programs(folder, found)
    run = subprocess.run(["rt", "try"], cwd=os.path.join(folder, "crates/doc_programs"), stdout=subprocess.PIPE, stderr=subprocess.STDOUT, text=True, check=False)
    wrong = []
    for at, number, message in re.findall(r"^src/program_(\d+)\.rt:(\d+):\d+: error(.*)$", run.stdout, re.M):
        program = found[int(at)]
        wrong.append(f"{program.title()}: line {program.line + int(number)}: error{message}")
    if not wrong and run.returncode:
        return [f"the programs of the pages did not run to their end\n{run.stdout}"]
    printed = re.split(r"^== \d+$", run.stdout.split("\ninterpreter: ")[0], flags=re.M)[1:]
    for program, text in zip(found, printed):
        wanted, silent = expected_of(program)
        wrong += [f"{program.title()}: no comment says what this prints: {it.strip()}" for it in silent]
        if wanted != text.strip("\n").split("\n"):
            wrong.append(f"{program.title()}: prints {text.strip()!r}")
    return wrong


def facade_names():
    """The names of the facade: its modules, and what it re-exports beside them."""
    modules = {module for module, _, _ in facade() if module}
    return sorted(modules | {name for module, _, name in facade() if not module})


def names_in(path, module):
    """The public items of a file of a crate and of its public modules, by their paths."""
    with open(path, encoding="utf-8") as file:
        text = file.read()
    for item in re.findall(r"(?m)^pub (?:struct|enum|trait|fn) (\w+)", text):
        yield f"{module}::{item}"
    for items in re.findall(r"(?m)^pub use \w+::\{?([\w, ]+)\}?;", text):
        yield from (f"{module}::{item.strip()}" for item in items.split(","))
    for child in re.findall(r"(?m)^pub mod (\w+);", text):
        yield from names_in(os.path.join(path[:-3].removesuffix("/lib"), child + ".rt"), f"{module}::{child}")


def names_of_structure(crate):
    """The public items of a structure's crate by their paths, such as `slotmap_graph::Graph`."""
    return names_in(os.path.join(TOP, f"crates/{crate}/src/lib.rt"), crate)


def write_crate(folder, examples):
    """Writes the tests, a file for each crate. Returns for each line of these files its example and its line there."""
    src = os.path.join(folder, "crates/doc_examples/src")
    shutil.rmtree(src, ignore_errors=True)
    os.makedirs(src)
    lines_of, root = {}, ["#![tactic(auto)]", ""]
    for crate in sorted({it.crate for it in examples}):
        module = "of_" + crate
        root += ["#[cfg(test)]", f"mod {module};"]
        mine = [it for it in examples if it.crate == crate]
        text = "\n".join(line for it in mine for _, line in it.lines) + HEADS.get(crate, OTHER_HEAD)
        words = set(re.findall(r"\w+", text))
        if crate in STRUCTURES:
            # The calls of a trait, such as `First::table`, need it in scope.
            words |= {it.name for it in items_of(crate) if it.kind == "trait"}
        names = [it for it in facade_names() + ["Key"] if it in words or it == "Key"]
        out, where = [f"use slotmap::{{{', '.join(sorted(set(names)))}}};"], {}
        if crate in STRUCTURES:
            out += [f"use {it};" for one in (crate, *ALSO.get(crate, ())) for it in names_of_structure(one) if it.split("::")[-1] in words]
        if "Value" in words:
            out.append("use serde_json::Value;")
        if "Global" in words:
            out.append("use std::alloc::Global;")
        out.append("use std::test::Fail;")
        for example in mine:
            out += ["", "#[test]"]
            first = len(out)
            out.append(f"fn {example.name()}(rt: HostRuntime) -> Result<(), Fail> {{")
            out += HEADS.get(crate, OTHER_HEAD).split("\n")
            for number, line in example.lines:
                out.append(line)
                where[len(out)] = (example, number)
            out += ["Ok(())", "}"]
            for number in range(first, len(out) + 1):
                where.setdefault(number, (example, example.line))
        lines_of[module] = where
        with open(os.path.join(src, module + ".rt"), "w", encoding="utf-8") as file:
            file.write("\n".join(out) + "\n")
    with open(os.path.join(src, "lib.rt"), "w", encoding="utf-8") as file:
        file.write("\n".join(root) + "\n")
    return lines_of


def copy_repository(folder):
    left_out = shutil.ignore_patterns(".git", "out", "must-fail", "more-wrong-bodies", "doc_examples")
    shutil.copytree(os.path.join(TOP, "crates"), os.path.join(folder, "crates"), ignore=left_out)
    with open(os.path.join(TOP, "crates.txt"), encoding="utf-8") as file:
        lines = file.read().rstrip("\n").split("\n")
    libraries = [
        line.split(":")[0].split()[0]
        for line in lines
        if ":" in line
        and " staticlib" not in line.split(":")[0]
        and os.path.exists(os.path.join(TOP, "crates", line.split(":")[0].split()[0], "src/lib.rt"))
    ]
    lines.append(f"doc_examples: {' '.join(libraries)} serde_json thiserror")
    with open(os.path.join(folder, "crates.txt"), "w", encoding="utf-8") as file:
        file.write("\n".join(lines) + "\n")
    shutil.copy(os.path.join(TOP, "HANDLES"), folder)
    subprocess.run(["git", "init", "--quiet", folder], check=True)


def try_once(folder):
    """The status of rt try, and what it printed."""
    run = subprocess.run(
        ["rt", "try", "--test"],
        cwd=os.path.join(folder, "crates/doc_examples"),
        stdout=subprocess.PIPE,
        stderr=subprocess.STDOUT,
        text=True,
        check=False,
    )
    return run.returncode, run.stdout


def refusals(output, lines_of):
    """The examples that the compiler refuses, each with the line of its source and the message."""
    found = {}
    for file, number, message in re.findall(r"^src/(\w+)\.rt:(\d+):\d+: error(.*)$", output, re.M):
        example, line = lines_of.get(file, {}).get(int(number), (None, 0))
        if example:
            found.setdefault(example, f"line {line}: error{message}")
    return found


def failures(output, lines_of):
    """The examples that compile and fail, each with what the test printed then."""
    names = {it.name(): it for where in lines_of.values() for it, _ in where.values()}
    found, current = {}, None
    for line in output.split("\n"):
        test = re.match(r"test \w+::(\w+) \.\.\. (\w+)", line)
        if test:
            current = names.get(test.group(1)) if test.group(2) != "ok" else None
            if current:
                found[current] = "failed"
        elif current and line.startswith("    "):
            text = line.strip()
            where = re.match(r"src/(\w+)\.rt:(\d+):\d+: (.*)$", text)
            if where and int(where.group(2)) in lines_of.get(where.group(1), {}):
                example, number = lines_of[where.group(1)][int(where.group(2))]
                text = f"line {number}: {where.group(3)}"
            found[current] += "\n    " + text
        else:
            current = None
    return found


def main():
    examples, odd = all_examples()
    examples += rows_of_table()
    odd += calls_without_example()
    wanted = sys.argv[1:]
    if wanted:
        examples = [it for it in examples if any(text in it.title() for text in wanted)]
        odd = [it for it in odd if any(text in it for text in wanted)]
    whole = [it for it in programs() if not wanted or any(text in it.title() for text in wanted)]
    left, ended = examples, True
    with tempfile.TemporaryDirectory() as folder:
        copy_repository(folder)
        if whole:
            odd += faults_of_programs(folder, whole)
            print(f"{len(whole)} programs of pages")
        # What the compiler refuses is taken out, and the others are tried again.
        while left:
            lines_of = write_crate(folder, left)
            status, output = try_once(folder)
            bad = refusals(output, lines_of)
            if not bad:
                bad = failures(output, lines_of)
                ended = "test result: " in output and (status == 0 or bool(bad))
            for example, message in bad.items():
                example.error = message
                print(f"{example.title()}: {message}", flush=True)
            left = [it for it in left if it.error is None]
            if "test result: " in output or not bad:
                break
    for line in odd:
        print(line)
    if not ended:
        print(output)
        print("the tests did not run to their end")
        return 1
    print(f"{len(examples)} examples: {len(left)} passed, {len(examples) - len(left)} failed")
    return 1 if odd or len(left) < len(examples) else 0


if __name__ == "__main__":
    sys.exit(main())
