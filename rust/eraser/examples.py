"""The examples of doc comments: those of what the crate exports become examples that rustdoc compiles and runs."""
import re

from .exports import exported, names_below, traits_of
from .tokens import Bad

MAPS = {"slotmap_basic": "SlotMap", "slotmap_dense": "DenseSlotMap", "slotmap_hop": "HopSlotMap", "slotmap_secondary": "SecondaryMap", "slotmap_sparse": "SparseSecondaryMap"}
MODULES = {"slotmap_list": "list", "slotmap_lists": "lists", "slotmap_graph": "graph", "slotmap_paths": "paths", "slotmap_scene": "scene",
    "slotmap_entities": "entities", "slotmap_scheduler": "scheduler", "slotmap_run": "runs", "slotmap_json": "json"}
RUN = {"slotmap_core", *MAPS, *MODULES}
# The lines that each example of a map comes after: tests/doc_examples.py has them too, as the sources' own tests.
PRIMARY = """let mut map: MAP<DefaultKey, u64> = MAP::new(alloc)?;
let a = map.insert(1)?;
let b = map.insert(2)?;"""
SIDE = """let mut primary: SlotMap<DefaultKey, u64> = SlotMap::new(alloc)?;
let a = primary.insert(10)?;
let b = primary.insert(20)?;
let mut map: MAP<DefaultKey, u64> = MAP::new(alloc)?;
map.insert(a, 1)?;"""


def closing(text, at):
    """The place of the bracket that closes the one at `at`; strings are skipped."""
    depth = 0
    for found in re.finditer(r'"(?:\\.|[^"\\])*"|[(\[{]|[)\]}]', text[at:]):
        if found[0][0] == '"': continue
        depth += 1 if found[0] in "([{" else -1
        if depth == 0: return at + found.start()
    raise Bad("a bracket of an example is not closed")


def allocating(code):
    """Rattle's macros that allocate, and may fail, as Rust's. What goes into a variable is the crate's own vector."""
    while True:
        found = re.search(r"\b(format|vec)!([(\[])in alloc; ", code)
        if not found: return code
        end = closing(code, found.end(1) + 1)
        if code[end + 1:end + 2] != "?": raise Bad("a macro that allocates has no ?")
        rest = code[end + 2:]
        into = ".into()" if found[1] == "vec" and re.match(r"\s*;", rest) else ""
        code = code[:found.start()] + f"{found[1]}!{found[2]}" + code[found.end():end + 1] + into + rest


def in_rust(code):
    code = re.sub(r"\b(assert\w*|println)!\(rt; ", r"\1!(", code)
    code = allocating(code)
    code = code.replace("value.to_string(alloc)?", "value.to_string()")
    code = re.sub(r'Value::from_str\(alloc, "((?:\\.|[^"\\])*)"\)\?', lambda it: "serde_json::json!(" + it[1].replace('\\"', '"') + ")", code)
    return code.replace("std::hash::RandomState::new(&rt)?", "std::collections::hash_map::RandomState::new()")


def unwrapped(code):
    """Calls of the side maps whose error is what they hand back, which is no error of Rust's."""
    at = 0
    while found := re.compile(r"[.:](replace_disjoint|extend|extend_refs|from_iter|from_iter_with_hasher)(?=\()").search(code, at):
        at = closing(code, found.end()) + 1
        if code[at:at + 1] == "?": code = f"{code[:at]}.unwrap(){code[at + 1:]}"
    return code


def imports(crate, code):
    """The lines that import what an example names, by the paths that the crate exports. A trait's calls need it in scope."""
    words = set(re.findall(r"(?<![\w:])\w+", code)) | {"Key"} | (traits_of(crate) if crate in MODULES else set())
    paths = {}
    for name in sorted(words & set(exported()), key=str.lower):
        if re.search(rf"\btype {name}\b", code): continue
        choices = exported()[name]
        module = MODULES.get(crate, "")
        path = module if module in choices else min(choices, key=len)
        paths.setdefault(path, []).append(name)
    lines = [f"use slotmap_proved{'::' if path else ''}{path}::{names[0] if len(names) == 1 else '{' + ', '.join(names) + '}'};" for path, names in sorted(paths.items())]
    return lines + (["use serde_json::Value;"] if "Value" in words else [])


def wrapped(crate, lines):
    """The lines of an example, with hidden ones around it."""
    code = in_rust("\n".join(lines))
    head = "let alloc = Global;"
    if crate in MAPS:
        code = unwrapped(code) if "econdary" in MAPS[crate] else code
        head += "\n" + (SIDE if "econdary" in MAPS[crate] else PRIMARY).replace("MAP", MAPS[crate])
    before = imports(crate, head + "\n" + code) + ["fn main() -> Result<(), Box<dyn std::error::Error>> {"] + head.split("\n")
    hide = lambda them: [f"# {it}" for it in them]
    return hide(before) + code.split("\n") + hide(["Ok(())", "}"])


def linked(line, crate, text):
    """The links of a comment: what was the library's root is a module now, and a name that the file doesn't import gets its path."""
    home = f"crate::proved::{crate}::"
    line = re.sub(r"(\]\(|\]: )crate::(?!words#)", rf"\1{home}", line)
    for name in re.findall(r"\[`(\w+)`\](?![(:])", line):
        is_known = re.search(rf"(?m)^(?!\s*//).*\b{name}\b", text) or re.search(rf"(?m)//[/!] \[`{name}`\]: ", text)
        if name in names_below(crate) and not is_known: line = line.replace(f"[`{name}`]", f"[`{name}`]({home}{name})")
    return line


def is_kept(lines):
    """Whether the item below these lines of a comment is one that the crate keeps to itself."""
    item = next((it for it in lines if not re.match(r"\s*(//|#\[)", it)), "")
    return bool(re.match(r"\s*pub\(", item))


def examples(text, crate):
    """The code of comments: a block of an exported item runs, one of what the crate keeps to itself is only shown."""
    out, block, fence, runs = [], [], None, False
    lines = text.split("\n")
    for number, line in enumerate(lines):
        comment = re.match(r"(\s*//[/!]) ?(.*)$", line)
        if not comment:
            if fence is not None: raise Bad("a block of a comment has no end")
            out.append(line); continue
        start, said = comment.groups()
        if not said.startswith("```"):
            if fence == "": block.append(said)
            else: out.append(line.replace("rt.alloc()", "Global") if fence else linked(line, crate, text))
            continue
        if fence is None:
            fence, block = said[3:], []
            runs = crate in RUN and not is_kept(lines[number:])
            out.append(line if fence or runs else f"{start} ```ignore")
            continue
        if fence == "":
            shown = wrapped(crate, block) if runs else in_rust("\n".join(block)).split("\n")
            out += [f"{start} {it}".rstrip() for it in shown]
        out.append(line); fence = None
    return "\n".join(out)
