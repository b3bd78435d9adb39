"""Reads what is public in crates/*/src: for api.py and words.py.

It relies on the layout of `rt fmt`: items at column 0 or 4, a closing brace at the column of its item, and a body
whose brace stands alone where the item has clauses.
"""

import os
import re

TOP = os.path.dirname(os.path.dirname(os.path.abspath(__file__)))
MAPS = {
    "SlotMap": "basic",
    "DenseSlotMap": "dense",
    "HopSlotMap": "hop",
    "SecondaryMap": "secondary",
    "SparseSecondaryMap": "sparse_secondary",
}
# Ghost items of an impl that are its contract. Others are proofs or names for them.
CONTRACTS = {
    "can_next", "next_gives", "remaining", "into_iter_gives", "can_index", "index_gives", "is_clone", "is_infallible",
    "eq", "from_gives", "is_default", "hash_input", "REUSES", "STACKED", "content", "pairs", "data_of", "of_data",
}
HEAD = re.compile(r'(pub )?(?:pub\([^)]*\) )?(?:const |extern "C" )?(fn|struct|enum|trait|type|const|static) (\w+)|(?:unsafe )?(impl)\b')


class Item:
    """A function, type, trait or impl block: its comment, its lines without a body, and what stands in it."""

    def __init__(self, path, line, kind, name, public):
        self.path, self.line, self.kind, self.name, self.public = path, line, kind, name, public
        self.doc, self.attributes, self.lines, self.members = [], [], [], []
        self.of, self.of_trait, self.end = "", "", line

    def first_sentence(self):
        text = []
        for line in self.doc:
            if not line.strip() or line.strip().startswith("```"):
                break
            text.append(line.strip())
        text = re.sub(r"\[(`[^`]+`)\](?!\()", r"\1", " ".join(text))
        sentence = re.match(r"(.*?[.!?])(?=\s|$)", text)
        return sentence.group(1) if sentence else text

    def header(self):
        """The head of an impl block or trait, on one line, without its brace."""
        return re.sub(r"\s+", " ", " ".join(self.lines)).rstrip(" {").strip()


def read(path):
    with open(os.path.join(TOP, path), encoding="utf-8") as file:
        return file.read()


def indent_of(line):
    return len(line) - len(line.lstrip(" "))


def balance(text):
    """How many brackets are open at the end of the text, those of comments and of chars left out."""
    text = re.sub(r"//.*", "", text)
    return sum(text.count(it) for it in "([{") - sum(text.count(it) for it in ")]}")


def end_of(lines, start, indent):
    """The line after that of the brace that closes what begins here."""
    for number in range(start, len(lines)):
        if indent_of(lines[number]) == indent and lines[number].strip() in ("}", "};"):
            return number + 1
    raise ValueError(f"line {start + 1} has no end")


def read_items(path, lines, start, stop, indent):
    """The items at this column from line `start` up to `stop`."""
    found, doc, remarks, attributes = [], [], [], []
    number = start
    while number < stop:
        line = lines[number]
        text = line.strip()
        if indent_of(line) != indent or not text:
            if not text:
                doc, remarks, attributes = [], [], []
            number += 1
            continue
        if text.startswith("///"):
            doc.append(text[3:].removeprefix(" "))
            number += 1
            continue
        if text.startswith("//"):
            remarks.append(line)
            number += 1
            continue
        if text.startswith("#["):
            attributes.append(line)
            number += 1
            continue
        if text.startswith("ghost ") or (indent and re.match(r"(type|const) ", text)):
            last = number
            while not lines[last].rstrip().endswith(";") or balance("\n".join(lines[number : last + 1])):
                last += 1
            item = Item(path, number + 1, text.split()[0], re.findall(r"\w+", text)[1], False)
            item.lines, item.doc, item.end = remarks + lines[number : last + 1], doc, last + 1
            found.append(item)
            number, doc, remarks, attributes = last + 1, [], [], []
            continue
        head = HEAD.match(text)
        if not head:
            doc, remarks, attributes = [], [], []
            number += 1
            continue
        kind = head.group(2) or "impl"
        item = Item(path, number + 1, kind, head.group(3) or "", bool(head.group(1)))
        item.doc, item.attributes = doc, attributes
        doc, remarks, attributes = [], [], []
        if kind == "fn":
            number = read_function(item, lines, number, indent)
        elif kind in ("impl", "trait"):
            last = number
            while not lines[last].rstrip().endswith(("{", "{}")):
                last += 1
            item.lines = [it.rstrip() for it in lines[number : last + 1]]
            if lines[last].rstrip().endswith("{}"):
                end = last + 1
            else:
                end = end_of(lines, last + 1, indent)
                item.members = read_items(path, lines, last + 1, end - 1, indent + 4)
            if kind == "impl":
                set_subject(item)
            number = end
        else:
            end = number + 1
            if kind in ("type", "const", "static"):
                while not lines[end - 1].rstrip().endswith(";"):
                    end += 1
            elif not text.endswith((";", "{}")):
                end = end_of(lines, number, indent)
            item.lines = lines[number:end]
            number = end
        item.end = number
        found.append(item)
    return found


def read_function(item, lines, number, indent):
    """Takes the lines of a function up to its body; the line after the function."""
    first, text = number, ""
    while True:
        line = lines[number].rstrip()
        if line == " " * indent + "{":
            item.lines = lines[first:number]
            return end_of(lines, number, indent)
        text += line + "\n"
        if balance(text) == 0 and line.endswith(("{}", ";")):
            item.lines = lines[first:number] + [re.sub(r" *(\{\}|;)$", "", line)]
            return number + 1
        if balance(text) == 1 and line.endswith(" {") and not re.search(r"\b(requires|ensures)\b", text):
            item.lines = lines[first:number] + [line[:-2]]
            return end_of(lines, number, indent)
        number += 1


def without_comments(text):
    """Rattle without its comments: none stands in a string, but `//` may."""
    return re.sub(r'("(?:[^"\\\n]|\\.)*")|//[^\n]*', lambda found: found.group(1) or "", text)


def signature_and_clauses(item):
    """The text of a function up to its clauses, and of each clause its kind, its name, or nothing, and what stands in its braces."""
    text = without_comments("\n".join(item.lines))
    heads = list(re.finditer(r"(?m)^\s*(requires|ensures\*?)\s*(\w*)\s*\{", text))
    ends = [it.start() for it in heads[1:]] + [len(text)]
    found = []
    for head, end in zip(heads, ends):
        body = text[head.end() : end].rstrip()
        if not body.endswith("}"):
            raise ValueError(f"{item.path}:{item.line}: a clause of {item.name} has no end")
        found.append((head.group(1), head.group(2), body[:-1].strip()))
    return text[: heads[0].start() if heads else len(text)], found


def set_subject(item):
    """The type that an impl block is of, and the trait, if there is one."""
    text = item.header()
    depth, rest = 0, text.removeprefix("unsafe ")[4:]
    if rest.startswith("<"):
        for place, letter in enumerate(rest):
            depth += {"<": 1, ">": -1}.get(letter, 0) if rest[place - 1 : place + 1] not in ("->",) else 0
            if depth == 0:
                rest = rest[place + 1 :]
                break
    rest = rest.strip()
    trait, between, subject = rest.partition(" for ")
    item.of_trait = trait if between else ""
    named = re.sub(r"^&('\w+ )?(mut )?", "", subject if between else rest)
    item.of = "tuple" if named.startswith("(") else re.search(r"(\w+)(?:<|$| )", named + " ").group(1)


def files_of(crate):
    for folder, _, files in sorted(os.walk(os.path.join(TOP, "crates", crate, "src"))):
        for file in sorted(files):
            if file.endswith(".rt"):
                yield os.path.relpath(os.path.join(folder, file), TOP)


def items_of(crate):
    """All items of a crate, each with its file."""
    found = []
    for path in files_of(crate):
        lines = read(path).split("\n")
        found += read_items(path, lines, 0, len(lines), 0)
    return found


def comment_of_file(path):
    """The lines of the comment at the head of a file."""
    with open(os.path.join(TOP, path), encoding="utf-8") as file:
        return [line[3:].rstrip("\n").removeprefix(" ") for line in file if line.startswith("//!")]


def module_items(crate, module):
    """The comment at the head of a module, and the items of its file, of its public modules, and those that it
    re-exports. The module is that of a crate's root where it has no name."""
    path = f"crates/{crate}/src/{module or 'lib'}.rt"
    text = read(path)
    lines = text.split("\n")
    found = read_items(path, lines, 0, len(lines), 0)
    children = re.findall(r"(?m)^(pub )?mod (\w+);", text)
    named = re.findall(r"(?m)^pub use (?:\w+::)*(\{[^}]*\}|\w+);", text)
    shown = {name for names in named for name in re.findall(r"\w+", names)}
    for public, child in children:
        child_path = os.path.join(f"crates/{crate}/src", module, f"{child}.rt")
        lines = read(child_path).split("\n")
        items = read_items(child_path, lines, 0, len(lines), 0)
        names = {it.name for it in items if it.public} if public else shown
        own = {it.name for it in found if it.public and it.kind != "impl"}
        found += [it for it in items if it.name in names or it.kind == "impl" and it.of in names | own]
    return comment_of_file(path), found


def facade():
    """What crates/slotmap re-exports: tuples of module (or nothing), crate and name, in the order of lib.rt."""
    text = read("crates/slotmap/src/lib.rt")
    found, module = [], ""
    for part in re.finditer(r"^pub mod (\w+) \{|^\}|^ *pub use (\w+)(?:::\w+)*::(\{[^}]*\}|\w+);", text, re.M):
        if part.group(1):
            module = part.group(1)
        elif part.group(0) == "}":
            module = ""
        else:
            for name in re.findall(r"\w+", part.group(3)):
                found.append((module, part.group(2), name))
    return found
