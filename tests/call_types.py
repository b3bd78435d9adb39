"""What the names and the types in a text of Rattle mean, for call_finder.py."""

import re


class Type:
    """A type. Its head is a pair of crate and name, an own item, a list of bounds, or a name of std. `parameter` is the function and the
    name of the type parameter that it is, if it is one."""

    def __init__(self, head, args=(), is_ref=False, parameter=None):
        self.head, self.args, self.is_ref, self.parameter = head, list(args), is_ref, parameter

    def inner(self, at=0):
        return self.args[at] if at < len(self.args) else None


def read(path):
    with open(path, encoding="utf-8") as file:
        return file.read()


def split(text, mark=","):
    """The parts of a text between marks that stand in no bracket."""
    parts, depth, last = [], 0, 0
    for at, letter in enumerate(text):
        depth += (letter in "(<[{") - (letter in ")]}" or letter == ">" and text[at - 1] not in "-=")
        if letter == mark and depth == 0:
            parts.append(text[last:at])
            last = at + 1
    return [it.strip() for it in [*parts, text[last:]] if it.strip()]


def closing(text, start):
    """The place behind the bracket that closes the one at `start`."""
    depth, close = 0, {"(": ")", "[": "]", "{": "}", "<": ">"}[text[start]]
    for at in range(start, len(text)):
        depth += (text[at] == text[start]) - (text[at] == close and text[at - 1 : at + 1] not in ("->", "=>"))
        if depth == 0:
            return at + 1
    return len(text)


def inside(text, start):
    return text[start + 1 : closing(text, start) - 1]


# Modules of the Rust crate that gather names of several crates.
GATHERED = ("proved", "fallible", "errors", "serial", "runs", "json")
STRUCTURES = ("list", "lists", "graph", "paths", "scene", "entities", "scheduler")


def path_in_library(path):
    """The parts of the path by which the library names what is imported from the Rust crate."""
    if path[0] != "slotmap_proved":
        return path
    inner = [it for it in path[1:] if it not in GATHERED]
    if inner and inner[0].startswith("slotmap_"):
        return inner
    return [f"slotmap_{inner[0]}", *inner[1:]] if inner and inner[0] in STRUCTURES else ["slotmap", *inner]


def imports_of(text):
    """The names that a file imports, each with the parts of its path."""
    found = {}

    def add(prefix, tree):
        for part in split(tree):
            head, brace, rest = part.partition("{")
            if brace:
                add(prefix + head, rest[: rest.rindex("}")])
            else:
                path, _, other = part.partition(" as ")
                path = (prefix + path).removesuffix("::self").split("::")
                found[other or path[-1]] = path_in_library(path)

    for tree in re.findall(r"(?ms)^(?:pub(?:\(crate\))? )?use (.+?);", text):
        add("", re.sub(r"\s+", " ", tree))
    return found


def bounds_of(text):
    """The type parameters that a text lists, each with its bounds."""
    pairs = [it.partition(": ") for it in split(text) if it[0] != "'"]
    return {name: [it for it in split(bounds, "+") if it[0] != "'"] for name, _, bounds in pairs}


def parts_of(lines):
    """The type parameters of a function with their bounds, its parameters, and its result."""
    text = re.split(r"\b(?:requires|ensures)\b", re.sub(r"//.*", "", " ".join(lines)))[0]
    text, _, where = re.sub(r"\s+", " ", text).partition(" where ")
    at, generics = re.search(r"fn \w+", text).end(), {}
    if text[at] == "<":
        generics, at = bounds_of(inside(text, at)), closing(text, at)
    for name, bounds in bounds_of(where).items():
        generics[name] = generics.get(name, []) + bounds
    return generics, split(inside(text, at)), text[closing(text, at) :].partition("->")[2].strip(" {")


def clean(text):
    """A text without comments and without what stands in strings."""
    return re.sub(r'"(?:\\.|[^"\\])*"', lambda it: '"' + " " * (len(it.group()) - 2) + '"', re.sub(r"//.*", "", text))


def subject_of(item):
    """The type parameters of an impl, and the type that it is of."""
    if item.kind != "impl":
        return {}, None
    head = item.header()[4:]
    generics, rest = (bounds_of(inside(head, 0)), head[closing(head, 0) :]) if head.startswith("<") else ({}, head)
    rest, _, where = re.split(r" requires ", rest)[0].partition(" where ")
    return {**generics, **{name: generics.get(name, []) + it for name, it in bounds_of(where).items()}}, rest.split(" for ")[-1]


def macros_of(texts):
    """The macros of these texts with one rule: each with its parameters and its body."""
    found = {}
    for text in texts:
        for head in re.finditer(r"macro_rules! (\w+) \{\s*(?=\()", text):
            rule = inside(text, head.end())
            brace = text.index("{", closing(text, head.end()))
            found[head.group(1)] = re.findall(r"(\$\w+):", rule), inside(text, brace)
    return found


def expanded(text, macros):
    """A text with the bodies of the macros that it calls behind it."""
    for name, (params, body) in macros.items():
        for call in re.finditer(rf"\b{name}!(?=\()", text):
            made = body
            for param, arg in zip(params, split(inside(text, call.end()))):
                made = re.sub(re.escape(param) + r"\b", lambda _, arg=arg: arg, made)
            text += "\n" + made
    return text


class Scope:
    """What the names in a function mean: those of its file and crate, its type parameters, and `Self`."""

    def __init__(self, found, crate, own, imports, generics=(), subject=None, function=None):
        self.found, self.crate, self.own, self.imports = found, crate, own, imports
        self.generics, self.subject, self.function = dict(generics), subject, function

    def type(self, text):
        """The type that a text names."""
        text = text.strip()
        bare = re.sub(r"^(&('\w+ )?(mut )?)+", "", text)
        is_ref = bare != text
        if bare.startswith(("(", "[", "impl ", "dyn ")):
            return Type("none", is_ref=is_ref)
        path, _, args = bare.partition("<")
        args = [self.type(it) for it in split(args[: args.rindex(">")]) if it[0] != "'"] if ">" in args else []
        path = path.strip().removesuffix("::")
        if path in self.generics:
            bounds = [Type(self.head(it.partition("<")[0])) for it in self.generics[path]]
            return Type(bounds, is_ref=is_ref, parameter=(self.function, path))
        if path == "Self" and self.subject:
            return Type(self.subject.head, self.subject.args, is_ref, self.subject.parameter)
        head = self.head(path)
        return Type(head.head, args or head.args, is_ref or head.is_ref, head.parameter) if isinstance(head, Type) else Type(head, args, is_ref)

    def head(self, path):
        """What a path names: a public type or function, an own item, the type of an own alias, or else a name."""
        parts = path.split("::")
        parts = [*self.imports.get(parts[0], parts[:1]), *parts[1:]]
        library, name = self.found.library, parts[-1]
        if "::".join(parts) in library.paths:
            return library.paths["::".join(parts)]
        for crate in (self.crate, parts[0]):
            if crate in library.items and library.homes[name]:
                return library.home_of(crate, name)
        for item, scope in self.items(parts):
            if item.kind == "type":
                return scope.type(" ".join(item.lines).partition("=")[2].rstrip("; "))
            if item.kind in ("struct", "enum", "trait"):
                return item
        return name

    def items(self, parts):
        """The own items with a name: those of this file or of the module that it is imported from, else any of the crate."""
        crate = self.crate if len(parts) == 1 or parts[0] in ("crate", "super") else parts[0]
        found = [it for it in self.own.get(parts[-1], []) if it[1].crate == crate]
        near = [it for it in found if it[1].imports is self.imports or len(parts) > 1 and it[0].path[:-1].endswith(f"/{parts[-2]}.r")]
        return near or found
