"""What a text of a contract means, as one hash: for lock.py.

A text names words, and a word stands for a part: a definition of crates/*/specs, a type with what its values show, a ghost member of a
trait, or a constant. A part has a text of its own, with words in it. The hash is of all these texts, each without comments and with one
space for each stretch of blanks, and of what each word in them stands for. So it doesn't depend on where a part is declared, by which
import a word comes, or what the file is called. A word of std or of the toolchain counts by its full name, since its meaning belongs to
the kit. Where a word may stand for several parts, all of them count.

A type shows its model's value, or its fields where it has no model. What the fields of a model show isn't followed: each type has
lines of its own in contracts.lock.
"""

import functools
import hashlib
import re

from definitions import files, imports_of
from sources import files_of, items_of, read
from words import crates_below, listed_crates

STRING = r'"(?:[^"\\]|\\.)*"'
BLANKS = {
    ".antt": re.compile(rf"({STRING})|(?:(?<!\S)--(?=[\s-]|$)[^\n]*|\s)+", re.M),
    ".rt": re.compile(rf"({STRING})|(?://[^\n]*|\s)+"),
}
WORD = re.compile(rf'{STRING}|\[\]|[^\s(){{}}\[\],;"]+')
PIECES = re.compile(r"[<>&:?|]+")
# What a model is to those who see it. Its other members are about the representation.
SHOWN = ("Value", "coded", "view")

items = functools.cache(items_of)


class Unknown(Exception):
    """A form or a name that these scripts don't know."""


def normal(text, kind):
    return BLANKS[kind].sub(lambda found: found.group(1) or " ", text).strip()


class Part:
    """A text, and what its words stand for: `meaning` has for a word a list of parts and full names. `also` are more parts."""

    def __init__(self, name, text, meaning, also=()):
        self.name, self.text, self.meaning, self.also = name, text, meaning, also

    @functools.cached_property
    def named(self):
        found = [(word, target) for word in words_in(self.text) for target in self.meaning(word)]
        return found + [("", target) for target in self.also]


def words_in(text):
    """The words of a text, each once: `Result<K, E>` as a whole and by its parts."""
    found = [it for it in WORD.findall(text) if it[0] != '"']
    return list(dict.fromkeys([*found, *(piece for word in found if PIECES.search(word) for piece in PIECES.split(word) if piece)]))


class Digests:
    """Short hashes of parts, each with all that it rests on. Parts that rest on each other are a ring: in it each is hashed with the
    others, in the order in which it reaches them."""

    def __init__(self):
        self.found, self.lowest, self.open = {}, {}, []

    def of(self, part):
        if part not in self.found:
            self.visit(part)
        return self.found[part]

    def visit(self, part):
        """Finds the rings of what a part rests on, the lowest first. It returns the place of the first part of its ring."""
        place = low = self.lowest[part] = len(self.lowest)
        self.open.append(part)
        for _, target in part.named:
            if not isinstance(target, str) and target not in self.found:
                low = min(low, self.lowest[target] if target in self.lowest else self.visit(target))
        self.lowest[part] = low
        if low == place:
            start = self.open.index(part)
            ring = self.open[start:]
            del self.open[start:]
            self.found.update({it: self.in_ring(it, ring) for it in ring})
        return low

    def in_ring(self, first, ring):
        order, lines = [first], []
        for part in order:
            lines.append(part.text)
            for word, target in part.named:
                if target in ring and target not in order:
                    order.append(target)
                lines.append(f"{word}: {order.index(target) if target in ring else self.found.get(target, target)}")
        return hashlib.sha256("\n".join(lines).encode()).hexdigest()[:16]


# Definitions


def pieces(name):
    """The words by which a name is used: `◌≡◌` by `≡`."""
    return [it for it in name.split("◌") if it]


class Words:
    """What words stand for by imports and declarations: for each word names, each with its file or module."""

    def __init__(self):
        self.names, self.modules = {}, {}

    def add(self, here, name, module):
        if name:
            for piece in pieces(here):
                self.names.setdefault(piece, []).append((name, module))
        else:
            self.modules.setdefault(here, []).append(module)

    def meaning(self, word):
        first, _, rest = word.partition(".")
        named = list(self.names.get(first, []))
        named += [(rest.partition(".")[0], module) for module in self.modules.get(first, []) if rest]
        return [target for name, module in named for target in declared_at(name, module)]


@functools.cache
def declared_at(name, module):
    """What a file of definitions declares or passes on under a name: its part, or its full name if it is of the kit."""
    if module not in files():
        return generated(module, name)
    file = files()[module]
    found = file.definitions.get(name) or constructors(module).get(name)
    if found:
        return [definition_part(module, found.name)]
    if name not in file.passed:
        raise Unknown(f"{module} doesn't declare `{name}`")
    return declared_at(*file.passed[name])


def generated(module, name):
    """What stands in a module that isn't a file: a type of this repository, or something of the kit."""
    named = re.fullmatch(r"Rattle\.(\w+)\.(\w+)\.(.*)", module)
    if not named or named.group(1) not in listed_crates():
        return [f"{module}.{name}"]
    crate, kind, inner = named.groups()
    for word in reversed([*inner.split("."), name]):
        if kind == "specs" and named_in(crate, word):
            return named_in(crate, word)
    raise Unknown(f"`{module}.{name}` isn't a definition")


@functools.cache
def constructors(path):
    """The definition of each constructor in a file of definitions."""
    found = {}
    for definition in files()[path].definitions.values():
        if re.match(r" *pub data ", definition.lines[0]):
            found.update({name: definition for line in definition.code()[1:] for name in re.findall(r"^ +(\w+) :", line)})
    return found


@functools.cache
def words_of_specs(path):
    file, words = files()[path], Words()
    for name in [*file.definitions, *constructors(path)]:
        words.add(name, name, path)
    for here, (name, module) in file.imports.items():
        words.add(here, name, module)
    for here, module in file.modules.items():
        words.add(here, "", module)
    return words


@functools.cache
def definition_part(path, name):
    definition = files()[path].definitions[name]
    text = normal("\n".join([*definition.around, *definition.lines]), ".antt")
    return Part(f"{path}: {name}", text, words_of_specs(path).meaning)


# Sources


@functools.cache
def declarations(crate):
    """The types, traits and constants of a crate by their names."""
    found = {}
    for item in items(crate):
        if item.kind not in ("fn", "impl", "ghost"):
            found.setdefault(item.name, []).append(item)
    return found


def branches(tree):
    """The paths of an import of Rust: for each its name here and its segments."""
    head, brace, inner = tree.partition("{")
    segments = [it for it in head.split("::") if it]
    if not brace:
        path, _, here = tree.partition(" as ")
        segments = path.strip().split("::")
        return [(here.strip() or segments[-1], segments)]
    found, depth, start = [], 0, 0
    inner = inner.rstrip()[:-1] + ","
    for place, letter in enumerate(inner):
        depth += {"{": 1, "}": -1}.get(letter, 0)
        if letter == "," and not depth:
            found += [(here, segments + rest) for here, rest in branches(inner[start:place].strip())] if inner[start:place].strip() else []
            start = place + 1
    return found


def imports_in(text):
    """What a text of Rust imports by `use`: for each whether it is passed on, its name here and its path."""
    found = []
    for passes, tree in re.findall(r"(?m)^ *(pub )?(?:pub\([^)]*\) )?use ([^;]+);", re.sub(r"//.*", "", text)):
        found += [(bool(passes), here, segments) for here, segments in branches(re.sub(r"\s+", " ", tree))]
    return found


@functools.cache
def rust_imports(path):
    """The paths that each name of a file's imports stands for."""
    found = {}
    for _, here, segments in imports_in(read(path)):
        found.setdefault(here, []).append(segments)
    return found


@functools.cache
def exports(crate):
    """The names that a crate passes on: for each the module that has it, and the path that it stands for."""
    found, inner = {}, re.compile(r"(?ms)^pub mod (\w+) \{(.*?)^\}")
    for path in files_of(crate):
        text, module = read(path), re.sub(r".*/src/(lib\.rt)?|\.rt$", "", path)
        for name, part in [(module, inner.sub("", text)), *inner.findall(text)]:
            for passes, here, segments in imports_in(part):
                if passes:
                    found.setdefault(here, []).append((name, segments))
    return found


@functools.cache
def modules(crate):
    return {name for path in files_of(crate) for name in re.findall(r"(?m)^(?:pub )?mod (\w+)", read(path))}


def at_path(crate, segments):
    """What a path of Rust leads to: parts, or its own text if it leads out of the repository."""
    if segments[0] in listed_crates():
        crate = segments[0]
    elif segments[0] not in ("crate", "self", "super") and segments[0] not in modules(crate):
        return ["::".join(segments)]
    return named_in(crate, segments[-1], segments[-2:-1]) or [f"{crate}::{segments[-1]}"]


def named_in(crate, name, module=()):
    """The types, traits and constants of this name that a crate declares or passes on: from the module, if it does so there."""
    if name in declarations(crate):
        return [declared_in(crate, name)]
    passed = [it for it in exports(crate).get(name, []) if it[1][-1] != name or it[1][0] in listed_crates()]
    near = [it for it in passed if it[0] in module] or passed
    return [part for _, segments in near for part in at_path(crate, segments)]


@functools.cache
def declared_in(crate, name):
    """What the items of this name mean: of a type what its models show, or else its fields."""
    found = declarations(crate)[name]
    shown = [(it, member) for it in items(crate) if it.of_trait == "Model" and it.of == name for member in it.members if member.name in SHOWN]
    texts = [(block, member.lines) for block, member in shown] or [(None, [it.header()] if it.kind == "trait" else it.lines) for it in found]
    paths = {block.path: block for block, _ in shown} or {it.path: None for it in found}
    scopes = [Scope(crate, path, block) for path, block in paths.items()]
    text = " ".join(normal("\n".join(lines), ".rt") for _, lines in texts)
    return Part(f"{crate}::{name}", text, lambda word: [target for scope in scopes for target in scope.meaning(word)])


@functools.cache
def trait_members(crate):
    """The ghost members of a crate's traits by their names."""
    found = {}
    for trait in [it for it in items(crate) if it.kind == "trait"]:
        scope = Scope(crate, trait.path, trait)
        for member in [it for it in trait.members if it.kind == "ghost" and it.name != "use"]:
            part = Part(f"{crate}::{trait.name}::{member.name}", normal("\n".join(member.lines), ".rt"), scope.meaning)
            found.setdefault(member.name, []).append(part)
    return found


@functools.cache
def members_named(crate, name):
    """The ghost members of this name, of the traits of a crate and of the crates below it."""
    return [part for below in crates_below(crate) for part in trait_members(below).get(name, [])]


@functools.cache
def words_of_source(path, block=None):
    """What the `ghost use` of a file bring, or those of a block in it."""
    words = Words()
    inside = block.members if block else items_in(path)
    for item in [it for it in inside if it.kind == "ghost" and it.name == "use"]:
        imported = imports_of(normal("\n".join(item.lines), ".rt"))[1]
        if not imported:
            raise Unknown(f"{item.path}:{item.line}: no import that is known")
        for here, name, module in imported:
            words.add(here, name, module)
    return words


@functools.cache
def items_in(path):
    return [it for it in items(path.split("/")[1]) if it.path == path]


class Scope:
    """What words stand for in a source file, or in a block of it: by ghost imports, by those of Rust, in the crate, or in traits."""

    def __init__(self, crate, path, block=None):
        self.crate, self.path, self.block = crate, path, block
        self.meaning = functools.cache(self.look_up)

    def look_up(self, word):
        first, *rest = re.split(r"\.|::", word)
        found = words_of_source(self.path).meaning(word)
        if self.block:
            found += words_of_source(self.path, self.block).meaning(word)
        found += self.types(first)
        in_trait = self.block and self.block.kind == "trait"
        for piece in [first, *rest] if in_trait else rest:
            found += members_named(self.crate, piece)
        return found

    def types(self, name):
        """The types, traits and constants of a name."""
        paths = rust_imports(self.path).get(name)
        if paths:
            return [it for segments in paths for it in at_path(self.crate, segments)]
        return [declared_in(self.crate, name)] if name in declarations(self.crate) else []
