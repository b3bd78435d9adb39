"""Reads the definitions of crates/*/specs, each with the comment above it and what it cites: for words.py and theorem.py.

It relies on the layout of these files: a definition begins at column 0, or at column 2 in a `module _`, and what belongs to it
stands further in, or begins with its name.
"""

import functools
import glob
import os
import re

from sources import TOP

HEAD = re.compile(r"( *)(?:(?:abbrev|unfoldable|pub|record|data) )*([^\s:({]+)(?= [:({]| *$)")
BEGINS = re.compile(r" *(?:(?:abbrev|unfoldable|pub|record|data) )|( *)[^\s:({]+ :(?= |$)")
USE = re.compile(r"(?:ghost |unfoldable )?(pub )?use ([\w.]+?)(?:\.\{([^}]*)\}| as (\w+))?;? *$")


class Definition:
    """A definition: its file and line, the sentences above it, its lines, and the heads of the modules around it."""

    def __init__(self, path, line, name, comment, lines, around):
        self.path, self.line, self.name = path, line, name
        self.comment, self.lines, self.around = comment, lines, around

    def code(self):
        """Its lines without comments."""
        return [it for it in self.lines if it.strip() and not it.strip().startswith("--")]


def spec_of(module):
    """The file of definitions that a module is. One that isn't of this repository stays a name."""
    named = re.fullmatch(r"Rattle\.(\w+)\.specs\.([\w.]+)", module)
    path = f"crates/{named.group(1)}/specs/{named.group(2).replace('.', '/')}.antt" if named else ""
    return path if os.path.exists(os.path.join(TOP, path)) and path else module


def imports_of(line):
    """What a line imports, and whether it passes that on: each with its name here, its name there, or nothing if it is a whole
    module, and the file or module."""
    use = USE.match(line)
    if not use:
        return False, []
    passes, module, names, alias = use.groups()
    if names is None:
        return bool(passes), [(alias or module.split(".")[-1], "", spec_of(module))]
    found = []
    for name in filter(None, (it.strip() for it in names.split(","))):
        path, _, here = name.partition(" as ")
        inner, _, there = path.rpartition(".")
        found.append((here or there, there, spec_of(f"{module}.{inner}" if inner else module)))
    return bool(passes), found


def indent_of(line):
    return len(line) - len(line.lstrip(" "))


class File:
    """A file of definitions: what it declares, and what it imports from other ones."""

    def __init__(self, path):
        self.path = path
        self.definitions, self.imports, self.passed, self.modules = {}, {}, {}, {}
        with open(os.path.join(TOP, path), encoding="utf-8") as file:
            self.lines = file.read().split("\n")
        self.read_uses()
        self.read_definitions()

    def read_uses(self):
        for line in self.lines:
            passes, imported = imports_of(line.strip())
            for here, name, spec in imported:
                if name:
                    self.imports[here] = (name, spec)
                    if passes:
                        self.passed[here] = (name, spec)
                else:
                    self.modules[here] = spec

    def read_definitions(self):
        number, around, comment = 0, [], []
        while number < len(self.lines):
            line = self.lines[number]
            around = [it for it in around if not line.strip() or indent_of(it) < indent_of(line)]
            if line.strip().startswith("--"):
                comment.append(line.strip()[2:].strip())
            elif re.match(r" *module _ ", line):
                first = number
                while not self.lines[number].rstrip().endswith(" where"):
                    number += 1
                around.append("\n".join(self.lines[first : number + 1]))
                comment = []
            elif BEGINS.match(line) and not USE.match(line.strip()) and HEAD.match(line):
                end = self.end_of(number, HEAD.match(line).group(2))
                name = HEAD.match(line).group(2)
                self.definitions[name] = Definition(self.path, number + 1, name, comment, self.lines[number:end], list(around))
                comment, number = [], end - 1
            else:
                comment = []
            number += 1

    def end_of(self, start, name):
        """The line after the last one of a definition."""
        indent, end = indent_of(self.lines[start]), start + 1
        for number in range(start + 1, len(self.lines)):
            line = self.lines[number]
            if not line.strip() or line.strip().startswith("--"):
                continue
            goes_on = indent_of(line) > indent or (indent_of(line) == indent and line.split()[0] in (name, "}"))
            if not goes_on:
                break
            end = number + 1
        return end


@functools.cache
def files():
    paths = glob.glob(os.path.join(TOP, "crates/*/specs/**/*.antt"), recursive=True)
    return {it: File(it) for it in sorted(os.path.relpath(path, TOP) for path in paths)}


def declared_at(name, spec):
    """The definition that a file declares or passes on under a name, or None."""
    while spec in files():
        file = files()[spec]
        if name in file.definitions:
            return file.definitions[name]
        if name not in file.passed:
            return None
        name, spec = file.passed[name]
    return None


def cited_by(definition):
    """The definitions that a definition cites, in the order of their names in it."""
    file, found = files()[definition.path], []
    for token in re.findall(r"[^\s(){}\[\],;]+", "\n".join([*definition.around, *definition.code()])):
        first, _, rest = token.partition(".")
        if first in file.modules and rest:
            cited = declared_at(rest.split(".")[0], file.modules[first])
        elif first in file.definitions:
            cited = file.definitions[first]
        elif first in file.imports:
            cited = declared_at(*file.imports[first])
        else:
            continue
        if cited and cited is not definition and cited not in found:
            found.append(cited)
    return found


def reached_from(first):
    """All definitions that these ones rest on, themselves included: each after those that it cites."""
    found, begun = [], set()

    def visit(definition):
        key = (definition.path, definition.name)
        if key in begun:
            return
        begun.add(key)
        for cited in cited_by(definition):
            visit(cited)
        found.append(definition)

    for definition in first:
        visit(definition)
    return found
