"""Finds the public calls in the texts of functions, for calls.py.

What it knows of a variable comes from parameters, `let`, `match` and patterns with one variable, and from what calls return. Where a
function is generic over a type, what it calls on a parameter of it counts for the types of the arguments, through several functions.
"""

import os
import re
from collections import defaultdict

import doc_examples
from call_types import Scope, Type, clean, closing, expanded, imports_of, inside, macros_of, parts_of, read, split, subject_of
from sources import TOP, end_of, facade, read_items

# Calls on an Option or a Result that don't reach what is in it, or only take it out.
UNWRAPPED = re.compile(r"(ok|err|copied|cloned|map_err|as_ref|as_mut|unwrap\w*|expect)$")
# Adapters and consumers of iterators, which call `next`.
STEPS = re.compile(r"(all|any|collect|count|enumerate|filter|find|fold|last|map|max|min|nth|position|skip|step_by|sum|take|zip)$")
PATH = re.compile(r"[A-Za-z_$]\w*(?:::(?:<|\w+))*")
STEP = re.compile(r"\s*(?:(?P<try>\?)|\.(?P<name>\w+)(?:::<[^(]*>)?(?P<call>\()?|(?P<index>\[))")
EVENT = re.compile(
    r"\blet\s+(?:(?P<wrap>Ok|Some|Err)\()?(?:mut\s+)?(?P<let>[a-z_]\w*)\)?\s*(?::(?!:)\s*(?P<type>[^=;{]+?))?\s*=(?!=)\s*(?:&(?:mut )?)?"
    r"|\b(?P<match>match)\s+(?:&(?:mut )?)?"
    r"|\bfor\s+[^{;]+?\s+in\s+(?P<for>&(?:mut )?)?"
    r"|\b(?P<arm>Ok|Some|Err)\((?:mut )?(?P<name>\w+)\)(?=\s*(?:=>|if\b|\|))"
    r"|\b(?P<enum>[A-Z]\w*)::(?P<variant>[A-Z]\w*)\((?:mut )?(?P<held>[a-z]\w*)\)(?=\)*\s*(?:=>|if\b|\||=))"
    r"|(?<![\w:'$])(?<!(?<!\.)\.)(?P<chain>[A-Za-z_$])"
)


class Found:
    """The calls that were found: for each its kinds of tests, each with files."""

    def __init__(self, library, each_map, maps):
        self.library, self.each_map, self.maps = library, each_map, maps
        self.calls = defaultdict(lambda: defaultdict(set))
        # What the functions of a group call on their type parameters.
        self.on_parameters = defaultdict(set)

    def note(self, type_, call, label):
        """Counts a call on a type, if it has this call. A label is a kind of tests and a file."""
        head = type_.head if type_ else None
        if isinstance(head, list):
            self.on_parameters[type_.parameter].add(call)
            for bound in head:
                self.note(bound, call, label)
        elif isinstance(head, tuple):
            mine = self.library.calls[head]
            marked = [mark + call for mark in ("&", "&mut ") if type_.is_ref and mark + call in mine]
            for name in marked or [call]:
                if name in mine:
                    self.calls[head, name][label[0]].add(label[1])
            if head[1] in self.each_map:
                for other, traits in self.library.traits.items():
                    if other[1] in self.maps and head[1] in traits and call in mine:
                        self.note(Type(other), call, label)

    def result_of(self, type_, call):
        """What a public call on a type returns."""
        bounds = type_.head if isinstance(type_.head, list) else [type_]
        for head in (it.head for it in bounds if isinstance(it.head, tuple)):
            mine = self.library.calls[head]
            item = type_.is_ref and (mine.get("&" + call) or mine.get("&mut " + call)) or mine.get(call)
            if item:
                generics, _, result = parts_of(item.lines)
                return Scope(self, head[0], {}, {}, generics, type_).type(result) if result else None
        return None

    def read_crates(self, kind, paths):
        """Counts the calls of the functions in these files."""
        texts = {it: clean(read(os.path.join(TOP, it)).replace("pub(crate) ", "pub ")) for it in paths}
        # In the Rust crate itself `crate` is what its tests import.
        texts.update({it: text.replace("use crate::", "use slotmap_proved::") for it, text in texts.items() if it.startswith("rust/src/")})
        macros, own, functions = macros_of(texts.values()), defaultdict(list), []
        for path, text in texts.items():
            lines, crate, imports = text.split("\n"), path.split("/")[1], imports_of(text)
            for item in read_items(path, lines, 0, len(lines), 0):
                own[item.name].append((item, Scope(self, crate, own, imports)))
                generics, subject = subject_of(item)
                for it in [item, *item.members]:
                    if it.kind == "fn":
                        scope = Scope(self, crate, own, imports, generics)
                        functions.append((it, scope, subject, lines))
                        if it is not item:
                            own[it.name].append((it, scope))
        for _, scope, subject, _ in functions:
            scope.subject = scope.type(subject) if subject else None
        # What is passed on through functions is known after as many turns.
        for _ in range(4):
            for item, scope, _, lines in functions:
                self.read_function(item, scope, lines, macros, (kind, item.path))

    def read_function(self, item, scope, lines, macros, label):
        generics, params, _ = parts_of(item.lines)
        inner = Scope(self, scope.crate, scope.own, scope.imports, {**scope.generics, **generics}, scope.subject, item)
        known = {}
        for name, _, text in (it.partition(": ") for it in params):
            if not name.endswith("self"):
                known[name.removeprefix("mut ")] = inner.type(text)
            elif scope.subject:
                known["self"] = Type(scope.subject.head, scope.subject.args, "&" in name, scope.subject.parameter)
        start, first = item.line - 1 + len(item.lines), lines[item.line - 1]
        if not lines[start - 1].rstrip().endswith((";", "{}")):
            text = "\n".join(lines[start - 1 : end_of(lines, start, len(first) - len(first.lstrip()))])
            Body(expanded(text, macros), inner, known, label)

    def read_example(self, example):
        """Counts the calls of an example of a doc comment, or of a program of a page."""
        lines = [it[1] if isinstance(it, tuple) else it for it in example.lines]
        text = clean("\n".join([doc_examples.HEADS.get(example.crate, doc_examples.OTHER_HEAD), *lines]))
        names = {it: ["slotmap", it] for module, _, it in facade() if not module}
        for path in self.library.paths:
            if path.split("::")[0] in (example.crate, *doc_examples.ALSO.get(example.crate, ())):
                names[path.split("::")[-1]] = path.split("::")
        crate = example.crate if example.crate in self.library.items else None
        Body(text, Scope(self, crate, {}, {**names, **imports_of(text)}), {}, ("docs", example.path))


class Body:
    """The calls in a function's text. `known` has the types of its variables."""

    def __init__(self, text, scope, known, label):
        self.text, self.scope, self.known, self.label, self.found = text, scope, known, label, scope.found
        self.matches, waiting = [], None
        for event in EVENT.finditer(text):
            if event.group("chain"):
                type_, end = self.chain(event.start())
                if waiting and waiting.end() == event.start():
                    self.bind(waiting, type_, end)
                waiting = None
            elif event.group("enum"):
                self.known[event.group("held")] = self.held(event.group("enum"), event.group("variant"))
            elif event.group("arm"):
                around = [it for start, end, it in self.matches if start <= event.start() < end]
                if around and around[-1]:
                    self.known[event.group("name")] = around[-1].inner(event.group("arm") == "Err")
            else:
                waiting = event

    def note(self, type_, call):
        self.found.note(type_, call, self.label)

    def bind(self, event, type_, end):
        """What a `let`, a `match` or a `for` does with a value of this type."""
        if event.group("let"):
            type_ = self.scope.type(event.group("type")) if event.group("type") else type_
            self.known[event.group("let")] = type_ and type_.inner(event.group("wrap") == "Err") if event.group("wrap") else type_
        elif event.group("match"):
            brace = self.text.find("{", end)
            self.matches.append((brace, closing(self.text, brace), type_))
        elif type_:
            lent = Type(type_.head, type_.args, type_.is_ref or bool(event.group("for")), type_.parameter)
            self.note(lent, "into_iter")
            self.note(self.found.result_of(lent, "into_iter") or lent, "next")

    def chain(self, start):
        """The type of a path with fields and calls behind it, and the place behind these."""
        text, found, turbo = self.text, PATH.match(self.text, start), []
        path, at = found.group(), found.end()
        if path.endswith("::<"):
            turbo, end = split(inside(text, at - 1)), closing(text, at - 1)
            rest = re.compile(r"(::\w+)*").match(text, end)
            path, at = path[:-3] + rest.group(), rest.end()
        type_ = self.known.get(path)
        if text[at : at + 1] == "(":
            type_, at = self.call(path, turbo, at), closing(text, at)
        while step := STEP.match(text, at):
            at = step.end()
            if step.group("try"):
                type_ = type_ and type_.inner()
            elif step.group("index"):
                at = closing(text, at - 1)
                is_written = text[:start].endswith("&mut ") or re.compile(r"\s*[-+*]?=[^=]").match(text, at)
                self.note(type_, "index_mut" if is_written else "index")
                type_ = None
            elif step.group("call"):
                type_, at = type_ and self.method(type_, step.group("name")), closing(text, at - 1)
            else:
                type_ = type_ and self.field(type_, step.group("name"))
        return type_, at

    def held(self, name, variant):
        """What a variant of a public enum holds."""
        head = self.scope.head(name)
        for item in self.found.library.items[head[0]] if isinstance(head, tuple) else []:
            found = item.kind == "enum" and item.name == head[1] and re.search(rf"\b{variant}\((.*)\),", "\n".join(item.lines))
            if found:
                return Scope(self.found, head[0], {}, {}).type(found.group(1))
        return None

    def field(self, type_, name):
        """The type of a field of an own struct."""
        lines = getattr(type_.head, "lines", [])
        found = re.search(rf"(?m)^\s*(?:pub )?{name}: (.+),$", "\n".join(lines))
        if not found:
            return None
        generics = split(inside(lines[0], lines[0].index("<"))) if "<" in lines[0] else []
        given = zip([it.partition(":")[0] for it in generics if it[0] != "'"], type_.args)
        return dict(given).get(found.group(1)) or self.scope.type(found.group(1))

    def method(self, type_, call):
        """Counts a method, and returns the type of its result."""
        if type_.head in ("Option", "Result") and UNWRAPPED.match(call):
            if call[0] in "ue" and call != "err":
                return type_.inner()
            return Type("Option", type_.args[call == "err" :]) if call in ("ok", "err") else type_
        self.note(type_, call)
        if call == "rev":
            self.note(type_, "next_back")
        elif STEPS.match(call):
            self.note(type_, "next")
        if call == "clone":
            return Type("Result", [type_])
        for item, scope in self.scope.own.get(call, []) if hasattr(type_.head, "lines") else []:
            if item.kind != "fn":
                continue
            return scope.type(parts_of(item.lines)[2])
        return self.found.result_of(type_, call)

    def call(self, path, turbo, at):
        """Counts a call of a path, whose arguments begin behind this place, and returns the type of its result."""
        before, _, name = path.rpartition("::")
        if before and before.split("::")[0] not in ("crate", "super"):
            type_ = self.scope.type(before)
            self.note(type_, name)
            return type_ if name[0].isupper() else self.found.result_of(type_, name)
        head = self.scope.head(path)
        if isinstance(head, tuple):
            self.note(Type(head), "")
            return Type(head) if name[0].isupper() else self.found.result_of(Type(head), "")
        for item, scope in self.scope.items([*self.scope.imports.get(name, [name])]):
            if item.kind != "fn":
                continue
            generics, params, result = parts_of(item.lines)
            for param, type_ in zip(params, self.arguments(at)):
                for call in self.found.on_parameters[item, re.sub(r"^&('\w+ )?(mut )?", "", param.partition(": ")[2])]:
                    self.note(type_, call)
            for parameter, given in zip(generics, turbo):
                for call in self.found.on_parameters[item, parameter]:
                    self.note(self.scope.type(given), call)
            return Scope(self.found, scope.crate, scope.own, scope.imports, generics).type(result) if result else None
        return None

    def arguments(self, start):
        """The types of the arguments that are chains."""
        at = start + 1
        for arg in split(inside(self.text, start)):
            at = self.text.index(arg, at)
            bare = re.sub(r"^&(mut )?", "", arg)
            yield self.chain(at + len(arg) - len(bare))[0] if re.match(r"[A-Za-z_]", bare) else None
            at += len(arg)
