"""Errors: `#[derive(Error)]` with its messages as impls of Display and Error, and Debug with no bound on what an error carries."""
import re

from .attributes import has_derive, has_own_debug
from .items import Attribute
from .tokens import Bad, after_space, matching, plain


def impls_of_errors(source, items):
    """The text of the impls that the derives of a file stand for."""
    found = []
    for item in items:
        if item.kind not in ("struct", "enum"):
            continue
        if has_own_debug(source, item):
            found.append(debug_impl(source, item))
        if has_derive(item, "Error"):
            found += error_impls(source, item)
    refuse_other_messages(source, items)
    return found


def refuse_other_messages(source, items):
    """A message that no derived error reads is unknown."""
    errors = [item for item in items if item.kind in ("struct", "enum") and has_derive(item, "Error")]
    for at in range(len(source) - 2):
        if source[at] == ("mark", "#") and source[at + 2][1] in ("error", "error_bound"):
            if not any(item.whole <= at < item.end for item in errors):
                raise Bad(f"#[{source[at + 2][1]}] of what isn't an error", source[at].line)


def generics_of(source, item):
    """A type's parameters as they are declared, and by their names alone, each in angle brackets."""
    declared = re.search(r"<.*>", item.header(source))
    if not declared:
        return "", ""
    if re.search(r"[(<].*[(<]|\bwhere\b", declared.group()):
        raise Bad(f"the parameters of {item.name}", source[item.start].line)
    names = re.findall(r"(?:^<|, )('?\w+)", declared.group())
    return declared.group(), f"<{', '.join(names)}>"


def impl_text(generics, trait, name, names, body):
    """An impl of a trait with one function, `fmt`."""
    head = f"impl{generics} core::fmt::{trait} for {name}{names} {{\n"
    return f"{head}    fn fmt(&self, f: &mut core::fmt::Formatter<'_>) -> core::fmt::Result {{\n        {body}\n    }}\n}}\n"


def match_text(arms, write):
    """A match on `self`, one line an arm."""
    return "match self {\n" + "".join(f"            {pattern} => {write(said)},\n" for pattern, said in arms) + "        }"


def debug_impl(source, item):
    """Debug prints which case an error is, and two points for what it carries, so that any value may be carried."""
    generics, names = generics_of(source, item)
    if item.kind == "struct":
        body = f'f.write_str("{shape_text(item.name, struct_shape(source, item))}")'
    else:
        arms = [(f"{item.name}::{it.name}{ANY[it.shape]}", shape_text(it.name, it.shape)) for it in variants(source, item)]
        body = match_text(arms, lambda said: f'f.write_str("{said}")')
    return impl_text(generics, "Debug", item.name, names, body)


ANY = {"": "", "(": "(..)", "{": " { .. }"}


def shape_text(name, shape):
    """How a case is printed."""
    return name + ANY[shape]


def struct_shape(source, item):
    """How a struct's fields are written."""
    if source[item.header_end] == ("mark", "{"):
        return "{"
    return "(" if any(token == ("mark", "(") for token in source[item.at:item.header_end]) else ""


class Variant:
    """A case of an enum: its message, its name, and how its fields are written."""

    def __init__(self, message, name, shape, fields):
        self.message, self.name, self.shape, self.fields = message, name, shape, fields


def variants(source, item):
    """The cases of an enum."""
    found, message = [], None
    at, end = after_space(source, item.header_end + 1), item.end - 1
    while at < end:
        if source[at] == ("mark", "#"):
            attribute = Attribute(source, at)
            message = attribute.argument if attribute.name == "error" else message
            at = after_space(source, attribute.end)
            continue
        if source[at][0] != "word":
            raise Bad(f"{source[at][1]} in {item.name}", source[at].line)
        name, at = source[at][1], after_space(source, at + 1)
        shape = source[at][1] if source[at][1] in ("(", "{") else ""
        close = matching(source, at) if shape else at
        found.append(Variant(message, name, shape, plain(source[at + 1:close - 1]) if shape else ""))
        message, at = None, after_space(source, close)
        if at < end and source[at] != ("mark", ","):
            raise Bad(f"{source[at][1]} in {item.name}", source[at].line)
        at = after_space(source, at + 1)
    return found


def error_impls(source, item):
    """Display and Error of a type that derives `Error`. The trait `Error` is in std alone where Rust is older than 1.81."""
    generics, names = generics_of(source, item)
    bound = next((it.argument for it in item.attributes if it.name == "error_bound"), None)
    shown = f"<{bound.replace('Display', 'core::fmt::Display')}>" if bound else generics
    if item.kind == "struct":
        body = f"f.write_str({struct_message(item)})"
    else:
        body = match_text([arm_of(item, it) for it in variants(source, item)], lambda said: f"write!(f, {said})")
    error = f'#[cfg(feature = "std")]\nimpl{shown} std::error::Error for {item.name}{names} {{}}\n'
    return [impl_text(shown, "Display", item.name, names, body), error]


def struct_message(item):
    """The message of a struct, which names no field."""
    message = next((it.argument for it in item.attributes if it.name == "error"), None)
    if not message or "{" in message:
        raise Bad(f"the message of {item.name}", item.attributes[0].line)
    return message


def arm_of(item, variant):
    """The pattern and the message of one case."""
    path = f"{item.name}::{variant.name}"
    if variant.message is None:
        raise Bad(f"{path} has no message", item.attributes[0].line)
    used = re.findall(r"\{(\w+)\}", variant.message)
    if variant.message.count("{") != len(used):
        raise Bad(f"the message of {path}", item.attributes[0].line)
    if variant.shape == "(":
        count = len([it for it in variant.fields.split(",") if it.strip()])
        binds = ", ".join(f"_{place}" if str(place) in used else "_" for place in range(count))
        return f"{path}({binds})", re.sub(r"\{(\d+)\}", r"{_\1}", variant.message)
    if variant.shape == "{":
        return f"{path} {{ {', '.join([*used, '..'])} }}", variant.message
    return path, variant.message
