"""What src/lib.rs exports of the proved modules: for each name the public modules that have it."""
import functools
import os
import re
import sys

from .clauses import TOP

sys.path.insert(0, os.path.join(TOP, "tests"))
from doc_examples import names_in  # tests/doc_examples.py
from sources import items_of

USE = re.compile(r"(?m)^pub mod (\w+) \{|^\}|^ *pub use (?:(?:crate::)?(?:proved|rt)::([\w:]+?)(?:::(\{[^}]*\}|\*))?(?: as (\w+))?|\w+::(\w+));")


def source_of(path):
    """The source of a proved module, such as slotmap_core::errors, or None."""
    crate, *inner = path.split("::")
    file = os.path.join(TOP, "crates", crate, "src", *(inner or ["lib"])) + ".rt"
    return file if os.path.exists(file) else None


def names_below(path):
    """The public names of a proved module by their paths in it."""
    file = source_of(path)
    return [it.split("::", 1)[1] for it in names_in(file, "here")] if file else []


@functools.cache
def exported():
    with open(os.path.join(TOP, "rust/src/lib.rs"), encoding="utf-8") as file:
        text = re.sub(r"//.*", "", file.read())
    found, module = {}, ""
    for part in USE.finditer(text):
        opened, path, names, other, again = part.groups()
        if again:
            if module: found.setdefault(again, []).append(module)
        elif opened or not path:
            module = opened or ""
        elif names == "*" or source_of(path):
            alias = other or path.split("::")[-1]
            place = module if names else "::".join(filter(None, [module, alias]))
            if not names: found.setdefault(alias, []).append(module)
            for name in names_below(path) if names in ("*", None) else re.findall(r"\w+", names):
                *inner, last = name.split("::")
                found.setdefault(last, []).append("::".join(filter(None, [place, *inner])))
        else:
            for name in re.findall(r"\w+", names or other or path.split("::")[-1]):
                found.setdefault(name, []).append(module)
    return found


@functools.cache
def traits_of(crate):
    return {it.name for it in items_of(crate) if it.kind == "trait" and it.public}
