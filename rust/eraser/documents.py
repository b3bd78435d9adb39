"""Doc comments: the clauses of a function go below what it says of itself."""
import re

from .clauses import contracts_of, section_of, subject
from .tokens import Bad

# What a comment says that isn't so in Rust, where the trait is sealed.
NOT_IN_RUST = {("slotmap_entities", "tuples"): re.compile(r" A struct of tables can have an impl of its\n/// own.*?/// ```text\n.*?/// ```\n(?=///\n)", re.S)}
FUNCTION = re.compile(r"(\s*)(pub(?:\([^)]*\))? )?(?:const )?fn (\w+)")


def header_of(lines):
    """Where the function begins whose clauses come after these lines, or None if they are those of a closure in its body."""
    for number in range(len(lines) - 1, -1, -1):
        if FUNCTION.match(lines[number]): return number
        if lines[number].rstrip().endswith("{") or lines[number].strip() == "}": return None
    return None


def document(out, number, clauses, crate, path):
    """Puts the section of a function below its comment, if it has one."""
    pad, _, name = FUNCTION.match(out[number]).groups()
    while number > 0 and re.match(r"\s*#\[", out[number - 1]): number -= 1
    if number == 0 or not out[number - 1].lstrip().startswith("///"): return
    lines = section_of(crate, path, name, clauses)
    if lines is None: raise Bad(f"the clauses of {name} aren't in the source")
    out[number:number] = [f"{pad}/// {it}".rstrip() for it in ["", *lines]]


def without_loose(text):
    """The text without the comments whose items are gone: they would be read as those of the next item."""
    out = []
    for line in text.split("\n"):
        if not line.strip() and out and out[-1].lstrip().startswith("///"):
            while out and out[-1].lstrip().startswith("///"): out.pop()
            if out and (not out[-1].strip() or out[-1].rstrip().endswith("{")): continue
        out.append(line)
    return "\n".join(out)


def above(out):
    """Where the comment ends that is above these lines' last item, whose attributes come after it."""
    number = len(out) - 1
    while number > 0 and out[number - 1].startswith("#["): number -= 1
    return number


def with_contracts(text, crate, path):
    """Puts the contract of a public trait, or of an impl of a trait, above it."""
    waiting = {key: list(sections) for key, sections in contracts_of(crate, path).items()}
    out, lines = [], text.split("\n")
    for number, line in enumerate(lines):
        out.append(line)
        if not line.startswith(("impl", "pub trait ")): continue
        end = next(at for at in range(number, len(lines)) if lines[at].rstrip().endswith(("{", "{}")))
        sections = waiting.get(subject(" ".join(it.strip() for it in lines[number:end + 1]).rstrip("{} ")), [])
        if not sections: continue
        shown, at = sections.pop(0), above(out)
        has_comment = at > 0 and out[at - 1].startswith("///")
        out[at:at] = [f"/// {it}".rstrip() for it in ([""] if has_comment and shown else []) + shown]
    left = [key for key, sections in waiting.items() if any(sections)]
    if left: raise Bad(f"contracts of {left} have no place")
    return "\n".join(out)


def documented(text, crate, path):
    """Moves the clauses of each function into its rustdoc, or drops them where there is none."""
    if (crate, path) in NOT_IN_RUST:
        text, count = NOT_IN_RUST[crate, path].subn("\n", text)
        if count != 1: raise Bad(f"what isn't so in Rust stands {count} times")
    out = []
    for line in text.split("\n"):
        clauses = re.findall("\x01(.*?)\x02", line.replace("\x03", "\n"), re.S)
        out.append(re.sub("\x01.*?\x02", "", line).rstrip() if clauses else line)
        number = header_of(out) if clauses else None
        if number is not None: document(out, number, clauses, crate, path)
    return with_contracts(without_loose("\n".join(out)), crate, path)
