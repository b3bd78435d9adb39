#!/usr/bin/env python3
"""Writes docs/THEOREM.md. Its first part has the laws of the replies with the definitions that they rest on, in FIRST lines at
most; its second part the clauses of `run_new` and `run_detaching_new`, and each other definition that these rest on, in reading
order. With --check it writes nothing, and fails if the page is out of date.

The sentence of a definition is the comment above it. A definition without one, or of a file that no section is about, is a fault.
So is a bracket that isn't closed in a definition, a name that two of the definitions have, and a parameter with the name of one.
"""

import os
import re
import sys
import textwrap

sys.dont_write_bytecode = True

import words
from definitions import TOP, files, reached_from
from sources import items_of

PAGE = os.path.join(TOP, "docs/THEOREM.md")
CRATE, CALLS = "slotmap_run", ("run_new", "run_detaching_new")
FIRST = 110
# The definitions of the first part: each law after those that it rests on.
LAWS = "Knowledge Agrees AgreesLive taken_out settled IsNewest told Reads ReadsWhatWasPut IndexStaysSmall".split()
# Six commands on a new map, which all concern the key k, with their replies.
EXAMPLE = [
    ("Insert(5)", "Key(k)"),
    ("Replace(k, 6)", "Put(Ok(5))"),
    ("Retain", "Done"),
    ("Get(k)", "Looked(Some(seen))"),
    ("Remove(k)", "Taken(Some(7))"),
    ("Contains(k)", "Flag(false)"),
]
# The files of slotmap_core/specs in reading order, with what each is about.
SECTIONS = {
    "Key": ("Keys", "A clause sees a key as the record of its index and its version."),
    "Content": ("What a map holds", "This is a map from outside: no slots, links or blocks."),
    "Listing": ("Lists of entries", "What a drain and a list of keys return."),
    "Machine": ("The states of the machine", "The machine knows keys and values. It has no slots, and any fresh key may come next."),
    "Given": ("What a run is given", "How keys are read, and what the three closures may do."),
    "Step": ("The steps", "For each command: which replies are possible, and the state after each. No other reply is possible."),
    "Run": ("A run", "A list of steps, with the reply to each command at its position."),
    "Told": ("What replies tell", "These laws are those of the first part."),
    "Fit": ("What ties the machine to a map", "The machine's last state fits what the map holds."),
    "Transition": ("What a removal does to vacant slots", "The next version at a freed index, and the stack of such indices."),
    "Lifo": ("Maps that reuse the slot freed last", "A machine over a stack of vacant indices. The commands alone decide its states."),
    "Law": ("The laws", "What follows for the replies alone. The clause `laws` is proved from the clause `run`."),
}
CLAUSES = {
    "looks": "The closure `look` may be called on every value.",
    "keeps": "The closure `keep` may be called on every key and value.",
    "makes": "The closure `make` may be called on every key.",
    "run": "Replies and content are a run of the machine from the empty state, whichever map `M` is.",
    "none_retired": "In a run of fewer than 2^32 commands no slot is retired.",
    "goes_on": "It is also a run whose closures may do anything. So a later run on the map can continue it.",
    "laws": "The laws hold of commands and replies.",
    "index_stays_small": "So does this one, of fewer than 2^32 commands.",
    "last_freed_first": "Inserts reuse the slot freed last, if the commands only insert, remove, detach and reattach.",
    "err": "If there is no memory for the replies or the map, nothing is run, and the commands are returned.",
}


def call(name):
    return next(it for it in items_of(CRATE) if it.kind == "fn" and it.name == name)


def clauses_of(name):
    """The clauses of a call, without comments, by their names."""
    text = re.sub(r"\n *//.*", "", "\n".join(call(name).lines))
    found = (it.strip("\n").split("\n") for it in re.split(r"\n(?= *(?:requires|ensures)\b)", text)[1:])
    return {re.match(r"\s*\w+\*? (\w+) \{", it[0]).group(1): dedent(it) for it in found}


def reached(*names):
    """What the clauses of these calls rest on, by file in reading order, and within a file as it stands there."""
    found = reached_from([it for name in names for it in words.roots_of_call(CRATE, name)])
    order = [f"crates/slotmap_core/specs/{it}.antt" for it in SECTIONS]
    for it in found:
        if it.path not in order:
            sys.exit(f"theorem.py: no section is about {it.path}")
        if not it.comment:
            sys.exit(f"theorem.py: {it.path}:{it.line}: {it.name} has no comment")
    return sorted(found, key=lambda it: (order.index(it.path), it.line))


def bound_in(definition):
    """The parameters of a definition, of the modules around it, and of the functions in it."""
    text = "\n".join([*definition.around, *definition.code()])
    groups = re.findall(r"[({]([^(){}:]*?) :(?= )", text) + re.findall(r"λ ([^.]*)\.", text)
    return {name for group in groups for name in group.split()}


def faults_of(found):
    """What a reader could take for something else, or isn't whole."""
    faults, seen = [], {}
    for it in found:
        text = "\n".join(it.code())
        if any(text.count(a) != text.count(b) for a, b in ("()", "{}", "[]")):
            faults.append(f"{it.path}:{it.line}: {it.name} has a bracket that isn't closed")
        if it.name in seen:
            faults.append(f"{it.path}:{it.line}: {it.name} is also defined in {seen[it.name].path}")
        seen.setdefault(it.name, it)
    for it in found:
        faults += [f"{it.path}:{it.line}: {it.name} has a parameter {name}, which {seen[name].path} defines" for name in sorted(bound_in(it) & set(seen))]
    return faults


def sentence(definition):
    text = " ".join(definition.comment).rstrip(".")
    # The name of a parameter, as k, stays small.
    return (text if re.match(r"\w\b", text) else text[0].upper() + text[1:]) + "."


def names_of_std(found):
    """The words of std that these definitions use."""
    names = set()
    for definition in found:
        text = "\n".join(definition.code())
        for line in files()[definition.path].lines:
            use = re.match(r"use Rattle\.std\.specs\.[\w.]+\.\{(.*)\}$", line)
            for name in use.group(1).split(", ") if use else []:
                name = name.split(" as ")[-1]
                if name[0].isalpha() and re.search(rf"(?<![\w.]){re.escape(name)}(?!\w)", text):
                    names.add(name)
    return sorted(names, key=str.lower)


def dedent(lines):
    least = min(len(it) - len(it.lstrip(" ")) for it in lines if it.strip())
    return [it[least:].rstrip() for it in lines]


def wrapped(text, head="", width=150):
    return textwrap.wrap(head + text, width, break_long_words=False, break_on_hyphens=False, subsequent_indent=head and "> ")


def equations(definition):
    """The equations of a definition, each as its left and right side, where a line that is further to the right goes on."""
    code = definition.code()
    least = min(len(it) - len(it.lstrip(" ")) for it in code)
    joined = []
    for line in code[1:]:
        if len(line) - len(line.lstrip(" ")) > least:
            joined[-1] += " " + line.strip()
        else:
            joined.append(line.strip())
    return [it.split(" = ", 1) for it in joined]


def settled_after(by_name, value, reply, known):
    """What is known of k once a reply shows it, where the reply is `Looked(Some(seen))` or says that k isn't live."""
    shown = "Some more" if "Some" in reply else "None"
    for head, value in equations(by_name["settled"]):
        if head in (f"settled ({shown}) {known}", f"settled {shown} {known}"):
            return value.replace("more", "(seen ∷ [])")
    return known


def known_after(by_name, command, reply, known):
    """What is known of k by the equations of the definition `told`, where the command and the reply name k."""
    for head, value in equations(by_name["told"]):
        pattern = re.match(r"told k \((?:detaching\.Plain \(?)?\w+\.(\w+)((?: \w+)*)\)+ \(?reply\.(\w+)", head)
        if not pattern or (pattern.group(1), pattern.group(3)) != (re.match(r"\w+", command).group(), re.match(r"\w+", reply).group()):
            continue
        chosen = re.match(r"if eq_by_cmp .*? then (?:\(if is_\w+ \w+ then )?(.*?) else ", value)
        value = chosen.group(1) if chosen else value
        if value == "taken_out known":
            value = equations(by_name["taken_out"])[0][1]
        if value.startswith("elim known"):
            return re.search(rf"[\[|] (?:{known.split()[0]}(?: \w+)?|_) ↦ (\w+)", value).group(1)
        if value.startswith("settled"):
            return settled_after(by_name, value, reply, known)
        return value.replace(" v", " " + command.rstrip(")").split("(")[-1].split(", ")[-1])
    return known


def laws(found):
    """The first part."""
    by_name = {it.name: it for it in found}
    lines = ["# What was put is what is got", ""]
    lines += wrapped(
        "`run_new` runs a list of [commands](api/runs.md) on a new map, and returns it with the replies. By its clauses `laws` and `index_stays_small` there is one reply for each command, of "
        "its kind or one that says why it failed. The reply agrees with what the commands before it and their replies tell (`ReadsWhatWasPut`). Each key is `absent` at first. An insert "
        "returns an `absent` key, which is never `absent` again: so no two inserts return the same key. It is newer than each key that was returned at its index before, none of which is live or "
        "detached then. In a list of fewer than 2^32 commands no index is above the most keys at one moment (`IndexStaysSmall`, from three zeros). Here `data_of` reads a key's index and "
        f"version, and `looks v r` says that `look` may return r for v. The laws rest on these {len(LAWS)} definitions, on keys, and on no map, slot or machine.", width=190)
    lines += ["", "```text"]
    around = []
    for name in LAWS:
        it = by_name[name]
        lines += [head.rstrip() for head in it.around if head not in around]
        around = it.around
        indent = " " * (len(it.lines[0]) - len(it.lines[0].lstrip(" ")))
        lines += [indent + "-- " + line for line in wrapped(" ".join(it.comment), width=190)] + [line.rstrip() for line in it.code()]
    known, after = "absent", []
    for command, reply in EXAMPLE:
        known = known_after(by_name, command, reply, known)
        after.append(known)
    rows = [("Command", [it[0] for it in EXAMPLE]), None, ("Reply", [it[1] for it in EXAMPLE]), ("Known of `k`", after)]
    lines += ["```", ""]
    lines += ["|---" * (len(EXAMPLE) + 1) + "|" if row is None else f"| {row[0]} | " + " | ".join(f"`{it}`" for it in row[1]) + " |" for row in rows]
    lines += [""]
    lines += wrapped(
        "These laws leave open which keys a `Retain` keeps, and which values it leaves: don't conclude that one is as it was. Once a reply shows a value, later replies agree with it; so of an "
        "`InsertWith`. Nor do they tell which `absent` key comes next, or when the map is full, memory runs out, `make` fails or a `Reserve` is too great. [The steps](#the-steps) of the second "
        "part tell that. The other laws of `Laws` and `DetachLaws` stand there too: by `ReserveHolds` the next n inserts after a `Reserve` of n find room and memory.", width=190)
    return lines


def page():
    found = reached(*CALLS)
    faults = faults_of(found)
    first = laws(found)
    if len(first) > FIRST:
        faults.append(f"the first part has {len(first)} lines, more than {FIRST}")
    if faults:
        sys.exit("\n".join(["theorem.py:", *faults]))
    plain = reached("run_new")
    text = (
        "The clause `run` says more: replies and content are a run of one machine over keys and values. This part has all clauses of `run_new`, and those that differ of "
        "`run_detaching_new`, whose commands may also detach and reattach keys. And it prints each other definition that they rest on. "
        f"`run_new` rests on {len(plain)}, of {sum(len(it.code()) for it in plain)} lines without comments; both together on {len(found)}, of "
        f"{sum(len(it.code()) for it in found)}. A line that begins with `module _` names the parameters that the definitions below it take first. "
        "Behind them stand only the checker, the logic and std. Of std they use finite maps and sets, and the words below. The commands and replies are "
        "[enums of the library](api/runs.md). What the program `slotrun` prints is the text of the replies of such runs, one after another "
        "([what is proved of it](SLOTRUN.md#what-is-proved-of-it))."
    )
    lines = [*first, "", "# The machine, and all that the theorem stands on", "", *wrapped(text), ""]
    lines += [*wrapped(", ".join(f"`{it}`" for it in names_of_std(found)), "> "), "", "## The theorem", ""]
    lines += wrapped(
        "The map `M` has the trait `Primary`: it is a `SlotMap`, `DenseSlotMap` or `HopSlotMap`. What it holds is `M.content`. Whether vacant slots need no "
        "memory is `M.REUSES`. The index and the version of a key are `K.data_of`. `IfOk` speaks of the value of an `Ok`, `IfErr` of that of an `Err`. "
        "`F.IsAlwaysCallable f` says that `f` may be called on every argument.")
    lines += [""]
    for name, clause in clauses_of("run_new").items():
        lines += [f"**`{name}`.** {CLAUSES[name]}", "", "```rust", *clause, "```", ""]
    lines += ["With detached keys, on a map with the trait `Detaching` (`SlotMap` or `DenseSlotMap`), the clauses of `run_detaching_new` are the same but for these:", "", "```rust"]
    lines += [line for name, clause in clauses_of("run_detaching_new").items() if clause != clauses_of("run_new").get(name) for line in clause]
    lines += ["```", ""]
    for section, (title, text) in SECTIONS.items():
        path = f"crates/slotmap_core/specs/{section}.antt"
        here = [it for it in found if it.path == path and it.name not in LAWS]
        if not here:
            continue
        lines += [f"## {title}", "", f"[`{section}.antt`](../{path}). {text}", ""]
        around = []
        for it in here:
            heads = dedent(it.around) if it.around and it.around != around else []
            around = it.around
            lines += [f"**`{it.name}`.** {sentence(it)}", "", "```text", *heads, *dedent([line for line in it.lines if line.strip()]), "```", ""]
    return "\n".join(lines).rstrip("\n") + "\n"


def main():
    if sys.argv[1:] not in ([], ["--check"]):
        sys.exit("usage: docs/theorem.py [--check]")
    text, old = page(), ""
    if os.path.exists(PAGE):
        with open(PAGE, encoding="utf-8") as file:
            old = file.read()
    if text != old and sys.argv[1:] == ["--check"]:
        print("docs/THEOREM.md is out of date: run docs/theorem.py")
        return 1
    if text != old:
        with open(PAGE, "w", encoding="utf-8") as file:
            file.write(text)
    return 0


if __name__ == "__main__":
    sys.exit(main())
