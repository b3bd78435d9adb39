"""What becomes of a `requires`. Rattle proves it of each caller; in Rust nobody does.

So each one of a call that users can reach is in a table here: it is tested where the call begins (TESTED), or the call is
kept to the crate (KEPT), or no Rust program can break it (HELD). Any other one is an error. The premises of a trait of
Rattle's std that stand in an impl as ghost members, such as `can_index`, are in the tables too.

    python3 rust/erase.py --requires

prints each call with what becomes of its premises.
"""
import re

from .contracts import indentation
from .sealed import BELOW_SEALED, SEALED
from .tokens import Bad

# Crates that are never exported: what they have `pub` with a premise is kept to the package.
NEVER_EXPORTED = {"slotmap_slots", "slotmap_links", "slotmap_bounded"}
# A call of an exported crate that is for the maps alone.
KEPT = {("slotmap_core", "KeyData", "exact")}
# A value of such a crate may be lent to users, and its methods with it; a function has no other way out than its module.
KEPT_METHOD, KEPT_FUNCTION = "pub(crate)", "its module is private"

KEY = r"\(K\.data_of key\)"
CURSOR = r"\(K\.data_of cursor\)"
PRIMARY, SIDE = "slotmap_basic slotmap_dense slotmap_hop", "slotmap_secondary slotmap_sparse"
NOT_LIVE = "the key is not live"
NO_VALUE = "the map holds no value under the key"
# (crates, premise, test, reason): the test is the first statement of the body, and panics with the reason.
TESTED = [
    (PRIMARY, rf"IsLive self\.(?:now|old)(?:\.content)? {KEY}", "self.contains_key(key)", NOT_LIVE),
    (PRIMARY, rf"λ m key\. IsLive m(?:\.content)? {KEY}", "self.contains_key(key)", NOT_LIVE),
    (SIDE, rf"contains_key self\.(?:now|old)\.pairs {KEY} ≡ true", "self.contains_key(key)", NO_VALUE),
    (SIDE, rf"λ m key\. contains_key m\.pairs {KEY} ≡ true", "self.contains_key(key)", NO_VALUE),
    ("slotmap_dense", r"CanReplace value_of self\.old \(map_list K\.data_of keys\)",
     "self.can_replace(&keys)", "a key is not live, or two keys are equal"),
    ("slotmap_list", rf"λ list cursor\. is_some \(value_of {CURSOR} list\.elements\) ≡ true",
     "self.contains(cursor)", "the cursor is not in the list"),
    ("slotmap_lists", rf"λ lists cursor\. is_some \(value_under {CURSOR} lists\.lists\) ≡ true",
     "self.contains(cursor)", "the cursor is in no list"),
    ("slotmap_graph", r"λ graph node\. IsLive graph\.nodes \(K\.data_of node\)",
     "self.contains_node(node)", "the node is not in the graph"),
    ("slotmap_scene", r"λ scene node\. has_node scene\.nodes\.live \(K\.data_of node\)",
     "self.contains_key(node)", "the node is not in the scene"),
    ("slotmap_entities", rf"λ world key\. IsLive world\.entities\.content {KEY}",
     "self.contains_key(key)", "the entity is not in the world"),
    ("slotmap_scheduler", r"λ s handle\. is_some \(job_of \(K\.data_of handle\) s\.waiting\) ≡ true",
     "self.contains(handle)", "no job waits under the handle"),
]

RETURNS = "A closure of Rust may be called with any argument of its type: it returns, or it panics."
ENDS = ("An iterator of Rust may be asked for the next item at any time. One that doesn't end doesn't let the call end, or fills the map; "
        "all items so far are then where the call's `ensures` has them.")
IN_PLACE = ("Only `entry` of the map makes an entry, its fields are private, and it borrows the map: so it is in its place until it is "
            "used up.")
STEPS = "Only the map makes such an iterator, its fields are private, and each step leaves it so that it can make the next."
CONTENT = r"(?:self\.old(?:\.content)?|\(content self\.old\))"
# (premise, why no Rust program can break it)
HELD = [
    (r"[A-Z]\.pre f(?: self\.0| \(\w+ self\))?", RETURNS),
    (rf"used {CONTENT} < most → \(key : K\) → K\.data_of key ≡ {CONTENT}\.offer → F\.pre f key", RETURNS),
    (r"CallableOnEach F\.FnMut K\.data_of f (?:self\.old(?:\.content)?\.live|\(content self\.old\)\.live|\(keyed [^→≡<]*\))", RETURNS),
    (r"CallableInOrder F\.FnMut K\.data_of f self\.old\.elements", RETURNS),
    (r"CallableOnJobs F\.FnMut K\.data_of f self\.old\.waiting", RETURNS),
    (r"CallableUp F\.FnMut self\.now\.nodes\.live \(K\.data_of node\) f start", RETURNS),
    (r"[A-Z]\.IsAlwaysCallable \w+(?:\.now)?", RETURNS),
    (r"\(shown : MutBor V\) → (?:side|sparse)_entry_value K\.data_of self ≡ Some shown\.now → F\.pre f shown", RETURNS),
    (r"(?:side|sparse)_entry_value K\.data_of self ≡ None → F\.pre f", RETURNS),
    (r"\(it : I\.IntoIter\) → I\.into_iter_gives iter it → I\.IntoIter\.can_next it × IsFinite \(I\.IntoIter\.remaining it\)", ENDS),
    (r"(?:IsSideInPlace|IsSparseInPlace) K\.data_of (?:self|\((?:Vacant|Occupied) self(?:\.now|\.old)?\))", IN_PLACE),
    (r"DrainCanStep|SideDrainCanStep|IterMutCanStep|HopDrainCanStep K\.data_of", STEPS),
]
TERM = re.compile(r"^(?:requires\*? ?\w* ?|[^{]*?[:=] *)\{(.*)\}[;,]?$", re.S)


class Premise:
    """One premise of a call: where it stands, and what becomes of it."""

    def __init__(self, token, call):
        self.line, self.call = token.line, call
        self.term = re.sub(r"\s+", " ", TERM.match(token[1])[1]).strip()
        self.name = token.name
        self.way = self.said = ""

    def refuse(self):
        """There is no table for it."""
        raise Bad(f"nothing tests what {self.call} asks for: {self.term}", self.line)


class Types:
    """Which types and traits of a crate are public."""

    def __init__(self, files):
        self.public = {}
        for file in files:
            for item in file.items:
                if item.kind in ("struct", "enum", "trait"):
                    self.public[item.name] = item.public or self.public.get(item.name, False)

    def is_public(self, name):
        """Whether a type can be reached by users; one of another crate is taken for public."""
        return self.public.get(name, True)


def without_generics(text):
    """A header with no angle brackets and what stands in them."""
    while re.search(r"<[^<>]*>", text.replace("->", "")):
        text = re.sub(r"<[^<>]*>", "", text.replace("->", ""))
    return text


def owner_of(source, item):
    """The trait and the type that a function stands in."""
    if not item.owner or item.owner.kind == "mod":
        return "", ""
    if item.owner.kind == "trait":
        return item.owner.name, ""
    header = without_generics(item.owner.header(source)).split(" where ")[0].removeprefix("impl")
    trait, _, kind = header.rpartition(" for ")
    words = [re.findall(r"\w+", part) for part in (trait, re.sub(r"'\w+|\bmut\b", "", kind))]
    return tuple(found[-1] if found else "" for found in words)


def is_reachable(source, item, types):
    """Whether users may call a function."""
    trait, kind = owner_of(source, item)
    if not types.is_public(trait) or not types.is_public(kind):
        return False
    return bool(trait) or item.public


def premises_of(source, item, call):
    """The premises of a function: its clauses, and those of Rattle's std in the impl that it stands in."""
    found = [Premise(source[at], call) for at in item.clauses if source[at][1].startswith("requires")]
    members = item.owner.ghosts if item.owner else []
    return found + [Premise(source[at], call) for at in members if source[at].name == f"can_{item.name}"]


def handled(file, types):
    """The premises of each function of a file that users can reach, with what becomes of them."""
    source, calls = file.tokens, []
    refuse_unknown_members(source, file.items)
    for item in file.items:
        if item.kind != "fn" or not is_reachable(source, item, types):
            continue
        trait, kind = owner_of(source, item)
        call = "::".join(filter(None, [file.crate, kind or trait, item.name]))
        premises = premises_of(source, item, call)
        for premise in premises:
            handle(premise, file, item, trait, kind)
        if premises:
            calls.append((item, premises))
    return calls


def refuse_unknown_members(source, items):
    """A ghost member that is a premise belongs to a function beside it."""
    for owner in items:
        names = {f"can_{it.name}" for it in items if it.owner is owner and it.kind == "fn"}
        for at in owner.ghosts:
            if owner.kind == "impl" and source[at].name.startswith("can_") and source[at].name not in names:
                raise Bad(f"{source[at].name} is no premise of a function here", source[at].line)


def handle(premise, file, item, trait, kind):
    """Finds what becomes of a premise."""
    for crates, pattern, test, reason in TESTED:
        if file.crate in crates.split() and re.fullmatch(pattern, premise.term) and item.has_body:
            premise.way, premise.said = "tested", f'assert!({test}, "{reason}");'
            return
    for pattern, reason in HELD:
        if re.fullmatch(pattern, premise.term):
            premise.way, premise.said = "held", reason
            return
    is_kept = file.crate in NEVER_EXPORTED or (file.crate, kind, item.name) in KEPT
    if trait in SEALED or trait in BELOW_SEALED and file.crate in NEVER_EXPORTED:
        premise.way, premise.said = "kept", f"{trait} is sealed, and no user can name it"
    elif is_kept and item.public:
        premise.way, premise.said = "kept", KEPT_METHOD if kind else KEPT_FUNCTION
    else:
        premise.refuse()


EXPORT = re.compile(rf"\bpub use [^;]*\b({'|'.join(sorted(NEVER_EXPORTED))})\b")


def refuse_export(text, line=None):
    """Refuses an export of what a crate has that is never exported."""
    found = EXPORT.search(text)
    if found:
        raise Bad(f"{found[1]} is never exported", line)


def guard(file, types, edits):
    """Writes the tests, and keeps calls to the crate."""
    for item in file.items:
        if item.kind == "use" and item.public and file.crate not in NEVER_EXPORTED:
            refuse_export(item.header(file.tokens), file.tokens[item.start].line)
    for item, premises in handled(file, types):
        tests = dict.fromkeys(it.said for it in premises if it.way == "tested")
        margin = "\n" + indentation(file.tokens, item.whole) + "    "
        if tests:
            edits.put_after(item.header_end, "".join(margin + test for test in tests))
        if any(it.said == KEPT_METHOD for it in premises):
            edits.put(item.start, "pub(crate)")
