"""The items of a source: functions, impls, traits, types and the rest, each with its attributes. What else stands there is an error."""
from .tokens import Bad, after_space, before_space, is_blank, matching, plain

VISIBILITY_PLACES = ("crate", "super")
# Items that end at a semicolon, items whose braces hold items, and types, which end at either.
FLAT = ("use", "const", "type")
HOLDERS = ("impl", "trait", "mod")
TYPES = ("struct", "enum")


class Item:
    """An item: where its parts stand in the tokens, and in what item it stands."""

    def __init__(self, kind, owner, attributes, start, at):
        self.kind, self.owner, self.attributes = kind, owner, attributes
        self.start = start  # the first token behind the attributes
        self.at = at  # the token of its kind
        self.name = ""
        self.header_end = None  # the place of `{` or `;`
        self.end = None  # the place behind it
        self.public = False
        self.restricted = False  # pub(crate) or pub(super)
        self.ghosts = []  # the places of its ghost items
        self.clauses = []  # the places of its clauses

    @property
    def whole(self):
        """The first token, attributes included."""
        return self.attributes[0].start if self.attributes else self.start

    @property
    def has_body(self):
        """Whether braces follow the header."""
        return self.end - self.header_end > 1

    def header(self, source):
        """The text of the header."""
        return plain(source[self.start:self.header_end])


class Attribute:
    """An attribute: its name, what its brackets hold, and its place."""

    def __init__(self, source, at):
        self.start = at
        opened = after_space(source, at + 1)
        if source[opened] != ("mark", "["):
            raise Bad("# without [", source[at].line)
        self.end = matching(source, opened)
        self.inside = plain(source[opened + 1:self.end - 1])
        self.name = source[after_space(source, opened + 1)][1]
        self.argument = self.inside[len(self.name):].strip().removeprefix("(").removesuffix(")").strip()
        self.line = source[at].line


class Reader:
    """Reads the items of a file."""

    def __init__(self, source, macros):
        self.source, self.macros = source, macros
        self.items = []
        self.file_attributes = []

    def read(self):
        """All items, each after the one that holds it."""
        at = after_space(self.source, 0)
        while self.word(at) == "#" and self.word(at + 1) == "!":
            attribute = Attribute(self.source, at + 1)
            attribute.start = at
            self.file_attributes.append(attribute)
            at = after_space(self.source, attribute.end)
        self.read_between(at, len(self.source), None)
        return self.items

    def word(self, at):
        """The text of a token, or nothing past the end."""
        return self.source[at][1] if at < len(self.source) else ""

    def read_between(self, at, end, owner):
        """The items between two places."""
        at = after_space(self.source, at)
        while at < end:
            at = after_space(self.source, self.read_one(at, owner))

    def read_one(self, at, owner):
        """One item; returns the place behind it."""
        attributes = []
        while self.source[at] == ("mark", "#"):
            attributes.append(Attribute(self.source, at))
            at = after_space(self.source, attributes[-1].end)
        if self.is_ghost(at):
            return self.read_ghost(at, owner, attributes)
        if self.word(at) in self.macros and self.word(at) != "macro_rules" and self.word(at + 1) == "!":
            return self.read_macro_call(at)
        item = Item("", owner, attributes, at, at)
        item.at = self.read_visibility(item)
        if self.word(item.at) == "const" and self.word(after_space(self.source, item.at + 1)) == "fn":
            item.at = after_space(self.source, item.at + 1)
        item.kind = self.word(item.at)
        self.read_parts(item)
        return item.end

    def is_ghost(self, at):
        """Whether a ghost item stands here, public or not."""
        return self.source[at][0] == "ghost" or self.word(at) == "pub" and self.source[after_space(self.source, at + 1)][0] == "ghost"

    def read_ghost(self, at, owner, attributes):
        """A ghost item belongs to the item that it stands in."""
        if attributes:
            raise Bad("an attribute of a ghost item", self.source[at].line)
        place = at if self.source[at][0] == "ghost" else after_space(self.source, at + 1)
        if owner:
            owner.ghosts.append(place)
        return place + 1

    def read_visibility(self, item):
        """Reads `pub`, if it is there; returns the place behind it."""
        at = item.start
        if self.word(at) != "pub":
            return at
        if self.word(at + 1) != "(":
            item.public = True
            return after_space(self.source, at + 1)
        if self.word(at + 2) not in VISIBILITY_PLACES or self.word(at + 3) != ")":
            raise Bad(f"pub({self.word(at + 2)}", self.source[at].line)
        item.restricted = True
        return after_space(self.source, at + 4)

    def read_parts(self, item):
        """Reads an item from its kind on."""
        kind, line = item.kind, self.source[item.start].line
        if kind == "macro_rules" and kind in self.macros:
            item.header_end = self.find(item.at, "{")
        elif kind in FLAT:
            item.header_end = self.find_end(item.at)
        elif kind in HOLDERS or kind in TYPES or kind == "fn":
            item.header_end = self.find(item.at, "{", ";")
        else:
            raise Bad(f"{kind} begins no item that the eraser knows", line)
        item.name = "" if kind == "impl" else self.word(after_space(self.source, item.at + 1 + (kind == "macro_rules")))
        braced = self.word(item.header_end) == "{"
        item.end = matching(self.source, item.header_end) if braced else item.header_end + 1
        item.clauses = [at for at in range(item.start, item.header_end) if self.source[at][0] == "clause"]
        if item.clauses and kind != "fn":
            raise Bad(f"a clause of {kind} {item.name}", line)
        self.items.append(item)
        if braced and kind in HOLDERS:
            self.read_between(item.header_end + 1, item.end - 1, item)
        elif braced and kind == "struct":
            self.read_fields(item)

    def read_fields(self, item):
        """The ghost fields of a type: what they say must hold of it, so no other field may be public."""
        inside = range(item.header_end + 1, item.end - 1)
        item.ghosts = [at for at in inside if self.source[at][0] == "ghost"]
        ghosts_named = [before_space(self.source, at) for at in item.ghosts]
        public = [at for at in inside if self.source[at] == ("word", "pub") and at not in ghosts_named]
        if item.ghosts and public:
            raise Bad(f"{item.name} has a ghost field beside a public one, which anyone may write", self.source[item.start].line)

    def read_macro_call(self, at):
        """A macro that writes impls."""
        opened = after_space(self.source, at + 2)
        end = matching(self.source, opened)
        return end + 1 if self.word(end) == ";" else end

    def find(self, at, *marks):
        """The next of some marks that stands in no bracket."""
        while at < len(self.source):
            if self.source[at][0] == "mark" and self.source[at][1] in marks:
                return at
            at = matching(self.source, at) if self.source[at] in (("mark", "("), ("mark", "[")) else at + 1
        raise Bad("an item has no end")

    def find_end(self, at):
        """The next semicolon that stands in no bracket."""
        while at < len(self.source) and self.source[at] != ("mark", ";"):
            at = matching(self.source, at) if self.source[at][0] == "mark" and self.source[at][1] in "([{" else at + 1
        if at == len(self.source):
            raise Bad("an item has no semicolon")
        return at


def signature_clauses(source, item):
    """The clauses of a function in their order, each after the comments that stand before it."""
    found = []
    for at in item.clauses:
        said, place = [], at - 1
        while place > item.at and (is_blank(source[place])):
            if source[place][0] == "comment":
                said.insert(0, place)
            place -= 1
        found += said + [at]
    return found
