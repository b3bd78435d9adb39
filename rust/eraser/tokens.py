"""A source as tokens, and the changes made to them.

A token is a pair of its kind and its text, and knows its line. The kinds: space, comment, string, char, lifetime, word,
number and mark as in Rust; `clause` is a whole `requires` or `ensures`, `ghost` a whole ghost item. What stands in the
braces of these two is antt, not Rust: a quote is a letter there, and `--` begins a comment.
"""
import re

TOKEN = re.compile(r"""
    (?P<space>\s+)
    |(?P<comment>//[^\n]*)
    |(?P<block>/\*)
    |(?P<string>b?r(?P<fence>\#*)".*?"(?P=fence)|b?"(?:\\.|[^"\\])*")
    |(?P<strange>r\#|[cr]"|'''|b'')
    |(?P<char>b?'(?:\\(?:x[0-9a-fA-F]{2}|u\{[^}]*\}|.)|[^'\\\n])')
    |(?P<lifetime>'\w+)
    |(?P<word>[^\W\d]\w*)
    |(?P<number>\d\w*(?:\.\d\w*)?)
    |(?P<mark>::|->|=>|\.\.|[,():.{}<>;&=\[\]?\#!+*|$%/^-])
    """, re.X | re.S)
CLAUSES = ("ensures", "requires")
CLAUSE = re.compile(r"(?P<star>\*?)\s*(?P<name>\w*)\s*\{")
GHOST_USE = re.compile(r"\s+use\b")
GHOST_MEMBER = re.compile(r"\s+(?P<name>\w+)\s*(?=[:=])")
PAST_GHOST = re.compile(r"\s*(?:[:=]\s*)?")
ANTT = re.compile(r"--[^\n]*|[{}\"]|[^{}\"-]+|-")
OPEN, CLOSE = {"{": "}", "(": ")", "[": "]"}, ("}", ")", "]")


class Bad(Exception):
    """What the eraser doesn't know, with the line it stands in."""

    def __init__(self, why, line=None):
        super().__init__(why)
        self.line = line


class Token(tuple):
    """A pair of kind and text that knows its line. What a clause or a ghost item is called is its name."""

    name = ""

    def __new__(cls, kind, text, line, name=""):
        made = tuple.__new__(cls, (kind, text))
        made.line = line
        if name:
            made.name = name
        return made


def antt_end(text, at, line):
    """The place after the brace that closes the one at `at`, in antt."""
    depth = 0
    while at < len(text):
        found = ANTT.match(text, at).group()
        if found == '"':
            raise Bad("a quote in a clause", line)
        depth += {"{": 1, "}": -1}.get(found, 0)
        at += len(found)
        if depth == 0:
            return at
    raise Bad("a brace of a clause isn't closed", line)


def clause_at(text, at, word, line):
    """The token of a clause whose first word ends at `at`."""
    head = CLAUSE.match(text, at)
    if not head:
        raise Bad(f"{word} without braces", line)
    end = antt_end(text, head.end() - 1, line)
    name = head["name"]
    said = f"{word}{head['star']} {name}{' ' if name else ''}{text[head.end() - 1:end]}"
    return Token("clause", said, line, name), end


def ghost_at(text, at, line):
    """The token of a ghost item whose first word ends at `at`: an import, a member of a trait or a field."""
    start = at
    if GHOST_USE.match(text, at):
        end = text.find(";", at) + 1
        if not end or re.search(r"\b(?:fn|let|impl)\b|\"", text[at:end]):
            raise Bad("ghost use has no end", line)
        return Token("ghost", text[start:end], line), end
    member = GHOST_MEMBER.match(text, at)
    if not member:
        raise Bad(f"ghost {(re.findall(r'[^ ]+', text[at:at + 40]) or [''])[0]}", line)
    at = member.end()
    while True:
        at = PAST_GHOST.match(text, at).end()
        if text[at:at + 1] == "{":
            at = antt_end(text, at, line)
        elif text[at:at + 1] in (";", ","):
            return Token("ghost", text[start:at + 1], line, member["name"]), at + 1
        else:
            raise Bad(f"ghost {member['name']} goes on with {text[at:at + 20]!r}", line)


def block_end(text, at, line):
    """The place after a comment between /* and */, which may have others in it."""
    depth = 0
    for found in re.finditer(r"/\*|\*/", text[at:]):
        depth += 1 if found.group() == "/*" else -1
        if depth == 0:
            return at + found.end()
    raise Bad("a comment isn't closed", line)


def tokens(text):
    """A source as a list of tokens."""
    out, at, line = [], 0, 1
    while at < len(text):
        found = TOKEN.match(text, at)
        kind, word, end = (found.lastgroup, found.group(), found.end()) if found else ("mark", text[at], at + 1)
        if kind == "strange" or not found:
            raise Bad(f"{text[at:at + 12].split()[0]} is a form that the eraser doesn't know", line)
        if word in CLAUSES:
            token, end = clause_at(text, end, word, line)
        elif word == "ghost":
            token, end = ghost_at(text, end, line)
        elif kind == "block":
            end = block_end(text, at, line)
            token = Token("comment", text[at:end], line)
        else:
            token = Token(kind, word, line)
        out.append(token)
        line += text.count("\n", at, end)
        at = end
    return out


def text_of(source):
    """The text of tokens."""
    return "".join(x[1] for x in source)


def plain(source):
    """The text of tokens without comments, clauses and ghost items, each space a single one."""
    words = [x[1] for x in source if x[0] not in ("comment", "clause", "ghost")]
    return re.sub(r"\s+", " ", "".join(words)).strip()


def is_blank(token):
    """Whether a token is a space or a comment."""
    return token[0] in ("space", "comment")


def after_space(source, at):
    """The place of the next token from `at` on that is neither a space nor a comment."""
    while at < len(source) and is_blank(source[at]):
        at += 1
    return at


def before_space(source, at):
    """The place of the last token before `at` that is neither a space nor a comment, or -1."""
    at -= 1
    while at >= 0 and is_blank(source[at]):
        at -= 1
    return at


def matching(source, at):
    """The place after the bracket that closes the one at `at`."""
    depth = 0
    for place in range(at, len(source)):
        kind, word = source[place]
        if kind == "mark":
            depth += (word in OPEN) - (word in CLOSE)
        if depth == 0:
            return place + 1
    raise Bad("a bracket isn't closed", source[at].line)


class Edits:
    """Changes to a list of tokens: each place has its new text."""

    def __init__(self, source):
        self.source = source
        self.text = [x[1] for x in source]
        self.gone = bytearray(len(source))

    def drop(self, start, end):
        """Takes tokens out. What is out stays out."""
        for place in range(start, end):
            self.text[place] = ""
            self.gone[place] = 1

    def drop_line(self, start, end):
        """Takes tokens out, with the line break and the indentation that lead to them."""
        self.drop(start, end)
        if start and self.source[start - 1][0] == "space":
            kept, broken, _ = self.text[start - 1].rpartition("\n")
            self.text[start - 1] = kept if broken else ""

    def drop_space_after_start(self, start, end):
        """Takes the line break out that follows what began a file."""
        if not any(self.text[:start]) and end < len(self.source) and self.source[end][0] == "space":
            self.drop(end, end + 1)

    def put(self, place, text):
        """Puts text in a token's place."""
        if not self.gone[place]:
            self.text[place] = text

    def put_before(self, place, text):
        """Puts text before a token."""
        self.put(place, text + self.text[place])

    def put_after(self, place, text):
        """Puts text behind a token."""
        self.put(place, self.text[place] + text)

    def result(self):
        """The new text. Where something went, no line ends in a space and no two empty lines are left."""
        out, spaces = [], ""
        for (kind, old), new in zip(self.source, self.text):
            if kind == "space" or not new:
                spaces += new
                continue
            out.append(self.tidy(spaces, out[-1] if out else "", new))
            out.append(new)
            spaces = ""
        return "".join(out).rstrip("\n") + "\n"

    @staticmethod
    def tidy(spaces, before, after):
        """The white space between two texts."""
        breaks = spaces.count("\n")
        if not breaks:
            return spaces
        if breaks > 2 or breaks > 1 and (before.endswith("{") or after.startswith("}")):
            breaks = 1 if before.endswith("{") or after.startswith("}") else 2
        return "\n" * breaks + spaces.rpartition("\n")[2]
