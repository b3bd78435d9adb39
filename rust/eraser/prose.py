"""What a doc comment of a source says that isn't so in Rust: the sentences are changed, and the paragraph is wrapped anew.

In the sources a call may ask its caller for a proof, and `Rust` stands for the Rust crate slotmap. In Rust such a call tests what it asks
for (requires.py), and its reader has Rust before him.
"""
import re
import textwrap

WIDTH = 104
# A sentence, and what stands in its place. The last one comes last: no sentence behind it names Rust any more.
SENTENCES = [(re.compile(old), new) for old, new in [
    (r", without checking its version\.", "."),
    (r"The contract requires that the key is live\. So this call is safe; Rust's is `unsafe`\.",
     "It looks the key up, and panics if it isn't live. So this call is safe; slotmap's is `unsafe`."),
    (r"The contract requires that the key is live; in Rust any other key panics\.", "It looks the key up, and panics if it isn't live."),
    (r"The contract requires that the keys are live and not equal\. So this call is safe; Rust's is `unsafe`\.",
     "It panics if a key isn't live, or if the two are equal. So this call is safe; slotmap's is `unsafe`."),
    (r"The caller has to prove that the key is in the map\. So the call is safe, where Rust's is `unsafe`\.",
     "It looks the key up, and panics if it isn't in the map. So the call is safe, where slotmap's is `unsafe`."),
    (r"The caller has to prove that the key is in the map; Rust panics if it isn't\.",
     "It looks the key up, and panics if it isn't in the map."),
    (r" It looks the key up, as Rust's does\.", ""),
    (r", and compares no versions\.", "."),
    (r"The caller has to prove that `f` may be called", "In Rattle the caller proves that `f` may be called"),
    (r"To make a key type, copy `crates/slotmap_list/src/cursor\.rt`, whose imports are those of a crate above\. Rust has the macro "
     r"`new_key_type!` for it\.", "The macro `new_key_type!` makes such types."),
    # Rattle's hash map keeps its pairs side by side.
    (r"Each step takes constant time\. Dropping it takes time linear in the capacity\.",
     "Each step looks for the first pair of std's hash map, in time linear in the capacity. The drain of the map under slotmap's names "
     "walks over that map once."),
    (r"\bRust\b", "slotmap"),
]]
PROSE = re.compile(r"(\s*//[/!] )(?!```|[-*|#\s]|\d+\.)(\S.*)")
DOC = re.compile(r"\s*//[/!]")


def changed(paragraph):
    """A paragraph with what is so in Rust."""
    if "In Rattle" in paragraph or "in Rattle" in paragraph: return paragraph
    for old, new in SENTENCES: paragraph = old.sub(new, paragraph)
    return paragraph


def rewritten(lines, mark):
    """The lines of a paragraph, wrapped anew if it is changed."""
    paragraph = " ".join(lines)
    after = changed(paragraph)
    if after == paragraph: return [mark + line for line in lines]
    margin = len(mark) - len(mark.lstrip())
    wrapped = textwrap.wrap(after, WIDTH - margin - 4, break_long_words=False, break_on_hyphens=False)
    return [mark + line for line in wrapped]


def in_rust(text):
    """The text of a file with its doc comments as they are so in Rust. Examples stay, and lines of lists and tables aren't wrapped anew."""
    out, lines, mark, in_example = [], [], "", False
    for line in [*text.split("\n"), ""]:
        found = PROSE.fullmatch(line)
        if line.lstrip()[4:7] == "```": in_example = not in_example
        if found and not in_example and found[1] == (mark or found[1]):
            mark = found[1]
            lines.append(found[2])
            continue
        out += rewritten(lines, mark) if lines else []
        lines, mark = [], ""
        if found and not in_example:
            mark, lines = found[1], [found[2]]
        else:
            out.append(changed(line) if DOC.match(line) and not in_example else line)
    return "\n".join(out[:-1])
