#!/usr/bin/env python3
"""Builds the pages as a site with a search, in the folder out/site: docs/site.py. It needs mkdocs (`apt-get install mkdocs`).

    docs/site.py            builds it, and fails where the tool warns or a link of the site leads nowhere
    docs/site.py --check    only says which page the order below lacks, or which of it doesn't exist

To read it, type `python3 -m http.server --directory out/site`, and open http://localhost:8000 in a browser.

The pages are copied to out/pages, with their pictures. A source file that a page links to becomes a page with numbered lines.
"""

import html
import html.parser
import json
import os
import re
import shutil
import subprocess
import sys

sys.dont_write_bytecode = True

TOP = os.path.dirname(os.path.dirname(os.path.abspath(__file__)))
OUT = os.path.join(TOP, "out")
PAGES, SITE, TOOLS = (os.path.join(OUT, it) for it in ("pages", "site", "site-tools"))
# The pages in the order in which a reader comes to them: a part, and for each page its name in the list.
ORDER = [
    ("", [("First page", "README.md")]),
    ("Begin", [
        ("A first proof", "docs/FIRST_PROOF.md"),
        ("Calling", "crates/slotmap/CALLING.md"),
        ("Proving callers", "crates/slotmap/PROVING.md"),
        ("Structures", "docs/STRUCTURES.md"),
        ("What differs from Rust's", "docs/DIFFERENCES.md"),
        ("C, C++, Rust and Python", "docs/C.md"),
        ("slotrun", "docs/SLOTRUN.md"),
    ]),
    ("All calls", [
        ("Which map has which call", "docs/API.md"),
        *[(name, f"docs/api/{page}.md") for name, page in (
            ("SlotMap", "slot_map"), ("DenseSlotMap", "dense_slot_map"), ("HopSlotMap", "hop_slot_map"),
            ("SecondaryMap", "secondary_map"), ("SparseSecondaryMap", "sparse_secondary_map"), ("Traits", "traits"),
            ("Keys", "keys"), ("Errors", "errors"), ("Lists of slots and JSON", "lists_and_json"), ("Runs", "runs"),
            ("StableList", "slotmap_list"), ("StableLists", "slotmap_lists"), ("Graph", "slotmap_graph"), ("World", "slotmap_entities"),
            ("Scene", "slotmap_scene"), ("Scheduler", "slotmap_scheduler"), ("Searches of a graph", "slotmap_paths"),
            ("A map with a bound", "slotmap_bounded"), ("Lists of numbers", "slotmap_links"), ("Calls for C", "slotmap_c"),
        )],
    ]),
    ("What is proved", [
        ("Crate by crate", "docs/PROVED.md"),
        ("Definitions", "docs/DEFINITIONS.md"),
        ("The theorem on runs", "docs/THEOREM.md"),
        ("Other proved containers", "docs/RELATED.md"),
    ]),
    ("Time and memory", [("Time and memory", "docs/PERFORMANCE.md")]),
    ("To change it", [
        ("Contributing", "CONTRIBUTING.md"),
        ("Architecture", "docs/ARCHITECTURE.md"),
        ("Decisions", "docs/DECISIONS.md"),
        ("Compared with the Rust crate", "compare/README.md"),
        ("The bench", "compare/bench/README.md"),
        ("Changes", "CHANGELOG.md"),
    ]),
]
# A part of rustdoc, which is a site of its own.
IN_RUSTDOC = ("rust/src/words.md",)
# Pages of packages, which stand beside the packages.
BESIDE = ("c/README.md", "c/python/README.md", "rust/README.md")
LINK = re.compile(r"(!?\[(?:[^\[\]]|\[[^\]]*\])*\]\()([^)\s]+)(\))")
STYLE = """
.wy-nav-content { max-width: 1150px; }
.rst-content table td, .rst-content table th { white-space: normal; vertical-align: top; }
.rst-content table { display: block; overflow-x: auto; max-width: 100%; }
.rst-content table { border-collapse: collapse; margin-bottom: 20px; }
.rst-content table td, .rst-content table th { padding: 5px 9px; border: 1px solid #dcdfe3; text-align: left; font-size: 90%; }
.rst-content table tr:nth-child(even) { background: #f7f8f9; }
.rst-content code { white-space: normal; overflow-wrap: anywhere; }
.rst-content pre code, .rst-content pre { white-space: pre; overflow-x: auto; }
.rst-content img { max-width: 100%; height: auto; }
"""
SLUG = '''"""The anchors of headings as on the pages of a repository: each space becomes a hyphen."""
import re


def slugify(text, separator):
    return re.sub(r"[^\\w\\- ]", "", text.strip().lower()).replace(" ", separator)
'''
SOURCE = """<!DOCTYPE html>
<html lang="en"><head><meta charset="utf-8"><title>{title}</title><style>
body {{ font: 15px sans-serif; margin: 1em }} pre {{ font-size: 13px; line-height: 1.45; overflow-x: auto }}
span:target {{ background: #fff3bf }} a.n {{ color: #888; text-decoration: none; display: inline-block; width: 4em }}
</style></head><body><p><a href="{home}">slotmap</a> / {title}</p>
{body}
</body></html>
"""


def read(path):
    with open(os.path.join(TOP, path), encoding="utf-8") as file:
        return file.read()


def write(path, text):
    os.makedirs(os.path.dirname(path), exist_ok=True)
    with open(path, "w", encoding="utf-8") as file:
        file.write(text)


def tracked():
    listed = subprocess.run(["git", "-C", TOP, "ls-files", "--cached", "--others", "--exclude-standard"], capture_output=True, text=True, check=True)
    return {it for it in listed.stdout.split("\n") if it and os.path.exists(os.path.join(TOP, it))}


def faults_of_order(files):
    listed = [page for _, pages in ORDER for _, page in pages]
    pages = {it for it in files if it.endswith(".md") and it not in (*BESIDE, *IN_RUSTDOC)}
    wrong = [f"docs/site.py: no place for the page {it}" for it in sorted(pages - set(listed))]
    wrong += [f"docs/site.py: no page {it}" for it in sorted(set(listed) - pages)]
    return wrong + [f"docs/site.py: {it} is listed twice" for it in sorted({it for it in listed if listed.count(it) > 1})]


def with_lists(text):
    """A page as the tool reads lists: with a blank line above one, and what stands in an item indented by four."""
    lines, found, inside, in_list = text.split("\n"), [], False, False
    for line in lines:
        if line.startswith("```"):
            inside = not inside
        if inside or line.startswith("```"):
            found.append(line)
            continue
        item = re.match(r"( *)([-*]|\d+\.) ", line)
        in_list = bool(item) or in_list and (not line.strip() or line.startswith(" "))
        if item and found and found[-1].strip() and not in_list_item(found[-1]) and not item.group(1):
            previous = next((it for it in reversed(found) if not it.strip() or in_list_item(it)), "")
            if not in_list_item(previous):
                found.append("")
        if in_list and line.startswith("  "):
            depth = len(line) - len(line.lstrip(" "))
            line = " " * (4 * ((depth + 1) // 2)) + line.lstrip(" ")
        if line.startswith("|"):
            line = re.sub(r"`[^`]*`", lambda it: it.group(0).replace("\\|", "|"), line)
        found.append(line)
    return "\n".join(found)


def in_list_item(line):
    return re.match(r" *([-*]|\d+\.) ", line) is not None


class Copy:
    """The copy of the pages, in which links to sources lead to pages with numbered lines."""

    def __init__(self, files):
        self.files, self.made = files, set()

    def target_of(self, page, target):
        if re.match(r"\w+:|#", target):
            return target
        path, _, anchor = target.partition("#")
        whole = os.path.normpath(os.path.join(os.path.dirname(page), path))
        if whole.endswith((".md", ".svg")) and whole not in BESIDE:
            if whole.endswith(".svg"):
                write_bytes(whole)
            return target
        if os.path.isdir(os.path.join(TOP, whole)):
            self.make_folder(whole)
            return path.rstrip("/") + "/files.html"
        self.make_source(whole)
        return path + ".html" + (f"#{anchor}" if anchor else "")

    def make_source(self, path):
        if path in self.made:
            return
        self.made.add(path)
        lines = html.escape(read(path).rstrip("\n")).split("\n")
        body = "\n".join(f'<span id="L{at}"><a class="n" href="#L{at}">{at}</a>{line}</span>' for at, line in enumerate(lines, 1))
        self.write_page(path + ".html", path, f"<pre>{body}</pre>")

    def make_folder(self, path):
        if path in self.made:
            return
        self.made.add(path)
        below = sorted(it for it in self.files if it.startswith(path + "/") and is_text(it) and not it.endswith(".md"))
        for it in below:
            self.make_source(it)
        items = "\n".join(f'<li><a href="{it[len(path) + 1:]}.html">{it[len(path) + 1:]}</a></li>' for it in below)
        self.write_page(path + "/files.html", path, f"<ul>{items}</ul>")

    def write_page(self, path, title, body):
        home = "../" * path.count("/") + "index.html"
        write(os.path.join(PAGES, path), SOURCE.format(title=html.escape(title), home=home, body=body))

    def copy(self, page):
        parts = re.split(r"(^```.*?^```$)", read(page), flags=re.S | re.M)
        for at in range(0, len(parts), 2):
            parts[at] = LINK.sub(lambda it: it.group(1) + self.target_of(page, it.group(2)) + it.group(3), parts[at])
        write(os.path.join(PAGES, page), with_lists("".join(parts)))


def write_bytes(path):
    os.makedirs(os.path.dirname(os.path.join(PAGES, path)), exist_ok=True)
    shutil.copy(os.path.join(TOP, path), os.path.join(PAGES, path))


def is_text(path):
    try:
        read(path)
        return True
    except UnicodeDecodeError:
        return False


def settings():
    """The settings of the tool."""
    nav = []
    for title, pages in ORDER:
        listed = [{name: page} for name, page in pages]
        nav += [{title: listed}] if len(listed) > 1 else listed
    return "\n".join([
        "site_name: slotmap",
        f"docs_dir: {json.dumps(PAGES)}",
        f"site_dir: {json.dumps(SITE)}",
        "use_directory_urls: false",
        "theme: {name: readthedocs, navigation_depth: 3, highlightjs: false}",
        "plugins: [{search: {separator: '[\\s\\-:.,/()<>&`]+', min_search_length: 2}}]",
        "extra_css: [site.css]",
        "markdown_extensions:",
        "  - tables",
        "  - fenced_code",
        "  - toc:",
        "      slugify: !!python/name:site_slug.slugify",
        "      toc_depth: 2-3",
        f"nav: {json.dumps(nav)}",
        "",
    ])


def build(files):
    for folder in (PAGES, SITE, TOOLS):
        shutil.rmtree(folder, ignore_errors=True)
    copy = Copy(files)
    for _, pages in ORDER:
        for _, page in pages:
            copy.copy(page)
    write(os.path.join(PAGES, "site.css"), STYLE)
    write(os.path.join(TOOLS, "site_slug.py"), SLUG)
    write(os.path.join(TOOLS, "mkdocs.yml"), settings())
    command = ["mkdocs", "build", "--strict", "--quiet", "--config-file", os.path.join(TOOLS, "mkdocs.yml")]
    if subprocess.run(command, env={**os.environ, "PYTHONPATH": TOOLS}, check=False).returncode:
        sys.exit("docs/site.py: the tool warns")
    complete_theme()
    let_search_read_paths()


def complete_theme():
    """Debian's package of the theme lacks two files that its pages name: one has another name there, the other adds nothing here."""
    folder = os.path.join(SITE, "js")
    wanted = os.path.join(folder, "jquery-3.6.0.min.js")
    others = sorted(it for it in os.listdir(folder) if it.startswith("jquery-"))
    if not os.path.exists(wanted) and others:
        shutil.copy(os.path.join(folder, others[-1]), wanted)
    if not os.path.exists(os.path.join(folder, "theme_extra.js")):
        write(os.path.join(folder, "theme_extra.js"), "// Nothing is needed.\n")


def let_search_read_paths():
    """In a search a colon would name a field: `DenseSlotMap::retain` is to be two words."""
    for name in ("main.js", "worker.js"):
        path = os.path.join(SITE, "search", name)
        with open(path, encoding="utf-8") as file:
            text = file.read()
        if "index.search(query)" in text:
            write(path, text.replace("index.search(query)", 'index.search(query.replace(/[:~^]+/g, " "))'))
        elif name == "worker.js":
            sys.exit("docs/site.py: the tool searches in another way")


class Links(html.parser.HTMLParser):
    """The links of a page of the site, and its anchors."""

    def __init__(self, path):
        super().__init__()
        self.links, self.anchors = [], set()
        with open(path, encoding="utf-8") as file:
            self.feed(file.read())

    def handle_starttag(self, tag, attrs):
        for name, value in attrs:
            if name in ("href", "src") and value:
                self.links.append(value)
            if name in ("id", "name") and value:
                self.anchors.add(value)


def faults_of_links():
    pages = {}
    for folder, _, names in os.walk(SITE):
        for name in names:
            if name.endswith(".html"):
                path = os.path.join(folder, name)
                pages[path] = Links(path)
    wrong, count = [], 0
    for path, page in pages.items():
        for link in page.links:
            if re.match(r"\w+:|//", link) or path.endswith(("404.html", "search.html")):
                continue
            count += 1
            name, _, anchor = link.partition("#")
            target = os.path.normpath(os.path.join(os.path.dirname(path), name)) if name else path
            if not os.path.exists(target):
                wrong.append(f"{os.path.relpath(path, SITE)}: {link}: no such file")
            elif anchor and target in pages and anchor not in pages[target].anchors:
                wrong.append(f"{os.path.relpath(path, SITE)}: {link}: no such anchor")
    return wrong, count


def main():
    if sys.argv[1:] not in ([], ["--check"]):
        sys.exit("usage: docs/site.py [--check]")
    files = tracked()
    wrong = faults_of_order(files)
    if not wrong and not sys.argv[1:]:
        build(files)
        wrong, count = faults_of_links()
        print(f"out/site: {count} links, {len(wrong)} faults")
    print("\n".join(wrong), end="\n" if wrong else "")
    return 1 if wrong else 0


if __name__ == "__main__":
    sys.exit(main())
