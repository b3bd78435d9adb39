"""What is erased: the libraries of the package, the programs of its tests, and what the eraser does to single files."""
import hashlib
import os
import re

from .closed import MACROS, MACROS_OF_PROGRAMS, refuse_unknown
from .items import Reader
from .tokens import Bad, tokens

TOP = os.path.dirname(os.path.dirname(os.path.dirname(os.path.abspath(__file__))))
CRATES = os.path.join(TOP, "crates")
# Libraries, each after those that it stands on, with the feature of the package that it needs.
LIBRARIES = {
    "slotmap_core": "", "slotmap_slots": "", "slotmap_basic": "", "slotmap_dense": "", "slotmap_hop": "", "slotmap_secondary": "",
    "slotmap_sparse": "std", "slotmap_run": "runs", "slotmap_json": "json", "slotmap": "", "slotmap_links": "structures",
    "slotmap_bounded": "structures", "slotmap_list": "structures", "slotmap_lists": "structures", "slotmap_graph": "structures",
    "slotmap_paths": "structures", "slotmap_scene": "structures", "slotmap_entities": "structures", "slotmap_scheduler": "structures",
}
# Programs that must print what the proved ones print, and the libraries that only they use.
PROGRAMS = ("slotmap_rows", "primary_rows", "secondary_rows", "joined_rows", "slotmap_script", "slotrun")
# Crates of Rattle that are no part of either.
NOT_ERASED = {
    "map_guards", "slotdemo", "slotmap_c", "slotmap_examples", "callers_sums", "list_callers", "lists_callers", "graph_callers", "paths_callers",
    "scene_callers", "scheduler_callers", "entities_callers",
}
LIBRARY_TREE, PROGRAM_TREE = "rust/src/proved", "rust/check/src/programs"


def needs(feature, *parts):
    """Patches that put parts of a file under a feature of the package."""
    return [(part, f'#[cfg(feature = "{feature}")]\n{part}') for part in parts]


# An import whose last name needs std, since that map is over a hash map.
SPARSE_IMPORT = ("SecondaryMap, SparseSecondaryMap};",
                 'SecondaryMap};\n#[cfg(feature = "std")]\nuse crate::proved::slotmap::SparseSecondaryMap;')

# What Rust wants written otherwise, in the erased text. Each stands there once.
PATCHES = {
    # A version is odd, so it can be kept where 0 is free for `None`: an option of a key takes 8 bytes then. Rattle's own `NonZeroU32` would
    # do it in the source, but the borrow checker covers no caller that holds such a key beside a `&mut` in one type.
    ("slotmap_core", "keys"): [
        ("    version: u32,\n}", "    version: crate::rt::odd::Odd,\n}"),
        ("            version: version | 1,", "            version: crate::rt::odd::Odd::new(version | 1),"),
        ("        KeyData { idx, version }", "        KeyData { idx, version: crate::rt::odd::Odd::new(version) }"),
        ("        self.version\n", "        self.version.get()\n"),
        ("u64::from(self.version)", "u64::from(self.version.get())"),
        ("            version: 1,", "            version: crate::rt::odd::Odd::new(1),"),
        ("self.idx, self.version)", "self.idx, self.version.get())"),
    ],
    # In Rust a drop lends its fields, so the index is behind a reference.
    ("slotmap_secondary", "drain"): [("map.clear_from(index);", "map.clear_from(*index);")],
    # Rust has this under `str` itself only since 1.87.
    ("slotmap_script", "script"): [("match str::from_utf8(bytes) {", "match ::std::str::from_utf8(bytes) {")],
    # An exported macro is at the root of its crate in Rust.
    ("slotmap_rows", "lib"): [("mod call;", "pub use crate::{looked, written};\nmod call;")],
    # The features that these names need.
    ("slotmap", "lib"): [
        *needs("json", "pub use crate::proved::slotmap_json"),
        *needs("runs", *(f"pub use crate::proved::slotmap_run::{name}" for name in ("joined", "primary", "secondary"))),
        *needs("std", "pub mod sparse_secondary {", "pub use crate::proved::slotmap_sparse::SparseSecondaryMap;"),
    ],
    # Without std there is no sparse map to be a table.
    ("slotmap_entities", "clone"): [
        SPARSE_IMPORT,
        *needs("std", "impl<K: Key, C: Clone> CloneTable<K> for SparseSecondaryMap<K, C> {",
               "impl<K: Key, C: Clone> crate::sealed::CloneTable<K> for SparseSecondaryMap<K, C> {}"),
    ],
    ("slotmap_entities", "tables"): [
        SPARSE_IMPORT,
        *needs("std", "impl<K: Key, C> Table<K> for SparseSecondaryMap<K, C> {",
               "impl<K: Key, C> crate::sealed::Table<K> for SparseSecondaryMap<K, C> {}"),
    ],
}
# Files whose functions src/rt has, written by hand: their names alone are erased.
IN_SHIM = {("slotmap_core", "sure"): "sure"}
# Modules by hand below erased ones, in src/lent: they see private fields.
LENT = {
    ("slotmap_basic", "columns"): "basic_columns", ("slotmap_basic", "lib"): "basic", ("slotmap_dense", "lib"): "dense",
    ("slotmap_hop", "lib"): "hop", ("slotmap_secondary", "lib"): "secondary", ("slotmap_slots", "slots"): "slots",
    ("slotmap_sparse", "lib"): "sparse",
}


class File:
    """A proved source, with its tokens and its items."""

    def __init__(self, crate, path, read, macros):
        self.crate, self.path = crate, path
        self.sum = hashlib.sha256(read).hexdigest()
        self.tokens = tokens(read.decode())
        refuse_unknown(self.tokens, macros)
        self.items = Reader(self.tokens, macros).read()

    @property
    def name(self):
        """The name of the file in the project."""
        return f"crates/{self.crate}/src/{self.path}.rt"

    @property
    def target(self):
        """The name of the erased file in the project."""
        tree = LIBRARY_TREE if self.crate in LIBRARIES else PROGRAM_TREE
        return f"{tree}/{self.crate}/{'mod' if self.path in ('lib', 'main') else self.path}.rs"


def tell_place(name, action):
    """Does something with a file; an error ends the program with the place."""
    try:
        return action()
    except Bad as why:
        raise SystemExit(f"{name}:{why.line or '?'}: {why}") from why


def sources_of(crate):
    """The sources of a crate: their paths and texts. A file of another kind is an error."""
    base, found = os.path.join(CRATES, crate, "src"), {}
    for folder, _, names in sorted(os.walk(base)):
        for name in sorted(names):
            path = os.path.relpath(os.path.join(folder, name), base)
            if not path.endswith(".rt"):
                raise SystemExit(f"crates/{crate}/src/{path}: a file that the eraser doesn't know")
            with open(os.path.join(base, path), "rb") as file:
                found[path[:-3]] = file.read()
    if not found:
        raise SystemExit(f"crates/{crate}: no sources")
    return found


def macros_of(crate):
    """The macros that the files of a crate may call: known ones, those of the crate, and those that it imports."""
    own = set()
    for name in PROGRAMS if crate in PROGRAMS else (crate,):
        for read in sources_of(name).values():
            own |= set(re.findall(r"\bmacro_rules! (\w+)", read.decode()))
    return MACROS | own | (MACROS_OF_PROGRAMS if crate in PROGRAMS else set())


def files_of(crate):
    """The files of a crate."""
    macros = macros_of(crate)
    found = []
    for path, read in sources_of(crate).items():
        found.append(tell_place(f"crates/{crate}/src/{path}.rt", lambda: File(crate, path, read, macros)))
    return found


def refuse_unknown_crates():
    """A crate that is in no list is an error."""
    known = {*LIBRARIES, *PROGRAMS, *NOT_ERASED}
    for crate in sorted(os.listdir(CRATES)):
        if crate not in known and os.path.isdir(os.path.join(CRATES, crate)):
            raise SystemExit(f"crates/{crate}: a crate that rust/eraser/project.py doesn't list")
