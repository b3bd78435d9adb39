#!/usr/bin/env bash
# rust/test.sh
#
# Tests the Rust crate with cargo and Python alone, without a registry:
#
# - the generated files are those of the sources, and the script that writes them refuses what it has to refuse;
# - the library under the package rust/check: the project's programs print what the proved ones print; random calls beside models;
#   refused memory; a panic at each moment of each call; premises that nobody proves in Rust; names, keys, messages, debug texts, JSON,
#   and scripts on streams that fail;
# - what each public call asks the allocator for: nothing within its room, or what its row says; and that no call is without a row;
# - a program without std, over the crate without its feature `std`: it has a panic handler of its own, so it wouldn't build over std;
# - the examples of the documentation, as one program, and the documentation itself, without a warning;
# - the library for C compiles, with std and without: c/test.sh source tests it;
# - the example of the pages.
#
# What stands beside other crates isn't here: rust/beside.sh and rust/upstream.sh need slotmap, petgraph or serde. rust/systems.sh runs the
# programs on other systems.
set -euo pipefail
cd "$(dirname "$0")"
command -v cargo >/dev/null || { echo "rust/test.sh: it needs cargo, of Rust 1.87 or newer" >&2; exit 2; }
python3 erase.py --check
python3 eraser/test.py
(cd check && cargo test --offline --quiet)
(cd check && python3 room.py --check)
(cd check/examples && cargo test --offline --quiet --doc)
(cd check/no_std && cargo run --offline --quiet)
(cd check && RUSTDOCFLAGS="-D warnings" cargo doc --offline --quiet --no-deps --lib)
(cd check && RUSTDOCFLAGS="-D warnings" cargo doc --offline --quiet --no-deps --lib --no-default-features)
(cd c && cargo check --offline --quiet && cargo check --offline --quiet --no-default-features)
(cd check && cargo run --offline --quiet --example names) | diff - <(sed -n '/<!-- printed -->/,/<!-- end -->/s/^    //p' ../docs/C.md | sed '/^$/d')
echo "rust/test.sh: ok"
