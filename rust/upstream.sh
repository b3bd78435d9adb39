#!/usr/bin/env bash
# upstream.sh UPSTREAM OUT
#
# Runs slotmap's own tests, its examples, its README and the examples of its documentation over this crate, and compiles a call of each of
# its signatures. UPSTREAM has its files as text, named src--PATH.txt, and the tests together in src--tests--tests--part1.rs.txt. OUT is a
# folder that is made anew, outside the repository: nothing of slotmap is part of it. The documentation's examples, and what the tests depend
# on, come from a folder of crates' sources, which REGISTRY names (/usr/share/cargo/registry). A program has to print the same, and end in
# the same way, as over slotmap itself: the first assertion of doubly_linked_list.rs fails over both.
#
# What is changed in them: `slotmap` and `crate` in `use` lines; a private field of a key, to the call of its name; a hasher of another
# crate, to one of std.
set -euo pipefail
[ $# -eq 2 ] || { sed -n '2,11s/^# \{0,1\}//p' "$0"; exit 2; }
here=$(cd "$(dirname "$0")" && pwd)
upstream=$(cd "$1" && pwd)
registry=${REGISTRY:-/usr/share/cargo/registry}
[ -d "$registry" ] || { echo "upstream.sh: there is no $registry" >&2; exit 2; }
crate=$(echo "$registry"/slotmap-*)
[ -d "$crate" ] || { echo "upstream.sh: $registry has no slotmap" >&2; exit 2; }
mkdir -p "$2"
out=$(cd "$2" && pwd)
case $out/ in "$(dirname "$here")"/*) echo "upstream.sh: $out is in the repository" >&2; exit 2 ;; esac
rm -rf "$out/src" "$out/examples" "$out/Cargo.toml" "$out/.cargo"
mkdir -p "$out/src" "$out/examples" "$out/.cargo"

cat >"$out/Cargo.toml" <<END
[package]
name = "upstream"
version = "0.0.0"
edition = "2021"
[workspace]
[features]
default = ["serde"]
serde = []
[dependencies]
slotmap-proved = { path = "$here", features = ["serde"] }
quickcheck = "1"
rand = "0.8"
slotmap = "1"
serde = { version = "1", features = ["derive"] }
serde_json = "1"
END
cat >"$out/.cargo/config.toml" <<END
[source.crates-io]
replace-with = "given"
[source.given]
directory = "$registry"
END

python3 "$here/upstream.py" "$upstream" "$crate" "$out"

cd "$out"
cargo test --offline --lib
cargo build --offline --examples
run() { status=0; "target/debug/examples/$1" >"$1.stdout" 2>"$1.stderr" || status=$?; echo "$status" >>"$1.stdout"; }
for program in examples/ours_*.rs; do
    name=$(basename "${program#examples/ours_}" .rs)
    run "ours_$name"
    run "theirs_$name"
    cmp "ours_$name.stdout" "theirs_$name.stdout"
    echo "$name: as over slotmap, status $(tail -1 "ours_$name.stdout")"
done
cargo test --offline --doc
