#!/usr/bin/env bash
# rust/beside.sh SOURCE [CALLS]
# rust/beside.sh SOURCE --speed
#
# The crate beside slotmap 1.1.1, whose folder SOURCE has src/lib.rs: the archive on crates.io has it.
#
#     calls     CALLS random calls (1,000,000 without a number) of each of the five maps of both, and their JSON: beside/tests
#     rows      the crate's results for the project's files of rows, by the program of compare/rows
#     scripts   random scripts, answered over this crate and over slotmap by the program compare/rustrun.rs, and by the erased slotrun
#     programs  what the erased programs print, over the real serde_json
#
# With --speed it measures both instead, and petgraph, and writes the table in rust/README.md: that takes valgrind and python3.
#
# Other crates come from a folder of sources, which REGISTRY names (/usr/share/cargo/registry). Debian has it: `apt-get install
# librust-serde-dev librust-serde-derive-dev librust-serde-json-dev librust-petgraph-dev`. With REGISTRY set to nothing cargo asks crates.io.
# TARGET names a folder for what is built, to be kept. The status is 0 if all passed, 3 if something was left out, and 1 if anything differs.
set -euo pipefail
[ $# -ge 1 ] && [ $# -le 2 ] || { sed -n '2,18s/^# \{0,1\}//p' "$0"; exit 2; }
rust=$(cd "$(dirname "$0")" && pwd)
top=$(dirname "$rust")
registry=${REGISTRY-/usr/share/cargo/registry}
calls=${2:-1000000}
out=$(mktemp -d)
trap 'rm -rf "$out"' EXIT
export CARGO_TARGET_DIR=${TARGET:-$out/target} RUSTFLAGS='--cap-lints allow' RUST_BACKTRACE=0
left_out=
failed=

# fails WHAT: says that something differs. The others go on.
fails() {
    echo "differs: $1"
    failed=yes
}

# lacks WHAT WHY: says that something is left out.
lacks() {
    echo "left out: $1, for want of $2"
    left_out=yes
}

source=
if [ -f "$1/src/lib.rs" ]; then
    source=$(cd "$1" && pwd)
    mkdir "$out/slotmap"
    ln -s "$source/src" "$out/slotmap/src"
    cat >"$out/slotmap/Cargo.toml" <<TOML
[package]
name = "slotmap"
version = "1.1.1"
edition = "2021"
[features]
default = ["std"]
std = []
serde = ["dep:serde"]
[dependencies]
serde = { version = "1", optional = true, default-features = false, features = ["derive", "alloc"] }
TOML
fi

# Where cargo takes the crates from.
: >"$out/config.toml"
if [ -n "$registry" ]; then
    for crate in serde serde_derive serde_json petgraph; do
        compgen -G "$registry/$crate-[0-9]*" >/dev/null && continue
        lacks "everything" "$registry/$crate-*: apt-get install librust-${crate//_/-}-dev, or set REGISTRY"
        exit 3
    done
    printf '[source.crates-io]\nreplace-with = "given"\n[source.given]\ndirectory = "%s"\n[net]\noffline = true\n' "$registry" >"$out/config.toml"
fi
[ -z "$source" ] || printf '[patch.crates-io]\nslotmap = { path = "%s" }\n' "$out/slotmap" >>"$out/config.toml"

# The package beside, without a Cargo.lock in the repository.
cp -r "$rust/beside" "$out/beside"
sed -i "s|path = \"\\.\\.\"|path = \"$rust\"|" "$out/beside/Cargo.toml"
beside() { cargo "$1" --config "$out/config.toml" --quiet --manifest-path "$out/beside/Cargo.toml" "${@:2}"; }

if [ "$calls" = --speed ]; then
    [ -n "$source" ] || { lacks "the table" "$1/src/lib.rs, of slotmap 1.1.1 on crates.io"; exit 3; }
    beside build --release
    mkdir -p "$out/structures/src"
    python3 "$rust/beside/structures.py" "$top/compare/bench" "$out/structures/src"
    cp "$rust/beside/src/structures.rs" "$out/structures/src/main.rs"
    cp "$rust/beside/src/clock.rs" "$out/structures/src"
    cat >"$out/structures/Cargo.toml" <<TOML
[package]
name = "structures"
version = "0.0.0"
edition = "2021"
[workspace]
[dependencies]
slotmap-proved = { path = "$rust", features = ["structures"] }
petgraph = "0.6"
TOML
    cargo build --config "$out/config.toml" --quiet --release --manifest-path "$out/structures/Cargo.toml"
    python3 "$rust/beside/speed.py" "$CARGO_TARGET_DIR/release" "$out/structures/src/list.txt" "$rust/README.md"
    exit
fi

# over NAME DEPENDENCY: the programs rows and rustrun over a crate that they call slotmap.
over() {
    mkdir -p "$out/$1/src"
    cp -r "$top/compare/rows" "$out/$1/src/rows"
    cp "$top/compare/rustrun.rs" "$out/$1/src/rustrun.rs"
    cat >"$out/$1/Cargo.toml" <<TOML
[package]
name = "over-$1"
version = "0.0.0"
edition = "2021"
[workspace]
[[bin]]
name = "rows-$1"
path = "src/rows/main.rs"
[[bin]]
name = "rustrun-$1"
path = "src/rustrun.rs"
[features]
default = ["lists"]
lists = []
[dependencies]
serde = "1"
serde_json = "1"
slotmap = { $2, features = ["serde"] }
TOML
    cargo build --config "$out/config.toml" --quiet --release --manifest-path "$out/$1/Cargo.toml"
}

echo "== programs: the erased programs over the real serde_json"
mkdir -p "$out/erased/rust/check"
ln -s "$top/crates" "$out/erased/crates"
ln -s "$rust/src" "$out/erased/rust/src"
cp -r "$rust/check/src" "$rust/check/tests" "$out/erased/rust/check"
sed 's|^serde_json = .*|serde_json = "1"|; /^\[\[example\]\]/,$d' "$rust/check/Cargo.toml" >"$out/erased/rust/check/Cargo.toml"
cargo test --config "$out/config.toml" --quiet --manifest-path "$out/erased/rust/check/Cargo.toml" --test programs || fails programs
printf '#!/bin/sh\nexec "%s/debug/programs" slotrun "$@"\n' "$CARGO_TARGET_DIR" >"$out/slotrun"
chmod +x "$out/slotrun"

echo "== rows: compare/rows over this crate"
over ours "package = \"slotmap-proved\", path = \"$rust\""
"$CARGO_TARGET_DIR/release/rows-ours" "$top"/crates/primary_rows/data/*.rows "$top"/crates/secondary_rows/data/*.rows >"$out/rows" || { grep -v 'differences;' "$out/rows"; fails rows; }
awk '/differences;/ { for (at = 2; at <= NF; at++) if ($at ~ /^(rows|calls|differences)[,;]?$/) sum[substr($at, 1, 4)] += $(at - 1) }
    END { printf "%d rows, %d calls, %d differences\n", sum["rows"], sum["call"], sum["diff"] }' "$out/rows"

echo "== scripts: rustrun over this crate, beside the erased slotrun"
python3 "$top/compare/scripts.py" 7 100 "$out/scripts" --kinds basic,dense,hop --lists
"$top/compare/compare.sh" "$CARGO_TARGET_DIR/release/rustrun-ours" "$out/slotrun" "$out/scripts" || fails "scripts over this crate"

if [ -n "$source" ]; then
    echo "== scripts: rustrun over slotmap, beside the erased slotrun"
    over theirs 'version = "=1.1.1"'
    "$top/compare/compare.sh" "$CARGO_TARGET_DIR/release/rustrun-theirs" "$out/slotrun" "$out/scripts" || fails "scripts over slotmap"
    echo "== calls: $calls of each map"
    CALLS=$calls beside test --test beside || fails calls
else
    lacks "the calls, and the scripts over slotmap" "$1/src/lib.rs, of slotmap 1.1.1 on crates.io"
fi
[ -z "$failed" ] || exit 1
[ -z "$left_out" ] || exit 3
echo "all passed"
