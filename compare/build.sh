#!/bin/sh
# build.sh SOURCE OUT [lists [CRATES]]
#
# Builds OUT/rows and OUT/rustrun over the source of the Rust crate slotmap 1.1.1, whose folder SOURCE has src/lib.rs.
# rustc alone is needed. With the word `lists` cargo builds both over serde and serde_json: rustrun then knows the lines
# `slots` and `load`, and rows the call `through_slots`. SOURCE then has Cargo.toml too. CRATES is a folder of crates'
# sources, and with it cargo asks no network.
# OUT has to be outside the repository.
set -eu
[ $# -ge 2 ] || { sed -n '2,8s/^# \{0,1\}//p' "$0"; exit 2; }
here=$(cd "$(dirname "$0")" && pwd)
source=$(cd "$1" && pwd)
mkdir -p "$2"
out=$(cd "$2" && pwd)
rustc --edition 2021 --crate-name slotmap --crate-type rlib -O --cap-lints allow --cfg 'feature="std"' \
    "$source/src/lib.rs" -o "$out/libslotmap.rlib"

# build NAME FILE: a program over the crate.
build() {
    rustc --edition 2021 --crate-name "$1" -O --cap-lints allow --extern slotmap="$out/libslotmap.rlib" \
        "$here/$2" -o "$out/$1"
}

if [ "${3:-}" != lists ]; then
    build rows rows/main.rs
    build rustrun rustrun.rs
    exit 0
fi
mkdir -p "$out/cargo/src" "$out/cargo/.cargo"
cp "$here/rustrun.rs" "$out/cargo/src/main.rs"
rm -rf "$out/cargo/src/rows"
cp -r "$here/rows" "$out/cargo/src/rows"
cat >"$out/cargo/Cargo.toml" <<END
[package]
name = "rustrun"
version = "0.0.0"
edition = "2021"
[[bin]]
name = "rustrun"
path = "src/main.rs"
[[bin]]
name = "rows"
path = "src/rows/main.rs"
[features]
default = ["lists"]
lists = []
[dependencies]
serde = "1"
slotmap = { path = "$source", features = ["serde"] }
serde_json = "1"
[workspace]
END
rm -f "$out/cargo/.cargo/config.toml" "$out/cargo/Cargo.lock"
if [ -n "${4:-}" ]; then
    crates=$(cd "$4" && pwd)
    cat >"$out/cargo/.cargo/config.toml" <<END
[source.crates-io]
replace-with = "given"
[source.given]
directory = "$crates"
[net]
offline = true
END
fi
cd "$out/cargo"
RUSTFLAGS='--cap-lints allow' cargo build --quiet --release
cp target/release/rustrun target/release/rows "$out"
