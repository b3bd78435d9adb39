#!/usr/bin/env bash
# c-calls.sh SOURCE [CALLS [SEED]]
#
# Makes random calls on maps and side tables of the archive of c/dist for x86-64, through the C interface, and the
# same calls on those of the Rust crate slotmap 1.1.1, whose folder SOURCE has src/lib.rs. Each result is compared: of a million
# calls of each kind of map, or CALLS. Each ten thousand are made on a new map, with a seed of its own, from SEED or 1 on. The
# first difference is printed with its seed and the number of its call, and the status is then 1.
#
# It needs rustc and a C compiler.
set -euo pipefail
[ $# -ge 1 ] || { sed -n '2,9s/^# \{0,1\}//p' "$0"; exit 2; }
top=$(cd "$(dirname "$0")/.." && pwd)
source=$(cd "$1" && pwd)
shift
archive=$top/c/dist/x86_64-linux/libslotmap_c.a
[ -e "$archive" ] || { echo "c-calls.sh: there is no $archive: run c/dist.sh" >&2; exit 2; }
out=$(mktemp -d)
trap 'rm -rf "$out"' EXIT
rustc --edition 2021 --crate-name slotmap --crate-type rlib -O --cap-lints allow --cfg 'feature="std"' \
    "$source/src/lib.rs" -o "$out/libslotmap.rlib"
cc -O2 -c "$top/c/heap.c" -o "$out/heap.o"
rustc --edition 2021 -O -D warnings --extern slotmap="$out/libslotmap.rlib" "$top/compare/c_calls.rs" -o "$out/c_calls" \
    -C "link-arg=$archive" -C "link-arg=$out/heap.o"
"$out/c_calls" "$@"
