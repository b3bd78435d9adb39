#!/usr/bin/env bash
# c/dist.sh [--check]
#
# Proves crates/slotmap_c, and writes what is taken without the kit to the folder c/dist:
#
#     x86_64-linux/libslotmap_c.a       the archive for every x86-64 processor
#     x86_64-v2-linux/libslotmap_c.a    the one for those with SSE4.1 and what else x86-64-v2 names
#     aarch64-linux/libslotmap_c.a      the one for AArch64
#     SHA256SUMS                        their sums and those of slotmap.h and heap.c, by their paths from c
#     VERDICT                           the kit, and what it said of the crate
#     SOURCES                           sums of the sources, by c/sources.py: ./test.sh compares them with those that are there
#     wheels                            the Python package, by c/python/wheels.sh, which says what it needs
#
# With --check it builds all of this anew in another folder, compares it byte by byte with what is there, and fails at the first
# difference. The kit's name in VERDICT is none: where another kit makes the same bytes, it says so. It needs the kit, and some ten minutes of processor time in a fresh clone, later one.
set -euo pipefail
top=$(cd "$(dirname "$0")/.." && pwd)
dist=$top/c/dist
check=
[ "${1:-}" != --check ] || check=yes
command -v rt >/dev/null || { echo "c/dist.sh: it needs the kit (rt): docs/C.md has what needs none" >&2; exit 2; }
out=$(mktemp -d)
trap 'rm -rf "$out"' EXIT

# archive MACHINE FLAG ..: proves the crate, and builds its archive for a machine.
archive() {
    (cd "$top/crates/slotmap_c" && rt lib "${@:2}") >"$out/$1.log" 2>&1 || { cat "$out/$1.log" >&2; exit 1; }
    mkdir -p "$out/dist/$1-linux"
    cp "$top/crates/slotmap_c/out/libslotmap_c.a" "$out/dist/$1-linux/"
}

archive aarch64 --target aarch64-unknown-linux-gnu
archive x86_64-v2
# Last, so that the archive in the crate's folder runs on every x86-64 processor.
archive x86_64 --cpu x86-64
{
    rt version
    grep -h -o '^logic=proved functions=[0-9]*\( axioms=[0-9]*\)\{0,1\}' "$out/x86_64.log"
} >"$out/dist/VERDICT"
(cd "$top/c" && sha256sum slotmap.h heap.c) >"$out/dist/SHA256SUMS"
(cd "$out" && sha256sum dist/*/libslotmap_c.a) >>"$out/dist/SHA256SUMS"

if [ -n "$check" ]; then
    differs() { echo "c/dist.sh: c/dist differs from what was built; run c/dist.sh" >&2; exit 1; }
    diff -r --exclude=wheels --exclude=SOURCES --exclude=VERDICT "$dist" "$out/dist" || differs
    diff <(tail -n +2 "$dist/VERDICT") <(tail -n +2 "$out/dist/VERDICT") || differs
    cmp -s "$dist/VERDICT" "$out/dist/VERDICT" || echo "c/dist.sh: c/dist was built by $(head -n 1 "$dist/VERDICT"), and now by $(head -n 1 "$out/dist/VERDICT")"
    echo "c/dist.sh: the same bytes:"
    "$top/c/python/wheels.sh" --check
else
    rm -rf "$dist"
    cp -r "$out/dist" "$dist"
    "$top/c/python/wheels.sh"
    python3 "$top/c/sources.py"
fi
cat "$out/dist/VERDICT" "$out/dist/SHA256SUMS"
