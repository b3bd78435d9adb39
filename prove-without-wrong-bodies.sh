#!/usr/bin/env bash
# prove-without-wrong-bodies.sh [CRATE ..]
#
# Proves the named crates and those below them, several side by side (as many as there are processors, or RT_JOBS of them), runs
# their tests and programs as the gate does, and leaves each named program in crates/CRATE/out. With no name it takes all crates.
#
# It tries no wrong bodies. So this isn't the gate: it says that the crates are proved, not that their contracts refuse these
# faults. The kit 13f keeps what it proves, and a later `rt ci` on this machine doesn't prove it again.
#
# It works on a copy of the crates as they stand, committed or not. What is printed, and the status, are those of `rt ci`.
set -euo pipefail
top=$(cd "$(dirname "$0")" && pwd)

# Names each crate of these and of those below them that crates.txt lists.
below() {
    local name
    for name in "$@"; do
        # shellcheck disable=SC2046
        grep -qE "^$name( |:)" "$top/crates.txt" && below $(sed -nE "s/^$name( staticlib)?: *//p" "$top/crates.txt") && echo "$name"
    done
    return 0
}

for name in "$@"; do
    grep -qE "^$name( |:)" "$top/crates.txt" || { echo "prove-without-wrong-bodies.sh: crates.txt has no crate $name" >&2; exit 2; }
done
mapfile -t all < <(sed -nE 's/^([a-z0-9_]+)( staticlib)?:.*/\1/p' "$top/crates.txt")
mapfile -t crates < <(below "${@:-${all[@]}}" | awk '!seen[$0]++')

copy=$(mktemp -d)
trap 'rm -rf "$copy"' EXIT
mkdir "$copy/crates"
cp "$top/HANDLES" "$copy/"
for crate in "${crates[@]}"; do
    grep -E "^$crate( |:)" "$top/crates.txt" >>"$copy/crates.txt"
    tar -C "$top/crates" --exclude="$crate/out" --exclude="$crate/must-fail" --exclude="$crate/more-wrong-bodies" -cf - "$crate" | tar -C "$copy/crates" -xf -
done
git -C "$copy" init --quiet
(cd "$copy" && rt ci)

for name in "$@"; do
    [ -f "$copy/crates/$name/out/$name" ] || continue
    mkdir -p "$top/crates/$name/out"
    cp "$copy/crates/$name/out/$name" "$top/crates/$name/out/"
    echo "The program is crates/$name/out/$name"
done
