#!/usr/bin/env bash
# c/tests/speed.sh [ARCHIVE]
#
# Prints what a slot_map of 8-byte values costs beside a std::unordered_map from a counter and a slot map as P0661 proposes it, which
# speed.cpp has, over the archive of c/dist for this machine, or over ARCHIVE: instructions of one call at 1,000 slots, counted by
# callgrind as the difference of runs with 1 and 3 rounds; nanoseconds at 1,000 and 1,000,000, the least of several runs on each side
# in turn; and the bytes of a key after so many inserts. It needs a C++ compiler and valgrind.
set -euo pipefail
here=$(cd "$(dirname "$0")" && pwd)
archive=$(realpath -m "${1:-$here/../dist/$(uname -m)-linux/libslotmap_c.a}")
out=$(mktemp -d)
trap 'rm -rf "$out"' EXIT
c++ -std=c++17 -O2 -I"$here/.." -x c++ "$here/speed.cpp" "$here/../heap.c" -x none "$archive" -o "$out/speed"

# count SIDE OPERATION: the instructions of one call.
count() {
    local rounds counts=()
    for rounds in 1 3; do
        valgrind --tool=callgrind --callgrind-out-file=/dev/null "$out/speed" "$1" "$2" 1000 "$rounds" >/dev/null 2>"$out/count"
        counts+=("$(sed -n 's/.*Collected *: *//p' "$out/count")")
    done
    echo $(((counts[1] - counts[0] + 1000) / 2000))
}

# least SIDE OPERATION SLOTS ROUNDS: the nanoseconds of one call.
least() {
    for _ in 1 2 3 4 5; do
        "$out/speed" "$@" | awk '{ print $2 }'
    done | sort -n | head -n 1
}

# all CALL ..: what a call prints for each side.
all() {
    echo "$("$1" here "${@:2}") · $("$1" std "${@:2}") · $("$1" packed "${@:2}")"
}

bytes() { "$out/speed" "$1" bytes "$2" 1; }

echo "| Operation, \`slot_map\` · \`unordered_map\` · P0661 | Instructions at 1,000 slots | Nanoseconds at 1,000 | Nanoseconds at 1,000,000 |"
echo "|---|---|---|---|"
for operation in insert "the loop of a get alone" get "get of a stale key" "a removal and an insert" "a step of a walk" "an insert, and an erasure of the first"; do
    echo "| $operation | $(all count "$operation") | $(all least "$operation" 1000 2000) | $(all least "$operation" 1000000 3) |"
done
echo "| bytes of a key | | $(all bytes 1000) | $(all bytes 1000000) |"
