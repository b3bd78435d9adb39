#!/usr/bin/env bash
# c-speed.sh SOURCE [ARCHIVE]
#
# Measures the calls of the archive in c/dist for x86-64, or of ARCHIVE, beside the maps of the Rust crate slotmap 1.1.1, whose
# folder SOURCE has src/lib.rs. Prints three tables for docs/C.md:
#
#     1. the crate is inlined in the same program, the calls aren't: instructions, and nanoseconds at 1,000 and 100,000 slots
#     2. the crate behind the same calls: instructions inside the library
#     3. instructions of a walk inside the library, for each share of live slots, at 10,000 slots
#
# Instructions are counted by callgrind, as the difference of runs with 1 and 3 rounds. The times are the least of many short
# runs, on both sides in turn. Both sides are compiled for x86-64-v2. It needs rustc, a C compiler and valgrind.
set -euo pipefail
[ $# -ge 1 ] || { sed -n '2,13s/^# \{0,1\}//p' "$0"; exit 2; }
top=$(cd "$(dirname "$0")/.." && pwd)
source=$(cd "$1" && pwd)
archive=$(realpath -m "${2:-$top/c/dist/x86_64-linux/libslotmap_c.a}")
[ -e "$archive" ] || { echo "c-speed.sh: there is no $archive: run c/dist.sh, or name another" >&2; exit 2; }
out=$(mktemp -d)
trap 'rm -rf "$out"' EXIT
flags=(--edition 2021 -O -C target-cpu=x86-64-v2 -C panic=abort)
rustc "${flags[@]}" --crate-name slotmap --crate-type rlib --cap-lints allow --cfg 'feature="std"' "$source/src/lib.rs" -o "$out/libslotmap.rlib"
cc -O2 -fPIC -c "$top/c/heap.c" -o "$out/heap.o"
cc -shared -o "$out/libport.so" "$out/heap.o" -Wl,--whole-archive "$archive" -Wl,--no-whole-archive
rustc "${flags[@]}" --crate-type cdylib --extern slotmap="$out/libslotmap.rlib" "$top/compare/c_behind.rs" -o "$out/libcrate.so"
rustc "${flags[@]}" --extern slotmap="$out/libslotmap.rlib" "$top/compare/c_speed.rs" -o "$out/c_speed" \
    -C "link-arg=$archive" -C "link-arg=$out/heap.o"
for library in port crate; do
    rustc "${flags[@]}" --extern slotmap="$out/libslotmap.rlib" "$top/compare/c_speed.rs" -o "$out/c_speed-$library" \
        -C "link-arg=$out/lib$library.so" -C "link-arg=-Wl,-rpath,$out"
done

# count PROGRAM SIDE OPERATION SLOTS LIVE [CALL]: instructions of one call, of all the program or inside the calls of this name.
count() {
    local rounds counts=() calls
    for rounds in 1 3; do
        valgrind --tool=callgrind --callgrind-out-file=/dev/null ${6:+"--toggle-collect=$6"} \
            "$out/$1" "$2" "$3" "$4" "$5" $rounds >"$out/sum" 2>"$out/count"
        counts+=("$(sed -n 's/.*Collected *: *//p' "$out/count")")
    done
    calls=$(sed 's/ .*//' "$out/sum")
    awk "BEGIN { printf \"%.0f\", (${counts[1]} - ${counts[0]}) / (2 * $calls) }"
}

# compared PROGRAM: instructions and times of each operation on both sides.
compared() {
    local operation counted
    "$out/$1" >"$out/times"
    awk -F'\t' '$2 == 1000 { print $1 }' "$out/times" | while read -r operation; do
        counted="$(count "$1" port "$operation" 1000 1000) · $(count "$1" rust "$operation" 1000 1000)"
        awk -F'\t' -v name="$operation" -v counted="$counted" \
            '$1 == name { times = times " | " $3 " · " $4 } END { print "| " name " | " counted times " |" }' "$out/times"
    done
}

echo "| Operation, here · in Rust | Instructions at 1,000 slots | Nanoseconds at 1,000 | Nanoseconds at 100,000 |"
echo "|---|---|---|---|"
compared c_speed

echo
echo "| Instructions inside the library | here | the Rust crate behind the same calls |"
echo "|---|---|---|"
while IFS=: read -r operation call; do
    echo "| $operation | $(count c_speed-port port "$operation" 1000 1000 "$call") | $(count c_speed-crate port "$operation" 1000 1000 "$call") |"
done <<'CALLS'
insert:slotmap_insert
get:slotmap_get
get of a stale key:slotmap_get
set:slotmap_set
put:slotmap_side_put
get of a side table:slotmap_side_get
CALLS

echo
echo "| Live slots of 1,000 | a step of \`slotmap_next\` | a key of \`slotmap_list_after\` | \`iter\` in Rust, inlined |"
echo "|---|---|---|---|"
for live in 1000 999 900 500 100 10; do
    at=$((live * 10))
    echo "| $live | $(count c_speed-port port "a step of a walk" 10000 $at slotmap_next) |" \
        "$(count c_speed-port port "a key of a list" 10000 $at slotmap_list_after) |" \
        "$(count c_speed rust "a step of a walk" 10000 $at) |"
done
