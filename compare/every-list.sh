#!/bin/sh
# every-list.sh ROWS OUT DEPTH [KIND ..]
#
# Makes every list of DEPTH calls of compare/every_list.py on the port's maps and on those of the Rust crate, and compares each
# result: five kinds of maps, or those that are named. ROWS is the program that compare/build.sh builds. The port's programs
# are taken as they were built, by `rt run` in crates/primary_rows and crates/secondary_rows or by the gate. OUT is a folder for
# the rows, outside of the repository.
#
# Depth 4 takes ten seconds, for 1.3 million calls. Each further call in a list takes nine to thirteen times as long. The last
# line has the numbers of lists and calls, and the status is 0 if no result differs.
set -eu
[ $# -ge 3 ] || { sed -n '2,11s/^# \{0,1\}//p' "$0"; exit 2; }
here=$(cd "$(dirname "$0")" && pwd)
rows=$1
out=$2
depth=$3
shift 3
[ $# -gt 0 ] || set -- basic dense hop secondary sparse
mkdir -p "$out"
lists=0
calls=0

# How many files the lists of one kind are cut into, so that each has less than thirty thousand.
parts=1
longer=$depth
while [ "$longer" -gt 4 ]; do
    parts=$((parts * 13))
    longer=$((longer - 1))
done

for kind in "$@"; do
    case $kind in
        basic | dense | hop) program=primary_rows ;;
        *) program=secondary_rows ;;
    esac
    part=0
    while [ $part -lt $parts ]; do
        "$here/every_list.py" "$kind" "$depth" --part $part --parts $parts >"$out/$kind.lists"
        "$rows" --fill "$out/$kind.lists" >"$out/$kind.rows"
        if ! "$here/../crates/$program/out/$program" "$out/$kind.rows" >"$out/$kind.seen"; then
            echo "every-list.sh: $kind differs:"
            head -n 5 "$out/$kind.seen"
            exit 1
        fi
        # FILE: KIND: LISTS rows, CALLS calls, 0 differences
        summary=$(sed -n "s|^.*: $kind: \([0-9]*\) rows, \([0-9]*\) calls, 0 differences.*|\1 \2|p" "$out/$kind.seen")
        lists=$((lists + ${summary% *}))
        calls=$((calls + ${summary#* }))
        part=$((part + 1))
    done
    echo "$kind: done; $lists lists and $calls calls so far"
done
echo "every list of $depth calls: $lists lists, $calls calls, 0 differ"
