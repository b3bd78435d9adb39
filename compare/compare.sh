#!/bin/sh
# compare.sh RUSTRUN SLOTRUN FOLDER
#
# Runs both programs on each script FOLDER/NUMBER.KIND.txt, and says of each pair of outputs that differs which reply is
# the first. The status is 0 where no output and no status differs, and 2 where a program isn't there or ends with a status
# that neither has.
set -u
[ $# -eq 3 ] || { sed -n '2,6s/^# \{0,1\}//p' "$0"; exit 2; }
for program in "$1" "$2"; do
    [ -x "$program" ] || { echo "compare.sh: $program isn't there"; exit 2; }
done
scratch=$(mktemp -d)
trap 'rm -rf "$scratch"' EXIT
alike=0
differ=0
left_out=0
for script in "$3"/*.txt; do
    [ -e "$script" ] || break
    kind=${script%.txt}
    kind=${kind##*.}
    "$1" "$kind" <"$script" >"$scratch/rust" 2>"$scratch/why"
    rust_status=$?
    if [ $rust_status -eq 9 ]; then
        left_out=$((left_out + 1))
        echo "$script: left out: $(cat "$scratch/why")"
        continue
    fi
    "$2" "$kind" <"$script" >"$scratch/port"
    port_status=$?
    if [ $rust_status -gt 3 ] || [ $port_status -gt 3 ]; then
        echo "compare.sh: $script: status $rust_status of the Rust, $port_status of slotrun"
        exit 2
    fi
    if cmp -s "$scratch/rust" "$scratch/port" && [ $rust_status -eq $port_status ]; then
        alike=$((alike + 1))
        continue
    fi
    differ=$((differ + 1))
    echo "$script: status $rust_status of the Rust, $port_status of slotrun; the first replies that differ:"
    diff "$scratch/rust" "$scratch/port" | head -n 4 | cut -c 1-300
done
echo "$alike scripts alike, $differ differ, $left_out left out"
[ $differ -eq 0 ] && [ $alike -gt 0 ]
