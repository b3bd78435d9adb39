#!/usr/bin/env bash
# tests/memory.sh [PROGRAM ..]
#
# Runs the programs primary_rows, secondary_rows, joined_rows, slotrun, slotdemo and the callers of the structures (list_callers, ..) with
# refused memory, or those that are named. Each program runs once for each of its requests for memory, with this request refused alone, and once with all from it on refused.
#
# - A row program with one refused request prints what it prints without, and ends with status 0: the refused call left
#   all as it was, and was made once more. Only the number of calls made twice may be 1 once. Where memory for the
#   program's own work is refused, for the text of a file or for its maps before the first row, it ends with 3: these
#   requests are counted. With all requests from one on refused it ends with 0, 1 or 3, and each difference that it prints
#   says `out of memory`. A call behind `surely` has its room, and may not be refused. A call behind `displacing` puts a value by the
#   entry of a key, where an older pair is. A sparse map takes that pair out before it asks for memory, so a refused put may lose it. Whether
#   it asks depends on where the hash map has its keys, and so in a map of the kind `random` on the seed.
# - `slotrun` prints what it prints without, up to a line that says `memory`, or `no script` at the end. Where one request
#   was refused, the other lines are then those of the script without the refused line. With no words it prints its usage,
#   and ends with status 2, where no request is met.
# - `slotdemo`, whose five structures do without a second try, prints what it prints without, or stops on the way with status 1.
# - The callers, which make calls of each kind of a structure at 1000 elements, do so too. What they print without is their file `stdout`.
#   Where `StableList::from_iter` is refused a value, `list_callers` prints this value in a last line. This has to happen, and a value below
#   1000 comes back each time.
#
# Row files with a call that is repeated over 1,000 times are left out, and the hundred lists, which ask for memory as often. So
# are the random rows of secondary_rows, which count drops after an `extend`: it keeps the pairs before the fault, and is called
# again with the rest.
#
# Once room was made for a hundred keys, no insert of one of them asks for memory. Nor does any call that never allocates, in a
# map of a hundred keys: a removal, a detach, a reattach, a replacement, a clear, a retain, a drain, a reserve that finds room.
# The callers of all structures but paths make thousands of calls, mostly within room that was made, with a hundred requests at most. So none of
# their adds, moves and removals asks each time. That a call within its room never asks is tested over the Rust crate (rust/check/tests/room).
#
# No row asks for far more memory than it needs. Over a file of rows the largest request is at most 256 KiB, which is ten
# thousand slots of 24 bytes. Where a call is repeated over 1,000 times it is at most 16 MiB.
#
# The first fault is printed, and ends the script with status 1. It uses the programs as they were built, by `rt run` in
# their folders or by the gate, needs a C compiler, and takes some minutes on four cores. JOBS=N sets how many runs there
# are at a time.
set -euo pipefail
top=$(cd "$(dirname "$0")/.." && pwd)

# A case is a program with its words and its input. It has a folder of its own:
#   program, words, input, folder   what runs, and where
#   full, status                    what it prints and how it ends where no memory is refused
#   own                             the requests for the program's own work

# read_text FILE: the whole file as `text`.
read_text() {
    IFS= read -r -d '' text <"$1" || true
}
export -f read_text

# run_case OUT VARIABLE NUMBER: runs the program of this case, with its status as `status`.
run_case() {
    status=0
    # shellcheck disable=SC2086
    env -C "$folder" "LD_PRELOAD=$case/../refuse.so" "$2=$3" "$program" $words <"$input" >"$1" 2>"$1.errors" || status=$?
}
export -f run_case

# fault WHY SEEN EXPECTED: prints what went wrong, and ends the run of all cases.
fault() {
    echo "fault: $program $words <$input with $refused: $1; its status is $status, and its output differs so:"
    diff "$3" "$2" | head -n 10 | cut -c 1-300
    exit 255
}
export -f fault

# check_rows OUT: what a row program printed.
check_rows() {
    local text seen
    read_text "$1"
    seen=${text/, 1 calls made twice/, 0 calls made twice}
    read_text "$case/full"
    if [ "$status" = 0 ] && [ "$seen" = "$text" ]; then
        return
    elif [ "${refused%=*}" = REFUSE_AT ]; then
        [[ $status = 3 && $text = "$seen"* ]] || fault "it has to print the same" "$1" "$case/full"
        echo "$refused" >>"$case/own"
    else
        [[ $status = [13] ]] || fault "the status has to be 0, 1 or 3" "$1" "$case/full"
        grep -v -e ' calls made twice$' -e '-> out of memory, expected ' -e ': extend.* as memory ran out, expected ' \
            "$1" >"$1.other" || return 0
        fault "each difference has to say: out of memory" "$1" "$case/full"
    fi
}
export -f check_rows

# check_slotrun OUT: what slotrun printed.
check_slotrun() {
    local text seen line
    read_text "$1"
    seen=$text
    read_text "$case/full"
    [ "$seen" = "$text" ] && [ "$status" = "$(<"$case/status")" ] && return
    line=$(cmp "$1" "$case/full" 2>&1 | sed -n 's/.*line \([0-9]*\).*/\1/p')
    case $status,$(sed -n "${line:-1}p" "$1") in
        0,memory) ;;
        3,memory)
            [[ $refused = REFUSE_FROM=* && $(tail -n 1 "$1") = "no script" ]] && return 0
            fault "the last line has to be: no script" "$1" "$case/full"
            ;;
        3, | 3,"no script")
            [ "$refused" = "REFUSE_AT=${refused#*=}" ] && echo "$refused" >>"$case/own"
            return 0
            ;;
        *) fault "the first other line has to be: memory" "$1" "$case/full" ;;
    esac
    [ "${refused%=*}" = REFUSE_AT ] || return 0
    # The refused line changed nothing.
    sed "${line}d" "$1" >"$1.rest"
    sed "${line}d" "$input" | "$program" "$words" >"$1.expected"
    cmp -s "$1.rest" "$1.expected" || fault "line $line was refused and changed something" "$1.rest" "$1.expected"
}
export -f check_slotrun

# check_demo OUT: what slotdemo printed.
check_demo() {
    local text seen
    read_text "$1"
    seen=$text
    read_text "$case/full"
    [ "$status" = 0 ] && [ "$seen" = "$text" ] && return
    [[ $status = 1 && $text = "$seen"* ]] || fault "it has to print the same, or to stop on the way with status 1" "$1" "$case/full"
}
export -f check_demo

# check_list OUT: what list_callers printed, but for a value that a list was refused.
check_list() {
    sed -E '/^refused: [0-9]{1,3}$/d' "$1" >"$1.rest"
    cmp -s "$1" "$1.rest" || echo "$refused" >>"$case/refused"
    check_demo "$1.rest"
}
export -f check_list

# enter_case CASE: what runs, and where.
enter_case() {
    case=$1
    program=$(<"$case/program")
    words=$(<"$case/words")
    input=$(<"$case/input")
    folder=$(<"$case/folder")
}
export -f enter_case

# try_requests CASE CHECK N ..: refuses each of these requests alone, and all from it on.
try_requests() {
    local case program words input folder status refused number out=$1/out.$BASHPID check=$2
    enter_case "$1"
    shift 2
    # A program that hangs is ended.
    ulimit -t 60
    for number in "$@"; do
        for refused in REFUSE_AT REFUSE_FROM; do
            run_case "$out" $refused "$number"
            refused=$refused=$number
            "$check" "$out"
        done
    done
}
export -f try_requests

# try_case CHECK FOLDER PROGRAM WORDS INPUT STATUS: refuses each request of a program in turn, which ends with this status
# where none is refused.
try_case() {
    local case program words input folder status requests own
    case=$(mktemp -d "$scratch/case.XXXXXX")
    echo "$2" >"$case/folder"
    echo "$3" >"$case/program"
    echo "$4" >"$case/words"
    echo "$5" >"$case/input"
    : >"$case/own"
    enter_case "$case"
    run_case "$case/full" REFUSE_COUNT 1
    echo "$status" >"$case/status"
    requests=$(sed -n 's/^requests \([0-9]*\) .*/\1/p' "$case/full.errors")
    if [ "$status" != "$6" ] || [ -z "$requests" ]; then
        echo "fault: $program $words <$input ends with status $status where no memory is refused"
        exit 1
    fi
    seq 1 "$requests" | xargs -P "${JOBS:-4}" -n 64 bash -c 'try_requests "$@"' try_requests "$case" "$1" || exit 1
    own=$(wc -l <"$case/own")
    echo "$(basename "$program") $words ${input#"$top/"}: $requests requests, $own for the program's own work"
    all_requests=$((all_requests + requests))
    all_own=$((all_own + own))
    cases=$((cases + 1))
}

# check_largest PROGRAM FILE: no request of a program over a file of rows is too large.
check_largest() {
    local data=$top/crates/$1/data most=262144 largest
    ! grep -qE '^(surely )?(repeat|last|sum|insert_many) [0-9]{4,}( |$)' "$data/$2" || most=16777216
    largest=$(env -C "$data" "LD_PRELOAD=$scratch/refuse.so" REFUSE_COUNT=1 "$top/crates/$1/out/$1" "$2" 2>&1 >/dev/null |
        sed -n 's/.* largest //p')
    [ "$largest" -le "$most" ] && return
    echo "fault: $1 $2 asks for $largest bytes at once, and at most $most would do"
    exit 1
}

# count_requests PROGRAM ROW: how often a program asks for memory over a file of these lines.
count_requests() {
    printf '%b' "$2" >"$scratch/room.rows"
    env "LD_PRELOAD=$scratch/refuse.so" REFUSE_COUNT=1 "$1" "$scratch/room.rows" 2>&1 >"$scratch/room.printed" |
        sed -n 's/^requests \([0-9]*\) .*/\1/p'
    grep -q ', 0 differences, 0 calls made twice$' "$scratch/room.printed" || echo "and differs"
}

# check_room PROGRAM KIND ROOM LOOK CHANGE ..: once there is room for a hundred keys, lines that change the map ask for memory no more
# often than LOOK, lines of as many words that only look at it.
check_room() {
    local program=$top/crates/$1/out/$1 row="maps $2\nrow within the room\n$3\n" least seen change
    least=$(count_requests "$program" "$row$4\n")
    for change in "${@:5}"; do
        seen=$(count_requests "$program" "$row$change\n")
        [[ $seen = "$least" && $seen != *differs* ]] && continue
        echo "fault: $1 of the kind $2 asks for memory within its room by $change: $seen requests, where $least do"
        exit 1
    done
}

# check_emptied PROGRAM KIND ROOM FILL CALL ..: a call for all keys asks for memory no more often in a full map than in an empty one,
# which is filled afterwards. A CALL has the words LEFT where it tells how many keys there were.
check_emptied() {
    local call
    for call in "${@:5}"; do
        check_room "$1" "$2" "$3" "${call/LEFT/0 left}\n$4" "$4\n${call/LEFT/100 left}"
    done
}

# check_primary PROGRAM KIND: the calls of a primary map.
check_primary() {
    local each='surely repeat 100' fill='surely repeat 100 insert # -> #v1' room='reserve 100'
    local full="$room\n$fill"
    check_room "$1" "$2" "$room" "$each get #v1 -> none" "$fill" "$each insert_with_key # -> #v1" "$each try_insert_with_key # -> #v1"
    check_room "$1" "$2" "$full" "$each get #v1 -> #" "$each remove #v1 -> #"
    check_room "$1" "$2" "$full" "$each get_mut #v1 7 -> #" "$each replace #v1 7 -> #"
    check_room "$1" "$2" "$room" "$each has_capacity 50 -> true" "$each reserve 50 -> done" "$each try_reserve 50 -> done"
    check_emptied "$1" "$2" "$room" "$fill" clear 'retain even' 'drain 0 -> pairs, LEFT'
    [ "$2" = hop ] && return
    check_room "$1" "$2" "$full" "$each get #v1 -> #" "$each detach #v1 -> #"
    check_room "$1" "$2" "$full\n$each detach #v1 -> #" "$each replace #v1 # -> # back" "$each reattach #v1 #"
}

# check_secondary PROGRAM KIND RESERVE: the calls of a secondary map whose room is made by the call RESERVE.
check_secondary() {
    local each='surely repeat 100' fill='surely repeat 100 insert #v1 # -> none' room="$3 100"
    check_room "$1" "$2" "$room" "$each get_mut #v1 # -> # back" "$fill" "$each or_put #v1 # -> placed" \
        "$each or_insert #v1 # -> #" "$each entry_insert #v1 # -> #"
    check_room "$1" "$2" "$room\n$fill" "$each get #v1 -> #" "$each remove #v1 -> #"
    check_emptied "$1" "$2" "$room" "$fill" clear 'retain even' 'drain 0 -> pairs, LEFT'
}

# check_rooms PROGRAM: no call asks for memory within the room that was made. Joined runs make no room.
check_rooms() {
    local kind
    if [ "$1" = joined_rows ]; then
        return
    elif [ "$1" = primary_rows ]; then
        for kind in basic dense hop; do
            check_primary "$1" $kind
        done
    else
        for kind in 'secondary set_capacity' 'secondary try_set_capacity' 'sparse reserve' 'random try_reserve'; do
            check_secondary "$1" "${kind% *}" "${kind#* }"
        done
    fi
    echo "$1: no request within the room that was made"
}

# check_callers PROGRAM: the callers of a structure print what they have to, with a hundred requests at most. A path is a vector of its own.
check_callers() {
    local folder=$top/crates/$1 requests
    requests=$(env "LD_PRELOAD=$scratch/refuse.so" REFUSE_COUNT=1 "$folder/out/$1" 2>&1 >"$scratch/printed" |
        sed -n 's/^requests \([0-9]*\) .*/\1/p')
    diff "$scratch/printed" "$folder/stdout" || exit 1
    [[ $1 = paths_callers || $requests -le 100 ]] && return
    echo "fault: $1 asks for memory $requests times, and at most 100 would do"
    exit 1
}

# try_rows PROGRAM: the row files that the program's file `args` names.
try_rows() {
    local data=$top/crates/$1/data file
    while read -r file; do
        check_largest "$1" "$file"
        if grep -qE '^(surely )?(repeat|last|sum|insert_many) [0-9]{4,}( |$)' "$data/$file"; then
            echo "$1 $file: left out, since a call is repeated over 1,000 times"
        elif [[ $file = hundred-* ]]; then
            echo "$1 $file: left out, since its lists ask for memory as often"
        elif [[ $1/$file = secondary_rows/random-* || $1/$file = secondary_rows/listed-* ]]; then
            echo "$1 $file: left out, since it counts drops after an extend, which is called again with the rest"
        else
            try_case check_rows "$data" "$top/crates/$1/out/$1" "$file" /dev/null 0
        fi
    done <"$top/crates/$1/args"
}

# check_usage: `slotrun` with no words says so where there is no memory at all.
check_usage() {
    local status=0 seen
    seen=$(env "LD_PRELOAD=$scratch/refuse.so" REFUSE_FROM=1 "$top/crates/slotrun/out/slotrun" </dev/null 2>/dev/null) || status=$?
    [[ $status = 2 && $seen = "usage: slotrun basic|dense|hop" ]] && return
    echo "fault: slotrun with no words and no memory ends with status $status, and prints: $seen"
    exit 1
}

# try_slotrun: the scripts of tests/memory, for the kinds that their names end in. A bad script ends with status 2.
try_slotrun() {
    local script kinds kind status
    check_usage
    for script in "$top"/tests/memory/*.txt; do
        kinds=${script%.txt}
        case $script in */bad*) status=2 ;; *) status=0 ;; esac
        for kind in $(echo "${kinds#*.}" | tr . ' '); do
            try_case check_slotrun "$top" "$top/crates/slotrun/out/slotrun" "$kind" "$script" $status
        done
    done
}

# try_callers PROGRAM: the callers of a structure.
try_callers() {
    local check=check_demo
    check_callers "$1"
    [ "$1" = list_callers ] && check=check_list
    try_case $check "$top" "$top/crates/$1/out/$1" "" /dev/null 0
    [ "$1" = list_callers ] || return 0
    if ! cat "$scratch"/case.*/refused >"$scratch/refused"; then
        echo "fault: list_callers never prints the value that a list was refused"
        exit 1
    fi
    echo "list_callers: a list's refused value came back in $(wc -l <"$scratch/refused") runs"
}

callers="list_callers lists_callers graph_callers paths_callers scene_callers scheduler_callers entities_callers"
# shellcheck disable=SC2086
[ $# -gt 0 ] || set -- primary_rows secondary_rows joined_rows slotrun slotdemo $callers
for program in "$@"; do
    if [ ! -x "$top/crates/$program/out/$program" ]; then
        echo "memory.sh: crates/$program/out/$program isn't built: run \`rt run\` in crates/$program first" >&2
        exit 2
    fi
done
scratch=$(mktemp -d)
trap 'rm -rf "$scratch"' EXIT
"${CC:-cc}" -O2 -shared -fPIC -o "$scratch/refuse.so" "$top/tests/refuse.c"
all_requests=0
all_own=0
cases=0
for program in "$@"; do
    case $program in
        slotrun) try_slotrun ;;
        *_callers) try_callers "$program" ;;
        slotdemo) try_case check_demo "$top" "$top/crates/slotdemo/out/slotdemo" "" /dev/null 0 ;;
        *)
            check_rooms "$program"
            try_rows "$program"
            ;;
    esac
done
echo "$cases files and scripts, $all_requests requests, $all_own for programs' own work; $((2 * all_requests)) runs, no fault"
