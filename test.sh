#!/usr/bin/env bash
# ./test.sh [quick]
#
# Tests the project. `quick` needs no prover, and takes some four minutes on two processors:
#
#     pages     each page that a script writes, links, names, tables of calls with their tests: tests/docs.sh
#     archives  that c/dist was built from the sources that are here: c/sources.py
#     rust      the Rust crate: programs, rows, sizes, random calls, refused memory, panics, examples: rust/test.sh
#
# Without a word it then proves everything from the contracts up, and runs the programs that Rattle builds: `rt ci`.
#
# What a machine lacks is named, with where to get it. The rest is tested then, and the status is 3; it is 1 if anything failed.
# tests/release.sh runs what this leaves to releases.
set -uo pipefail
cd "$(dirname "$0")"
case "${1:-}" in
    "" | quick) ;;
    *) sed -n '2,15s/^# \{0,1\}//p' "$0"; exit 2 ;;
esac
failed=
lacking=

# part NAME COMMAND ..: runs a part, and says how it ended.
part() {
    local name=$1 start=$SECONDS
    shift
    if "$@"; then
        echo "test.sh: $name: passed in $((SECONDS - start)) s"
    else
        echo "test.sh: $name: FAILED"
        failed="$failed $name"
    fi
}

# has TOOL WHERE PART: whether the machine has a tool.
has() {
    command -v "$1" >/dev/null && return
    echo "test.sh: $3: left out, since $1 isn't here: $2"
    lacking="$lacking $3"
    return 1
}

has python3 "Python 3.9 or newer, https://www.python.org" "pages and archives" && {
    part pages tests/docs.sh
    part archives python3 c/sources.py --check
    has cargo "Rust 1.87 or newer, https://rustup.rs" rust && part rust rust/test.sh
}
[ "${1:-}" = quick ] || { has rt "the kit of Rattle" proofs && part proofs rt ci; }

[ -z "$failed" ] || { echo "test.sh: FAILED:$failed"; exit 1; }
[ -z "$lacking" ] || { echo "test.sh: what ran has passed; left out:$lacking"; exit 3; }
echo "test.sh: ok"
