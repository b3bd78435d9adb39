#!/usr/bin/env bash
# tests/release.sh [SOURCE]
#
# Runs what ./test.sh leaves to releases, each part to its end, and adds a line for each to tests/releases.tsv: the day, the commit, the
# part, how it ended, and its seconds.
#
#     examples       the examples of the proved sources' documentation, by the kit: tests/doc-examples.sh
#     wrong-bodies   each wrong body of every crate: tests/wrong-bodies.sh
#     memory         each allocation of the proved programs refused in turn: tests/memory.sh
#     archives       c/dist, built anew and compared byte by byte: c/dist.sh --check
#     c              the calls for C, C++ and Python: c/test.sh
#     c-source       the same, over the library from source: c/test.sh source
#     systems        the Rust crate on other systems: rust/systems.sh
#     beside         the Rust crate beside slotmap 1.1.1: rust/beside.sh, if SOURCE names that crate's folder, with src/lib.rs
#     compare        rows and every list of four calls beside slotmap, likewise: compare/
#
# The proved programs have to be built, as ./test.sh does. It takes some hours. The status is 0 if no part failed and none was left out.
set -uo pipefail
top=$(cd "$(dirname "$0")/.." && pwd)
cd "$top"
table=tests/releases.tsv
commit=$(git rev-parse --short HEAD)
[ -z "$(git status --porcelain -uno)" ] || commit="$commit and changes"
out=$(mktemp -d)
trap 'rm -rf "$out"' EXIT
status=0

# line PART RESULT SECONDS
line() {
    printf '%s\t%s\t%s\t%s\t%s\n' "$(date -u +%F)" "$commit" "$1" "$2" "$3" | tee -a "$table"
}

# part NAME COMMAND ..: runs a part. Scripts end with 3 where a machine lacks something.
part() {
    local name=$1 start=$SECONDS ended
    shift
    "$@" >"$out/$name.log" 2>&1
    ended=$?
    case $ended in
        0) line "$name" passed $((SECONDS - start)) ;;
        3) line "$name" "left out in part" $((SECONDS - start)); status=1 ;;
        *) line "$name" FAILED $((SECONDS - start)); tail -n 20 "$out/$name.log"; status=1 ;;
    esac
}

# The crate's results for the rows, and every list of four calls on both.
compare() {
    compare/build.sh "$1" "$out/compare" &&
        "$out/compare/rows" crates/primary_rows/data/*.rows crates/secondary_rows/data/*.rows &&
        compare/every-list.sh "$out/compare/rows" "$out/every" 4
}

part examples tests/doc-examples.sh
part wrong-bodies tests/wrong-bodies.sh
part memory tests/memory.sh
part archives c/dist.sh --check
part c c/test.sh
part c-source c/test.sh source
part systems rust/systems.sh
if [ $# -eq 1 ]; then
    part beside rust/beside.sh "$1"
    part compare compare "$1"
else
    line beside "left out" 0
    line compare "left out" 0
    status=1
fi
exit $status
