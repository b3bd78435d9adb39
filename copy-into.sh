#!/usr/bin/env bash
# copy-into.sh DEST [CRATE ..]
# copy-into.sh --archive FILE [CRATE ..]
#
# Gives the repository DEST the library as it was proved here: its ten crates, without tests, rows and deliberately faulty
# bodies, and with what their proofs built. A check of a crate over them then takes seconds in place of most of an hour. A
# structure is taken by its crate's name, as slotmap_graph. The lines for crates.txt are added to that of DEST.
#
# With --archive the same is packed into a file. On another machine with the same kit, unpack it at the top of a repository by
# `tar -xf FILE`, and append the file crates/slotmap.txt to crates.txt.
#
# What isn't proved in this clone yet is proved first. Who takes the library so trusts whoever proved it, as with the libraries
# of the kit: the verdict says `libraries-built=trusted`. `rt ci` in one's own repository proves all of it anew.
set -euo pipefail
here=$(cd "$(dirname "$0")" && pwd)
usage() {
    sed -n '2,3s/^# //p' "$0" >&2
    exit 2
}
archive=
if [ "${1:-}" = --archive ]; then
    shift
    archive=$(realpath -m "${1:-}")
fi
[ $# -ge 1 ] || usage
dest=$1
shift
[ -n "$archive" ] || [ -d "$dest" ] || usage

# Names each crate of these and of those below them that crates.txt of this repository lists.
below() {
    local name
    for name in "$@"; do
        # shellcheck disable=SC2046
        grep -q "^$name:" "$here/crates.txt" && below $(sed -n "s/^$name: *//p" "$here/crates.txt") && echo "$name"
    done
    return 0
}
wanted=(slotmap "$@")
for name in "${wanted[@]}"; do
    grep -q "^$name:" "$here/crates.txt" || { echo "copy-into.sh: crates.txt has no crate $name" >&2; exit 2; }
done
mapfile -t crates < <(below "${wanted[@]}" | awk '!seen[$0]++')
for name in "${crates[@]}"; do
    [ -n "$archive" ] || [ ! -e "$dest/crates/$name" ] || { echo "copy-into.sh: $dest has a crate $name" >&2; exit 2; }
done

for name in "${wanted[@]}"; do
    (cd "$here/crates/$name" && rt lib >&2)
done

# A repository of these crates alone.
room=$(mktemp -d)
trap 'rm -rf "$room"' EXIT
cp "$here/HANDLES" "$room/"
for name in "${crates[@]}"; do
    grep "^$name:" "$here/crates.txt" >>"$room/crates.txt"
    mkdir -p "$room/crates/$name/out"
    for part in src specs proofs; do
        [ ! -d "$here/crates/$name/$part" ] || cp -r "$here/crates/$name/$part" "$room/crates/$name/"
    done
    cp -r "$here/crates/$name/out/rlib" "$room/crates/$name/out/"
done
git -C "$room" init --quiet
for name in "${wanted[@]}"; do
    (cd "$room/crates/$name" && rt lib >&2)
done
for name in "${crates[@]}"; do
    find "$room/crates/$name/out" -mindepth 1 -maxdepth 1 ! -name rlib -exec rm -rf {} +
done

if [ -n "$archive" ]; then
    mv "$room/crates.txt" "$room/crates/slotmap.txt"
    mkdir -p "$(dirname "$archive")"
    packer=xz
    ! command -v zstd >/dev/null || packer="zstd -q -6 --long=27"
    tar -C "$room" --use-compress-program="$packer" -cf "$archive" crates
    echo "$archive: ${#crates[@]} crates, $(du -h "$archive" | cut -f 1)"
else
    mkdir -p "$dest/crates"
    cp -r "$room"/crates/* "$dest/crates/"
    cat "$room/crates.txt" >>"$dest/crates.txt"
    echo "$dest: ${#crates[@]} crates"
fi
