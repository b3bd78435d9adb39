#!/usr/bin/env bash
# c/python/wheels.sh [--check]
#
# Builds the wheels for x86-64 and AArch64 over the archives of c/dist, into the folder c/dist/wheels:
#
#     slotmap_proved-VERSION-cp39-abi3-manylinux2014_MACHINE.manylinux_2_17_MACHINE.whl, for Python 3.9 and newer ones
#     BUILT, the compilers and the version of Python's headers
#
# With --check it builds them in another folder, and fails if a byte differs from what is there. The bytes depend on the compilers and
# the headers; where BUILT differs, they can't be compared, and it says so. It needs Python with its headers, a C compiler for both
# machines (gcc-aarch64-linux-gnu) and binutils.
set -euo pipefail
here=$(cd "$(dirname "$0")" && pwd)
there=$here/../dist/wheels
out=$(mktemp -d)
trap 'rm -rf "$out"' EXIT
mkdir "$out/wheels"

# wheel MACHINE COMPILER: builds one, and makes sure that it asks for nothing that glibc 2.17 lacks, and for no library but libc.
wheel() {
    local name newest
    name=$(cd "$here" && PYTHONDONTWRITEBYTECODE=1 CC=$2 python3 backend.py "$1" "$out/wheels")
    python3 -m zipfile -e "$out/wheels/$name" "$out/$1"
    newest=$(objdump -T "$out/$1"/slotmap_proved/_tables.abi3.so | grep -o 'GLIBC_[0-9.]*' | sed 's/GLIBC_//' | sort -Vu | tail -n 1)
    [ "$(printf '%s\n2.17\n' "$newest" | sort -V | tail -n 1)" = 2.17 ] || { echo "wheels.sh: $name needs glibc $newest" >&2; exit 1; }
    [ "$(objdump -p "$out/$1"/slotmap_proved/_tables.abi3.so | awk '$1 == "NEEDED" { print $2 }')" = libc.so.6 ] ||
        { echo "wheels.sh: $name needs more than libc" >&2; exit 1; }
    echo "$1: $("$2" --version | head -n 1)" >>"$out/wheels/BUILT"
}

machine_compiler() {
    if [ "$(uname -m)" = "$1" ]; then echo "${CC:-gcc}"; else echo "$1-linux-gnu-gcc"; fi
}

python3 -c 'import platform; print("Python", platform.python_version())' >"$out/wheels/BUILT"
for machine in x86_64 aarch64; do
    wheel "$machine" "$(machine_compiler "$machine")"
done
if [ "${1:-}" != --check ]; then
    rm -rf "$there"
    cp -r "$out/wheels" "$there"
elif ! cmp -s "$there/BUILT" "$out/wheels/BUILT"; then
    echo "wheels.sh: not compared, since the wheels were built with others than these:"
    diff "$there/BUILT" "$out/wheels/BUILT" || exit 0
else
    diff -r "$there" "$out/wheels" || { echo "wheels.sh: c/dist/wheels differs from what was built; run c/python/wheels.sh" >&2; exit 1; }
    echo "wheels.sh: the same bytes"
fi
