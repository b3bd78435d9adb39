#!/usr/bin/env bash
# rust/systems.sh
#
# Builds the crate and the project's programs for other systems, and compares what the programs print with what the proved ones print. On the
# first two the library for C is built too, and makes the calls of c/tests/calls.c and keys.c:
#
#     aarch64-unknown-linux-gnu    under qemu-aarch64-static
#     x86_64-pc-windows-gnu        under wine
#     wasm32-wasi                  under node, with 32 bits: joined_rows alone, since the rows of the others name numbers of 64 bits, and
#                                  one calls next_after of the null key, which the page of the crate excepts there
#
# It takes the compiler RUSTC, or rustc. On Debian 12 `apt-get install rustc libstd-rust-dev-windows libstd-rust-dev-wasm32` gives
# /usr/bin/rustc with two of these, and after `dpkg --add-architecture arm64` `apt-get install libstd-rust-dev:arm64` the third. That
# compiler is Rust 1.63: the script gives it the one feature of 1.65 that the crate takes, `let ... else`, and leaves slotrun out, in which
# it refuses a use of that feature. It also needs gcc-aarch64-linux-gnu, qemu-user-static, gcc-mingw-w64-x86-64, wine and nodejs.
#
# What a machine lacks is named. The status is 0 if all three systems passed, 3 if one was left out, and 1 if one printed something else.
set -euo pipefail
top=$(cd "$(dirname "$0")/.." && pwd)
compiler=${RUSTC:-rustc}
out=$(mktemp -d)
trap 'rm -rf "$out"' EXIT
left_out=

# An older compiler takes the one form that it lacks as a feature.
flags=(--edition 2021 -O --cap-lints allow)
version=$("$compiler" --version | sed -E 's/rustc 1\.([0-9]+).*/\1/')
if [ "$version" -lt 65 ]; then
    export RUSTC_BOOTSTRAP=1
    flags+=('-Zcrate-attr=feature(let_else)' --cfg without_slotrun)
fi
features=()
for feature in std structures runs json internals; do
    features+=(--cfg "feature=\"$feature\"")
done

# lacks TARGET TOOL ..: says what is missing of it, if anything is.
lacks() {
    local tool missing=
    [ -d "$("$compiler" --print sysroot)/lib/rustlib/$1/lib" ] || missing="the target $1 of $compiler"
    for tool in "${@:2}"; do
        command -v "$tool" >/dev/null || missing="${missing:+$missing, }$tool"
    done
    [ -n "$missing" ] || return 1
    echo "left out: $1, for want of $missing"
    left_out=yes
}

# build TARGET FLAG ..: the programs for a system.
build() {
    local folder=$out/$1
    mkdir "$folder"
    set -- "${flags[@]}" --target "$@" -L "$folder" --out-dir "$folder"
    "$compiler" "$@" --crate-name serde_json --crate-type rlib "$top/rust/check/serde_json/src/lib.rs"
    "$compiler" "$@" "${features[@]}" --extern serde_json --crate-name slotmap_proved --crate-type rlib "$top/rust/src/lib.rs"
    "$compiler" "$@" --extern serde_json --extern slotmap_proved --crate-name programs "$top/rust/check/src/bin/programs.rs"
}

# same TARGET RUN ..: each of these programs prints what the proved one prints.
programs="primary_rows secondary_rows joined_rows"
same() {
    local name folder
    for name in $programs; do
        folder=$top/crates/$name
        # shellcheck disable=SC2046
        (cd "$folder/data" && "${@:2}" "$name" $(cat ../args)) >"$out/printed"
        tr -d '\r' <"$out/printed" | cmp - "$folder/stdout" || { echo "rust/systems.sh: $name prints something else on $1" >&2; exit 1; }
    done
    if [ "$version" -ge 65 ]; then
        folder=$top/crates/slotrun
        # shellcheck disable=SC2046
        "${@:2}" slotrun $(cat "$folder/args") <"$folder/stdin" >"$out/printed"
        tr -d '\r' <"$out/printed" | cmp - "$folder/stdout" || { echo "rust/systems.sh: slotrun prints something else on $1" >&2; exit 1; }
    fi
    echo "$1: the programs print what the proved ones print"
}

# for_c TARGET LINKER FLAGS RUN ..: the library for C, and its tests calls and keys.
for_c() {
    local folder=$out/$1 test
    "$compiler" "${flags[@]}" --target "$1" -C linker="$2" -C panic=abort --cfg 'feature="std"' -L "$folder" --out-dir "$folder" \
        --crate-name slotmap_c --crate-type staticlib --extern slotmap_proved "$top/rust/c/src/lib.rs"
    for test in calls keys; do
        # shellcheck disable=SC2086
        "$2" -std=c99 -O2 -I "$top/c" "$top/c/tests/$test.c" "$folder/libslotmap_c.a" $3 -o "$folder/$test.exe"
        printf '%s: ' "$1"
        "${@:4}" "$folder/$test.exe"
    done
}

system=aarch64-unknown-linux-gnu
if ! lacks $system aarch64-linux-gnu-gcc qemu-aarch64-static; then
    build $system -C linker=aarch64-linux-gnu-gcc -C target-feature=+crt-static
    same $system qemu-aarch64-static "$out/$system/programs"
    for_c $system aarch64-linux-gnu-gcc "-lpthread -ldl" qemu-aarch64-static -L /usr/aarch64-linux-gnu
fi

system=x86_64-pc-windows-gnu
if ! lacks $system x86_64-w64-mingw32-gcc wine; then
    build $system -C linker=x86_64-w64-mingw32-gcc
    export WINEDEBUG=-all WINEPREFIX=$out/wine
    same $system wine "$out/$system/programs.exe"
    for_c $system x86_64-w64-mingw32-gcc "-ladvapi32 -luserenv -lws2_32 -lbcrypt -lntdll" wine
fi

system=wasm32-wasi
if ! lacks $system node; then
    build $system
    cat >"$out/run.mjs" <<'JS'
import { readFileSync } from 'node:fs';
import { WASI } from 'node:wasi';
const [program, ...args] = process.argv.slice(2);
const wasi = new WASI({ version: 'preview1', args: ['programs', ...args], preopens: { '.': process.cwd() }, returnOnExit: true });
const module = await WebAssembly.compile(readFileSync(program));
process.exit(wasi.start(await WebAssembly.instantiate(module, wasi.getImportObject())));
JS
    programs=joined_rows
    same $system node --no-warnings "$out/run.mjs" "$out/$system/programs.wasm"
fi

[ -z "$left_out" ] || exit 3
