#!/usr/bin/env bash
# c/test.sh [ARCHIVE | source]
#
# Tests the calls for C, C++ and Python over the archive of c/dist for this machine, or over ARCHIVE. With the word `source` the archive is
# the one that cargo builds of rust/c without std. The library with std is then tested too, static and shared, and random calls compare both
# with the archive of c/dist. In either case:
#
# - every call, from C99 and from C++17, also with clang's address and undefined-behaviour sanitizers, under valgrind, and on an
#   x86-64 processor without SSE4.1 under qemu;
# - each allocation refused in turn, also under valgrind;
# - that the calls which only read write nothing to the handle, so that two threads may read it at once;
# - the classes of slotmap.hpp: each call, random calls beside a model with moves that throw and memory that is refused, each allocation
#   refused in turn, with sanitizers, by each compiler for C++17 and C++20, and without exceptions; where a walk begins, with 200,000
#   values; two threads that read one of each;
# - `make install` into a folder, with a program by pkg-config and by CMake, static and shared, and the names that the shared library has;
# - a second `make install` with another prefix and another archive, one into folders with a space, and `make uninstall`; one in
#   another folder from sources that can't be written; CMake's add_subdirectory and FetchContent;
# - the Python package, installed by pip into a folder, from source, from a source distribution and as the wheel of c/dist: every call,
#   random calls beside a model, objects that make calls within calls, threads, interpreters, signatures, each allocation refused, and
#   its type hints. PYTHONS="python3.9 .." names other Pythons than python3. Random calls are made too over the module as gcc's
#   address and undefined-behaviour sanitizers compile it;
# - the program of docs/C.md in C, C++ and Python: each prints what the page says, also by the commands that the page has;
# - the archive for AArch64 under qemu, also by the classes, and that for x86-64-v2; the archive with musl's C library;
# - that the headers compile for Windows without a warning: there is no archive for Windows to run;
# - that c/dist.sh --check tells another kit's name, and refuses another byte;
# - that the prototypes of slotmap.h are the exports;
# - that the packages have the version of slotmap.h and the licences, and that dist/SHA256SUMS has the sums.
#
# It is outside the gate, and needs a C compiler, binutils and make. What else a machine lacks it leaves out, and names: then the status is
# 3. It is 1 if a test failed. It needs no kit. On Debian the rest is in valgrind, clang, cmake, pkg-config, python3-dev, python3-venv, mypy,
# gcc-aarch64-linux-gnu, g++-aarch64-linux-gnu, qemu-user-static, musl-tools and g++-mingw-w64-x86-64.
set -euo pipefail
top=$(cd "$(dirname "$0")/.." && pwd)
machine=$(uname -m)
archive=$(realpath -m "${1:-$top/c/dist/$machine-linux/libslotmap_c.a}")
out=$(mktemp -d)
trap 'rm -rf "$out"' EXIT
if [ "${1:-}" = source ]; then
    built=$top/rust/c/target
    (cd "$top/rust/c" && cargo build --offline --quiet --release --no-default-features --target-dir "$built/without-std" &&
        cargo build --offline --quiet --release --target-dir "$built")
    archive=$out/source.a
    # Without what is for a linker of Rust's alone: an older plugin of binutils complains of it at each look.
    objcopy --remove-section=.llvmbc --remove-section=.llvmcmd "$built/without-std/release/libslotmap_c.a" "$archive" >"$out/log" 2>&1
fi
[ -e "$archive" ] || { echo "c/test.sh: there is no $archive: run c/dist.sh, or name another" >&2; exit 2; }
cd "$top/c"

# leave REASON PART: names a part that isn't tested here.
left_out=
leave() {
    echo "left out, since $1: $2"
    left_out="$left_out; $2"
}

# has TOOL ..: whether the machine has these, with a word if not.
has() {
    local tool
    for tool in "$@"; do
        command -v "$tool" >/dev/null || { leave "$tool is missing" "${left:-}"; return 1; }
    done
}

checked() {
    printf '%s: ' "$1"
    shift
    "$@"
}

# The lines between the marks of the page.
sed -n '/<!-- printed -->/,/<!-- end -->/s/^    //p' ../docs/C.md >"$out/expected"
[ -s "$out/expected" ] || { echo "c/test.sh: docs/C.md doesn't say what the program prints" >&2; exit 1; }
same() {
    "$@" >"$out/printed"
    diff "$out/expected" "$out/printed" || { echo "c/test.sh: $* prints something else than docs/C.md says" >&2; exit 1; }
    echo "the page's program: the same lines from $*"
}

# typed NAME ..: runs the commands of these blocks of the page in a fresh folder with a copy of c. The program's lines come last.
typed() {
    local name folder
    folder=$(mktemp -d "$out/typed-XXXXXX")
    mkdir "$folder/c" "$folder/home"
    cp -r Makefile slotmap-config* LICENSE* slotmap.h slotmap*.hpp heap.c dist examples python tests "$folder/c"
    ln -s "$top/rust" "$folder"
    for name in "$@"; do
        sed -n "/<!-- typed $name -->/,/<!-- end -->/s/^    //p" ../docs/C.md | sed "s/x86_64-linux/$machine-linux/" >>"$folder/commands"
    done
    [ -s "$folder/commands" ] || { echo "c/test.sh: docs/C.md has no commands for $*" >&2; exit 1; }
    (cd "$folder" && env -u PYTHONPATH HOME="$folder/home" bash -eu commands) >"$folder/printed" || { echo "c/test.sh: the page's commands for $* failed" >&2; exit 1; }
    tail -n "$(wc -l <"$out/expected")" "$folder/printed" | diff "$out/expected" - || { echo "c/test.sh: the page's commands for $* print something else" >&2; exit 1; }
    echo "the page's commands for $*: typed"
}

strict=(-Wall -Wextra -Wpedantic -Wconversion -Werror -O2 -I.)
grind=(valgrind -q --error-exitcode=9 --leak-check=full)

cc -std=c99 "${strict[@]}" -fPIC -c heap.c -o "$out/heap.o"
cc -std=c99 "${strict[@]}" tests/calls.c "$out/heap.o" "$archive" -o "$out/calls"
cc -std=c99 "${strict[@]}" tests/keys.c "$out/heap.o" "$archive" -o "$out/keys"
cc -std=c99 "${strict[@]}" tests/refused.c "$out/heap.o" "$archive" -Wl,--wrap=malloc,--wrap=realloc -o "$out/refused"
cc -std=c99 "${strict[@]}" examples/names.c "$out/heap.o" "$archive" -o "$out/names"
cc -std=c99 "${strict[@]}" examples/items.c "$out/heap.o" "$archive" -o "$out/items"
checked "C99" "$out/calls"
checked "C99" "$out/keys"
checked "C99" "$out/refused"
checked "C99" "$out/items"
cc -std=c99 "${strict[@]}" -pthread tests/readers.c "$out/heap.o" "$archive" -o "$out/readers"
checked "C99" "$out/readers"
same "$out/names"
typed c
if left="valgrind" has valgrind; then
    for program in calls keys refused items; do
        checked "valgrind" "${grind[@]}" "$out/$program"
    done
fi

if left="C++" has c++; then
    # heap.c as C++ too, and two libraries that each bring one.
    c++ -std=c++17 "${strict[@]}" -x c++ -c heap.c -o "$out/heap-cpp.o"
    c++ -std=c++17 "${strict[@]}" -x c++ tests/calls.c -x none "$out/heap.o" "$out/heap-cpp.o" "$archive" -o "$out/calls-cpp"
    c++ -std=c++17 "${strict[@]}" -x c++ tests/keys.c -x none "$out/heap-cpp.o" "$archive" -o "$out/keys-cpp"
    c++ -std=c++17 "${strict[@]}" tests/classes.cpp "$out/heap-cpp.o" "$archive" -o "$out/classes"
    c++ -std=c++17 "${strict[@]}" -Wshadow -Wold-style-cast examples/names.cpp "$out/heap-cpp.o" "$archive" -o "$out/names-cpp"
    checked "C++17" "$out/calls-cpp"
    checked "C++17" "$out/keys-cpp"
    checked "C++17" "$out/classes"
    c++ -std=c++17 "${strict[@]}" tests/refused.cpp "$archive" -o "$out/classes-refused"
    checked "C++17" "$out/classes-refused"
    c++ -std=c++17 "${strict[@]}" tests/random.cpp "$archive" -o "$out/random"
    checked "C++17" "$out/random"
    if left="valgrind" has valgrind; then
        checked "valgrind" "${grind[@]}" "$out/classes"
        checked "valgrind" "${grind[@]}" "$out/random" 20000
    fi
    same "$out/names-cpp"
    typed c++
    # What doesn't compile, and what the compiler has to say of it.
    refuses() {
        printf '#include "slotmap.hpp"\n#include <mutex>\nint main() { %s }\n' "$2" >"$out/refused.cpp"
        ! c++ "-std=$1" -Werror=unused-result -I. -fsyntax-only "$out/refused.cpp" 2>"$out/errors" && grep -q "$3" "$out/errors" && return
        echo "c/test.sh: $2 under $1 should be refused, since $3" >&2
        exit 1
    }
    refuses c++17 "slotmaps::slot_map<std::mutex> map; map.emplace();" "can be moved"
    refuses c++17 "slotmaps::word_map<std::string> map; map.insert({});" "at most 8 bytes"
    refuses c++17 "struct a; struct b; slotmaps::slot_map<int, a> map; map.erase(slotmaps::slot_map<int, b>().insert(1));" "no matching"
    refuses c++14 "" "needs C++17"
    refuses c++17 "slotmaps::slot_map<int> map; map.insert(1);" "nodiscard"
    echo "C++17: what slotmap.hpp refuses doesn't compile"
    for compiler in c++ clang++; do
        left="$compiler" has "$compiler" || continue
        for flags in -std=c++17 -std=c++20 "-std=c++17 -fno-exceptions" "-std=c++20 -fno-exceptions"; do
            for program in classes values walks; do
                # shellcheck disable=SC2086
                "$compiler" $flags "${strict[@]}" -O1 "tests/$program.cpp" "$out/heap.o" "$archive" -o "$out/$program-each"
                checked "$compiler $flags" "$out/$program-each"
            done
        done
    done
fi
if left="sanitizers" has clang clang++; then
    sanitize=(-g -fsanitize=address,undefined -fno-sanitize-recover)
    clang -std=c99 "${strict[@]}" "${sanitize[@]}" tests/calls.c heap.c "$archive" -o "$out/calls-sanitized"
    clang -std=c99 "${strict[@]}" "${sanitize[@]}" tests/keys.c heap.c "$archive" -o "$out/keys-sanitized"
    clang -std=c99 "${strict[@]}" "${sanitize[@]}" -c heap.c -o "$out/heap-sanitized.o"
    clang++ -std=c++17 "${strict[@]}" "${sanitize[@]}" tests/classes.cpp "$out/heap-sanitized.o" "$archive" -o "$out/classes-sanitized"
    checked "sanitizers" "$out/calls-sanitized"
    checked "sanitizers" "$out/keys-sanitized"
    checked "sanitizers" "$out/classes-sanitized"
    clang++ -std=c++17 "${strict[@]}" "${sanitize[@]}" tests/refused.cpp "$archive" -o "$out/classes-refused-sanitized"
    checked "sanitizers" "$out/classes-refused-sanitized"
    for program in random values walks; do
        heap=$out/heap-sanitized.o
        [ "$program" != random ] || heap=
        # shellcheck disable=SC2086
        clang++ -std=c++17 "${strict[@]}" "${sanitize[@]}" "tests/$program.cpp" $heap "$archive" -o "$out/$program-sanitized"
    done
    checked "sanitizers" "$out/random-sanitized" 350000
    checked "sanitizers" "$out/values-sanitized"
    checked "sanitizers" "$out/walks-sanitized"
    clang++ -std=c++17 "${strict[@]}" -g -fsanitize=thread -pthread tests/readers.cpp "$out/heap.o" "$archive" -o "$out/classes-readers"
    if "$out/classes-readers" >"$out/printed" 2>&1; then
        echo "thread sanitizer: $(cat "$out/printed")"
    elif grep -q "unexpected memory mapping" "$out/printed"; then
        leave "this kernel places memory where clang's thread sanitizer needs it" "two threads that read"
    else
        cat "$out/printed" >&2
        exit 1
    fi
fi

# A copy, so that nothing is built in the folder c.
cp -r Makefile slotmap-config* LICENSE* slotmap.h slotmap*.hpp heap.c tests examples "$out/"
make -s -C "$out" install ARCHIVE="$archive" PREFIX=/opt/slotmap DESTDIR="$out/root"
root=$out/root/opt/slotmap
if left="pkg-config" has pkg-config; then
    flags=$(PKG_CONFIG_PATH=$root/lib/pkgconfig PKG_CONFIG_SYSROOT_DIR=$out/root pkg-config --cflags --libs slotmap)
    # shellcheck disable=SC2086
    cc -std=c99 -O2 examples/names.c $flags -o "$out/names-shared"
    # shellcheck disable=SC2086
    cc -std=c99 -O2 examples/names.c $flags -Wl,-Bstatic -lslotmap -Wl,-Bdynamic -o "$out/names-static"
    same env LD_LIBRARY_PATH="$root/lib" "$out/names-shared"
    typed install
    typed install static
fi
if left="CMake" has cmake; then
    cmake_program() {
        mkdir -p "$out/cmake-$1"
        printf '%s\n' 'cmake_minimum_required(VERSION 3.10)' 'project(names C)' "find_package(slotmap $2 REQUIRED)" \
            "add_executable(names $top/c/examples/names.c)" "target_link_libraries(names slotmap::$1)" >"$out/cmake-$1/CMakeLists.txt"
        cmake -S "$out/cmake-$1" -B "$out/cmake-$1/build" -DCMAKE_PREFIX_PATH="$root" >"$out/cmake-log" 2>&1 && cmake --build "$out/cmake-$1/build" >>"$out/cmake-log" 2>&1
    }
    for kind in slotmap static; do
        cmake_program "$kind" 0.7 || { cat "$out/cmake-log" >&2; exit 1; }
        same "$out/cmake-$kind/build/names"
    done
    # The build folder is told of a second copy: then it takes the header from there too.
    cp -r "$root" "$out/second"
    cmake -S "$out/cmake-static" -B "$out/cmake-static/build" -Dslotmap_DIR="$out/second/lib/cmake/slotmap" >"$out/cmake-log" 2>&1
    grep -q "slotmap_INCLUDE_DIR.*=$out/second/include" "$out/cmake-static/build/CMakeCache.txt" || { echo "c/test.sh: CMake keeps the header of its first copy" >&2; exit 1; }
    ! cmake_program other 0.8 && grep -q "requested version" "$out/cmake-log" || { echo "c/test.sh: CMake takes the version 0.8" >&2; exit 1; }
    echo "CMake: both libraries, and no other version"
    # As part of another build: a program in C++ whose own build has no C, and one that fetches the package; from sources that stay as they are.
    as_part() {
        mkdir -p "$out/part $1"
        printf '%s\n' 'cmake_minimum_required(VERSION 3.14)' "project(names $2)" "${@:4}" "add_executable(names \"$top/c/examples/$3\")" \
            'target_compile_features(names PRIVATE '"$([ "$2" = C ] && echo c_std_99 || echo cxx_std_17))" "target_link_libraries(names slotmap::$1)" >"$out/part $1/CMakeLists.txt"
        cmake -S "$out/part $1" -B "$out/part $1/build" -DSLOTMAP_ARCHIVE="$archive" >"$out/cmake-log" 2>&1 && cmake --build "$out/part $1/build" >>"$out/cmake-log" 2>&1 || { cat "$out/cmake-log" >&2; exit 1; }
        same "$out/part $1/build/names"
    }
    as_part static CXX names.cpp "add_subdirectory(\"$top/c\" slotmap)"
    as_part slotmap C names.c 'include(FetchContent)' "FetchContent_Declare(slotmap SOURCE_DIR \"$top\" SOURCE_SUBDIR c)" 'FetchContent_MakeAvailable(slotmap)'
    ! cmake -S . -B "$out/cmake-other" -DCMAKE_SYSTEM_NAME=Linux -DCMAKE_SYSTEM_PROCESSOR=sparc64 >"$out/cmake-log" 2>&1 && grep -q "no archive for sparc64" "$out/cmake-log" || { echo "c/test.sh: CMake has an archive for sparc64" >&2; exit 1; }
fi
# Another prefix and another archive after a first build, also an older one.
again() {
    make -s -C "$out" "$@" PREFIX=/opt/other DESTDIR="$out/other" install
    grep -qx "prefix=/opt/other" "$out/other/opt/other/lib/pkgconfig/slotmap.pc" || { echo "c/test.sh: slotmap.pc has another prefix" >&2; exit 1; }
    nm "$out/other/opt/other/lib/libslotmap.a" 2>/dev/null | grep -c another_archive || true
}
echo 'int another_archive;' | cc -x c -c - -o "$out/another.o"
cp "$archive" "$out/another.a"
ar r "$out/another.a" "$out/another.o"
touch -d 2000-01-01 "$out/another.a"
[ "$(again ARCHIVE="$out/another.a") $(again ARCHIVE="$archive")" = "1 0" ] || { echo "c/test.sh: make keeps the archive of its first build" >&2; exit 1; }
echo "make install: another prefix and another archive after a first build"
spaces=("PREFIX=$out/with a space" "LIBDIR=$out/with a space/lib64" ARCHIVE="$archive")
make -s -C "$out" install "${spaces[@]}"
[ -e "$out/with a space/lib64/libslotmap.so" ] && [ -e "$out/with a space/include/slotmap.h" ] || { echo "c/test.sh: make install left files out" >&2; exit 1; }
make -s -C "$out" uninstall "${spaces[@]}"
[ -z "$(find "$out/with a space" ! -type d)" ] || { echo "c/test.sh: make uninstall left files" >&2; exit 1; }
! make -C "$out" CC="echo x86_64-w64-mingw32; true" >"$out/log" 2>&1 && grep -q "no archive for x86_64-w64-mingw32" "$out/log" || { echo "c/test.sh: make takes a Linux archive for another system" >&2; exit 1; }
echo "make install: into folders with a space, and uninstall removes all of it"
# From sources that can't be written, in another folder, whose name has a space.
sources() { (cd "$out/sources" && find . -newer "$out/before"); }
mkdir "$out/sources" "$out/else where"
cp -r Makefile slotmap-config* LICENSE* slotmap.h slotmap*.hpp heap.c tests examples "$out/sources"
cp "$archive" "$out/else where/an archive.a"
touch "$out/before"
chmod -R a-w "$out/sources"
for build in build "a folder/build"; do
    (cd "$out/else where" && make -s -f "$out/sources/Makefile" install check BUILD="$build" PREFIX="$out/else where/$build/root" ARCHIVE="an archive.a") >"$out/log" 2>&1 || { cat "$out/log" >&2; exit 1; }
    [ -e "$out/else where/$build/root/lib/libslotmap.a" ] && [ -z "$(sources)" ] || { echo "c/test.sh: make writes to its sources" >&2; exit 1; }
done
chmod -R u+w "$out/sources"
echo "make install and check: in another folder, from sources that can't be written"
sed -n 's/^[a-z_0-9]* \(slotmap_[a-z_]*\)(.*);$/\1/p' slotmap.h | sort >"$out/declared"
# exports WHAT LIBRARY: a shared library has the names of slotmap.h, and no other.
exports() {
    nm -D --defined-only "$2" | awk '{ print $3 }' | sort | diff "$out/declared" -
    echo "$1: the shared library has the $(wc -l <"$out/declared") names of slotmap.h, and no other"
}
exports "make install" "$root/lib/libslotmap.so"
# While the version is 0.x, another x may break a program: the name that a program asks for says which.
soname=$(sed -n 's/.*SLOTMAP_VERSION "\(0\.[0-9]*\|[1-9][0-9]*\).*/libslotmap.so.\1/p' slotmap.h)
[ "$(objdump -p "$root/lib/libslotmap.so" | awk '$1 == "SONAME" { print $2 }')" = "$soname" ] && [ -e "$root/lib/$soname" ] ||
    { echo "c/test.sh: the shared library isn't $soname" >&2; exit 1; }
if [ "${1:-}" = source ]; then
    exports "cargo build" "$built/release/libslotmap_c.so"
    cc -std=c99 "${strict[@]}" tests/beside.c -ldl -o "$out/beside"
    cc -shared "$out/heap.o" -Wl,--whole-archive "dist/$machine-linux/libslotmap_c.a" -Wl,--no-whole-archive -o "$out/archive.so"
    for library in "$root/lib/libslotmap.so" "$built/release/libslotmap_c.so"; do
        "$out/beside" "$out/archive.so" "$library" 10000000
    done
    cc -std=c99 "${strict[@]}" tests/refused.c "$built/release/libslotmap_c.a" -Wl,--wrap=malloc,--wrap=realloc -o "$out/refused-std"
    checked "with std" "$out/refused-std"
    for kind in -Wl,-Bstatic -Wl,-Bdynamic; do
        for program in tests/calls tests/keys examples/names; do
            cc -std=c99 "${strict[@]}" "$program.c" "-L$built/release" "-Wl,-rpath,$built/release" "$kind" -lslotmap_c -Wl,-Bdynamic -o "$out/with-std"
            [ "$program" != examples/names ] || { same "$out/with-std"; continue; }
            checked "with std, ${kind#-Wl,-B}" "$out/with-std"
        done
    done
    RUSTUP_HOME=${RUSTUP_HOME:-$HOME/.rustup} CARGO_HOME=${CARGO_HOME:-$HOME/.cargo} typed source
fi

# pip_into PYTHON FOLDER WHAT ..: by pip, without a network, into a folder from which programs then import.
pip_into() {
    "$1" -m pip install --quiet --no-index --disable-pip-version-check --root-user-action ignore --target "$2" "${@:3}"
    export PYTHONPATH=$2 PYTHONDONTWRITEBYTECODE=1
}
python_tests() {
    [ "$(nm -D --defined-only "$PYTHONPATH"/slotmap_proved/_tables*.so | awk '{ print $3 }')" = PyInit__tables ] ||
        { echo "c/test.sh: the module for Python has other names" >&2; exit 1; }
    for program in calls dict_calls reenter package; do
        checked "$("$1" --version)" "$1" "tests/$program.py"
    done
    same "$1" examples/names.py
    [ ! -e "$out/refuse.so" ] || checked "$("$1" --version)" env LD_PRELOAD="$out/refuse.so" "$1" tests/refused.py
}
has_headers() {
    "$1" -c "import os, sysconfig; exit(not os.path.exists(sysconfig.get_path('include') + '/Python.h'))" ||
        { leave "Python.h is missing" "the Python package from source"; return 1; }
}
cc -O2 -shared -fPIC tests/refuse.c -o "$out/refuse.so" 2>/dev/null || leave "this isn't glibc" "refused memory in Python"
for python in ${PYTHONS:-python3}; do
    left="the Python package" has "$python" || continue
    "$python" -m pip --version >/dev/null 2>&1 || { leave "$python has no pip" "the Python package"; continue; }
    if has_headers "$python"; then
        SLOTMAP_ARCHIVE=$archive pip_into "$python" "$out/python-$(basename "$python")" ./python
        python_tests "$python"
        ln -sfn "$PYTHONPATH" "$out/python"
        # The source distribution has all that it needs, and is the same each time.
        mkdir -p "$out/sdist" "$out/sdist-again"
        for folder in sdist sdist-again; do
            PYTHONDONTWRITEBYTECODE=1 "$python" python/backend.py sdist "$out/$folder" >/dev/null
        done
        cmp "$out"/sdist/*.tar.gz "$out"/sdist-again/*.tar.gz
        SLOTMAP_ARCHIVE=$archive pip_into "$python" "$out/from-sdist-$(basename "$python")" --no-build-isolation "$out"/sdist/*.tar.gz
        diff -r -x __pycache__ "$out/python/slotmap_proved" "$PYTHONPATH/slotmap_proved" || { echo "c/test.sh: the source distribution has another module" >&2; exit 1; }
        (cd "$out/sdist" && rm -rf unpacked && mkdir unpacked && cd unpacked && tar xf ../*.tar.gz && cd slotmap_proved-* && env -u SLOTMAP_ARCHIVE \
            PYTHONDONTWRITEBYTECODE=1 "$python" backend.py sdist .. >/dev/null && cmp ../*.tar.gz ../../*.tar.gz) || { echo "c/test.sh: the source distribution lacks a file" >&2; exit 1; }
        checked "$("$python" --version), from the source distribution" "$python" tests/package.py
    fi
    wheel=$(echo dist/wheels/*_"$machine".whl)
    if [ -e "$wheel" ]; then
        pip_into "$python" "$out/wheel-$(basename "$python")" "$wheel"
        python_tests "$python"
    fi
done
# The module as gcc compiles it for its sanitizers. Their library comes before Python, whose own blocks come from malloc then.
sanitized_module() {
    local folder=$out/python-sanitized module
    module=$folder/slotmap_proved/_tables.abi3.so
    mkdir -p "$folder/slotmap_proved"
    cp python/slotmap_proved/*.py "$folder/slotmap_proved"
    gcc -std=c11 -O1 -g -Wall -Wextra -Werror -fsanitize=address,undefined -fno-sanitize-recover -fPIC -shared \
        "-I$("$1" -c "import sysconfig; print(sysconfig.get_path('include'))")" -I. python/src/*.c heap.c "$archive" -o "$module" 2>"$out/errors" || {
        ! grep -q "cannot find" "$out/errors" || { leave "gcc's sanitizers are missing" "the Python package with them"; return; }
        cat "$out/errors" >&2
        exit 1
    }
    local run=(env LD_PRELOAD="$(ldd "$module" | awk '/libasan/ { print $3 }')" ASAN_OPTIONS=detect_leaks=0 PYTHONMALLOC=malloc
        PYTHONPATH="$folder" PYTHONDONTWRITEBYTECODE=1 "$("$1" -c "import sys; print(sys.executable)")")
    checked "sanitizers" "${run[@]}" tests/calls.py 1000000
    checked "sanitizers" "${run[@]}" tests/dict_calls.py
    checked "sanitizers" "${run[@]}" tests/reenter.py 200000
}
read -r python _ <<<"${PYTHONS:-python3}"
if left="the Python package with sanitizers" has gcc ldd "$python" && has_headers "$python"; then
    sanitized_module "$python"
fi
if left="the page's commands for python" has python3; then
    if python3 -c "import venv, ensurepip" 2>/dev/null; then
        typed python
    else
        leave "venv or ensurepip is missing" "the page's commands for python"
    fi
fi
if left="the hints for Python" has mypy; then
    mypy --strict --no-error-summary --cache-dir "$out/mypy" python/slotmap_proved
    (cd python && MYPYPATH=. mypy --strict --no-error-summary --cache-dir "$out/mypy" ../tests/hints.py)
    echo "mypy: the module and its hints"
fi

arm=dist/aarch64-linux/libslotmap_c.a
if [ "$machine" != aarch64 ] && left="AArch64" has aarch64-linux-gnu-gcc qemu-aarch64-static; then
    for program in tests/calls tests/keys tests/readers examples/names; do
        aarch64-linux-gnu-gcc -std=c99 "${strict[@]}" -pthread -static "$program.c" heap.c "$arm" -o "$out/$(basename "$program")-arm"
    done
    checked "AArch64" qemu-aarch64-static "$out/calls-arm"
    checked "AArch64" qemu-aarch64-static "$out/keys-arm"
    checked "AArch64" qemu-aarch64-static "$out/readers-arm"
    same qemu-aarch64-static "$out/names-arm"
fi
if [ "$machine" != aarch64 ] && left="C++ on AArch64" has aarch64-linux-gnu-g++ aarch64-linux-gnu-gcc qemu-aarch64-static; then
    aarch64-linux-gnu-gcc -std=c99 "${strict[@]}" -c heap.c -o "$out/heap-arm.o"
    for program in classes values walks; do
        aarch64-linux-gnu-g++ -std=c++17 "${strict[@]}" -static "tests/$program.cpp" "$out/heap-arm.o" "$arm" -o "$out/$program-arm"
        checked "AArch64" qemu-aarch64-static "$out/$program-arm"
    done
fi
if left="musl" has musl-gcc; then
    for program in tests/calls tests/keys tests/readers examples/names; do
        musl-gcc -std=c99 "${strict[@]}" -pthread -static "$program.c" heap.c "$archive" -o "$out/$(basename "$program")-musl"
    done
    for program in calls keys readers; do
        checked "musl" "$out/$program-musl"
    done
    same "$out/names-musl"
fi
if left="the headers for Windows" has x86_64-w64-mingw32-gcc x86_64-w64-mingw32-g++; then
    for program in heap.c tests/calls.c tests/keys.c examples/names.c examples/items.c; do
        x86_64-w64-mingw32-gcc -std=c99 "${strict[@]}" -fsyntax-only "$program"
    done
    for program in classes values walks random refused; do
        for standard in c++17 c++20; do
            x86_64-w64-mingw32-g++ "-std=$standard" "${strict[@]}" -fsyntax-only "tests/$program.cpp"
        done
    done
    echo "Windows: the headers and heap.c compile; there is no archive to run"
fi
if [ "$machine" = x86_64 ]; then
    for program in calls keys readers; do
        cc -std=c99 "${strict[@]}" -pthread "tests/$program.c" "$out/heap.o" dist/x86_64-v2-linux/libslotmap_c.a -o "$out/$program-v2"
        checked "x86-64-v2" "$out/$program-v2"
        cc -std=c99 "${strict[@]}" -pthread -static "tests/$program.c" "$out/heap.o" "$archive" -o "$out/$program-plain"
        if left="a processor without SSE4.1" has qemu-x86_64-static; then
            checked "a processor without SSE4.1" qemu-x86_64-static -cpu qemu64 "$out/$program-plain"
        fi
    done
fi

# c/dist.sh --check, with a program in place of the kit that has the archives of c/dist: another name of the kit is no fault, another byte
# or another number of proved functions is.
kit=$out/kit
mkdir -p "$kit/c/python" "$kit/crates/slotmap_c/out" "$kit/bin"
cp -r dist dist.sh slotmap.h heap.c "$kit/c"
cat >"$kit/bin/rt" <<'end'
#!/bin/sh
case "$*" in
    version) echo "another-kit"; exit ;;
    *aarch64*) from=aarch64 ;;
    *--cpu*) from=x86_64 ;;
    *) from=x86_64-v2 ;;
esac
cp "../../c/dist/$from-linux/libslotmap_c.a" out/
[ -z "${another_byte:-}" ] || echo >>out/libslotmap_c.a
echo "logic=proved ${another_line:-$(sed -n 's/^logic=proved //p' ../../c/dist/VERDICT)}"
end
echo 'echo "the wheels: not compared"' >"$kit/c/python/wheels.sh"
chmod +x "$kit/bin/rt" "$kit/c/python/wheels.sh"
dist_check() { PATH=$kit/bin:$PATH bash "$kit/c/dist.sh" --check >"$out/log" 2>&1; }
dist_check && grep -q "built by $(head -n 1 dist/VERDICT), and now by another-kit" "$out/log" || { cat "$out/log" >&2; echo "c/test.sh: c/dist.sh --check refuses another kit's name" >&2; exit 1; }
! another_byte=yes dist_check && ! another_line="functions=5 axioms=3" dist_check || { echo "c/test.sh: c/dist.sh --check takes what differs" >&2; exit 1; }
echo "c/dist.sh --check: another kit's name is told, another byte or verdict a fault"
if left="prototypes" has python3; then
    python3 tests/prototypes.py
fi
version=$(sed -n 's/.*SLOTMAP_VERSION "\(.*\)"/\1/p' slotmap.h)
IFS=. read -r major minor patch <<<"$version"
grep -qx "#define SLOTMAP_VERSION_NUMBER $((10000 * major + 100 * minor + patch))" slotmap.h || { echo "c/test.sh: SLOTMAP_VERSION_NUMBER isn't that of $version" >&2; exit 1; }
for place in "python/pyproject.toml version" "python/slotmap_proved/__init__.py __version__" "python/backend.py VERSION"; do
    read -r file name <<<"$place"
    grep -q "\b$name = .*\"$version\"$" "$file" || { echo "c/test.sh: $file has another version than $version" >&2; exit 1; }
done
for file in slotmap.h slotmap*.hpp heap.c Makefile CMakeLists.txt python/slotmap_proved/__init__.py python/src/*; do
    head -n 2 "$file" | grep -q "SPDX-License-Identifier: MIT" || { echo "c/test.sh: $file names no licence" >&2; exit 1; }
done
for file in LICENSE LICENSE-slotmap LICENSE-archives; do
    [ "$file" = LICENSE-archives ] || cmp "../$file" "$file"
    cmp "$file" "$root/share/doc/slotmap/$file"
    [ ! -e "$out/python" ] || cmp "$file" "$out"/python/slotmap_proved-*.dist-info/licenses/"$file"
done
# What contains parts of the kit's standard library says so.
for file in python/pyproject.toml python/backend.py python/README.md README.md ../docs/C.md LICENSE-archives "$root/lib/pkgconfig/slotmap.pc"; do
    grep -q "MIT AND LicenseRef-Rattle-Std" "$file" || { echo "c/test.sh: $file doesn't name the licence of what is built" >&2; exit 1; }
done
sha256sum --quiet -c dist/SHA256SUMS
echo "versions, licences and sums: the same everywhere"
[ -z "$left_out" ] || { echo "c/test.sh: what ran has passed; left out${left_out/#;/:}"; exit 3; }
echo "c/test.sh: ok"
