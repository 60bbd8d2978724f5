#!/usr/bin/env bash
# Installs the library for itself, and builds and runs the examples over it: as they are, and once
# more with the sanitizers for addresses and for undefined behaviour. A part whose compiler isn't
# there is skipped. The tests of the package for Python run behind them over the same library.
set -eu
cd "$(dirname "$0")/.."
source dev/steps.sh

have() { command -v "$1" >/dev/null 2>&1; }

# What an example prints is compared by the name of its source, so each such text has one.
for text in examples/c/*.out examples/cpp/*.out; do
    if [ ! -f "${text%.out}.c" ] && [ ! -f "${text%.out}.cpp" ]; then
        echo "examples: $text has no source"
        exit 1
    fi
done

cc=${CC:-cc}
cxx=${CXX:-c++}
if ! have "$cc"; then
    echo "examples: no C compiler, so none is run"
    exit 0
fi

log=$(mktemp)
made=$(mktemp -d)
trap 'rm -rf "$log" "$made"' EXIT
prefix=$made/kuldebiq
if ! examples/install.sh "$prefix" >"$log" 2>&1; then
    tail -n 20 "$log"
    echo "examples: the library wasn't built"
    exit 1
fi
archive=$prefix/lib/libkuldebiq.a
flags=(-Wall -Wextra -Wpedantic -Werror -O2 "-I$prefix/include")

# Whether the compiler makes programs with sanitizers here.
sanitizes() {
    echo 'int main(void) { return 0; }' >"$made/try.c"
    "$1" -fsanitize=address,undefined "$made/try.c" -o "$made/try" >/dev/null 2>&1 && "$made/try"
}

# Whether the compiler has the spans of C++20.
has_spans() {
    printf '#include <iterator>\n#include <span>\nint main() { return std::span<int>{}.size() != 0; }\n' \
        >"$made/try.cpp"
    "$1" -std=c++20 "$made/try.cpp" -o "$made/try" >/dev/null 2>&1
}

# Builds a program and runs it: its compiler, its source, its own words, and what else the compiler
# is told.
try() {
    local compiler=$1 source=$2 words=$3 name
    shift 3
    name=$(basename "$source")
    "$compiler" "${flags[@]}" "$@" "$source" "$archive" -o "$made/program"
    # The words are separate ones.
    # shellcheck disable=SC2086
    if ! "$made/program" $words >"$made/output"; then
        cat "$made/output"
        echo "examples: $name failed ($*)"
        exit 1
    fi
    if [ -f "${source%.*}.out" ] && ! diff "${source%.*}.out" "$made/output"; then
        echo "examples: $name printed something else ($*)"
        exit 1
    fi
}

# The same plainly, and with sanitizers on fewer numbers.
both() {
    local compiler=$1 source=$2 few=$3
    shift 3
    try "$compiler" "$source" "" "$@"
    if sanitizes "$compiler"; then
        try "$compiler" "$source" "$few" "$@" -g -fsanitize=address,undefined -fno-sanitize-recover=all
    fi
}

# An answer that nobody looks at is a warning, and so refused here: a compiler, the end of its sources'
# names, and a standard.
heeds() {
    printf '#include "kuldebiq.h"\nint main(void) { kuldebiq_map m = KULDEBIQ_NOTHING; kuldebiq_map_new(&m, 1); }\n' \
        >"$made/try.$2"
    if "$1" "${flags[@]}" "$3" -c "$made/try.$2" -o "$made/try.o" 2>"$log" || ! grep -q unused-result "$log"; then
        cat "$log"
        echo "examples: an answer that isn't looked at passes ($*)"
        exit 1
    fi
}

# The shared object exports the calls that the header declares, and nothing else.
"$cc" -E -P -I"$prefix/include" -include kuldebiq.h -x c /dev/null | grep -v '^static' |
    grep -o '\bkuldebiq_[a-z0-9_]*(' | tr -d '(' | sort -u >"$made/declared"
nm -D --defined-only "$prefix/lib/libkuldebiq.so" | awk '$2 == "T" { sub(/@.*/, "", $3); print $3 }' |
    sort -u >"$made/exported"
if ! diff "$made/declared" "$made/exported" ||
    nm -D --defined-only "$prefix/lib/libkuldebiq.so" | grep -v ' [TA] \(kuldebiq_\|KULDEBIQ_\)'; then
    echo "examples: the shared object exports other names than the header declares"
    exit 1
fi

# The archive, unpacked in an empty folder, is found by pkg-config and by CMake.
version=$(version_of .)
examples/pack.sh "$made" >"$log" 2>&1 || { tail -n 20 "$log"; exit 1; }
mkdir "$made/empty"
tar -C "$made/empty" -xzf "$made"/kuldebiq-*-linux-x86_64.tar.gz
unpacked=$(echo "$made"/empty/kuldebiq-*)
if have pkg-config; then
    # The words are separate ones.
    # shellcheck disable=SC2046
    "$cc" examples/c/walk.c $(PKG_CONFIG_PATH=$unpacked/lib/pkgconfig pkg-config --cflags --libs kuldebiq) \
        -o "$made/walk"
    LD_LIBRARY_PATH=$unpacked/lib "$made/walk" | diff examples/c/walk.out -
fi
if have cmake && have "$cxx"; then
    printf '%s\n' 'cmake_minimum_required(VERSION 3.16)' 'project(walk C)' \
        "find_package(kuldebiq ${version%.*} REQUIRED)" "add_executable(walk $PWD/examples/c/walk.c)" \
        'target_link_libraries(walk kuldebiq::kuldebiq)' >"$made/CMakeLists.txt"
    cmake -S "$made" -B "$made/build" "-DCMAKE_PREFIX_PATH=$unpacked" >"$log" 2>&1 &&
        cmake --build "$made/build" >>"$log" 2>&1 || { tail -n 20 "$log"; exit 1; }
    "$made/build/walk" | diff examples/c/walk.out -
fi

heeds "$cc" c -std=c11
both "$cc" examples/c/walk.c "" -std=c11
both "$cc" examples/c/mapped.c "" -std=c11
both "$cc" examples/c/parts.c "" -std=c11
both "$cc" examples/c/rows.c "" -std=c11
both "$cc" examples/c/pages.c "" -std=c11
try "$cc" examples/c/stack.c "" -std=c11
both "$cc" examples/c/no_memory.c "" -std=c11
ran="C"
if have "$cxx"; then
    heeds "$cxx" cpp -std=c++17
    both "$cxx" examples/cpp/compare.cpp 50000 -std=gnu++17 -pthread -Wno-pedantic
    both "$cxx" examples/cpp/threads.cpp "" -std=c++17 -pthread
    if has_spans "$cxx"; then
        both "$cxx" examples/cpp/walk.cpp "" -std=c++20
        both "$cxx" examples/cpp/hints.cpp "" -std=c++20
    fi
    ran="$ran, C++"
fi
echo "examples: $ran ran"
python/run_tests.sh "$prefix"
