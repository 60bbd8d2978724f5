#!/usr/bin/env bash
# Puts the library under a folder, and what a C or C++ program needs of it:
#
#     examples/install.sh PREFIX
#     cc walk.c $(PKG_CONFIG_PATH=PREFIX/lib/pkgconfig pkg-config --cflags --libs kuldebiq)
#
# PREFIX/lib/libkuldebiq.a with the three functions of memory inside, PREFIX/lib/libkuldebiq.so,
# which exports the calls alone, PREFIX/include with the headers for C and C++, and under PREFIX/lib
# what pkg-config and CMake read. No file names a folder, so PREFIX may be moved. With DESTDIR in the
# environment the files go under DESTDIR/PREFIX. The crates below are proved first, where that wasn't
# done on this machine: the kit makes no static library of sources that aren't proved. Each is told
# on standard error as it is done.
set -eu
if [ $# -ne 1 ]; then
    echo 'usage: [DESTDIR=FOLDER] examples/install.sh PREFIX' >&2
    exit 2
fi
top=$(cd "$(dirname "$(readlink -f "$0")")/.." && pwd)
source "$top/dev/steps.sh"
has_rt kuldebiq || exit 1
prefix=$(realpath -m "$1")
to=${DESTDIR:+$(realpath -m "$DESTDIR")}$prefix
mkdir -p "$to"
cd "$top"
cc=${CC:-cc}

made=$(mktemp -d)
end() {
    hide_progress
    rm -rf "$made"
}
trap end EXIT
trap 'exit 130' INT TERM HUP
say() { echo "${wipe}kuldebiq: $*" >&2; }

# How many crates are proved at once: a processor and two gigabytes each.
at_once() {
    awk -v cores="$(nproc)" '/^MemAvailable/ { fit = int($2 / 2000000) }
        END { print fit < cores ? fit : cores }' /proc/meminfo
}

# Runs words in a folder, and tells on the way which crates are proved: what they write goes to a
# file. How far that is is told by the words behind.
told() {
    local log=$1 folder=$2 words=$3 running follower
    shift 3
    : >"$log"
    # The words are separate ones.
    # shellcheck disable=SC2086
    (cd "$folder" && exec rt $words) >"$log" 2>&1 </dev/null &
    running=$!
    trap "kill $running 2>/dev/null || true; exit 130" INT TERM HUP
    tail -f -n +1 -s 0.5 --pid=$running "$log" 2>/dev/null | proved_crates kuldebiq |
        grep --line-buffered -v ' side_by_side is' >&2 &
    follower=$!
    show_progress kuldebiq 1 "$@"
    wait "$running" || running=
    wait "$follower" || true
    hide_progress
    trap 'exit 130' INT TERM HUP
    [ -n "$running" ]
}

# How far crates are that are proved side by side, of how many.
side_so_far() {
    awk -v all="$2" '/^== / && !/ (side_by_side|summary)$/ { done++ }
        END { printf "proving side by side, %d of %d crates done", done, all }' "$1"
}

# Has `rt` prove side by side, in a copy, the crates below that don't stand on `levels`: those that
# do stand on one another in a row, and get all processors from `rt lib`, which takes one crate
# after the other. A crate of the copy's own names them, so that each is built. What is kept of them
# is then taken here; what wasn't proved there, `rt lib` proves.
prove_side_by_side() {
    local jobs copy=$made/copy name part wanted=()
    jobs=$(at_once)
    for name in $(crates_below "$top" kuldebiq); do
        if ! crates_below "$top" "$name" | grep -qx levels; then wanted+=("$name"); fi
    done
    for name in "${wanted[@]}"; do
        [ -d "crates/$name/out/rlib" ] || break
        name=
    done
    if [ "$jobs" -lt 2 ] || [ -z "$name" ]; then return; fi
    mkdir -p "$copy/crates/side_by_side/src"
    printf '//! Has the crates that it names built.\n#![tactic(auto)]\n' \
        >"$copy/crates/side_by_side/src/lib.rt"
    for name in "${wanted[@]}"; do
        mkdir "$copy/crates/$name"
        for part in src specs proofs; do
            [ ! -d "crates/$name/$part" ] || cp -R "crates/$name/$part" "$copy/crates/$name/"
        done
        grep "^${name}[ :]" crates.txt
    done >"$copy/crates.txt"
    echo "side_by_side: ${wanted[*]}" >>"$copy/crates.txt"
    told "$made/side" "$copy" "all check --jobs $jobs" \
        side_so_far "$made/side" "${#wanted[@]}" || true
    for name in "${wanted[@]}"; do
        for part in rlib incremental; do
            if [ -d "$copy/crates/$name/out/$part" ] && [ ! -e "crates/$name/out/$part" ]; then
                mkdir -p "crates/$name/out"
                mv "$copy/crates/$name/out/$part" "crates/$name/out/"
            fi
        done
    done
}

say 'proving and building the library: minutes if its crates are proved on this machine already,'
say 'and some twenty-five minutes on four cores if none is'
prove_side_by_side
crates_below "$top" kuldebiq >"$made/order"
if ! told "$made/log" crates/kuldebiq lib proof_so_far "$made/log" "$made/order"; then
    tail -n 20 "$made/log" >&2
    say 'the library was not built'
    exit 1
fi

version=$(version_of "$top")
# Below 1.0 a library takes the place of one of the same minor version alone.
interface=${version%.*}
object=libkuldebiq.so.$interface
memory=$(dirname "$(rt doc)")/c/liblibc_c.a
printf 'create %s\naddlib %s\naddlib %s\nsave\nend\n' "$made/libkuldebiq.a" \
    crates/kuldebiq/out/libkuldebiq.a "$memory" | ar -M
echo "KULDEBIQ_$interface { global: kuldebiq_*; local: *; };" >"$made/exports"
"$cc" -shared -o "$made/$object" -Wl,--whole-archive "$made/libkuldebiq.a" \
    -Wl,--no-whole-archive -Wl,--version-script="$made/exports" "-Wl,-soname,$object" \
    -Wl,--no-undefined

mkdir -p "$to/lib/pkgconfig" "$to/lib/cmake/kuldebiq" "$to/include"
install -m 644 include/kuldebiq.h include/kuldebiq.hpp "$to/include/"
install -m 644 "$made/libkuldebiq.a" "$to/lib/"
install -m 755 "$made/$object" "$to/lib/"
ln -sf "$object" "$to/lib/libkuldebiq.so"
cat >"$to/lib/pkgconfig/kuldebiq.pc" <<'TEXT'
prefix=${pcfiledir}/../..
libdir=${prefix}/lib
includedir=${prefix}/include

Name: kuldebiq
Description: The PGM-index over sorted keys, and an ordered map that changes
Libs: -L${libdir} -lkuldebiq
Cflags: -I${includedir}
TEXT
echo "Version: $version" >>"$to/lib/pkgconfig/kuldebiq.pc"
cat >"$to/lib/cmake/kuldebiq/kuldebiq-config.cmake" <<TEXT
# Targets: kuldebiq::kuldebiq, the shared library, and kuldebiq::kuldebiq_static, the archive.
get_filename_component(kuldebiq_top "\${CMAKE_CURRENT_LIST_DIR}/../../.." ABSOLUTE)
if(NOT TARGET kuldebiq::kuldebiq)
    add_library(kuldebiq::kuldebiq SHARED IMPORTED)
    set_target_properties(kuldebiq::kuldebiq PROPERTIES
        IMPORTED_LOCATION "\${kuldebiq_top}/lib/$object" IMPORTED_SONAME $object
        INTERFACE_INCLUDE_DIRECTORIES "\${kuldebiq_top}/include")
    add_library(kuldebiq::kuldebiq_static STATIC IMPORTED)
    set_target_properties(kuldebiq::kuldebiq_static PROPERTIES
        IMPORTED_LOCATION "\${kuldebiq_top}/lib/libkuldebiq.a"
        INTERFACE_INCLUDE_DIRECTORIES "\${kuldebiq_top}/include")
endif()
unset(kuldebiq_top)
TEXT
cat >"$to/lib/cmake/kuldebiq/kuldebiq-config-version.cmake" <<TEXT
set(PACKAGE_VERSION $version)
set(kuldebiq_wanted "\${PACKAGE_FIND_VERSION_MAJOR}.\${PACKAGE_FIND_VERSION_MINOR}")
if(NOT PACKAGE_FIND_VERSION OR (kuldebiq_wanted STREQUAL "$interface" AND
    NOT PACKAGE_FIND_VERSION VERSION_GREATER PACKAGE_VERSION))
    set(PACKAGE_VERSION_COMPATIBLE TRUE)
endif()
if(PACKAGE_FIND_VERSION VERSION_EQUAL PACKAGE_VERSION)
    set(PACKAGE_VERSION_EXACT TRUE)
endif()
unset(kuldebiq_wanted)
TEXT
say "$version is in $to"
