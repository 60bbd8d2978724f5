#!/usr/bin/env bash
# Measures the tables of bench/README.md and makes its tables and pictures anew:
# run.sh [OPTION ..] [PART ..], without a PART all.
#
#   --size N        keys of each kind (10000000)          --questions N   questions (1000000)
#   --rounds N      rounds of each side, in turn (3)      --seed N        of the data (1)
#   --tables        measure nothing: tables and pictures of the records that are there
#   --print         for a try: the record goes to out/bench/records, pictures to out/bench/pictures,
#                   tables to the screen, and the tree stays as it is
#
# Parts: lookups hints memory building segmenting pieces questions boxes near nearest map readers
# senders explain from_c, and levels, the pictures of indexes.
#
# A part writes its record first, bench/records/PART.json: the numbers of all rounds, the machine,
# the commit, and the versions of the rivals. On the screen it shows of each number the least, the
# median and the greatest. Commit the sources before a run, and take a machine that does nothing
# else.
#
# It installs nothing. Data and the rivals' programs are made below out/bench. The proved programs
# have to be there: `./pgmtool prove`, `(cd crates/bench && rt run)`, and for from_c the library,
# `examples/install.sh out/kuldebiq` (KULDEBIQ names another place). PGMTOOL and BENCH name other
# programs to measure. Wanted are a C++ compiler that knows C++20, a processor with BMI2, and
# python3; and of Debian
#     libabsl-dev                map and readers          libboost-dev       boxes, near
#     libconcurrentqueue-dev     senders                  libnanoflann-dev   near
#     python3-numpy              lookups                  python3-matplotlib all pictures
# What isn't there is left out, and named.
set -eu
cd "$(dirname "$(readlink -f "$0")")/.."
made=out/bench
mkdir -p "$made/data"
cxx=${CXX:-c++}

# The python3 that has what is wanted, else any: PYTHON, the one of the path, or the system's own.
python=
for one in "${PYTHON:-}" python3 /usr/bin/python3; do
  [ -n "$one" ] && command -v "$one" >/dev/null || continue
  [ -n "$python" ] || python=$one
  if "$one" -c 'import matplotlib, numpy' 2>/dev/null; then
    python=$one
    break
  fi
done
if ! command -v "$cxx" >/dev/null || [ -z "$python" ]; then
  echo 'run.sh: a C++ compiler and python3 are wanted' >&2
  exit 1
fi

# Builds a rival where it is older than its sources: its name, and what else the compiler is told.
rival() {
  local name=$1
  shift
  [ -z "$(find bench/rivals -newer "$made/$name" -print -quit 2>&1)" ] && return
  "$cxx" -O3 -march=native -std=c++20 -pthread -o "$made/$name" "bench/rivals/$name.cpp" "$@"
}

# The same of one that wants a header of a package: package, header, name, and the rest.
rival_of() {
  local package=$1 header=$2
  shift 2
  if echo "#include <$header>" | "$cxx" -std=c++20 -fsyntax-only -x c++ - 2>/dev/null; then
    rival "$@"
  else
    rm -f "$made/$1"
    echo "run.sh: without $1: apt-get install $package" >&2
  fi
}

case " $* " in
  *' --tables '*) ;;
  *)
    for name in make_inputs lookups fitter reading questions boxes kd_tree locked_deque plain; do
      rival "$name"
    done
    for name in ordered_maps locked_tree; do
      rival_of libabsl-dev absl/container/btree_map.h "$name" -labsl_throw_delegate \
        -labsl_raw_logging_internal
    done
    rival_of libboost-dev boost/geometry/index/rtree.hpp boost_rtree
    rival_of libnanoflann-dev nanoflann.hpp nanoflann_tree
    rival_of libconcurrentqueue-dev concurrentqueue/concurrentqueue.h concurrent_queue
    "${CC:-cc}" -O2 -shared -fPIC -o "$made/live_bytes.so" bench/live_bytes.c
    ;;
esac
exec "$python" bench/measure.py "$made" "$@"
