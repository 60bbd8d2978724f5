#!/usr/bin/env bash
# Installs the package over a library that is there, in an environment of its own, and runs its tests:
#
#     python/run_tests.sh PREFIX
#
# PREFIX is where examples/install.sh has put the library. The interpreter is $PYTHON, or else
# /usr/bin/python3, which has the packages of Debian. Packages that it doesn't have are installed by
# apt-get where that may be done; where it may not, the tests are skipped, and a line says so. No
# other network is asked. Where dask.distributed isn't there, the tests of parts by several processes
# are skipped, and a line says so.
set -eu
if [ $# -ne 1 ]; then
    echo 'usage: python/run_tests.sh PREFIX' >&2
    exit 2
fi
prefix=$(realpath "$1")
here=$(dirname "$(readlink -f "$0")")
python=${PYTHON:-/usr/bin/python3}
[ -x "$python" ] || python=$(command -v python3 || true)

skip() {
    echo "python: SKIPPED: $1"
    exit 0
}

# The packages of Debian that the interpreter misses.
missing() {
    "$python" - <<'END'
import importlib.util
import os
import sysconfig

names = ["numpy", "pandas", "cffi", "pytest", "hypothesis", "sortedcontainers", "setuptools", "wheel"]
missing = [name for name in names if importlib.util.find_spec(name) is None]
if importlib.util.find_spec("ensurepip") is None:
    missing.append("venv")
if not os.path.exists(os.path.join(sysconfig.get_path("include"), "Python.h")):
    missing.append("dev")
print(*("python3-" + name for name in missing))
END
}

# Has apt-get install packages, if it may.
install() {
    [ "$python" = /usr/bin/python3 ] || return 1
    [ "$(id -u)" = 0 ] && command -v apt-get >/dev/null || return 1
    export DEBIAN_FRONTEND=noninteractive
    timeout 300 apt-get install -y -qq "$@" >/dev/null 2>&1 ||
        { timeout 60 apt-get update -qq && timeout 300 apt-get install -y -qq "$@"; } >/dev/null 2>&1
}

[ -n "$python" ] || skip 'there is no python3'
"$python" -c 'import sys; sys.exit(sys.version_info < (3, 9))' || skip "$python is older than 3.9"
wanted=$(missing)
if [ -n "$wanted" ]; then
    # The words are separate ones.
    # shellcheck disable=SC2086
    install $wanted || true
    wanted=$(missing)
    [ -z "$wanted" ] || skip "$python misses packages: apt-get install $wanted"
fi

# What only the tests of parts need.
has_engine() {
    "$python" -c 'import distributed, dask.dataframe' 2>/dev/null
}
has_engine || install python3-dask python3-distributed || true
has_engine || echo "python: SKIPPED: parts by several processes: $python has no dask.distributed:" \
    'apt-get install python3-dask python3-distributed'

made=$(mktemp -d)
trap 'rm -rf "$made"' EXIT
"$python" -m venv --system-site-packages "$made/env"
# What is built goes beside a copy, and not into the clone.
cp -RL "$here" "$made/python"
rm -rf "$made/python/build"
if ! KULDEBIQ_PREFIX=$prefix "$made/env/bin/python" -m pip install --no-build-isolation --no-deps \
    --no-index "$made/python" >"$made/log" 2>&1; then
    tail -n 30 "$made/log"
    echo 'python: the package was not installed'
    exit 1
fi
cd "$here"
# Runs the tests that are named, and prints their last line, or what failed.
run() {
    local name=$1
    shift
    PYTHONDONTWRITEBYTECODE=1 timeout --kill-after=60 900 "$made/env/bin/python" -m pytest -q \
        -p no:cacheprovider --hypothesis-profile=gate "$@" >"$made/log" 2>&1 || {
        tail -n 100 "$made/log"
        echo "python: a test of $name failed"
        return 1
    }
    echo "python: $name: $(tail -n 1 "$made/log")"
}

run 'the package' tests --ignore=tests/test_parts_dask.py
# Processes that are killed stand and fall with what else the machine does: a failure that doesn't
# come again is said and lets pass.
run 'parts by several processes' tests/test_parts_dask.py || {
    echo 'python: once more, those of parts by several processes'
    run 'parts by several processes' tests/test_parts_dask.py
}
