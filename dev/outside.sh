#!/usr/bin/env bash
# Tests of the built program what no contract says and no test of a crate can show: that it takes the
# words of its call, that a word which isn't text makes them no command, and that its status is 4 if
# its output isn't taken, either not at all or all but the last piece.
set -eu
top=$(cd "$(dirname "$(readlink -f "$0")")/.." && pwd)
made=$(mktemp -d)
trap 'rm -rf "$made"' EXIT

# Runs the program with these words, which has to end with this status. Its output goes to the file.
expect() {
    local wanted=$1 output=$2 status=0
    shift 2
    "$top/pgmtool" "$@" >"$output" 2>/dev/null || status=$?
    if [ "$status" != "$wanted" ]; then
        echo "outside: status $status, and not $wanted: $*" >&2
        exit 1
    fi
}

# Fails where the two files aren't the same.
same() {
    cmp "$1" "$2" || { echo "outside: $3" >&2; exit 1; }
}

printf 'keys 4 distinct 4 levels 2\nlevel 0 list 4 eps 0 runs 2\nlevel 1 list 2 eps 4 runs 1\n' >"$made/levels"
expect 0 "$made/found" build "$top/data/four.keys" --eps 0
same "$made/levels" "$made/found" 'the words of the call'

printf 'fault usage\n' >"$made/usage"
expect 2 "$made/found" build $'\xff' --eps 0
same "$made/usage" "$made/found" 'a word that is no text'

expect 4 /dev/full build "$top/data/four.keys" --eps 0

# The text is 342,041 bytes, which are written as five times 65,536 and then the rest. A file of at
# most 320 KiB takes the five.
words=(explain "$top/data/primes.keys" --eps 0)
expect 0 "$made/whole" "${words[@]}"
(trap '' XFSZ && ulimit -f 320 && expect 4 "$made/front" "${words[@]}")
head -c 327680 "$made/whole" >"$made/wanted"
same "$made/wanted" "$made/front" 'the last write fails'
echo 'outside: ok'
