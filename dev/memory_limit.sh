#!/usr/bin/env bash
# Shows that the program takes no memory for what a file's counts claim. It may use 256 MiB of
# addresses, and reads a key file that claims 4,000,000,000 keys and has three, and a saved index of
# 30 bytes that claims 4,294,967,295 levels and as many runs. It has to refuse both because they end
# too early, and not for want of memory.
set -eu
top=$(cd "$(dirname "$(readlink -f "$0")")/.." && pwd)
"$top/pgmtool" prove 2>/dev/null
file=$(mktemp)
trap 'rm -f "$file"' EXIT
program=$top/crates/pgmtool/out/pgmtool

# Refused with this status and this line: the other words are the program's.
expect() {
  local wanted=$1 line=$2 status=0 answer
  shift 2
  answer=$(ulimit -v 262144 && exec "$program" "$@") || status=$?
  if [ "$status" != "$wanted" ] || [ "$answer" != "$line" ]; then
    echo "memory_limit: failed, status $status, answer '$answer'" >&2
    exit 1
  fi
}

printf '\x00\x28\x6b\xee\0\0\0\0\x01\0\0\0\0\0\0\0\x02\0\0\0\0\0\0\0\x03\0\0\0\0\0\0\0' >"$file"
expect 5 'fault keys short 32' explain "$file" --eps 0
printf 'PGMINDEX\0\0\0\0\0\0\0\0\xff\xff\xff\xff\xff\xff\xff\xff\0\0\0\0\x01\0' >"$file"
expect 8 'fault index short 30' check "$top/data/four.keys" "$file"
echo 'memory_limit: ok'
